"""The version of the project, as the file VERSION at the repository's root has it."""

import argparse
from pathlib import Path

FILE = Path(__file__).resolve().parents[2] / "VERSION"


def version() -> str:
    return FILE.read_text(encoding="ascii").strip()


def told(parser: argparse.ArgumentParser) -> None:
    """Has a command answer --version."""
    parser.add_argument("--version", action="version", version=f"%(prog)s, Zolfigar {version()}")
