"""Names of the crates that are defined and never used, imports that nothing needs, and `pub` that no other file needs.

A name is used where something that is needed speaks of it. Needed from the start are: what the toolchain asks for (programs,
exported functions, what is `pub` in Answers.antt and Invariants.antt, the `.._spec` of a Proof.antt), what a document names
between backticks, the names that a must-fail edit writes, and of a proof file that README.md or docs/ARCHITECTURE.md names
(`Cases.antt`) all that is `pub`. Fields and constructors are not looked at."""

import re
from collections.abc import Iterator, Sequence
from pathlib import Path
from typing import NamedTuple

from . import command_line

ROOT = Path(__file__).resolve().parent.parent.parent
WHAT = "Lists names of the crates that are defined and never used, imported and not used, or pub for their own file alone."

STRING = re.compile(r'"(?:[^"\\\n]|\\.)*"')
COMMENT = re.compile(r"(?m)(?<!\S)(?:--|//)(?: .*)?$")
USE = re.compile(r"(?m)^(?:pub |ghost )?use [^\n{]*(?:\{[^}]*\})?.*$")
PROOF_USE = re.compile(r"(?m)^(?:ghost )?use (\S+?)(?:\.\{([^}]*)\}| as (\S+?));?$")
CODE_USE = re.compile(r"(?m)^(pub )?use ([\w:]+?)(?:::\{([^{}]*)\})?( as \w+)?;$")
DEFINED = re.compile(r"(?m)^( *)((?:abbrev |unfoldable |pub )*)(?:(?:record|data) (\S+) |([^\s(){},;.]+) (?=:))")
LINE = re.compile(r"(?m)^( *)(\S+)")
CODE_ITEM = re.compile(r'(?m)^(#\[unsafe\(no_mangle\)\]\n)?(pub )?(?:extern "" )?(?:fn|struct|enum|const) (\w+)')
SIGNATURE = re.compile(r"(?ms)\A(?:[(<].*?(?=^\s*(?:ensures|requires|decreases)\b|\{$)|[^(<].*?(?=^\}|;$))")
WORD = re.compile(r"\[\]|[^\s(){}\[\],;.:«»]+")
CODE_WORD = re.compile(r"\w+")
QUALIFIED = re.compile(r"([^\s(){}\[\],;.«»]+)\.([^\s(){}\[\],;.«»]+)")
CODE_PATH = re.compile(r"\b[A-Za-z_]\w*(?:::[A-Za-z_]\w*)*")
QUOTED = re.compile(r"`([^`\n]+)`")


class Name(NamedTuple):
    """A name and the module that has it: `rules.specs.Book` of definitions, `rules::verdict` of code."""

    module: str
    name: str


class Item(NamedTuple):
    """A definition, law, function, type or constant, and what it says."""

    path: Path
    line: int
    name: Name
    is_pub: bool
    is_asked: bool
    body: str


class Import(NamedTuple):
    """A name as a file brings it into scope."""

    line: int
    name: str


class Found(NamedTuple):
    """A place where a name stands in vain, and why."""

    path: Path
    line: int
    name: str
    why: str


def bare(text: str) -> str:
    """A text with comments and strings left out. Each line stays where it is."""
    return COMMENT.sub("", STRING.sub('""', text))


def said(text: str) -> set[str]:
    return {*WORD.findall(text), *CODE_WORD.findall(text)}


def is_said(name: str, words: set[str]) -> bool:
    """Whether a name is among the words: of an operator the parts between its places."""
    return name in words or all(part in words for part in name.split("◌") if part)


def module_of(path: str) -> str:
    """A module's name, from its crate's on."""
    return path.removeprefix("Rattle.")


class Source:
    """A file of a crate: what it defines, and what it brings into scope."""

    def __init__(self, root: Path, path: Path) -> None:
        self.path = path.relative_to(root)
        self.text = bare(path.read_text(encoding="utf-8"))
        self.edits = ""  # what must-fail edits write in this file
        self.crate, self.is_code = self.path.parts[1], path.suffix == ".rt"
        parts = self.path.with_suffix("").parts[2:]
        inner = [part for part in parts[1:] if part not in ("lib", "main")]
        self.module = "::".join([self.crate, *inner]) if self.is_code else ".".join([self.crate, *parts])
        self.items = list(self.code_items() if self.is_code else self.proof_items())
        self.names = {item.name.name: item.name for item in self.items}
        self.aliases: dict[str, str] = {}  # modules by their names in this file
        self.handed_on: list[Import] = []  # by `pub use`
        self.imports = list(self.proof_imports()) + (list(self.code_imports()) if self.is_code else [])

    def line(self, at: int) -> int:
        return self.text.count("\n", 0, at) + 1

    def bodies(self, starts: list[re.Match[str]]) -> Iterator[tuple[re.Match[str], str]]:
        """Each item's beginning and the text from there to the next."""
        for start, until in zip(starts, [*(after.start() for after in starts[1:]), len(self.text)]):
            yield start, self.text[start.end() : until]

    def code_items(self) -> Iterator[Item]:
        for start, body in self.bodies(list(CODE_ITEM.finditer(self.text))):
            is_asked, line = bool(start[1]) or start[3] == "main", self.line(start.start(3))
            yield Item(self.path, line, Name(self.module, start[3]), bool(start[2]), is_asked, body)

    def proof_items(self) -> Iterator[Item]:
        free = set(self.free_lines())
        for start, body in self.bodies([start for start in DEFINED.finditer(self.text) if start.start() in free]):
            name, is_pub = start[3] or start[4], "pub" in start[2].split()
            is_answer = is_pub and self.path.name in ("Answers.antt", "Invariants.antt")
            is_asked, line = is_answer or (self.path.name == "Proof.antt" and name.endswith("_spec")), self.line(
                start.start()
            )
            yield Item(self.path, line, Name(self.module, name), is_pub, is_asked, body)

    def free_lines(self) -> Iterator[int]:
        """Where the lines begin that stand at the left side, or there in a `module`; others are part of a definition."""
        modules: list[int] = []
        for line in LINE.finditer(self.text):
            indent = len(line[1])
            while modules and indent <= modules[-1]:
                modules.pop()
            if line[2] == "module":
                modules.append(indent)
            elif indent == 2 * len(modules):
                yield line.start()

    def proof_imports(self) -> Iterator[Import]:
        for use in PROOF_USE.finditer(self.text):
            if use[3]:
                self.aliases[use[3]] = module_of(use[1])
                yield Import(self.line(use.start()), use[3])
            for part in filter(None, (part.strip() for part in (use[2] or "").split(","))):
                name, _, own = part.partition(" as ")
                self.names[own or name] = Name(module_of(use[1]), name)
                yield Import(self.line(use.start()), own or name)

    def code_imports(self) -> Iterator[Import]:
        for use in CODE_USE.finditer(self.text):
            parts = (part.strip() for part in use[3].split(",")) if use[3] else [""]
            for part in ["::".join(filter(None, (use[2], part))) for part in parts if part or not use[3]]:
                path, _, own = f"{part}{use[4] or ''}".removesuffix("::self").partition(" as ")
                name = own or path.rpartition("::")[2]
                self.aliases[name] = path
                found = Import(self.line(use.start()), name)
                if use[1]:
                    self.handed_on.append(found)
                else:
                    yield found

    def needless_imports(self) -> Iterator[Found]:
        words = said(USE.sub("", self.text) + self.edits)
        return (
            Found(self.path, line, name, "imported and not used") for line, name in self.imports if not is_said(name, words)
        )


class Crates:
    """All files of all crates, and the items that are meant by the names in them."""

    def __init__(self, root: Path) -> None:
        self.root = root
        folders = [("src", "rt"), ("specs", "antt"), ("proofs", "antt")]
        paths = [path for folder, kind in folders for path in root.glob(f"crates/*/{folder}/**/*.{kind}")]
        self.sources = {source.path: source for source in (Source(root, path) for path in sorted(paths))}
        self.code = {source.module: source for source in self.sources.values() if source.is_code}
        self.items = {item.name: item for source in self.sources.values() for item in source.items}
        self.taken: set[Name] = set()  # what other files took by the name that a `pub use` gave it
        for edit in root.glob("crates/*/must-fail/*.edit"):
            text = edit.read_text(encoding="utf-8")
            for file in re.findall(r"(?m)^file: (\S+)$", text):
                self.sources[edit.relative_to(root).parents[1] / file].edits += bare(text)

    def meant(self, source: Source, text: str) -> set[Name]:
        """The items that a text in a file speaks of."""
        words = said(text)
        found = {name for own, name in source.names.items() if is_said(own, words)}
        found |= {Name(source.aliases[alias], name) for alias, name in QUALIFIED.findall(text) if alias in source.aliases}
        modules = [f"{module}.{name}" for module, name in found] + [
            source.aliases[word] for word in words if word in source.aliases
        ]
        found |= {self.declared(module) for module in modules}
        if source.is_code:
            found |= {self.code_item(source, path.split("::"), source) for path in CODE_PATH.findall(text)}
        return found & self.items.keys()

    def declared(self, module: str) -> Name:
        """The item of the code that a module of declarations is made from."""
        crate, _, path = module.partition(".specs.declared.")
        parts = [crate, *path.split(".")]
        names = (Name("::".join(parts[:size]), parts[size]) for size in range(1, len(parts)))
        return next((name for name in names if name in self.items), Name("", ""))

    def code_item(self, source: Source, path: list[str], reader: Source, most: int = 9) -> Name:
        """The item that a path means in a file of the code, for the file that has it; `use` leads on at most so many times."""
        first, rest = path[0], path[1:]
        above = {"super": source.module.rpartition("::")[0], "crate": source.crate, "self": source.module}
        if Name(source.module, first) in self.items:
            return Name(source.module, first)
        if most and source.aliases.get(first, first) != first:
            self.taken |= {Name(source.module, first)} if source is not reader else set()
            return self.code_item(source, source.aliases[first].split("::") + rest, reader, most - 1)
        for module in (above.get(first), f"{source.module}::{first}", first):
            if module in self.code and rest:
                return self.code_item(self.code[module], rest, reader, most)
        return Name("", "")

    def asked(self) -> set[Name]:
        """The items that are needed from the start."""
        pages = {
            path.name: "\n".join(QUOTED.findall(path.read_text(encoding="utf-8")))
            for path in (self.root / "README.md", *sorted(self.root.glob("docs/*.md")))
        }
        named = said("\n".join(pages.values()))
        whole = set(re.findall(r"[\w-]+\.antt", pages["README.md"] + "\n" + pages.get("ARCHITECTURE.md", "")))
        asked = set().union(*(self.meant(source, source.edits) for source in self.sources.values()))
        for item in self.items.values():
            in_whole = "proofs" in item.path.parts and item.path.name in whole
            if item.is_asked or (item.is_pub and (item.name.name in named or in_whole)):
                asked.add(item.name)
        return asked

    def in_vain(self) -> Iterator[Found]:
        uses = {name: self.meant(self.sources[item.path], item.body) - {name} for name, item in self.items.items()}
        asked = self.asked()
        needed, left = set(asked), list(asked)
        while left:
            new = uses[left.pop()] - needed
            needed |= new
            left += new
        outside = {used for name in uses for used in uses[name] if self.items[used].path != self.items[name].path}
        for source in self.code.values():
            outside |= {self.code_item(source, [name], source) for _, name in source.handed_on}
        for name, item in self.items.items():
            if name not in needed:
                yield Found(item.path, item.line, name.name, "never used")
            elif item.is_pub and name not in asked | outside and not self.in_a_signature(item):
                yield Found(item.path, item.line, name.name, "pub for its own file alone")
        for source in self.sources.values():
            yield from source.needless_imports()
            for line, own in source.handed_on:
                if Name(source.module, own) not in self.taken:
                    yield Found(source.path, line, own, "pub use, and not used elsewhere")

    def in_a_signature(self, item: Item) -> bool:
        """Whether something public in the same file of code has the item in its signature, and so needs it public."""
        others = (
            other for other in self.sources[item.path].items if other.is_pub and other != item and item.path.suffix == ".rt"
        )
        heads = (SIGNATURE.search(other.body) for other in others)
        return any(head and item.name.name in said(head[0]) for head in heads)


def listed(root: Path) -> list[Found]:
    return sorted(Crates(root).in_vain())


def main(arguments: Sequence[str] | None = None) -> int:
    command_line.Parser(prog="unused", description=WHAT).parse_args(arguments)
    for path, line, name, why in listed(ROOT):
        print(f"{path}:{line}: {name}: {why}")
    return 0
