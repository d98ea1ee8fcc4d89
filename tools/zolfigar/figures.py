"""Amounts and times as people read them."""


def euro(cents: int) -> str:
    """Cents as euro with two decimals, thousands apart: 1,234.50."""
    sign = "-" if cents < 0 else ""
    return f"{sign}{abs(cents) // 100:,}.{abs(cents) % 100:02d}"


def clock(seconds: int) -> str:
    """Seconds as hh:mm:ss; hours go on counting above 24."""
    return f"{seconds // 3600:02d}:{seconds // 60 % 60:02d}:{seconds % 60:02d}"


def counted(number: int, thing: str) -> str:
    """1 order, 2 orders."""
    return f"{number} {thing}" if number == 1 else f"{number} {thing}s"
