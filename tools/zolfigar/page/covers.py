"""A participant's cover over the day as a drawing, by time or by ticket, and its scales.

It takes the width that it is given: positions are percentages, or lie in a part that is stretched."""

from collections.abc import Callable, Iterable, Iterator, Sequence
from typing import NamedTuple
from xml.etree.ElementTree import Element

from .. import telling
from ..figures import clock, euro
from ..history import Day, Event, Move
from ..output import Parts
from .markup import PARTS, Attribute, node, percent, short

WIDTH, HEIGHT = 1000, 100  # of the stretched part

Point = tuple[float, float]


class Step(NamedTuple):
    """What one ticket did to a participant's cover: its moves, and available, reserved and held after them."""

    event: Event
    moves: list[Move]
    after: Parts


# The scales of a cover chart


class Scale(NamedTuple):
    """From low to high, with the values that are marked and their labels."""

    low: int
    high: int
    marks: list[tuple[int, str]]

    def part(self, value: int) -> float:
        """Where a value lies, from 0 to 1."""
        return (value - self.low) / (self.high - self.low)


def round_step(span: int, most: int) -> int:
    """The least of 1, 2, 5, 10, 20 .. that goes into the span at most so many times."""
    step = 1
    while span > step * most:
        step = step * 5 // 2 if str(step)[0] == "2" else step * 2
    return step


CLOCK_STEPS = (1, 2, 5, 10, 15, 30, 60, 120, 300, 600, 900, 1800, 3600, 7200, 10800, 14400, 21600, 43200, 86400)


def clock_step(span: int, most: int) -> int:
    """The same in seconds, minutes, hours and days."""
    fitting = (step for step in CLOCK_STEPS if span <= step * most)
    return next(fitting, 86400 * round_step(span // 86400 + 1, most))


def multiples(low: int, high: int, step: int) -> range:
    return range(-(-low // step) * step, high + 1, step)


def time_scale(day: Day) -> Scale:
    """The time of the book's clock, and a little more so that the last step has a width."""
    times = [event.time for event in day.events if event.sets_clock()]
    low, last = min(times, default=0), max(times, default=0)
    high = last + max(1, (last - low) // 40)
    step = clock_step(high - low, 5)
    return Scale(low, high, [(at, time_label(at, step)) for at in multiples(low, high, step)])


def time_label(seconds: int, step: int) -> str:
    """hh:mm:ss, hh:mm where every mark is at a whole hour, days where every mark is at a whole day."""
    if step % 86400 == 0:
        return f"day {seconds // 86400:,}"
    return clock(seconds) if step % 3600 else clock(seconds)[:-3]


def ticket_scale(day: Day) -> Scale:
    high = max(1, len(day.events))
    return Scale(0, high, [(at, str(at)) for at in multiples(0, high - 1, round_step(high, 8))])


def amount_scale(steps: Sequence[Step]) -> Scale:
    """From zero, or from the lowest sum where something is below zero, to a round amount above the highest."""
    sums = [total for step in steps for total in tops(step.after)]
    low, high = min([0, *sums]), max([0, *sums])
    step = round_step(max(1, high - low), 6)
    low, high = low // step * step, -(-max(high, low + 1) // step) * step
    marks = list(range(low, high + 1, step))
    whole = all(at % 100 == 0 for at in marks)
    return Scale(low, high, [(at, euro(at).removesuffix(".00") if whole else euro(at)) for at in marks])


# A participant's cover


def steps_of(day: Day, number: int) -> list[Step]:
    steps: list[Step] = []
    for move, after in day.statement(number):
        if steps and steps[-1].event is move.event:
            steps[-1] = steps[-1]._replace(moves=steps[-1].moves + [move], after=after)
        else:
            steps.append(Step(move.event, [move], after))
    return steps


def tops(after: Parts) -> Parts:
    """The upper edges of the three areas, each on the one before."""
    available, reserved, held = after
    return Parts(available, available + reserved, available + reserved + held)


def edge(points: Iterable[Point]) -> str:
    """A line of steps through (x, y): it stays at a height until the next point's x."""
    return "".join(f"H{short(x)}V{short(y)}" for x, y in points)


def area(name: str, upper: Sequence[Point], lower: Sequence[Point], first: float, last: float) -> Element:
    """What lies between two edges of the same steps. Each begins with the first point, at the left side."""
    back = "".join(f"V{short(y)}H{short(x)}" for x, y in reversed(lower))
    start = f"M{short(first)} {short(upper[0][1])}"
    return node("path", class_=name, d=f"{start}{edge(upper[1:])}H{short(last)}{back}Z")


def heights(steps: Sequence[Step], xs: Sequence[float], amounts: Scale) -> list[list[Point]]:
    """The edges from the bottom up: zero and the tops of the three areas, as points (x, y). At first all is zero."""
    afters = [Parts()] + [step.after for step in steps]
    sums = [(0, *tops(after)) for after in afters]
    return [[(x, HEIGHT * (1 - amounts.part(total))) for x, total in zip([0, *xs], edges)] for edges in zip(*sums)]


def step_words(day: Day, step: Step) -> str:
    """What the link of a step says."""
    told = telling.move(day, step.moves[0]) if len(step.moves) == 1 else f"{len(step.moves)} movements"
    after = ", ".join(f"{part} {euro(amount)}" for part, amount in zip(PARTS, step.after))
    return f"Ticket {step.event.number}, {clock(step.event.time)}: {told}. Then {after}"


def step_link(day: Day, step: Step, x: float, until: float) -> Element:
    place: dict[str, Attribute] = {"x": short(x), "y": 0, "width": short(max(until - x, 0)), "height": HEIGHT}
    return node("a", node("title", step_words(day, step)), node("rect", **place), href=f"#t{step.event.number}")


def across(scale: Scale, value: int) -> float:
    return WIDTH * scale.part(value)


def plot(day: Day, steps: Sequence[Step], xs: Sequence[float], amounts: Scale) -> Element:
    """The stretched part: the areas, their top line, and a link over each step up to the next."""
    edges = heights(steps, xs, amounts)
    areas = [area(name, edges[n + 1], edges[n], 0, WIDTH) for n, name in enumerate(PARTS)]
    cover = node("path", class_="cover", d=f"M0 {short(edges[3][0][1])}{edge(edges[3][1:])}H{WIDTH}")
    links = [step_link(day, step, x, until) for step, x, until in zip(steps, xs, [*xs[1:], WIDTH])]
    box = f"0 0 {WIDTH} {HEIGHT}"
    return node("svg", *areas, cover, *links, viewBox=box, preserveAspectRatio="none", width="100%", height=PLOT_HEIGHT)


PLOT_HEIGHT = 190  # in pixels, with the labels of the x axis below


def rulers(amounts: Scale) -> Iterator[Element]:
    """A line across for each marked amount."""
    for at, _ in amounts.marks:
        y = short(PLOT_HEIGHT * (1 - amounts.part(at)))
        yield node("line", class_="zero" if at == 0 else "ruler", x1=0, x2="100%", y1=y, y2=y)


def x_labels(scale: Scale) -> Iterator[Element]:
    """The labels below; every second one may be left out where there is little room."""
    for n, (at, label) in enumerate(scale.marks):
        part = scale.part(at)
        anchor = "start" if part < 0.04 else "end" if part > 0.96 else "middle"
        place = percent(part)
        yield node("line", class_="ruler", x1=place, x2=place, y1=PLOT_HEIGHT, y2=PLOT_HEIGHT + 4)
        yield node("text", label, class_="second" if n % 2 else None, x=place, y=PLOT_HEIGHT + 16, text_anchor=anchor)


AXES: dict[str, tuple[Callable[[Day], Scale], Callable[[Event], int]]] = {
    "ticket": (ticket_scale, lambda event: event.number),
    "time": (time_scale, lambda event: event.time),
}


def cover_chart(day: Day, number: int, axis: str) -> Element:
    """A participant's available, reserved and held, one on the other, by time or by ticket."""
    scale_of, value_of = AXES[axis]
    scale, steps = scale_of(day), steps_of(day, number)
    amounts = amount_scale(steps)
    xs = [across(scale, value_of(step.event)) for step in steps]
    labels = [node("span", label) for _, label in reversed(amounts.marks)]
    title = f"Cover of {telling.member(day, number)} by {axis}, {len(steps)} steps"
    drawing = [*rulers(amounts), *x_labels(scale), plot(day, steps, xs, amounts)]
    svg = node("svg", *drawing, role="group", aria_label=title, width="100%", height=PLOT_HEIGHT + 22)
    return node("div", node("div", *labels, class_="scale", aria_hidden="true"), svg, class_=f"chart by-{axis}")
