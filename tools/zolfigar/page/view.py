"""A day with what the page's sections look up."""

from collections import defaultdict

from ..history import Day, Move
from . import lives


class View:
    """A day with the number of each movement, the movements of each ticket, and the scale of the orders' lives."""

    def __init__(self, day: Day) -> None:
        self.day = day
        self.move_number = {id(move): n for n, move in enumerate(day.moves)}
        self.moves_of: defaultdict[int, list[Move]] = defaultdict(list)
        for move in day.moves:
            self.moves_of[move.event.number].append(move)
        self.life = lives.life_scale(day)
