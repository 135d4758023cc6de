"""Numbers by chance that are the same ones each time, also in another language: the generator of
Park and Miller. Scripts that are kept, or that the documents count, are drawn by it."""

MODULUS, FACTOR = 2147483647, 16807


class Chance:
    """A row of numbers, by the one that it begins with."""

    def __init__(self, state: int) -> None:
        self.state = state

    def turn(self) -> int:
        """Gives the next number of the row, from 1 to MODULUS - 1."""
        self.state = self.state * FACTOR % MODULUS
        return self.state

    def below(self, limit: float) -> int:
        """Gives a number from 0 on, below a limit, by how great the next one is."""
        return int(self.turn() / MODULUS * limit)

    def rest(self, limit: int) -> int:
        """Gives one by what is left of the next one's upper bits, divided by the limit."""
        return self.turn() // 65536 % limit

    def of(self, choices: list[str]) -> str:
        """Gives one of some choices."""
        return choices[self.below(len(choices))]
