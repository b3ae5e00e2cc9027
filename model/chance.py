"""Numbers by chance, the same in every run, and sessions made of them."""


class Chance:
    def __init__(self, seed):
        self.state = seed

    def below(self, n):
        """A linear congruence (Knuth's MMIX), of which the high bits are used."""
        self.state = (self.state * 6364136223846793005 + 1442695040888963407) % 2**64
        return (self.state >> 33) % n

    def of(self, choices):
        return choices[self.below(len(choices))]
