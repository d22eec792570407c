"""The coins of a node, and the generator: docs/SCRIPTS.md, 'Nodes'."""

from .reach import reached


class Generator:
    """PCG32 (PCG-XSH-RR 64/32) on stream 54."""

    def __init__(self, seed):
        self.increment = 54 << 1 | 1
        self.state = seed + self.increment & (1 << 64) - 1
        self.step()

    def step(self):
        self.state = self.state * 6364136223846793005 + self.increment & (1 << 64) - 1

    def word(self):
        """The next 32-bit word."""
        state = self.state
        self.step()
        mixed = (state >> 18 ^ state) >> 27 & 0xFFFFFFFF
        turn = state >> 59
        return (mixed >> turn | mixed << (32 - turn)) & 0xFFFFFFFF


class GivenCoins:
    """The coins of the key `coins`: after the last comes the first again."""

    def __init__(self, coins):
        self.coins, self.at = coins, 0

    def draw(self):
        coin = int(self.coins[self.at])
        self.at = (self.at + 1) % len(self.coins)
        reached["coin given"] += 1
        return coin


class SeededCoins:
    """The coins of the key `seed`: the top bit of each word of the generator."""

    def __init__(self, seed):
        self.generator = Generator(seed)

    def draw(self):
        reached["coin of a seed"] += 1
        return self.generator.word() >> 31
