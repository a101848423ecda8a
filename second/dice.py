"""Seeded choices for the generator: one seed always gives the same choices."""

import random


class Dice:
    """Draws everything from random(), whose sequence for a seed is the same in every Python 3."""

    def __init__(self, seed):
        self.source = random.Random(seed)

    def below(self, count):
        """A whole number from 0 to count - 1."""
        return int(self.source.random() * count)

    def between(self, low, high):
        """A whole number from low to high, both included."""
        return low + self.below(high - low + 1)

    def chance(self, percent):
        return self.source.random() * 100 < percent

    def choice(self, items):
        return items[self.below(len(items))]

    def weighted(self, choices):
        """One item of pairs (weight, item)."""
        at = self.below(sum(weight for weight, _ in choices))
        for weight, item in choices:
            at -= weight
            if at < 0:
                return item
        raise ValueError("no choices")

    def shuffled(self, items):
        items = list(items)
        for last in range(len(items) - 1, 0, -1):
            other = self.below(last + 1)
            items[last], items[other] = items[other], items[last]
        return items

    def bytes(self, count):
        return bytes(self.below(256) for _ in range(count))
