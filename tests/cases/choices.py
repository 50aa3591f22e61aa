"""What the makers of random cases share: choices that follow a seed, cards of a deck, and fields of a case line."""
import random


class Choices:
    """Only random() of the library is used, so that runs do not depend on its other functions."""

    def __init__(self, seed):
        self.random = random.Random(seed).random

    def below(self, n):
        return int(self.random() * n)

    def pick(self, seq):
        return seq[int(self.random() * len(seq))]

    def odds(self, p):
        return self.random() < p

    def dealt(self, cards, count):
        """So many cards from a deck that is shuffled anew whenever it is used up."""
        deck = []
        for _ in range(count):
            if not deck:
                deck = list(cards)
                for i in range(len(deck) - 1, 0, -1):
                    j = self.below(i + 1)
                    deck[i], deck[j] = deck[j], deck[i]
            yield deck.pop()


def digits(text):
    """The bytes of a text in hex."""
    return text.encode("latin-1").hex()


def pieces(texts):
    """A list of texts, each in hex."""
    return ",".join([digits(text) for text in texts]) if texts else "-"
