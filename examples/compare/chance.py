"""A source of random numbers, and how a case is inclined."""
import random
from dataclasses import dataclass


class Chance(random.Random):
    """Random numbers that a seed fixes."""

    def one(self, share):
        """Whether something of this share happens now."""
        return self.random() < share


@dataclass
class Mood:
    """What one case does often and what it does seldom; each number but `hold` is a share."""

    long: float  # long values
    whole: float  # pieces that hold all frames that wait to be sent
    flushy: float  # flush lines
    hold: tuple  # kinds of packets that mostly don't come
    replay: float  # packets that come again
    closing: float  # close lines
    burst: float  # more requests than a session may have unanswered
    badness: float  # frames that are no requests

    @classmethod
    def drawn(cls, chance):
        long = chance.choice([0, 0, 0, 0.02, 0.3])
        whole = chance.choice([0.95, 0.6, 0.1])
        flushy = chance.choice([0.25, 0.10, 0.03, 0.0])
        hold = chance.choice(
            [(), (), ("COMMIT",), ("COMMIT",), ("COMMIT", "PREPARED"), ("PREPARED",), ("VERSION",), ("GET",), ("PREPARE",)]
        )
        if hold:
            flushy = chance.choice([0.0, 0.0, 0.01, 0.04])
        replay = chance.choice([0, 0.05, 0.15, 0.16])
        closing = chance.choice([0.0, 0.004, 0.02])
        burst = chance.choice([0, 0, 0, 0.01, 0.02])
        badness = chance.choice([0.1, 0.3, 1])
        return cls(long, whole, flushy, hold, replay, closing, burst, badness)
