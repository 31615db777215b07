"""Why a call is refused."""
from __future__ import annotations

REASONS = {
    1: "the allowed change is negative or not a number",
    2: "the target or the cap is 0",
    3: "there are more than 256 hypotheses or more than 4096 words",
    4: "there is not one weight for each hypothesis, or not one threshold or label for each word",
    5: "there is no hypothesis or no word",
    6: "a scratch is too short",
    7: "a margin or a confidence is not in [-1, 1]",
    8: "a weight or a threshold is not finite, or a weight of the list of which word moved is above 1 in magnitude",
    9: "the sum of the weights' magnitudes is 0 or infinite",
    11: "an entry of a colouring is not finite or exceeds 2^32 in magnitude",
    12: "the allowed change is infinite",
    13: "the edition is neither 1 nor 2",
    14: "a label is neither 1 nor -1",
    15: "a bit behind a hypothesis's last word is set",
    16: "the buffer is shorter than the text",
}


class Refusal(ValueError):
    """The library refuses a call. `number` is the number that include/knobthistle.h explains."""

    def __init__(self, number: int) -> None:
        super().__init__(number)
        self.number = number

    def __str__(self) -> str:
        return f"refused {self.number}: {REASONS.get(self.number, 'see include/knobthistle.h')}"


def check(number: int) -> None:
    """Raises where a call was refused."""
    if number:
        raise Refusal(int(number))
