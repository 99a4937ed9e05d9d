"""The one error of the package."""

from typing import Optional, Tuple

from . import _calls
from .names import RUN_FAULTS


class Error(ValueError):
    """Why a call did not do what it was asked for.

    `answer` is the number in fcanon.h or fcanon_runs.h, which Answer names, `reason` its words, and
    `place` where the first fault of a text is, in bytes from 0, or which of several boards is at
    fault, or None.
    """

    __module__ = "fcanon"

    def __init__(self, answer: int, place: Optional[int] = None):
        self.answer = answer
        self.reason = RUN_FAULTS.get(answer) or _calls.words_of(answer)
        self.place = place
        super().__init__(self.reason if place is None else f"{self.reason} at {place}")

    def __reduce__(self) -> Tuple[type, Tuple[int, Optional[int]]]:
        return type(self), (self.answer, self.place)


_calls.set_error(Error)
