"""The refusals of the library as exceptions. Their numbers and their texts come from the library."""
# bindings/refusals makes all classes but Error from include/refusals.toml.

from typing import ClassVar

from . import _native
from ._stamp import Stamp, stamp_of


class Error(Exception):
    """A refusal of the library. Its text says what was refused."""

    code: ClassVar[int] = 0
    """The number of the refusal in hlcstore.h."""
    word: int
    """The word that hlcstore.h names with the refusal, a number or a `Stamp`, or 0."""
    accepted: int
    """How many items `accept_all` or `accept_items`, or records `apply_records`, accepted before the refusal."""
    used: int
    """How many bytes of the log these have. The next call of `accept_items` or `apply_records` goes on from there."""
    threshold: Stamp
    """The greatest retention threshold among the records before the refusal, or 0."""
    _word_is_stamp: ClassVar[bool] = False

    def __init__(self, word: int = 0, accepted: int = 0, used: int = 0, threshold: int = 0) -> None:
        super().__init__(word, accepted, used, threshold)
        self.word = stamp_of(word) if self._word_is_stamp else word
        self.accepted = accepted
        self.used = used
        self.threshold = stamp_of(threshold)

    def _text(self) -> str:
        return _native.error_text(self.code)

    def __str__(self) -> str:
        text = self._text()
        return f"{text} ({self.word})" if self.word or self._word_is_stamp else text


class NoNode(Error):
    code = _native.HLC_NO_NODE


class ReadingTooLarge(Error):
    code = _native.HLC_READING_TOO_LARGE


class CounterFull(Error):
    code = _native.HLC_COUNTER_FULL
    _word_is_stamp = True


class NotNext(Error):
    code = _native.HLC_NOT_NEXT


class StampNotRising(Error):
    code = _native.HLC_STAMP_NOT_RISING
    _word_is_stamp = True


class AboveFloor(Error):
    code = _native.HLC_ABOVE_FLOOR
    _word_is_stamp = True


class BelowHorizon(Error):
    code = _native.HLC_BELOW_HORIZON
    _word_is_stamp = True


class NoSnapshot(Error):
    code = _native.HLC_NO_SNAPSHOT


class TooManySnapshots(Error):
    code = _native.HLC_TOO_MANY_SNAPSHOTS


class BadKey(Error):
    code = _native.HLC_BAD_KEY


class ValueTooLong(Error):
    code = _native.HLC_VALUE_TOO_LONG


class NumbersSpent(Error):
    code = _native.HLC_NUMBERS_SPENT


class NoMemory(Error, MemoryError):
    code = _native.HLC_NO_MEMORY


class BadLine(Error):
    code = _native.HLC_BAD_LINE


class NotShown(Error):
    code = _native.HLC_NOT_SHOWN


class TooManyNodes(Error):
    code = _native.HLC_TOO_MANY_NODES


class Retired(Error):
    code = _native.HLC_RETIRED


class NoWrites(Error):
    code = _native.HLC_NO_WRITES


class TooManyWrites(Error):
    code = _native.HLC_TOO_MANY_WRITES


class KeyTwice(Error):
    code = _native.HLC_KEY_TWICE


class Closed(Error):
    code = _native.HLC_CLOSED


class NoValue(Error, KeyError):
    code = _native.HLC_NO_VALUE


class NoSuchNode(Error):
    code = _native.HLC_NO_SUCH_NODE


class BadBytes(Error):
    code = _native.HLC_BAD_BYTES


class NoCheckpoint(Error):
    code = _native.HLC_NO_CHECKPOINT


class NotFewest(Error):
    code = _native.HLC_NOT_FEWEST


class NoIncrement(Error):
    code = _native.HLC_NO_INCREMENT


class NotLater(Error):
    code = _native.HLC_NOT_LATER


class Changed(Error):
    code = _native.HLC_CHANGED


class NotParts(Error):
    code = _native.HLC_NOT_PARTS


class BadNodeCount(Error):
    code = _native.HLC_BAD_NODE_COUNT


class AllRetired(Error):
    code = _native.HLC_ALL_RETIRED


class BelowFloor(Error):
    code = _native.HLC_BELOW_FLOOR
    _word_is_stamp = True


REFUSALS: dict[int, type[Error]] = {refusal.code: refusal for refusal in Error.__subclasses__()}

# In tracebacks and pickles they have the name by which a program knows them.
for _class in (Error, *REFUSALS.values()):
    _class.__module__ = "hlcstore"


def refusal(code: int, word: int, accepted: int, used: int, threshold: int) -> Error:
    """Return the exception of a refusal. The extension calls it."""
    return REFUSALS[code](word, accepted, used, threshold)
