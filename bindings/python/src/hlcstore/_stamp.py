"""Stamps: hybrid logical timestamps, which are numbers with two parts."""

from collections.abc import Iterable
from datetime import datetime, timedelta, timezone
from operator import index as _index
from typing import TYPE_CHECKING, Literal, Self, SupportsBytes, SupportsIndex, overload

if TYPE_CHECKING:
    from _typeshed import ReadableBuffer as _ReadableBuffer

_EPOCH, _MILLISECOND = datetime(1970, 1, 1, tzinfo=timezone.utc), timedelta(milliseconds=1)
_PARTS = "a stamp is two decimal numbers with a full stop between them, as 5.0"


class Stamp(int):
    """The stamp of an event: a physical part below 2^48, and a counter below 2^16. It is ordered by both.

    >>> Stamp(5) < Stamp(5, 1), Stamp(5, 1).physical, Stamp(5, 1).counter
    (True, 5, 1)
    >>> print(Stamp(5), int(Stamp(5)), Stamp.parse("5.1"))
    5.0 327680 5.1

    It is also the number physical * 65536 + counter. Calls that take a stamp take no other number: `from_number` makes
    one of it, and `at` one of a time. A stamp plus or minus a number is a stamp; other arithmetic returns numbers. A
    format is that of the number, unless it is empty: !s before it makes it that of the text.

    >>> stamp = Stamp(5)
    >>> f"{stamp} {stamp:d} {stamp:>8} {stamp!s:>8}"
    '5.0 327680   327680      5.0'
    >>> print(stamp + 1, stamp - 1, stamp - Stamp(3))
    5.1 4.65535 131072
    """

    __slots__ = ()

    def __new__(cls, physical: int, counter: int = 0) -> Self:
        if isinstance(physical, Stamp):
            raise TypeError("the physical part must not be a stamp: that has its own in the attribute physical")
        physical, counter = _index(physical), _index(counter)
        if not 0 <= physical < 1 << 48:
            raise OverflowError("the physical part must be from 0 to 281474976710655")
        if not 0 <= counter < 1 << 16:
            raise OverflowError("the counter must be from 0 to 65535")
        return super().__new__(cls, physical << 16 | counter)

    @classmethod
    def from_number(cls, number: int) -> Self:
        """Return the stamp that is this number."""
        number = _index(number)
        if not 0 <= number < 1 << 64:
            raise OverflowError("the stamp must be from 0 to 18446744073709551615")
        return super().__new__(cls, number)

    @classmethod
    def from_bytes(
        cls,
        bytes: "Iterable[SupportsIndex] | SupportsBytes | _ReadableBuffer",
        byteorder: Literal["little", "big"] = "big",
        *,
        signed: bool = False,
    ) -> Self:
        """Return the stamp that is the number of these bytes, as `to_bytes` returns them."""
        return cls.from_number(int.from_bytes(bytes, byteorder, signed=signed))

    @classmethod
    def parse(cls, text: str) -> Self:
        """Return the stamp of a text as 5.0: two decimal numbers without leading zeros. No other text is one."""
        if not isinstance(text, str):
            raise TypeError(f"a str is required, not {type(text)}")
        parts = text.split(".")
        if len(parts) != 2 or not all(part.isascii() and part.isdigit() and len(part) < 16 for part in parts):
            raise ValueError(_PARTS)
        try:
            stamp = cls(int(parts[0]), int(parts[1]))
        except OverflowError as too_large:
            raise ValueError(_PARTS) from too_large
        if str(stamp) != text:
            raise ValueError(_PARTS)
        return stamp

    @classmethod
    def at(cls, time: datetime) -> Self:
        """Return the least stamp of a time, which must have a time zone: its milliseconds since 1970 UTC, and the
        counter 0. A finer part of the time is cut off. A time before 1970 is an OverflowError."""
        if not isinstance(time, datetime) or time.utcoffset() is None:
            raise TypeError(f"a datetime with a time zone is required, not {time!r}")
        return cls((time - _EPOCH) // _MILLISECOND)

    @property
    def time(self) -> datetime:
        """The physical part as the time of this many milliseconds since 1970 UTC. After the year 9999 it is an
        OverflowError."""
        return _EPOCH + self.physical * _MILLISECOND

    @property
    def physical(self) -> int:
        """The physical part, in the unit of the readings of the nodes."""
        return int(self) >> 16

    @property
    def counter(self) -> int:
        """The counter, the logical part."""
        return int(self) & 0xFFFF

    def __str__(self) -> str:
        return f"{self.physical}.{self.counter}"

    def __repr__(self) -> str:
        return f"Stamp({self.physical}, {self.counter})"

    def __reduce__(self) -> tuple[type[Self], tuple[int, int]]:
        return type(self), (self.physical, self.counter)

    # With another stamp the result is no stamp, though that is a number too.
    @overload
    def __add__(self, other: "Stamp", /) -> int: ...  # type: ignore
    @overload
    def __add__(self, other: int, /) -> Self: ...
    def __add__(self, other: int, /) -> int:
        return self._result(super().__add__(other), other)

    def __radd__(self, other: int, /) -> Self:
        return self.__add__(other)

    @overload
    def __sub__(self, other: "Stamp", /) -> int: ...  # type: ignore
    @overload
    def __sub__(self, other: int, /) -> Self: ...
    def __sub__(self, other: int, /) -> int:
        return self._result(super().__sub__(other), other)

    def _result(self, number: int, other: int) -> int:
        return number if isinstance(other, Stamp) or number is NotImplemented else self.from_number(number)


# In tracebacks and pickles it has the name by which a program knows it.
Stamp.__module__ = "hlcstore"


def required(stamp: Stamp) -> Stamp:
    """Return a stamp, and refuse any other number, as the extensions do."""
    if isinstance(stamp, Stamp):
        return stamp
    raise TypeError(f"a Stamp is required, not {type(stamp)}: Stamp(reading) or Stamp.at(time) makes one")


def stamp_of(number: int) -> Stamp:
    """Return the stamp of a number that is one. The package calls it."""
    return int.__new__(Stamp, number)
