"""Objects that have no copies."""

from typing import NoReturn, SupportsIndex


class Owner:
    """An object that owns what a copy would own a second time. To copy it, or to pickle it, is a TypeError."""

    __slots__ = ()

    def __reduce_ex__(self, protocol: SupportsIndex, /) -> NoReturn:
        raise TypeError(f"cannot copy or pickle {type(self).__name__!r} object")
