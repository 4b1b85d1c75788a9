"""One call: its arguments checked and lent, the library called, everything given back; a refusal raised."""
from __future__ import annotations

import operator
from typing import Any, Dict, List, Mapping, Optional, Tuple

from . import _library
from ._answers import HELD, IDLE, NO, NO_ROOM, NoRoom, Refused
from ._buffers import NOWHERE, ZEROS, ZEROS_LENGTH, Slot, lend
from ._faults import at_fault
from ._tables import FUNCTIONS, Parameter

# what is left out is so many zeros as this number, which stands before it, says: nothing is pinned, and one team has all
_LEFT_OUT = {"pins": "n", "owners": "s"}

_ANSWERS = frozenset({0, IDLE, HELD, NO})


def _whole(parameter: Parameter, value: Any) -> int:
    """A whole number that its C type holds. ctypes would cut off what does not fit."""
    try:
        number = operator.index(value)
    except TypeError:
        raise TypeError(f"{parameter.name} must be a whole number, not {type(value).__name__}") from None
    if not 0 <= number <= parameter.largest:
        raise ValueError(f"{parameter.name} must be from 0 to {parameter.largest}, not {number}")
    return number


def _real(parameter: Parameter, value: Any) -> float:
    """A number that is rounded to 32 bits when it is handed over."""
    try:
        # a text is none, though float reads it
        return float(value if hasattr(type(value), "__float__") else None)
    except TypeError:
        raise TypeError(f"{parameter.name} must be a number, not {type(value).__name__}") from None
    except OverflowError:
        raise ValueError(f"{parameter.name} is too large for a float") from None


class Call:
    """A function of the library that takes its arguments by name."""

    __slots__ = ("name", "_function", "_left_out", "_numbers", "_slots", "_zeros")

    def __init__(self, name: str) -> None:
        self.name = name
        self._function: Optional[Any] = None
        # the C arguments where every buffer is left out
        self._left_out: List[Any] = []
        self._numbers: List[Tuple[int, str, int, Parameter]] = []
        self._slots: List[Slot] = []
        self._zeros: List[Tuple[int, str, int]] = []
        for parameter in FUNCTIONS[name].parameters:
            self._place(parameter, len(self._left_out))

    def _place(self, parameter: Parameter, place: int) -> None:
        name = parameter.name
        if parameter.lent:
            self._left_out += [NOWHERE, 0]
            self._slots.append((place, name, parameter.formats, parameter.size, parameter.written, parameter))
            if name in _LEFT_OUT:
                number = next(number for number, one, _, _ in self._numbers if one == _LEFT_OUT[name])
                self._zeros.append((place, name, number))
        else:
            self._left_out.append(0)
            self._numbers.append((place, name, parameter.largest, parameter))

    def __call__(self, given: Mapping[str, Any]) -> int:
        """The number of the answer: 0, idle, held or no. ``given`` has every argument, a buffer that is left out as None.

        Whatever is wrong with an argument is raised before the library is called; a refusal is raised after, with every
        buffer as it was.
        """
        number = self._made(given)
        if number not in _ANSWERS:
            if number == NO_ROOM:
                raise NoRoom
            raise Refused(number, at_fault(self.name, number, given))
        return number

    def _made(self, given: Mapping[str, Any]) -> int:
        function = self._function
        if function is None:
            function = self._function = _library.function(self.name)
        arguments = self._left_out.copy()
        for place, name, largest, parameter in self._numbers:
            value = given[name]
            if type(value) is not int or not 0 <= value <= largest:
                value = _real(parameter, value) if largest < 0 else _whole(parameter, value)
            arguments[place] = value
        for place, name, number in self._zeros:
            if given[name] is None:
                arguments[place] = ZEROS
                arguments[place + 1] = min(arguments[number], ZEROS_LENGTH)
        kept: List[Any] = []
        try:
            lend(self._slots, given, arguments, kept)
            return function(*arguments)
        finally:
            # an exception's traceback must not keep what was lent from being resized
            kept.clear()


CALLS: Dict[str, Call] = {name: Call(name) for name in FUNCTIONS}
