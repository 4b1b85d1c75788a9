"""Lending: the address and length of what the caller has, checked and not copied."""
from __future__ import annotations

import ctypes
import sys
from array import array
from typing import TYPE_CHECKING, Any, FrozenSet, Iterable, List, Mapping, Tuple

from ._tables import Parameter

if TYPE_CHECKING:
    from typing_extensions import Buffer
elif sys.version_info >= (3, 12):
    from collections.abc import Buffer
else:
    Buffer = object

__all__ = ["Buffer", "NOWHERE", "Slot", "ZEROS", "ZEROS_LENGTH", "items", "lend"]

# a buffer's first address and the one behind it, whether it is written, its name
Lent = Tuple[int, int, bool, str]

# a buffer's place among the C arguments, its name, formats, size of an item, whether it is written, and all that is known of it
Slot = Tuple[int, str, FrozenSet[str], int, bool, Parameter]

# an aligned address for a buffer of length 0: nothing is read or written through it
_nowhere = ctypes.c_uint64()
NOWHERE = ctypes.addressof(_nowhere)

# pins of nothing, as long as n may be, and one owner everywhere, as in the header
ZEROS_LENGTH = 4096
_zeros = (ctypes.c_uint8 * ZEROS_LENGTH)()
ZEROS = ctypes.addressof(_zeros)

_from_buffer = ctypes.c_char.from_buffer
_addressof = ctypes.addressof


class _PyBuffer(ctypes.Structure):
    """CPython's Py_buffer."""

    _fields_ = [
        ("buf", ctypes.c_void_p), ("obj", ctypes.c_void_p), ("len", ctypes.c_ssize_t), ("itemsize", ctypes.c_ssize_t),
        ("readonly", ctypes.c_int), ("ndim", ctypes.c_int), ("format", ctypes.c_char_p), ("shape", ctypes.c_void_p),
        ("strides", ctypes.c_void_p), ("suboffsets", ctypes.c_void_p), ("internal", ctypes.c_void_p),
    ]  # fmt: skip


_spare = [_PyBuffer()]
_get_buffer = ctypes.pythonapi.PyObject_GetBuffer
_get_buffer.argtypes = [ctypes.py_object, ctypes.c_void_p, ctypes.c_int]
_release_buffer = ctypes.pythonapi.PyBuffer_Release
_release_buffer.argtypes = [ctypes.c_void_p]
_release_buffer.restype = None
_address_of_bytes = ctypes.pythonapi.PyBytes_AsString
_address_of_bytes.argtypes = [ctypes.py_object]
_address_of_bytes.restype = ctypes.c_void_p


def _address(view: memoryview) -> int:
    """The address of what may not be written, which from_buffer refuses. The view keeps it where it is."""
    try:
        found = _spare.pop()
    except IndexError:  # another thread has it
        found = _PyBuffer()
    place = _addressof(found)
    _get_buffer(view, place, 0)
    address = found.buf
    _release_buffer(place)
    _spare.append(found)
    return address


def lend(slots: Iterable[Slot], given: Mapping[str, Any], arguments: List[Any], kept: List[Any]) -> None:
    """Puts the address and length of every buffer that is given in its place among the arguments. What keeps them where they
    are goes to kept. TypeError if one is no buffer of its items, and ValueError if two overlap where one is written.

    Most of a short call's time is spent here. The common case is what from_buffer takes: a writable and contiguous buffer
    that is not empty. All others, those that are wrong among them, are told apart after it.
    """
    lent: List[Lent] = []
    view: Any = None
    held: Any = None
    try:
        for place, name, formats, size, written, parameter in slots:
            value = given[name]
            if value is None:
                continue
            kind = type(value)
            if kind is bytes and not written and "B" in formats:
                # bytes do not move, and the caller has them
                address, length = _address_of_bytes(value), len(value)
            else:
                try:
                    held = None if kind is memoryview and value.readonly else _from_buffer(value)
                except (TypeError, ValueError, BufferError):
                    held = None
                if held is None:
                    view = _viewed(parameter, value)
                    kept.append(view)
                    address = _address(view) if view.nbytes else NOWHERE
                else:
                    # the view by which it holds the buffer; asked for anew where another ctypes has another there
                    view = held._objects
                    if type(view) is not memoryview:
                        view = memoryview(value)
                    kept.append(held)
                    address = _addressof(held)
                if view.format not in formats:
                    raise TypeError(f"{name} must be {_wanted(parameter)}, not one of items '{view.format}'")
                if address % size:
                    raise TypeError(f"{name} must be aligned: its first item is not at a multiple of {size} bytes")
                length = view.nbytes
            if length:
                arguments[place] = address
                arguments[place + 1] = length // size
                lent.append((address, address + length, written, name))
    finally:
        # a traceback keeps this frame, and must not keep what was lent
        view = held = None
    _check_overlaps(lent)


def _viewed(parameter: Parameter, value: Any) -> memoryview:
    """A buffer that is empty or read only. TypeError if it is none that may be lent."""
    try:
        view = memoryview(value)
    except (TypeError, ValueError, BufferError):
        raise TypeError(f"{parameter.name} must be {_wanted(parameter)}, not {type(value).__name__}") from None
    why = ""
    if view.format not in parameter.formats:
        why = f"must be {_wanted(parameter)}, not one of items '{view.format}'"
    elif not view.c_contiguous:
        why = "must be contiguous, in the order of C"
    elif view.readonly and parameter.written:
        why = "is written and must be writable"
    if why:
        view.release()
        raise TypeError(f"{parameter.name} {why}")
    return view


def _check_overlaps(lent: List[Lent]) -> None:
    """ValueError where two buffers of one call overlap, and one of them is written."""
    lent.sort()
    reach = 0
    for address, end, _, _ in lent:
        if address < reach:
            return _check_written(lent)
        reach = end


def _check_written(lent: List[Lent]) -> None:
    """The same of buffers in the order of their addresses, of which two overlap: both may be read."""
    reach = written_reach = 0
    behind = behind_written = ""
    for address, end, written, name in lent:
        if address < (reach if written else written_reach):
            raise ValueError(f"{behind if written else behind_written} and {name} overlap, and one of them is written")
        if end > reach:
            reach, behind = end, name
        if written and end > written_reach:
            written_reach, behind_written = end, name


_WORDS = {
    "i8": "signed bytes (array 'b', NumPy int8)", "u8": "bytes (bytearray, array 'B', NumPy uint8)",
    "i32": "signed 32-bit items (array 'i', NumPy int32)", "u32": "unsigned 32-bit items (array 'I', NumPy uint32)",
    "i64": "signed 64-bit items (array 'q', NumPy int64)", "u64": "unsigned 64-bit items (array 'Q', NumPy uint64)",
    "usize": "unsigned items of a pointer's size (array 'Q', NumPy uintp)",
    "f32": "32-bit floats (array 'f', NumPy float32)",
}  # fmt: skip


def _wanted(parameter: Parameter) -> str:
    return "a buffer of " + _WORDS[parameter.kind]


def items(value: Any, kind: str) -> array[Any]:
    """A copy of the items of a buffer that was lent, one after the other, whatever its shape and spelling: for looking at
    small answers, and at what is at fault."""
    found = array(_LETTERS[kind])
    if value is not None:
        found.frombytes(memoryview(value).tobytes())
    return found


_LETTERS = {"i8": "b", "u8": "B", "i32": "i", "u32": "I", "i64": "q", "u64": "Q", "usize": "Q", "f32": "f"}
