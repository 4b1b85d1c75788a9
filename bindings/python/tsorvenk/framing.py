"""The frame program of docs/FRAMES.md on a text in memory."""
from __future__ import annotations

from typing import Optional

from ._buffers import Buffer, items
from ._calls import CALLS
from .edges import one_size

__all__ = ["FRAMES_ROOM", "frames", "frames_answer"]

FRAMES_ROOM = 6157
"""Bytes that are room for the answer to every text of frames."""

_frames = CALLS["frames"]


def frames(*, text: Buffer, out: Buffer, written: Optional[Buffer] = None) -> int:
    """The answer to a text of frames: how many bytes of out it has.

    text            uint8, of any length
    out             uint8, written at its front; the rest of it is kept. FRAMES_ROOM bytes are enough
    written         unsigned items of a pointer's size, 1, written: what is returned. May be left out

    A text that the program refuses is answered by the line that says so: that is an answer too. NoRoom if out is too short
    for the answer; refused with 2 if written has not length 1. Then nothing is written.
    """
    if written is None:
        written = one_size()
    _frames(locals())
    return items(written, "usize")[0]


def frames_answer(text: Buffer) -> bytes:
    """The answer of frames, in bytes of its own."""
    out = bytearray(FRAMES_ROOM)
    length = frames(text=text, out=out)
    return bytes(out[:length])
