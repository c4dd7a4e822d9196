"""How much the link and the plan hold."""
from typing import NamedTuple


class Buffers(NamedTuple):
    """The bytes of lines on the link, and the moves in the plan."""

    room: int
    blocks: int


STANDARD, WIDE = Buffers(128, 15), Buffers(255, 35)
