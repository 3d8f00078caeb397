#!/usr/bin/env python3
"""Writes north.bin and south.bin beside it: what two taps have of one pair, one at each abutment, from the same tick.

The pair carries a poll and its answer, a handheld's command 0 and its answer, which has one silent tick inside,
a BACK of another bearing, an answer that another sender runs into, and a poll with an expansion byte, a form that the engine's writer
does not write. The north tap misses two characters of the first answer and damages one of the handheld's request;
the south tap misses the poll and damages a character of the BACK.
"""
import os

SILENCE = (0x00, 0)
CHARACTER, FRAMING = 0x20, 0x80
WEST, EAST = [0x12, 0x34, 0x56, 0x78], [0x12, 0x34, 0x56, 0x79]  # bearings: their addresses behind the first byte


def frame(*values):
    check = 0
    for value in values:
        check ^= value
    return [(CHARACTER, value) for value in [0xFF] * 5 + list(values) + [check]]


POLL = frame(0x82, 0xA6, *WEST, 3, 0)
ANSWER = frame(0x86, 0xA6, *WEST, 3, 11, 0, 0, 0x40, 0xD0, 0, 0, 49, 0x41, 0x48, 0, 0)
WHO = frame(0x02, 0x05, 0, 0)
IDENTITY = frame(0x06, 0x05, 0, 14, 0, 0x50, 254, 0x26, 0x12, 5, 7, 1, 2, 8, 0, 0x34, 0x56, 0x78)
BURST = frame(0x81, 0x66, *EAST, 3, 11, 0, 0, 0x40, 0xE0, 0, 0, 49, 0x41, 0x58, 0, 0)
EXPANDED = frame(0xA2, 0xA6, *WEST, 9, 3, 0)


def spoiled(ticks, changes):
    return [changes.get(at, tick) for at, tick in enumerate(ticks)]


def pair():
    """What the pair carries, and where its parts begin."""
    ticks, begins = [SILENCE] * 4, {}
    shorted = spoiled(ANSWER, {16: (FRAMING, 0), 17: (FRAMING, 0)})
    gapped = IDENTITY[:12] + [SILENCE] + IDENTITY[12:]
    for name, part in [("poll", POLL), ("answer", ANSWER), ("who", WHO), ("identity", gapped), ("burst", BURST), ("again", POLL), ("shorted", shorted), ("expanded", EXPANDED)]:
        begins[name] = len(ticks)
        ticks += part + [SILENCE] * 2
    return ticks, begins


def main():
    ticks, at = pair()
    north = {at["answer"] + 7: SILENCE, at["answer"] + 8: SILENCE, at["who"] + 6: (0x40, 0x07)}
    south = {at["poll"] + n: SILENCE for n in range(len(POLL))} | {at["burst"] + 14: (0x60, 0x40)}
    for name, changes in [("north", north), ("south", south)]:
        with open(os.path.join(os.path.dirname(os.path.abspath(__file__)), f"{name}.bin"), "wb") as file:
            file.write(b"".join(bytes(tick) for tick in spoiled(ticks, changes)))


main()
