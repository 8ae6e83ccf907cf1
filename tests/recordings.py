#!/usr/bin/env python3
"""The recordings that the tests of the wave export share: events and, beside them, a stamp for each.

    recordings.py DIRECTORY

writes each as NAME.events and NAME.stamps.
"""

import itertools
import pathlib
import sys
from typing import NamedTuple

RESET, FETCH, ACKNOWLEDGE, CONTROL, WRITE, READ, STROBE, LINES = range(8)

OUTPUT, INPUT, BIDIRECTIONAL, BITS = 0x0F, 0x4F, 0x8F, 0xCF
ENABLE, ENABLE_HIGH_MASK_FOLLOWS = 0x83, 0xB7
EI, ED, RETI = 0xFB, 0xED, 0x4D

MOST_RECORDS = 16_384


class Recording(NamedTuple):
    name: str
    size: int
    events: bytes
    stamps: bytes


def recording(name, size, events, stamps):
    return Recording(name, size, b"".join(bytes(event) + b"\0" for event in events),
                     b"".join((stamp % 65_536).to_bytes(2, "little") for stamp in stamps))


def restamped(name, size, events, steps, first=0):
    """These events with a stamp for each: the first, and from there on by the steps, again and again."""
    stamps = itertools.accumulate(itertools.chain([first], itertools.cycle(steps)))
    return recording(name, size, events, itertools.islice(stamps, len(events)))


class Station:
    """Writes down events and the microseconds at which they happen."""

    def __init__(self, clock):
        self.clock, self.events, self.stamps = clock, [], []

    def event(self, kind, place=0, value=0, then=3):
        self.events.append((kind, place, value))
        self.stamps.append(self.clock)
        self.clock += then

    def program(self, place, *words):
        for word in words:
            self.event(CONTROL, place, word)

    def strobe(self, place):
        self.event(STROBE, place, 0, then=6)
        self.event(STROBE, place, 1, then=9)

    def serve(self, *work):
        """What the CPU does for one interrupt: its acknowledge, the data, and the return."""
        self.event(ACKNOWLEDGE, then=8)
        self.event(FETCH, 0, 0xDB if work[0] == READ else 0xD3)
        self.event(*work)
        self.finish()

    def finish(self):
        for opcode in (EI, ED, RETI):
            self.event(FETCH, 0, opcode)
        self.clock += 5


def ordinary():
    """All four modes at work: places 0 and 6 are outputs, 1, 5 and 7 inputs, 2 goes both ways by its own
    handshake and that of place 3, and 4 has eight single lines of which line 0 is watched."""
    station = Station(clock=65_400)
    station.event(RESET)
    for place, mode in (0, OUTPUT), (1, INPUT), (2, BIDIRECTIONAL), (5, INPUT), (6, OUTPUT), (7, INPUT):
        station.program(place, 0x20 + 2 * place, mode, ENABLE)
    station.program(3, 0x26, BITS, 0xFF, ENABLE)
    station.program(4, 0x28, BITS, 0xFF, ENABLE_HIGH_MASK_FOLLOWS, 0xFE)
    station.event(FETCH, 0, EI)
    for place in 1, 2, 5, 7:
        station.event(READ, place)
    for place in 0, 2, 6:
        station.event(WRITE, place, 0x40 + place)
    station.clock += 20

    station.strobe(0)                            # the device takes its byte and gets the next
    station.serve(WRITE, 0, 0x41)
    station.event(LINES, 1, 0x5A)
    station.strobe(1)                            # a byte comes in; during its service the watched line rises
    station.event(ACKNOWLEDGE)
    station.event(LINES, 4, 0x01, then=12)
    station.event(READ, 1)
    station.finish()                             # and only now it may ask
    station.serve(READ, 4)
    station.event(LINES, 4, 0x00)
    station.event(LINES, 2, 0x33)
    station.strobe(3)                            # in by the handshake of place 3, out by that of place 2
    station.serve(READ, 2)
    station.strobe(2)
    station.serve(WRITE, 2, 0x43)
    station.clock += 15
    station.strobe(7)                            # three ask, the farthest first; the nearest is served first
    station.strobe(6)
    station.strobe(5)
    station.serve(READ, 5)
    station.serve(WRITE, 6, 0x47)
    station.serve(READ, 7)
    station.clock += 10
    station.strobe(0)                            # nobody comes before the power goes
    station.event(RESET)
    return station


def random_numbers(seed):
    """A function that gives a number below its argument, the same ones from the same seed everywhere."""
    state = seed

    def draw(below):
        nonlocal state
        state = (state * 1_103_515_245 + 12_345) % 2**31
        return (state >> 8) % below
    return draw


WORDS = OUTPUT, OUTPUT, INPUT, INPUT, BIDIRECTIONAL, BITS, 0xFE, ENABLE_HIGH_MASK_FOLLOWS, 0x03, 0x20, 0x09


def random_events(size, count, seed):
    """Events of every kind, most of them with an effect on a board of this size, some refused."""
    draw, events = random_numbers(seed), []
    while len(events) < count:
        place = draw(2 * size)
        shapes = (
            [(READ, place, 0)],
            [(READ, place, 0), (LINES, place, draw(256))],
            [(WRITE, place, draw(256))],
            [(WRITE, place, 0), (CONTROL, place, ENABLE), (FETCH, 0, EI)],
            [(STROBE, place, 0), (STROBE, place, 1)],
            [(STROBE, place, draw(2)), (STROBE, draw(2 * size + 1), 1)],
            [(ACKNOWLEDGE, 0, 0)],
            [(FETCH, 0, ED), (FETCH, 0, RETI)],
            [(CONTROL, place, WORDS[draw(len(WORDS))])],
            [(RESET, 0, min(draw(10), 1)), (draw(256), draw(256), draw(256))],
        )
        events += shapes[draw(len(shapes))]
    return events[:count]


def random_steps(count, seed):
    draw = random_numbers(seed)
    return [(0, 0, 1, draw(10), draw(1000), draw(65_536))[draw(6)] for _ in range(count)]


def recordings():
    station = ordinary()
    return [
        recording("ordinary", 4, station.events, station.stamps),
        restamped("wraps", 4, station.events, (40_000, 3, 65_535, 0, 32_768, 1, 65_000, 32_767), 65_535),
        restamped("equal-stamps", 4, station.events, (0, 0, 10, 0, 0, 0, 0, 90, 0, 0, 0, 0, 0, 0, 900), 9),
        restamped("one-moment", 2, station.events[:-1], (0,), 300),
        restamped("one-record", 2, [(READ, 3, 0)], (0,), 77),
        recording("none", 4, [], []),
        restamped("one-chip", 1, random_events(1, 500, 1), random_steps(500, 2), 12_345),
        restamped("three-chips", 3, random_events(3, 1_000, 3), (1, 9, 90, 900, 9_000), 1),
        restamped("most-records", 4, random_events(4, MOST_RECORDS, 4), random_steps(MOST_RECORDS, 5), 7),
        restamped("latest-time", 4, random_events(4, MOST_RECORDS, 6), (65_535,), 0),
    ]


def one_too_many():
    return restamped("one-too-many", 4, random_events(4, MOST_RECORDS + 1, 7), (1,))


def write(each, directory):
    """The names of its two files."""
    events, stamps = (pathlib.Path(directory) / f"{each.name}.{suffix}" for suffix in ("events", "stamps"))
    events.write_bytes(each.events)
    stamps.write_bytes(each.stamps)
    return events, stamps


def main():
    if len(sys.argv) != 2:
        sys.exit("usage: recordings.py DIRECTORY")
    for each in recordings():
        write(each, sys.argv[1])


if __name__ == "__main__":
    main()
