#!/usr/bin/env python3
"""A strict reader of the wave export's text: every byte must be as Ask 1 of document 02 has it.

    vcd.py FILE

prints how many times the text shows; or the line that is wrong and why, and leaves with 1.
"""

import pathlib
import re
import sys

NAMES = ["int"] + [f"rdy{place}" for place in range(8)]
IDENTIFIERS = [chr(33 + line) for line in range(9)]
DECLARATIONS = [f"$var wire 1 {identifier} {name} $end" for identifier, name in zip(IDENTIFIERS, NAMES)]
HEADER = ["$timescale 1 us $end"] + DECLARATIONS + ["$enddefinitions $end"]

TIME = re.compile(r"#(0|[1-9][0-9]{0,9})")
VALUE = re.compile(r"[01][!-)]")

# 16,384 records, each at most 65,535 after the one before it.
LATEST = 16_383 * 65_535


class Wrong(Exception):
    """What is wrong with the text, with the number of its line."""


def read(text):
    """The times that these bytes show, each with the nine values from then on: a list of (time, values)."""
    if not text.endswith(b"\n"):
        raise Wrong("the last line has no newline")
    # Not splitlines: it takes more bytes than the newline for the end of a line.
    lines = text[:-1].decode("latin-1").split("\n")
    for number, wanted in enumerate(HEADER, 1):
        if lines[number - 1:number] != [wanted]:
            raise Wrong(f"line {number}: the header has `{wanted}` here")
    moments, shown = [], IDENTIFIERS
    for number, line in enumerate(lines[len(HEADER):], len(HEADER) + 1):
        if TIME.fullmatch(line):
            check_complete(number - 1, moments, shown)
            moments.append(next_moment(number, int(line[1:]), moments))
            shown = []
        elif VALUE.fullmatch(line) and moments:
            check_value(number, line, moments[-1][1], shown)
            moments[-1][1][line[1]] = int(line[0])
            shown.append(line[1])
        else:
            raise Wrong(f"line {number}: `{line}` is neither a time nor a value at a time")
    check_complete(len(lines), moments, shown)
    return [(time, tuple(values[identifier] for identifier in IDENTIFIERS)) for time, values in moments]


def next_moment(number, time, moments):
    """A time and, for the lines after it to change, the values shown before it."""
    if not moments and time != 0:
        raise Wrong(f"line {number}: the first time is {time}, not 0")
    if moments and time <= moments[-1][0]:
        raise Wrong(f"line {number}: time {time} after {moments[-1][0]}")
    if time > LATEST:
        raise Wrong(f"line {number}: time {time} is later than 16,384 records can get")
    return time, dict(moments[-1][1]) if moments else {}


def check_value(number, line, values, shown):
    if shown and line[1] <= shown[-1]:
        raise Wrong(f"line {number}: `{line}` stands behind a value of `{shown[-1]}`")
    if values.get(line[1]) == int(line[0]):
        raise Wrong(f"line {number}: `{line}` is no change")


def check_complete(number, moments, shown):
    """The last line of a time must not be its first, and time 0 has all nine values."""
    if not shown:
        raise Wrong(f"line {number}: a time without a value")
    if len(moments) == 1 and shown != IDENTIFIERS:
        raise Wrong(f"line {number}: time 0 ends without all nine values")


def main():
    if len(sys.argv) != 2:
        sys.exit("usage: vcd.py FILE")
    try:
        print(f"{len(read(pathlib.Path(sys.argv[1]).read_bytes()))} times")
    except Wrong as wrong:
        sys.exit(f"{sys.argv[1]}: {wrong}")


if __name__ == "__main__":
    main()
