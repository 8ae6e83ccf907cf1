#!/usr/bin/env python3
"""Runs every case of cases.txt, which stands beside this file, through the programs of the product.

    cases.py PANEL RIVAL

Every case goes through `RIVAL library SIZE`, which prints what the product's library answers to each event and
what it then knows of all eight places: every wanted word is held to that. PANEL is the program `panel`. It shows
the places of a fresh board of one to four chips after each record of four bytes, so the cases that need no more
go through it as well, and the words that it can show are held to what it prints.

Prints each case that differs by its name, and at the end how many agree. Leaves with 1 on any difference.
"""

import pathlib
import re
import subprocess
import sys

# What the panel prints of a place, and what `RIVAL library` prints.
COLUMNS = ("place mode ready out input lines strobe vector select mask and high asked live waiting "
           "service awaiting matched levels driven").split()
LIBRARY_COLUMNS = COLUMNS + ["code"]
FIELDS = LIBRARY_COLUMNS[1:]
PLACES = 8

# The fields that are not 0 on a fresh board.
FRESH = {"mode": 1, "strobe": 1, "mask": 255}

MADE = 0
NO_SIZE = 33


class Unreadable(Exception):
    """A line of the cases, or of a program's output, that is not of its form."""


class Case:
    """A line of cases.txt: the events as bytes, for each its wanted answer or None, the fields that are wanted as
    (place, field, number), and the places of which every field is wanted as (place, {field: number}). `start` is the
    earlier case whose events come first, or None; `events` has them too."""

    def __init__(self, line, comment, earlier):
        self.comment = comment
        head, rest = parted(line, ": ")
        events, wanted = parted(rest, " => ")
        self.name, size = parted(head, " ")
        self.size = int(size)
        self.code = MADE
        first, _, others = events.partition(" ")
        self.start = earlier[first[1:-1]] if first.startswith("(") else None
        turns = [turn(word) for word in (others if self.start else events).split()]
        self.events = [event for event, _ in turns]
        self.answers = [answer for _, answer in turns]
        self.fields = []
        self.wholes = []
        for word in wanted.split():
            self.want(word)
        if self.code == MADE and not any(self.answers) and not self.fields and not self.wholes:
            raise Unreadable(f"{self.name} wants nothing")
        if self.start:
            if self.start.size != self.size:
                raise Unreadable(f"{self.name} begins as a case of another size")
            self.events = self.start.events + self.events
            self.answers = self.start.answers + self.answers

    def want(self, word):
        if word == f"fresh={NO_SIZE}":
            self.code = NO_SIZE
        elif found := re.fullmatch(r"([0-7])\.(\w+)=(\d+)", word):
            self.fields.append((int(found[1]), field(found[2]), int(found[3])))
        elif found := re.fullmatch(r"([0-7])\{(.*)\}", word):
            pairs = [parted(pair, "=") for pair in found[2].split(",") if pair]
            self.wholes.append((int(found[1]), {field(name): int(number) for name, number in pairs}))
        elif self.answers and self.answers[-1] is None:
            self.answers[-1] = answer(word)
        else:
            raise Unreadable(f"{self.name}: {word} is no wanted word")


def parted(text, mark):
    before, found, after = text.partition(mark)
    if not found:
        raise Unreadable(f"no `{mark}` in `{text}`")
    return before, after


def field(name):
    if name not in FIELDS:
        raise Unreadable(f"no field is called {name}")
    return name


def turn(word):
    event, arrow, wanted = word.partition(">")
    return event_bytes(event), answer(wanted) if arrow else None


def event_bytes(word):
    if word.startswith("[") and word.endswith("]"):
        return [int(number) for number in word[1:-1].split(",") if number]
    numbers = [int(number) for number in word.split(",")]
    if len(numbers) not in (3, 4):
        raise Unreadable(f"{word} is no event")
    return numbers + [0] * (4 - len(numbers))


def answer(word):
    numbers = [int(number) for number in word.split(",")]
    if len(numbers) != 4:
        raise Unreadable(f"{word} is no answer")
    return numbers


def cases():
    """Every case, with the comment that stands above it or above the cases it is one of."""
    text = (pathlib.Path(__file__).parent / "cases.txt").read_text()
    comment, earlier = [], {}
    for line in text.splitlines():
        if line.startswith("#"):
            comment.append(line[1:].strip())
        elif line:
            case = Case(line, comment, earlier)
            if case.name in earlier:
                raise Unreadable(f"two cases are called {case.name}")
            earlier[case.name] = case
            yield case
            comment = []
        else:
            comment = []


class Output:
    """What a program printed: for each event its answer, and after it the numbers of places by their columns."""

    def __init__(self, lines, columns, places, events):
        if len(lines) != events * (1 + places):
            raise Unreadable(f"{len(lines)} lines for {events} events")
        self.columns = columns
        self.answers = []
        self.states = []
        for at in range(events):
            head = at * (1 + places)
            number, *rest = numbers(lines[head], 5)
            if number != at + 1:
                raise Unreadable(f"line `{lines[head]}` should have number {at + 1}")
            self.answers.append(rest)
            self.states.append([])
            for place in range(places):
                state = dict(zip(columns, numbers(lines[head + 1 + place], len(columns))))
                if state["place"] != place:
                    raise Unreadable(f"place {state['place']} stands where {place} should")
                self.states[-1].append(state)

    def shows(self, place, name):
        return self.states and place < len(self.states[-1]) and name in self.columns

    def misses(self, case):
        """Every wanted thing that this output can show and that did not come out."""
        for at, (wanted, given) in enumerate(zip(case.answers, self.answers), 1):
            if wanted is not None and wanted != given:
                yield f"event {at}: wanted {wanted}, got {given}"
        wanted = list(case.fields)
        for place, named in case.wholes:
            wanted += [(place, name, named.get(name, FRESH.get(name, 0))) for name in FIELDS]
        for place, name, number in wanted:
            if self.shows(place, name) and self.states[-1][place][name] != number:
                yield f"wanted {place}.{name}={number}, got {self.states[-1][place][name]}"


def numbers(line, count):
    words = [int(word) for word in line.split(" ")]
    if len(words) != count:
        raise Unreadable(f"line `{line}` has not {count} numbers")
    return words


def output(command, given):
    """The lines that a program prints."""
    done = subprocess.run(command, input=given, capture_output=True, timeout=60)
    if done.returncode != 0:
        raise Unreadable(f"exit {done.returncode} {done.stderr.decode(errors='replace').strip()}")
    return done.stdout.decode("ascii").splitlines()


def through_library(program, case):
    text = "".join(",".join(str(byte) for byte in event) + "\n" for event in case.events)
    first, *lines = output([program, "library", str(case.size)], text.encode())
    size = case.size if case.code == MADE else 0
    if first != f"fresh {case.code} {size}":
        yield f"wanted fresh {case.code} {size}, got {first}"
    yield from Output(lines, LIBRARY_COLUMNS, PLACES, len(case.events)).misses(case)


def panel_reaches(case):
    return case.code == MADE and all(len(event) == 4 for event in case.events)


def panel_output(program, size, records):
    """What the panel prints for these records."""
    first, *lines = output([program, str(size)], records)
    if first != "columns " + " ".join(COLUMNS):
        raise Unreadable("the first line does not name the columns")
    return Output(lines, COLUMNS, 2 * size, len(records) // 4)


def through_panel(program, case):
    yield from panel_output(program, case.size, b"".join(bytes(event) for event in case.events)).misses(case)


def main():
    if len(sys.argv) != 3:
        sys.exit("usage: cases.py PANEL RIVAL")
    panel, rival = sys.argv[1:]
    tried = {"the library": 0, "the panel": 0}
    differ = 0
    for case in cases():
        ways = [("the library", through_library, rival)]
        if panel_reaches(case):
            ways.append(("the panel", through_panel, panel))
        for way, through, program in ways:
            try:
                misses = list(through(program, case))
            except (Unreadable, OSError, ValueError, subprocess.TimeoutExpired) as trouble:
                misses = [str(trouble)]
            tried[way] += 1
            differ += bool(misses)
            for miss in misses:
                print(f"{case.name} through {way}: {miss}")
    print(f"cases: {tried['the library']} through the library and {tried['the panel']} of them through the panel, "
          f"{differ} differ")
    sys.exit(1 if differ else 0)


if __name__ == "__main__":
    main()
