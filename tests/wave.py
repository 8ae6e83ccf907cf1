#!/usr/bin/env python3
"""Runs the cases of wave.txt and the recordings of recordings.py through the wave export, byte for byte.

    wave.py LIBDIR WAVE PANEL

LIBDIR is the directory of libpio.a, which c/wave.c calls; WAVE and PANEL are the programs `wave` and `panel`.
What a recording must give is worked out here from what the panel shows after every record.

Prints what differs, and at the end how much agrees. Leaves with 1 on any difference.
"""

import errno
import os
import pathlib
import subprocess
import sys
import tempfile

import cases
import recordings
import vcd

TESTS = pathlib.Path(__file__).parent
HEADER = "".join(line + "\n" for line in vcd.HEADER).encode()
REFUSED_SIZES = "0", "5", "260", str(2**64 + 4), "four", ""


class Differs(Exception):
    """What came out where something else was wanted."""


def expect(truth, what):
    if not truth:
        raise Differs(what)


def same_text(got, wanted):
    """Two texts, compared by line so that the first difference can be told."""
    if got != wanted:
        pairs = zip(got.split(b"\n") + [None], wanted.split(b"\n") + [None])
        number, pair = next((n, pair) for n, pair in enumerate(pairs, 1) if pair[0] != pair[1])
        raise Differs(f"line {number} is {pair[0]}, wanted {pair[1]}")


class Export:
    """The export through the library and through the program, on files of a directory of its own."""

    def __init__(self, library, program, directory):
        self.program, self.directory = os.path.abspath(program), pathlib.Path(directory)
        self.linked = self.directory / "wave"
        subprocess.run([os.environ.get("CC", "gcc"), "-std=c11", "-O2", "-Wall", "-Wextra", "-Werror",
                        "-I", TESTS.parent / "include", TESTS / "c" / "wave.c", f"{library}/libpio.a",
                        "-o", self.linked], check=True)

    def files(self, **contents):
        for name, content in contents.items():
            (self.directory / name).write_bytes(content)

    def by_library(self, size, room, events, stamps, before=b""):
        """The code and the text."""
        self.files(before=before, events=events, stamps=stamps)
        done = self.run([self.linked, str(size), str(room), "before", "events", "stamps"])
        expect(done.returncode == 0, done.stderr.decode().strip() or f"exit {done.returncode}")
        code, text = done.stdout.split(b"\n", 1)
        return int(code), text

    def by_program(self, events, stamps, *size):
        """Standard output and standard error."""
        self.files(events=events, stamps=stamps)
        return self.words("events", "stamps", *size)

    def words(self, *words):
        done = self.run([self.program, *words])
        return done.stdout, done.stderr

    def run(self, command):
        return subprocess.run(command, cwd=self.directory, capture_output=True, timeout=60)


def wave_cases():
    """Name, size, room, the three files and the wanted code and text of every case."""
    for line in (TESTS / "wave.txt").read_text().splitlines():
        if not line or line.startswith("#"):
            continue
        head, rest = line.split(":", 1)
        words, wanted = rest.split("=>")
        name, size, room = head.split()
        code, *lines = wanted.split()
        text = HEADER + "".join(line + "\n" for line in lines).encode() if code == "0" else b""
        yield name, int(size), int(room), *files(words.split()), int(code), text


def files(words):
    """The bytes of the events, of the stamps and of the events before them."""
    before, events, stamps = b"", b"", b""
    for word in words:
        if word == "|":
            before, events = events, b""
        elif word.startswith("events+"):
            events += bytes(int(word[7:]))
        elif word.startswith("stamps+"):
            stamps += bytes(int(word[7:]))
        elif word.startswith("stamps-"):
            stamps = stamps[:-int(word[7:])]
        else:
            event, _, stamp = word.partition("@")
            stamp, _, count = stamp.partition("*")
            events += bytes(cases.event_bytes(event)) * int(count or 1)
            stamps += int(stamp).to_bytes(2, "little") * int(count or 1) if stamp else b""
    return events, stamps, before


def check_case(export, size, room, events, stamps, before, code, text):
    got, got_text = export.by_library(size, room, events, stamps, before)
    expect(got == code, f"code {got}, wanted {code}")
    same_text(got_text, text)
    if code == 0:
        vcd.read(got_text)


def values_after(panel, recording):
    """The nine values after each record: whether a place asks, and Ready of each place that is on the board."""
    shown = cases.panel_output(panel, recording.size, recording.events)
    for (_, _, _, request), states in zip(shown.answers, shown.states):
        ready = [state["ready"] for state in states]
        yield [int(request != 0)] + ready + [0] * (8 - len(ready))


def wanted_text(panel, recording):
    """Ask 1, word by word."""
    stamps = [low + 256 * high for low, high in zip(recording.stamps[::2], recording.stamps[1::2])]
    time, merged = 0, {}
    for at, values in enumerate(values_after(panel, recording)):
        time += (stamps[at] - stamps[at - 1]) % 65_536 if at > 0 else 0
        merged[time] = values
    text, shown = HEADER.decode(), [None] * 9
    for time, values in merged.items():
        changes = [f"{value}{chr(33 + line)}\n" for line, value in enumerate(values) if value != shown[line]]
        text += f"#{time}\n" + "".join(changes) if changes else ""
        shown = values
    return text.encode()


def check_recording(export, panel, recording):
    """By the library with room enough, just enough and one byte short, and by the program."""
    wanted = wanted_text(panel, recording)
    events, stamps = recording.events, recording.stamps
    for room in "bound", len(wanted):
        code, text = export.by_library(recording.size, room, events, stamps)
        expect(code == 0, f"code {code}")
        same_text(text, wanted)
    code, _ = export.by_library(recording.size, len(wanted) - 1, events, stamps)
    expect(code == 40, f"code {code} with one byte too few")
    for size in [(str(recording.size),)] + [()] * (recording.size == 4):
        text, complaint = export.by_program(events, stamps, *size)
        expect(complaint == b"", f"the program says {complaint}")
        same_text(text, wanted)
        vcd.read(text)


def check_refusals(export):
    """One record too many, by the library and by the program, and the program's other numbers."""
    many = recordings.one_too_many()
    code, _ = export.by_library(4, "bound", many.events, many.stamps)
    expect(code == 36, f"code {code} for 16,385 records")
    refused(36, export.by_program(many.events, many.stamps))
    refused(32, export.by_program(bytes(7), bytes(2)))
    refused(32, export.by_program(many.events + bytes(1), many.stamps))
    for length in 0, 1, 2, 3, 5, 6:
        refused(41, export.by_program(bytes(8), bytes(length)))
    refused(41, export.by_program(b"", bytes(2)))
    # files far longer than any recording, by their length alone
    refused(36, export.by_program(bytes(1_000_000), b""))
    refused(32, export.by_program(bytes(1_000_002), b""))
    refused(41, export.by_program(bytes(8), bytes(1_000_004)))
    for size in REFUSED_SIZES:
        refused(33, export.by_program(bytes(8), bytes(4), size))


def refused(number, said):
    line = only_line(said)
    words = line.removeprefix(f"refused {number} ")
    expect(words != line and words, f"`{line}` is not `refused {number}` and words")


def only_line(said):
    """The line on standard error when there is nothing on standard output."""
    output, complaint = said
    expect(output == b"", f"{len(output)} bytes of text with `{complaint.decode()}`")
    line, end, rest = complaint.decode().partition("\n")
    expect(end and not rest, f"`{complaint.decode()}` is not one line")
    return line


def check_words(export):
    """A file that cannot be opened or read is named as it was given; a wrong number of words tells the usage."""
    export.files(events=bytes(8), stamps=bytes(4))
    (export.directory / "folder").mkdir()
    for name, trouble, *words in [("no events", errno.ENOENT, "no events", "stamps"),
                                  ("./no.stamps", errno.ENOENT, "events", "./no.stamps"),
                                  ("folder", errno.EISDIR, "folder", "stamps"),
                                  ("folder", errno.EISDIR, "events", "folder")]:
        line = only_line(export.words(*words))
        expect(line == f"{name}: {os.strerror(trouble)}", f"`{line}` for {name}")
    for words in (), ("events",), ("events", "stamps", "4", "4"):
        line = only_line(export.words(*words))
        expect(line.startswith("usage: "), f"`{line}` for {len(words)} words")


def main():
    if len(sys.argv) != 4:
        sys.exit("usage: wave.py LIBDIR WAVE PANEL")
    library, program, panel = sys.argv[1:]
    differ, all_cases, all_recordings = 0, list(wave_cases()), recordings.recordings()
    with tempfile.TemporaryDirectory() as directory:
        export = Export(library, program, directory)
        checks = [(name, check_case, export, *case) for name, *case in all_cases]
        checks += [(each.name, check_recording, export, panel, each) for each in all_recordings]
        checks += [("refusals", check_refusals, export), ("the program's words", check_words, export)]
        for name, check, *arguments in checks:
            try:
                check(*arguments)
            except (Differs, vcd.Wrong, cases.Unreadable, ValueError, subprocess.TimeoutExpired) as trouble:
                differ += 1
                print(f"{name}: {trouble}")
    if differ:
        sys.exit(f"wave: {differ} of {len(checks)} differ")
    print(f"wave: {len(all_cases)} cases and {len(all_recordings)} recordings agree")


if __name__ == "__main__":
    main()
