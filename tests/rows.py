#!/usr/bin/env python3
"""Writes the rows of crates/sessions from cases.txt, which stands beside this file: specs/Sessions.antt has them, and
proofs/Sessions.antt works them out.

    rows.py            writes the two files
    rows.py --check    leaves with 1 if a file is not exactly what would be written
"""

import pathlib
import sys
import textwrap

from cases import MADE, FIELDS, Unreadable, cases

TOP = pathlib.Path(__file__).resolve().parent.parent
SPECS = TOP / "crates" / "sessions" / "specs" / "Sessions.antt"
PROOFS = TOP / "crates" / "sessions" / "proofs" / "Sessions.antt"
WIDTH = 136

# Events of a place, by their kind.
CONTROL, WRITE, READ, STROBE, LINES = 3, 4, 5, 6, 7
AT_A_PLACE = {CONTROL: "control", WRITE: "write", STROBE: "strobe_to", LINES: "lines_to"}
FETCH = 1
RESET_BYTES = [0, 0, 0, 0]
ACKNOWLEDGE_BYTES = [2, 0, 0, 0]

SPECS_HEAD = """\
-- Every session of tests/cases.txt as a row, written from it by tests/rows.py: change it there. Rows.antt has the words and says how a
-- row is worked out; the head of cases.txt says what the letters of the names stand for.
-- Assumes nothing.
use Rattle.std.specs.Prelude.{List, [], ◌∷◌}
use Rattle.board.specs.Step.{answer}
use Rattle.sessions.specs.Rows.{%s}
"""
PROOFS_HEAD = """\
-- Every row of specs/Sessions.antt, by computation. Written by tests/rows.py: one link of the chain for each row, so that a refusal
-- names the rows that fail.
-- Assumes nothing.
use mathlib.Core.Path.{refl}
use Rattle.bits.specs.Lines.{match_of, mixed_of, levels_of}
use Rattle.port.specs.Rules.{match_now}
use Rattle.chip.specs.Sound.{sound_chip}
use Rattle.events.specs.Act.{event_of}
use Rattle.chain.specs.Chain.{acknowledged, retired}
use Rattle.chain.specs.Decode.{next_of, reti_of}
use Rattle.board.specs.Board.{sound_board, fresh_of, request_of, lines_of}
use Rattle.board.specs.Step.{refusal, doing_of, taken, accepted, refused, step_of}
use Rattle.sessions.specs.Sessions.{rows}
use Rattle.sessions.proofs.Rows.{Each, none, ◌also◌}

pub each_row : Each rows
unfolding match_of mixed_of levels_of match_now sound_chip event_of acknowledged retired next_of reti_of sound_board fresh_of request_of lines_of refusal doing_of taken accepted refused step_of
each_row =
"""
WORDS = ("bytes reset fetch acknowledge control write read strobe_to lines_to ◌gives◌ ◌≔◌ some every Row session "
         "refused after").split()


def listed(words):
    return "".join(f"{word} ∷ " for word in words) + "[]"


def event(numbers):
    """An event in the words of Rows.antt, or its bytes where these have no word."""
    if numbers == RESET_BYTES:
        return "reset"
    if numbers == ACKNOWLEDGE_BYTES:
        return "acknowledge"
    if len(numbers) == 4 and numbers[3] == 0:
        kind, place, value, _ = numbers
        if kind == FETCH and place == 0:
            return f"fetch 0x{value:02X}"
        if kind in AT_A_PLACE:
            return f"{AT_A_PLACE[kind]} {place} {value}"
        if kind == READ and value == 0:
            return f"read {place}"
    return f"bytes ({listed(numbers)})"


def turn(numbers, answer):
    return event(numbers) + (f" gives answer {' '.join(str(byte) for byte in answer)}" if answer else "")


def settings(pairs):
    return f"({listed(f'{name} ≔ {number}' for name, number in pairs)})" if pairs else "[]"


def wanted(case):
    """Fields of one place that stand together become one word."""
    places = {}
    for place, name, number in case.fields:
        places.setdefault(place, []).append((name, number))
    for place, pairs in places.items():
        yield f"some {place} {settings(pairs)}"
    for place, pairs in case.wholes:
        yield f"every {place} {settings(pairs.items())}"


def filled(opening, words):
    """A list in parentheses, over as many lines as it needs."""
    lines, line = [], f"    ({opening}"
    for at, word in enumerate(words):
        piece = f"{word} ∷ "
        if len(line) + len(piece) > WIDTH and at > 0:
            lines.append(line.rstrip())
            line = "    "
        line += piece
    return lines + [line + "[])" + ")" * opening.count("(")]


def row(case):
    maker = "session" if case.code == MADE else "refused"
    yield from (f"-- {line}" for line in case.comment)
    yield f"abbrev pub {title(case)} : Row"
    yield f"{title(case)} ="
    yield f'    {maker} "{case.name}" {case.size}'
    begun = len(case.start.events) if case.start else 0
    opening = f"after {title(case.start)} (" if case.start else ""
    turns = zip(case.events[begun:], case.answers[begun:])
    yield from filled(opening, [turn(numbers, answer) for numbers, answer in turns])
    yield from filled("", wanted(case))
    yield ""


def title(case):
    """The row's own name: a dot would be read as a field."""
    return case.name.lower().replace(".", "_")


def broken(words):
    """Words over as many lines as they need."""
    return textwrap.wrap(" ".join(words), WIDTH, initial_indent="    ", subsequent_indent="    ")


def specs(every_case):
    used = {name for case in every_case for _, name, _ in case.fields}
    used |= {name for case in every_case for _, pairs in case.wholes for name in pairs}
    lines = [SPECS_HEAD % ", ".join(WORDS + [name for name in FIELDS if name in used])]
    for case in every_case:
        lines += row(case)
    lines += ["abbrev pub rows : List Row", "rows ="]
    lines += broken([listed(title(case) for case in every_case)])
    return "\n".join(lines) + "\n"


def proofs(every_case):
    """A row's own theorem stands at its place in the chain, so that the prover names each row that fails."""
    return PROOFS_HEAD + "\n".join(broken(["refl also" for _ in every_case] + ["none"])) + "\n"


def main():
    if sys.argv[1:] not in ([], ["--check"]):
        sys.exit("usage: rows.py [--check]")
    try:
        every_case = list(cases())
    except (Unreadable, ValueError) as trouble:
        sys.exit(f"rows: {trouble}")
    for file, made in ((SPECS, specs(every_case)), (PROOFS, proofs(every_case))):
        if not sys.argv[1:]:
            file.write_text(made)
        elif not file.exists() or file.read_text() != made:
            sys.exit(f"rows: {file.relative_to(TOP)} is not what cases.txt gives; run tests/rows.py")
    print(f"rows: {len(every_case)} rows, as cases.txt has them")


if __name__ == "__main__":
    main()
