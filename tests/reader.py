#!/usr/bin/env python3
"""Tries the strict reader of vcd.py: it must read a good text, and refuse it after each edit that spoils it.

Prints which edit the reader takes, and leaves with 1; or how many it refuses.
"""

import sys

import vcd

HEADER = "\n".join(vcd.HEADER) + "\n"
GOOD = HEADER + "#0\n0!\n1\"\n0#\n0$\n0%\n0&\n0'\n0(\n0)\n#10\n1!\n0\"\n#205\n1\"\n"
READ = [(0, (0, 1) + (0,) * 7), (10, (1, 0) + (0,) * 7), (205, (1, 1) + (0,) * 7)]

# What stands in the good text, and what puts it wrong there.
EDITS = [
    # the header
    ("$timescale", "$date"), ("1 us", "1us"), ("1 us", "1  us"), ("us $end", "us $end "), ("rdy0", "rdy1"),
    ("! int", "\" int"), ("$var wire 1 % rdy3 $end\n", ""), ("$enddefinitions $end\n", ""),
    ("$end\n#0", "$end\n\n#0"),
    # time 0
    ("#0\n", "#1\n"), ("#0\n", ""), ("#0\n", "#00\n"), ("0(\n", ""), ("0%\n0&", "0&\n0%"),
    ("0(\n", "0(\n0(\n"), ("0)", "0*"), ("0)", "x)"), ("0)", "2)"), ("0)", "0 )"), ("0)", "0)0"),
    # later times
    ("#10", "#010"), ("#10", "# 10"), ("#10", "#+10"), ("#10", "#0"), ("#10", "#205"), ("#10", "#206"),
    ("#10\n", "#10\n#20\n"), ("1!\n0\"", "0\"\n1!"), ("1!\n0\"", "1!\n1\""), ("1!\n0\"", "1!\n0!\n0\""),
    ("1!\n0\"", "1! 0\""), ("#205", "#1073659906"), ("#205", "#99999999999"), ("#205\n", "#205 \n"),
    ("#205\n", "#205\r\n"), ("#205\n", "$comment late $end\n#205\n"),
    # the end
    ("#205\n1\"\n", "#205\n"), ("#205\n1\"\n", "#205\n1\""), ("#205\n1\"\n", "#205\n1\"\n\n"),
    ("#205\n1\"\n", "#205\n1\"\n#206\n"), ("#205\n1\"\n", "#205\n1\"\n0\"\n"),
    ("#205\n1\"\n", "#205\n1\"\n\0\n"),
]


def takes(text):
    try:
        vcd.read(text.encode())
    except vcd.Wrong:
        return False
    return True


def main():
    taken = [edit for edit in EDITS if GOOD.replace(*edit, 1) == GOOD or takes(GOOD.replace(*edit, 1))]
    for old, new in taken:
        print(f"reader: {new!r} is taken for {old!r}, or changes nothing")
    if taken or len(HEADER) != 257 or vcd.read(HEADER.encode()) != [] or vcd.read(GOOD.encode()) != READ:
        sys.exit("reader: the strict reader is not as it should be")
    print(f"reader: one good text is read, {len(EDITS)} wrong ones are refused")


if __name__ == "__main__":
    main()
