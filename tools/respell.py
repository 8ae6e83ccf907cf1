#!/usr/bin/env python3
"""Brings the repository's own names to today's spelling, once, after the kit's port.py and at the top of the checkout.

    respell.py

Definitions, fields and lemmas are then in snake case, without capitals and without dashes; types keep their capitals, and so do the
names of the two ports, A and B. What antt makes of a name of the source (loop-i-preserved, Need-returns) is no name of ours and stays.
The must-fail edits, which port.py leaves as they are, get the new names too, and the two spellings that changed with them: a hole of
an operator is a dotted circle, and a field is written tight. Strings stay: a row is called "A13.1" as before.
"""

import pathlib
import re
import subprocess

CRATES = pathlib.Path("crates")
# A word, as antt parts them.
WORD = re.compile(r"""[^\s(){}\[\],;."`⌜⌝]+""")
STRING = re.compile(r'("[^"]*")')
TICKED = re.compile(r"(`[^`]*`)")
LIBRARIES = ("mathlib.", "lib.", "Prim.", "borrow.", "Rattle.std.", "denote.")
# What would fall together with another name of its place: the function whose contract names the definition, a definition, a lemma of
# the library.
APART = {
    "freshChip": "chip_fresh",
    "gapAfter": "gap_from",
    "placeRow": "row_of_place",
    "sizeIn": "size_from",
    "first_frame": "first_frame_is",
    "chip-at": "chip_at_lem",
    "port-at": "port_at_lem",
    "see-doing": "see_doing_lem",
    "byte-in": "byte_in_lem",
    "time-line": "time_line_lem",
    "place-test": "place_test_lem",
    "bit-and": "bit_and_lem",
    "bit-or": "bit_or_lem",
    "bool-byte": "bool_byte_lem",
    "all-bytes": "every_byte",
}
# Names of the library that stand in edits: elsewhere port.py has turned them.
LIBRARY_NAMES = {"getD": "get_or", "dropLast": "drop_last"}


def lines_of(path):
    return path.read_text(encoding="utf-8").splitlines()


def snake(name):
    """A name in snake case. A type's name in it, which begins with a capital, keeps its capitals."""
    parts = []
    for part in re.split(r"[-·]", name):
        if re.match(r"[a-z◌]", part):
            part = re.sub(r"(?<=[a-z0-9◌'])[A-Z]", lambda m: "_" + m[0].lower(), part)
        parts.append(part)
    return "_".join(parts)


def row_name(name):
    """A row's own name: A13·1 is a13_1."""
    return name.lower().replace("·", "_")


def declared(path):
    """The names that an antt file declares: definitions, lemmas, fields, constructors."""
    for line in lines_of(path):
        head = re.match(r"\s*(?:abbrev |unfoldable )?(?:pub )?(?:abbrev )?(?:data |record )?([^\s:()={}]+)(?: [({].*)? :", line)
        if head is not None and not line.lstrip().startswith("--"):
            yield head[1]


def imported(path):
    """What a file takes from the library."""
    for line in lines_of(path):
        use = re.match(r"(?:ghost )?use ([^{]*)\{(.*)\}", line)
        if use is not None and use[1].startswith(LIBRARIES):
            yield from (name.strip() for name in use[2].split(","))


def made_of_names(files):
    """Old name to new name, of all that the repository's antt files declare."""
    foreign = {name for path in files for name in imported(path)}
    foreign |= {name for path in CRATES.glob("*/src/*.rt") for name in imported(path)}
    new = {}
    for path in files:
        rows = path.parts[1] == "sessions" and path.name == "Sessions.antt" and "specs" in path.parts
        for name in declared(path):
            turned = row_name(name) if rows and name != "rows" else snake(name)
            turned = APART.get(name, turned)
            if turned != name and name not in foreign:
                new[name] = turned
    return new


def replaced(text, new):
    return WORD.sub(lambda word: new.get(word[0], word[0]), text)


def outside_strings(text, new):
    parts = STRING.split(text)
    return "".join(part if part.startswith('"') else replaced(part, new) for part in parts)


def in_ticks(text, new):
    parts = TICKED.split(text)
    return "".join(replaced(part, new) if part.startswith("`") else part for part in parts)


def antt_line(line, new):
    code, dashes, comment = line.partition("--")
    return outside_strings(code, new) + dashes + in_ticks(comment, new)


def source_line(line, new):
    """Of a source file only contracts, their imports and what comments name are antt's."""
    if re.match(r"\s*//", line):
        return in_ticks(line, new)
    if re.match(r"\s*(ghost |requires |ensures )", line):
        return replaced(line, new)
    return line


def edit_line(line, antt, new):
    """A must-fail edit: its old and new text."""
    if not re.match(r"(old|new):", line):
        return line
    head, text = line[:4], line[4:]
    if antt or re.match(r"\s*(ghost |requires |ensures )", text):
        text = re.sub(r"(?<![^\s({,])_(?=[^\s_]+_(?![\w]))([^\s_]+)_(?!\w)", r"◌\1◌", text)
        text = text.replace("if_then_else_", "if◌then◌else◌")
        text = re.sub(r"(?<=[\w')]) \.(?=[\w])", ".", text)
        text = outside_strings(text, new)
        text = re.sub(r"\((\w+(?:\.\w+)+)\)", r"\1", text)
    return head + text


def rewrite(path, turn):
    old = path.read_text(encoding="utf-8")
    new = "\n".join(turn(line) for line in old.split("\n"))
    if new != old:
        path.write_text(new, encoding="utf-8")


def before_port():
    """The names that port.py turned: those of the last commit, beside those of the files as they stand."""
    turned = {}
    for path in list(CRATES.glob("*/specs/*.antt")) + list(CRATES.glob("*/proofs/*.antt")):
        old = subprocess.run(["git", "show", f"HEAD:{path}"], capture_output=True, text=True, check=False).stdout
        names = set(WORD.findall("\n".join(line.partition("--")[0] for line in old.splitlines())))
        now = set(declared(path))
        for name in names - now:
            for one in (snake(name), re.sub(r"-", "_", name)):
                if one in now and one != name:
                    turned[name] = one
    return turned


def main():
    files = sorted(path for part in ("specs", "proofs") for path in CRATES.glob(f"*/{part}/**/*.antt"))
    turned = before_port()
    new = made_of_names(files)
    for path in files:
        rewrite(path, lambda line: antt_line(line, new))
    for path in sorted(CRATES.glob("*/src/*.rt")):
        rewrite(path, lambda line: source_line(line, new))
    for path in sorted(CRATES.glob("*/must-fail/*.edit")):
        antt = any(re.match(r"file: (specs|proofs)/", line) for line in lines_of(path))
        rewrite(path, lambda line: edit_line(line, antt, {**LIBRARY_NAMES, **turned, **new}))
    print(f"respelled: {len(new)} names")


if __name__ == "__main__":
    main()
