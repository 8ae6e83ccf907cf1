#!/usr/bin/env python3
"""What the gate would not miss, were it gone. Reads crates/ and prints

    - each statement in specs/ (a definition or record that is a type and claims something) that no contract names, neither itself
      nor through another statement that one names: its proof could be deleted and every crate would still be proved;
    - each public law in proofs/ that nothing uses: no other law, no proof of a function, and no attribute of a function.

Leaves with 1 if there is any.
"""

import collections
import pathlib
import re
import sys

CRATES = pathlib.Path(__file__).resolve().parent.parent / "crates"
NAME = r"[^\s{}()]+"


def text(path):
    """A file without its comments."""
    lines = path.read_text(encoding="utf-8").splitlines()
    return "\n".join(line for line in lines if not line.lstrip().startswith(("--", "//")))


def words(source):
    """The words of a text, as antt and Rattle part them."""
    return re.findall(r"[^\s{}()\[\]⌜⌝,;:.]+", source)


def paragraphs(source):
    """The declarations of a file: they are parted by empty lines."""
    return [part for part in re.split(r"\n\s*\n", source) if part.strip()]


def types(files):
    """Name, file and text of every definition, record and data type in specs/ that is a type."""
    for path, source in files.items():
        if "specs" not in path.parts:
            continue
        for part in paragraphs(source):
            head = re.search(rf"^(?:abbrev |unfoldable )?pub (?:record |data )?({NAME}) .*(?:\n +.*)*?Type 0( where)?$", part, re.M)
            if head is not None:
                yield head[1], path, part


def claims(part):
    """Whether a type claims something: a data type lists shapes, and a record of plain fields holds data."""
    return "pub data " not in part and re.search(r"[≡≤<]", part) is not None


def ensured(source):
    """What the contracts of a source file ensure: the text of each `ensures` clause, between its braces."""
    for clause in re.finditer(r"\bensures\b\*?\s*\w*\s*\{", source):
        depth, at = 1, clause.end()
        while depth and at < len(source):
            depth += (source[at] == "{") - (source[at] == "}")
            at += 1
        yield source[clause.end() : at - 1]


def held(known, contracts):
    """The types that a contract names, and those that these name in turn."""
    reached, new = set(), set(words(contracts))
    while new:
        reached |= new
        new = set().union(*(words(part) for name, _, part in known if name in new)) - reached
    return reached


def loose_laws(files):
    """Each public law that stands nowhere but at its own head. The specification that a proof by hand ends in is the check's own to use."""
    count = collections.Counter(word for source in files.values() for word in words(source))
    for path, source in files.items():
        if "proofs" not in path.parts:
            continue
        for indent, law in re.findall(rf"^( *)pub ({NAME}) :", source, re.M):
            clauses = len(re.findall(rf"^{indent}(?:pub )?{re.escape(law)} ", source, re.M))
            if count[law] <= clauses and not (path.name == "Proof.antt" and law.endswith("_spec")):
                yield law, path


def main():
    files = {path: text(path) for part in ("src", "specs", "proofs") for path in sorted(CRATES.glob(f"*/{part}/**/*.*"))}
    contracts = "\n".join(clause for path, source in files.items() if path.suffix == ".rt" for clause in ensured(source))
    known = list(types(files))
    statements = [(name, path) for name, path, part in known if claims(part)]
    reached = held(known, contracts)
    faults = [f"{path.relative_to(CRATES)}: no contract names the statement {name}" for name, path in statements if name not in reached]
    faults += [f"{path.relative_to(CRATES)}: nothing uses the law {law}" for law, path in loose_laws(files)]
    for fault in faults:
        print(fault)
    print(f"held: {len(statements)} statements, {len(faults)} faults")
    sys.exit(1 if faults else 0)


if __name__ == "__main__":
    main()
