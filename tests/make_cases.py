#!/usr/bin/env python3
"""Makes the data and the expected output of the program `cases` from the vectors in tests/vectors/.

  tests/make_cases.py

Reads named.txt (`NAME | TERMS LITS PSIZE ASIZE CSIZE | ANSWER`) and spread.txt (without the name), byte strings in hex.
Writes crates/cases/data/cases.tab, a record for each case: 22 bytes of name, padded with blanks; five numbers of two bytes,
little-endian: the lengths of the two tables and of the three lent buffers; then the two tables. And crates/cases/stdout.
"""
import pathlib
import sys

root = pathlib.Path(__file__).resolve().parent.parent
PARTITION, ADDED, CLAUSES = 512, 4080, 49152


def lines(name):
    """The lines of a vector file that are no comment and not empty, each with its place."""
    path = root / "tests/vectors" / name
    for number, line in enumerate(path.read_text().splitlines(), 1):
        if line and not line.startswith("#"):
            yield "%s:%d" % (path.relative_to(root), number), line


def cases():
    for place, line in lines("named.txt"):
        name, given, answer = fields(place, line, 3)
        yield place, name, given, answer
    for number, (place, line) in enumerate(lines("spread.txt")):
        given, answer = fields(place, line, 2)
        yield place, "vector %d" % number, given, answer


def fields(place, line, count):
    parts = line.split(" | ")
    if len(parts) != count:
        sys.exit("%s: %d parts, and not %d" % (place, len(parts), count))
    return parts


def raw(text):
    return b"" if text == "-" else bytes.fromhex(text)


def given_bytes(place, given):
    """The two tables and the three lengths of what a case is given."""
    try:
        terms, literals, *room = given.split()
        partition, added, clauses = (int(n) for n in room)
        terms, literals = raw(terms), raw(literals)
    except ValueError:
        sys.exit("%s: not TERMS LITS PSIZE ASIZE CSIZE" % place)
    if not (0 <= partition <= PARTITION and 0 <= added <= ADDED and 0 <= clauses <= CLAUSES):
        sys.exit("%s: a buffer is longer than those that the program lends" % place)
    return terms, literals, [partition, added, clauses]


def main():
    if len(sys.argv) > 1:
        print("usage: tests/make_cases.py", file=sys.stderr)
        sys.exit(2)
    data, out = b"", ""
    for place, name, given, answer in cases():
        terms, literals, room = given_bytes(place, given)
        head = name.encode()[:22].ljust(22)
        data += head + b"".join(n.to_bytes(2, "little") for n in [len(terms), len(literals), *room]) + terms + literals
        out += "%s %s\n" % (head.decode(), answer)
    (root / "crates/cases/data/cases.tab").write_bytes(data)
    (root / "crates/cases/stdout").write_text(out + "end\n")
    print("wrote crates/cases/data/cases.tab and crates/cases/stdout", file=sys.stderr)


if __name__ == "__main__":
    try:
        main()
    except OSError as error:
        sys.exit("tests/make_cases.py: %s" % error)
