#!/usr/bin/env python3
"""Respells this repository's own definitions and lemmas as today's Rattle spells names.

usage: python3 tools/respell.py [FOLDER]

Run once, after the toolchain's port.py, at the top of FOLDER (here, if none is given). A function or a field is
written in snake case and a fact as a type. In a lemma a dash still joins two names, as in `written-digits`, the written
number of digits. Goals that the check names, strings, comments and Rust's own items stay as they are; in docs/ and
README.md only names between backquotes are turned.
"""

import glob
import os
import re
import sys

# Facts, in upper camel case.
FACTS = """
Adds-up All-stand Corrected-by-formula Cycle-takes Leap-day Lengthened-second Longest-cycle Longest-wait No-such-date
Shortened-second Shortest-cycle Fits-32-bits
"""

# Everything else, where each dash becomes an underscore.
WORDS = """
accounted-more all-at all-begin all-below all-blanks all-bytes all-dated all-decimal all-follow all-no-31st all-or-none
all-recur all-stored any-cases any-is asked-nothing asked-something at-day at-time back-month back-year backs-date
before-runs bit-5 blank-line blanks-are-passed blanks-more by-formula byte-from byte-read byte-was bytes-from bytes-of
bytes-written calibration-in comes-again comes-first comes-from comes-later comes-next corrected-all corrected-before
corrected-by-formula corrected-counted corrected-cycle corrected-grows corrected-most corrected-next corrected-none
corrected-over corrected-past corrected-within count-from count-in count-read count-was counts-after cycle-least
cycle-most cycle-takes date-after date-at date-at-exists date-at-next date-in date-in-year date-of date-on dated-at
dated-is day-after day-follows day-on day-quiet days-before days-later digits-of end-blank end-column ended-stops-field
fault-in few-cycles field-ends field-from field-stops-blanks finds-some fits-64 four-from four-parts from-b from-c
from-cycle from-d front-more front-passes grows-by hearable-from heard-from hex-byte hex-digit hour-follows hour-on
how-many hundredths-in if-lengthened if-shortened if-there in-cycle in-cycle-all in-cycle-next in-day in-hour in-next
in-this index-after iterate-add iterate-more iterate-none later-exists latest-most leading-run leads-on
lengthened-second location-named locations-of longest-cycle longest-wait lowest-fault march-noon match-some matches-at
minute-follows minute-on month-length month-length-most month-named most-units next-second no-31st no-blank no-byte-more
no-such-date none-at-fault noon-only not-empty nothing-from nothing-was nothing-without number-below on-date on-day
one-answer-more one-before one-byte-more one-if one-second one-store-more one-word-on only-blanks onto-before over-cycles
pairs-half pairs-large pairs-more pairs-none parted-more passed-is-blank passes-both passes-some past-blanks past-solids
plus-writes-nothing quiet-days quiet-inner quiet-join quiet-outer reached-more read-is-written reads-back reads-count
reads-request request-in request-written rest-is rings-at rings-soon run-same running-of same-is second-of-day
shortened-second shortest-cycle shown-again shows-again silent-for-ever since-new-cycle some-match some-passes some-units
soon-on start-accounted start-cycle start-grows start-next start-over steps-exist store-answer stores-in text-is
text-line the-date the-date-is this-placed this-runs time-in time-of units-accounted units-of unpacked-at with-bytes
without-last word-bytes word-in-bytes written-is-read
"""

# Lemmas whose dash joins two names, one of which has a dash of its own.
JOINED = {
    "bytes-of-set": "bytes_of-set",
    "date-at-number": "date_at-number",
    "length-bytes-of": "length-bytes_of",
    "word-of-bytes": "word_of-bytes",
}


def fact(name):
    return "".join(part[0].upper() + part[1:] for part in name.split("-"))


TABLE = {name: fact(name) for name in FACTS.split()}
TABLE.update((name, name.replace("-", "_")) for name in WORDS.split())
TABLE.update(JOINED)

# A character that a name may have: no name begins or ends within another one.
PART = r"[\w'\-]"
NAME = re.compile(f"(?<!{PART})(?:{'|'.join(sorted(map(re.escape, TABLE), key=len, reverse=True))})(?!{PART})")


def respelled(text):
    return NAME.sub(lambda found: TABLE[found.group()], text)


def outside_comments(text, comment, quoted):
    """The text with names respelled but in comments and, where strings may stand, in those."""
    lines = []
    for line in text.split("\n"):
        code, mark, rest = line.partition(comment)
        pieces = code.split('"') if quoted else [code]
        pieces[::2] = [respelled(piece) for piece in pieces[::2]]
        lines.append('"'.join(pieces) + mark + rest)
    return "\n".join(lines)


def clauses(text):
    """Rust source, with the names in its clauses respelled; in code a dash is a minus."""
    return outside_comments(text, "//", True)


def statements(text):
    return outside_comments(text, "-- ", True)


def pages(text):
    return re.sub(r"`[^`\n]*`", lambda found: respelled(found.group()), text)


def main():
    os.chdir(sys.argv[1] if len(sys.argv) > 1 else ".")
    kinds = [
        ("crates/*/src/**/*.rt", clauses),
        ("crates/*/specs/**/*.antt", statements),
        ("crates/*/proofs/**/*.antt", statements),
        ("docs/*.md", pages),
        ("README.md", pages),
    ]
    for pattern, turn in kinds:
        for path in sorted(glob.glob(pattern, recursive=True)):
            with open(path, encoding="utf-8") as file:
                old = file.read()
            new = turn(old)
            if pattern.endswith(".antt"):
                for name in sorted(set(NAME.findall(old))):
                    if re.search(f"(?<!{PART}){re.escape(TABLE[name])}(?!{PART})", old):
                        print(f"look: {path}: {TABLE[name]} stood there before {name} became that")
            if new != old:
                with open(path, "w", encoding="utf-8") as file:
                    file.write(new)


if __name__ == "__main__":
    main()
