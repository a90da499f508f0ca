#!/usr/bin/env python3
"""Writes docs/repair-table.txt, the printed sheet by which the wrong bits of a received header are found by hand.

It is made from the table in the code, crates/repair/src/differences.rt. An entry there names two places of the header's 32 bits, the higher first; 31 stands
for no bit, and 99_99 says that there are no bits to be had. Nothing of the table is worked out anew, so that the sheet says what the code has: a bit's own
number is the difference whose entry names that bit alone, and the worked example follows the sheet's six steps by these entries. It must come to what RULES,
Edges, says of P5.

    python3 sheet-maker/make_sheet.py            writes the sheet
    python3 sheet-maker/make_sheet.py --check    writes nothing: is it what would be written?
"""
import itertools
import pathlib
import re
import sys

ROOT = pathlib.Path(__file__).resolve().parent.parent
TABLE = "crates/repair/src/differences.rt"
SHEET = "docs/repair-table.txt"

DIFFERENCES = 1024
NO_BIT = 31  # none of the 31 bits below the parity
NOTHING = 99, 99
PARITY = 31
PARTS = ("flag", 24), ("length", 10), ("check", 0)  # each with the place of its bit 1
P5_RECEIVED, P5_HEADER, P5_TURNED = 0xC10004DD, 0x400004DD, 2

HEADING = 77  # columns: one less than the 78 of a line, since a form feed stands before it
ROWS = 48  # of a column; with the blank lines and the heading a page has 58 lines at most
GROUP = 8  # rows between two blank lines

STEPS = """\
1  Write the header, the first four bytes, as 32 bits: places 31 down to 0.
2  The difference: exclusive or of the numbers of the ones in places 30 to 0.
3  Look it up on the next pages. 000: none of these 31 bits is wrong.
4  Turn over the bits that it names. A dash: none are to be had, refusal 2.
5  Count the ones in the flag byte as it is NOW. Even: turn over flag bit 8.
6  More bits than named turned over in ALL: refusal 2. Else it is the header.
"""
WORDS = """\
bits                 numbered from 1 (lowest), as in the flag of document 001:
flag bits 8 to 1     places 31 to 24, the first byte: 8 parity, 7 and 6 type,
                     5 to 3 extended type, 2 time sync, 1 spare
length bits 14 to 1  places 23 to 10
check bits 10 to 1   places 9 to 0
number of a bit      in the list below; flag bit 8 (place 31) has none
exclusive or         below each column 1 for an odd count of ones, 0 for even
named                how many bits the reader may turn over, 1 unless it was
                     told otherwise, 2 at most; flag bit 8 counts like any bit
"""
MADE = "\nMade from the table in the code by sheet-maker/make_sheet.py.\n"


# ---- the table

def entry_of(word):
    """The places that an entry names, the higher first, or None where there are no bits to be had."""
    form = re.fullmatch(r"([0-9]{2})_([0-9]{2}),", word)
    if not form:
        sys.exit(f"{TABLE}: {word!r} is no entry")
    higher, lower = int(form[1]), int(form[2])
    if (higher, lower) == NOTHING:
        return None
    if not (lower < higher <= NO_BIT or lower == higher == NO_BIT):
        sys.exit(f"{TABLE}: {word!r} does not name places, the higher first")
    return [place for place in (higher, lower) if place != NO_BIT]


def read_table(source):
    """The entries, several on a line. A comment among them must be the difference that the next one is for."""
    arrays = re.findall(rf"(?ms)\bconst ENTRIES: \[u16; {DIFFERENCES}\] = \[\n(.*?)^\];$", source)
    if len(arrays) != 1:
        sys.exit(f"{TABLE}: {len(arrays)} arrays ENTRIES of {DIFFERENCES} entries instead of one")
    entries = []
    for line in arrays[0].splitlines():
        if not line.lstrip().startswith("//"):
            entries += map(entry_of, line.split())
        elif line != f"    // {len(entries):03X}":
            sys.exit(f"{TABLE}: {line!r} stands before the entry of {len(entries):03X}")
    if len(entries) != DIFFERENCES:
        sys.exit(f"{TABLE}: {len(entries)} entries instead of {DIFFERENCES}")
    return entries


def numbers_of(entries):
    """For each place below the parity the difference that its bit alone leaves."""
    single = [(places[0], difference) for difference, places in enumerate(entries) if places is not None and len(places) == 1]
    if sorted(place for place, _ in single) != list(range(PARITY)):
        sys.exit(f"{TABLE}: not one entry for each of the {PARITY} single bits")
    return dict(single)


# ---- how things are written

def ones(number):
    return bin(number).count("1")


def name_of(place):
    part, lowest = next((part, lowest) for part, lowest in PARTS if place >= lowest)
    return f"{part} bit {place - lowest + 1}"


def names_of(places):
    return ", ".join(map(name_of, places))


NAME_WIDTH = max(len(name_of(place)) for place in range(PARITY))
NAMES_WIDTH = len(", ") + 2 * NAME_WIDTH


def places_of(places):
    return " ".join(f"{place:02}" for place in places)


def bytes_of(word):
    return word.to_bytes(4, "big").hex(" ").upper()


def in_fours(digits):
    """With a space before every four digits, counted from the end."""
    return re.sub(r"(?<=.)(?=(?:.{4})+$)", " ", digits)


def number_line(name, place, number):
    return f"{name:{NAME_WIDTH}}  {place:2}  {number:03X}  {in_fours(f'{number:010b}')}"


def row_of(difference, places):
    if places is None:
        return f"{difference:03X} -"
    return f"{difference:03X} {names_of(places) or 'none wrong':{NAMES_WIDTH}} {places_of(places)}".rstrip()


def columns(rows, column, gap):
    """The rows in two columns, the second from row number `column` on, with a blank line behind each group."""
    width = gap + max(map(len, rows))
    lines = [f"{left:{width}}{right}".rstrip() for left, right in itertools.zip_longest(rows[:column], rows[column:], fillvalue="")]
    groups = [lines[start:start + GROUP] for start in range(0, len(lines), GROUP)]
    return "\n\n".join("\n".join(group) for group in groups) + "\n"


# ---- the pages

def heading(words, page, pages):
    return f"{words}{f'page {page} of {pages}':>{HEADING - len(words)}}\n"


def work(received, entries, numbers):
    """Steps 2 to 5: the places of the ones with numbers, the difference, the places that it names, the word with these turned over, and the header."""
    numbered = [place for place in reversed(range(PARITY)) if received >> place & 1]
    difference = 0
    for place in numbered:
        difference ^= numbers[place]
    places = entries[difference]
    if places is None:
        sys.exit(f"{TABLE}: for {received:08X} there are no bits to be had")
    told = received ^ sum(1 << place for place in places)
    header = told if ones(told >> 24) % 2 == 1 else told ^ 1 << PARITY
    return numbered, difference, places, told, header


def example(entries, numbers):
    numbered, difference, places, told, header = work(P5_RECEIVED, entries, numbers)
    mask = P5_RECEIVED ^ header
    turned = ones(mask)
    if (header, turned) != (P5_HEADER, P5_TURNED):
        sys.exit(f"{TABLE}: P5 comes to {header:08X} with {turned} bits turned over, and not to {P5_HEADER:08X} with {P5_TURNED}")
    tens, units = ("".join(f"{place:02}"[digit] for place in reversed(range(32))) for digit in (0, 1))
    lines = "\n         ".join(number_line(name_of(place), f"{place:02}", numbers[place]) for place in numbered)
    return f"""\
Worked example (P5 of docs/RULES.md): {bytes_of(P5_RECEIVED)} is received.
Step 1   {in_fours(tens)}   places, the tens
         {in_fours(units)}   and the units
         {in_fours(f"{P5_RECEIVED:032b}")}   the header
Step 2   {lines}
         {number_line("exclusive or", "", difference)}
Step 3   {difference:03X} names {names_of(places)}, place {places_of(places)}.
Step 4   With this bit turned over it is {bytes_of(told)}.
Step 5   The flag {told >> 24:02X} has {ones(told >> 24)} ones, even: flag bit 8 too, {bytes_of(header)}.
Step 6   {turned} bits were turned over, mask {mask:08X}. With 2 named this is the
         header (Open, no sync, length 1). With 1 named it is refusal 2.
"""


def first_page(entries, pages):
    numbers = numbers_of(entries)
    rows = [number_line(name_of(place), f"{place:02}", numbers[place]) for place in reversed(range(PARITY))]
    return "\n".join((
        heading("WRONG BITS IN A GOES DCS PACKET HEADER: which to turn over", 1, pages),
        STEPS,
        WORDS,
        example(entries, numbers),
        "Each bit below the parity, its place, and its number, hexadecimal and binary\n" + columns(rows, 16, 6)))


def table_page(entries, first, page, pages):
    last = min(first + 2 * ROWS, DIFFERENCES) - 1
    rows = [row_of(difference, entries[difference]) for difference in range(first, last + 1)]
    return (heading(f"Differences {first:03X} to {last:03X}: bits to turn over, and their places", page, pages)
            + "A dash: none are to be had, refusal 2.\n\n" + columns(rows, (len(rows) + 1) // 2, 2))


def make(entries):
    starts = range(0, DIFFERENCES, 2 * ROWS)
    pages = 1 + len(starts)
    return "\f".join([first_page(entries, pages), *(table_page(entries, first, page, pages) for page, first in enumerate(starts, 2))]) + MADE


def main(words):
    if words not in ([], ["--check"]):
        sys.exit("usage: make_sheet.py [--check]")
    made = make(read_table((ROOT / TABLE).read_text())).encode("ascii")
    file = ROOT / SHEET
    if not words:
        file.write_bytes(made)
        return
    found = file.read_bytes() if file.exists() else b""
    if found != made:
        pairs = itertools.zip_longest(found.split(b"\n"), made.split(b"\n"))
        line = next(number for number, (one, other) in enumerate(pairs, 1) if one != other)
        sys.exit(f"{SHEET} is not what sheet-maker/make_sheet.py makes: line {line} is the first that differs")


if __name__ == "__main__":
    main(sys.argv[1:])
