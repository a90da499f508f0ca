"""Works by the printed sheet, as a technician does, and compares with programs: repair_sheet.py SHEET PROGRAM... RUN has the command that runs them, if any.

What is known here is on the sheet's pages and in docs/RULES.md: neither the table in the code is read nor what makes the sheet. The programs are those of
repair_sheet.c. Packets come by the functions of vector-maker/make_vectors.py: some small ones with their header bits flipped, every one and two of them and
a sample of three and four, and then random words of four bytes alone.

A header by hand and a program agree where both refuse (2); where the packet is read, its mask being the bits turned over by hand; and where the program
refuses the header found by hand for its type, its length or what is behind it. A packet with no more bits flipped than named must come to what was sent.
"""
import collections
import dataclasses
import itertools
import os
import pathlib
import random
import re
import subprocess
import sys

from make_vectors import LONGEST, SMALL, ones, packet_of

COLUMNS, LINES = 78, 58
DIFFERENCES = 1024
PARITY = 31
PARTS = ("flag", 24, 7), ("length", 10, 14), ("check", 0, 10)  # each with the place of its bit 1, and how many bits it has below the parity
PLACES = {f"{part} bit {bit}": lowest + bit - 1 for part, lowest, bits in PARTS for bit in range(1, bits + 1)}
NAMED = 0, 1, 2
ACCEPTED, NO_HEADER, OTHER_TYPE, OTHER_LENGTH, CUT_OFF, CHECKSUM, MALFORMED = 0, 2, 3, 4, 5, 6, 7
NAME = r"(?:flag|length|check) bit [0-9]{1,2}"
P5_RECEIVED, P5_MASK = 0xC10004DD, 0x81000000


class Wrong(Exception):
    """What is wrong with the sheet."""


def demand(holds, message):
    if not holds:
        raise Wrong(message)


# ---- reading the sheet

@dataclasses.dataclass
class Sheet:
    numbers: dict  # of each place below the parity
    rows: list  # for each difference the places of the bits to turn over, or None for a dash


def pages_of(text):
    """The pages, if they can be printed."""
    demand(re.fullmatch(r"[\n\f -~]*", text), "a character that is neither printed ASCII nor a line or page end")
    pages = text.split("\f")
    for number, page in enumerate(pages, 1):
        lines = page.split("\n")
        demand(len(lines) > 1 and lines.pop() == "", f"page {number} does not end with a line's end")
        demand(len(lines) <= LINES, f"page {number} has {len(lines)} lines")
        demand(lines[0].endswith(f" page {number} of {len(pages)}"), f"{lines[0]!r} does not end with 'page {number} of {len(pages)}'")
        for line in lines:
            demand(len(line) <= COLUMNS and line == line.rstrip(), f"page {number}: too wide, or a space at the end: {line!r}")
    return pages


def place_of(name, place):
    """The place of a bit below the parity by its name, which must be the one printed beside it."""
    demand(PLACES.get(name) == int(place), f"{name} is not place {place}")
    return int(place)


def read_numbers(page):
    """The numbers in the list, and those in the worked example, which must be the same."""
    numbers = {}
    for name, place, number, binary in re.findall(rf"({NAME}) +([0-9]{{2}})  ([0-9A-F]{{3}})  ([01]{{2}} [01]{{4}} [01]{{4}})", page):
        demand(int(number, 16) == int(binary.replace(" ", ""), 2), f"the numbers of {name} are not the same")
        demand(numbers.setdefault(place_of(name, place), int(number, 16)) == int(number, 16), f"{name} has two numbers")
    demand(sorted(numbers) == list(range(PARITY)), f"the list has {len(numbers)} bits")
    return numbers


def read_row(cell):
    """The difference and the places."""
    row = re.fullmatch(rf"([0-9A-F]{{3}}) (?:(-)|none wrong|({NAME})(?:, ({NAME}))? +([0-9]{{2}})(?: ([0-9]{{2}}))?)", cell)
    demand(row and (row[4] is None) == (row[6] is None), f"{cell!r} is no row")
    places = [place_of(name, place) for name, place in ((row[3], row[5]), (row[4], row[6])) if name]
    demand(places == sorted(set(places), reverse=True), f"{cell!r} does not have the higher place first")
    return int(row[1], 16), None if row[2] else places


def read_rows(page):
    """The rows of a page, down its left column and then down its right one."""
    heading, dash, *lines = page.split("\n")
    demand(dash.startswith("A dash: "), f"{dash!r} does not say what a dash is")
    cells = [re.split(r" {2,}(?=[0-9A-F]{3} )", line) for line in lines if re.match(r"[0-9A-F]{3} ", line)]
    rows = [read_row(row[column]) for column in (0, 1) for row in cells if column < len(row)]
    demand(rows, f"{heading!r} has no rows below it")
    span = f"Differences {rows[0][0]:03X} to {rows[-1][0]:03X}:"
    demand(heading.startswith(span), f"{heading!r} does not begin with {span}")
    return rows


def read_sheet(text):
    first, *others = pages_of(text)
    demand(re.findall(r"(?m)^([0-9])  ", first) == list("123456"), "the first page does not have six numbered lines")
    rows = [row for page in others for row in read_rows(page)]
    demand([difference for difference, _ in rows] == list(range(DIFFERENCES)), "not one row for each difference, in their order")
    sheet = Sheet(read_numbers(first), [places for _, places in rows])
    demand([difference for difference, places in rows if places == []] == [0], "not 000 alone has none wrong")
    check_example(sheet, first)
    return sheet


# ---- the six steps

def work(sheet, received):
    """Steps 1 to 5: the difference, and a mask of the bits turned over, or None where none are to be had."""
    difference = 0
    for place, number in sheet.numbers.items():
        if received >> place & 1:
            difference ^= number
    places = sheet.rows[difference]
    if places is None:
        return difference, None
    mask = sum(1 << place for place in places)
    if ones((received ^ mask) >> 24) % 2 == 0:
        mask |= 1 << PARITY
    return difference, mask


def within(mask, named):
    """Step 6: the mask, or None where the header is refused."""
    return mask if mask is not None and ones(mask) <= named else None


def check_example(sheet, page):
    """That the worked example is P5, and that the first page has what comes of it by the sheet."""
    difference, mask = work(sheet, P5_RECEIVED)
    demand(mask == P5_MASK, "P5 does not come to two bits by the sheet")
    headers = [word.to_bytes(4, "big").hex(" ").upper() for word in (P5_RECEIVED, P5_RECEIVED ^ mask ^ 1 << PARITY, P5_RECEIVED ^ mask)]
    for words in (f"{headers[0]} is received", f"{P5_RECEIVED:032b}", f"exclusive or {difference:03X} {difference:010b}",
                  f"{difference:03X} names flag bit 1, place 24.", f"it is {headers[1]}.", f"flag bit 8 too, {headers[2]}.", f"mask {mask:08X}."):
        demand(words.replace(" ", "") in page.replace(" ", ""), f"the worked example does not say {words!r}")


# ---- what is received, and what the programs answer

def received_packets():
    """Header, the bytes behind it, and the header that was sent, or None where none was."""
    generator = random.Random(1)
    for format, data, sync in SMALL:
        whole = packet_of(format, data, sync)
        sent = int.from_bytes(whole[:4], "big")
        flipped = [places for count in (0, 1, 2) for places in itertools.combinations(range(32), count)]
        flipped += [generator.sample(range(32), count) for count in (3, 4) for _ in range(1000)]
        for places in flipped:
            yield sent ^ sum(1 << place for place in places), whole[4:], sent
    for _ in range(20000):
        yield generator.getrandbits(32), b"", None


def answers_of(program, received):
    """For each packet and each number named: refusal, how many bits were mended, and their mask."""
    lines = "".join(f"{named} {header:08X}{rest.hex()}\n" for header, rest, _ in received for named in NAMED)
    ran = subprocess.run([*os.environ.get("RUN", "").split(), program], input=lines, stdout=subprocess.PIPE, text=True, check=True)
    answers = [(int(refusal), int(mended), int(mask, 16)) for refusal, mended, mask in map(str.split, ran.stdout.splitlines())]
    demand(len(answers) == len(NAMED) * len(received), f"{program} gave {len(answers)} answers")
    demand({ACCEPTED, NO_HEADER, OTHER_TYPE, OTHER_LENGTH, CUT_OFF} <= {answer[0] for answer in answers}, f"{program} did not give every answer")
    return [answers[start:start + len(NAMED)] for start in range(0, len(answers), len(NAMED))]


# ---- the comparison

def first_refusal(header, behind):
    """What a header is refused for with so many bytes behind it (RULES, Refusals)."""
    kind, extended, spare, length = header >> 29 & 3, header >> 26 & 7, header >> 24 & 1, header >> 10 & 0x3FFF
    if kind != 2 or extended > 4 or spare == 1:
        return OTHER_TYPE
    if not 1 <= length <= LONGEST:
        return OTHER_LENGTH
    return CUT_OFF if behind < length + 2 else ACCEPTED


def agree(packet, mask, answer):
    received, rest, sent = packet
    refusal, mended, turned = answer
    if mask is None:
        return refusal == NO_HEADER
    header = received ^ mask
    wanted = first_refusal(header, len(rest))
    if wanted != ACCEPTED:
        return refusal == wanted
    if refusal == ACCEPTED:
        return (mended, turned) == (ones(mask), mask)
    return refusal in (CHECKSUM, MALFORMED) and header != sent


def by_hand(header, named, mask):
    return f"{header:08X}, {named} named: by hand " + ("refused" if mask is None else f"mask {mask:08X}")


def findings(sheet, received, answers):
    """Where the sheet leads to something else than a program's answer, or than what was sent."""
    for index, packet in enumerate(received):
        header, _, sent = packet
        _, turned = work(sheet, header)
        for named in NAMED:
            mask = within(turned, named)
            if sent is not None and ones(header ^ sent) <= named and mask != header ^ sent:
                yield f"{by_hand(header, named, mask)}, sent was {sent:08X}"
            for program in answers:
                answer = answers[program][index][named]
                if not agree(packet, mask, answer):
                    yield by_hand(header, named, mask) + ", {} answers refusal {}, {} mended, mask {:08X}".format(os.path.basename(program), *answer)


def check_kinds(sheet, received):
    """That every row was looked up, and every end was come to."""
    kinds, differences = collections.Counter(), set()
    for header, _, _ in received:
        difference, turned = work(sheet, header)
        differences.add(difference)
        for named in NAMED:
            mask = within(turned, named)
            if mask is None:
                kinds["none to be had" if turned is None else "more than named"] += 1
            else:
                kinds[ones(mask)] += 1
                kinds["flag bit 8"] += mask >> PARITY
    demand(len(differences) == DIFFERENCES, f"only {len(differences)} rows were looked up")
    for kind in "none to be had", "more than named", "flag bit 8", *NAMED:
        demand(kinds[kind] > 0, f"no header came to: {kind}")


def wrong_sheets(sheet):
    """The sheet with one row or one number wrong."""
    generator = random.Random(2)
    for place in range(PARITY):
        number = sheet.numbers[place] ^ 1 << generator.randrange(10)
        yield f"another number for place {place}", Sheet({**sheet.numbers, place: number}, sheet.rows)
    for difference in generator.sample(range(DIFFERENCES), 60):
        for other in [generator.sample(range(PARITY), 2)] + [None] * (sheet.rows[difference] is not None):
            rows = [*sheet.rows[:difference], other, *sheet.rows[difference + 1:]]
            yield f"{other} in row {difference:03X}", Sheet(sheet.numbers, rows)


def main(file, programs):
    sheet = read_sheet(pathlib.Path(file).read_bytes().decode("latin-1"))
    received = list(received_packets())
    answers = {program: answers_of(program, received) for program in programs}
    found = list(findings(sheet, received, answers))
    print("".join(f"wrong: {finding}\n" for finding in found[:10]), end="")
    demand(not found, f"{len(found)} findings")
    check_kinds(sheet, received)
    wrong = list(wrong_sheets(sheet))
    for what, other in wrong:
        demand(next(findings(other, received, answers), None), f"a sheet with {what} was not told")
    print(f"{len(received)} headers worked by hand from the sheet as the programs answer, {len(wrong)} wrong sheets told")


if __name__ == "__main__":
    try:
        main(sys.argv[1], sys.argv[2:])
    except Wrong as message:
        sys.exit(f"repair_sheet: {message}")
