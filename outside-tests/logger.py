"""What the archive for loggers is made of, by objdump: logger.py OBJDUMP ARCHIVE. What it exports and needs, and its bytes of code, tables and operands.

A logger may be without the C library, so the archive may need nothing from outside.

An operand is a constant that an instruction works with where it stands, in .rodata.cst*. Whatever else is loaded and is no code is a table. Compilers put
small tables among the operands too. So there, these bytes are tables: the sixteen entries of the checksum, those whose address is taken, as by an index,
and those that are copied to the stack as they are, to be indexed there. Bytes that the code puts together of immediate numbers count as code.
"""
import collections
import dataclasses
import os
import re
import subprocess
import sys

EXPORTED = ["rosopyat_write"]
MOST_TABLES = 64
POLYNOMIAL = 0xD175
OPERANDS = ".rodata.cst"

SECTION = re.compile(r" *\d+ (.+?) +([0-9a-f]{8,16})  [0-9a-f]{16}  [0-9a-f]{16}  [0-9a-f]{8,16}  2\*\*\d+  (.*)")
SYMBOL = re.compile(r"([0-9a-f]{16}) (.{7}) ([^\t]+)\t[0-9a-f]{16} (?:\.(?:hidden|internal|protected) )?(.+)")
CONTENTS = re.compile(r" [0-9a-f]+ (.{35})  ")
INSTRUCTION = re.compile(r" +[0-9a-f]+:\t([^\t]*)(.*)")
RELOCATION = re.compile(r"\t([0-9a-f]+): R_X86_64_\w+\t([^\t]+?)([+-]0x[0-9a-f]+)?(?=\t|$)")
IN_PLACE = re.compile(r"\w+ .*0x0\(%rip\).*# ([0-9a-f]+)")
LOAD = re.compile(r"v?mov\w* +0x0\(%rip\),(%\w+)")


@dataclasses.dataclass
class Member:
    """A file of the archive."""
    name: str
    sections: dict = dataclasses.field(default_factory=dict)  # size and flags
    symbols: list = dataclasses.field(default_factory=list)  # name, section, value and flags
    bytes: dict = dataclasses.field(default_factory=lambda: collections.defaultdict(bytes))
    code: list = dataclasses.field(default_factory=list)  # each instruction with its relocations: place, symbol and addend

    def of_kind(self, kind):
        return {name: size for name, (size, flags) in self.sections.items() if kind_of(name, flags) == kind}


class Wrong(Exception):
    """What keeps the archive from being counted."""


def kind_of(name, flags):
    if "ALLOC" not in flags:
        return None
    return "code" if "CODE" in flags else "operands" if name.startswith(OPERANDS) else "tables"


def read_line(member, line, under):
    if under == "sections" and (row := SECTION.fullmatch(line)):
        if row[1] in member.sections:
            raise Wrong(f"{member.name} has two sections {row[1]}")
        member.sections[row[1]] = int(row[2], 16), row[3].split(", ")
    elif under == "symbols" and (row := SYMBOL.fullmatch(line)):
        member.symbols.append((row[4], row[3], int(row[1], 16), row[2]))
    elif under == "code" and (row := INSTRUCTION.fullmatch(line)):
        member.code.append((row[1], [(int(place, 16), symbol, int(addend or "0", 16)) for place, symbol, addend in RELOCATION.findall(row[2])]))
    elif under.startswith("bytes ") and (row := CONTENTS.match(line)):
        member.bytes[under.removeprefix("bytes ")] += bytes.fromhex(row[1])
    elif under in ("sections", "symbols") and line and not line.startswith("Idx "):
        raise Wrong(f"not understood: {line}")


def heading(line):
    """What a line says of those below it, or None."""
    row = re.fullmatch(r"(Contents|Disassembly) of section (.+):", line)
    if row is None:
        return {"Sections:": "sections", "SYMBOL TABLE:": "symbols"}.get(line)
    return "code" if row[1] == "Disassembly" else f"bytes {row[2]}"


def read_archive(objdump, archive):
    ran = subprocess.run([objdump, "-whtsdr", "--no-show-raw-insn", archive], stdout=subprocess.PIPE, text=True, errors="replace",
                         env={**os.environ, "LC_ALL": "C"})
    if ran.returncode != 0:
        raise Wrong("objdump cannot read it")
    members, under = [], ""
    for line in ran.stdout.split("\n"):
        if row := re.fullmatch(r"(\S.*): +file format (.+)", line):
            if row[2] != "elf64-x86-64" or row[1] in [member.name for member in members]:
                raise Wrong(f"{row[1]} has format {row[2]}, or is there twice")
            members.append(Member(row[1]))
            under = ""
        elif said := heading(line):
            under = said
        elif members:
            read_line(members[-1], line, under)
    if not any(member.code for member in members):
        raise Wrong("no code was found")
    for member in members:
        for name, size in [*member.of_kind("tables").items(), *member.of_kind("operands").items()]:
            if "CONTENTS" in member.sections[name][1] and len(member.bytes[name]) != size:
                raise Wrong(f"{len(member.bytes[name])} bytes of {name} were found, not {size}")
    return members


# ---- exports

def exports(members):
    symbols = [symbol for member in members for symbol in member.symbols]
    needed = {name for name, section, _, _ in symbols if section == "*UND*"}
    exported = sorted(name for name, section, _, flags in symbols if section != "*UND*" and (flags[0] in "gu!" or flags[1] == "w"))
    needed = sorted(needed - set(exported))
    print(f"exports {' '.join(exported) or 'nothing'}, needs {' '.join(needed) or 'nothing'}")
    if exported != EXPORTED:
        yield f"exports {' '.join(exported) or 'nothing'}, and not {' '.join(EXPORTED)} alone"
    if needed:
        yield f"needs {' '.join(needed)} from outside"


# ---- tables among the operands

def sixteen_entries():
    """Little endian."""
    for entry in range(16):
        entry <<= 12
        for _ in range(4):
            entry = (entry << 1 ^ (POLYNOMIAL if entry & 0x8000 else 0)) & 0xFFFF
        yield from entry.to_bytes(2, "little")


def places_of_sixteen(members, wrong):
    """The section and offset of each byte of the sixteen entries. Their two halves may stand apart."""
    entries, places = bytes(sixteen_entries()), set()
    for half in entries[:16], entries[16:]:
        found = [(member.name, name, at) for member in members for kind in ("tables", "operands") for name in member.of_kind(kind)
                 for at in range(len(member.bytes[name])) if member.bytes[name].startswith(half, at)]
        if len(found) != 1:
            wrong.append(f"half of the sixteen entries, {half.hex().upper()}, is there {len(found)} times")
        places |= {(member, name, at + i) for member, name, at in found for i in range(16)}
    return places


def copied(code, at):
    """Whether what this instruction loads is put on the stack by the next one that names the register."""
    load = LOAD.match(code[at][0])
    if load is None:
        return False
    following = next((text for text, _ in code[at + 1:] if re.search(rf"{load[1]}\b", text)), "")
    return re.match(rf"v?mov\w* +{load[1]},-?(?:0x[0-9a-f]+)?\(%r[sb]p", following) is not None


def tables_among_operands(member):
    """Section and offset of each, its size, and why it is a table."""
    found, named = {}, False
    operands = member.of_kind("operands")
    values = {name: (section, value) for name, section, value, _ in member.symbols} | {name: (name, 0) for name in operands}
    for at, (text, relocations) in enumerate(member.code):
        for place, symbol, addend in relocations:
            section, value = values.get(symbol, ("", 0))
            if section not in operands:
                continue
            named = True
            size = int(re.match("[0-9]+", section.removeprefix(OPERANDS))[0])
            in_place = IN_PLACE.match(text)
            offset = value + addend + (int(in_place[1], 16) - place if in_place else 0)
            why = "its address is taken" if not in_place or text.startswith("lea ") else "copied to the stack" if copied(member.code, at) else None
            if why:
                found[section, offset // size * size] = size, why
    if operands and not named:
        raise Wrong("no instruction was found that names an operand")
    return found


# ---- the count

def rows_of(found):
    """Tables that follow one another as one: section, first offset, size and why."""
    rows = []
    for (name, offset), (size, why) in sorted(found.items()):
        if rows and (rows[-1][0], rows[-1][1] + rows[-1][2], rows[-1][3]) == (name, offset, why):
            rows[-1][2] += size
        else:
            rows.append([name, offset, size, why])
    return rows


def count(members, wrong):
    kinds = "code", "tables", "operands"
    print("".join(f"{size:8}  {name}\n" for member in members for kind in kinds for name, size in member.of_kind(kind).items() if size > 0), end="")
    code, tables, operands = (sum(sum(member.of_kind(kind).values()) for member in members) for kind in kinds)
    sixteen = places_of_sixteen(members, wrong)
    moved = {place for place in sixteen if place[1].startswith(OPERANDS)}
    for member in members:
        for name, size in member.of_kind("tables").items():
            others = size - sum(place[:2] == (member.name, name) for place in sixteen)
            if others > 0:
                wrong.append(f"a table beside the sixteen entries: {others} bytes of {name}")
        found = {at: why for at, why in tables_among_operands(member).items() if (member.name, *at) not in sixteen}
        for name, offset, size, why in rows_of(found):
            wrong.append(f"a table beside the sixteen entries: {size} bytes among the operands, {why}, {name} from {offset:X} on")
            moved |= {(member.name, name, offset + i) for i in range(size)}
    tables, operands = tables + len(moved), operands - len(moved)
    if tables > MOST_TABLES:
        wrong.append(f"{tables} bytes of tables, and there is room for {MOST_TABLES}")
    print(f"code {code} bytes")
    print(f"tables {tables} bytes, operands {operands} bytes")


def main(objdump, archive):
    members = read_archive(objdump, archive)
    wrong = list(exports(members))
    count(members, wrong)
    print("".join(f"wrong: {finding}\n" for finding in wrong), end="")
    return 1 if wrong else 0


if __name__ == "__main__":
    try:
        sys.exit(main(*sys.argv[1:]))
    except Wrong as message:
        sys.exit(f"wrong: {message}")
