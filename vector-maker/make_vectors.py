#!/usr/bin/env python3
"""Writes the cases of crates/vectors (stdin) and what the program must print for them (stdout).

Written from docs/RULES.md and document 001 alone. For the published packets of 001's section 5 (outside-tests/vectors/section5.txt) the expectation is
the published packet and the message beside it; for the edges P1 to P15, M1 (but for the number that three bytes do not hold), M2, M3 and Q1 to Q3 it is
the line of RULES, Edges; for all others it is worked out here, in the plainest way: bits are strings of 0 and 1, a header is mended by trying every pattern
of at most as many bits as are named, and the mask of the mended bits is put together from the places that were turned over. How many indicators, values and
codes a packet has is known from its making, where a text's codes are listed one by one; section5.txt has it for the published packets; and for all others
the codes are counted as they are read.

A packet whose case names a number of bits is judged too: is its data what our writer sends for the text that it carries? What is made as our writer does is as
ours; where a run or a line end is cut in another way it is known from the making which bit is the first that is not ours, and how many bits there are more;
and for all others the two rows of bits are compared as strings. What is known from the making is held against that comparison too.

Each case says its rate, 300 or 1200 bps, in the byte of the sync bit, to which 1200 adds two. At 1200 the data may have four sections; what a damaged, cut or
malformed packet of several must give is known from its making.

    python3 vector-maker/make_vectors.py            writes both files
    python3 vector-maker/make_vectors.py --check    writes nothing: are they what would be written?
"""
import bisect
import itertools
import pathlib
import random
import re
import sys
import zlib

ROOT = pathlib.Path(__file__).resolve().parent.parent
OPEN, PSEUDO, NUMERIC, SHEF, ASCII = range(5)
FORMATS = range(5)
COMPACT = FORMATS[1:]
LONGEST = 4000
SECTION = 4000
LONGEST_1200 = 4 * SECTION
MOST_MENDED = 2
DEFAULT = None  # no number of header bits to mend is named: it is one
RATE_1200 = False  # the rate of the cases that are being made


# ---- the header and the checksum

def ones(n):
    return bin(n).count("1")


def check_bits(information):
    """The remainder of the information times 2^10 by x^10+x^9+x^8+x^6+x^5+x^3+1."""
    generator = 0b11101101001
    rest = information << 10
    for power in range(20, -1, -1):
        if rest >> (power + 10) & 1:
            rest ^= generator << power
    return rest


def header(kind, extended, sync, spare, length):
    low = kind << 5 | extended << 2 | sync << 1 | spare
    flag = low | (0x80 if ones(low) % 2 == 0 else 0)
    return flag << 24 | length << 10 | check_bits(low << 14 | length)


def is_valid(word):
    flag = word >> 24
    return ones(flag) % 2 == 1 and check_bits((flag & 0x7F) << 14 | word >> 10 & 0x3FFF) == word & 0x3FF


def mend(word, most):
    """The valid header at most so many bits away, how many, and the mask of the places that were turned over; or None."""
    for count in range(most + 1):
        for places in itertools.combinations(range(32), count):
            other = word
            for place in places:
                other ^= 1 << place
            if is_valid(other):
                return other, count, sum(1 << place for place in places)
    return None


def checksum(data):
    register = 0xFFFF
    for byte in data:
        register ^= byte << 8
        for _ in range(8):
            register = (register << 1 ^ 0xD175) & 0xFFFF if register & 0x8000 else register << 1
    return bytes([register & 0xFF, register >> 8])


def sections_of(data):
    """At 300 the data is one; at 1200 each but the last has 4,000 bytes."""
    size = SECTION if RATE_1200 else len(data)
    return [data[start:start + size] for start in range(0, len(data), size)]


def packet(word, data):
    return word.to_bytes(4, "big") + b"".join(section + checksum(section) for section in sections_of(data))


def packet_of(format, data, sync=0):
    return packet(header(2, format, sync, 0, len(data)), data)


# ---- the five kinds of data

class Malformed(Exception):
    """At which bit, and with how many codes before it."""


def bits_of(data):
    return "".join(f"{byte:08b}" for byte in data)


def bytes_of(bits):
    bits += "1" * (-len(bits) % 8)
    return bytes(int(bits[i:i + 8], 2) for i in range(0, len(bits), 8))


def is_end(rest):
    return len(rest) <= 7 and "0" not in rest


def take(bits, at, width, codes):
    if len(bits) - at < width:
        raise Malformed(at, codes)
    return bits[at:at + width]


def value_character(value):
    """The values 0 to 62 are the characters 64 to 126, and 63 is 3F."""
    return 0x3F if value == 63 else 64 + value


def read_pseudo(data):
    bits, at, codes, text = bits_of(data), 0, 0, bytearray()
    while not is_end(bits[at:at + 8]) or len(bits) - at > 7:
        if bits[at] == "1":
            count = int(take(bits, at, 8, codes)[1:], 2) + 1
            at += 8
            codes += 1
            for _ in range(count):
                text.append(value_character(int(take(bits, at, 6, codes), 2)))
                at += 6
                codes += 1
        else:
            code = take(bits, at, 6, codes)
            text += (b" " if code[1] == "0" else b"/") * (int(code[2:], 2) + 1)
            at += 6
            codes += 1
    return bytes(text), codes


ENDS = {"00": b"\t", "01": b"\r", "10": b"\n", "11": b"\r\n"}


def read_ascii(data):
    bits, at, codes, text = bits_of(data), 0, 0, bytearray()
    while not is_end(bits[at:at + 8]) or len(bits) - at > 7:
        if bits[at] == "0":
            text.append(32 + int(take(bits, at, 6, codes), 2))
            at += 6
        elif take(bits, at, 7, codes) != "1" * 7:
            text.append(int(bits[at:at + 7], 2))
            at += 7
        else:
            text += ENDS[take(bits, at, 9, codes)[7:]]
            at += 9
        codes += 1
    return bytes(text), codes


TABLE_4 = b"0123456789 +,-./"
TABLE_5 = {b"++": b"\r\n", b"+-": b"#", b"-+": b"=", b"..": b":", b"--": b"E"}
TABLE_6 = [bytes([character]) for character in b"ABCDEFGHIJKLMNOPQRSTUVWXYZ"] + [b"\r\n", b"#", b"=", b":", b";"]


def from_base(base):
    """What the characters of Table 4 mean: the pairs of Table 5 are looked for from the front."""
    return re.sub(rb"[+][+]|[+]-|-[+]|[.][.]|--", lambda pair: TABLE_5[pair[0]], base)


def read_numeric(data):
    base = bytes(TABLE_4[code] for byte in data for code in (byte >> 4, byte & 15))
    return from_base(base), len(base)


def read_shef(data):
    bits, at, codes, text = bits_of(data), 0, 0, bytearray()
    while not is_end(bits[at:at + 8]) or len(bits) - at > 7:
        if bits[at] == "0":
            text.append(TABLE_4[int(take(bits, at, 5, codes), 2)])
            at += 5
        elif take(bits, at, 6, codes) == "1" * 6:
            raise Malformed(at, codes)
        else:
            text += TABLE_6[int(bits[at + 1:at + 6], 2)]
            at += 6
        codes += 1
    return bytes(text), codes


# of data the text, and how many codes were read
READ = {OPEN: lambda data: (data, 0), PSEUDO: read_pseudo, NUMERIC: read_numeric, SHEF: read_shef, ASCII: read_ascii}


def pseudo_kind(character):
    if 64 <= character <= 127:
        return "value"
    return {0x3F: "value", 0x20: "space", 0x2F: "slash"}.get(character)


def value_of(character):
    """7F is 63 too."""
    return 63 if character == 0x3F else character - 64


def values_codes(values):
    """A run of values: the indicator, and each of them."""
    return [f"1{len(values) - 1:07b}"] + [f"{value:06b}" for value in values]


def pseudo_codes(text):
    codes = []
    for kind, run in itertools.groupby(text, pseudo_kind):
        run = list(run)
        fullest = 128 if kind == "value" else 16
        for start in range(0, len(run), fullest):
            part = run[start:start + fullest]
            if kind == "value":
                codes += values_codes([value_of(character) for character in part])
            else:
                codes.append(("00" if kind == "space" else "01") + f"{len(part) - 1:04b}")
    return codes


def write_pseudo(text):
    return bytes_of("".join(pseudo_codes(text)))


def ascii_code(character):
    if 32 <= character <= 63:
        return f"{character - 32:06b}"
    if 64 <= character <= 126:
        return f"{character:07b}"
    return {0x09: "111111100", 0x0D: "111111101", 0x0A: "111111110"}.get(character)


def ascii_codes(text):
    return ["1" * 9 if part == b"\r\n" else ascii_code(part[0]) for part in re.findall(rb"\r\n|[\0-\xff]", text)]


def write_ascii(text):
    return bytes_of("".join(ascii_codes(text)))


def with_line_ends(text):
    """Every line end (CR LF, CR, LF) as CR LF."""
    return re.sub(rb"\r\n|\r|\n", b"\r\n", text)


def pieces(text):
    return re.findall(rb"\r\n|[\0-\xff]", with_line_ends(text))


BASE = {bytes([character]): bytes([character]) for character in TABLE_4} | {meaning: pair for pair, meaning in TABLE_5.items()}
SHEF_CODE = {bytes([character]): f"{code:05b}" for code, character in enumerate(TABLE_4)} | {piece: f"1{code:05b}" for code, piece in enumerate(TABLE_6)}


def to_base(text):
    """In characters of Table 4, an even number; those without a code are left out."""
    base = b"".join(BASE.get(piece, b"") for piece in pieces(text))
    return base + b" " * (len(base) % 2)


def numeric_codes(text):
    return [f"{TABLE_4.index(character):04b}" for character in to_base(text)]


def write_numeric(text):
    return bytes_of("".join(numeric_codes(text)))


def shef_codes(text):
    return [SHEF_CODE[piece] for piece in pieces(text)]


def write_shef(text):
    return bytes_of("".join(shef_codes(text)))


# of a text its codes one by one, and its data
CODES = {OPEN: lambda text: [], PSEUDO: pseudo_codes, NUMERIC: numeric_codes, SHEF: shef_codes, ASCII: ascii_codes}
WRITE = {OPEN: bytes, PSEUDO: write_pseudo, NUMERIC: write_numeric, SHEF: write_shef, ASCII: write_ascii}


def normal(format, text):
    """What a text comes back as."""
    if format == PSEUDO:
        return text.replace(b"\x7f", b"\x3f")
    if format in (NUMERIC, SHEF):
        text = with_line_ends(text)
    odd = format == NUMERIC and sum(len(BASE.get(piece, b"")) for piece in pieces(text)) % 2 == 1
    return text + b" " if odd else text


def uncoded_numeric(text):
    """The index of the first character up to which no data carries what the text comes back as. Then none carries more of the text either."""
    return bisect.bisect_left(range(len(text)), True, key=lambda index: from_base(to_base(text[:index + 1])) != normal(NUMERIC, text[:index + 1]))


def uncoded(format, text):
    """The index of the first character that has no code where it stands, or the text's length."""
    if format == NUMERIC:
        return uncoded_numeric(text)
    has_code = {OPEN: lambda character: True, PSEUDO: pseudo_kind, SHEF: lambda character: normal(SHEF, bytes([character])) in SHEF_CODE, ASCII: ascii_code}
    return next((index for index, character in enumerate(text) if not has_code[format](character)), len(text))


# ---- the reader and the writer: (answer, the number beside it, what is written into the buffer), and of a reading (how many codes were read)

def most_bits(named):
    return 1 if named is DEFAULT else named


def most_data():
    return LONGEST_1200 if RATE_1200 else LONGEST


def packet_length(data_length):
    """Header, data, and two bytes for each section, of which the last may be shorter than the others."""
    return 4 + data_length + 2 * -(-data_length // SECTION)


def parts_of(received, used):
    """The sections of a packet of so many bytes, each with its checksum."""
    return [received[start:min(start + SECTION + 2, used)] for start in range(4, used, SECTION + 2)]


def read(received, room, named):
    if most_bits(named) > MOST_MENDED:
        return "refused 17", 0, b""
    if len(received) < 4:
        return "refused 1", 0, b""
    mended = mend(int.from_bytes(received[:4], "big"), most_bits(named))
    if mended is None:
        return "refused 2", 0, b""
    word, count, mask = mended
    flag, length = word >> 24, word >> 10 & 0x3FFF
    format, sync = flag >> 2 & 7, flag >> 1 & 1
    if flag & 1 or flag >> 5 & 3 != 2 or format not in READ:
        return "refused 3", 0, b""
    if length == 0 or length > most_data():
        return "refused 4", 0, b""
    used = packet_length(length)
    if len(received) < used:
        return "refused 5", 0, b""
    parts = parts_of(received, used)
    for number, part in enumerate(parts):
        if part[-2:] != checksum(part[:-2]):
            return "refused 6", number, b""
    data = b"".join(part[:-2] for part in parts)
    try:
        text, codes = READ[format](data)
    except Malformed as malformed:
        place, codes = malformed.args
        return "refused 7", place, b"", codes
    if room < len(text):
        return "refused 8", len(text), b""
    return f"ok {format} {sync} {count} {mask:08X} {length} {len(text)}", used, text, codes


def write(format, sync, text, room):
    if format not in WRITE:
        return "refused 12", 0, b""
    if not text:
        return "refused 10", 0, b""
    index = uncoded(format, text)
    if index < len(text):
        return "refused 9", index, b""
    data = WRITE[format](text)
    if len(data) > most_data():
        return "refused 11", 0, b""
    whole = packet_of(format, data, sync)
    if room < len(whole):
        return "refused 8", len(whole), b""
    return f"written {len(whole)}", len(whole), whole


# ---- the judge

OURS = "ours 0"  # just the data bytes of our writer


def departs(bit, more):
    """The first data bit that is not our writer's, and how many data bytes there are more than ours."""
    return f"departs {bit} {more}"


def compared(data, ours):
    """How data compares with our writer's: neither row of bits is the front of the other."""
    if data == ours:
        return OURS
    bits, our_bits = bits_of(data), bits_of(ours)
    assert not bits.startswith(our_bits) and not our_bits.startswith(bits)
    assert len(data) >= len(ours)
    place = next(place for place, (bit, our_bit) in enumerate(zip(bits, our_bits)) if bit != our_bit)
    return departs(place, len(data) - len(ours))


def judge(format, data, text):
    """How data that carries the text compares with our writer's. Open, Numeric and SHEF leave a maker no choice."""
    judgement = compared(data, WRITE[format](text))
    assert judgement == OURS or format in (PSEUDO, ASCII)
    return judgement


# ---- the cases

STDIN, STDOUT = bytearray(), []
COUNT = 0


def case(kind, named, sync, room, given, answer):
    """One case: what is handed over, and what must be printed. What is named is the writer's format, or the reader's number of header bits to mend."""
    global COUNT, STDIN
    COUNT += 1
    line, beside, put = answer
    assert len(put) <= room, (line, room)
    STDIN += kind + bytes([sync + 2 * RATE_1200]) + b"".join(number.to_bytes(3, "big") for number in (named, room, len(given))) + given
    lent = put + bytes(i % 251 + 5 for i in range(len(put), room))
    STDOUT.append(f"{line}\n{beside} {zlib.adler32(lent):08x} {lent[:512].hex()}\n")


def codes_in(answer):
    """How many codes a reading came to: none where it does not say."""
    return answer[3] if len(answer) > 3 else 0


def given_room(received, answer, named):
    """What the reader answers, given the room for the text."""
    if answer[0] == "refused 8":
        answer = read(received, answer[1], named)
        assert answer[0].startswith("ok "), answer
    return answer


def examined(answer):
    """What is found out without a buffer. All its numbers are in decimal, the mask too."""
    word, *numbers = answer[0].split()
    if word == "ok":
        format, sync, mended, mask, *lengths = numbers
        return " ".join(map(str, ["readable", format, sync, mended, int(mask, 16), codes_in(answer), *lengths, answer[1]])) + "\n"
    return " ".join(map(str, [word, *numbers, answer[1], codes_in(answer)])) + "\n"


def judged(received, answer, judgement):
    """How a packet is judged, which its making says too where that is known. One that the reader refuses is refused in the same words."""
    line, used, text = answer[:3]
    if line.startswith("refused "):
        return examined(answer)
    found = judge(int(line.split()[1]), b"".join(part[:-2] for part in parts_of(received, used)), text)
    assert judgement in (None, found), (judgement, found)
    return f"{found}\n"


def reads(received, room, answer=None, named=MOST_MENDED, judgement=None):
    """A packet, with what its making says of the answer, and of how it is judged where it is read; what that does not say is worked out."""
    answer = answer or read(received, room, named)
    with_room = given_room(received, answer, named)
    STDOUT.append(examined(with_room))
    if named is not DEFAULT:
        STDOUT.append(judged(received, with_room, judgement))
    line, beside, put = answer[:3]
    printed = f"{line}\ncodes {codes_in(answer)}", beside, put
    if named is DEFAULT:
        case(b"d", 0, 0, room, received, printed)
    else:
        case(b"r", named, 0, room, received, printed)


def writes(format, text, room, sync=0, answer=None):
    case(b"w", format, sync, room, text, answer or write(format, sync, text, room))


def flipped(received, places):
    """The packet with these header bits flipped, counted from the top."""
    word = int.from_bytes(received[:4], "big")
    for place in places:
        word ^= 1 << 31 - place
    return word.to_bytes(4, "big") + received[4:]


def accepted(format, used, text, sync=0, places=(), codes=None):
    """The answer where a packet of so many bytes, which carries the text, was flipped at these places and is read as it was sent. Where it is not said how many
    codes it has, it has those that the text is written in."""
    mask = "".join("1" if place in places else "0" for place in range(32))
    codes = len(CODES[format](text)) if codes is None else codes
    data_length = used - 4 - 2 * -(-(used - 4) // (SECTION + 2))
    return f"ok {format} {sync} {len(places)} {int(mask, 2):08X} {data_length} {len(text)}", used, text, codes


def section_5():
    """001's section 5, by number: the packet, the text of the message beside it, and how many codes the packet has."""
    found = {}
    for section in (ROOT / "outside-tests/vectors/section5.txt").read_text().split("\n## ")[1:]:
        sent = bytes.fromhex("".join(re.findall(r"^packet (\w+)", section, re.M)))
        message = bytes.fromhex("".join(re.findall(r"^text (\w+)", section, re.M)))
        found[section.split()[0]] = sent, message, int(re.search(r"^codes (\d+)", section, re.M)[1])
    return found


def published():
    """001's section 5: the packets, and the messages beside them."""
    for name, (sent, message, codes) in section_5().items():
        format = {"5.1": OPEN, "5.2.1": PSEUDO, "5.2.2": PSEUDO, "5.3": NUMERIC, "5.4": SHEF, "5.5": ASCII}[name]
        text = bytes(range(256)) if format == OPEN else message
        used = len(sent)
        written = (f"written {used}", used, sent)
        if format == PSEUDO:  # value 63, which the table prints as 3F, may be 7F in what is written
            assert text.count(b"\x3f") == 12
            writes(format, text.replace(b"\x3f", b"\x7f"), used, answer=written)
        if format == NUMERIC:  # an odd number of codes, and the space behind them
            writes(format, text, used, answer=written)
            assert len(text) == 317
            text += b" "
        ok = accepted(format, used, text, codes=codes)
        for more in b"", b"\x00", bytes(range(100)):
            reads(sent + more, len(text) + 4, ok, judgement=OURS)
        reads(sent, len(text), ok, judgement=OURS)
        reads(sent, len(text) - 1, ("refused 8", len(text), b""), judgement=OURS)
        reads(sent[:-1], len(text), ("refused 5", 0, b""))
        writes(format, text, used + 3, answer=written)
        writes(format, text, used, answer=written)
        writes(format, text, used - 1, answer=("refused 8", used, b""))


def messages():
    """The text of every message of section 5, in the compact formats where it has codes there, and read back; 5 and 6 are no formats."""
    for sent, text, _ in section_5().values():
        for extended in 5, 6:
            writes(extended, text, 500, answer=("refused 12", 0, b""))
        for format in COMPACT:
            index = uncoded(format, text)
            if not text or index < len(text):
                writes(format, text, 500, answer=("refused 9", index, b"") if text else ("refused 10", 0, b""))
                continue
            back = normal(format, text)
            for sync in 0, 1:
                whole = packet_of(format, WRITE[format](text), sync)
                writes(format, text, 500, sync, (f"written {len(whole)}", len(whole), whole))
                reads(whole, len(back) + 1, accepted(format, len(whole), back, sync), judgement=OURS)


def with_byte(head):
    """A header, and a data byte and its checksum behind it."""
    return bytes.fromhex(head) + b"\x37" + checksum(b"\x37")


def edges():
    """P1 to P15, M2, M3 and Q1 to Q3, each as its line of the table says."""
    def data(format, text, sent, head=None, others=()):
        sent = bytes.fromhex(sent)
        whole = packet_of(format, sent)
        if head:
            assert whole[:4] == bytes.fromhex(head)
        reads(whole, len(text) + 2, accepted(format, len(whole), text), judgement=OURS)
        for same in text, *others:
            writes(format, same, len(whole) + 2, answer=(f"written {len(whole)}", len(whole), whole))

    def malformed(format, sent, place, codes):
        reads(packet_of(format, bytes.fromhex(sent)), 300, ("refused 7", place, b"", codes))

    assert header(2, 1, 0, 0, 107).to_bytes(4, "big").hex() == "c401ae85"
    reads(bytes.fromhex("C401AE85"), 8, ("refused 5", 0, b""))  # P1
    data(OPEN, b"\x37", "37", "400004DD")  # P2
    data(OPEN, bytes(4000), "00" * 4000, "403E80D1")  # P3
    data(ASCII, b"A", "83", "D0000430")  # P4, P12
    reads(with_byte("C10004DD"), 3, ("ok 0 0 2 81000000 1 1", 7, b"\x37"), judgement=OURS)  # P5
    reads(bytes.fromhex("400004DA"), 3, ("refused 2", 0, b""))  # P6
    reads(bytes(4), 3, ("refused 3", 0, b""))  # P7
    reads(with_byte("C00004DD"), 3, ("ok 0 0 1 80000000 1 1", 7, b"\x37"), judgement=OURS)  # M2
    reads(with_byte("400004DC"), 3, ("ok 0 0 1 00000001 1 1", 7, b"\x37"), judgement=OURS)  # M3
    reads(with_byte("408004DD"), 3, ("ok 0 0 1 00800000 1 1", 7, b"\x37"), judgement=OURS)
    data(PSEUDO, b"AB", "81042F")  # P8
    data(PSEUDO, b"/" * 16, "7F")  # P9
    data(PSEUDO, b"/" * 17, "7D0F")
    data(PSEUDO, b"////    ////    ", "4C34C3")  # P10
    malformed(PSEUDO, "FF", 8, 1)  # P11
    data(ASCII, b"AB", "830B")  # P12
    data(ASCII, b"A\r\n", "83FF")  # P13
    data(ASCII, b"\r\n", "FFFF")  # P14
    malformed(ASCII, "FF", 0, 0)  # P15
    data(PSEUDO, b"?", "80FF", others=[b"\x7f"])  # Q1
    data(PSEUDO, b"~", "80FB")  # Q2
    writes(PSEUDO, b">", 10, answer=("refused 9", 0, b""))
    data(PSEUDO, b"????????", "87FFFFFFFFFFFF")  # Q3


def sixty_threes():
    """Value 63, as 3F and as 7F, in every place of a run of 1, 8, 127, 128 and 129 values, among others that vary. The run stands by itself, or with a
    space or a slash before it, behind it, and both: a run of 1 or 8 all nine ways for each place, a longer one for its first place, its last and the last
    of 128; for its other places they take turns. The data is put together beside the text."""
    beside = {b"": "", b" ": "000000", b"/": "010000"}
    ways = list(itertools.product(beside, repeat=2))
    turns = itertools.cycle(ways)
    for count, place in [(count, place) for count in (1, 8, 127, 128, 129) for place in range(count)]:
        values = [63 if index == place else (5 * index + place) % 63 for index in range(count)]
        parts = [part for part in (values[:128], values[128:]) if part]
        bits = "".join(code for part in parts for code in values_codes(part))
        for before, behind in ways if count <= 8 or place in (0, 127, count - 1) else [next(turns)]:
            whole = packet_of(PSEUDO, bytes_of(beside[before] + bits + beside[behind]))
            back, other = (before + bytes(sixty_three if value == 63 else 64 + value for value in values) + behind for sixty_three in (0x3F, 0x7F))
            for text in back, other:
                writes(PSEUDO, text, len(whole) + 1, answer=(f"written {len(whole)}", len(whole), whole))
            reads(whole, len(back) + 1, accepted(PSEUDO, len(whole), back), judgement=OURS)


def line_ends_and_pairs():
    """Numeric and SHEF, by hand from Tables 4 to 6: data, the text that it carries, and others that come back as that."""
    for format, sent, back, *others in (
            (NUMERIC, "0123456789ABCDEF", b"0123456789 +,-./"),
            (NUMERIC, "BDDBDDEEBB", b"#=E:\r\n", b"#=E:\r", b"#=E:\n"),
            (NUMERIC, "1A", b"1 ", b"1"),
            (NUMERIC, "1AAA", b"1   ", b"1  "),
            (NUMERIC, "12BA", b"12+ ", b"12+"),
            (NUMERIC, "1EE2", b"1:2"),
            (NUMERIC, "1BBA", b"1\r\n ", b"1\r\n", b"1\r", b"1\n"),
            (NUMERIC, "1BBB", b"1\r\n+", b"1\n+"),
            (NUMERIC, "BBBB", b"\r\n\r\n", b"\r\r\n", b"\n\r", b"\n\n", b"\r\r", b"\r\n\n", b"\n\r\n"),
            (NUMERIC, "BDBA", b"#+ ", b"#+"),
            (NUMERIC, "DDDA", b"E- ", b"E-"),
            (NUMERIC, "DBBA", b"=+ ", b"=+"),
            (NUMERIC, "EEEA", b":. ", b":."),
            (NUMERIC, "BEED", b"+:-"),
            (SHEF, "0F", b"1"),
            (SHEF, "7F", b"/"),
            (SHEF, "83", b"A"),
            (SHEF, "821F", b"AB"),
            (SHEF, "E7EF", b"Z;"),
            (SHEF, "EFCF64", b"#=:E"),
            (SHEF, "5ADAD73B", b"++--.."),
            (SHEF, "EB", b"\r\n", b"\r", b"\n"),
            (SHEF, "EBAF", b"\r\n\r\n", b"\r\r\n", b"\n\r", b"\n\n", b"\r\r", b"\r\n\n", b"\n\r\n"),
    ):
        whole = packet_of(format, bytes.fromhex(sent))
        reads(whole, len(back) + 2, accepted(format, len(whole), back), judgement=OURS)
        for text in back, *others:
            writes(format, text, len(whole) + 2, answer=(f"written {len(whole)}", len(whole), whole))
    for text, index in ((b"++", 1), (b"+-", 1), (b"-+", 1), (b"--", 1), (b"..", 1), (b"+#", 1), (b"+=", 1), (b"-E", 1), (b".:", 1), (b"+\r\n", 1),
                        (b"+\r", 1), (b"-\n", 1), (b"1#++", 3), (b"12:..", 4), (b"\r\n+\n", 3), (b"-5 -4e1", 5), (b"-E;", 1), (b";-E", 0)):
        writes(NUMERIC, text, 20, answer=("refused 9", index, b""))
    for text, index in (b"Ab", 1), (b"z", 0), (b"1\t", 1), (b"A?", 1):
        writes(SHEF, text, 20, answer=("refused 9", index, b""))
    for pair in itertools.product(TABLE_4 + b"\r\n#=:E", repeat=2):
        writes(NUMERIC, bytes(pair), 10)
    for sent, place, codes in ("FF", 0, 0), ("FBFF", 6, 1), ("07FF", 5, 1), ("FE", 0, 0), ("FC", 0, 0):
        reads(packet_of(SHEF, bytes.fromhex(sent)), 10, ("refused 7", place, b"", codes))


SMALL = (OPEN, b"\x37", 0), (PSEUDO, bytes.fromhex("81042F"), 1), (ASCII, b"\x83\x0b", 0), (NUMERIC, b"\x1e\xe2", 1), (SHEF, b"\x82\x1f", 0)


def headers():
    """Headers 0 to 3 bits off."""
    for format, sent, sync in SMALL:
        whole = packet_of(format, sent, sync)
        text, _ = READ[format](sent)
        for places in [()] + list(itertools.combinations(range(32), 1)) + (list(itertools.combinations(range(32), 2)) if format == PSEUDO else []):
            reads(flipped(whole, places), len(text), accepted(format, len(whole), text, sync, places), judgement=OURS)
        for place in range(32):
            for second, third in (7, 13), (1, 2), (3, 20):
                reads(flipped(whole, (place, (place + second) % 32, (place + third) % 32)), len(text))
    generator = random.Random(1)
    for _ in range(64):
        reads(generator.getrandbits(64).to_bytes(8, "big"), 4)


def reader_refusals():
    for length in range(4):
        reads(bytes.fromhex("400004DD")[:length], 4)
    for kind, extended, spare in itertools.product(range(4), range(8), range(2)):
        whole = packet(header(kind, extended, 0, spare, 1), b"\x83")
        reads(whole, 4)
        reads(flipped(whole, (3, 29)), 4)
    for format in FORMATS:
        for length in 0, 1, 3999, 4000, 4001, 8192, 16383:
            for places in (), (12,), (0, 21):
                reads(flipped(packet(header(2, format, 0, 0, length), b"?"), places), 7)
        whole = packet_of(format, b"\x7f\x7f")
        for length in range(4, 8):
            reads(whole[:length], 40)
        reads(whole + b"\x00", 40)
        for place in range(4, 8):  # data or checksum damaged, or turned round
            for flip in 0x01, 0x80, 0xFF:
                reads(whole[:place] + bytes([whole[place] ^ flip]) + whole[place + 1:], 40)
        reads(whole[:6] + whole[7:8] + whole[6:7], 40)


def bit_strings(longest):
    return ["".join(bits) for length in range(longest + 1) for bits in itertools.product("01", repeat=length)]


def begins_code(format, rest):
    """Whether the bits start with a whole code (Pseudo Binary: with a whole indicator)."""
    if rest[:1] == "0":
        return len(rest) >= (5 if format == SHEF else 6)
    if format == PSEUDO:
        return len(rest) >= 8
    if format == SHEF:
        return len(rest) >= 6 and rest[:6] != "1" * 6
    return len(rest) >= (9 if rest[:7] == "1" * 7 else 7)


def malformed_behind(format, codes, rest):
    """Data of whole codes, and of a remainder that cannot be read, to the end of a byte."""
    front = "".join(codes)
    assert len(front + rest) % 8 == 0
    reads(packet_of(format, bytes_of(front + rest)), 20, ("refused 7", len(front), b"", len(codes)))


def endings():
    """Every remainder that cannot be read, each at two distances from the start."""
    bad = {format: [rest for rest in bit_strings(8) if not is_end(rest) and not begins_code(format, rest)] for format in (ASCII, PSEUDO, SHEF)}
    bad[PSEUDO] = [rest for rest in bad[PSEUDO] if len(rest) % 2 == 0]  # its codes have 6 and 8 bits
    values = [rest for rest in bit_strings(5) if len(rest) % 2 == 0]  # where a value of six bits is announced, ones are no fill
    assert (len(bad[ASCII]), len(bad[PSEUDO]), len(bad[SHEF]), len(values)) == (90, 49, 46, 21)

    for rest in bad[ASCII]:
        to_byte = -len(rest) % 8  # seven bits are one less than a byte
        malformed_behind(ASCII, ["1000001"] * (8 - to_byte), rest)
        malformed_behind(ASCII, ["111111111"] + ["010000"] * 12 + ["1111110"] * (17 - to_byte), rest)
    for rest in bad[SHEF]:
        fives = -5 * len(rest) % 8  # 25 bits are one more than three bytes
        malformed_behind(SHEF, ["01110"] * fives, rest)
        malformed_behind(SHEF, ["111010"] * 4 + ["01111"] * (8 + fives) + ["111110"] * 4, rest)
    for rest in bad[PSEUDO]:
        sixes = len(rest) // 2 % 4  # six bits are two less than a byte
        malformed_behind(PSEUDO, ["010010"] * sixes, rest)
        malformed_behind(PSEUDO, ["10010011"] + ["101010"] * 20 + ["001111"] * (8 + sixes), rest)
    for rest in values:
        sixes = len(rest) // 2 % 4
        malformed_behind(PSEUDO, [f"1{sixes:07b}"] + ["110011"] * sixes, rest)
        malformed_behind(PSEUDO, ["010000"] * 4 + ["11111111"] + ["000111"] * (28 + sixes), rest)


def compact_data():
    """Every data byte alone, and others by chance."""
    generator = random.Random(2)
    for format in COMPACT:
        for byte in range(256):
            reads(packet_of(format, bytes([byte])), 20)
        for length, times in (2, 80), (3, 60), (5, 40):
            for _ in range(times):
                data = bytearray(generator.randbytes(length))
                if generator.random() < 0.4:
                    data[-1] |= (1 << generator.randrange(8)) - 1
                if format == PSEUDO and generator.random() < 0.5:
                    data[0] = 0x80 | generator.randrange(8)
                if format == NUMERIC and generator.random() < 0.7:
                    data = bytearray(generator.choice((0xBB, 0xBD, 0xDB, 0xDD, 0xEE, 0xBE, 0xEB, 0x1B, 0xB1)) for _ in data)
                try:
                    room = len(READ[format](bytes(data))[0])
                except Malformed:
                    room = 64
                reads(packet_of(format, bytes(data)), max(0, room - generator.choice((0, 0, 0, 1))))


def longest():
    """Both sides of the limits of length and room."""
    for n in 65536, 65552, 85328:
        sent = packet_of(PSEUDO, bytes_of("011111" * (n // 16)))
        for room in sorted({65536, n - 1, n}):
            reads(sent, room, judgement=OURS)
    for length in 4000, 4001:
        reads(packet_of(OPEN, b"x" * length), 4001)
    for format, unit, most in ((OPEN, b"x", 4000), (PSEUDO, b"A", 5277), (ASCII, b"0", 5333), (ASCII, b"A", 4571), (ASCII, b"\r\n", 3555),
                               (NUMERIC, b"0", 8000), (NUMERIC, b":", 4000), (NUMERIC, b"\r\n", 4000), (SHEF, b"0", 6400), (SHEF, b"A", 5333),
                               (SHEF, b"\r\n", 5333)):
        fullest = packet_of(format, WRITE[format](unit * most))
        assert len(fullest) == LONGEST + 6
        for room in len(unit) * most, len(unit) * most - 1:
            reads(fullest, room, judgement=OURS)
        writes(format, unit * most, 4006, answer=("written 4006", 4006, fullest))
        writes(format, unit * (most + 1), 4006, answer=("refused 11", 0, b""))
    for format, most in (NUMERIC, 4000), (SHEF, 5333):  # line ends of one character
        for unit in b"\r", b"\n":
            writes(format, unit * most, 4006, answer=("written 4006", 4006, packet_of(format, WRITE[format](b"\r\n" * most))))
            writes(format, unit * (most + 1), 4006, answer=("refused 11", 0, b""))
    for digits in 7999, 8000:
        writes(NUMERIC, b"5" * digits, 4006, answer=("written 4006", 4006, packet_of(NUMERIC, (b"\x55" * 4000)[:digits // 2] + b"\x5a" * (digits % 2))))
    writes(NUMERIC, b"5" * 8001 + b"++", 0, answer=("refused 9", 8002, b""))  # 9 comes before 11
    writes(SHEF, b"5" * 6401 + b"a", 0, answer=("refused 9", 6401, b""))
    writes(PSEUDO, b"/" * 85328, 4006, answer=("written 4006", 4006, packet_of(PSEUDO, bytes_of("011111" * 5333))))
    writes(PSEUDO, b" " * 85329, 4006, answer=("refused 11", 0, b""))
    writes(OPEN, b"x" * 4000, 4005, answer=("refused 8", 4006, b""))
    writes(OPEN, b"x" * 4001, 0, answer=("refused 11", 0, b""))  # 11 comes before 8
    writes(ASCII, b"0" * 5334 + b"\xff", 0, answer=("refused 9", 5334, b""))  # and 9 before 11


def writer_refusals():
    for format in range(16):
        for text in b"", b"/", b"\x80":
            for room in 0, 16:
                writes(format, text, room)
    for format in 255, 256, 257, 260, 65540, 0xFFFFFF:  # the low byte of some is a format's number
        writes(format, b"/", 16)
    for format in COMPACT:
        for character in range(256):
            writes(format, bytes([character]), 9, sync=character % 2)
        for index in 0, 1, 17, 40:
            text = bytearray(b"E / " * 11 if format == NUMERIC else b"A / " * 11)
            text[index] = 0x80
            text[43] = 0x1F
            writes(format, bytes(text), 100)


def texts():
    """Texts written, and the packets read."""
    generator = random.Random(3)
    chosen = []
    for n in 1, 2, 15, 16, 17, 32, 33, 127, 128, 129, 256, 257:
        chosen += [(PSEUDO, unit * n) for unit in (b"/", b" ", b"?", b"\x7f", b"?\x7f")]
        chosen += [(PSEUDO, b"@" * n + b"/" + b"~" * n + b" "), (OPEN, b"\xff" * n)]
        chosen += [(ASCII, text) for text in (b"\r" * n + b"\n", b"\r\n" * n, b"\t5" * n)]
    letters = {OPEN: bytes(range(256)), PSEUDO: bytes(range(64, 127)) + b"?\x7f / / / / / /" * 4, ASCII: bytes(range(32, 127)) + b"\t\r\n\r\n" * 6,
               NUMERIC: TABLE_4 + b"+-.#=:E\r\n\r\n", SHEF: TABLE_4 * 2 + b"".join(TABLE_6) + b"\r\n"}
    for format in letters:
        for _ in range(40):
            runs = generator.randrange(1, 24)
            text = b"".join(bytes([generator.choice(letters[format])]) * generator.choice((1, 1, 1, 2, 9, 20)) for _ in range(runs))
            chosen.append((format, text))
    for format, text in chosen:
        if uncoded(format, text) < len(text):  # in Numeric: written, refused; and then without what has no code where it stands
            writes(format, text, 600)
        while (index := uncoded(format, text)) < len(text):
            text = text[:index] + text[index + 1:]
        sync = generator.randrange(2)
        whole = packet_of(format, WRITE[format](text), sync)
        writes(format, text, len(whole) + generator.randrange(-1, 3), sync)
        reads(whole + generator.randbytes(generator.randrange(3)), len(normal(format, text)) + generator.randrange(-1, 3), judgement=OURS)


def as_sent(named, flips):
    """Whether a packet with so many header bits flipped is read as it was sent; if not, no other may be read in its place."""
    assert flips <= most_bits(named) or flips + most_bits(named) <= 4
    return flips <= most_bits(named)


def edges_named():
    """P5 to P7, M2, M3 and the packets of section 5, with fewer bits named than two."""
    for named in 0, 1, DEFAULT:
        reads(with_byte("C10004DD"), 3, ("refused 2", 0, b""), named)  # P5
        reads(bytes.fromhex("400004DA"), 3, ("refused 2", 0, b""), named)  # P6
        reads(bytes(4), 3, ("refused 2" if named == 0 else "refused 3", 0, b""), named)  # P7
        reads(with_byte("400004DD"), 3, ("ok 0 0 0 00000000 1 1", 7, b"\x37"), named, OURS)  # M2
        for head, mask in ("C00004DD", "80000000"), ("400004DC", "00000001"), ("408004DD", "00800000"):  # M2, M3
            reads(with_byte(head), 3, ("refused 2", 0, b"") if named == 0 else (f"ok 0 0 1 {mask} 1 1", 7, b"\x37"), named, OURS)
        for sent, message, codes in section_5().values():
            format = sent[0] >> 2 & 7
            text = sent[4:-2] if format == OPEN else message + b" " * (format == NUMERIC)
            reads(sent, len(text), accepted(format, len(sent), text, codes=codes), named, OURS)
            reads(sent, len(text) - 1, ("refused 8", len(text), b""), named, OURS)
            reads(sent[:-1], len(text), ("refused 5", 0, b""), named)
        for length in range(4):
            reads(bytes.fromhex("400004DD")[:length], 4, ("refused 1", 0, b""), named)


def flipped_headers():
    """One to four header bits flipped, where what must come of it is known from the making: each bit alone, and others spread over the header."""
    several = [(place, (place + 5 * step) % 32, (place + 11 + step) % 32, (place + 18 + step) % 32) for place in range(0, 32, 8) for step in (1, 2)]
    patterns = [(place,) for place in range(32)] + [places[:flips] for flips in (2, 3, 4) for places in several]
    ways = {1: (0, 1, DEFAULT), 2: (0, 1, 2, DEFAULT), 3: (0, 1, DEFAULT), 4: (0,)}
    for (format, sent, sync), places in itertools.product(SMALL, patterns):
        flips, whole, text = len(set(places)), packet_of(format, sent, sync), READ[format](sent)[0]
        ok = accepted(format, len(whole), text, sync, places)
        for named in ways[flips]:
            reads(flipped(whole, places), len(text), ok if as_sent(named, flips) else ("refused 2", 0, b""), named, OURS)


def tests_behind():
    """What the tests behind the header's refuse, with the header as sent and with a bit of it flipped."""
    wrong = [(header(1, 0, 0, 0, 1), 3), (header(2, 5, 0, 0, 1), 3), (header(2, 0, 0, 1, 1), 3), (header(2, 0, 0, 0, 0), 4), (header(2, 0, 0, 0, 4001), 4)]
    cases = [(packet(word, b"\x83"), refusal) for word, refusal in wrong]
    for format, sent, sync in SMALL:
        whole = packet_of(format, sent, sync)
        cases += [(whole[:-1], 5), (whole[:-1] + bytes([whole[-1] ^ 1]), 6), (whole[:4] + bytes([whole[4] ^ 0x80]) + whole[5:], 6)]
    for (received, refusal), places, named in itertools.product(cases, ((), (30,)), (0, 1, DEFAULT)):
        reads(flipped(received, places), 9, (f"refused {refusal if as_sent(named, len(places)) else 2}", 0, b""), named)


def too_many_bits():
    """A number above two is refused before the packet is looked at, whatever its low bits say."""
    for named in 3, 4, 255, 256, 257, 258, 65536, 65537, 65538, 0xFFFFFF:
        for length in range(5):
            reads(bytes.fromhex("400004DD")[:length], 4, ("refused 17", 0, b""), named)
        for format, sent, sync in SMALL:
            reads(packet_of(format, sent, sync), 0 if format == OPEN else 9, ("refused 17", 0, b""), named)


def built(format, codes, text, judgement=OURS):
    """Data put together of these codes and fill, read in the room for its text and in one byte less; it is as ours, unless something else is said."""
    whole = packet_of(format, bytes_of("".join(codes)))
    reads(whole, len(text), accepted(format, len(whole), text, codes=len(codes)), judgement=judgement)
    reads(whole, len(text) - 1, ("refused 8", len(text), b""), judgement=judgement)


def bytes_for(bits):
    return -(-bits // 8)


def judged_runs(*runs):
    """How Pseudo Binary is judged, by its making: runs of other kinds than their neighbours, each with the lengths of the parts that it is sent in. Ours are as
    full as can be. The first part that is not ours departs in its indicator, whose last bits are the length less one; and each part more has an indicator
    more."""
    bits, more, place = 0, 0, None
    for character, parts in runs:
        fullest, indicator, each = (16, 6, 0) if character in (b" ", b"/") else (128, 8, 6)
        full, rest = divmod(sum(parts), fullest)
        ours = [fullest] * full + [rest] * (rest > 0)
        for part, our_part in itertools.zip_longest(parts, ours):
            if place is None and part != our_part:
                place = bits + indicator - (part - 1 ^ our_part - 1).bit_length()
            bits += indicator + each * part
        more += indicator * (len(parts) - len(ours))
    return OURS if place is None else departs(place, bytes_for(bits) - bytes_for(bits - more))


def most_codes():
    """As many codes as data can have: zeros are the shortest, each of one character."""
    for length in *range(1, 13), 1000, 3999, 4000:
        for format, width, character, most in ((PSEUDO, 6, b" ", 4 * length // 3), (NUMERIC, 4, b"0", 2 * length), (SHEF, 5, b"0", 8 * length // 5),
                                               (ASCII, 6, b" ", 4 * length // 3)):
            codes = ["0" * width] * most
            assert len(bytes_of("".join(codes))) == length
            built(format, codes, character * most, judged_runs((b" ", (1,) * most)) if format == PSEUDO else OURS)


def fills():
    """One to eight codes of one width, and so every length of fill; and one to eight values behind one indicator."""
    for count in range(1, 9):
        for format, code, character in ((PSEUDO, "010000", b"/"), (SHEF, "00001", b"1"), (SHEF, "100000", b"A"), (ASCII, "000001", b"!"),
                                        (ASCII, "1000001", b"A"), (ASCII, "111111100", b"\t")):
            built(format, [code] * count, character * count, judged_runs((b"/", (1,) * count)) if format == PSEUDO else OURS)
        built(PSEUDO, values_codes([63] * count), b"?" * count)


def cut_runs():
    """One text in runs that are cut in several ways: each has an indicator more."""
    for runs in (16,), (8, 8), (15, 1), (1, 14, 1), (1,) * 16:
        for kind, character in ("00", b" "), ("01", b"/"):
            built(PSEUDO, [f"{kind}{run - 1:04b}" for run in runs], character * 16, judged_runs((character, runs)))
    for runs in (128,), (64, 64), (1, 127), (127, 1), (1, 126, 1), (1,) * 128:
        built(PSEUDO, [code for run in runs for code in values_codes([33] * run)], b"a" * 128, judged_runs((b"a", runs)))
    built(PSEUDO, ["000000", *values_codes([1, 2]), "010001", "000010", *values_codes([3])], b" AB//   C")


def line_ends_counted():
    """A line end is one code of SHEF and of Full ASCII, but there CR and LF may have two; in Numeric it is two, as each pair."""
    for count in *range(1, 10), 100:
        built(SHEF, ["111010"] * count, b"\r\n" * count)
        built(ASCII, ["111111111"] * count, b"\r\n" * count)
        built(ASCII, ["111111101", "111111110"] * count, b"\r\n" * count, departs(7, bytes_for(18 * count) - bytes_for(9 * count)))
        built(NUMERIC, ["1011", "1011"] * count, b"\r\n" * count)
    built(ASCII, ["111111101", "111111111", "111111110"], b"\r\r\n\n")
    for base, text in (b"++", b"\r\n"), (b"+-", b"#"), (b"-+", b"="), (b"..", b":"), (b"--", b"E"), (b"1 ", b"1 "), (b"1++ ", b"1\r\n "), (b"+++ ", b"\r\n+ "):
        built(NUMERIC, [f"{TABLE_4.index(character):04b}" for character in base], text)


def codes_before_six_ones():
    """SHEF: so many codes, of one character or two, before six ones that are not fill."""
    for code, count in itertools.product(("00001", "100000", "111010"), (*range(1, 10), 50)):
        zeros = -(len(code) * count + 6) % 8 or 8
        malformed_behind(SHEF, [code] * count, "111111" + "0" * zeros)


def values_missing():
    """Fewer values than are announced, behind nothing, behind runs and behind values: the indicator counts, and each value that is whole."""
    for front, announced in itertools.product(([], ["000000"], ["011111", "001111"], values_codes([5, 6, 7])), (1, 2, 3, 8, 64, 127, 128)):
        for there in sorted({0, 1, 2, 3, 4, announced // 2, announced - 2, announced - 1} & set(range(announced))):
            codes = front + [f"1{announced - 1:07b}"] + ["110011"] * there
            rest = -sum(map(len, codes)) % 8
            for bits in sorted({"0" * rest, "1" * rest}) if rest < 6 else ():  # six would be another value
                malformed_behind(PSEUDO, codes, bits)


# ---- at 1200: data of several sections

class Building:
    """Data put together code by code, and the text that it carries: both are known from the making."""

    def __init__(self, format):
        self.format, self.text, self.codes, self.bits, self.turns = format, b"", [], 0, itertools.count()

    def add(self, text, codes=None):
        """A text in the codes of our writer, or in those of another maker."""
        if codes is None:
            base = b"".join(BASE[piece] for piece in pieces(text)) if self.format == NUMERIC else b""
            codes = [f"{TABLE_4.index(character):04b}" for character in base] or CODES[self.format](text)
        self.text += text
        self.codes += codes
        self.bits += 8 * len(text) if self.format == OPEN else sum(map(len, codes))

    def data(self):
        return self.text if self.format == OPEN else bytes_of("".join(self.codes))

    def some(self, characters):
        turn = next(self.turns)
        return bytes([characters[(turn * turn // 3 + turn) % len(characters)]])

    def add_runs(self, width):
        """Pseudo Binary: runs of values, each with blanks behind it, slashes at the end. Each has eight bits and then a number of sixes."""
        runs = width // 222 * 3 + width // 2 % 3
        sixes = (width - 8 * runs) // 6
        for run in range(runs):
            values = sixes * (run + 1) // runs - sixes * run // runs - 1
            self.add(b"".join(self.some(bytes(range(64, 127)) + b"?") for _ in range(values)))
            self.add((b"/" if (runs - run) % 2 else b" ") * (run % 16 + 1))

    def add_characters(self, width, narrow, narrow_ones, wide_ones):
        """Characters of two widths, of which one is a bit more, in equal numbers as far as can be."""
        wide = width // (2 * narrow + 1)
        wide -= (wide - width) % narrow
        count = wide + (width - wide * (narrow + 1)) // narrow
        for index in range(count):
            self.add(self.some(wide_ones if (index + 1) * wide // count > index * wide // count else narrow_ones))

    def fill_to(self, bit):
        """Codes that end just there."""
        width = bit - self.bits
        if self.format == PSEUDO:
            self.add_runs(width)
        elif self.format == SHEF:
            self.add_characters(width, 5, TABLE_4, b"ABCDEFGHIJKLMNOPQRSTUVWXYZ#=:;")
        elif self.format == ASCII:
            self.add_characters(width, 6, bytes(range(32, 64)), bytes(range(64, 127)))
        else:
            each, characters = (4, b"0123456789 ,/") if self.format == NUMERIC else (8, bytes(range(256)))
            self.add(b"".join(self.some(characters) for _ in range(width // each)))
        assert self.bits == bit, (self.format, self.bits, bit)


# By format: texts that stand over the end of a section, and how many bits of their codes stand before it.
OVER_AN_END = {
    OPEN: [],
    PSEUDO: [(b" " * 16, 2), (b" ", 4)] + [(b"ABC?~ ", bits) for bits in (2, 4, 6, 8, 10, 12, 14)] + [(b"x" * 128 + b" ", 394), (b"y" * 300 + b" ", 780)],
    NUMERIC: [(pair, 4) for pair in (b"\r\n", b"#", b"=", b":", b"E")] + [(b"+5", 4), (b"-0", 4), (b".7", 4), (b"\r\n+1", 8), (b"E-1", 8)],
    SHEF: [(text, bits) for text, width in ((b"7", 5), (b"Q", 6), (b"\r\n", 6)) for bits in range(1, width)],
    ASCII: [(text, bits) for text, width in ((b"!", 6), (b"z", 7), (b"\r\n", 9)) for bits in range(1, width)] + [(b"\t", 3), (b"\n", 8)],
}


def filled(format, length, waiting):
    """A building of so many data bytes. Over the end of each section stands the next of the texts that wait, where one byte is left the next that ends in it;
    and where none waits, any."""
    building = Building(format)
    for end in range(8 * SECTION, 8 * length, 8 * SECTION):
        for text, before in waiting + OVER_AN_END[format]:
            if end + len("".join(CODES[format](text))) - before <= 8 * length:
                building.fill_to(end - before)
                building.add(text)
                waiting[:] = [other for other in waiting if other != (text, before)]
                break
    if format == NUMERIC or 8 * length - building.bits > 7:
        fill = {OPEN: 0, NUMERIC: 0, PSEUDO: length % 4 * 2}.get(format, length % 8)
        building.fill_to(8 * length - fill)
    assert len(building.data()) == length, (format, length, len(building.data()))
    assert building.codes == CODES[format](building.text)
    return building


def round_trip(building, sync):
    """Written, and read back in the room that is needed and by the reader that needs none to be named."""
    format, text = building.format, building.text
    whole = packet_of(format, building.data(), sync)
    writes(format, text, len(whole), sync, (f"written {len(whole)}", len(whole), whole))
    reads(whole, len(text), accepted(format, len(whole), text, sync, codes=len(building.codes)), DEFAULT)


def lengths_1200():
    """Lengths around each limit, with all that may stand over the end of a section."""
    for format in FORMATS:
        waiting = list(OVER_AN_END[format])
        for length in 3999, 4000, 4001, 7999, 8000, 8001, 11999, 12000, 12001, 15999, 16000:
            round_trip(filled(format, length, waiting), length % 2)
        while waiting:
            round_trip(filled(format, 12200, waiting), 1)


def other_makers_1200():
    """Codes that our writer would not choose, over the ends of sections; and as many codes as data can have."""
    for codes, text, judgement in ((["111111101", "111111110"], b"\r\n", departs(31998, 3)),
                                   (["111111101", "111111111", "111111110"], b"\r\r\n\n", OURS)):
        building = Building(ASCII)
        for section in 1, 2:
            building.fill_to(8 * SECTION * section - 9)
            building.add(text, codes)
        read_building(building, judgement)
    for unit, codes, parts in ((b"/", ["010000"], (1,)), (b" ", ["000000"], (1,)), (b"A", ["10000000", "000001"], (1,)),
                               (b"A" * 127 + b"B", values_codes([1] * 127) + values_codes([2]), (127, 1))):
        building = Building(PSEUDO)
        while building.bits <= 8 * 2 * SECTION:
            building.add(unit, codes)
        read_building(building, judged_runs((unit[:1], parts * (len(building.text) // len(unit)))))
    for format, width, character in (PSEUDO, 6, b" "), (NUMERIC, 4, b"0"), (SHEF, 5, b"0"), (ASCII, 6, b" "):
        building = Building(format)
        most = 8 * LONGEST_1200 // width
        building.add(character * most, ["0" * width] * most)
        read_building(building, judged_runs((b" ", (1,) * most)) if format == PSEUDO else OURS)


def read_building(building, judgement):
    whole = packet_of(building.format, building.data())
    reads(whole, len(building.text), accepted(building.format, len(whole), building.text, codes=len(building.codes)), judgement=judgement)


def longest_1200():
    """Both sides of the limits of length and room."""
    longest_text = packet_of(PSEUDO, bytes_of("011111" * 21333))
    reads(longest_text, 341328, accepted(PSEUDO, 16012, b"/" * 341328, codes=21333), judgement=OURS)
    reads(longest_text, 341327, ("refused 8", 341328, b""), judgement=OURS)
    for format, unit, most in (OPEN, b"x", 16000), (PSEUDO, b"A", 21113), (NUMERIC, b":", 16000), (SHEF, b"A", 21333), (ASCII, b"\t", 14222):
        fullest = packet_of(format, WRITE[format](unit * most))
        assert len(fullest) == 16012
        writes(format, unit * most, 16012, answer=("written 16012", 16012, fullest))
        writes(format, unit * (most + 1), 0, answer=("refused 11", 0, b""))  # 11 comes before 8
    writes(OPEN, b"x" * 16000, 16011, answer=("refused 8", 16012, b""))
    writes(SHEF, b"A" * 21334 + b"a", 0, answer=("refused 9", 21334, b""))  # and 9 before 11
    for format in FORMATS:
        building = filled(format, 4001, [])
        text, whole = building.text, packet_of(format, building.data())
        for room in 0, 4006, 4008:
            writes(format, text, room, answer=("refused 8", 4009, b""))
        reads(whole + b"\x00", len(text) + 3, accepted(format, 4009, text, codes=len(building.codes)), judgement=OURS)
        for room in 0, len(text) - 1:
            reads(whole, room, ("refused 8", len(text), b""), judgement=OURS)


def header_lengths_1200():
    """What the header's length says, with a few bytes behind it: 4 above 16,000, else 5; and five sections that are all there."""
    for format in FORMATS:
        for length in 0, 4000, 4001, 8001, 16000, 16001, 16383:
            for places in (), (12,), (0, 21):
                refusal = "refused 5" if 1 <= length <= 16000 else "refused 4"
                reads(flipped(packet(header(2, format, 0, 0, length), b"?"), places), 7, (refusal, 0, b""))
    reads(packet_of(OPEN, filled(OPEN, 16001, []).data()), 9, ("refused 4", 0, b""))


def cut_off_1200():
    """Packets that lack a byte or more: one or several checksums, the last section, or a part of it."""
    for format, length, cuts in ((OPEN, 4001, (4, 4004, 4006, 4007, 4008)), (ASCII, 8000, (8006, 8007)), (SHEF, 8001, (8007, 8009, 8010)),
                                 (NUMERIC, 12001, (12007, 12012)), (PSEUDO, 16000, (16006, 16011))):
        whole = packet_of(format, filled(format, length, []).data())
        assert len(whole) == length + 4 + 2 * (length // 4000 + (length % 4000 > 0))
        for cut in cuts:
            reads(whole[:cut], 9, ("refused 5", 0, b""))


def damaged(whole, *places):
    """The packet with a byte changed at each of these places, each in another way."""
    changed = bytearray(whole)
    for place in places:
        changed[place] ^= (0x01, 0x80, 0xFF, 0x10, 0x3C)[place % 5]
    return bytes(changed)


def places_in(section, length):
    """Where one of a packet's sections lies: its first data byte, its last, and its checksum's two bytes."""
    first = 4 + section * (SECTION + 2)
    behind = first + min(SECTION, length - section * SECTION)
    return first, behind - 1, behind, behind + 1


def damage_1200():
    """One section's data damaged in one byte or two neighbouring ones, or its checksum, and up to two header bits flipped; and several sections."""
    formats, flips = itertools.cycle(FORMATS), itertools.cycle(((), (0,), (13,), (9, 30)))
    for length, sections in (4030, (0, 1)), (8030, (1, 2)), (12030, (2, 3)):
        for section in sections:
            first, last, low, high = places_in(section, length)
            middle = (first + last) // 2
            for places in (first,), (last,), (first, first + 1), (last - 1, last), (middle, middle + 1), (low,), (high,), (low, high):
                format = next(formats)
                whole = packet_of(format, filled(format, length, []).data())
                reads(flipped(damaged(whole, *places), next(flips)), 9, ("refused 6", section, b""))
    whole = packet_of(OPEN, filled(OPEN, 12030, []).data())
    firsts = [places_in(section, 12030)[0] for section in range(4)]
    for bad in (0, 1), (1, 2), (0, 3), (2, 3), (0, 1, 2, 3):
        reads(damaged(whole, *(firsts[section] for section in bad)), 9, ("refused 6", bad[0], b""))
    reads(damaged(whole, places_in(0, 12030)[1], places_in(1, 12030)[0]), 9, ("refused 6", 0, b""))


def other_checksums():
    """Checksums that are laid out or worked out in other ways: not started anew, over the checksum before, high byte first, all behind the data, one alone."""
    data = filled(OPEN, 8100, []).data()
    head, parts = header(2, OPEN, 0, 0, 8100).to_bytes(4, "big"), [data[:4000], data[4000:8000], data[8000:]]
    sums = [checksum(part) for part in parts]
    for bodies, section in (
            ([parts[0], sums[0], parts[1], checksum(data[:8000]), parts[2], checksum(data)], 1),
            ([parts[0], sums[0], parts[1], sums[1], parts[2], checksum(data)], 2),
            ([parts[0], sums[0], parts[1], checksum(sums[0] + parts[1]), parts[2], sums[2]], 1),
            ([parts[0], sums[0], parts[1], sums[1][::-1], parts[2], sums[2]], 1),
            ([data, *sums], 0),
            ([data, checksum(data), bytes(4)], 0),
    ):
        reads(head + b"".join(bodies), 9, ("refused 6", section, b""))


def malformed_1200():
    """Data that cannot be read from a place in a later section on, or from one over a section's end; bits and codes count as if it lay in one piece."""
    for section, before, tail in ((1, -1, 2), (1, 0, 1), (1, 1, 1), (1, 3, 1), (1, 5, 1), (1, 6, 1), (1, 7, 1), (1, 300, 1), (2, 2, 1), (2, -40, 9),
                                  (3, 4, 1), (3, -1, 2)):
        building = Building(SHEF)
        building.fill_to(8 * SECTION * section - before)
        bits = 8 * (SECTION * section + tail) - building.bits
        read_malformed(building, "111111" + "0" * (bits - 6))
    for section, before, announced, there in ((1, 2, 1, 0), (1, 6, 3, 2), (1, 6, 9, 3), (1, 8, 2, 1), (1, 400, 128, 100), (2, 4, 9, 3), (3, 770, 128, 127)):
        building = Building(PSEUDO)
        building.fill_to(8 * SECTION * section - before)
        building.add(b"", [f"1{announced - 1:07b}"] + ["110011"] * there)
        read_malformed(building, "1" * (-building.bits % 8))
    for length, rest in (4001, "100000"), (4001, "111101"), (8001, "11111111"), (12002, "00000"), (16000, "111110"):
        building = Building(ASCII)
        building.fill_to(8 * length - len(rest))
        read_malformed(building, rest)
    for rest in "0111", "1110":
        building = Building(SHEF)
        building.fill_to(8 * 4004 - len(rest))
        read_malformed(building, rest)


def read_malformed(building, rest):
    """Whole codes, and a remainder that cannot be read, to the end of a byte. Where a checksum is wrong, that comes first."""
    data = bytes_of("".join(building.codes) + rest)
    assert len(data) * 8 == building.bits + len(rest)
    whole = packet_of(building.format, data)
    reads(whole, 20, ("refused 7", building.bits, b"", len(building.codes)))
    if len(data) < 4010:
        reads(damaged(whole, len(whole) - 1), 20, ("refused 6", 1, b""))


def flipped_1200():
    """Packets of two sections with header bits flipped, and with each number of bits named."""
    for format, places in zip(FORMATS, ((), (0,), (31,), (7, 22), (0, 13))):
        building = filled(format, 4040 + format, [])
        whole = flipped(packet_of(format, building.data(), 1), places)
        ok = accepted(format, len(whole), building.text, 1, places, len(building.codes))
        for named in 0, 1, 2, DEFAULT:
            reads(whole, len(building.text), ok if as_sent(named, len(places)) else ("refused 2", 0, b""), named, OURS)
        reads(whole, 9, ("refused 17", 0, b""), 3)


def sections_at_300():
    """Packets of several sections, read at 300."""
    for format, length in (OPEN, 4001), (ASCII, 4001), (PSEUDO, 8000):
        data = filled(format, length, []).data()
        body = b"".join(data[start:start + 4000] + checksum(data[start:start + 4000]) for start in range(0, length, 4000))
        reads(header(2, format, 0, 0, length).to_bytes(4, "big") + body, 9, ("refused 4", 0, b""))
        reads(header(2, format, 0, 0, length).to_bytes(4, "big") + body, 9, ("refused 4", 0, b""), DEFAULT)


def spread():
    """Texts that another maker spreads over as much as one packet holds, each character or line end by itself: read, and written in so many data bytes."""
    parts = (PSEUDO, ["010000"], b"/", 2), (PSEUDO, values_codes([1]), b"A", 1), (ASCII, ["111111101", "111111110"], b"\r\n", 7)
    ours = ((21333, 1001), (9142, 6929), (7111, 8000)) if RATE_1200 else ((5333, 251), (2285, 1732), (1777, 2000))
    for (format, codes, unit, place), (count, length) in zip(parts, ours):
        text = unit * count
        data = bytes_of("".join(codes * count))
        whole = packet_of(format, data)
        assert len(whole) <= packet_length(most_data()) < len(packet_of(format, bytes_of("".join(codes * (count + 1)))))
        reads(whole, len(text), accepted(format, len(whole), text, codes=len(codes) * count), judgement=departs(place, len(data) - length))
        needed = packet_length(length)
        writes(format, text, needed - 1, answer=("refused 8", needed, b""))
        writes(format, text, needed, answer=(f"written {needed}", needed, packet_of(format, WRITE[format](text))))


# ---- packets of other makers, which are judged

CR, LF, CR_LF = "111111101", "111111110", "111111111"


def read_flipped(format, data, text, codes, judgement, places=(), named=MOST_MENDED):
    """Data that carries the text in so many codes, behind a header that is flipped at these places: read in the room for the text, or refused."""
    whole = packet_of(format, data)
    answer = accepted(format, len(whole), text, 0, places, codes) if as_sent(named, len(places)) else ("refused 2", 0, b"")
    reads(flipped(whole, places), len(text), answer, named, judgement)


def departures():
    """By hand: data, the text that it carries in so many codes, and how it is judged. Our writer's data stands beside it where it is other."""
    for format, sent, text, codes, judgement in (
            (PSEUDO, "47", b"//", 1, OURS),
            (PSEUDO, "410F", b"//", 2, departs(5, 1)),  # 47
            (PSEUDO, "000F", b"  ", 2, departs(5, 1)),  # 07
            (PSEUDO, "8006002F", b"AB", 4, departs(7, 1)),  # 81042F
            (PSEUDO, "80FE03FF", b"??", 4, departs(7, 1)),  # 81FFFF
            (PSEUDO, "41043F", b"///", 3, departs(4, 2)),  # 4B
            (PSEUDO, "451F", b"////", 2, departs(4, 1)),  # 4F
            (PSEUDO, "490F", b"////", 2, departs(5, 1)),  # 4F
            (PSEUDO, "790F", b"/" * 16, 2, departs(5, 1)),  # 7F
            (PSEUDO, "5D7F", b"/" * 16, 2, departs(2, 1)),  # 7F
            (PSEUDO, "7D0F", b"/" * 17, 2, OURS),
            (PSEUDO, "41FF", b"/" * 17, 2, departs(2, 0)),  # 7D0F
            (PSEUDO, "5D8F", b"/" * 17, 2, departs(2, 0)),  # 7D0F
            (PSEUDO, "40043F", b"/ /", 3, OURS),
            (PSEUDO, "400410", b"/ //", 4, departs(17, 0)),  # 40047F, which ends in six bits of fill
            (PSEUDO, "4900D30F", b"////    ////    ", 5, departs(5, 1)),  # 4C34C3
            (PSEUDO, "4C34C203", b"////    ////    ", 5, departs(23, 1)),  # 4C34C3
            (PSEUDO, "8005043F", b"A//", 4, departs(19, 1)),  # 80051F
            (ASCII, "FFFF", b"\r\n", 1, OURS),
            (ASCII, "FEFFBF", b"\r\n", 2, departs(7, 1)),  # FFFF
            (ASCII, "83FDFF7F", b"A\r\n", 3, departs(14, 2)),  # 83FF
            (ASCII, "FEFFA0FF", b"\r\nA", 3, departs(7, 2)),  # FFC1
            (ASCII, "FF7F7F", b"\n\r", 2, OURS),
            (ASCII, "FEFFFF", b"\r\r\n", 2, OURS),
            (ASCII, "FEFF7FDF", b"\r\r\n", 3, departs(16, 1)),  # FEFFFF
    ):
        read_flipped(format, bytes.fromhex(sent), text, codes, judgement)


def run_of(kind, length):
    """So many spaces, slashes, or values that vary."""
    return kind * length if kind in (b" ", b"/") else bytes(value_character((7 * index + length) % 64) for index in range(length))


def part_codes(part):
    """Pseudo Binary: a part of a run, behind one indicator."""
    blank = {b" ": "00", b"/": "01"}.get(part[:1])
    return [f"{blank}{len(part) - 1:04b}"] if blank else values_codes([value_of(character) for character in part])


def read_runs(*runs):
    """Pseudo Binary: runs of these kinds, each in parts of these lengths."""
    text, codes = b"", []
    for kind, parts in runs:
        run = run_of(kind, sum(parts))
        text += run
        for part in parts:
            codes += part_codes(run[:part])
            run = run[part:]
    read_flipped(PSEUDO, bytes_of("".join(codes)), text, len(codes), judged_runs(*runs))


def runs_cut_anywhere():
    """Runs of each kind, cut as our writer does not: by themselves, and as the first, the middle and the last of three, of which the others are as ours; then
    several in one packet, where the first that is cut says at which bit it departs."""
    blanks = (1, 1), (8, 8), (12, 4), (14, 2), (15, 1), (1, 16), (16, 15, 1), (11, 11, 11)
    values = (1, 1), (64, 64), (96, 32), (112, 16), (120, 8), (124, 4), (126, 2), (1, 128), (128, 1, 128)
    lengths = itertools.cycle((1, 2, 5, 16, 3, 9, 4))
    for kind, cuts in (b" ", blanks), (b"/", blanks), (b"A", values):
        for parts in cuts:
            read_runs((kind, parts))
            for place in range(3):
                runs = [(other, (next(lengths),)) for other in (b"/", b"A", b" ") if other != kind]
                read_runs(*runs[:place], (kind, parts), *runs[place:])
    for runs in (
            ((b"/", (1, 1)), (b"A", (1, 1)), (b" ", (1, 1))),
            ((b"A", (128,)), (b" ", (15, 1)), (b"A", (127, 1)), (b"/", (16,))),
            ((b" ", (16, 16)), (b"/", (16, 15, 1)), (b" ", (1, 1))),
            ((b"A", (3,)), (b"/", (16, 4)), (b"A", (128, 128, 1)), (b" ", (9,)), (b"A", (128, 1, 1))),
            ((b"A", (1,) * 20), (b"/", (1,) * 20), (b"A", (1,) * 20)),
            ((b"/", (8, 9)), (b" ", (16, 1)), (b"/", (9, 8))),
            ((b"A", (64, 65)), (b" ", (1,)), (b"A", (127, 2))),
    ):
        read_runs(*runs)


def line_ends_in_two():
    """Full ASCII: CR and LF in a code each, at any choice of a text's line ends. Each departs in the eighth bit of our code, and has nine bits more."""
    end = b"\r\n"
    for parts in ([end], [end, end], [end, b"AB", end, b"1,2", end], [b"Stage 1.23", end, end, b"\t0.0~", end, b"\n"], [b"\r", end, b"\n"],
                  [b"zzzzzzz", end]):
        ends = [index for index, part in enumerate(parts) if part == end]
        for chosen in (chosen for count in range(len(ends) + 1) for chosen in itertools.combinations(ends, count)):
            codes, places = [], []
            for index, part in enumerate(parts):
                places += [len("".join(codes)) + 7] if index in chosen else []
                codes += [CR, LF] if index in chosen else ascii_codes(part)
            bits = len("".join(codes))
            judgement = departs(places[0], bytes_for(bits) - bytes_for(bits - 9 * len(chosen))) if chosen else OURS
            read_flipped(ASCII, bytes_of("".join(codes)), b"".join(parts), len(codes), judgement)
    for which, judgement in (0, departs(7, 1)), (1, departs(16, 1)), (50, departs(457, 1)), (99, departs(898, 1)):  # of 100
        codes = [CR_LF] * which + [CR, LF] + [CR_LF] * (99 - which)
        read_flipped(ASCII, bytes_of("".join(codes)), end * 100, 101, judgement)


def departures_refused():
    """Packets that depart: with header bits flipped and each number of bits named, and refused for something else."""
    for format, sent, text, judgement in (PSEUDO, "410F", b"//", departs(5, 1)), (ASCII, "FEFFBF", b"\r\n", departs(7, 1)):
        data = bytes.fromhex(sent)
        for places, numbers in ((), (0, 1, 2)), ((30,), (0, 1, 2)), ((4, 22), (0, 1, 2)), ((0, 7), (1, 2)), ((3, 12, 29), (0, 1)):
            for named in numbers:
                read_flipped(format, data, text, 2, judgement, places, named)
        whole = packet_of(format, data)
        reads(whole + b"\x00", 2, accepted(format, len(whole), text, codes=2), 0, judgement)
        reads(whole, 0, ("refused 8", 2, b""), 0, judgement)
        reads(whole, 2, ("refused 17", 0, b""), 3)
        reads(whole[:-1], 2, ("refused 5", 0, b""), 0)
        reads(damaged(whole, len(whole) - 3), 2, ("refused 6", 0, b""), 1)
    malformed_behind(PSEUDO, ["010000", "010000", "10000000"], "0000")
    malformed_behind(PSEUDO, ["000000", "000000", "010000", "010000", "11111111"], "")
    malformed_behind(ASCII, [CR, LF], "100000")


# A text in the codes of another maker, the first bit of these that is not ours, and how many bits there are more. In Pseudo Binary a blank ends it, and slashes
# have a space before them: so no run goes on in what a building has beside it.
SLASHES = b" //", ["000000", "010000", "010000"], 11, 6
SPACES = b"  ", ["000000", "000000"], 5, 6
VALUES = b"AB ", values_codes([1]) + values_codes([2]) + ["000000"], 7, 8
LINE_END = b"\r\n", [CR, LF], 7, 9


def read_cut(format, cuts, tail=b""):
    """A building with such texts from these bits on, our writer's codes between them, and a tail; how it is judged is put together beside it."""
    building, places, more = Building(format), [], 0
    for bit, (text, codes, place, more_bits) in cuts:
        building.fill_to(bit)
        building.add(text, codes)
        places.append(bit + place)
        more += more_bits
    if tail:
        building.add(tail)
    read_building(building, departs(places[0], bytes_for(building.bits) - bytes_for(building.bits - more)))


def longest_departing():
    """As many data bytes as a packet has at most, of which our writer needs one less: the last run or line end is cut."""
    bits = 8 * most_data()
    for format, bit, cut in (PSEUDO, bits - 20, SLASHES), (PSEUDO, bits - 14, SPACES), (PSEUDO, bits - 34, VALUES), (ASCII, bits - 18, LINE_END):
        read_cut(format, [(bit, cut)])


def departures_1200():
    """Runs and line ends cut in the middle of each section, over the end of each, and in several; data that is a section longer than ours; and the longest
    data that is as ours."""
    kinds = (PSEUDO, SLASHES, b"Z/"), (PSEUDO, SPACES, b"Z/"), (PSEUDO, VALUES, b"Z/"), (ASCII, LINE_END, b"Z!")
    for section in range(4):
        for index, (format, cut, tail) in enumerate(kinds):
            read_cut(format, [(8 * SECTION * section + 16000 + 250 * index, cut)], tail)
    sections = itertools.cycle((1, 2, 3))
    befores = (12, 10, 8), (12, 8, 6, 4, 2), (20, 14, 8, 6, 2), (17, 9, 8, 7, 1)  # bits before the section's end
    for (format, cut, tail), before in ((kind, before) for kind, bits in zip(kinds, befores) for before in bits):
        read_cut(format, [(8 * SECTION * next(sections) - before, cut)], tail)
    for format, *cuts in (
            (PSEUDO, (20000, SLASHES), (52000, SPACES), (84000, VALUES), (116000, SLASHES)),
            (PSEUDO, (52002, VALUES), (116004, VALUES)),
            (PSEUDO, (31996, SPACES), (63992, SLASHES), (95994, VALUES)),
            (ASCII, (20000, LINE_END), (52000, LINE_END), (84000, LINE_END), (116000, LINE_END)),
            (ASCII, (31995, LINE_END), (63994, LINE_END), (95993, LINE_END)),
    ):
        read_cut(format, cuts)
    for end in 32000, 64000, 96000:
        read_cut(PSEUDO, [(end - 12, SLASHES)])
        read_cut(ASCII, [(end - 9, LINE_END)])
    for format in FORMATS:
        read_building(filled(format, 16000 - 2 * format, []), OURS)


def departures_refused_1200():
    """A packet of two sections that departs in the first: with header bits flipped, and refused for something else in either."""
    building = Building(PSEUDO)
    building.fill_to(20000)
    building.add(*SLASHES[:2])
    building.fill_to(8 * 4005 + 6)  # ours end with the byte before
    data, text, codes = building.data(), building.text, len(building.codes)
    for places, named in ((), 0), ((9,), 0), ((9,), 1), ((2, 31), 1), ((2, 31), 2):
        read_flipped(PSEUDO, data, text, codes, departs(20011, 1), places, named)
    whole = packet_of(PSEUDO, data)
    reads(whole, 9, ("refused 17", 0, b""), 3)
    reads(whole[:-1], 9, ("refused 5", 0, b""), 1)
    for section in 0, 1:
        reads(damaged(whole, places_in(section, 4006)[1]), 9, ("refused 6", section, b""), 0)
    building.add(b"", ["10000001", "110011"])
    read_malformed(building, "1" * (-building.bits % 8))


AT_300 = (published, messages, edges, sixty_threes, line_ends_and_pairs, headers, reader_refusals, endings, compact_data, longest, writer_refusals, texts,
          edges_named, flipped_headers, tests_behind, too_many_bits, most_codes, fills, cut_runs, line_ends_counted, codes_before_six_ones, values_missing,
          sections_at_300, spread, departures, runs_cut_anywhere, line_ends_in_two, departures_refused, longest_departing)
# Packets of one section have the same answers.
AT_1200 = (published, edges, edges_named, endings, lengths_1200, other_makers_1200, longest_1200, header_lengths_1200, cut_off_1200, damage_1200,
           other_checksums, malformed_1200, flipped_1200, spread, departures, longest_departing, departures_1200, departures_refused_1200)


def make():
    global RATE_1200
    for rate, groups in (300, AT_300), (1200, AT_1200):
        RATE_1200 = rate == 1200
        for group in groups:
            cases, size = COUNT, len(STDIN) + sum(map(len, STDOUT))
            group()
            print(f"{rate}, {group.__name__}: {COUNT - cases} cases, {len(STDIN) + sum(map(len, STDOUT)) - size} bytes")
    print(f"{COUNT} cases, {len(STDIN)} bytes")
    return {"stdin": bytes(STDIN), "stdout": "".join(STDOUT).encode()}


def main(words):
    if words not in ([], ["--check"]):
        sys.exit("usage: make_vectors.py [--check]")
    for name, made in make().items():
        file = ROOT / "crates/vectors" / name
        if not words:
            file.write_bytes(made)
        elif file.read_bytes() != made:
            sys.exit(f"crates/vectors/{name} is not what vector-maker/make_vectors.py makes")


if __name__ == "__main__":
    main(sys.argv[1:])
