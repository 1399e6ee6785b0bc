"""Readers of the formats, by the manual and docs/DECISIONS.md. They share nothing with the program."""

import re
import struct
import tomllib

MAGIC = b"ARC2IMG1"
MOST_WORDS, MOST_SEGMENTS = 65_536, 16
DEVICES, ROM, END = 0x3000000, 0x3400000, 0x4000000
MOST = {"loop": 256, "target": 1_024, "access": 4_096, "base": 256, "multiply": 1_024, "branch": 1_024}
MOST_APART = 256
LINES = {"IL0", *(f"A{n}" for n in range(3)), *(f"B{n}" for n in range(1, 8)), *(f"F{n}" for n in range(6))}
MODES, LEAVES = ("user", "fiq", "irq", "svc"), ("any", "ram", "rom", "io")
CLASSES = (*LEAVES, "slow", "medium", "fast", "synchronous")
BASES = {f"R{n}": n for n in range(16)} | {"SP": 13, "LR": 14, "PC": 15}
BASES |= {name.lower(): number for name, number in BASES.items()}
REGISTERS = {
    *(f"r{n}" for n in range(15)),
    *(f"r{n}_fiq" for n in range(8, 15)),
    *("r13_irq", "r14_irq", "r13_svc", "r14_svc"),
}
# The greatest number at each key of the devices' tables, and the bits of IRQ A that are latched.
IOC = dict.fromkeys(("mask_a", "mask_b", "mask_fiq", "requests_a"), 0xFF)
IOC |= dict.fromkeys(("timer_0", "count_0", "timer_1", "count_1"), 0xFFFF)
VIDC = dict.fromkeys(("horizontal_cycle", "vertical_cycle", "display_end"), 0x3FF) | {"pixel_rate": 3, "ticks": 2**32 - 1}
LATCHED = 0x6C


def holds(address):
    """Whether a word may be at an address."""
    return address % 4 == 0 and (address < DEVICES or ROM <= address < END)


def image_bytes(segments):
    """The bytes of an image with segments as they are, each an address and its words."""
    parts = [MAGIC, struct.pack("<I", len(segments))]
    for address, words in segments:
        parts.append(struct.pack(f"<II{len(words)}I", address, len(words), *words))
    return b"".join(parts)


def runs(words):
    """The longest runs of words one after another, ascending."""
    found = []
    for address in sorted(words):
        if found and address == found[-1][0] + 4 * len(found[-1][1]):
            found[-1][1].append(words[address])
        else:
            found.append((address, [words[address]]))
    return found


def least(standing):
    """The least number whose bytes begin with these."""
    return int.from_bytes(standing.ljust(4, b"\0"), "little")


def least_count(standing):
    """The same for a number of words, which is not 0 as long as a byte of it is missing."""
    number = least(standing)
    return 1 << 8 * len(standing) if number == 0 and len(standing) < 4 else number


def head_fault(head, words, to_come):
    """Why a segment that begins with these bytes, all or some of eight, cannot follow these words."""
    address = least(head[:4])
    if address % 4:
        return "Misaligned"
    if len(head) < 4:
        if len(words) + 1 + to_come > MOST_WORDS:
            return "OutOfRange"
        # The last byte of an address is 0 to 3.
        if len(head) == 3 and all(not holds(it) or it in words for it in range(address, END, 1 << 24)):
            return "Overlap"
        return "Truncated"
    number = least_count(head[4:])
    end = address + 4 * number
    if number == 0 or not (end <= DEVICES or address >= ROM and end <= END):
        return "OutOfRange"
    if len(words) + number > MOST_WORDS:
        return "OutOfRange"
    if any(it in words for it in range(address, end, 4)):
        return "Overlap"
    return None


def read_image(data):
    """The words of an image by their addresses, or the name of what is wrong with its bytes."""
    number = least(data[8:12])
    if number > MOST_SEGMENTS:
        return "OutOfRange"
    if len(data) < 12:
        return "Truncated"
    words, at = {}, 12
    for to_come in reversed(range(number)):
        head = data[at : at + 8]
        fault = head_fault(head, words, to_come)
        if fault:
            return fault
        address, count = least(head[:4]), least_count(head[4:])
        end = at + 8 + 4 * count
        if len(data) < end:
            return "OutOfRange" if len(words) + count + to_come > MOST_WORDS else "Truncated"
        numbers = struct.unpack(f"<{count}I", data[at + 8 : end])
        words.update(zip(range(address, address + 4 * count, 4), numbers))
        at = end
    return "TrailingBytes" if len(data) > at else words


def imported(parts):
    """The words of the image of parts, each an address and its bytes; or the first fault with its address."""
    if len(parts) > MOST_SEGMENTS:
        return "TooManyParts", ""
    words = {}
    for address, data in parts:
        for at in range(0, len(data), 4):
            place = address + at
            faults = {
                "Misaligned": place % 4,
                "OutOfRange": not holds(place),
                "Overlap": place in words,
                "TooLong": len(words) == MOST_WORDS,
            }
            fault = next((name for name, it in faults.items() if it), None)
            if fault:
                return fault, f" at {place:X}"
            words[place] = least(data[at : at + 4])
    return words


# A file's header and a program header of ELF, by their specification.
ELF_HEADER, PROGRAM_HEADER = "<4s3B9x2H5I6H", "<8I"


def header_fault(data):
    """What an ELF file's header, or the beginning of another file, is refused for."""
    if data[:4] == bytes.fromhex("C5C6CBC3"):
        return "AcornObject"
    if data[:4] != b"\x7fELF":
        return "NotElf"
    if len(data) < struct.calcsize(ELF_HEADER):
        return "HeaderCut"
    fields = struct.unpack_from(ELF_HEADER, data)
    _, bits, order, ident, kind, machine, version, _, table, _, _, _, size, number = fields[:14]
    faults = {
        "Not32Bit": bits != 1,
        "NotLittleEndian": order != 1,
        "NotVersion1": (ident, version) != (1, 1),
        "NotArm": machine != 40,
        "NotExecutable": kind != 2,
        "BadEntrySize": size != struct.calcsize(PROGRAM_HEADER),
        "TableOutside": table + size * number > len(data),
    }
    return next((name for name, it in faults.items() if it), None)


def elf_imported(data):
    """The words of the image of an ELF file, or the fault with its address."""
    fault = header_fault(data)
    if fault:
        return fault, ""
    table, number = struct.unpack_from("<I", data, 28)[0], struct.unpack_from("<H", data, 44)[0]
    parts = []
    for at in range(table, table + 32 * number, 32):
        kind, offset, address, _, size = struct.unpack_from(PROGRAM_HEADER, data, at)[:5]
        if kind == 1 and size:
            parts.append((address, offset, size))
    if not parts:
        return "NoSegment", ""
    for address, offset, size in parts:
        if offset + size > len(data):
            return "SegmentOutside", f" at {address:X}"
    return imported([(address, data[offset : offset + size]) for address, offset, size in parts])


def labels(source):
    """The names of a source's labels, where its lines are right."""
    return set(re.findall(r"^([A-Za-z_]\w*)", source.decode(), re.M))


def is_whole(value):
    return isinstance(value, int) and not isinstance(value, bool)


def document(text):
    """The document that a TOML text states, or None."""
    try:
        read = tomllib.loads(text.decode())
    except (tomllib.TOMLDecodeError, UnicodeDecodeError):
        return None
    return read if all(-(2**63) <= it < 2**63 for it in numbers_in(read)) else None


def numbers_in(value):
    if isinstance(value, dict):
        value = [*value.values()]
    if isinstance(value, list):
        for it in value:
            yield from numbers_in(it)
    elif is_whole(value):
        yield value


def tables(value):
    """The tables of a list, where it is one."""
    return [it for it in value if isinstance(it, dict)] if isinstance(value, list) else []


def is_apart(apart, address):
    """Whether one of the stretches has the word at an address."""
    return any(first <= address <= last for first, last in apart)


class Faults:
    """Collects the faults of a document. The first of the order is what is answered."""

    ORDER = ("NotToml", "UnknownKey", "WrongKind", "UnknownLabel", "OutOfRange", "Disordered", "Twice")

    def __init__(self):
        self.found = set()

    def of(self, name, when):
        if when:
            self.found.add(name)
        return when

    def first(self):
        return next((it for it in self.ORDER if it in self.found), None)

    def keys(self, table, known):
        self.of("UnknownKey", not set(table) <= set(known))

    def number(self, table, key, low, high, absent=None):
        """A key's number, that which holds where the key is absent, or None."""
        value = table.get(key, absent)
        if self.of("WrongKind", not is_whole(value)) or self.of("OutOfRange", not low <= value <= high):
            return None
        return value

    def word(self, table, key, allowed, absent=None):
        value = table.get(key, absent)
        return None if self.of("WrongKind", not isinstance(value, str) or value not in allowed) else value

    def list_of_tables(self, table, key, known):
        """The tables under a key, whose keys are judged as well."""
        value = table.get(key, [])
        found = tables(value)
        self.of("WrongKind", not isinstance(value, list) or len(found) < len(value))
        for it in found:
            self.keys(it, known)
        return found


class StatementFaults(Faults):
    """Those of a statement beside a source with these labels, each at its address."""

    def __init__(self, known):
        super().__init__()
        self.known = known

    def place(self, text):
        """The address of a label, or of one with bytes added or taken away, which may lie outside memory."""
        if text in self.known:
            return self.known[text]
        found = re.fullmatch(r"(.*)([+-])([0-9]+)", text, re.DOTALL)
        if self.of("UnknownLabel", not found or found[1] not in self.known):
            return None
        digits = found[3].lstrip("0") or "0"
        # So many bytes lead out of memory from anywhere.
        number = int(digits) if len(digits) < 10 else END
        self.of("OutOfRange", number % 4 != 0)
        return self.known[found[1]] + (number if found[2] == "+" else -number)

    def address(self, value):
        if isinstance(value, str):
            value = self.place(value)
            if value is None:
                return None
        elif self.of("WrongKind", not is_whole(value)):
            return None
        return None if self.of("OutOfRange", value % 4 != 0 or not 0 <= value < END) else value

    def stretch(self, value):
        """The first and the last address of a stretch apart, or None."""
        if self.of("WrongKind", not isinstance(value, list) or len(value) != 2):
            return None
        first, last = [self.address(it) for it in value]
        if None in (first, last) or self.of("OutOfRange", last < first):
            return None
        return first, last

    def stretches(self, value):
        """The stretches of words apart from loops, or None where one of them is wrong."""
        if self.of("WrongKind", not isinstance(value, list)):
            return None
        found = [self.stretch(it) for it in value]
        return None if self.of("OutOfRange", len(found) > MOST_APART) or None in found else found

    def loop(self, it, apart):
        places = [self.address(it.get(key)) for key in ("first", "header", "last")]
        self.number(it, "bound", 0, 1_048_576)
        if apart is not None and None not in places:
            # All three words are apart, or none is.
            self.of("OutOfRange", sorted(places) != places or len({is_apart(apart, it) for it in places}) > 1)

    def target(self, it):
        kind = self.word(it, "kind", ("jump", "call", "return", "leave"))
        to = it.get("to")
        if kind in ("jump", "call"):
            if self.of("WrongKind", not isinstance(to, list) or not to):
                return
            places = [self.address(place) for place in to]
            known = [place for place in places if place is not None]
            self.of("OutOfRange", len(to) > 64)
            self.of("Twice", len(set(known)) < len(known))
        elif kind:
            self.of("WrongKind", to is not None)

    def rules(self, found):
        """Rules for base registers, of which no two may hold for one register at one address."""
        parts = []
        for it in found:
            base = self.word(it, "register", BASES)
            self.word(it, "class", CLASSES)
            first, last = (self.address(it.get(key, absent)) for key, absent in (("first", 0), ("last", END - 4)))
            if None not in (first, last) and not self.of("OutOfRange", last < first) and base:
                parts.append((BASES[base], first, last))
        parts.sort()
        shared = any(one[0] == other[0] and other[1] <= one[2] for one, other in zip(parts, parts[1:]))
        self.of("Twice", shared)

    def distinct(self, found):
        """The key `at` of tables that may not say the same twice."""
        places = [place for place in (self.address(it.get("at")) for it in found) if place is not None]
        self.of("Twice", len(set(places)) < len(places))


def statement_fault(text, known):
    """The name of what is wrong with a statement, or None; `known` has the labels with their addresses."""
    read = document(text)
    if read is None:
        return "NotToml"
    faults = StatementFaults(known)
    faults.keys(read, ("entry", "leave", "returns", "apart", *MOST))
    faults.address(read.get("entry"))
    faults.word(read, "leave", LEAVES, "any")
    faults.word(read, "returns", ("assumed", "stated"), "assumed")
    apart = faults.stretches(read.get("apart", []))
    for it in faults.list_of_tables(read, "loop", ("header", "first", "last", "bound")):
        faults.loop(it, apart)
    targets = faults.list_of_tables(read, "target", ("at", "kind", "to"))
    for it in targets:
        faults.target(it)
    faults.distinct(targets)
    accesses = faults.list_of_tables(read, "access", ("at", "class"))
    for it in accesses:
        faults.word(it, "class", CLASSES)
    faults.distinct(accesses)
    faults.rules(faults.list_of_tables(read, "base", ("register", "class", "first", "last")))
    multiplies = faults.list_of_tables(read, "multiply", ("at", "cycles"))
    for it in multiplies:
        faults.number(it, "cycles", 1, 16)
    faults.distinct(multiplies)
    branches = faults.list_of_tables(read, "branch", ("at", "taken"))
    for it in branches:
        faults.word(it, "taken", ("always", "never"))
    faults.distinct(branches)
    for key, most in MOST.items():
        faults.of("OutOfRange", len(tables(read.get(key))) > most)
    return faults.first()


def profile_fault(text):
    """The name of what is wrong with a cycle profile, or None."""
    read = document(text)
    if read is None:
        return "NotToml"
    faults = Faults()
    singles = ("n", "s", "quad", "control", "unfitted", "internal")
    faults.keys(read, (*singles, "rom", "io", "burst"))
    prices = {key: faults.number(read, key, 1, 255) for key in singles}
    faults.number(read, "burst", 0, 255)
    for key in ("rom", "io"):
        value = read.get(key)
        if faults.of("WrongKind", not isinstance(value, list) or len(value) != 4):
            continue
        prices[key] = [faults.number({key: it}, key, 1, 255) for it in value]
    if not faults.found:
        is_ordered = prices["s"] <= prices["quad"] <= prices["n"]
        others = max(prices["n"], prices["control"], *prices["rom"])
        faults.of("Disordered", not is_ordered or others > max(prices["io"]))
    return faults.first()


def flags_fault(faults, value):
    if not faults.of("WrongKind", not isinstance(value, str) or not set(value) <= set("NZCVIF")):
        faults.of("Twice", len(set(value)) < len(value))


def maps_fault(faults, read, size):
    maps = faults.list_of_tables(read, "map", ("logical", "physical", "level"))
    pages = {"logical": [], "physical": []}
    for it in maps:
        faults.number(it, "level", 0, 3)
        for key, end in (("logical", 2**25 // (1024 * (size or 4))), ("physical", 128)):
            value = it.get(key)
            if faults.of("WrongKind", not is_whole(value)) or size is None:
                continue
            if not faults.of("OutOfRange", not 0 <= value < end):
                pages[key].append(value)
    for it in pages.values():
        faults.of("Twice", len(set(it)) < len(it))


def is_line(value):
    return isinstance(value, str) and value in LINES


def events_fault(faults, read):
    steps = []
    for it in faults.list_of_tables(read, "event", ("step", "bursts", "lines", "port")):
        steps.append(faults.number(it, "step", 0, 65_535))
        faults.number(it, "bursts", 0, 65_535, 0)
        faults.number(it, "port", 0, 2**32 - 1, 0)
        lines = it.get("lines", [])
        faults.of("WrongKind", not isinstance(lines, list) or not all(map(is_line, lines)))
    known = [it for it in steps if it is not None]
    faults.of("Twice", len(set(known)) < len(known))


def words_fault(faults, read):
    places = []
    for it in faults.list_of_tables(read, "word", ("at", "value")):
        faults.number(it, "value", 0, 2**32 - 1)
        at = it.get("at")
        if faults.of("WrongKind", not is_whole(at)) or faults.of("OutOfRange", at < 0 or not holds(at)):
            continue
        places.append(at)
    faults.of("Twice", len(set(places)) < len(places))


def devices_fault(faults, read):
    for name, known in (("ioc", IOC), ("vidc", VIDC)):
        table = read.get(name, {})
        if faults.of("WrongKind", not isinstance(table, dict)):
            continue
        faults.keys(table, known)
        for key in set(table) & set(known):
            value = faults.number(table, key, 0, known[key])
            faults.of("OutOfRange", key == "requests_a" and value is not None and value & ~LATCHED)


def machine_fault(text):
    """The name of what is wrong with a machine file, or None."""
    read = document(text)
    if read is None:
        return "NotToml"
    faults = Faults()
    known = ("pc", "mode", "flags", "steps", "pages", "low_rom", "high_rom", "port", "registers")
    faults.keys(read, (*known, "map", "event", "word", "ioc", "vidc"))
    pc = faults.number(read, "pc", 0, END - 4)
    faults.of("OutOfRange", pc is not None and pc % 4 != 0)
    faults.word(read, "mode", MODES, "svc")
    flags_fault(faults, read.get("flags", "IF"))
    faults.number(read, "steps", 0, 65_536, 65_536)
    for key in ("low_rom", "high_rom"):
        faults.number(read, key, 0, 3, 0)
    faults.number(read, "port", 0, 2**32 - 1, 0)
    registers = read.get("registers", {})
    if not faults.of("WrongKind", not isinstance(registers, dict)):
        faults.keys(registers, REGISTERS)
        for key in set(registers) & REGISTERS:
            faults.number(registers, key, 0, 2**32 - 1)
    size = faults.number(read, "pages", 4, 32, 4)
    if faults.of("OutOfRange", size not in (None, 4, 8, 16, 32)):
        size = None
    maps_fault(faults, read, size)
    events_fault(faults, read)
    words_fault(faults, read)
    devices_fault(faults, read)
    return faults.first()
