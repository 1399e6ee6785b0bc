"""Inputs that are cut at each byte, forged, or as large as they may be."""

import dataclasses
import random
import re
import struct

import readers
import worked
from manual import ALL_KEYS, OVER_ITS_CODE, SAMPLES, Allowed, Is, Usage, fault_of, refused, refusal
from running import Trial, shown

MOST = 16_777_216
COUNTDOWN = [0xE3A00003, 0xE2500001, 0x1AFFFFFD, 0xE25EF004]
WORKED = readers.image_bytes([(0x8000, COUNTDOWN)])
TWO = readers.image_bytes([(0x8000, COUNTDOWN), (0x1C, [0xE25EF004])])
# Where the handlers of samples begin.
ENTRIES = {"dispatch": "0x18", "sound": "0x18"}
# Addresses and numbers of words at the edges of what an image may say.
EDGES = [0, 1, 2, 4, 16, 17, 0xFFFF, 0x10000, 0x10001, 0x8000, 0x8004, 0x800C, 0x8010, 0x1008000]
EDGES += [0x2FFFFFC, 0x3000000, 0x33FFFFC, 0x3400000, 0x3FFFFFC, 0x4000000]
EDGES += [0x7FFFFFFF, 0x80000000, 0xFFFFFFFC, 0xFFFFFFFF]


class ImageIs:
    """What `asm` answers to an image, by the reader of images: its size and its spelling, or the refusal."""

    def __init__(self, data):
        self.read = readers.read_image(data)

    def __call__(self, outcome, folder):
        if isinstance(self.read, str):
            return refused(self.read)(outcome, folder)
        runs = readers.runs(self.read)
        fault = Is(0, f"words {len(self.read)} segments {len(runs)}\n".encode())(outcome, folder)
        if fault:
            return fault
        made = (folder / "made.image").read_bytes()
        return None if made == readers.image_bytes(runs) else f"the image is written as {shown(made)}"


class Follows:
    """What a judge says; and to a certificate that `bound` prints, `check` says yes, if it can be read."""

    def __init__(self, bench, judge, words, files):
        self.bench, self.judge, self.words, self.files = bench, judge, words, files

    def __call__(self, outcome, folder):
        fault = self.judge(outcome, folder)
        if fault or outcome.status:
            return fault
        words = ["check", *self.words[1:], "printed.cert"]
        checked = self.bench.ask(words, {**self.files, "printed.cert": outcome.out})[0]
        if checked.out == b"yes\n" or len(outcome.out) > MOST and checked.err == b"refused: InputTooLong\n":
            return None
        return f"{outcome}, and check on that: {checked}"


class Explains:
    """The table of the bound that `bound` prints, with rows that add up to it, and then what is taken for
    granted; or the same refusal, with more lines on standard error after it."""

    def __init__(self, bench, words, files):
        self.bench, self.words, self.files = bench, words, files

    def __call__(self, outcome, folder):
        bound = self.bench.ask(["bound", *self.words[1:]], self.files)[0]
        if bound.status:
            is_same = (outcome.status, outcome.out) == (bound.status, bound.out)
            is_same = is_same and outcome.err.startswith(bound.err)
            return None if is_same else f"{outcome}, and bound: {bound}"
        number = int(re.search(rb"^bound (\d+)$", bound.out, re.M)[1])
        table = outcome.out.partition(b"\n\n")[0].rstrip(b"\n") + b"\n"
        ticks = re.findall(rb"^ *\d+ +\d+(?:-\d+)? +(\d+) +\d+\.\d% ", table, re.M)
        microseconds = f"{number // 8}.{number % 8 * 125:03}"
        total = re.search(rb"^ *total +(\d+) +100\.0%$", table, re.M)
        end = f"bound {number} ticks, {microseconds} microseconds at 8 MHz\n"
        is_right = not outcome.status and total and int(total[1]) == sum(map(int, ticks)) == number
        is_right = is_right and table.endswith(end.encode())
        return None if is_right and not outcome.err else f"{outcome}, where the bound is {number}"


class OfSource:
    """What `asm` refuses is refused so; else the answer is judged by the words of the image."""

    def __init__(self, bench, source):
        self.bench, self.source = bench, source

    def __call__(self, outcome, folder):
        files = {"judged.s": self.source}
        asm, left = self.bench.ask(["asm", "judged.s", "made.image"], files)
        if asm.status:
            return None if outcome == asm else f"{outcome}, and asm: {asm}"
        if outcome.status or outcome.err:
            return str(outcome)
        return self.fault(outcome, asm, readers.read_image(left["made.image"]))


def cut(row, room):
    """As much of a row as there is room for; no character of UTF-8 is parted."""
    while len(row) > room and row[room] & 0xC0 == 0x80:
        room -= 1
    return row[:room]


class Lists(OfSource):
    """Each line of the source in turn, up to column 80, beside exactly the words of the image, and then what
    `asm` prints."""

    def fault(self, outcome, asm, words):
        rows = outcome.out.removesuffix(asm.out).split(b"\n")[:-1]
        stands = re.findall(rb"^([0-9A-F]{8})  ([0-9A-F]{8})(?:  ?|$)", b"\n".join(rows), re.M)
        if not outcome.out.endswith(asm.out) or {int(at, 16): int(word, 16) for at, word in stands} != words:
            return f"other words than those of the image: {outcome}"
        if self.source[:8] == readers.MAGIC:
            return None if len(rows) == len(words) else f"other rows than words: {outcome}"
        lines = self.source.removesuffix(b"\n").split(b"\n") if self.source else []
        numbered = [cut(b"%8d  %s" % (n + 1, line), 80 - 18) for n, line in enumerate(lines)]
        return None if [it[18:] for it in rows if it[18:]] == numbered else f"other lines: {outcome}"


# What a draft leaves open of a target: all places, or what else there may be beside a table's.
OPEN_TARGET = re.compile(rb'kind = "(?:jump|call)"  # or [^\n]*\nto = "\?"[^\n]*')
OPEN_PLACE = re.compile(rb'  "\?",  # what else [^\n]*\n')


class Drafts(OfSource):
    """A statement that `bound` can read once it is filled in."""

    UNREADABLE = ("NotToml", "UnknownKey", "WrongKind", "UnknownLabel")

    def fault(self, outcome, asm, words):
        filled_in = outcome.out.replace(b'bound = "?"', b"bound = 1")
        filled_in = OPEN_TARGET.sub(b'kind = "leave"', filled_in)
        filled_in = OPEN_PLACE.sub(b"", filled_in)
        files = {"judged.s": self.source, "draft.toml": filled_in}
        bound = self.bench.ask(["bound", "judged.s", "draft.toml"], files)[0]
        found = refusal(bound)
        if readers.document(outcome.out) is None or found and found[0] in self.UNREADABLE and not found[1]:
            return f"{outcome}, and bound by it: {bound}"
        return fault_of("bound", bound)


class Begun(OfSource):
    """A draft of a begun statement: the statement's refusal; or its lines, in their order, among others, and
    a statement that `bound` can read once it is filled in."""

    def __init__(self, bench, source, begun):
        super().__init__(bench, source)
        self.begun = begun

    def __call__(self, outcome, folder):
        if outcome.status:
            return fault_of("draft", outcome)
        rows = iter(outcome.out.split(b"\n"))
        if not all(row in rows for row in self.begun.split(b"\n")):
            return f"lines of the statement are lost: {outcome}"
        # The targets that the statement itself leaves open.
        filled_in = outcome.out.replace(b'to = "?"\n', b"to = [0]\n")
        return Drafts(self.bench, self.source).fault(dataclasses.replace(outcome, out=filled_in), None, None)


def begun_statements(bench):
    """Drafts of samples' drafts and statements, whole, cut at each byte, and with targets left open."""
    for name in ("dispatch", "floppy"):
        files = worked.sample(name)
        source, entry = files["handler.s"], "irq" if name == "dispatch" else "fiq"
        draft = bench.ask(["draft", "judged.s", entry], {"judged.s": source})[0].out
        stated = files["handler.toml"]
        opened = re.sub(rb"^to = [^\n]*", b'to = "?"', stated, flags=re.M)
        texts = [("a draft", draft), ("the statement", stated), ("open targets", opened)]
        for what, text in texts:
            for how, data in [("whole", text), *cuts(text)]:
                judge = Begun(bench, source, data)
                given = {"judged.s": source, "begun.toml": data}
                yield Trial(f"draft, {what} of {name}: {how}", ["draft", "judged.s", "begun.toml"], judge, given)


def image_judge(data):
    if data[:8] == readers.MAGIC:
        return ImageIs(data)
    # Other bytes are a text: a front of the magic is a label, and a control byte is no text.
    return Is(0, b"words 0 segments 0\n") if len(data) < 8 else refused("NotText", " at line 1")


def changed_bytes(data, values=(0x00, 0x7F, 0xFF)):
    """The data with each byte replaced by each value, and where that was."""
    for at in range(len(data)):
        for value in values:
            yield f"byte {at} made {value:02X}", data[:at] + bytes([value]) + data[at + 1 :]


def cuts(data):
    for at in range(len(data)):
        yield f"the first {at} bytes", data[:at]


def image_forgeries(seed, number):
    """Images of a few segments with odd heads, then bytes exchanged, added or cut off."""
    chance = random.Random(f"images {seed}")
    for at in range(number):
        segments = []
        for _ in range(chance.randrange(4)):
            address = chance.choice(EDGES[3:]) if chance.random() < 0.7 else 4 * chance.randrange(2**24)
            segments.append((address & 0xFFFFFFFF, chance.choices(COUNTDOWN, k=chance.randrange(5))))
        data = bytearray(readers.image_bytes(segments))
        for _ in range(chance.randrange(3)):
            place = 8 + 4 * chance.randrange(len(data) // 4 - 1)
            data[place : place + 4] = struct.pack("<I", chance.choice(EDGES))
        if chance.random() < 0.5:
            del data[chance.randrange(8, len(data) + 1) :]
        if chance.random() < 0.1:
            data.append(chance.randrange(256))
        yield f"forgery {at}", bytes(data)


def large_images():
    """Images of as many words and segments as there may be, and of more; an address that is cut."""
    whole = [0xE1A00000] * readers.MOST_WORDS
    ones = [(0x8000 + 8 * n, [n]) for n in range(17)]
    # 3008000 is a device's, so that after three words no address ends in 008000.
    taken = readers.image_bytes([(0x8000 + (n << 24), [n]) for n in range(4)])
    full = readers.image_bytes([(0, whole)])
    yield "65,536 words", full
    yield "65,537 words", readers.image_bytes([(0, [*whole, 0])])
    yield "65,536 words, the last cut", full[:-1]
    yield "65,536 words and a segment to come", readers.MAGIC + struct.pack("<I", 2) + full[12:]
    yield "65,536 words and a segment to come, cut", (readers.MAGIC + struct.pack("<I", 2) + full[12:])[:-1]
    yield "65,536 words and one in the second segment", readers.image_bytes([(0, whole), (0x100000, [0])])
    yield "16 segments", readers.image_bytes(ones[:16])
    yield "17 segments", readers.image_bytes(ones)
    yield "an address that is taken whatever its last byte is", taken[: 12 + 3 * 12 + 3]
    yield "the same with one byte less", taken[: 12 + 3 * 12 + 2]
    yield "16,777,216 bytes", readers.MAGIC + bytes(MOST - 8)


def images(bench):
    words = ["asm", "forged.image", "made.image"]
    rows = [("the worked image", WORKED), *large_images(), *image_forgeries(bench.seed, 3000)]
    for name, image in (("the worked image", WORKED), ("two segments", TWO)):
        rows += [(f"{name}, {how}", data) for how, data in [*cuts(image), *changed_bytes(image)]]
    for name, data in rows:
        yield Trial(f"asm, image: {name}", words, image_judge(data), {"forged.image": data})
    words = ["bound", "forged.image", "handler.toml"]
    for name, data in [*cuts(WORKED), *changed_bytes(WORKED)]:
        files = {"forged.image": data, "handler.toml": worked.STATEMENT}
        read = data[:8] == readers.MAGIC and readers.read_image(data)
        judge = refused(read) if isinstance(read, str) else Allowed("bound")
        yield Trial(f"bound, image: {name}", words, Follows(bench, judge, words, files), files)
        yield explained(bench, f"image: {name}", ["forged.image", "handler.toml"], files)
    for name, data in [*cuts(TWO), *changed_bytes(TWO), *large_images()]:
        yield from read_source(bench, f"image: {name}", data, "0x8000")


class ImportIs:
    """What `import` answers, by what a reader read: the image's size and its spelling, or the refusal."""

    def __init__(self, read):
        self.read = read

    def __call__(self, outcome, folder):
        if isinstance(self.read, tuple):
            fault = refused(*self.read)(outcome, folder)
            return fault or ("an image is written" if (folder / "made.image").exists() else None)
        runs = readers.runs(self.read)
        fault = Is(0, f"words {len(self.read)} segments {len(runs)}\n".encode())(outcome, folder)
        if fault:
            return fault
        made = (folder / "made.image").read_bytes()
        return None if made == readers.image_bytes(runs) else f"the image is written as {shown(made)}"


# What stands behind a file's name and is no address.
UNPLACED = ("@", "@0x", "@x", "@0X10", "@&8000", "@ 4", "@4 ", "@+4", "@-4", "@4@8", "@@4", "@0x4.0")
UNPLACED += ("@1_0", "@4294967296", "@0x100000000", "@" + "9" * 1000, "@\u0664")


def import_parts(seed, number):
    """Parts of a few bytes at odd addresses, and as many words and parts as there may be, and more."""
    most = bytes(4 * readers.MOST_WORDS)
    yield "65,536 words", [(0, most)]
    yield "65,536 words and a byte", [(0, most), (0x100000, b"x")]
    yield "65,536 words, and the first again", [(0, most), (0, b"x")]
    yield "16,777,216 bytes", [(0, bytes(MOST))]
    yield "16 parts", [(0x8000 + 8 * n, b"x") for n in range(16)]
    yield "17 parts", [(0x8000 + 8 * n, b"x") for n in range(17)]
    yield "17 parts without a byte", [(1, b"")] * 17
    chance = random.Random(f"imports {seed}")
    for at in range(number):
        parts = []
        for _ in range(chance.choice((1, 2, 3, 5, 16))):
            address = chance.choice(EDGES) if chance.random() < 0.4 else 0x8000 + 4 * chance.randrange(200)
            parts.append((address, chance.randbytes(chance.randrange(20))))
        yield f"parts by chance {at} of seed {seed}", parts


def elf_files(seed, number):
    """ELF files of a few segments, changed and cut, and as many segments as there may be, and more."""
    two = worked.elf_file([(1, 0x8000, bytes(range(10))), (4, 0x8000, b"note"), (1, 0x1C, b"fiq.")])
    yield "two segments", two
    for name, data in [*cuts(two), *changed_bytes(two)]:
        yield f"two segments, {name}", data
    for most in 16, 17, 65535:
        yield f"{most} segments", worked.elf_file([(1, 0x8000 + 8 * n, b"x") for n in range(most)])
        yield f"{most} notes", worked.elf_file([(4, 0x8000, b"x")] * most)
    for table in 51, 53, 0xFFFFFFE0, 0xFFFFFFFF:
        yield f"program headers at {table:X}", worked.elf_file([(1, 0x8000, b"x" * 40)], {"table": table})
    yield "65,536 words", worked.elf_file([(1, 0, bytes(4 * readers.MOST_WORDS))])
    yield "65,537 words", worked.elf_file([(1, 0, bytes(4 * readers.MOST_WORDS + 1))])
    yield "all of it sixteen times", worked.elf_file([(1, 0x8000, b"x")] * 16)[:52] + struct.pack(
        "<8I", 1, 0, 0x8000, 0, 500, 500, 5, 4
    ) * 16
    chance = random.Random(f"ELF files {seed}")
    for at in range(number):
        segments = []
        for _ in range(chance.choice((1, 2, 3, 5, 16))):
            address = chance.choice(EDGES) if chance.random() < 0.3 else 0x8000 + 4 * chance.randrange(200)
            kind = chance.choice((1, 1, 1, 0, 4, 0x70000001))
            segments.append((kind, address, chance.randbytes(chance.randrange(20))))
        yield f"segments by chance {at} of seed {seed}", worked.elf_file(segments)


def elf_imports(bench):
    yield Trial("import: no ELF file", ["import", "code.bin", "made.image"], refused("NotElf"), {"code.bin": b"x"})
    for name, data in elf_files(bench.seed, 1000):
        words, files = ["import", "code.elf", "made.image"], {"code.elf": data}
        yield Trial(f"import, ELF: {name}", words, ImportIs(readers.elf_imported(data)), files)
    data = worked.elf_file([(1, 0x8000, b"code")])
    raw = ImportIs(readers.imported([(0x8000, data)]))
    yield Trial("import: ELF as code", ["import", "code.elf@0x8000", "made.image"], raw, {"code.elf": data})


def imports(bench):
    for name, parts in import_parts(bench.seed, 2000):
        files = {f"{n}.bin": data for n, (_, data) in enumerate(parts)}
        words = [f"{n}.bin@{(hex if n % 2 else str)(address)}" for n, (address, _) in enumerate(parts)]
        yield Trial(f"import: {name}", ["import", *words, "made.image"], ImportIs(readers.imported(parts)), files)
    for behind in UNPLACED:
        for words in ([f"code.bin{behind}"], [f"code.bin{behind}", "code.bin@4"]):
            words = ["import", *words, "made.image"]
            yield Trial(f"import: {words[1:-1]}", words, Is(2, b"", OVER_ITS_CODE), {"code.bin": b"x"})
    for words in (["", "code.bin@4"], ["code.bin@4", ""], ["code.bin@4", "", "made.image"]):
        yield Trial(f"import: {words}", ["import", *words], Usage(), {"code.bin": b"x"})
    yield Trial("import: no name", ["import", "@4", "made.image"], refused("Device"))
    words, files = ["import", "long.bin@0", "made.image"], {"long.bin": lambda: bytes(MOST + 1)}
    yield Trial("import: 16,777,217 bytes", words, refused("InputTooLong"), files)


def explained(bench, name, words, files):
    """The explanation of a bound."""
    words = ["explain", *words]
    return Trial(f"explain, {name}", words, Explains(bench, words, files), files)


def read_source(bench, name, source, entry):
    """The listing of a source, and the draft of a handler in it."""
    files = {"judged.s": source}
    yield Trial(f"list, {name}", ["list", "judged.s"], Lists(bench, source), files)
    yield Trial(f"draft, {name}", ["draft", "judged.s", entry], Drafts(bench, source), files)


class ReadAs:
    """The refusal that a reader foretells; where it foretells none, any answer but those that it might."""

    def __init__(self, command, fault, names):
        self.command, self.fault, self.names = command, fault, names

    def __call__(self, outcome, folder):
        if self.fault:
            return refused(self.fault)(outcome, folder)
        fault = fault_of(self.command, outcome)
        found = refusal(outcome)
        if not fault and found and found[0] in self.names and not found[1]:
            return f"no fault was foretold: {outcome}"
        return fault


class ShowsWhy:
    """What `--why` answers of a file: the refusal as without it, and then lines of the file, twenty at most,
    in their order."""

    def __init__(self, judge, text):
        self.judge, self.lines = judge, text.count(b"\n") + 1

    def __call__(self, outcome, folder):
        first, end, rest = outcome.err.partition(b"\n")
        fault = self.judge(dataclasses.replace(outcome, err=first + end), folder)
        if fault or not rest:
            return fault
        rows = rest.removesuffix(b"\n").split(b"\n")
        found = [re.match(rb"line ([1-9]\d*)(?:: .| is no TOML$)", row) for row in rows]
        numbers = [int(it[1]) if it else 0 for it in found]
        is_right = rest.endswith(b"\n") and all(found) and len(rows) <= 20 and numbers == sorted(numbers)
        return None if is_right and numbers[-1] <= self.lines else f"rows of other lines: {outcome}"


def labels_of(bench, source):
    """A source's labels with their addresses, found with a table of its labels that `asm` makes after it."""
    names = sorted(readers.labels(source))
    table = source + b"         ORG    &3000\n" + "".join(f"         DCD    {it}\n" for it in names).encode()
    left = bench.ask(["asm", "handler.s", "made.image"], {"handler.s": table})[1]
    words = readers.read_image(left["made.image"])
    return {name: words[0x3000 + 4 * n] for n, name in enumerate(names)}


def changed(text):
    """A text cut at each byte, and with each byte replaced by some others."""
    yield from cuts(text)
    for at in range(len(text)):
        for value in b"\x00\xff\"]\n0":
            yield f"byte {at} made {value:02X}", text[:at] + bytes([value]) + text[at + 1 :]


OFFSETS = (b"turn+4", b"turn-0008", b"turn+0", b"start-32768", b"start-32772", b"start+67076092")
OFFSETS += (b"start+67076096", b"start+6", b"start-4294967296", b"start+9999999999999999999996", b"start+x")
OFFSETS += (b"start+", b"+4", b"start+-4", b"start-4+4", b"start +4", b"start+ 4", b"start+4 ", b"start+0x4")
OFFSETS += (b"stark+4", b"start+1_0", "start+\u0664".encode(), b"start\\u002B4")


def offsets(text):
    """A statement with a label and a number of bytes, or what looks like them, for each of its addresses."""
    places = [it.span() for it in re.finditer(rb"0x8[0-9A-F]+", text)]
    for at, (begin, end) in enumerate(places):
        for it in OFFSETS:
            yield f"{it.decode()} for address {at}", text[:begin] + b'"' + it + b'"' + text[end:]


def statements(bench):
    """Statements of the worked handler and of a sample, judged by a reader of statements."""
    dispatch = worked.sample("dispatch")
    words = ["bound", "handler.s", "handler.toml"]
    wanted = readers.Faults.ORDER
    for source, text, rows in (
        (worked.SOURCE, worked.STATEMENT, [*changed(worked.STATEMENT), *offsets(worked.STATEMENT)]),
        (worked.SOURCE, worked.ENTRIES, [*changed(worked.ENTRIES), *offsets(worked.ENTRIES)]),
        (dispatch["handler.s"], dispatch["handler.toml"], cuts(dispatch["handler.toml"])),
    ):
        known = labels_of(bench, source)
        for name, data in [("whole", text), *rows]:
            files = {"handler.s": source, "handler.toml": data}
            judge = ReadAs("bound", readers.statement_fault(data, known), wanted)
            yield Trial(f"bound, statement: {name}", words, Follows(bench, judge, words, files), files)
            yield explained(bench, f"statement: {name}", words[1:], files)


def machines():
    for text, rows in ((ALL_KEYS, cuts(ALL_KEYS)), (worked.MACHINE, changed(worked.MACHINE))):
        for name, data in [("whole", text), *rows]:
            files = {"handler.s": worked.SOURCE, "machine.toml": data}
            judge = ReadAs("run", readers.machine_fault(data), {*readers.Faults.ORDER} - {"Disordered"})
            yield Trial(f"run, machine file: {name}", ["run", "handler.s", "machine.toml"], judge, files)
            words = ["run", "--why", "handler.s", "machine.toml"]
            yield Trial(f"run --why, machine file: {name}", words, ShowsWhy(judge, data), files)


def followed_visits(bench):
    """A run that FIQ interrupts, by both statements and a machine file, each cut at each byte."""
    files = worked.sample("podule_and_floppy")
    known = labels_of(bench, files["handler.s"])
    words = ["follow", "--fiq", "fiq.toml", "handler.s", "handler.toml", "machine.toml"]
    for file in ("handler.toml", "fiq.toml", "machine.toml"):
        for name, data in [("whole", files[file]), *cuts(files[file])]:
            if file == "machine.toml":
                judge = ReadAs("follow", readers.machine_fault(data), {*readers.Faults.ORDER} - {"Disordered"})
            else:
                judge = ReadAs("follow", readers.statement_fault(data, known), readers.Faults.ORDER)
            yield Trial(f"follow --fiq, {file}: {name}", words, judge, {**files, file: data})


def profiles(bench):
    words = ["bound", "--profile", "profile.toml", "handler.s", "handler.toml"]
    text = worked.profile()
    for name, data in [("whole", text), *changed(text)]:
        files = {"handler.s": worked.SOURCE, "handler.toml": worked.STATEMENT, "profile.toml": data}
        judge = ReadAs("bound", readers.profile_fault(data), readers.Faults.ORDER)
        yield Trial(f"bound, profile: {name}", words, Follows(bench, judge, words, files), files)
        why = ["run", "--why", *words[1:3], "handler.s", "machine.toml"]
        of_run = ShowsWhy(ReadAs("run", readers.profile_fault(data), readers.Faults.ORDER), data)
        yield Trial(f"run --why, profile: {name}", why, of_run, {**files, "machine.toml": worked.MACHINE})
        yield explained(bench, f"profile: {name}", words[1:], files)


def many(key, row, number):
    """A document with a list of so many tables under a key."""
    return f"{key} = [{', '.join(row % {'at': 4 * n} for n in range(number))}]\n".encode()


def limits():
    """As many entries of a statement as there may be, and one more, and the name that is answered or None."""
    loop = "{header = %(at)d, first = %(at)d, last = %(at)d, bound = 0}"
    rows = {"loop": loop, "target": '{at = %(at)d, kind = "return"}', "access": '{at = %(at)d, class = "ram"}'}
    rows["apart"] = "[%(at)d, %(at)d]"
    rows["base"] = '{register = "R1", class = "ram", first = %(at)d, last = %(at)d}'
    rows["multiply"], rows["branch"] = "{at = %(at)d, cycles = 4}", '{at = %(at)d, taken = "never"}'
    for key, row in rows.items():
        most = readers.MOST_APART if key == "apart" else readers.MOST[key]
        yield f"{most} under {key}", many(key, row, most), None
        yield f"{most + 1} under {key}", many(key, row, most + 1), "OutOfRange"
    for number, name in ((64, None), (65, "OutOfRange")):
        to = ", ".join(str(4 * n) for n in range(number))
        text = f'target = [{{at = 0x8000, kind = "jump", to = [{to}]}}]\n'
        yield f"{number} destinations", text.encode(), name


def statement_limits(bench):
    words = ["bound", "handler.s", "handler.toml"]
    for name, text, fault in limits():
        files = {"handler.s": worked.SOURCE, "handler.toml": b"entry = 0x1C\n" + text}
        judge = ReadAs("bound", fault, readers.Faults.ORDER)
        yield Trial(f"bound, statement: {name}", words, Follows(bench, judge, words, files), files)
        yield explained(bench, f"statement: {name}", words[1:], files)


def filled(front, part, back=b""):
    """A text of 16,777,216 bytes; where the parts do not fill it, line ends do."""

    def make():
        text = front + part * ((MOST - len(front) - len(back)) // len(part)) + back
        return text.ljust(MOST, b"\n")

    return make


def numbered(front, part, most=MOST):
    """A document of as many parts with a number each as fit."""

    def make():
        size = len(part % 1_000_000)
        return front + b"".join(part % (1_000_000 + n) for n in range((most - len(front)) // size))

    return make


# Control characters, and bytes that are no UTF-8.
NO_TEXT = [b"\0", b"\x01", b"\x7f", b"\r", b"\xff", b"\xe2\x82", b"\xc0\x80", b"\xed\xa0\x80"]
NO_TEXT += [b"\xf4\x90\x80\x80"]
NO_DOCUMENTS = [b"=", b"a", b"a=", b"a=]", b"[", b"[]", b"a=1 b=2", b"a=1\na=2", b"a.b=1\na=1"]
NO_DOCUMENTS += [b"[a]\n[a]", b"[[a]]\n[a]"]


def odd_documents(key):
    """TOML that is deep, long or no text, and the names of which one is answered. `key` takes a number."""
    wrong, none = ("WrongKind",), ("NotToml",)
    either = ("NotToml", "WrongKind")
    unknown, any_name = ("UnknownKey",), ("NotToml", "UnknownKey", "WrongKind")
    no_label, no_place = ("UnknownLabel", "WrongKind"), ("OutOfRange", "WrongKind")
    name = key.encode()
    start = name + b" = "
    for depth in (10, 100, 1_000, 100_000, 8_000_000):
        yield f"lists {depth} deep", start + b"[" * depth + b"]" * depth, either
        yield f"lists {depth} deep, not closed", start + b"[" * depth, none
        if depth <= 1_000_000:
            yield f"tables {depth} deep", start + b"{a=" * depth + b"1" + b"}" * depth, either
            yield f"tables {depth} deep, not closed", start + b"{a=" * depth, none
            yield f"a key of {depth} parts", b".".join([b"a"] * depth) + b" = 1\n", any_name
            yield f"a table's name of {depth} parts", b"[" + b".".join([b"a"] * depth) + b"]\n", any_name
            yield f"a list's name of {depth} parts", b"[[" + b".".join([b"a"] * depth) + b"]]\n", any_name
    for text, names in (
        (b"1" * 1000, none),
        (b"-" + b"9" * 1000, none),
        (b"0x" + b"F" * 1000, none),
        (b"0b" + b"1" * 1000, none),
        (b"0." + b"1" * 1000, wrong),
        # The kit's crate refuses a number past the greatest of 64 bits.
        (b"1" * 1000 + b".5", none),
        (b"1e" + b"9" * 1000, either),
        (b"1e-" + b"9" * 1000, either),
        (b"1_" * 1000 + b"1", none),
        (b"9223372036854775807", ("OutOfRange",)),
        (b"9223372036854775808", none),
        (b"-9223372036854775808", ("OutOfRange",)),
        (b"1979-05-27T07:32:00." + b"1" * 1000 + b"Z", either),
        (b"9" * 1000 + b"-05-27", none),
        (b"true", wrong),
        (b"nan", wrong),
        (b"+inf", wrong),
    ):
        yield f"the number {shown(text)}", start + text + b"\n", names
    million = b"k" * 1_000_000
    yield "a key of a million letters", million + b" = 1\n", unknown
    yield "a quoted key of a million letters", b'"' + million + b'" = 1\n', unknown
    yield "a text of a million letters", start + b'"' + million + b'"\n', no_label
    yield "a text of a million lines", start + b'"""' + b"\n" * 1_000_000 + b'"""\n', no_label
    yield "a text that is not closed", start + b'"' + million, none
    yield "a text of a million escapes", start + b'"' + b"\\u0041" * 1_000_000 + b'"\n', no_label
    yield "a text of a million signs", start + b'"' + b"+" * 1_000_000 + b'"\n', no_label
    yield "a million digits behind no label", start + b'"l+' + b"1" * 1_000_000 + b'"\n', no_label
    yield "a million digits behind a label", start + b'"turn+' + b"4" * 1_000_000 + b'"\n', no_place
    for byte in NO_TEXT:
        for how, text in (
            ("by itself", b"%s"),
            ("in a key", b"a%sb = 1\n"),
            ("in a quoted key", b'"%s" = 1\n'),
            ("in a text", b'k = "%s"\n'),
            ("in a text of lines", b'k = """%s"""\n'),
            ("in a plain text", b"k = '%s'\n"),
            ("in a comment", b"# %s\n"),
        ):
            # A CR is allowed in no place but in front of an LF, which ends some of these texts.
            yield f"the bytes {byte!r} {how}", text % byte, any_name if byte == b"\r" else none
    for escape in (b"\\ud800", b"\\U00110000", b"\\x", b"\\q", b"\\"):
        yield f"the escape {escape!r}", b'k = "' + escape + b'"\n', none
    for text in NO_DOCUMENTS:
        yield f"the text {text!r}", text, none
    yield "an empty file", b"", wrong
    yield "a mark of the byte order", b"\xef\xbb\xbf" + start + b"true\n", any_name


def large_documents(key):
    """TOML documents of 16,777,216 bytes."""
    start = key.encode() + b" = "
    yield "a comment", filled(b"# ", b"x"), ("WrongKind",)
    yield "line ends", filled(b"", b"\n"), ("WrongKind",)
    yield "blanks", filled(b"", b" "), ("WrongKind",)
    yield "a text", filled(start + b'"', b"x", b'"'), ("UnknownLabel", "WrongKind")
    yield "a text that is not closed", filled(start + b'"', b"x"), ("NotToml",)
    yield "a key", filled(b"", b"k"), ("NotToml",)
    yield "a number", filled(start, b"1"), ("NotToml",)
    yield "a list of numbers", filled(start + b"[", b"1,", b"]"), ("WrongKind",)
    yield "a list that is not closed", filled(start + b"[", b"1,"), ("NotToml",)
    yield "keys", numbered(b"", b"k%d = 1\n"), ("UnknownKey",)
    yield "tables", numbered(b"", b"[k%d]\n"), ("UnknownKey",)
    yield "lists of a table", filled(b"", b"[[k]]\n"), ("UnknownKey",)
    yield "a table of keys", numbered(b"k = {a = 1", b", k%d = 1"), ("NotToml",)
    keys = numbered(b"k = {a = 1", b", k%d = 1", MOST - 1)
    yield "a table of keys, closed", lambda: keys() + b"}", ("UnknownKey",)
    yield "bytes that are no text", filled(b"", b"\xff"), ("NotToml",)
    yield "0s", filled(b"", b"\0"), ("NotToml",)


def documents():
    """The odd documents as statements, machine files and cycle profiles."""
    kinds = (
        ("statement", "entry", ["bound", "handler.s", "odd.toml"]),
        ("machine file", "pc", ["run", "handler.s", "odd.toml"]),
        ("profile", "n", ["bound", "--profile", "odd.toml", "handler.s", "handler.toml"]),
    )
    for kind, key, words in kinds:
        for name, text, names in [*odd_documents(key), *large_documents(key)]:
            # A number of a profile is read beside eight others, which are missing.
            names = ("WrongKind",) if kind == "profile" and names == ("OutOfRange",) else names
            files = {"handler.s": worked.SOURCE, "handler.toml": worked.STATEMENT, "odd.toml": text}
            judge = Allowed(words[0], *names)
            yield Trial(f"{words[0]}, {kind}: {name}", words, judge, files, seconds=300)


class SourceCut:
    """A cut source is refused at its last line or for a missing label, or assembles to its whole lines' words."""

    def __init__(self, text, words):
        self.text, self.words = text, words

    def __call__(self, outcome, folder):
        fault = fault_of("asm", outcome)
        if fault:
            return fault
        last = self.text.count(b"\n") + (not self.text.endswith(b"\n"))
        if outcome.status:
            name, place = refusal(outcome)
            is_last = place == f" at line {last}"
            if is_last or name == "LabelMissing":
                return None
            return f"the lines above {last} are right: {outcome}"
        made = readers.read_image((folder / "made.image").read_bytes())
        # The last line may have been cut to another word.
        others = [it for it in made if self.words.get(it) != made[it]]
        return None if len(others) <= 1 else f"other words than those of the whole source: {outcome}"


def source_cuts(bench):
    words = ["asm", "cut.s", "made.image"]
    rows = [(name, worked.sample(name)["handler.s"]) for name in ("dispatch", "sound")]
    for name, source in [("the worked one", worked.SOURCE), *rows]:
        made = bench.ask(words, {"cut.s": source})[1]["made.image"]
        whole = readers.read_image(made)
        for how, text in [*cuts(source), ("whole", source)]:
            judge = SourceCut(text, whole)
            yield Trial(f"asm, source: {name}, {how}", words, judge, {"cut.s": text})
        # Of the samples the whole lines, which are enough for the readers of lines.
        fronts = [(how, text) for how, text in cuts(source) if name not in SAMPLES or text.endswith(b"\n")]
        for how, text in [*fronts, ("whole", source)]:
            yield from read_source(bench, f"source: {name}, {how}", text, ENTRIES.get(name, "0x8000"))
    for how, text in changed_bytes(worked.SOURCE, b"\x00\x7f\xff\n ,#;&["):
        yield Trial(f"asm, source: {how}", words, Allowed("asm"), {"cut.s": text})


def large_sources():
    """Sources that are large, long or odd, and their answers."""
    size = b"words %d segments %d\n"
    nothing = Is(0, size % (0, 0))
    lines = [b" DCD 0\n" * number for number in (65_536, 65_537)]
    yield "a label of 32 letters", b"l" * 32 + b" DCD 0\n", Is(0, size % (1, 1))
    yield "a label of 33 letters", b"l" * 33 + b" DCD 0\n", refused("UnknownWord", " at line 1")
    yield "an operand of 33 letters", b" B " + b"l" * 33 + b"\n", refused("BadOperand", " at line 1")
    yield "65,536 words", lines[0], Is(0, size % (65_536, 1))
    yield "65,537 words", lines[1], refused("TooLong", " at line 65537")
    yield "65,536 words on a line", b" DCD " + b"0," * 65_535 + b"0\n", Is(0, size % (65_536, 1))
    yield "65,537 words on a line", b" DCD " + b"0," * 65_536 + b"0\n", refused("TooLong", " at line 1")
    yield "a line of 16 MiB, a comment", filled(b";", b"x"), nothing
    yield "a line of 16 MiB, blanks", filled(b"", b" "), nothing
    yield "a line of 16 MiB, tabs", filled(b"", b"\t"), nothing
    yield "a line of 16 MiB, a label", filled(b"", b"l"), refused("UnknownWord", " at line 1")
    yield "a line of 16 MiB, a word", filled(b" ", b"l"), refused("UnknownWord", " at line 1")
    yield "a line of 16 MiB, a number", filled(b" MOV R0,#", b"1"), refused("BadOperand", " at line 1")
    yield "a line of 16 MiB, a number of 0s", filled(b" MOV R0,#", b"0"), Allowed("asm")
    yield "a line of 16 MiB, a list of words", filled(b" DCD 0", b",0"), refused("TooLong", " at line 1")
    yield "a line of 16 MiB, commas", filled(b" DCD 0", b","), refused("BadOperand", " at line 1")
    yield "a line of 16 MiB, a register list", filled(b" LDMIA R0,{R1", b",R1", b"}"), Allowed("asm")
    yield "a line of 16 MiB, open brackets", filled(b" LDR R0,", b"["), refused("BadOperand", " at line 1")
    yield "a line of 16 MiB, 0s", filled(b"", b"\0"), refused("NotText", " at line 1")
    yield "16 MiB of line ends", filled(b"", b"\n"), nothing
    wrong = refused("UnknownWord", f" at line {MOST}")
    yield "16 MiB of line ends, the last line wrong", filled(b"", b"\n", b"1"), wrong
    yield "16 MiB of labels", numbered(b"", b"l%d\n"), nothing
    yield "16 MiB of labels, the last twice", last_twice, Allowed("asm", "LabelTwice")
    yield "16 MiB of one label", filled(b"", b"l\n"), refused("LabelTwice", " at line 2")
    yield "16 MiB of ORG", filled(b"", b" ORG 4\n"), nothing
    yield "16 MiB of branches to no label", filled(b"", b" B l\n"), refused("TooLong", " at line 65537")
    segments = b"".join(b" ORG %d\n DCD 0\n" % (8 * n) for n in range(17))
    yield "17 segments", segments, refused("TooLong", " at line 34")
    yield "only a CR", b"\r", refused("NotText", " at line 1")
    yield "a CR within a line", b" DCD 0\r DCD 0\n", refused("NotText", " at line 1")


def last_twice():
    return numbered(b"", b"l%d\n", MOST - 20)() + b"l1000000\n"


def sources():
    for name, text, judge in large_sources():
        words = ["asm", "large.s", "made.image"]
        yield Trial(f"asm, source: {name}", words, judge, {"large.s": text}, seconds=300)


def sessions(bench):
    """The worked session, cut at each byte: the answers to its whole lines are as before."""
    files = {"handler.s": worked.SOURCE, "machine.toml": worked.MACHINE}
    words = ["debug", "handler.s", "machine.toml"]
    lines = worked.SESSION.splitlines(keepends=True)
    answers = [bench.ask(words, files, stdin=b"".join(lines[:n]))[0].out for n in range(len(lines) + 1)]
    for name, text in cuts(worked.SESSION):
        judge = Begins(answers[text.count(b"\n")])
        yield Trial(f"debug, session: {name}", words, judge, files, stdin=text)
    for name, text in changed_bytes(worked.SESSION):
        yield Trial(f"debug, session: {name}", words, Begins(b""), files, stdin=text)


class Begins:
    """Status 0, an empty standard error, and an answer that begins so."""

    def __init__(self, front):
        self.front = front

    def __call__(self, outcome, folder):
        if outcome.status or outcome.err or not outcome.out.startswith(self.front):
            return f"{outcome}; standard output does not begin with {shown(self.front)}"
        names = re.findall(rb"^refused: (\w+)$", outcome.out, re.M)
        known = {b"UnknownCommand", b"BadNumber", b"NoPage", b"MachineStopped", b"TooManyBreaks"}
        return None if set(names) <= known else str(outcome)


def code(bench):
    """Words by chance, run in each mode, and bounded."""
    chance = random.Random(f"code {bench.seed}")
    for at in range(1000):
        words = [chance.getrandbits(32) | chance.choice((0, 0xE0000000)) for _ in range(64)]
        image = readers.image_bytes([(0x8000, words)])
        mode, port = chance.choice(readers.MODES), chance.getrandbits(32)
        machine = f'pc = 0x8000\nmode = "{mode}"\nsteps = 500\nport = {port}\n'
        files = {"chance.image": image, "machine.toml": machine.encode()}
        words = ["trace", "chance.image", "machine.toml"]
        yield Trial(f"trace, words by chance: {at} of seed {bench.seed}", words, Allowed("trace"), files)
        first, last = sorted(0x8000 + 4 * chance.randrange(64) for _ in range(2))
        loop = f"[[loop]]\nheader = {first}\nfirst = {first}\nlast = {last}\nbound = {chance.randrange(9)}\n"
        stretch = sorted(0x8000 + 4 * chance.randrange(64) for _ in range(2))
        statement = f"entry = {0x8000 + 4 * chance.randrange(64)}\n"
        statement += chance.choice(("", f"apart = [{stretch}]\n")) + chance.choice(("", loop))
        files = {"chance.image": image, "handler.toml": statement.encode()}
        words = ["bound", "chance.image", "handler.toml"]
        judge = Follows(bench, Allowed("bound"), words, files)
        yield Trial(f"bound, words by chance: {at} of seed {bench.seed}", words, judge, files)
        yield explained(bench, f"words by chance: {at} of seed {bench.seed}", words[1:], files)
        yield from read_source(bench, f"words by chance: {at} of seed {bench.seed}", image, "0x8000")


class Certified:
    """A certificate, and no refusal."""

    def __call__(self, outcome, folder):
        is_right = not outcome.status and not outcome.err and outcome.out.endswith(b"\nstop\n")
        return None if is_right else str(outcome)


class Made:
    """Any answer that is allowed to `asm`; an image is one by the reader, and in its one spelling."""

    def __call__(self, outcome, folder):
        fault = fault_of("asm", outcome)
        if fault or outcome.status:
            return fault
        data = (folder / "made.image").read_bytes()
        read = readers.read_image(data)
        is_right = isinstance(read, dict) and readers.image_bytes(readers.runs(read)) == data
        return None if is_right else f"{outcome}, and the image is {shown(data)}"


def lines(bench):
    """Lines of the samples in another order, some of them with another byte."""
    chance = random.Random(f"lines {bench.seed}")
    known = [line for name in SAMPLES for line in worked.sample(name)["handler.s"].split(b"\n")]
    for at in range(1000):
        text = bytearray(b"\n".join(chance.choices(known, k=chance.randrange(1, 30))) + b"\n")
        for _ in range(chance.randrange(3)):
            text[chance.randrange(len(text))] = chance.choice(b"\t !#&'()*,-.0123456789:;<ARSZ[]^_aprz{}~")
        name = f"asm, lines by chance: {at} of seed {bench.seed}"
        yield Trial(name, ["asm", "chance.s", "made.image"], Made(), {"chance.s": bytes(text)})
        name = f"lines by chance: {at} of seed {bench.seed}"
        yield from read_source(bench, name, bytes(text), "0x8000")


def deep(bench):
    """Loops 16 deep, whose certificate grows twofold with each, to more than an input may have."""
    for more in (0, 12):
        first = [0x8000 + 4 * n for n in range(16)]
        end = 0x8000 + 4 * (16 + more)
        words = [0xE1A00000] * (16 + more)
        statement = ["entry = 0x8000\n"]
        for n, header in enumerate(reversed(first)):
            at = end + 4 * n
            words.append(0x1A000000 | (header - at - 8 >> 2) & 0xFFFFFF)
            statement.append(f"[[loop]]\nheader = {header}\nfirst = {header}\nlast = {at}\nbound = 3\n")
        image = readers.image_bytes([(0x8000, [*words, 0xE25EF004])])
        files = {"deep.image": image, "deep.toml": "".join(statement).encode()}
        words = ["bound", "deep.image", "deep.toml"]
        judge = Follows(bench, Certified(), words, files)
        yield Trial(f"bound, 16 loops around {more + 1} words", words, judge, files, seconds=300)


def trials(bench):
    return [
        *images(bench),
        *imports(bench),
        *elf_imports(bench),
        *statements(bench),
        *statement_limits(bench),
        *begun_statements(bench),
        *machines(),
        *followed_visits(bench),
        *profiles(bench),
        *documents(),
        *source_cuts(bench),
        *sources(),
        *sessions(bench),
        *code(bench),
        *lines(bench),
        *deep(bench),
    ]
