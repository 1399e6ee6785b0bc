"""The commands on which the program is tried, with the files that they name."""

import dataclasses
import struct

from manual import complete
from running import TOP

SOURCE = b"""\
; Counts down from 3, and returns from the interrupt. FIQ's handler returns at once.
         ORG    &1C
fiq      SUBS   PC,R14,#4
         ORG    &8000
start    MOV    R0,#3
again    SUBS   R0,R0,#1
turn     BNE    again
         SUBS   PC,R14,#4
"""
STATEMENT = b"""\
entry = 0x8000
leave = "ram"

[[loop]]
header = 0x8004
first = 0x8004
last = 0x8008
bound = 2
"""
# Entries of all kinds.
ENTRIES = b"""\
apart = [[0x800C, 0x800C], [0x9000, 0x9008]]
""" + STATEMENT + b"""
[[base]]
register = "R12"
class = "ram"
first = 0x8000
last = 0x800C

[[multiply]]
at = 0x8004
cycles = 4

[[branch]]
at = 0x8008
taken = "never"
"""
FIQ = b"""\
entry = 0x1C
leave = "ram"
"""
# FIQ's handler by itself, elsewhere than the words of the other.
OWN_FIQ = b"""\
         ORG    &1C
         SUBS   PC,R14,#4
"""
# IRQ's handler by itself, and the statement on it.
OWN_IRQ = b"""\
         ORG    &18
         SUBS   PC,R14,#4
"""
IRQ = b"""\
entry = 0x18
leave = "ram"
"""
# A fact on a register at the entry.
FACTS = b"""\
[[given]]
register = "R13"
from = 0x1000
to = 0x8000
"""
# A statement that is begun.
BEGUN = b"""\
entry = 0x8000
access = [
]

[[loop]]
header = 0x8004
first = 0x8004
last = 0x8008
bound = "?"
"""
MACHINE = b"""\
pc = 0x8000
mode = "irq"
flags = "I"
steps = 8

[registers]
r14_irq = 0x1010

[[map]]
logical = 0
physical = 1
level = 0

[[map]]
logical = 8
physical = 3
level = 0

[[event]]
step = 3
bursts = 2
lines = ["F0", "B5"]

[[word]]
at = 0x8100
value = 500
"""
SESSION = b"""\
step 3
break &800C
run 100
regs
mem &8000 4
dis &8000 4
burst 7
line F0 on
port 5
break
ticks
step
line F0 off
frob
quit
"""
# In ObjAsm's dialect.
DIALECT = b"""\
turns    EQU    1 :SHL: 2
ptr      RN     4
start    MOV    ptr,#turns - 1
         SUBS   PC,R14,#4
"""
# The same as SOURCE, as another tool writes it: each file at its address.
CODE = bytes.fromhex("0300a0e3010050e2fdffff1a04f05ee2")
FIQ_CODE = bytes.fromhex("04f05ee2")
# A machine that goes round for long: its trace does not fit into a pipe.
ROUND = b"again    B      again\n"
LONG = b"pc = 0x8000\nsteps = 5000\n"


@dataclasses.dataclass(frozen=True)
class Command:
    """Words of the program with the files that they name, and its right answer."""

    words: list
    files: dict
    stdin: bytes
    outcome: object
    image: bytes | None

    @property
    def name(self):
        return " ".join(self.words)


def sample(name):
    """The files of a sample handler."""
    return {it.name: it.read_bytes() for it in (TOP / "crates/cases/data/handlers" / name).iterdir()}


def profile():
    return (TOP / "examples/slower_ram.toml").read_bytes()


def answered(bench, words, files, stdin=b""):
    """The command with its answer when nothing is in its way."""
    outcome, left = bench.ask(words, files, stdin=stdin)
    return Command(words, files, stdin, outcome, left.get("made.image"))


def command(bench, line, files, stdin=b""):
    return answered(bench, line.split(), files, stdin)


def elf_file(segments, header=()):
    """An ELF file of segments, each of its type, address and bytes, with other values of the header's fields."""
    fields = dict(type=2, machine=40, version=1, entry=0x8000, table=52, size=32, number=len(segments))
    fields.update(header)
    it = fields["type"], fields["machine"], fields["version"], fields["entry"], fields["table"], 0, 0
    data = b"\x7fELF\1\1\1" + bytes(9) + struct.pack("<2H5I", *it)
    data += struct.pack("<6H", 52, fields["size"], fields["number"], 40, 0, 0)
    offset = len(data) + 32 * len(segments)
    for kind, address, code in segments:
        # Another physical address, and more bytes in memory.
        place = offset, address, address ^ 0x100000, len(code), len(code) + 64
        data += struct.pack("<8I", kind, *place, 5, 4)
        offset += len(code)
    return data + b"".join(code for _, _, code in segments)


def commands(bench):
    """Each command over a source as text and as an image, with and without a cycle profile."""
    image = bench.ask(["asm", "handler.s", "made.image"], {"handler.s": SOURCE})[1]["made.image"]
    found = []
    for source, first in (("handler.s", SOURCE), ("handler.image", image)):
        files = {source: first}
        lines = (f"asm {source} made.image", f"list {source}", f"plain {source}", f"draft {source} 0x8000")
        found += [command(bench, it, files) for it in lines]
        found.append(command(bench, f"draft {source} begun.toml", {**files, "begun.toml": BEGUN}))
        for option in ("", "--profile profile.toml "):
            files = {source: first, **({"profile.toml": profile()} if option else {})}
            found += priced(bench, f"{option}{source}", files)
    files = {"handler.s": SOURCE[SOURCE.index(b"         ORG    &8000") :], "own.s": OWN_FIQ}
    files = {**files, "handler.toml": STATEMENT, "fiq.toml": FIQ}
    found.append(command(bench, "visits --fiq-source own.s handler.s handler.toml fiq.toml 2", files))
    files = {"irq.s": OWN_IRQ, "irq.toml": IRQ, "own.s": OWN_FIQ, "fiq.toml": FIQ}
    visited = "respond --fiq-statement fiq.toml --fiq-source own.s"
    found.append(command(bench, f"{visited} --every 200 irq.s irq.toml 0x18", files))
    # FIQ leaves the handler no time: the status is 1.
    found.append(command(bench, f"{visited} --every 5 --waited 7 --within 300 irq.s irq.toml 0x18", files))
    found.append(command(bench, "list --dialect objasm dialect.s", {"dialect.s": DIALECT}))
    found.append(command(bench, "vectors 3 --seed 1", {}))
    code = {"code.bin": CODE, "fiq.bin": FIQ_CODE}
    found.append(command(bench, "import code.bin@0x8000 fiq.bin@0x1C made.image", code))
    found.append(command(bench, "import --at 0x8000 code.bin made.image", {"code.bin": CODE}))
    elf = elf_file([(1, 0x8000, CODE), (1, 0x1C, FIQ_CODE)])
    found.append(command(bench, "import code.elf made.image", {"code.elf": elf}))
    complete((it.words[0] for it in found), "hostile/worked.py, commands")
    return found


def priced(bench, words, files):
    """The commands that have prices, over these words for profile and source."""
    bound = command(bench, f"bound {words} handler.toml", {**files, "handler.toml": STATEMENT})
    judged = {**bound.files, "handler.cert": bound.outcome.out}
    # Of another bound, so that the status is 1.
    forged = {**bound.files, "handler.cert": bound.outcome.out.replace(b"bound ", b"bound 1", 1)}
    machine = {**files, "machine.toml": MACHINE}
    followed = {**bound.files, "machine.toml": MACHINE}
    # A limit of two steps, which end inside the handler: the status is 1.
    short = {**bound.files, "machine.toml": MACHINE.replace(b"steps = 8", b"steps = 2")}
    return [
        bound,
        command(bench, f"bound --tight 3 {words} handler.toml", bound.files),
        command(bench, f"explain {words} handler.toml", bound.files),
        # The bound is more than that, so the status is 1.
        command(bench, f"explain --at-most 20 {words} handler.toml", bound.files),
        command(bench, f"justify {words} handler.toml", bound.files),
        command(bench, f"justify --all --given facts.toml {words} handler.toml", {**bound.files, "facts.toml": FACTS}),
        command(bench, f"graph {words} handler.toml", bound.files),
        command(bench, f"check {words} handler.toml handler.cert", judged),
        command(bench, f"explain --certificate handler.cert {words} handler.toml", judged),
        command(bench, f"explain --certificate handler.cert {words} handler.toml", forged),
        command(bench, f"visits {words} handler.toml fiq.toml 2", {**bound.files, "fiq.toml": FIQ}),
        command(bench, f"visits --every 200 {words} handler.toml fiq.toml", {**bound.files, "fiq.toml": FIQ}),
        # FIQ leaves the handler no time: the status is 1.
        command(bench, f"visits --every 5 {words} handler.toml fiq.toml", {**bound.files, "fiq.toml": FIQ}),
        command(bench, f"respond {words} fiq.toml 0x1C", {**files, "fiq.toml": FIQ}),
        # It takes longer than that, so the status is 1.
        command(bench, f"respond --within 20 --masked-by handler.toml {words} fiq.toml 0x1C",
                {**bound.files, "fiq.toml": FIQ}),
        command(bench, f"follow {words} handler.toml machine.toml", followed),
        command(bench, f"follow {words} handler.toml machine.toml", short),
        command(bench, f"follow --fiq fiq.toml {words} handler.toml machine.toml", {**followed, "fiq.toml": FIQ}),
        command(bench, f"run {words} machine.toml", machine),
        command(bench, f"run --to 0x8004 {words} machine.toml", machine),
        command(bench, f"trace {words} machine.toml", machine),
        command(bench, f"trace --json {words} machine.toml", machine),
        command(bench, f"debug {words} machine.toml", machine, SESSION),
    ]


def cases():
    """The cases: each one's name, its words, the files that they name, and all that its folder holds."""
    for folder in sorted(it.parent for it in (TOP / "crates/cases/data").glob("*/args")):
        held = {it.name: it.read_bytes() for it in folder.iterdir()}
        words = held["args"].decode().splitlines()
        # The file of that name in the folder is what is to be written.
        plain = [at for at, it in enumerate(words) if not it.startswith("-")]
        if words[:1] == ["asm"] and len(plain) == 3:
            words[plain[2]] = "made.image"
        named = set(words)
        if words[:1] == ["import"]:
            named = {it for word in words[:-1] for it in (word, word.partition("@")[0])}
            if len(plain) > 2 and words[-1] not in named:
                words[-1] = "made.image"
        yield folder.name, words, {name: held[name] for name in held if name in named}, held


def each_answer(bench):
    """A case for each refusal of each command, each verdict and each status: the one with the least files."""
    found = {}
    for _, words, files, held in sorted(cases(), key=lambda it: sum(map(len, it[2].values()))):
        answer = held.get("stderr", b"").partition(b" at ")[0] or held.get("stdout", b"")[:20]
        key = (*words[:1], held.get("status"), answer if b":" in answer else b"")
        found.setdefault(key, (words, files, held.get("stdin", b"")))
    return [answered(bench, *it) for it in found.values()]
