"""Machines whose interrupt lines rise while a program goes round a loop, and how long their handlers take.

The program, in ROM, enables interrupts, and then goes round a loop with the longest step that it can make: a load of
16 words from a synchronous device, the last into R15.
"""

import argparse
import dataclasses
import pathlib
import re
import subprocess
import sys

TOP = pathlib.Path(__file__).resolve().parent.parent
SAMPLES = TOP / "crates/cases/data/handlers"
PROGRAM = TOP / "crates/arcwcet_cli/out/arcwcet_cli"
# The program's place, and that of its loop, which each word of a device is.
MAIN = 0x3800000
LOOP = MAIN + 0x18
# The steps of the program before its loop.
BEFORE = 6
# IOC's mask registers.
IRQ_B, FIQ = 0x28, 0x38


@dataclasses.dataclass(frozen=True)
class Row:
    """A step, as `trace` shows it."""

    address: int
    ticks: int


def options(words):
    """The words of the command, with the program's place."""
    words.add_argument("--program", type=pathlib.Path, default=PROGRAM, help="the built program")
    words = words.parse_args()
    if not words.program.is_file():
        sys.exit(f"{words.program} is not built: ./build")
    return words


def described(text):
    """The parser of a command's words: its description is the first line of the text."""
    return argparse.ArgumentParser(description=text.splitlines()[0])


def printed(program, *words):
    """What the program prints; all ends where that fails."""
    run = subprocess.run([program, *words], capture_output=True, text=True)
    if run.returncode:
        sys.exit(f"{' '.join(map(str, words))}: {run.stderr}{run.stdout}")
    return run.stdout


def handler_of(folder):
    """The source and the statement of a sample handler."""
    return SAMPLES / folder / "handler.s", SAMPLES / folder / "handler.toml"


def address_of(program, source, label):
    """A label's address, as `list` shows it."""
    for row in printed(program, "list", source).splitlines():
        if re.search(rf"^\w{{8}}  \w{{8}} +\d+  {label}\b", row):
            return int(row.split()[0], 16)
    sys.exit(f"no label {label}")


def words_of(program, source):
    """The words of a source, by their addresses."""
    rows = re.findall(r"^([0-9A-F]{8})  ([0-9A-F]{8})\b", printed(program, "list", source), re.M)
    return {int(address, 16): int(word, 16) for address, word in rows}


def source_of(folder, masks):
    """A sample's source and the program, which puts masks into registers of IOC, one or two."""
    sets = [line for at, mask in masks.items() for line in (f"MOV    R0,#&{mask:x}", f"STRB   R0,[R1,#&{at:x}]")]
    sets += ["MOV    R0,R0"] * (BEFORE - 2 - len(sets))
    sets = "\n         ".join(sets)
    return handler_of(folder)[0].read_text() + f"""
         ORG    &{MAIN:X}
main     MOV    R1,#&3200000
         {sets}
         TEQP   PC,#3                   ; SVC mode, both interrupts enabled
loop     MOV    R0,#&3380000            ; a synchronous device
         LDMIA  R0,{{R0-R15}}
"""


def machine_of(registers, steps, lines, port=LOOP, words=()):
    """A machine file: the lines that are active from each step on, and words beside those of the source."""
    keys = "".join(f"{name} = {value:#x}\n" for name, value in registers.items())
    events = "".join(f"[[event]]\nstep = {step}\nlines = {sorted(names)}\n" for step, names in sorted(lines.items()))
    words = "".join(f"[[word]]\nat = {at:#x}\nvalue = {word:#x}\n" for at, word in dict(words).items())
    return f"""pc = {MAIN:#x}
mode = "svc"
flags = "IF"
steps = {steps}
port = {port:#x}
[registers]
{keys}{events}{words}"""


def traced(program, folder, machine):
    """The steps of the machine, with the folder's source."""
    (folder / "machine.toml").write_text(machine)
    trace = printed(program, "trace", folder / "source.s", folder / "machine.toml").splitlines()
    return [Row(int(words[0], 16), int(words[2])) for words in map(str.split, trace) if words[0] != "ticks"]


def first_at(rows, address, step):
    """The first step at the address, from this one on; None where there is none."""
    return next((it for it in range(step, len(rows)) if rows[it].address == address), None)


def ticks_of(rows, step, last):
    """The ticks from the beginning of a step to the end of another."""
    return sum(row.ticks for row in rows[step : last + 1])
