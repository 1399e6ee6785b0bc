"""Runs in which the system has no memory left: each request for it is refused in turn, once and from then on."""

import dataclasses
import subprocess
import sys

import worked
from manual import ALL_KEYS, refused
from running import TOP, Outcome, Trial, counts, shown

OLD_IMAGE = b"what stood here"


def build(bench):
    """Builds the library that refuses requests."""
    source = TOP / "hostile/starve.c"
    words = ["cc", "-O2", "-Wall", "-shared", "-fPIC", "-o", bench.library, source]
    if subprocess.run(words).returncode:
        sys.exit("the library that refuses requests for memory cannot be built")


def settings(bench, at, goes_on=False, row=1):
    """The library's settings: the request to be refused, all later ones too, or so many in a row."""
    return {
        "LD_PRELOAD": bench.library,
        "STARVE_COUNTS": "counts",
        "STARVE_AT": at,
        "STARVE_ROW": row,
        "STARVE_ON": int(goes_on),
    }


def short_form(outcome):
    """The answer without what `explain` says after a refusal's one line, for which memory may be lacking."""
    return dataclasses.replace(outcome, err=b"".join(outcome.err.splitlines(keepends=True)[:1]))


def unannounced(outcome, right):
    """What standard error takes behind those first lines of `--progress` that the right answer begins with."""
    rest = outcome.err
    for line in right.err.splitlines(keepends=True):
        if not line.startswith((b"reading ", b"writing: ")) or not rest.startswith(line):
            break
        rest = rest.removeprefix(line)
    return rest


@dataclasses.dataclass(frozen=True)
class OutOfMemory:
    """The right answer, or the refusal, and the file of an image as it was or whole."""

    right: Outcome
    image: bytes | None
    before: bytes | None
    is_within: bool

    def __call__(self, outcome, folder):
        requests, refused = counts(folder)
        if self.is_within != (refused > 0):
            return f"{refused} of {requests} requests were refused"
        is_short = refused and self.right.status == 1 and outcome == short_form(self.right)
        if outcome != self.right and not is_short and not (refused and outcome.status == 3):
            return f"{outcome}; {refused} of {requests} requests were refused"
        said = unannounced(outcome, self.right)
        if outcome.status == 3 and (outcome.out or said not in (b"", b"refused: Memory\n")):
            return str(outcome)
        there = made_image(folder)
        is_so = there == (self.image if outcome == self.right else self.before)
        return None if is_so else f"{outcome}; the image's file holds {shown(there)}"


def made_image(folder):
    file = folder / "made.image"
    return file.read_bytes() if file.exists() else None


def requests_of(bench, command):
    """How many requests a command makes for which nothing is refused."""
    outcome, left = bench.ask(
        command.words, command.files, stdin=command.stdin, settings=settings(bench, 0)
    )
    if outcome != command.outcome:
        sys.exit(f"{command.name}: another answer with the library alone: {outcome}")
    number = int.from_bytes(left["counts"][:8], "little")
    if not number:
        sys.exit(f"{command.name}: the library saw no request for memory: is the program linked statically?")
    return number


def refused_in_turn(bench, command):
    """A trial for each request of a command, once and from then on, and for one more than it makes."""
    most = requests_of(bench, command)
    found = []
    olds = (None, OLD_IMAGE) if command.words[:1] in (["asm"], ["import"]) else (None,)
    for old in olds:
        files = command.files if old is None else {**command.files, "made.image": old}
        image = old if command.image is None else command.image
        # Of many thousands some hundred.
        for at in [*range(1, most + 1, most // 100 if most > 5000 else 1), most + 1]:
            for goes_on in (False, True):
                which = f"request {at} of {most}{' and all later ones' if goes_on else ''}"
                judge = OutOfMemory(command.outcome, image, old, at <= most)
                how = {"stdin": command.stdin, "settings": settings(bench, at, goes_on)}
                found.append(Trial(f"{command.name}: {which}", command.words, judge, files, **how))
    return found


def larger(bench):
    """A machine file with every key, a long answer of the debugger, and a handler with calls and loops."""
    files = {"handler.s": worked.SOURCE, "machine.toml": ALL_KEYS}
    yield worked.command(bench, "trace handler.s machine.toml", files)
    files = {"handler.s": worked.ROUND, "machine.toml": worked.LONG}
    yield worked.command(bench, "debug handler.s machine.toml", files, b"step 1024\nticks\n")
    bound = worked.command(bench, "bound handler.s handler.toml", worked.sample("dispatch"))
    yield bound
    files = {**bound.files, "handler.cert": bound.outcome.out}
    yield worked.command(bench, "check handler.s handler.toml handler.cert", files)
    of_handler = ("explain handler.s handler.toml", "graph handler.s handler.toml")
    for line in ("list handler.s", *of_handler, "draft handler.s irq"):
        yield worked.command(bench, line, bound.files)


class Limited:
    """The right answer or the refusal, however much memory there is."""

    def __init__(self, right, image):
        self.right, self.image = right, image

    def __call__(self, outcome, folder):
        there = made_image(folder)
        if outcome == self.right and there == self.image:
            return None
        is_refused = outcome.status == 3 and outcome.err == b"refused: Memory\n" and not outcome.out
        return None if is_refused and there is None else f"{outcome}; the image's file holds {shown(there)}"


def limits(bench):
    """A long source, and a long answer, where there are so many KiB in all, without the library."""
    source = b"".join(b"l%d DCD %d\n" % (n, n) for n in range(65_536))
    made = worked.command(bench, "asm handler.s made.image", {"handler.s": source})
    for limit in range(8_000, 40_000, 1_000):
        shell = f"ulimit -v {limit}; exec {{}}"
        name = f"asm: a source of 65,536 labels in {limit} KiB"
        yield Trial(name, made.words, Limited(made.outcome, made.image), made.files, shell=shell)
    files = {"handler.s": worked.ROUND, "machine.toml": worked.LONG}
    words, session = ["debug", "handler.s", "machine.toml"], b"step 1024\n" * 10_000
    how = {"stdin": session, "shell": "ulimit -v 50000; exec {}"}
    yield Trial("debug: an answer of 280 MB in 50,000 KiB", words, refused("Memory"), files, **how)


def trials(bench):
    build(bench)
    commands = [*worked.commands(bench), *worked.each_answer(bench), *larger(bench)]
    for it in commands:
        if it.outcome.status not in (0, 1, 2, 4):
            sys.exit(f"{it.name}: {it.outcome}")
    found = [trial for it in commands for trial in refused_in_turn(bench, it)]
    refusing = sum(it.judge.is_within for it in found)
    print(f"memory: {len(commands)} commands, {refusing} runs in which requests are refused", flush=True)
    return [*found, *limits(bench)]
