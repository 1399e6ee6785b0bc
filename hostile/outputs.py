"""Streams and files that fail, go away, never end or cannot be used."""

import itertools
import os
import shlex
import shutil
import stat
import sys

import worked
from manual import OVER_ITS_CODE, Allowed, Is, Usage, refused
from memory import OLD_IMAGE
from running import Trial, shown

MOST = 16_777_216
FAILED, TOO_LONG = refused("Device"), refused("InputTooLong")
OVER_ITS_SOURCE = b"error: the image would be written over its source\n"
# The number of the user without rights.
NOBODY = 65_534
NO_READER = "exec 3> >(:); wait $!; exec {} >&3 3>&-"
# A pipe that takes no more once it is full, and whose reader never reads.
STUCK = f"""mkfifo stuck; exec 3<>stuck; exec {shlex.quote(sys.executable)} -c '
import os, sys
os.set_blocking(int(sys.argv[1]), False)
os.execv(sys.argv[2], sys.argv[2:])' %d {{}} %s"""


class Leaves:
    """What a judge says, and then what the folder's file must hold; None: it must not be there."""

    def __init__(self, judge, name, content):
        self.judge, self.name, self.content = judge, name, content

    def __call__(self, outcome, folder):
        fault = self.judge(outcome, folder)
        file = folder / self.name
        there = file.read_bytes() if file.is_file() else None
        if fault or there == self.content:
            return fault
        return f"{outcome}; the file {self.name} holds {shown(there)}, not {shown(self.content)}"


def stream_rows(command):
    """What is done to a command's streams, and what it has to answer."""
    outcome = command.outcome
    right, silent = Is(outcome.status, outcome.out, outcome.err), Is(outcome.status, outcome.out)
    failed = Announced(FAILED, command.files) if "--progress" in command.words else FAILED
    unprinted = failed if outcome.out else right
    unseen = Is(4 if outcome.out else outcome.status)
    is_debug = command.words[:1] == ["debug"]
    return [
        ("standard output full", "exec {} >/dev/full", unprinted),
        ("standard output closed", "exec {} >&-", unprinted),
        ("standard output for reading alone", "exec {} 1</dev/null", unprinted),
        ("no reader of the pipe", f"trap '' PIPE; {NO_READER}", unprinted),
        ("standard error full", "exec {} 2>/dev/full", silent),
        ("standard error closed", "exec {} 2>&-", silent),
        ("standard output and standard error closed", "exec {} >&- 2>&-", unseen),
        ("standard input closed", "exec {} <&-", FAILED if is_debug else right),
        ("all three closed", "exec {} <&- >&- 2>&-", Is(4) if is_debug else unseen),
    ]


def streams(commands):
    for it in commands:
        for name, shell, judge in stream_rows(it):
            # An output that fails leaves the image's file written.
            if it.image is not None:
                judge = Leaves(judge, "made.image", it.image)
            yield Trial(f"{it.name}: {name}", it.words, judge, it.files, stdin=it.stdin, shell=shell)


class Announced:
    """An answer with the lines of `--progress` in front of what standard error takes without them."""

    def __init__(self, right, files):
        self.right, self.files = right, files

    def __call__(self, outcome, folder):
        status, out, err = self.right.wanted
        lines = outcome.err.removesuffix(err).splitlines()
        if (outcome.status, outcome.out) != (status, out) or not outcome.err.endswith(err):
            return f"{outcome}; not the answer without --progress"
        # All answers here are shorter than 16 MiB.
        begun = [b"writing: 0 MiB"] if out else []
        announced = [it for it in lines if it.startswith(b"reading ")]
        if bool(announced) != bool(self.files) or lines != announced + begun:
            return f"{outcome}; not the lines of --progress"
        return None


def progress(commands):
    """Each command with `--progress`, and where its lines are lost: the answer is the one without it."""
    for it in commands:
        words = [it.words[0], "--progress", *it.words[1:]]
        right = Is(it.outcome.status, it.outcome.out, it.outcome.err)
        lost = Is(it.outcome.status, it.outcome.out)
        for name, shell, judge in (("", "", Announced(right, it.files)), (", lost", "exec {} 2>/dev/full", lost)):
            if it.image is not None:
                judge = Leaves(judge, "made.image", it.image)
            yield Trial(f"{it.name} --progress{name}", words, judge, it.files, stdin=it.stdin, shell=shell)


def long_answers(bench):
    """A trace that does not fit into a pipe."""
    files = {"handler.s": worked.ROUND, "machine.toml": worked.LONG}
    trace = worked.command(bench, "trace handler.s machine.toml", files)
    front = Is(4, trace.outcome.out[:10], FAILED.wanted[2])
    rows = [
        ("a reader that goes away", "", 10, front),
        ("a reader that goes away, and SIGPIPE ignored", "trap '' PIPE; exec {}", 10, front),
        ("a pipe that never blocks and is not read", STUCK % (1, ">&3"), None, FAILED),
        (
            "a file that may have 64 KiB",
            "trap '' XFSZ; ulimit -f 64; exec {} >answer",
            None,
            Leaves(FAILED, "answer", trace.outcome.out[: 64 * 1024]),
        ),
    ]
    for name, shell, taken, judge in rows:
        yield Trial(f"a long trace: {name}", trace.words, judge, files, shell=shell, taken=taken)


def fronts(commands):
    """A file that takes so many bytes of an answer and no more, for each number below the answer's length."""
    if not shutil.which("prlimit"):
        return
    for it in commands:
        # A longer answer would take too many runs.
        for most in range(min(len(it.outcome.out), 1000)):
            shell = f"trap '' XFSZ; exec prlimit --fsize={most} {{}} >answer"
            judge = Leaves(FAILED, "answer", it.outcome.out[:most])
            name = f"{it.name}: standard output takes {most} bytes"
            yield Trial(name, it.words, judge, it.files, stdin=it.stdin, shell=shell)


def as_nobody():
    """What bash is told so that the program runs as a user without rights; nothing: there is no way."""
    if os.geteuid():
        return "exec {}"
    changes = f"exec setpriv --reuid={NOBODY} --regid={NOBODY} --clear-groups {{}}"
    return changes if shutil.which("setpriv") else ""


def locked(name, mode):
    """Takes rights from a file or a folder of the folder."""
    return lambda folder: (folder / name).chmod(mode)


def full_device(folder):
    """A full device of the folder's own, lest a program takes away the system's, which it could not write."""
    os.mknod(folder / "full", stat.S_IFCHR | 0o666, os.stat("/dev/full").st_rdev)


def locked_folder(folder):
    (folder / "locked").mkdir(mode=0o555)


def image_files(command, file, over):
    """Names under which no image can be written, and what is there then; and that of a file that is read,
    with what is said of it."""
    source, line, image = command.files[file], command.outcome.out, command.image
    pipe = "mkfifo pipe; cat pipe >copy & {}; status=$?; wait; exit $status"
    rows = [
        ("a folder", "folder", lambda folder: (folder / "folder").mkdir(), "", FAILED),
        ("a name within a file", f"{file}/made.image", None, "", Leaves(FAILED, file, source)),
        ("a folder that is missing", "missing/made.image", None, "", FAILED),
        ("a folder of the system", "/proc/made.image", None, "", FAILED),
        ("a link to itself", "loop", lambda folder: (folder / "loop").symlink_to("loop"), "", FAILED),
        ("a name of 300 letters", "n" * 300, None, "", FAILED),
        ("a name of 5,000 letters", "n" * 5000, None, "", FAILED),
        ("an empty name", "", None, "", Allowed(command.words[0])),
        ("standard output", "/dev/stdout", None, "", Is(0, image + line)),
        ("a pipe", "pipe", None, pipe, Leaves(Is(0, line), "copy", image)),
        ("a file that is read", file, None, "", Leaves(Is(2, b"", over), file, source)),
    ]
    if not os.geteuid():
        rows.append(("a full device", "full", full_device, "", FAILED))
    nobody = as_nobody()
    if nobody:
        rows += [
            ("a locked folder", "locked/made.image", locked_folder, nobody, FAILED),
            ("a locked file", "old", locked("old", 0o444), nobody, Leaves(FAILED, "old", OLD_IMAGE)),
        ]
    for name, word, prepare, shell, judge in rows:
        files = {**command.files, **({"old": OLD_IMAGE} if word == "old" else {})}
        how = {"prepare": prepare, "shell": shell}
        words = [*command.words[:-1], word]
        yield Trial(f"{command.words[0]}, the image's file: {name}", words, judge, files, **how)


def full_disks(bench):
    """Limits on a file's length, in place of a disc that is full.

    No part of an image may stay. What stood in the file before is lost when it is opened.
    """
    sources = (["asm", "handler.s"], b"         DCD    1\n" * 1000), (["import", "code.bin@0"], bytes(4000))
    for (words, source), limit, old in itertools.product(sources, (0, 1), (None, OLD_IMAGE)):
        files = {words[1].partition("@")[0]: source, **({"made.image": old} if old else {})}
        name = f"{words[0]}, the image's file, {'old' if old else 'new'}: {1024 * limit} bytes at most"
        shell = f"trap '' XFSZ; ulimit -f {limit}; exec {{}}"
        judge = Leaves(FAILED, "made.image", None)
        yield Trial(name, [*words, "made.image"], judge, files, shell=shell)


def long_file(name):
    def make(folder):
        with open(folder / name, "wb") as file:
            file.truncate(MOST + 1)

    return make


def file_rows(name):
    """What takes the place of a file to read: its name, how it is made, what bash is told, and the
    refusal with what `explain` says of the file; None: it is read. Names have a `/`, as `draft` takes others for
    labels."""
    pipe = f"mkfifo pipe; cat {name} >pipe & exec {{}}"
    cannot, long = (FAILED, "cannot be read"), (TOO_LONG, f"more than {MOST} bytes")
    rows = [
        ("a file that is missing", "./missing", None, "", (FAILED, "no such file")),
        (
            "a folder",
            "./folder",
            lambda folder: (folder / "folder").mkdir(),
            "",
            (FAILED, "is a directory"),
        ),
        ("a name within a file", "/dev/null/x", None, "", cannot),
        ("a link to itself", "./loop", lambda folder: (folder / "loop").symlink_to("loop"), "", cannot),
        ("a name of 5,000 letters", "./" + "n" * 5000, None, "", cannot),
        ("a file that fails when it is read", "/proc/self/mem", None, "", cannot),
        ("a file of 16,777,217 bytes", "./long", long_file("long"), "", long),
        ("a file that never ends", "/dev/zero", None, "", long),
        ("a pipe", "./pipe", None, pipe, None),
    ]
    if as_nobody():
        rights = (FAILED, "permission denied")
        rows.append(("a file without rights", name, locked(name, 0o000), as_nobody(), rights))
    return rows


def unread(command, file, refusal, reason):
    """The refusal of a file; `explain` says which and why."""
    status, out, err = refusal.wanted
    is_named = command.words[0] == "explain"
    return Is(status, out, err + f"{file}: {reason}\n".encode()) if is_named else refusal


def files(commands):
    """Each file that a command reads, replaced by what cannot be read, never ends, or is a pipe."""
    for it in commands:
        right = Is(it.outcome.status, it.outcome.out, it.outcome.err)
        for at, whole in enumerate(it.words):
            # Of import an address may stand behind the file's name.
            word, behind = whole, ""
            if it.words[0] == "import" and whole not in it.files:
                word, behind = whole.partition("@")[0], whole[whole.find("@") :]
            if word not in it.files:
                continue
            for name, other, prepare, shell, found in file_rows(word):
                judge = unread(it, other, *found) if found else right
                words = [*it.words[:at], other + behind, *it.words[at + 1 :]]
                how = {"stdin": it.stdin, "prepare": prepare, "shell": shell}
                yield Trial(f"{it.name}: for {word} {name}", words, judge, it.files, **how)
            if it.words[0] != "debug":
                words = [*it.words[:at], "/dev/stdin" + behind, *it.words[at + 1 :]]
                yield Trial(f"{it.name}: {word} on standard input", words, right, it.files, stdin=word)


def sessions(command):
    """Standard inputs of the debugger that cannot be read, never end, or are as long as they may be."""
    unknown = Is(0, b"refused: UnknownCommand\n")
    rows = [
        ("a folder", "exec {} <.", b"", FAILED),
        ("a file for writing alone", "exec {} 0>written", b"", FAILED),
        ("a pipe that never blocks and has nothing", STUCK % (0, "<&3"), b"", FAILED),
        ("a device that never ends", "exec {} </dev/zero", b"", TOO_LONG),
        ("a pipe that never ends", "yes | (exec {})", b"", TOO_LONG),
        ("nothing", "exec {} </dev/null", b"", Is(0)),
        ("16,777,217 bytes", "", b"x" * (MOST + 1), TOO_LONG),
        ("16,777,216 bytes", "", b"x" * MOST, unknown),
        ("16,777,216 bytes, a file", "cat >session; exec {} <session", b"x" * MOST, unknown),
    ]
    for name, shell, stdin, judge in rows:
        how = {"shell": shell, "stdin": stdin}
        yield Trial(f"debug, standard input: {name}", command.words, judge, command.files, **how)


def orders(command):
    """Two files at fault, of which the first that is read is answered."""
    rows = [
        ("missing", "handler.s", "/dev/zero", FAILED),
        ("/dev/zero", "missing", "handler.toml", TOO_LONG),
        ("profile.toml", "/dev/zero", "missing", TOO_LONG),
        ("profile.toml", "missing", "/dev/zero", FAILED),
    ]
    for profile, source, statement, judge in rows:
        words = ["bound", "--profile", profile, source, statement]
        files = {"profile.toml": worked.profile(), **command.files}
        yield Trial(f"bound: {profile}, {source} and {statement}", words, judge, files)


def lines(command):
    """Words of the command line that are odd, wrong, long or many."""
    usage = [
        ([], "no words"),
        (["--help"], "help"),
        (["bound", "--help"], "a command's help"),
        (["--version", "bound"], "the version of a command"),
        (["bound", "--version"], "a command's version"),
        (["bound", "--why", "--why", "handler.s", "handler.toml"], "two reasons"),
        (["bound", "--progress", "--progress", "handler.s", "handler.toml"], "progress twice"),
        (["bound", "--profile"], "no profile"),
        (["bound", "--profile", "a", "--profile", "b", "handler.s", "handler.toml"], "two profiles"),
        (["asm", *["handler.s"] * 5000], "5,000 words"),
        (["n" * 100_000], "a command of 100,000 letters"),
    ]
    for number in ("", "4294967296", "9" * 1000, "-1", "2.5"):
        usage.append((["visits", "handler.s", "a", "b", number], f"{number:.10} visits"))
        usage.append((["visits", f"--every={number}", "handler.s", "a", "b"], f"every {number:.10}"))
        words = ["respond", "--fiq-statement=b", f"--every={number}", "handler.s", "a", "start"]
        usage.append((words, f"FIQ's visits every {number:.10}"))
    for words, name in usage:
        yield Trial(f"the command line: {name}", words, Usage(), command.files)
    for word in ("--version", "-V"):
        yield Trial(f"the command line: {word}", [word], Is(0, b"arcwcet 1.0.0\n"))
    for name, word in (("an empty name", ""), ("100,000 letters", "n" * 100_000), ("a line end", "a\nb")):
        yield Trial(f"the command line: {name} for a file", ["bound", word, word], Allowed("bound"))
    for name, words in (("a name", "bound $'\\xff.s' handler.toml"), ("a command", "$'\\xff'")):
        shell = f"exec {{}} {words}"
        yield Trial(f"the command line: {name} that is no UTF-8", [], Allowed("bound"), shell=shell)


def trials(bench):
    commands = worked.commands(bench)
    by_name = {it.name: it for it in commands}
    asm, made = by_name["asm handler.s made.image"], by_name["import --at 0x8000 code.bin made.image"]
    reading = ("asm", "import", "list", "draft")
    named = [it for it in commands if it.words[0] in reading or "--profile" in it.words]
    plain = [it for it in commands if "handler.s" in it.words and "--profile" not in it.words]
    return [
        *streams([*commands, *worked.each_answer(bench)]),
        *progress(commands),
        *long_answers(bench),
        *fronts(it for it in plain if it.words[0] != "asm"),
        *image_files(asm, "handler.s", OVER_ITS_SOURCE),
        *image_files(made, "code.bin", OVER_ITS_CODE),
        *full_disks(bench),
        *files(named),
        *sessions(by_name["debug handler.s machine.toml"]),
        *orders(by_name["bound handler.s handler.toml"]),
        *lines(by_name["bound handler.s handler.toml"]),
    ]
