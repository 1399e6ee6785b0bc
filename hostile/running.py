"""Runs of the built program, each in a folder of its own, and what they answer."""

import dataclasses
import multiprocessing
import os
import pathlib
import shlex
import shutil
import signal
import struct
import subprocess
import tempfile
import time
from collections.abc import Callable

TOP = pathlib.Path(__file__).resolve().parent.parent
MOST_KEPT = 100


@dataclasses.dataclass(frozen=True)
class Outcome:
    """What a run answered. Its status is None if it did not end in time, below 0 if a signal ended it."""

    status: int | None
    out: bytes
    err: bytes

    def __str__(self):
        if self.status is None:
            return "no end in time"
        ended = f"status {self.status}" if self.status >= 0 else signal.Signals(-self.status).name
        return f"{ended}, standard output {shown(self.out)}, standard error {shown(self.err)}"


def shown(text):
    """A text, cut where it is long, or that there is none."""
    if text is None:
        return "nothing"
    return f"{text!r}" if len(text) <= 120 else f"{text[:80]!r}.. of {len(text)} bytes"


@dataclasses.dataclass
class Trial:
    """A run to be made. Its judge gets the answer and the folder, and says what is wrong, or None."""

    name: str
    words: list
    judge: Callable
    # The files of the folder, each as its bytes or as a call that makes them.
    files: dict = dataclasses.field(default_factory=dict)
    # What is done to the folder once its files are there.
    prepare: Callable | None = None
    # Standard input: bytes that come through a pipe, or the name of a file.
    stdin: bytes | str = "/dev/null"
    # What bash is told, where {} is the program and its words; nothing: there is no shell.
    shell: str = ""
    # After so many bytes the reader of standard output goes away.
    taken: int | None = None
    seconds: int = 60
    settings: dict = dataclasses.field(default_factory=dict)


@dataclasses.dataclass
class Bench:
    """Where the runs are made: a folder with a copy of the program and the library that starves it."""

    place: pathlib.Path
    jobs: int
    seed: int

    @property
    def library(self):
        return self.place / "starve.so"

    def line(self, trial):
        """The words that start a trial."""
        words = [str(self.place / "arcwcet"), *trial.words]
        return ["bash", "-c", trial.shell.replace("{}", shlex.join(words))] if trial.shell else words

    def ask(self, words, files, **how):
        """The answer to words over files, and the folder's files after it."""
        trial = Trial("", words, None, files, **how)
        with tempfile.TemporaryDirectory(dir=self.place) as folder:
            folder = pathlib.Path(folder)
            outcome = made(self, trial, folder)
            return outcome, {it.name: it.read_bytes() for it in folder.iterdir() if it.is_file()}

    def keep(self, trial):
        """Keeps what a trial's folder held at its start, and answers how to repeat the trial."""
        found = self.place / "found"
        found.mkdir(exist_ok=True)
        if len(os.listdir(found)) >= MOST_KEPT:
            return "too many findings: its files are not kept"
        folder = found / f"{os.getpid()}-{time.monotonic_ns()}"
        folder.mkdir()
        fill(trial, folder)
        line = shlex.join([*(f"{key}={it}" for key, it in trial.settings.items()), *self.line(trial)])
        stdin = trial.stdin
        if isinstance(stdin, bytes):
            stdin = "standard.input"
            (folder / stdin).write_bytes(trial.stdin)
        line = f"cd {folder} && {'env ' if trial.settings else ''}{line} < {stdin}"
        return line if trial.taken is None else f"{line} | head -c {trial.taken}"


def fill(trial, folder):
    for name, content in trial.files.items():
        (folder / name).write_bytes(content() if callable(content) else content)
    if trial.prepare:
        trial.prepare(folder)


def made(bench, trial, folder):
    """Makes a trial in its folder, and answers its outcome."""
    fill(trial, folder)
    settings = {key: str(value) for key, value in trial.settings.items()}
    how = {
        "cwd": folder,
        "env": {"PATH": os.environ.get("PATH", "/usr/bin:/bin"), **settings},
        "stdout": subprocess.PIPE,
        "stderr": subprocess.PIPE,
        "start_new_session": True,
    }
    if isinstance(trial.stdin, bytes):
        process, given = subprocess.Popen(bench.line(trial), stdin=subprocess.PIPE, **how), trial.stdin
    else:
        with open(folder / trial.stdin, "rb") as stdin:
            process, given = subprocess.Popen(bench.line(trial), stdin=stdin, **how), None
    out = b""
    try:
        if trial.taken is not None:
            out = process.stdout.read(trial.taken)
            process.stdout.close()
            process.stdout = None
        rest, err = process.communicate(given, timeout=trial.seconds)
    except subprocess.TimeoutExpired:
        os.killpg(process.pid, signal.SIGKILL)
        process.communicate()
        return Outcome(None, b"", b"")
    return Outcome(process.returncode, out + (rest or b""), err)


def counts(folder):
    """How many requests for memory the run in the folder made, and how many of them were refused."""
    return struct.unpack("=QQ", (folder / "counts").read_bytes())


def emptied(folder):
    for it in folder.iterdir():
        if it.is_dir() and not it.is_symlink():
            shutil.rmtree(it)
        else:
            it.unlink()


# What the workers share with the process that they were forked from.
BENCH, TRIALS, FOLDER = None, [], None


def begin_worker():
    global FOLDER
    FOLDER = pathlib.Path(tempfile.mkdtemp(dir=BENCH.place))
    FOLDER.chmod(0o755)


def judged(number):
    """A trial's number, what is wrong with the answer, and how to repeat it; or None."""
    trial = TRIALS[number]
    outcome = made(BENCH, trial, FOLDER)
    fault = f"no end in {trial.seconds} seconds" if outcome.status is None else trial.judge(outcome, FOLDER)
    emptied(FOLDER)
    return (number, fault, BENCH.keep(trial)) if fault else None


def findings(bench, part, trials):
    """Makes all trials, prints the findings, and answers how many there are."""
    global BENCH, TRIALS
    BENCH, TRIALS = bench, trials
    found = 0
    with multiprocessing.get_context("fork").Pool(bench.jobs, begin_worker) as pool:
        for it in pool.imap_unordered(judged, range(len(trials)), chunksize=4):
            if it:
                found += 1
                number, fault, command = it
                print(f"{part}: {trials[number].name}: {fault}\n    {command}", flush=True)
    return found
