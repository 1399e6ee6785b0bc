"""Certificates that are cut, changed and forged. None may get `yes` whose bound is not the greatest."""

import dataclasses
import random
import re

import checker
import worked
from inputs import changed_bytes, cuts, filled
from manual import SAMPLES, Allowed, Is, fault_of, refused
from running import TOP, Trial

FORGERIES = 6000
CASES = TOP / "crates/cases/data"
TOO_GREAT = 2**63
# The cases of these names, with their bounds.
WORKED = {"bound_countdown": 25, "bound_nested_countdown": 50, "bound_call_twice_certificate": 28}
# With entries of all kinds in their statements.
WORKED |= {"bound_statement_all_together": 88, "bound_apart": 113, "bound_apart_in_calls": 194}


@dataclasses.dataclass(frozen=True)
class Handler:
    """A handler with its greatest bound and its right certificate."""

    name: str
    words: list
    files: dict
    bound: int
    cert: bytes

    def trial(self, name, cert, judge=None, **how):
        judge = judge or Judged(self.bound, checker.GRAPHS.get(self.name))
        return Trial(f"check, {self.name}: {name}", self.words, judge, {**self.files, "forged": cert}, **how)


class Judged:
    """`yes` to the greatest bound alone; and what the other checker says, where it has the graph."""

    def __init__(self, bound, graph=None):
        self.bound, self.graph = bound, graph

    def __call__(self, outcome, folder):
        cert = (folder / "forged").read_bytes()
        fault = fault_of("check", outcome)
        if not fault and self.graph:
            fault = self.differs(outcome, checker.verdict(self.graph, cert))
        if fault or outcome.status:
            return fault
        stated = [it for it in cert.split(b"\n")[:3] if it.startswith(b"bound ")]
        if outcome.out == b"yes\n" and stated == [b"bound %d" % self.bound]:
            return None
        return f"{outcome}, where the greatest bound is {self.bound}"

    @staticmethod
    def differs(outcome, wanted):
        said = (outcome.out + outcome.err).decode(errors="replace")
        return None if said == wanted + "\n" else f"{outcome}, where the other checker says {wanted}"


def handler(bench, name, files, bound=None, profile=False):
    """A handler with the certificate that `bound` prints. Its bound is the known one where that is given."""
    words = ["handler.s", "handler.toml"]
    if profile:
        words, files = ["--profile", "profile.toml", *words], {**files, "profile.toml": worked.profile()}
    cert = bench.ask(["bound", *words], files)[0].out
    stated = int(re.search(rb"^bound (\d+)$", cert, re.M)[1])
    return Handler(name, ["check", *words, "forged"], files, stated if bound is None else bound, cert)


def handlers(bench):
    """Handlers whose bounds are known: the worked ones by their cases, the samples by the manual."""
    found = []
    for name, bound in WORKED.items():
        files = {"handler.s": "source.s", "handler.toml": "statement.toml"}
        files = {to: (CASES / name / it).read_bytes() for to, it in files.items()}
        found.append(handler(bench, name.removeprefix("bound_"), files, bound))
    found.append(handler(bench, "countdown, dearer", found[0].files, 29, profile=True))
    for name, bound in SAMPLES.items():
        held = worked.sample(name)
        files = {it: held[it] for it in ("handler.s", "handler.toml")}
        # The figure of the sample with visits is that of both its handlers together.
        found.append(handler(bench, name, files, None if "fiq.toml" in held else bound))
    return found


def whole(handlers):
    for it in handlers:
        yield it.trial("its own certificate", it.cert, Is(0, b"yes\n"))
        dearer = [*it.words[:1], "--profile", "profile.toml", *it.words[1:]]
        if "--profile" not in it.words:
            files = {**it.files, "forged": it.cert, "profile.toml": worked.profile()}
            name = f"check, {it.name}: its own certificate, other prices"
            yield Trial(name, dearer, Is(1, b"no: WrongProfile\n"), files)
        for other in handlers:
            if other.cert != it.cert:
                yield it.trial(f"the certificate of {other.name}", other.cert)


def cut(handlers):
    """Each cut is Truncated, and each byte more is TrailingBytes."""
    for it in handlers:
        for name, cert in cuts(it.cert):
            yield it.trial(name, cert, refused("Truncated"))
        for byte in range(256):
            yield it.trial(f"byte {byte:02X} more", it.cert + bytes([byte]), refused("TrailingBytes"))


def changed(handlers):
    for it in handlers:
        for name, cert in changed_bytes(it.cert, b"\x00\x7f\xff\n 09-F"):
            yield it.trial(name, cert)


class Forger:
    """Forges certificates by chance."""

    def __init__(self, chance, certs):
        self.chance = chance
        self.certs = [it.split(b"\n")[:-1] for it in certs]

    def place(self, lines):
        return self.chance.randrange(1, max(2, len(lines)))

    def exchange(self, lines):
        first, second = self.place(lines), self.place(lines)
        lines[first], lines[second] = lines[second], lines[first]

    def repeat(self, lines):
        lines.insert(self.place(lines), self.chance.choice(lines))

    def drop(self, lines):
        del lines[self.place(lines)]

    def turn(self, lines):
        """Turns a number of a line by one, an address by one word."""
        at = self.place(lines)
        words = lines[at].split(b" ")
        places = [n for n, it in enumerate(words) if re.fullmatch(rb"[0-9A-F]+", it)]
        if not places:
            return
        place = self.chance.choice(places)
        by = self.chance.choice((-1, 1))
        is_address = words[0] in (b"step", b"place", b"instance") and len(words[place]) > 3
        base = 16 if is_address else 10
        try:
            number = int(words[place], base) + (4 * by if is_address else by)
        except ValueError:
            return
        words[place] = (b"%X" if is_address else b"%d") % max(0, number)
        lines[at] = b" ".join(words)

    def scale(self, lines):
        """Replaces a number at the end of a line by another one."""
        at = self.place(lines)
        other = self.chance.choice((0, 1, 2, 3, 1_048_576, 1_048_577, TOO_GREAT - 1, TOO_GREAT, 10**40))
        lines[at] = re.sub(rb" \d+$", b" %d" % other, lines[at])

    def exchange_numbers(self, lines):
        """Exchanges the numbers at the ends of two lines."""
        first, second = self.place(lines), self.place(lines)
        ends = [re.search(rb" \d+$", lines[it]) for it in (first, second)]
        if all(ends):
            lines[first] = re.sub(rb" \d+$", ends[1][0], lines[first])
            lines[second] = re.sub(rb" \d+$", ends[0][0], lines[second])

    def wrap(self, lines):
        """Puts some lines of the walk into a repeat, or takes one away."""
        first, second = sorted((self.place(lines), self.place(lines)))
        lines.insert(second, b"end")
        lines.insert(first, b"repeat %d" % self.chance.choice((1, 2, 3, 1_048_576)))

    def unwrap(self, lines):
        """Takes away the first repeat after a place, with its end."""
        at = next((n for n in range(self.place(lines), len(lines)) if lines[n].startswith(b"repeat")), None)
        if at is not None and b"end" in lines[at:]:
            del lines[lines.index(b"end", at)]
            del lines[at]

    def graft(self, lines):
        """Takes a line of another certificate."""
        lines[self.place(lines)] = self.chance.choice(self.chance.choice(self.certs))

    def raise_all(self, lines):
        """Raises each number of the rows, which keeps most of what is asked of them."""
        by = self.chance.choice((1, 2, 1000))
        for at, line in enumerate(lines):
            if line.startswith((b"place", b"instance")):
                front, _, number = line.rpartition(b" ")
                # Another forgery may have made something else of it.
                lines[at] = front + b" %d" % (int(number) + by) if number.isdigit() else line

    def suit(self, lines):
        """Makes the bound what the walk costs."""
        total = cost(lines)
        for at, line in enumerate(lines):
            if line.startswith(b"bound ") and total is not None:
                lines[at] = b"bound %d" % total

    def forged(self, lines):
        lines = [*lines]
        edits = (
            *(self.exchange, self.repeat, self.drop, self.turn, self.turn, self.scale, self.exchange_numbers),
            *(self.wrap, self.unwrap, self.graft, self.raise_all),
        )
        for _ in range(self.chance.choice((1, 1, 1, 2, 3))):
            self.chance.choice(edits)(lines)
        if self.chance.random() < 0.5:
            self.suit(lines)
        return b"".join(it + b"\n" for it in lines)


def cost(lines):
    """What the walk of a certificate costs, where its repeats and its numbers are right, or None."""
    sums, times = [0], []
    for line in lines:
        words = line.split(b" ")
        if words[0] == b"close":
            return sums[0] if len(sums) == 1 else None
        if words[0] == b"step" and words[-1].isdigit():
            sums[-1] += int(words[-1])
        elif words[0] == b"repeat" and words[-1].isdigit():
            sums.append(0)
            times.append(int(words[-1]))
        elif words[0] == b"end" and times:
            body = sums.pop()
            sums[-1] += body * times.pop()
    return None


def forged(bench, handlers):
    chance = random.Random(f"certificates {bench.seed}")
    forger = Forger(chance, [it.cert for it in handlers])
    for at in range(FORGERIES):
        # Half of them for the handlers that the other checker has.
        number = chance.randrange(len(checker.GRAPHS) if at % 2 else len(handlers))
        it = handlers[number]
        yield it.trial(f"forgery {at} of seed {bench.seed}", forger.forged(forger.certs[number]))


def stated(lines, bound):
    """The certificate with these lines, and this bound."""
    lines = [b"bound %d" % bound if it.startswith(b"bound ") else it for it in lines]
    return b"".join(it + b"\n" for it in lines)


def other_rounds(handlers):
    """Each repeat with another count, and the bound as it is, or as the walk then costs."""
    for it in handlers:
        lines = it.cert.split(b"\n")[:-1]
        for at, line in enumerate(lines):
            if not line.startswith(b"repeat "):
                continue
            number = int(line.split(b" ")[1])
            for other in {0, 1, number - 1, number + 1, 2 * number, 1_048_576, 1_048_577} - {number}:
                judge = suited = refused("BadLine", f" at line {at + 1}")
                if 1 <= other <= 1_048_576:
                    judge = Is(1, b"no: WalkCost\n" if other < number else b"no: WalkOverBound\n")
                    suited = judge if other > number else None
                new = [*lines[:at], b"repeat %d" % other, *lines[at + 1 :]]
                name = f"line {at + 1}: repeat {other}"
                yield it.trial(name, stated(new, it.bound), judge)
                yield it.trial(f"{name}, and the bound that suits", stated(new, cost(new)), suited)


def deep_rounds(handlers):
    """Each repeat inside of others, so that its rounds are a multiple of 2^32, 2^63 or 2^64."""
    for it in handlers:
        lines = it.cert.split(b"\n")[:-1]
        for at, line in enumerate(lines):
            if not line.startswith(b"repeat "):
                continue
            end = at + end_of(lines[at:])
            for power in (32, 63, 64):
                around = [b"repeat %d" % 2 ** min(20, power - done) for done in range(0, power, 20)]
                new = [*lines[:at], *around, *lines[at:end], *[b"end"] * len(around), *lines[end:]]
                name = f"line {at + 1}: the repeat 2^{power} times"
                for bound in {it.bound, cost(new) % 2**power, it.bound + 1}:
                    # With a bound that is too small another objection may come first.
                    judge = Is(1, b"no: WalkOverBound\n") if bound >= it.bound else None
                    yield it.trial(f"{name}, bound {bound}", stated(new, bound), judge)


def end_of(lines):
    """The place after the end of the repeat with which the lines begin."""
    depth = 0
    for at, line in enumerate(lines):
        depth += line.startswith(b"repeat ") - (line == b"end")
        if depth == 0:
            return at + 1
    raise ValueError("a repeat has no end")


def large(it):
    """Certificates of 16,777,216 bytes, and others that are deep or odd."""
    title = b"arcwcet certificate 1\n"
    front = title + b"bound 25\n"
    step = b"step 8000 do 8004 1\n"
    row = filled(front + b"close\n", b"place - 8000 0\n")
    calls = filled(front + b"close\nplace ", b"8000/", b"8000 8000 0\n")
    rows = [
        ("nothing", b"", refused("Truncated")),
        ("16 MiB of line ends", filled(b"", b"\n"), refused("BadLine", " at line 1")),
        ("16 MiB of 0s", filled(b"", b"\0"), refused("Truncated")),
        ("16 MiB without a line end", filled(b"", b"x"), refused("Truncated")),
        ("a number of 16 MiB", filled(title + b"bound ", b"1", b"\n"), refused("BadLine", " at line 2")),
        ("16 MiB of steps", filled(front, step, b"x\n"), Allowed("check", "BadLine")),
        ("800,000 steps, closed", front + step * 800_000 + b"close\nstop\n", Is(1, b"no: MissingPlace\n")),
        ("repeats, 17 deep", front + b"repeat 2\n" * 17, refused("BadLine", " at line 19")),
        ("16 MiB of repeats", filled(front, b"repeat 2\n"), refused("BadLine", " at line 19")),
        ("16 MiB of ends", filled(front, b"end\n"), refused("BadLine", " at line 3")),
        ("16 MiB of one row", row, refused("BadLine", " at line 5")),
        ("a list of calls of 16 MiB", calls, Allowed("check", "BadLine")),
        ("16 MiB after it", filled(it.cert, b"x"), refused("TrailingBytes")),
        ("line ends CR LF", it.cert.replace(b"\n", b"\r\n"), refused("BadLine", " at line 1")),
        ("a mark of the byte order", b"\xef\xbb\xbf" + it.cert, refused("BadLine", " at line 1")),
        ("small letters", it.cert.lower(), Allowed("check", "BadLine")),
    ]
    for name, cert, judge in rows:
        yield it.trial(name, cert, judge, seconds=300)


def cases():
    """The worked certificates, right ones and forged ones, with what is to be said of each."""
    for name, words, files, held in worked.cases():
        # What clap prints is no case's matter.
        if words[:1] == ["check"] and "stderr.any" not in held:
            judge = Is(int(held.get("status", b"0")), held.get("stdout", b""), held.get("stderr", b""))
            yield Trial(f"case {name}", words, judge, files)


def trials(bench):
    known = handlers(bench)
    return [
        *cases(),
        *whole(known),
        *cut(known[:4]),
        *changed(known[:4]),
        *other_rounds(known),
        *deep_rounds(known),
        *forged(bench, known),
        *large(known[0]),
    ]
