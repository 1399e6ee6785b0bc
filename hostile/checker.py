"""A checker of certificates that shares nothing with the program, for some handlers with their graphs."""

import dataclasses
import re

LIMIT = 2**63
MOST_ROUNDS, MOST_DEEP, MOST_CALLS = 1_048_576, 16, 8
FIRST_PROFILE = (2, 1, 2, 4, 3, 2, 2, 8, 6, 5, 10, 2, 2, 1, 6)
NUMBER, ADDRESS = r"(0|[1-9]\d*)", r"(0|[1-9A-F][0-9A-F]*)"
STEP = re.compile(rf"step {ADDRESS} (do|skip) (exit|[0-9A-F]+) {NUMBER}")
PLACE = re.compile(rf"place (\S+) {ADDRESS} {NUMBER}")
INSTANCE = re.compile(rf"instance (\S+) {ADDRESS} {NUMBER} {NUMBER}")


class Refused(Exception):
    """Why a text is no certificate."""


@dataclasses.dataclass(frozen=True)
class Loop:
    """An instance of a loop: its header and its members are places."""

    header: tuple
    members: frozenset
    bound: int


@dataclasses.dataclass(frozen=True)
class Graph:
    """A handler's edges, each as place, label, target and cost, its loops and its entry.

    A place is its list of calls and its address; the target None is the exit.
    """

    edges: tuple
    loops: tuple
    entry: tuple

    def places(self):
        return {it[0] for it in self.edges}


def main(*addresses):
    """Places that are reached without a call."""
    return frozenset(((), it) for it in addresses)


def edges(*rows):
    """Edges between places without calls."""
    return tuple((((), at), label, to and ((), to), cost) for at, label, to, cost in rows)


COUNTDOWN = Graph(
    edges(
        (0x8000, "do", 0x8004, 1),
        (0x8004, "do", 0x8008, 1),
        (0x8008, "do", 0x8004, 5),
        (0x8008, "skip", 0x800C, 2),
        (0x800C, "do", None, 9),
    ),
    (Loop(((), 0x8004), main(0x8004, 0x8008), 2),),
    ((), 0x8000),
)
NESTED = Graph(
    edges(
        (0x8000, "do", 0x8004, 1),
        (0x8004, "do", 0x8008, 1),
        (0x8008, "do", 0x800C, 2),
        (0x800C, "do", 0x8008, 4),
        (0x800C, "skip", 0x8010, 1),
        (0x8010, "do", 0x8014, 1),
        (0x8014, "do", 0x8004, 4),
        (0x8014, "skip", 0x8018, 1),
        (0x8018, "do", None, 10),
    ),
    (
        Loop(((), 0x8004), main(0x8004, 0x8008, 0x800C, 0x8010, 0x8014), 1),
        Loop(((), 0x8008), main(0x8008, 0x800C), 2),
    ),
    ((), 0x8000),
)
CALLED_TWICE = Graph(
    (
        (((), 0x8000), "do", ((), 0x8004), 1),
        (((), 0x8004), "do", ((0x8004,), 0x8014), 4),
        (((0x8004,), 0x8014), "do", ((), 0x8008), 4),
        (((), 0x8008), "do", ((0x8008,), 0x8014), 5),
        (((0x8008,), 0x8014), "do", ((), 0x800C), 5),
        (((), 0x800C), "do", None, 9),
    ),
    (),
    ((), 0x8000),
)


def scaled(call):
    """The edges of a routine that is called from an address and returns behind it, with a loop inside."""
    rows = ((0x800C, "do", 0x8010, 1), (0x8010, "do", 0x8014, 4), (0x8014, "do", 0x8018, 5))
    # The multiply takes four cycles, and the word after it is never done.
    rows += ((0x8018, "skip", 0x801C, 2), (0x801C, "do", 0x8020, 1))
    rows += ((0x8020, "do", 0x8010, 4), (0x8020, "skip", 0x8024, 1))
    inside = tuple((((call,), at), label, ((call,), to), cost) for at, label, to, cost in rows)
    enter = (((), call), "do", ((call,), 0x800C), 5)
    return (enter, *inside, (((call,), 0x8024), "do", ((), call + 4), 4))


def scaling(call):
    members = frozenset(((call,), at) for at in range(0x8010, 0x8024, 4))
    return Loop(((call,), 0x8010), members, 1)


STATED = Graph(
    (*scaled(0x8000), *scaled(0x8004), (((), 0x8008), "do", None, 10)),
    (scaling(0x8000), scaling(0x8004)),
    ((), 0x8000),
)
# The exit, 801C to 8024, lies among the loop's addresses and is apart.
APART = Graph(
    edges(
        (0x8000, "do", 0x8004, 1),
        (0x8004, "skip", 0x8008, 1),
        (0x8004, "do", 0x801C, 5),
        (0x8008, "do", 0x800C, 2),
        (0x800C, "skip", 0x8010, 1),
        (0x800C, "do", 0x801C, 5),
        (0x8010, "do", 0x8014, 1),
        (0x8014, "skip", 0x8018, 1),
        (0x8014, "do", 0x8028, 4),
        (0x8018, "do", 0x8008, 5),
        (0x801C, "do", 0x8020, 1),
        (0x8020, "do", 0x8024, 4),
        (0x8024, "do", None, 9),
        (0x8028, "do", 0x802C, 18),
        (0x802C, "do", 0x8008, 4),
    ),
    (Loop(((), 0x8008), main(0x8008, 0x800C, 0x8010, 0x8014, 0x8018, 0x8028, 0x802C), 3),),
    ((), 0x8000),
)


def scanned(call, called, returned):
    """The edges of a routine with a loop; the call and the return take so many ticks."""
    rows = ((0x8010, "do", 0x8014, 1), (0x8014, "do", 0x8018, 1), (0x8018, "skip", 0x801C, 2))
    rows += ((0x8018, "do", 0x802C, 6), (0x801C, "do", 0x8020, 1), (0x8020, "skip", 0x8024, 1))
    rows += ((0x8020, "do", 0x802C, 5), (0x8028, "do", 0x8034, 5), (0x8034, "do", 0x8038, 1))
    rows += ((0x8038, "skip", 0x803C, 2), (0x8038, "do", 0x801C, 6), (0x803C, "do", 0x802C, 5))
    inside = tuple((((call,), at), label, ((call,), to), cost) for at, label, to, cost in rows)
    # What the loop calls at 8024, and its exit, which is apart, at 802C.
    for at in (0x8024, 0x802C):
        calls = (call, at)
        inside += ((((call,), at), "do", (calls, 0x8040), 4), ((calls, 0x8040), "do", (calls, 0x8044), 1))
        inside += (((calls, 0x8044), "do", ((call,), at + 4), 4),)
    enter = (((), call), "do", ((call,), 0x8010), called)
    return (enter, *inside, (((call,), 0x8030), "do", ((), call + 4), returned))


def scanning(call):
    own = ((0x801C, 0x8020, 0x8024, 0x8028, 0x8034, 0x8038), (0x8040, 0x8044))
    members = {((call,), at) for at in own[0]} | {((call, 0x8024), at) for at in own[1]}
    return Loop(((call,), 0x801C), frozenset(members), 2)


CALLED_APART = Graph(
    (
        (((), 0x8000), "do", ((), 0x8004), 1),
        *scanned(0x8004, 4, 4),
        *scanned(0x8008, 5, 5),
        (((), 0x800C), "do", None, 9),
    ),
    (scanning(0x8004), scanning(0x8008)),
    ((), 0x8000),
)
GRAPHS = {"countdown": COUNTDOWN, "nested_countdown": NESTED, "call_twice_certificate": CALLED_TWICE}
GRAPHS |= {"statement_all_together": STATED, "apart": APART, "apart_in_calls": CALLED_APART}


@dataclasses.dataclass
class Cert:
    """A certificate: its walk is a list of steps and of pairs of a count and a walk."""

    profile: tuple
    bound: int = 0
    walk: list = dataclasses.field(default_factory=list)
    places: dict = dataclasses.field(default_factory=dict)
    loops: dict = dataclasses.field(default_factory=dict)


class Lines:
    """A text line by line. The first fault from the front is raised."""

    def __init__(self, text):
        self.whole, self.at = text, 0
        self.parts = text.split(b"\n")
        # What comes after the last line end is no whole line.
        self.rest = self.parts.pop()

    def next(self):
        if self.at == len(self.parts):
            raise Refused("Truncated")
        self.at += 1
        return self.parts[self.at - 1].decode("latin-1")

    def bad(self):
        raise Refused(f"BadLine at line {self.at}")

    def number(self, text):
        return int(text) if int(text[:30]) < LIMIT and len(text) < 30 else self.bad()

    def address(self, text):
        if len(text) > 7 or not re.fullmatch(ADDRESS, text) or int(text, 16) >= 0x4000000:
            self.bad()
        return int(text, 16)

    def calls(self, text):
        if text == "-":
            return ()
        found = tuple(self.address(it) for it in text.split("/"))
        return found if len(found) <= MOST_CALLS else self.bad()


def is_profile(numbers):
    n, s, quad, rom, io = *numbers[:3], numbers[3:7], numbers[7:11]
    in_range = all(1 <= it <= 255 for it in numbers[:14]) and 0 <= numbers[14] <= 255
    return in_range and s <= quad <= n and max(n, *rom, numbers[11]) <= max(io)


def read_front(lines):
    """The title, the profile and the bound."""
    title = re.fullmatch(r"arcwcet certificate ([12])", lines.next()) or lines.bad()
    cert = Cert(FIRST_PROFILE)
    if title[1] == "2":
        line = lines.next()
        if not re.fullmatch(rf"profile( {NUMBER}){{15}}", line):
            lines.bad()
        cert.profile = tuple(lines.number(it) for it in line.split()[1:])
        if cert.profile == FIRST_PROFILE or not is_profile(cert.profile):
            lines.bad()
    bound = re.fullmatch(rf"bound {NUMBER}", lines.next()) or lines.bad()
    cert.bound = lines.number(bound[1])
    return cert


def read_walk(lines):
    """The items of the walk, up to `close`."""
    open_walks, counts = [[]], []
    while (line := lines.next()) != "close" or counts:
        step, repeat = STEP.fullmatch(line), re.fullmatch(rf"repeat {NUMBER}", line)
        if step:
            to = None if step[3] == "exit" else lines.address(step[3])
            cost = lines.number(step[4]) or lines.bad()
            open_walks[-1].append((lines.address(step[1]), step[2], to, cost))
        elif repeat and 1 <= lines.number(repeat[1]) <= MOST_ROUNDS and len(counts) < MOST_DEEP:
            open_walks.append([])
            counts.append(int(repeat[1]))
        elif line == "end" and counts and open_walks[-1]:
            body = open_walks.pop()
            open_walks[-1].append((counts.pop(), body))
        else:
            lines.bad()
    return open_walks[0]


def read_rows(lines, cert):
    """The rows of places and instances, each ascending, up to `stop`."""
    while (line := lines.next()) != "stop":
        place, instance = PLACE.fullmatch(line), INSTANCE.fullmatch(line)
        row, rows = (place, cert.places) if place else (instance, cert.loops)
        if not row or place and cert.loops:
            lines.bad()
        key = (lines.calls(row[1]), lines.address(row[2]))
        if rows and key <= max(rows):
            lines.bad()
        rows[key] = tuple(lines.number(it) for it in row.groups()[2:])


def read_cert(text):
    lines = Lines(text)
    cert = read_front(lines)
    cert.walk = read_walk(lines)
    read_rows(lines, cert)
    if lines.at < len(lines.parts) or lines.rest:
        raise Refused("TrailingBytes")
    return cert


def rows_of(graph, cert):
    """Of each edge the least number that it asks for, the one in the certificate, and the objection."""
    for place, _, to, cost in graph.edges:
        left = [it for it in graph.loops if place in it.members and to not in it.members]
        least = cost + cert.places[place][0]
        least += sum(cert.loops[it.header][0] + it.bound * cert.loops[it.header][1] for it in left)
        turned = next((it for it in graph.loops if it.header == to and place in it.members), None)
        entered = next((it for it in graph.loops if it.header == to and place not in it.members), None)
        if turned:
            if turned.bound:
                yield least, cert.loops[to][1], "RoundTooHeavy"
            continue
        number = cert.bound if to is None else cert.loops[to][0] if entered else cert.places[to][0]
        yield least, number, "LeaveTooHeavy" if left else "EdgeTooHeavy"


class Broken(Exception):
    """The walk is none of the graph."""


class Walker:
    """Follows a walk; a repeat is followed once, and its turns and its cost are multiplied."""

    def __init__(self, graph):
        self.graph, self.at, self.turns, self.is_over = graph, graph.entry, {}, False

    def step(self, item):
        address, label, to, cost = item
        if self.at is None or self.at[1] != address:
            raise Broken
        for place, *rest in self.graph.edges:
            if place == self.at and (rest[0], rest[1] and rest[1][1], rest[2]) == (label, to, cost):
                self.move(place, rest[1])
                return cost
        raise Broken

    def move(self, place, to):
        for it in self.graph.loops:
            if it.header == to:
                self.turn(it, 1 if place in it.members else None)
        self.at = to

    def turn(self, loop, times):
        """Counts turns of a loop; None: it is entered."""
        self.turns[loop] = 0 if times is None else self.turns.get(loop, 0) + times
        self.is_over |= self.turns[loop] > loop.bound

    def repeat(self, count, body):
        loop = next((it for it in self.graph.loops if it.header == self.at), None)
        if loop is None:
            raise Broken
        before = self.turns.get(loop, 0)
        cost = self.items(body, loop)
        if self.at != loop.header:
            raise Broken
        self.turn(loop, (self.turns[loop] - before) * (count - 1))
        return count * cost

    def items(self, items, within=None):
        cost = 0
        for it in items:
            cost += self.step(it) if len(it) == 4 else self.repeat(*it)
            if within and self.at not in within.members:
                raise Broken
        return cost


def verdict(graph, text, profile=FIRST_PROFILE):
    """What `check` says of a text: a refusal, an objection or `yes`."""
    try:
        cert = read_cert(text)
    except Refused as why:
        return f"refused: {why}"
    places, headers = graph.places(), {it.header for it in graph.loops}
    if cert.profile != profile:
        return "no: WrongProfile"
    if not (places <= cert.places.keys() and headers <= cert.loops.keys()):
        return "no: MissingPlace"
    if not (places == cert.places.keys() and headers == cert.loops.keys()):
        return "no: ExtraPlace"
    rows = [*rows_of(graph, cert)]
    if any(least >= LIMIT for least, _, _ in rows):
        return "no: NumberTooLarge"
    for name in ("EdgeTooHeavy", "RoundTooHeavy", "LeaveTooHeavy"):
        if any(least > number and it == name for least, number, it in rows):
            return f"no: {name}"
    walker = Walker(graph)
    try:
        cost = walker.items(cert.walk)
    except Broken:
        return "no: BrokenWalk"
    if walker.at is not None:
        return "no: BrokenWalk"
    if walker.is_over:
        return "no: WalkOverBound"
    return "yes" if cost == cert.bound else "no: WalkCost"
