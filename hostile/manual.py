"""What docs/MANUAL.md and docs/REFUSALS.md allow the program to answer."""

import re

from running import TOP, shown

ANY, SOURCES, IMAGES = "Any command", "Sources, with the line", "Images"
STATEMENTS, GRAPH, LOOPS, PATH = "Statements", "The graph", "Loops", "The path"
VISITS, MACHINES, PROFILES, CERTIFICATES = "Visits", "Machine files", "Cycle profiles", "Certificates"
DRAFTS, EDGES, RESPONSES, FACTS = "Drafts", "Edges", "Response times", "Files of facts"
DIALECT = "Sources for ObjAsm, with the line"
IMPORTS = "Code that is imported"

OF_SOURCE = (ANY, SOURCES, DIALECT, IMAGES)
OF_HANDLER = (*OF_SOURCE, PROFILES, STATEMENTS, GRAPH, LOOPS)

# The sections of REFUSALS.md whose refusals a command can meet.
MET_BY = {
    "asm": OF_SOURCE,
    "import": (ANY, IMPORTS),
    "list": OF_SOURCE,
    "plain": (ANY, DIALECT),
    "vectors": (ANY,),
    "draft": (*OF_SOURCE, DRAFTS, STATEMENTS),
    "bound": (*OF_HANDLER, PATH, EDGES),
    "explain": (*OF_HANDLER, PATH, CERTIFICATES),
    "justify": (*OF_HANDLER, PATH, FACTS),
    "graph": (*OF_HANDLER, PATH),
    "check": (*OF_HANDLER, CERTIFICATES),
    "visits": (*OF_HANDLER, PATH, VISITS),
    "respond": (*OF_HANDLER, PATH, DRAFTS, RESPONSES, VISITS),
    "follow": (*OF_HANDLER, PATH, MACHINES, VISITS),
    **{name: (*OF_SOURCE, PROFILES, MACHINES, DRAFTS) for name in ("run", "trace")},
    "debug": (*OF_SOURCE, PROFILES, MACHINES),
}
STATUSES = {"Memory": 3, "Device": 4}
# What is said of files of `import` without an address, or with an image in the place of one.
OVER_ITS_CODE = b"error: import needs CODE@ADDRESS .., CODE --at ADDRESS, or an ELF file, and an IMAGE\n"


def complete(names, what):
    """Stops where a command of the manual is not among these names, or one of them is none."""
    amiss = COMMANDS.symmetric_difference(names)
    if amiss:
        raise SystemExit(f"{what}: {sorted(amiss)}, by the table of commands in docs/MANUAL.md")


def section(text, title):
    """The text under a heading of the manual, up to the next of its kind or a higher one."""
    found = re.search(rf"^(#+) {re.escape(title)}\n(.*?)(?=^#{{1,9}} )", text + "\n# ", re.M | re.S)
    marks = "#" * len(found[1])
    start = found.start(2)
    end = re.search(rf"^#{{1,{len(marks)}}} ", text[start:] + "\n# ", re.M)
    return text[start : start + end.start()]


def refusals(text):
    """The refusals of each section of REFUSALS.md, by name, each with what may follow it."""
    tables = {}
    for part in re.split(r"^## ", text, flags=re.M)[1:]:
        title, _, body = part.partition("\n")
        names = {}
        for cell in re.findall(r"^\| (`[^|]*) \|", body, re.M):
            for name, place in re.findall(r"`(\w+)(?: at (line N|A))?`", cell):
                place = "line N" if title in (SOURCES, DIALECT) else place
                names[name] = {"": "", "A": r" at [0-9A-F]+", "line N": r" at line [1-9]\d*"}[place]
        tables[title] = names
    return tables


MANUAL = (TOP / "docs/MANUAL.md").read_text()
# The commands of its table. The refusals of each are known, and each is tried.
COMMANDS = set(re.findall(r"^\| `arcwcet (\w+) ", MANUAL, re.M))
REFUSALS = refusals((TOP / "docs/REFUSALS.md").read_text())
OBJECTIONS = re.findall(r"^\| `(\w+)` \|", section(MANUAL, "Certificates"), re.M)
# The bounds of the sample handlers.
SAMPLES = {name: int(it) for name, it in re.findall(r"^\| `(\w+)` \| (\d+) \|", MANUAL, re.M)}
# The machine file with every key.
ALL_KEYS = re.search(r"^```toml file=all_keys.toml\n(.*?)^```$", MANUAL, re.M | re.S)[1].encode()
complete(MET_BY, "hostile/manual.py, MET_BY")


def refusal(outcome):
    """The name of the refusal on standard error, and what follows it, or None."""
    found = re.fullmatch(rb"refused: (\w+)((?: at [\w ]+)?)\n", outcome.err)
    return (found[1].decode(), found[2].decode()) if found else None


def sections_of(outcome):
    """The sections that have the refusal on standard error."""
    found = refusal(outcome)
    if not found:
        return set()
    name, place = found
    return {title for title, it in REFUSALS.items() if name in it and re.fullmatch(it[name], place)}


def ended_early(outcome):
    """Whether an answer with status 1 and no refusal is the verdict No, the table of a bound or a response
    that is more than it may be, entries of which not all follow, a handler that never ends for visits, a
    run that does not keep its statement, or a machine that stopped."""
    verdict = re.fullmatch(rb"no: (\w+)\n", outcome.out)
    if verdict:
        return verdict[1].decode() in OBJECTIONS
    if re.search(rb"^bound \d+ ticks, .*\n\Z|^\d+ of \d+ entries follow, ", outcome.out, re.M):
        return True
    if re.search(rb"^within \d+ ticks: missed.*\n\Z|^it never ends\n", outcome.out, re.M):
        return True
    if re.fullmatch(rb"step \d+, [0-9A-F]+(, line \d+)?: .+\n|never at the entry, .+\n", outcome.out):
        return True
    if re.search(rb'^\{"steps":.*"stopped":"\w+","next":"[0-9A-F]{8}"\}\n\Z', outcome.out, re.M):
        return True
    return re.search(rb"^stopped \w+ at [0-9A-F]+\nticks \d+ elapsed \d+\n\Z", outcome.out, re.M) is not None


def fault_of(command, outcome):
    """What the manual does not allow in an answer, or None. Both outputs were read."""
    if outcome.status not in range(5):
        return str(outcome)
    if outcome.status == 0:
        return f"status 0 and standard error {shown(outcome.err)}" if outcome.err else None
    if outcome.status == 1 and not outcome.err:
        may_end_so = command in ("check", "explain", "follow", "justify", "respond", "run", "trace", "visits")
        return None if may_end_so and ended_early(outcome) else str(outcome)
    if outcome.status == 2:
        return None if outcome.err and not outcome.out else str(outcome)
    met = sections_of(outcome) & set(MET_BY.get(command, ()))
    if outcome.out or not met:
        return f"no answer of the manual: {outcome}"
    name = refusal(outcome)[0]
    return None if outcome.status == STATUSES.get(name, 1) else f"{name} with status {outcome.status}"


class Allowed:
    """Any answer that the manual allows to a command, or one of these refusals where some are named."""

    def __init__(self, command, *names):
        self.command, self.names = command, names

    def __call__(self, outcome, folder):
        fault = fault_of(self.command, outcome)
        if fault or not self.names:
            return fault
        found = refusal(outcome)
        is_named = found and found[0] in self.names
        return None if is_named else f"not refused as {' or '.join(self.names)}: {outcome}"


class Is:
    """This answer and no other."""

    def __init__(self, status, out=b"", err=b""):
        self.wanted = (status, out, err)

    def __call__(self, outcome, folder):
        if (outcome.status, outcome.out, outcome.err) == self.wanted:
            return None
        status, out, err = self.wanted
        return f"{outcome}; not status {status}, {shown(out)}, {shown(err)}"


class Usage:
    """Wrong words: status 2, and something on standard error alone."""

    def __call__(self, outcome, folder):
        return None if outcome.status == 2 and outcome.err and not outcome.out else str(outcome)


def refused(name, place=""):
    """The refusal with this name, and what follows it."""
    return Is(STATUSES.get(name, 1), err=f"refused: {name}{place}\n".encode())
