#!/usr/bin/env python3
"""run.py [--passes N] [--record]: the side-by-side measurement, as one table of ratios. `make bench` runs it.
run.py --smoke: every program once on few messages, no times; the last line is 'N passed, M failed'.

The inputs are made by messages.py, the C programs are measured by measure.c, Python's here; the passes of both take turns
(three of C, one of Python) and the best one counts. All times are CPU time. Everything is written below build/bench/; with --record the tables also go
into README.md, under the machine's kind, and the plots beside it.
"""
import argparse
import ctypes
import datetime
import email
import email.parser
import email.policy
import email.utils
import os
import platform
import re
import shutil
import subprocess
import sys
import time
from pathlib import Path

BENCH = Path(__file__).resolve().parent
ROOT = BENCH.parent
BUILD = ROOT / "build" / "bench"
RECEIPT = 1_700_000_000
SIZES = [1, 16, 64, 256]
# The calls with 100 recipients: those for an advice, and the one that only reads a list with a fault.
QUICK = {
    **{f"{call}-{where}": f"{call}, 100 recipients, {words}"
       for where, words in (("at-1", "first disable at place 1"), ("at-50", "first disable at place 50"),
                            ("nowhere", "no disable"), ("refused", "a fault at the end"))
       for call in ("quick", "recommend")},
    "target-refused": "target key, 100 recipients, a fault at the end",
}
CALLS = {
    "key": "process, with a key",
    "keyless": "process, without a key",
    "gossip": "process, with a key and 1 to 20 gossip fields",
    "unasked": "process, with a key; 20 gossip fields, not asked for",
    "unasked-bare": "process, the same mails without their payload",
    "recommend-1": "recommend, 1 recipient",
    "recommend-20": "recommend, 20 recipients",
    **QUICK,
    "check": "check of the whole table",
    "check-accents": "check of the same with accents in each address",
    "check-cyrillic": "check of the same with Cyrillic addresses",
    "convert": "convert, nothing to do",
    "convert-accents": "convert, nothing to do, accents in each address",
    "convert-cyrillic": "convert, nothing to do, Cyrillic addresses",
    "convert-old": "convert, half with capitals, 32 of them merged",
    "convert-last": "convert, ASCII but for a capital in the last slot",
    "write": "write a field",
    "lint": "lint, with a key and 1 to 20 gossip fields",
    "lint-faulty": "lint, the same mails with two faults each",
}
GROWTHS = {
    "grow-block": ("octets of the block, without a key, 16 used slots", "octet"),
    "grow-block-key": ("octets of the block, with a key, 16 used slots", "octet"),
    "grow-slots": ("used slots, process with a key", "slot"),
    "grow-check": ("used slots, check of the whole table", "slot"),
    "grow-gossip": ("gossip fields of three octets of key, 15 recipients, 16 used slots", "field"),
    "grow-recipients": ("recipients, 256 used slots", "recipient"),
    "grow-quick": ("the place of the first disable among 100 recipients, 256 used slots", "place"),
}
HOSTILE = {
    "hostile-listed": "10,000 recipients in 60 KB, 64 KB of gossip about the last 255 of them",
    "hostile-unlisted": "the same with gossip about nobody of the list",
    "hostile-newcomers": "the same with more newcomers than free slots",
    "hostile-tags": "2,047 recipients of one tag, 64 KB of gossip about another address of that tag",
    "hostile-coded-tags": "the same with domains that have to be coded, `@é`",
    "hostile-scripts": "10,000 recipients such as `aa@é`, 64 KB of gossip about the last 255 of them",
    "hostile-labels": "700 recipients with a label of 41 different letters, 64 KB of gossip about the last 255 of them",
    "hostile-addresses": "check of 256 addresses of 254 octets that differ at their end",
    "hostile-ascii": "check of 256 addresses with local parts of 64 octets, all ASCII",
    "hostile-letters": "the same with local parts of 64 octets, none ASCII",
    "hostile-spellings": "convert of 256 spellings of one address, each younger than those below it",
}
NAMES = {"ours": "ours", "peer": "C peer", "peer3": "C peer, -O3", "gmime": "GMime", "read": "plain read", "memcpy": "memcpy"}

COLOURS = {"ours": "#9400d3", "peer": "#009e73", "gmime": "#e69f00", "read": "#56b4e9"}

Times = dict[tuple[str, str], float]


class Case:
    """A line of cases.tsv."""

    def __init__(self, line: str):
        self.name, self.call, self.programs, self.group, number, used, octets = line.split("\t")
        self.number, self.used, self.octets = int(number), int(used), int(octets)


def read_cases(data: Path) -> list[Case]:
    return [Case(line) for line in (data / "cases.tsv").read_text().splitlines()]


def read_case(path: Path) -> tuple[bytes, list[tuple[bytes, bytes]]]:
    """The table and the calls of a case."""
    octets, at = path.read_bytes(), 0

    def number() -> int:
        nonlocal at
        at += 4
        return int.from_bytes(octets[at - 4:at], "little")

    def text() -> bytes:
        nonlocal at
        length = number()
        at += length
        return octets[at - length:at]

    table = text()
    return table, [(text(), text()) for _ in range(number())]


# Programs in Python.

def read_by_email_compat(block: bytes) -> tuple:
    """Python's mail package in its quick, older form."""
    message = email.parser.BytesHeaderParser(policy=email.policy.compat32).parsebytes(block)
    return message["Autocrypt"], email.utils.parsedate_to_datetime(message["Date"]), email.utils.parseaddr(message["From"])


def read_by_email(block: bytes) -> tuple:
    """The same in the form that its documentation recommends for new programs."""
    message = email.parser.BytesHeaderParser(policy=email.policy.default).parsebytes(block)
    return message["Autocrypt"], message["Date"].datetime, message["From"].addresses


def import_ours():
    """Our package, from a copy of its sources with the built library in it; None, and a line why, where it is not there."""
    source, library = ROOT / "python" / "src" / "vienghulac", ROOT / "build" / "libvienghulac.so"
    if not source.is_dir():
        print("Python: no package in python/src, its rows are left out", file=sys.stderr)
        return None
    copy = BUILD / "python" / "vienghulac"
    shutil.rmtree(copy, ignore_errors=True)
    shutil.copytree(source, copy)
    shutil.copy(library, copy)
    sys.path.insert(0, str(copy.parent))
    try:
        import vienghulac
        return vienghulac
    except Exception as problem:
        print(f"Python: the package does not import ({problem}), its rows are left out", file=sys.stderr)
        return None


def python_rounds(data: Path) -> dict[tuple[str, str], tuple]:
    """For each row one round, a function without arguments, and how many calls it makes."""
    rounds = {}
    ours = import_ours()
    for used in SIZES:
        name = f"key.{used}"
        octets, calls = read_case(data / name)
        blocks = [outer for outer, _ in calls]

        def by_email(read, blocks=blocks):
            for block in blocks:
                read(block)

        rounds[name, "email"] = lambda by_email=by_email: by_email(read_by_email), len(blocks)
        rounds[name, "email-compat"] = lambda by_email=by_email: by_email(read_by_email_compat), len(blocks)
        if ours is not None:
            def by_ours(table=ours.Table(octets), blocks=blocks):
                for block in blocks:
                    ours.process(table, RECEIPT, block)

            rounds[name, "ours-python"] = by_ours, len(blocks)
    return rounds


def python_pass(rounds: dict[tuple[str, str], tuple]) -> Times:
    times = {}
    for row, (run, calls) in rounds.items():
        run()
        repeats, took = 1, 0
        while took < 20_000_000:
            began = time.process_time_ns()
            for _ in range(repeats):
                run()
            took = time.process_time_ns() - began
            times[row] = took / repeats / calls
            repeats *= 2
    return times


# Runs.

def prepare(data: Path, few: bool) -> None:
    shutil.rmtree(data, ignore_errors=True)
    subprocess.run([BENCH / "build", "peer", "measure"], check=True)
    subprocess.run([sys.executable, BENCH / "messages.py", data] + (["--few"] if few else []), check=True)


def measure(data: Path, passes: int) -> Times:
    best: Times = {}
    rounds = python_rounds(data)

    def keep(row: tuple[str, str], took: float) -> None:
        best[row] = min(took, best.get(row, took))

    for turn in range(passes // 3):
        found = subprocess.run([BUILD / "measure", data, "3"], check=True, cwd=ROOT, text=True, stdout=subprocess.PIPE,
                               stderr=None if turn == 0 else subprocess.DEVNULL)
        for line in found.stdout.splitlines():
            name, program, took = line.split("\t")
            keep((name, program), float(took))
        for row, took in python_pass(rounds).items():
            keep(row, took)
    return best


def count_instructions(data: Path) -> Times:
    """Instructions a call, by callgrind; nothing where it is missing or does not run."""
    if shutil.which("valgrind") is None:
        print("valgrind: not there, the instruction counts are left out", file=sys.stderr)
        return {}
    folder = BUILD / "callgrind"
    shutil.rmtree(folder, ignore_errors=True)
    folder.mkdir(parents=True)
    words = ["valgrind", "--tool=callgrind", f"--callgrind-out-file={folder}/out", "--collect-atstart=no",
             BUILD / "measure", data, "--count"]
    found = subprocess.run(words, cwd=ROOT, text=True, stdout=subprocess.PIPE, stderr=subprocess.DEVNULL)
    if found.returncode != 0:
        print("valgrind: it did not run to its end, the instruction counts are left out", file=sys.stderr)
        return {}
    counts = {}
    for place, line in enumerate(found.stdout.splitlines(), 1):
        name, program, calls = line.split("\t")
        dump = folder / f"out.{place}"
        total = re.search(r"^totals: (\d+)", dump.read_text(), re.MULTILINE) if dump.exists() else None
        if total is None:
            print("valgrind: it left no count for each case, the instruction counts are left out", file=sys.stderr)
            return {}
        counts[name, program] = int(total.group(1)) / int(calls)
    return counts


# Presentation.

MISSING = "-"


def short(value: float | None, digits: int = 3) -> str:
    """With so many digits that matter."""
    if value is None:
        return MISSING
    if value >= 10 ** (digits - 1):
        return f"{value:,.0f}"
    whole = len(str(int(value))) if value >= 1 else 1
    return f"{value:.{max(digits - whole, 0)}f}"


def ratio(above: float | None, below: float | None) -> float | None:
    return above / below if above is not None and below else None


def micro(nanoseconds: float | None) -> float | None:
    return None if nanoseconds is None else nanoseconds / 1000


def markdown(head: list[str], rows: list[list[str]]) -> str:
    widths = [max(len(row[i]) for row in [head] + rows) for i in range(len(head))]

    def line(row: list[str]) -> str:
        cells = [cell.ljust(width) if i == 0 else cell.rjust(width) for i, (cell, width) in enumerate(zip(row, widths))]
        return "| " + " | ".join(cells) + " |"

    rule = "|" + "|".join("-" * (width + 1) + ("-" if i == 0 else ":") for i, width in enumerate(widths)) + "|"
    return "\n".join([line(head), rule] + [line(row) for row in rows])


def main_table(cases: list[Case], times: Times, counts: Times) -> str:
    head = ["µs a call", "slots", "octets", "ours", "C -O2", "C -O3", "GMime", "memcpy, read", "ours / C", "GMime / ours",
            "ours / limit", "ours, calls/s", "instructions, ours", "C -O2", "ours / C "]
    rows = []
    for group, words in CALLS.items():
        for case in cases:
            if case.group != group:
                continue

            def took(program: str) -> float | None:
                return times.get((case.name, program))

            def counted(program: str) -> float | None:
                return counts.get((case.name, program))

            ours, peer = took("ours"), took("peer")
            limit = took("read") if took("read") is not None else took("memcpy")
            rows.append([words, str(case.used) if case.used else "none", str(case.octets) if case.octets else MISSING]
                        + [short(micro(value)) for value in (ours, peer, took("peer3"), took("gmime"), limit)]
                        + [short(ratio(ours, peer)), short(ratio(took("gmime"), ours)), short(ratio(ours, limit))]
                        + [short(ratio(1e9, ours)), short(counted("ours")), short(counted("peer"))]
                        + [short(ratio(counted("ours"), counted("peer")))])
    return markdown(head, rows)


def python_table(times: Times) -> str:
    head = ["µs a call", "slots", "ours through Python", "ours through C", "email, compat32", "email, default policy",
            "email compat32 / ours", "email default / ours"]
    rows = []
    for used in SIZES:
        name = f"key.{used}"
        ours, compat, default = (times.get((name, program)) for program in ("ours-python", "email-compat", "email"))
        rows.append([CALLS["key"], str(used)] + [short(micro(value)) for value in (ours, times.get((name, "ours")), compat, default)]
                    + [short(ratio(compat, ours)), short(ratio(default, ours))])
    return markdown(head, rows)


def above_check(counts: Times, group: str, program: str) -> float | None:
    """The instructions of a row of 256 slots, without those of the check of its table."""
    whole, check = counts.get((f"{group}.256", program)), counts.get(("check.256", program))
    return None if whole is None or check is None else whole - check


def quick_table(counts: Times) -> str:
    """100 recipients on 256 slots, without what each call pays before it reads the list."""
    rows = []
    for group, words in QUICK.items():
        ours, peer = (above_check(counts, group, program) for program in ("ours", "peer"))
        rows.append([words, short(ours), short(peer), short(ratio(ours, peer))])
    return markdown(["instructions above the check", "ours", "C -O2", "ours / C"], rows)


def targets(times: Times, counts: Times) -> str:
    """What is aimed at, beside what was measured."""
    rows: list[list[str]] = []

    def aim(words: str, used: int, value: float | None, limit: float, most: bool) -> None:
        wanted = f"{'at most' if most else 'at least'} {limit:g}"
        met = None if value is None else value <= limit if most else value >= limit
        rows.append([words, str(used), wanted, short(value), "not measured" if met is None else "met" if met else "missed"])

    def between(name: str, above: str, below: str) -> float | None:
        return ratio(times.get((name, above)), times.get((name, below)))

    def ours_between(found: Times, above: str, below: str) -> float | None:
        return ratio(found.get((above, "ours")), found.get((below, "ours")))

    def aim_at_both(words: str, used: int, above: str, below: str, limit: float) -> None:
        for unit, found in (("time", times), ("instructions", counts)):
            aim(words.format(unit), used, ours_between(found, above, below), limit, True)

    aim("process with a key: ours / C peer", 64, between("key.64", "ours", "peer"), 1.5, True)
    aim("process with a key: GMime's parse / ours", 64, between("key.64", "gmime", "ours"), 10, False)
    aim("process with a key: GMime's parse / ours", 256, between("key.256", "gmime", "ours"), 1, False)
    for used in SIZES:
        aim("check of the whole table: ours / plain read", used, between(f"check.{used}", "ours", "read"), 2, True)
    for used in SIZES:
        aim("recommend, 20 recipients: ours / C peer", used, between(f"recommend-20.{used}", "ours", "peer"), 2, True)
    for form, program in (("compat32, its quicker form", "email-compat"), ("its recommended policy", "email")):
        aim(f"process with a key: `email` ({form}) / ours through Python", 16, between("key.16", program, "ours-python"), 20, False)
    for used in SIZES:
        aim("gossip not asked for: instructions / those without a payload", used,
            ours_between(counts, f"unasked.{used}", f"unasked-bare.{used}"), 1.02, True)
    for name, words in (("accents", "addresses with accents"), ("cyrillic", "Cyrillic addresses")):
        aim_at_both(f"check, {words}: {{}} / of ASCII ones", 256, f"check-{name}.256", "check.256", 2)
    for used in SIZES:
        aim_at_both("convert, nothing to do: {} / of check", used, f"convert.{used}", f"check.{used}", 1.1)
    for name, words in (("accents", "addresses with accents"), ("cyrillic", "Cyrillic addresses")):
        aim_at_both(f"convert, nothing to do, {words}: {{}} / of check", 256, f"convert-{name}.256", f"check-{name}.256", 1.1)
    for words, above, below, limit in (("first disable at place 1: {} / of reading the list", "quick-at-1", "target-refused", 1.1),
                                       ("no disable: {} / of recommend", "quick-nowhere", "recommend-nowhere", 1.02)):
        aim("quick, " + words.format("instructions above the check"), 256,
            ratio(above_check(counts, above, "ours"), above_check(counts, below, "ours")), limit, True)
    for words, name in (("no fault", "lint"), ("two faults", "lint-faulty")):
        aim_at_both(f"lint, with a key and gossip, {words}: {{}} / of process", 1, f"{name}.1", "gossip.1", 1.5)
    return markdown(["target", "slots", "wanted", "measured", ""], rows)


def fit(points: list[tuple[float, float]]) -> tuple[float, float]:
    """Slope and start of the straight line nearest to the points."""
    n = len(points)
    mean_x, mean_y = sum(x for x, _ in points) / n, sum(y for _, y in points) / n
    slope = sum((x - mean_x) * (y - mean_y) for x, y in points) / sum((x - mean_x) ** 2 for x, _ in points)
    return slope, mean_y - slope * mean_x


def slope_in_words(points: list[tuple[float, float]], unit: str) -> str:
    """Start and slope of a straight line; both slopes where the upper half is steeper by more than a half (a square would
    make it three times as steep)."""
    half = min(range(1, len(points) - 1), key=lambda i: abs(points[i][0] - points[-1][0] / 2))
    (lower, _), (upper, _) = fit(points[:half + 1]), fit(points[half:])
    if upper > lower * 3 / 2:
        return (f"bent, {short(lower)} ns each {unit} up to {points[half][0]:,.0f} and {short(upper)} ns above"
                f" ({short(points[-1][1] / 1000)} µs at {points[-1][0]:,.0f})")
    slope, start = fit(points)
    return f"straight, {short(max(start, 0) / 1000)} µs + {short(slope)} ns each {unit}"


def growth(cases: list[Case], times: Times) -> tuple[str, dict[str, dict[str, list[tuple[float, float]]]]]:
    """A sentence on each slope, and the points of the plots."""
    sentences, plots = [], {}
    for group, (words, unit) in GROWTHS.items():
        plots[group] = {}
        parts = []
        for program in ("ours", "peer", "gmime", "read"):
            points = sorted((float(case.octets if unit == "octet" else case.number), times[case.name, program])
                            for case in cases if case.group == group and (case.name, program) in times)
            if points:
                plots[group][program] = points
            if not points:
                if program == "ours":
                    parts.append("ours not measured")
            elif program == "gmime" and unit == "slot":
                parts.append(f"GMime keeps no table, {short(min(took for _, took in points) / 1000)} µs")
            else:
                parts.append(f"{NAMES[program]} {slope_in_words(points, unit)}")
        sentences.append(f"- Cost against {words}: " + "; ".join(parts) + ".")
    for group, words in HOSTILE.items():
        for case in cases:
            if case.group == group:
                parts = [f"{NAMES[program]} {short(micro(times[case.name, program]))} µs"
                         for program in ("ours", "peer", "read") if (case.name, program) in times]
                if (case.name, "ours") not in times:
                    parts.insert(0, "ours not measured")
                sentences.append(f"- Hostile: {words}, {case.used} used slots: " + "; ".join(parts) + ".")
    return "\n".join(sentences), plots


def plot(plots: dict[str, dict[str, list[tuple[float, float]]]]) -> list[Path]:
    if shutil.which("gnuplot") is None:
        print("gnuplot: not there, no plots are made", file=sys.stderr)
        return []
    made = []
    for group, series in plots.items():
        if not series:
            continue
        picture = BUILD / f"{group}.png"
        lines = []
        for program, points in series.items():
            file = BUILD / f"{group}.{program}.dat"
            file.write_text("".join(f"{x} {y / 1000}\n" for x, y in points))
            lines.append(f"'{file}' using 1:2 with linespoints linewidth 2 linecolor '{COLOURS[program]}' title '{NAMES[program]}'")
        script = (f"set terminal png size 800,500\nset output '{picture}'\nset key below\nset grid\nset xrange [0:*]\n"
                  f"set yrange [0:*]\nset xlabel '{GROWTHS[group][0]}'\nset ylabel 'microseconds a call'\nplot "
                  + ", ".join(lines) + "\n")
        subprocess.run(["gnuplot"], input=script, text=True, check=True)
        made.append(picture)
    return made


def processor() -> str:
    """What the processor calls itself; /proc/cpuinfo has no name of it on every machine."""
    told = subprocess.run(["lscpu"], capture_output=True, text=True).stdout if shutil.which("lscpu") else ""
    for text in (Path("/proc/cpuinfo").read_text(), told):
        name = re.search(r"^model name\s*:\s*(.*)", text, re.MULTILINE | re.IGNORECASE)
        if name and name.group(1).strip(" -"):
            return name.group(1)
    return "unknown processor"


def machine() -> str:
    gcc = subprocess.run(["gcc", "-dumpfullversion"], capture_output=True, text=True).stdout.strip()
    gmime = subprocess.run(["pkg-config", "--modversion", "gmime-3.0"], capture_output=True, text=True).stdout.strip() if shutil.which("pkg-config") else ""
    load = os.getloadavg()[0]
    return (f"{datetime.date.today()}, {platform.machine()}, {processor()}, {os.cpu_count()} cores,"
            f" load {load:.1f}; gcc {gcc}, GMime {gmime or 'not there'}, Python {platform.python_version()}")


def recorded(readme: str, kind: str, run: str) -> str:
    """The README with this run as the last one of its kind of machine; the other kind's stays."""
    opening, end = f"<!-- last run: {kind} -->\n", f"<!-- end of the last run: {kind} -->\n"
    before, found, rest = readme.partition(opening)
    after = rest.partition(end)[2] if found else ""
    if not found:
        before = before.rstrip("\n") + f"\n\n### {kind}\n\n"
    return before + opening + run + "\n" + end + after


def report(data: Path, passes: int, record: bool) -> None:
    prepare(data, few=False)
    cases = read_cases(data)
    times = measure(data, passes)
    counts = count_instructions(data)
    sentences, plots = growth(cases, times)
    pictures = plot(plots)
    head = f"Measured: {machine()}; best of {passes} interleaved passes; CPU time."
    missing = [] if ("key.64", "ours") in times else [
        "**To be filled by a run with the finished library: rows of ours with `-` were not there when this was measured.**"]
    text = "\n\n".join([head] + missing + [main_table(cases, times, counts), python_table(times), quick_table(counts),
                                             targets(times, counts), sentences])
    (BUILD / "table.md").write_text(text + "\n")
    print(text)
    if record:
        readme, kind = BENCH / "README.md", platform.machine()
        images = "\n".join(f"![{GROWTHS[picture.stem][0]}]({kind}-{picture.name})" for picture in pictures)
        readme.write_text(recorded(readme.read_text(), kind, text + "\n\n" + images))
        for picture in pictures:
            shutil.copy(picture, BENCH / f"{kind}-{picture.name}")


# The smoke run.

def smoke(data: Path) -> int:
    passed = failed = 0

    def expect(right: bool, words: str) -> None:
        nonlocal passed, failed
        passed, failed = passed + right, failed + (not right)
        if not right:
            print(f"failed: {words}")

    prepare(data, few=True)
    found = subprocess.run([BUILD / "measure", data, "--smoke"], cwd=ROOT, text=True, stdout=subprocess.PIPE)
    print(found.stdout, end="")
    sums = re.search(r"(\d+) passed, (\d+) failed\s*$", found.stdout)
    if sums:
        passed, failed = int(sums.group(1)), int(sums.group(2))
    expect(found.returncode == 0 and sums is not None, f"measure ended with status {found.returncode}")
    # What the header declares the library has, so that no row of a finished call is left out unseen.
    library = ctypes.CDLL(str(ROOT / "build" / "libvienghulac.so"))
    for name in re.findall(r"\b(vienghulac_\w+)\(", (ROOT / "include" / "vienghulac.h").read_text()):
        expect(hasattr(library, name), f"the library has no {name}")
    for row, (run, _) in python_rounds(data).items():
        try:
            run()
            expect(True, "")
        except Exception as problem:
            expect(False, f"{row}: {problem!r}")
    print(f"{passed} passed, {failed} failed")
    return 0 if failed == 0 and passed > 0 else 1


def main() -> int:
    words = argparse.ArgumentParser(description="The side-by-side measurement.")
    words.add_argument("--passes", type=int, default=15, help="interleaved passes, of which the best counts; a multiple of 3")
    words.add_argument("--record", action="store_true", help="put tables and plots into bench/")
    words.add_argument("--smoke", action="store_true", help="every program once, no times")
    given = words.parse_args()
    if given.passes < 3 or given.passes % 3 != 0:
        words.error("the passes are a multiple of 3")
    if given.smoke:
        return smoke(BUILD / "smoke")
    report(BUILD / "data", given.passes, given.record)
    return 0


if __name__ == "__main__":
    sys.exit(main())
