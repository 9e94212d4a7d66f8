"""Measures programs that carry out the commands of the benchmark, and prints one table.

    python3 bench/table.py [--small] [--no-instructions] [--no-times] [--only TEXT] NAME=PROGRAM ..

Each row is the difference of two inputs, of which one has more to do: so the start of the process, and what is done
before, drop out. A time is processor time, the least of several rounds in which all programs take turns. The first
program is the one that the others are compared with. Before a row is measured, all its programs have to count the same.
"""
import os
import re
import resource
import signal
import subprocess
import sys

WALKS = ("plir", "MLIR", "arena")
BOTH = ("plir", "MLIR")
NODES_A_FUNCTION = 3
# A run that takes longer of a processor is ended, and so many seconds stand in the table; longer inputs of its row are
# left out.
PATIENCE = 60
# Valgrind takes fifty times as long: instructions are not counted beyond this size, nor of what takes so many seconds.
MOST_COUNTED = 100_000
LONGEST_COUNTED = 2


class Row:
    """What is measured: `more` has `units` more to do than `less`, which is the size of the row unless that is given.
    Bytes are those that it holds beyond `small`, which does the same with next to nothing."""

    def __init__(self, name, programs, less, more, units, size=None, small=None, walked=True):
        self.name, self.programs = name, programs
        self.less, self.more, self.units = less, more, units
        self.size = units if size is None else size
        self.small, self.walked = small, walked


def rows(functions, part):
    """The rows at so many functions; what can be repeated is done again in this part of the rounds that times take."""
    nodes = NODES_A_FUNCTION * (functions + 1)
    build, erase = f"build {functions}", f"erase {functions}"

    def repeated(name, programs, command, units, rounds, before=(build,)):
        more = max(1, int(rounds * part))
        less, longer = [*before, f"{command} 1"], [*before, f"{command} {1 + more}"]
        return Row(name, programs, less, longer, more * units, functions)

    return [
        repeated("walk of all nodes, a node", WALKS, "walk", nodes, 200),
        repeated("mutable walk, a node", ("plir",), "walk-mut", nodes, 200),
        repeated("walk that counts operations, an operation", WALKS, "walk-ops", functions + 1, 200),
        Row("build, a function", BOTH, ["build 1"], [build], functions - 1, small=["build 1"]),
        Row("build bare, an operation", BOTH, ["bare 1"], [f"bare {functions}"], functions - 1, small=["bare 1"]),
        repeated("table, a symbol", BOTH, "table", functions, 20),
        repeated("look-up of a text, a name", BOTH, "look-up", functions, 40),
        repeated("look-up of a name that is made, a name", BOTH, "look-up-made", functions, 40),
        Row("erasure through a table, a symbol", BOTH, [build, "erase 1"], [build, erase], functions - 1),
        repeated("print, a function", BOTH, "print", functions, 10),
        repeated("read, a function", BOTH, "read", functions, 5, before=[build, "print 1"]),
        Row("type asked for again, a type", BOTH, ["types 1000"], [f"types {1000 + 10 * functions}"], 10 * functions,
            functions, walked=False),
        repeated("all uses of a value replaced, a use", BOTH, "replace", functions, 20, before=[f"users {functions}"]),
        repeated("uses of a value listed, a use", BOTH, "uses", functions, 20, before=[f"users {functions}"]),
    ]


# Of each pass: what it does, the module, the command, and how many units a module has for each of its number.
PASSES = (
    ("dead code swept, an operation", "chains", "sweep", 2),
    ("unreached code erased, an operation", "chains", "prune", 2),
    ("unreached code erased over blocks, a block", "blocks", "prune", 1),
    ("constants folded, a sum", "sums", "fold", 1),
    ("values folded, a sum", "zeros", "pass-on", 1),
    ("operations converted, an operation", "references", "convert", 1),
    ("calls of one function inlined, a call", "calls", "inline", 1),
    ("calls of many functions inlined, a call", "callers", "inline", 1),
    ("dead symbols of a chain erased, a symbol", "symbol-chain", "drop-symbols", 1),
    ("dead symbols of a star erased, a symbol", "symbol-star", "drop-symbols", 1),
)

# Modules that a pass makes ten times as large have no rows beyond this size.
GROWING = ("calls", "callers")
MOST_GROWN = 100_000


def series(largest):
    """The rows of one pass, or of lists of erasures, the smallest first."""
    all_sizes = [size for size in (1_000, 10_000, 100_000, 1_000_000) if size <= largest]
    for what, shape, command, units in PASSES:
        sizes = [size for size in all_sizes if shape not in GROWING or size <= MOST_GROWN]
        for suffix in ("", "-against"):
            order = "against" if suffix else "along"
            small = [f"{shape}{suffix} 1", command]
            build = [[f"{shape}{suffix} {size}"] for size in sizes]
            yield [
                Row(f"{what}; {size:,} {order}", BOTH, lines, [*lines, command], units * size, size, small)
                for size, lines in zip(sizes, build)
            ]
    build = [[f"build {size}"] for size in all_sizes]
    yield [
        Row(f"list of erasures, a symbol; {size:,}", BOTH, lines, [*lines, f"erase-list {size}"], size)
        for size, lines in zip(all_sizes, build)
    ]


class Slow(Exception):
    """A program took longer than there is patience for."""


def run(program, lines):
    """Runs a program on these lines: the seconds, the most bytes that it held, and what it wrote. The bytes are those
    of the program alone, read while it waits for its next line."""
    pipes = {"stdin": subprocess.PIPE, "stdout": subprocess.PIPE, "text": True}
    child = subprocess.Popen([program], preexec_fn=lose_patience, **pipes)
    child.stdin.write("".join(line + "\n" for line in lines))
    child.stdin.flush()
    written = [child.stdout.readline() for _ in lines]
    held = peak(child.pid)
    child.stdin.close()
    child.stdout.read()
    _, status, usage = os.wait4(child.pid, 0)
    child.returncode = os.waitstatus_to_exitcode(status)
    if child.returncode == -signal.SIGXCPU:
        raise Slow
    if child.returncode:
        sys.exit(f"{program} ended with {child.returncode} on:\n" + "\n".join(lines))
    return usage.ru_utime + usage.ru_stime, held, "".join(written)


def lose_patience():
    resource.setrlimit(resource.RLIMIT_CPU, (PATIENCE, PATIENCE + 1))


def peak(process):
    with open(f"/proc/{process}/status") as status:
        found = re.search(r"VmHWM:\s+(\d+) kB", status.read())
    return int(found.group(1)) * 1024 if found else 0


def instructions(program, lines):
    command = ["valgrind", "--tool=callgrind", "--callgrind-out-file=/dev/null", program]
    text = "".join(line + "\n" for line in lines)
    told = subprocess.run(command, input=text, capture_output=True, text=True, check=True).stderr
    return int(re.search(r"Collected : (\d+)", told).group(1))


def same_counts(row, programs):
    """Leaves out the programs that are too slow for a row; the others have to write the same."""
    written, slow = {}, []
    for name, program in programs.items():
        try:
            written[name] = run(program, row.more + ["walk"] * row.walked)[2]
        except Slow:
            slow.append(name)
    if len(set(written.values())) > 1:
        sys.exit(f"{row.name}: the programs count otherwise: {written}")
    return {name: program for name, program in programs.items() if name not in slow}


def least(row, programs, rounds):
    """Of each program: nanoseconds and bytes a unit, least over the rounds, in which programs take turns; and the
    seconds of the longer run."""
    seen = {}
    for _ in range(rounds):
        for name, program in programs.items():
            for part, lines in (("small", row.small or row.less), ("less", row.less), ("more", row.more)):
                seconds, held, _ = run(program, lines)
                before = seen.get((name, part), (seconds, held))
                seen[name, part] = (min(before[0], seconds), min(before[1], held))
    times, sizes, spent = {}, {}, {}
    for name in programs:
        spent[name] = seen[name, "more"][0]
        times[name] = (seen[name, "more"][0] - seen[name, "less"][0]) * 1e9 / row.units
        sizes[name] = (seen[name, "more"][1] - seen[name, "small"][1]) / row.units
    return times, sizes, spent


def counted(row, programs):
    return {
        name: (instructions(program, row.more) - instructions(program, row.less)) / row.units
        for name, program in programs.items()
    }


def shown(value):
    """A value; what is lost in the noise of the two runs that it is the difference of has none."""
    return f"{value:,.1f}" if value > 0 else "lost"


def tell(name, unit, values, row, programs):
    """A line of the table: the first program's value, and of each other its value and the first one's as so many times
    it."""
    first = values.get(list(programs)[0], 0)
    cells = []
    for at, other in enumerate(programs):
        value = values.get(other)
        if value is None:
            told = f"over {PATIENCE} s" if other in row.programs and unit == "ns" else ""
        else:
            told = shown(value)
        cells.append(told)
        if at:
            cells.append(f"{first / value:.2f}" if value and min(first, value) > 0 else "")
    print(f"| {name} | {unit} | " + " | ".join(cells) + " |", flush=True)


def head(programs):
    names = list(programs)
    titles = ["what", "in", names[0]]
    for other in names[1:]:
        titles += [other, f"{names[0]} / {other}"]
    print("| " + " | ".join(titles) + " |")
    print("|---|---" + "|---:" * (len(titles) - 2) + "|", flush=True)


def measure(row, short, programs, rounds, counts):
    """Prints the lines of a row; instructions are those of `short`, and with no rounds there are no times. Answers the
    programs that were not too slow."""
    taking = {name: program for name, program in programs.items() if name in row.programs}
    taking = same_counts(row, taking)
    times, sizes, spent = least(row, taking, max(1, rounds))
    if rounds:
        tell(row.name, "ns", times, row, programs)
    if counts and short.size <= MOST_COUNTED:
        quick = {name: program for name, program in taking.items() if short is not row or spent[name] < LONGEST_COUNTED}
        tell(row.name, "instructions", counted(short, quick), row, programs)
    if row.small:
        tell(row.name, "bytes", sizes, row, programs)
    return taking


def main():
    words = sys.argv[1:]
    small, counts = "--small" in words, "--no-instructions" not in words
    only = words.pop(words.index("--only") + 1) if "--only" in words else ""
    programs = dict(word.split("=", 1) for word in words if not word.startswith("--"))
    if not programs:
        sys.exit(__doc__)
    functions, rounds, largest = (10_000, 2, 10_000) if small else (100_000, 5, 1_000_000)
    rounds = 0 if "--no-times" in words else rounds
    head(programs)
    for row, short in zip(rows(functions, 1), rows(functions, 0.02)):
        if only in row.name:
            measure(row, short, programs, rounds, counts)
    for one in series(largest):
        quick = programs
        for row in one:
            if only in row.name:
                quick = measure(row, row, quick, rounds, counts)


main()
