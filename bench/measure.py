"""What the scripts of this folder share: sources of a size, programs that are built, what a run of them takes, and tables."""
import os
import resource
import subprocess
import time
from typing import NamedTuple

TOP = os.path.dirname(os.path.dirname(os.path.abspath(__file__)))
MIB = 1 << 20
# The most bytes that a source may have, and the most levels of its tree.
LONGEST = MIB
HEIGHT = 128


def again(before, unit, after, size):
    """A text of so many bytes of UTF-8: a unit again and again between two others, and spaces."""
    left = size - len((before + after).encode())
    text = before + unit * (left // len(unit.encode())) + after
    return text + " " * (size - len(text.encode()))


def numbered(before, after, size):
    """A text of so many bytes: pieces with a number of six digits between two texts, and spaces."""
    times = size // (len(before) + 6 + len(after))
    text = "".join(f"{before}{number:06}{after}" for number in range(times))
    return text + " " * (size - len(text))


# The highest blocks and chains: an expression statement is two levels, and a chain is one more than its operators.
BLOCKS = "{" * (HEIGHT - 2) + "a;" + "}" * (HEIGHT - 2)
CHAIN = "a" + "+a" * (HEIGHT - 2) + ";"

# Sources of the whole grammar, of a size.
SHAPES = {
    "flat statements `a;`": lambda size: again("", "a;", "", size),
    "nested blocks, 126 inside each other, in a row": lambda size: again("", BLOCKS, "", size),
    "chains of 126 operators, the longest, in a row": lambda size: again("", CHAIN, "", size),
    "array: one, of names": lambda size: again("x=[", "a,", "];", size),
    "object: one, of keys with values": lambda size: again("x={", "a:b,", "};", size),
    "calls with 1,000 arguments": lambda size: again("", "f(" + "a," * 1000 + ");", "", size),
    "templates: one, of `${a}b`": lambda size: again("`", "${a}b", "`;", size),
    "functions `function f(a,b=1){return c=>a+c}`": lambda size: again("", "function f(a,b=1){return c=>a+c}", "", size),
}


def write(path, text):
    """Puts a text, with its line ends as they are."""
    with open(path, "w", newline="", encoding="utf-8") as file:
        file.write(text)
    return path


def program_of(given, folder):
    """The path of the program `cov`: the one that was given, or where that is empty the one that the launcher builds."""
    if given:
        return os.path.abspath(given)
    write(f"{folder}/empty.js", "")
    subprocess.run([f"{TOP}/cov", "maps", "empty.js"], cwd=folder, stdout=subprocess.DEVNULL, check=True)
    return f"{TOP}/built/cov"


def built(name, source, stands_on, folder):
    """The path of a program over crates of the repository, proved and built in a copy of it."""
    subprocess.run(["git", "clone", "--quiet", TOP, f"{folder}/copy"], check=True)
    crate = f"{folder}/copy/crates/{name}"
    os.makedirs(f"{crate}/src")
    write(f"{crate}/src/main.rt", source)
    with open(f"{folder}/copy/crates.txt", "a", encoding="utf-8") as file:
        file.write(f"{name}: {stands_on}\n")
    subprocess.run(["rt", "fmt"], cwd=crate, check=True, stdout=subprocess.DEVNULL)
    # It is run without words, and may end as it likes.
    subprocess.run(["rt", "run"], cwd=crate, stdout=subprocess.DEVNULL, stderr=subprocess.DEVNULL)
    return f"{crate}/out/{name}"


class Run(NamedTuple):
    """One run: its status, its seconds and those of the processor, and what it said on standard error."""
    status: int
    seconds: float
    used: float
    said: str


def run(words, folder, stack=None, environment=None):
    """One run in a folder, with a stack of so many bytes where that is given."""
    limit = (lambda: resource.setrlimit(resource.RLIMIT_STACK, (stack, stack))) if stack else None
    with open(f"{folder}/out", "w") as out, open(f"{folder}/said", "w") as said:
        before = time.monotonic()
        process = subprocess.Popen(words, cwd=folder, stdout=out, stderr=said, preexec_fn=limit, env=environment)
        _, status, used = os.wait4(process.pid, 0)
        seconds = time.monotonic() - before
        process.returncode = os.waitstatus_to_exitcode(status)
    with open(f"{folder}/said", errors="replace") as said:
        return Run(process.returncode, seconds, used.ru_utime + used.ru_stime, said.read().strip())


def used_by(words, folder, stack=None, environment=None):
    """The processor's seconds of one run, which has to end with status 0."""
    told = run(words, folder, stack, environment)
    if told.status != 0:
        raise SystemExit(f"{' '.join(words[:4])}: status {told.status}: {told.said}")
    return told.used


def mib_of(words, folder):
    """The most MiB that one run holds. A small process starts it, since what starts a program counts as its own."""
    subprocess.run(["/usr/bin/time", "-q", "-o", "kib", "-f", "%M", *words], cwd=folder, stdout=subprocess.DEVNULL, stderr=subprocess.DEVNULL)
    with open(f"{folder}/kib") as told:
        return int(told.read()) / 1024


def least(runs, count):
    """Of so many rounds of runs the least of each. They take turns, so that a machine that slows down does so for all of them."""
    rounds = [[once() for once in runs] for _ in range(count)]
    return [min(told) for told in zip(*rounds)]


def ratios(told):
    """How each of some measures stands to the one before."""
    return [more / max(less, 0.0001) for less, more in zip(told, told[1:])]


def row(*cells):
    """Prints a row of a table."""
    print("| " + " | ".join(cells) + " |", flush=True)


def heading(*cells):
    """Prints the head of a table."""
    row(*cells)
    print("|" + "---|" * len(cells), flush=True)
