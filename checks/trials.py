"""What the checks share: where it lies what was built, the scripts with their answers, how a program ended, and how trials are counted.
The last line of each check is 'N passed, M failed'; a tool that it lacks it names, with what it leaves out."""

import os
import pathlib
import re
import shutil
import subprocess
import sys
import tempfile
from concurrent.futures import ThreadPoolExecutor

ROOT = pathlib.Path(__file__).resolve().parent.parent
# The program, as the gate, `./obman prove` or OBMAN has it, and the C library, as `make` has it.
PROGRAM = pathlib.Path(os.environ.get("OBMAN", ROOT / "crates" / "obman" / "out" / "obman"))
LIBRARY = ROOT / "build" / "libobman.a"
INCLUDE = ["-I", ROOT / "include"]
# What stands between a host and the library, which has a manager recorded, or begun with pins.
WRAPPED = ["-Wl,--wrap=om_new", "-Wl,--wrap=om_new_with", "-Wl,--wrap=om_free", ROOT / "checks" / "wrapped.c"]
# The worked rows, the examples, and what plays scripts by the calls of Windows, with scripts that show departures from it.
ROWS, EXAMPLES, WINDOWS = ROOT / "crates" / "obman" / "rows", ROOT / "examples", ROOT / "tools" / "windows"
# The options for limits, in the order of om_limits.
LIMITS = ["--slots", "--processes", "--threads", "--handles", "--waits", "--max-pins", "--max-gen", "--max-recursion"]
STRICT = ["-Wall", "-Wextra", "-pedantic", "-Wconversion", "-Werror"]
REFUSALS_MOST = 400
# The milliseconds that what comes about by itself in Windows is given, at first and then.
SETTLES = [50, 400]


class Script:
    """NAME.script, the options for it in NAME.args, where there are some, and its answers, NAME.answers."""

    def __init__(self, path):
        words = path.with_suffix(".args")
        self.path, self.name, self.due = path, path.stem, path.with_suffix(".answers")
        self.options = words.read_text().split() if words.exists() else []
        self.text, self.answers = path.read_bytes(), self.due.read_bytes()


def scripts_in(*folders):
    return [Script(path) for folder in folders for path in sorted(folder.glob("*.script"))]


def recorded(record):
    """The lines that a record asks by, and what it answers: behind each line its answer stands as a comment."""
    lines = record.splitlines(keepends=True)
    return lines[::2], b"".join(line.removeprefix(b"# ") for line in lines[1::2])


def replayed(record):
    """What a record answers whose first line has the options for it, and how the program answers that, where it does so otherwise, or nothing."""
    options, lines = record.split(b"\n", 1)
    answers = recorded(lines)[1]
    return answers, wrong(ended(PROGRAM, *options.decode().split()[2:], seconds=120, input=record), (0, answers, b""))


def first(*names):
    """A tool by the first of its names that is here, or nothing."""
    return next((name for name in names if name and shutil.which(name.split()[0])), None)


# The compilers, each by the words with which its command begins, or nothing.
CC = (first(os.environ.get("CC"), "cc", "gcc", "clang") or "").split()
CXX = (first(os.environ.get("CXX"), "c++", "g++", "clang++") or "").split()
MINGW = (first("x86_64-w64-mingw32-gcc") or "").split()


def ended(*words, seconds=600, **how):
    """How a program ended: its status, what it printed and what it complained of; no status where it doesn't end."""
    streams = {"stdout": subprocess.PIPE, "stderr": subprocess.PIPE, **({} if "input" in how else {"stdin": subprocess.DEVNULL})}
    try:
        run = subprocess.run([word if isinstance(word, bytes) else str(word) for word in words], timeout=seconds, **{**streams, **how})
    except subprocess.TimeoutExpired:
        return None, b"", b"no end"
    return run.returncode, run.stdout or b"", run.stderr or b""


def ran(*words, **how):
    """What a program printed, or nothing where it failed; what it said is then shown."""
    status, printed, said = ended(*words, **how)
    if status == 0:
        return printed
    sys.stdout.write((printed[-1000:] + said[-3000:]).decode(errors="replace"))
    return None


def wrong(found, due):
    """How a run ended, where that isn't as it should, or nothing."""
    return "" if found == due else str(found)


def refusing(folder):
    """The library that refuses a request for memory of the program that it is loaded into, made from refuse.c by the kit's compiler."""
    tools, made = pathlib.Path(ran("rt", "doc").decode().strip()).parent / "toolchain" / "bin", folder / "refuse.so"
    flags = ["-O1", "-fPIC", "-shared", "-nostdlib", "-ffreestanding", f"--ld-path={tools / 'ld.lld'}"]
    subprocess.run([tools / "clang", *flags, "-o", made, ROOT / "checks" / "refuse.c"], check=True)
    return {"PATH": os.environ["PATH"], "LD_PRELOAD": str(made)}


def refusals(environment, run, most=REFUSALS_MOST):
    """How a run ends with the first request for memory refused, then with the second, and so on to the last or so many."""
    for number in range(1, most + 1):
        status, printed, said = run({**environment, "REFUSE": str(number)})
        if b"refused\n" not in said:
            return
        yield number, status, printed, said.replace(b"refused\n", b"")


def copied(room, *left_out, copy=shutil.copy2):
    """Copies what proofs read into a folder: of each crate all but what has some names."""
    for crate in (ROOT / "crates").iterdir():
        shutil.copytree(crate, room / "crates" / crate.name, copy_function=copy, ignore=shutil.ignore_patterns(*left_out))
    for file in ["HANDLES", "crates.txt"]:
        shutil.copy(ROOT / file, room)


def side_by_side(call, *lists):
    with ThreadPoolExecutor(len(os.sched_getaffinity(0))) as pool:
        return [*pool.map(call, *lists)]


class Trials:
    """Counts what passed, and tells what didn't, by the name of the check. It has an empty folder, which goes with it."""

    def __init__(self):
        self.name, self.passed, self.failed, self.room = pathlib.Path(sys.argv[0]).name, 0, 0, tempfile.TemporaryDirectory()
        self.folder = pathlib.Path(self.room.name)

    def count(self, what, is_good, why=""):
        self.passed, self.failed = self.passed + bool(is_good), self.failed + (not is_good)
        print(f"{self.name}, {what}: {'passed' if is_good else 'FAILED'}{'' if is_good or not why else f': {why}'}", flush=True)
        return is_good

    def right(self, what, why):
        """Counts a trial by what is wrong, or nothing."""
        self.count(what, not why, why)

    def each(self, what, trial, items):
        """A trial of each item, side by side, which says what is wrong with it, or nothing."""
        for it, why in zip(items, side_by_side(trial, items)):
            self.right(what.format(it), why)

    def lacks(self, tools, what):
        """Whether something isn't here, by its name, without which something is left out; that is said."""
        if missing := [name for name, found in tools.items() if not found]:
            print(f"{self.name}: no {' and no '.join(missing)} here, so {what}", flush=True)
        return bool(missing)


def compared(script, theirs, ours):
    """The status of tools/windows/compare for a script with the answers of Windows and of obman, and what it says."""
    status, told, fault = ended(WINDOWS / "compare", script, "--windows", theirs, "--ours", ours)
    return status, (told + fault).decode(errors="replace")


class Plays:
    """Wine over an empty Windows of its own, where tools/windows/play.c plays scripts. A context, which says whether both are there."""

    def __init__(self, trials):
        self.trials, self.folder, self.wine = trials, trials.folder, first("wine64", "wine")
        self.environment = {**os.environ, "WINEPREFIX": str(self.folder / "prefix"), "WINEDEBUG": "-all", "WINEDLLOVERRIDES": "mscoree=;mshtml="}
        self.silent = {"env": self.environment, "stdout": subprocess.DEVNULL, "stderr": subprocess.DEVNULL}

    def __enter__(self):
        status, _, said = ended(*MINGW, "-std=c99", "-O1", *STRICT, "-o", self.folder / "play.exe", *sorted(WINDOWS.glob("*.c")))
        is_built = self.trials.count("play.c", status == 0, said.decode())
        return self.trials.count("Wine starts", is_built and ended(self.wine, "wineboot", "-i", seconds=300, **self.silent)[0] == 0)

    def __exit__(self, *fault):
        for word in ["-k", "-w"] if first("wineserver") else []:
            subprocess.run(["wineserver", word], **self.silent)

    def played(self, script, settle):
        """The file with the answers to a script, and what went wrong, twice: a machine at its limits may make no process, or have no thread in time."""
        answers, said = self.folder / f"{script.stem}.played", self.folder / f"{script.stem}.said"
        words = [self.wine, self.folder / "play.exe", "--settle", settle]
        for _ in range(2):
            with open(script, "rb") as given, open(answers, "wb") as out, open(said, "wb") as err:
                status, *_ = ended(*words, env=self.environment, stdin=given, stdout=out, stderr=err)
            if status == 0:
                return answers, ""
        return None, f"play.exe: {status} {said.read_text(errors='replace')}"

    def wrong(self, script, ours, is_good, settles=SETTLES):
        """What is said where the departures that explain other answers to a script aren't as they should be, or nothing; also with more time for
        what comes about by itself."""
        for settle in settles:
            answers, told = self.played(script, settle)
            status, told = compared(script, answers, ours) if answers else (None, told)
            if status in [0, 1] and is_good(set(re.findall(r", \d+ ([a-z-]+)(?=,|$)", told.splitlines()[-1]))):
                return ""
        return told or "none"


def check(trial, kind=Trials):
    trials = kind()
    trial(trials)
    print(f"{trials.passed} passed, {trials.failed} failed")
    sys.exit(trials.failed > 0)
