"""What benchmarks share: how a program through the header, a proved one and one in plain Rust or C are built, and how two run by turns."""

import argparse
import math
import os
import pathlib
import subprocess
import sys

ROOT = pathlib.Path(__file__).resolve().parent.parent
BENCH = ROOT / "bench"
OUT = BENCH / "out"
WIN32 = ROOT / "examples" / "win32"


def proved(name):
    """The program of a crate, proved, unless `./check` or an earlier run left it."""
    subprocess.run([ROOT / "checks" / "prove", name], check=True, stdout=subprocess.DEVNULL)
    return ROOT / "crates" / name / "out" / name


def in_c(name, *files):
    OUT.mkdir(exist_ok=True)
    words = ["-std=c11", "-D_GNU_SOURCE", "-O2", "-march=x86-64-v2", "-pthread", "-I", ROOT / "include", "-I", WIN32, "-o", OUT / name]
    subprocess.run([*os.environ.get("CC", "cc").split(), *words, *files], check=True)
    return OUT / name


def through_header(name, is_unproved=False):
    """The program of bench/NAME.c, through include/obman.h; also over a library that isn't proved."""
    build, library = (["tools/unproved", "--bare"], "libobman_unproved.a") if is_unproved else (["make"], "libobman.a")
    subprocess.run(build, check=True, cwd=ROOT, stdout=sys.stderr)
    return in_c(f"{name}_c", BENCH / f"{name}.c", *(WIN32.glob("*.c") if name == "win32" else []), ROOT / "build" / library)


def peer(name):
    """The program of bench/NAME.rs, in plain Rust, or that of bench/NAME.c over bench/NAME_peer.c."""
    if (BENCH / f"{name}_peer.c").exists():
        return in_c(f"{name}_peer", BENCH / f"{name}.c", BENCH / f"{name}_peer.c")
    OUT.mkdir(exist_ok=True)
    made = OUT / name
    subprocess.run(["rustc", "--edition", "2021", "-O", "-C", "target-cpu=x86-64-v2", "-o", made, BENCH / f"{name}.rs"], check=True)
    return made


def turns(text):
    """How many turns are asked for: one or more."""
    if not text.isdigit() or int(text) == 0:
        raise argparse.ArgumentTypeError("a number of turns from 1 on is wanted")
    return int(text)


def options(usage):
    """What reads the words of a benchmark that runs by turns."""
    parser = argparse.ArgumentParser(usage=usage)
    parser.add_argument("--turns", type=turns, default=6)
    return parser


def compare(name, turns, *runs):
    """Runs ours and the plain one by turns, forwards and backwards, and prints a table of what each case takes at best. A run
    gives its cases, each with nanoseconds a round and its answers, which must be the same for both. What is ours alone has no ratio."""
    best, due = [{}, {}], {}
    for turn in range(turns):
        for run, times in [*zip(runs, best)][:: -1 if turn % 2 else 1]:
            for case, time, answers in run():
                times[case] = min(times.get(case, math.inf), time)
                if due.setdefault(case, answers) != answers:
                    sys.exit(f"{name} {case}: {answers} in one program, {due[case]} in the other")
    ours, plain = best
    if plain.keys() - ours.keys():
        sys.exit(f"{name}: in the plain one alone {sorted(plain.keys() - ours.keys())}")
    print(f"{name:56} {'ours ns':>12} {'plain ns':>12} {'ratio':>6}")
    for case, time in ours.items():
        columns = f"{plain[case]:12.1f} {time / plain[case]:6.2f}" if case in plain else ""
        print(f"{case:56} {time:12.1f} {columns}".rstrip(), flush=True)
