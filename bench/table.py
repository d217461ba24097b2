#!/usr/bin/env python3
"""Finds and inserts a second of the proved shared table, and the ratio of that to other tables under the same calls.

The proved table, `mutex` (a mutex around Rust's HashMap), `elfutils` (the concurrent table that libdw keeps
abbreviations in), `tbb_hash` and `tbb_unordered` (TBB's concurrent_hash_map and concurrent_unordered_map) and `dashmap`
begin small and grow while they are read. Beside them, `full` is a table that is made at its full size: a plain array of
atomic cells in C with the atomic steps of the proved table (its count, and an exchange for the key and one for the
value), and `array` the same with one exchange an insert and no count.

Used by hand, after `rt run` or `rt ci` left crates/table_load/out/table_load (or TABLE_LOAD names it). All programs
take the same words, make the same calls in as many threads, print the same counts, and time their phases by the clock.
An insert's time holds what it helps: the mean is over all inserts, with those that moved the table's cells. A figure is
the best of REPEATS runs, in which the programs take turns. docs/GATE.md keeps the figures.

The tables end with 2^N cells (20, or the first word): three eighths of them are full, behind the move to so many cells,
or three quarters, before the next one. In the row 'inserts beside finds' half of the threads look half of the keys up
while the others insert the rest, and the table grows once more.

What is missing on the machine is left out: ELFUTILS_LIB names the folder lib/ of elfutils' source package; TBB is
Debian's libtbb-dev, dashmap its librust-dashmap-dev (CARGO_REGISTRY, /usr/share/cargo/registry).
"""

import os
import resource
import shutil
import subprocess
import sys
import tempfile

TOP = os.path.dirname(os.path.dirname(os.path.abspath(__file__)))
HERE = os.path.join(TOP, "bench", "table")
TABLE_LOAD = os.environ.get("TABLE_LOAD", os.path.join(TOP, "crates", "table_load", "out", "table_load"))
ELFUTILS_LIB = os.environ.get("ELFUTILS_LIB", "")
CARGO_REGISTRY = os.environ.get("CARGO_REGISTRY", "/usr/share/cargo/registry")
REPEATS = int(os.environ.get("REPEATS", "5"))
THREADS = [int(word) for word in os.environ.get("THREADS", "1 2 4").split()]
C = ["gcc", "-O2", "-w", "-pthread", "-D_GNU_SOURCE"]
CPP = ["g++", "-O2", "-pthread", os.path.join(HERE, "c_map.cpp")]

CARGO = """[package]
name = "rust_map"
version = "0.1.0"
edition = "2021"
[[bin]]
name = "rust_map"
path = "{path}"
[features]
dash = ["dep:dashmap"]
[dependencies]
dashmap = {{ version = "5", optional = true }}
"""
CARGO_CONFIG = """[source.crates-io]
replace-with = "packages"
[source.packages]
directory = "{registry}"
"""


def made(folder, name, *commands):
    """The program that these commands leave, or None. The last one is told where."""
    path = os.path.join(folder, name)
    for command in [*commands[:-1], [*commands[-1], "-o", path]]:
        if shutil.which(command[0]) is None or subprocess.run(command, cwd=folder, check=False).returncode != 0:
            print(f"skipped {name}: {command[0]} doesn't make it on this machine")
            return None
    return path


def made_elfutils(folder):
    """elfutils' table under our calls, where its source is there."""
    if not os.path.exists(os.path.join(ELFUTILS_LIB, "dynamicsizehash_concurrent.c")):
        print("skipped elfutils: ELFUTILS_LIB names no folder with its table")
        return None
    open(os.path.join(folder, "config.h"), "w").close()
    include = ["-I.", f"-I{ELFUTILS_LIB}"]
    return made(folder, "elfutils",
                [*C, *include, "-c", os.path.join(HERE, "elfutils_map.c"), "-o", "elfutils_map.o"],
                [*C, *include, "-c", os.path.join(ELFUTILS_LIB, "next_prime.c"), "-o", "next_prime.o"],
                [*CPP, "-DELFUTILS", "elfutils_map.o", "next_prime.o"])


def made_dashmap(folder):
    """dashmap under our calls, where Debian's package has it."""
    if shutil.which("cargo") is None or not os.path.isdir(CARGO_REGISTRY):
        print("skipped dashmap: no cargo, or no packages for it")
        return None
    project = os.path.join(folder, "dash")
    os.makedirs(os.path.join(project, ".cargo"))
    with open(os.path.join(project, "Cargo.toml"), "w") as out:
        out.write(CARGO.format(path=os.path.join(HERE, "rust_map.rs")))
    with open(os.path.join(project, ".cargo", "config.toml"), "w") as out:
        out.write(CARGO_CONFIG.format(registry=CARGO_REGISTRY))
    words = ["cargo", "build", "--release", "--offline", "--quiet", "--features", "dash"]
    if subprocess.run(words, cwd=project, check=False).returncode != 0:
        print("skipped dashmap: cargo doesn't make it on this machine")
        return None
    return os.path.join(project, "target", "release", "rust_map")


def peers(folder):
    """The other programs that can be made here, each with its name."""
    array = os.path.join(HERE, "array.c")
    all_of_them = [
        ("full", made(folder, "full", [*C, "-DCOUNTED", array])),
        ("array", made(folder, "array", [*C, array])),
        ("mutex", made(folder, "mutex", ["rustc", "-O", "--edition", "2021", os.path.join(HERE, "rust_map.rs")])),
        ("elfutils", made_elfutils(folder)),
        ("tbb_hash", made(folder, "tbb_hash", [*CPP, "-DTBB_HASH", "-ltbb"])),
        ("tbb_unordered", made(folder, "tbb_unordered", [*CPP, "-DTBB_UNORDERED", "-ltbb"])),
        ("dashmap", made_dashmap(folder)),
    ]
    return [(name, path) for name, path in all_of_them if path]


def times(path, words):
    """What one run counts, and its nanoseconds by phase."""
    lines = subprocess.run([path, *map(str, words), "times"], capture_output=True, check=True).stdout.decode().splitlines()
    taken = {line.split()[0]: int(line.split()[1]) for line in lines if line.endswith(" ns")}
    return [line for line in lines if not line.endswith(" ns")], taken


def best(programs, words):
    """The least nanoseconds of each program's phases over so many runs by turns; all must count the same."""
    least = {}
    counts = None
    for _ in range(REPEATS):
        for name, path in programs:
            counted, taken = times(path, words)
            counts = counts or counted
            if counted != counts:
                sys.exit(f"{name} counts {counted} and not {counts} with the words {words}")
            for phase, time in taken.items():
                least[name, phase] = min(time, least.get((name, phase), time))
    return least


def show(programs, call, threads, phase, calls, least):
    """One row: millions of calls a second of the first program, and its ratio to each other one's."""
    first = max(least[programs[0][0], phase], 1)
    ratios = "".join(f" {least[name, phase] / first:7.2f} |" for name, _ in programs[1:])
    print(f"| {call} | {threads} | {calls / first * 1e3:.1f} |{ratios}", flush=True)


def main():
    if not os.path.exists(TABLE_LOAD):
        sys.exit(f"no program at {TABLE_LOAD}: build it first")
    cells = 1 << (int(sys.argv[1]) if len(sys.argv) > 1 else 20)
    resource.setrlimit(resource.RLIMIT_CORE, (0, 0))
    with tempfile.TemporaryDirectory() as folder:
        programs = [("table", TABLE_LOAD), *peers(folder)]
        capacity = 3 * cells // 4 - max(THREADS)
        rounds = max(1, (1 << 20) // cells)
        print(f"{cells} cells at the end; millions of calls a second, all threads together, and the ratio to each other")
        print("| fill | call | threads | table |" + "".join(f" {name} |" for name, _ in programs[1:]))
        for fill, keys in [("3/8", 3 * cells // 8 + max(THREADS)), ("3/4", capacity)]:
            for threads in THREADS:
                own = best(programs, [threads, capacity, keys, rounds, "own"])
                show(programs, f"{fill} | insert, while it grows", threads, "insert", keys, own)
                show(programs, f"{fill} | insert, keys that are there", threads, "again", keys, own)
                show(programs, f"{fill} | find, present", threads, "present", keys * threads * rounds, own)
                show(programs, f"{fill} | find, absent", threads, "absent", keys * threads * rounds, own)
                if threads > 1:
                    mixed = best(programs, [threads, capacity, keys, 1, "mixed"])
                    calls = keys // 2 * (threads // 2) + keys - keys // 2
                    show(programs, f"{fill} | inserts beside finds", threads, "mixed", calls, mixed)


main()
