"""Runs programs on files that compilers make here, and prints their times as ratios in one run.

Used by hand, after the proved program was built; a compiler or a peer that is missing is skipped.
"""

import os
import resource
import shutil
import subprocess
import sys
import tempfile
import time

TOP = os.path.dirname(os.path.dirname(os.path.abspath(__file__)))
DWTOOL = os.environ.get("DWTOOL", os.path.join(TOP, "crates", "dwtool", "out", "dwtool"))

SOURCE = """
#include <algorithm>
#include <fstream>
#include <functional>
#include <iostream>
#include <map>
#include <memory>
#include <random>
#include <regex>
#include <set>
#include <sstream>
#include <string>
#include <thread>
#include <unordered_map>
#include <vector>
template <int N> struct shape { std::map<int, std::string> names; std::vector<double> sizes;
  double area(double by) const { double sum = N; for (double s : sizes) sum += s * by; return sum; }
  std::string name(int k) { std::ostringstream out; out << names[k] << N; return out.str(); } };
double part_NUMBER(int n) { std::regex word("[a-z]+(NUMBER)?"); std::unordered_map<std::string, std::set<int>> seen; std::mt19937 dice(n);
  double sum = 0; for (int i = 0; i < n; i++) { seen[std::to_string(dice())].insert(i); }
  CALLS
  for (auto &s : seen) if (std::regex_match(s.first, word)) sum += *s.second.begin(); return sum; }
"""


def program(folder, units, shapes, options):
    """A C++ program of so many units, each with so many instances of a template; None without a compiler."""
    if shutil.which("g++") is None:
        print("skipped: no g++ on this machine")
        return None
    names = []
    for unit in range(units):
        calls = " ".join(f"{{ shape<{unit * 1000 + k}> s; s.sizes.push_back({k}); sum += s.area(2); sum += s.name({k}).size(); }}"
                         for k in range(shapes))
        name = os.path.join(folder, f"part{unit}.cpp")
        with open(name, "w", encoding="ascii") as out:
            out.write(SOURCE.replace("NUMBER", str(unit)).replace("CALLS", calls))
        names.append(name)
    main = os.path.join(folder, "main.cpp")
    with open(main, "w", encoding="ascii") as out:
        out.write("".join(f"double part_{u}(int);\n" for u in range(units)))
        out.write("int main() { return " + " + ".join(f"(int)part_{u}({u})" for u in range(units)) + "; }\n")
    path = os.path.join(folder, "program")
    made = subprocess.run(["g++", "-g", "-gdwarf-5", *options, "-o", path, main, *names], capture_output=True, check=False)
    if made.returncode != 0:
        print("skipped: g++ makes no such program here")
        return None
    return path


def section_size(path, name):
    for line in subprocess.run(["readelf", "-SW", path], capture_output=True, check=False).stdout.decode().splitlines():
        words = line.replace("[ ", "[").split()
        if name in words:
            return int(words[words.index(name) + 4], 16)
    return 0


def run(words):
    """User and system seconds, wall seconds and peak memory in MB of one run, with its text thrown away."""
    start = time.monotonic()
    with open(os.devnull, "wb") as nowhere:
        child = subprocess.Popen(words, stdout=nowhere, stderr=nowhere)
        _, status, usage = os.wait4(child.pid, 0)
        child.returncode = status
    return usage.ru_utime + usage.ru_stime, time.monotonic() - start, usage.ru_maxrss / 1024


def compare(rows, times=3):
    """Rows of (name, words): the best of so many runs of each, as ratios to the first row."""
    first = None
    print(f"{'program':34} {'cpu s':>8} {'wall s':>8} {'MB':>7} {'ratio':>7}")
    for name, words in rows:
        if shutil.which(words[0]) is None and not os.path.exists(words[0]):
            print(f"skipped {name}: no {words[0]} on this machine")
            continue
        cpu, wall, memory = min(run(words) for _ in range(times))
        first = first or cpu
        print(f"{name:34} {cpu:8.3f} {wall:8.3f} {memory:7.0f} {cpu / max(first, 0.001):7.2f}")


def main(work):
    if not os.path.exists(DWTOOL):
        sys.exit(f"no program at {DWTOOL}: build it first")
    resource.setrlimit(resource.RLIMIT_CORE, (0, 0))
    with tempfile.TemporaryDirectory() as folder:
        work(folder)
