#!/usr/bin/env python3
"""Times two programs on the mixes of call lines, interleaved, and compares what they write.

Answers are compared byte for byte in a run of their own; the timed runs write to /dev/null, since filling a file's pages is
the system's work and the same for both.

  lines.py BENCH RUST OURS FOLDER LINES SEED RUNS

BENCH writes the mixes (oracle's `bench`). A table on standard output: nanoseconds a line, user and system time together,
the best of the runs."""
import os
import resource
import subprocess
import sys


def cpu_seconds():
    used = resource.getrusage(resource.RUSAGE_CHILDREN)
    return used.ru_utime + used.ru_stime


def run(program, calls, answers):
    """Seconds of one run."""
    with open(calls, "rb") as source, open(answers, "wb") as target:
        start = cpu_seconds()
        subprocess.run([program], stdin=source, stdout=target, check=True)
        return cpu_seconds() - start


def same(one, other):
    return subprocess.run(["cmp", one, other]).returncode == 0


def main():
    bench, rust, ours, folder = sys.argv[1:5]
    lines, seed, runs = sys.argv[5], sys.argv[6], int(sys.argv[7])
    os.makedirs(folder, exist_ok=True)
    calls, by_rust, by_ours = (os.path.join(folder, name) for name in ("calls", "rust", "ours"))
    print("| Lines | Number | The Rust | Ours | Ours / Rust |")
    print("|---|---:|---:|---:|---:|")
    for name in subprocess.run([bench, "names"], capture_output=True, text=True, check=True).stdout.splitlines():
        with open(calls, "wb") as target:
            subprocess.run([bench, "lines", name, lines, seed], stdout=target, check=True)
        with open(calls, "rb") as source:
            count = sum(1 for _ in source)
        run(rust, calls, by_rust)
        run(ours, calls, by_ours)
        if not same(by_rust, by_ours):
            sys.exit(f"{name}: other answers; see {folder}")
        best_rust = best_ours = float("inf")
        for _ in range(runs):
            best_rust = min(best_rust, run(rust, calls, os.devnull))
            best_ours = min(best_ours, run(ours, calls, os.devnull))
        a_line = 1e9 / count
        ratio = best_ours / best_rust if best_rust else float("nan")
        print(f"| {name} | {count} | {best_rust * a_line:.0f} | {best_ours * a_line:.0f} | {ratio:.2f} |", flush=True)


main()
