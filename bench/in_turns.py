#!/usr/bin/env python3
"""Times programs on one trace, in random order, each turn beside a random amount of held memory.

    python3 bench/in_turns.py PLAN HEAP TRACE RUNS BINARY...

Prints processor milliseconds of each program, by the smallest, the first quartile, the median and
the mean of its runs, and each as a ratio to that of the last program. On a shared machine the
smallest of a few runs says little: the memory that a process gets decides as much as its code.
"""
import os
import random
import statistics
import subprocess
import sys

HELD_MB = (20, 600)


def held_memory():
    """Memory that is held, and written, so that the next process gets other pages."""
    held = bytearray(random.randrange(*HELD_MB) << 20)
    for at in range(0, len(held), 4096):
        held[at] = 1
    return held


def milliseconds(words):
    """Processor time of one run. The program that the product is compared with reads first, and
    runs on atomic words, if it is set so."""
    env = dict(os.environ, PEER_ATOMIC="1", PEER_SPLIT="1")
    child = subprocess.Popen(words, stdout=subprocess.DEVNULL, stderr=subprocess.DEVNULL, env=env)
    _, status, use = os.wait4(child.pid, 0)
    if status:
        sys.exit(f"{words[0]} ended with status {os.waitstatus_to_exitcode(status)}")
    return 1000 * (use.ru_utime + use.ru_stime)


def figures(times):
    times = sorted(times)
    return times[0], times[len(times) // 4], statistics.median(times), statistics.mean(times)


def main():
    if len(sys.argv) < 6:
        sys.exit(__doc__)
    plan, heap, trace, runs = sys.argv[1:5]
    binaries = sys.argv[5:]
    times = {binary: [] for binary in binaries}
    for _ in range(int(runs)):
        _held = held_memory()
        for binary in random.sample(binaries, len(binaries)):
            times[binary].append(milliseconds([binary, "--plan", plan, "--heap", heap, trace]))
    last = figures(times[binaries[-1]])
    for binary in binaries:
        own = figures(times[binary])
        print(binary)
        for name, here, there in zip(("smallest", "quartile", "median", "mean"), own, last):
            print(f"  {name:9}{here:8.1f} ms{here / there:6.2f}")


if __name__ == "__main__":
    main()
