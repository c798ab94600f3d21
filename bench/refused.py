#!/usr/bin/env python3
"""Runs mm_drive with each of its allocations refused in turn, under each plan, by 1 and 4 workers.

    python3 bench/refused.py [BINARY]

A run should end with status 7, its line, and nothing on standard output, or with status 0 and the
whole text. `cc` compiles the library that refuses.
"""
import itertools
import os
import pathlib
import subprocess
import sys
import tempfile

BUILT = pathlib.Path(__file__).parent.parent / "crates/mm_drive/out/mm_drive"

PLANS = ["nogc", "marksweep", "semispace", "gencopy", "immix", "stickyimmix"]

WORKERS = [1, 4]

# Refuses the allocation whose number is in REFUSED, and makes the file `refusal` then.
REFUSER = r"""
#include <fcntl.h>
#include <stdlib.h>
extern void *__libc_malloc(size_t bytes);
extern void *__libc_realloc(void *old, size_t bytes);
static _Atomic long made;
static int is_refused(void) {
    const char *number = getenv("REFUSED");
    if (++made != (number ? atol(number) : 0)) return 0;
    open("refusal", O_CREAT | O_WRONLY, 0600);
    return 1;
}
void *malloc(size_t bytes) { return is_refused() ? NULL : __libc_malloc(bytes); }
void *realloc(void *old, size_t bytes) { return is_refused() ? NULL : __libc_realloc(old, bytes); }
"""

# What a row is of, its blocks, its further options, and the commands of each mutator.
ROWS = [
    ("first commands", 4, "", ["new r0 1 1;write r0 0 7;read r0 0;get r1 r0 0"]),
    ("collections of a small heap", 4, "", ["drop r0;new r0 0 2045;" * 50]),
    (
        "a nursery collection", 16, "",
        ["new r0 1 0;gc;new r1 0 1;put r0 0 r1;drop r1;drop r0;" + "new r2 0 2045;" * 14],
    ),
    (
        "two mutators", 4, "",
        ["new r0 0 1;write r0 0 5;share g0 r0;meet", "meet;load r1 g0;read r1 0"],
    ),
    ("a large object", 16, "", ["new r0 1024 60000;put r0 1023 r0;gc;new r1 1024 60000"]),
    ("a map", 4, "--map", ["new r0 0 1;new r1 0 1;pin r0;gc"]),
    ("a made trace", 4, "--make 40", []),
]


def words_of(plan, heap, workers, options, traces):
    files = [f"f{m}" for m in range(len(traces))]
    for file, commands in zip(files, traces):
        lines = [line + "\n" for line in ["mmtrace 1", *commands.split(";")] if line]
        pathlib.Path(file).write_text("".join(lines))
    sizes = ["--heap", str(heap), "--workers", str(workers)]
    return ["./mm_drive", "--plan", plan, *sizes, *options.split(), *files]


def run(words, refused):
    """How the run ends, and whether it came to the allocation that is refused."""
    env = {**os.environ, "LD_PRELOAD": "./refuser.so", "REFUSED": str(refused)}
    refusal = pathlib.Path("refusal")
    refusal.unlink(missing_ok=True)
    ran = subprocess.run(words, env=env, capture_output=True, check=False)
    return (ran.returncode, ran.stdout, ran.stderr), refusal.exists()


def refuse_each(words):
    """How many runs end for want of memory, how many well, and how many otherwise."""
    whole, _ = run(words, 0)
    wanting = (7, b"", b"mm_drive: out of memory\n")
    ends = []
    for refused in itertools.count(1):
        end, was_refused = run(words, refused)
        if not was_refused:
            break
        ends.append(end)
    well = ends.count(whole) if whole[0] == 0 else 0
    return ends.count(wanting), well, len(ends) - ends.count(wanting) - well


def main():
    binary = pathlib.Path(sys.argv[1] if len(sys.argv) > 1 else BUILT).resolve()
    all_otherwise = 0
    with tempfile.TemporaryDirectory() as folder:
        os.chdir(folder)
        os.symlink(binary, "mm_drive")
        pathlib.Path("refuser.c").write_text(REFUSER)
        subprocess.run(["cc", "-shared", "-fPIC", "-o", "refuser.so", "refuser.c"], check=True)
        for name, heap, options, traces in ROWS:
            for plan, workers in itertools.product(PLANS, WORKERS):
                words = words_of(plan, heap, workers, options, traces)
                wanting, well, otherwise = refuse_each(words)
                ends = f"status 7 {wanting}, 0 {well}, otherwise {otherwise}"
                print(f"{name}, {plan}, {workers} workers: {ends}")
                all_otherwise += otherwise
        os.chdir("/")
    sys.exit(f"{all_otherwise} runs end otherwise" if all_otherwise else 0)


if __name__ == "__main__":
    main()
