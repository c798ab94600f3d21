#!/usr/bin/env python3
"""Runs mm_drive on files and devices of the machine, and says which run ends otherwise.

    python3 bench/edges.py [BINARY]

A run should end with its status, write its replies and a report, or nothing, to standard output,
and its line to standard error, and leave the folder as it was. As root, the program runs as the
user `nobody`, whom the folder is open to.
"""
import os
import pathlib
import shutil
import subprocess
import sys
import tempfile
import threading
import time

BUILT = pathlib.Path(__file__).parent.parent / "crates/mm_drive/out/mm_drive"

TRACE = b"mmtrace 1\nnew r0 1 1\nwrite r0 0 7\nread r0 0\n"

LINES_BEFORE = 500_000

USAGE = (
    b"usage: mm_drive --plan P --heap B [--workers W] [--map] FILE..."
    b" | mm_drive --plan P --heap B [--workers W] --make N"
)


def replies(mutators):
    return b"".join(b"mutator %d\nnew %d.1\nok\nnum 7\n" % (m, m) for m in range(1, mutators + 1))


# What a case is of, its files, what standard output and standard error are, the status, the replies
# (GROWN: as many as there are commands), and what the fault line says.
GROWN = b"grown"
CASES = [
    ("no last newline", ["bare"], "pipe", "pipe", 0, replies(1), b""),
    ("a pipe of single bytes", ["fifo"], "pipe", "pipe", 0, replies(1), b""),
    ("a file that grows", ["grows"], "pipe", "pipe", 0, GROWN, b""),
    ("a folder", ["."], "pipe", "pipe", 3, b"", b"cannot read ."),
    ("a missing file", ["none"], "pipe", "pipe", 3, b"", b"cannot read none"),
    ("a file as a folder", ["good/a"], "pipe", "pipe", 3, b"", b"cannot read good/a"),
    ("a link to itself", ["loop"], "pipe", "pipe", 3, b"", b"cannot read loop"),
    ("no permission", ["closed"], "pipe", "pipe", 3, b"", b"cannot read closed"),
    ("the second is missing", ["good", "none"], "pipe", "pipe", 3, b"", b"cannot read none"),
    ("no end", ["/dev/zero"], "pipe", "pipe", 4, b"", b"/dev/zero is longer than 16777216 bytes"),
    ("nothing", ["/dev/null"], "pipe", "pipe", 5, b"", b"/dev/null: line 1: header"),
    ("16 files that are one", ["good"] * 16, "pipe", "pipe", 0, replies(16), b""),
    ("a full device", ["good"], "full", "pipe", 6, b"", b"write failed"),
    ("a closed standard output", ["good"], "closed", "pipe", 6, b"", b"write failed"),
    ("a pipe that nobody reads", ["good"], "left", "pipe", 6, b"", b"write failed"),
    ("a name with spaces", [" a  name "], "pipe", "pipe", 0, replies(1), b""),
    ("a missing one", ["no  name "], "pipe", "pipe", 3, b"", b"cannot read no  name "),
    ("a name that is not UTF-8", [b"\xff"], "pipe", "pipe", 2, b"", USAGE),
    ("standard error closed, a fault", ["none"], "pipe", "closed", 3, b"", b""),
    ("standard error closed, none", ["good"], "pipe", "closed", 0, replies(1), b""),
    ("standard error full", ["none"], "pipe", "full", 3, b"", b""),
    ("both closed", ["good"], "closed", "closed", 6, b"", b""),
]


def make_files():
    for name in ("good", " a  name ", "closed", os.fsdecode(b"\xff")):
        pathlib.Path(name).write_bytes(TRACE)
    pathlib.Path("bare").write_bytes(TRACE[:-1])
    pathlib.Path("grows").write_bytes(b"mmtrace 1\n" + LINES_BEFORE * b"drop r0\n")
    os.chmod("closed", 0)
    os.mkfifo("fifo")
    os.symlink("loop", "loop")


def feed(name, ended):
    """Writes the trace byte by byte to the pipe, or lines to the growing file in the run."""
    if name == "fifo":
        with open(name, "wb", buffering=0) as pipe:
            for byte in TRACE:
                pipe.write(bytes([byte]))
                time.sleep(0.001)
    elif name == "grows":
        with open(name, "ab", buffering=0) as file:
            while not ended.wait(0.0005):
                file.write(10 * b"drop r0\n")


def device(kind):
    """The device as it is handed to the program."""
    if kind == "left":
        reading, writing = os.pipe()
        os.close(reading)
        return writing
    return os.open("/dev/full", os.O_WRONLY) if kind == "full" else subprocess.PIPE


def close(kinds):
    for number, kind in zip((1, 2), kinds):
        if kind == "closed":
            os.close(number)


def run(files, out, err):
    ended = threading.Event()
    feeder = threading.Thread(target=feed, args=(files[0], ended))
    feeder.start()
    nobody = {"user": 65534, "group": 65534, "extra_groups": []} if os.geteuid() == 0 else {}
    ran = subprocess.run(
        ["./mm_drive", "--plan", "immix", "--heap", "32", *files],
        stdout=device(out), stderr=device(err), preexec_fn=lambda: close((out, err)), **nobody,
    )
    ended.set()
    feeder.join()
    return ran.returncode, ran.stdout or b"", ran.stderr or b""


def is_text(text, want):
    """Standard output is the replies and a report, or nothing where none are wanted."""
    front, plan, report = text.partition(b"plan immix\n")
    if want == GROWN:
        count = int(report.split(b"commands ")[1].split()[0])
        print(f"  ({count - LINES_BEFORE} lines that were appended meanwhile were read)")
        return count >= LINES_BEFORE and front == b"mutator 1\n" + count * b"ok\n"
    return front == want and bool(plan) == bool(want) and text[-1:] == want[-1:]


def listing():
    return sorted((os.fsencode(file), file.inode()) for file in os.scandir())


def main():
    binary = pathlib.Path(sys.argv[1] if len(sys.argv) > 1 else BUILT).resolve()
    differing = 0
    with tempfile.TemporaryDirectory() as folder:
        shutil.copy(binary, os.path.join(folder, "mm_drive"))
        os.chdir(folder)
        os.chmod(".", 0o777)
        os.environ["TMPDIR"] = folder
        make_files()
        before = listing()
        for name, files, out, err, status, text, line in CASES:
            found, printed, said = run(files, out, err)
            wanted = b"mm_drive: " + line + b"\n" if line else b""
            good = (found, said, listing()) == (status, wanted, before) and is_text(printed, text)
            differing += not good
            print(found, name, "" if good else f"OTHERWISE: {printed[:200]} {said}")
        os.chdir("/")
    sys.exit(f"{differing} cases end otherwise" if differing else 0)


if __name__ == "__main__":
    main()
