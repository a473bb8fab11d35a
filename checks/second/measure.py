#!/usr/bin/env python3
"""Measures `lines` beside the second program on two journals of nearly full size: instructions by callgrind, and time.

    checks/second/measure.py [RUNS]

Both journals open a common year with all months interim, post and close each of them, settle, and then correct days
all over the year up to the largest size. In `moving` a correction puts another reading in, in `resting` the record
that stands there already. Their answers are compared first. The runs of the two programs take turns, and the time is
the median of RUNS (30) runs of each.
"""
import pathlib
import re
import statistics
import struct
import subprocess
import sys
import tempfile
import time

TOP = pathlib.Path(__file__).resolve().parent.parent.parent
PROVED = TOP / "crates" / "lines" / "out" / "lines"
SECOND = TOP / "checks" / "second" / "target" / "release" / "lines"
MONTHS = [30, 31, 31, 28, 31, 30, 31, 30, 31, 31, 30, 31]
MOST_BYTES = 65536


def day(kind, month, number, reading):
    return struct.pack("<BBBBBIIIIII", kind, month, number, 3, 0, 100, 100, reading, 0, 0, 1000)


def journal(moving):
    """A year that is closed and settled, and then as many corrections as there is room for."""
    bytes_ = bytearray(struct.pack("<BBHBB", 1, 0, 137, 0, 11))
    for month, days in enumerate(MONTHS):
        for number in range(1, days + 1):
            bytes_ += day(2, month, number, 100)
        bytes_ += struct.pack("<BBIII", 4, month, 30000, 1000, 1000)
    bytes_ += struct.pack("<BHH", 6, 100, 20)
    corrections = 0
    while len(bytes_) + 29 <= MOST_BYTES:
        month = corrections % 12
        number = 1 + corrections // 12 % MONTHS[month]
        bytes_ += day(3, month, number, 100 + corrections % 7 if moving else 100)
        corrections += 1
    return bytes(bytes_), corrections


def instructions(program, path):
    command = ["valgrind", "--tool=callgrind", "--callgrind-out-file=/dev/null", str(program)]
    with open(path, "rb") as journal_file:
        run = subprocess.run(command, stdin=journal_file, stdout=subprocess.DEVNULL, stderr=subprocess.PIPE, text=True, check=True)
    return int(re.search(r"Collected : (\d+)", run.stderr)[1])


def once(program, path):
    with open(path, "rb") as journal_file:
        start = time.perf_counter()
        run = subprocess.run([str(program)], stdin=journal_file, stdout=subprocess.PIPE, check=True)
        return time.perf_counter() - start, run.stdout


def main():
    runs = int(sys.argv[1]) if len(sys.argv) > 1 else 30
    subprocess.run([str(TOP / "checks" / "second" / "build.sh")], check=True)
    print("journal bytes corrections | instructions: lines second ratio | milliseconds: lines second ratio")
    for name, moving in (("moving", True), ("resting", False)):
        bytes_, corrections = journal(moving)
        with tempfile.NamedTemporaryFile() as file:
            file.write(bytes_)
            file.flush()
            if once(PROVED, file.name)[1] != once(SECOND, file.name)[1]:
                sys.exit(f"{name}: the two programs differ")
            counts = [instructions(program, file.name) for program in (PROVED, SECOND)]
            times = [[], []]
            for _ in range(runs):
                for program, taken in zip((PROVED, SECOND), times):
                    taken.append(once(program, file.name)[0])
            medians = [statistics.median(taken) * 1000 for taken in times]
            print(
                f"{name} {len(bytes_)} {corrections}"
                f" | {counts[0]:,} {counts[1]:,} {counts[1] / counts[0]:.1f}"
                f" | {medians[0]:.1f} {medians[1]:.1f} {medians[1] / medians[0]:.1f}"
            )


main()
