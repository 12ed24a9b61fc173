#!/usr/bin/env python3
"""Runs the built program on inputs that are within the limits and cost much in a careless program.

    bench/shapes.py PROGRAM [--only NAME ..] [--timeout SECONDS]

PROGRAM is the built program (`rt build` in crates/cube_program; ./run says where it is). Each shape is run at a
quarter, at half and at the whole of its full size. A line has the shape, and for each size the size, the seconds of
the processor (user and system) and the peak of memory in MB. Then come the MB of the files at the full size, and how
much dearer the whole is than the half. docs/SPEED.md has the figures.

The last shape, `endless`, has one size: each kind of text in turn is a file without an end, of which the program is
to refuse line 1. Its line has the seconds and the peak of each kind.
"""
import argparse
import os
import resource
import subprocess
import tempfile
import time

from inputs import ENDLESS, SHAPES

MEMORY = 16 << 30


def limited():
    resource.setrlimit(resource.RLIMIT_AS, (MEMORY, MEMORY))


def measured(program, make, size, timeout, out=subprocess.DEVNULL):
    """The seconds of the processor, the peak in MB, the status and the MB of the files, or None after the timeout."""
    with tempfile.TemporaryDirectory() as folder:
        words = make(folder, size)
        given = sum(entry.stat().st_size for entry in os.scandir(folder)) / 1e6
        process = subprocess.Popen([program, *words], cwd=folder, stdout=out, stderr=subprocess.DEVNULL, preexec_fn=limited)
        ends = time.monotonic() + timeout
        while True:
            pid, status, used = os.wait4(process.pid, os.WNOHANG)
            if pid:
                process.returncode = os.waitstatus_to_exitcode(status)
                return used.ru_utime + used.ru_stime, used.ru_maxrss / 1024, process.returncode, given
            if time.monotonic() > ends:
                process.kill()
                os.wait4(process.pid, 0)
                process.returncode = -9
                return None
            time.sleep(0.005)


def line_of(program, make, full, timeout):
    fields, seconds = [], []
    for size in (full // 4, full // 2, full):
        found = measured(program, make, size, timeout)
        if found is None:
            fields.append(f"{size:,}: over {timeout:.0f} s")
            break
        seconds.append(found[0])
        fields.append(f"{size:,}: {found[0]:.2f} s, {found[1]:.0f} MB" + ("" if found[2] in (0, 2) else f", status {found[2]}"))
    if found is not None:
        fields.append(f"{found[3]:.1f} MB of files")
    growth = f"{seconds[2] / seconds[1]:.1f}" if len(seconds) == 3 and seconds[1] > 0.02 else "-"
    return f"{make.__name__} | " + " | ".join(fields) + f" | {growth}"


def endless(program, timeout):
    fields = []
    for kind in ENDLESS:
        with tempfile.TemporaryFile() as out:
            found = measured(program, ENDLESS[kind], 0, timeout, out)
            out.seek(0)
            text = out.read()
        if found is None:
            fields.append(f"{kind}: over {timeout:.0f} s")
        else:
            is_refused = text == b"refused /dev/zero: line 1: Syntax\n" and found[2] == 2
            fields.append(f"{kind}: {found[0]:.2f} s, {found[1]:.0f} MB" + ("" if is_refused else f", WRONG: status {found[2]}"))
    return "endless | " + " | ".join(fields)


def main():
    words = argparse.ArgumentParser(description=__doc__.splitlines()[0])
    words.add_argument("program")
    words.add_argument("--only", nargs="*", default=[])
    words.add_argument("--timeout", type=float, default=30)
    words = words.parse_args()
    program = os.path.abspath(words.program)
    for make, full in SHAPES:
        if not words.only or make.__name__ in words.only:
            print(line_of(program, make, full, words.timeout), flush=True)
    if not words.only or "endless" in words.only:
        print(endless(program, words.timeout), flush=True)


if __name__ == "__main__":
    main()
