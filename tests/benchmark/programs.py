#!/usr/bin/env python3
"""Times the two programs on large inputs: tests/benchmark/programs.py ANSWERS MARKS

The frames are a session of the independent program, repeated; the Fortran file is examples/melt.f, repeated. Best of five runs each.
"""
import os
import subprocess
import sys
import time

TOP = os.path.dirname(os.path.dirname(os.path.dirname(os.path.abspath(__file__))))
sys.path.insert(0, os.path.join(TOP, "tests", "independent"))
import sessions  # noqa: E402

FRAMES = 1_000_000
BYTES = 100_000_000


def best(program, data):
    """The shortest time of five runs, in seconds; what is written goes nowhere."""
    path = os.path.join(TOP, "target", "benchmark", "input")
    with open(path, "wb") as file:
        file.write(data)
    times = []
    for _ in range(5):
        with open(path, "rb") as source:
            began = time.perf_counter()
            subprocess.run([program], stdin=source, stdout=subprocess.DEVNULL, check=True)
            times.append(time.perf_counter() - began)
    os.remove(path)
    return min(times)


def frames(kind):
    data, _, _ = sessions.make(1, 20_000, kind)
    session = data if data.endswith(b"\n") else data + b"\n"
    return session * (FRAMES // 20_000)


def main(words):
    answers, marks = words
    print("program  input                                  seconds")
    for kind in ("many small names", "one large name"):
        print(f"answers  {FRAMES:,} lines, {kind:<18}  {best(answers, frames(kind)):8.2f}")
    with open(os.path.join(TOP, "examples", "melt.f"), "rb") as file:
        text = file.read()
    print(f"marks    {BYTES:,} bytes of Fortran         {best(marks, text * (BYTES // len(text))):8.2f}")
    print(f"cat      the same                              {best('cat', text * (BYTES // len(text))):8.2f}")


if __name__ == "__main__":
    main(sys.argv[1:])
