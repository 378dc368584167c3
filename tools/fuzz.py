#!/usr/bin/env python3
"""Feeds random and mutated bytes to the built programs: no crash, no hang, output only of the defined form.

Usage: fuzz.py OPFCHECK FUELSHEET FOLDER_WITH_OPF_AND_SCRIPT_FILES [CASES [SEED]]
"""
import glob
import os
import random
import re
import subprocess
import sys
import tempfile

FAULT = re.compile(rb"no (\d{1,2}) (\d+) (\d+) (text|layout|number|value)\n\Z")
VALUE = re.compile(rb"[a-z]+(_?[A-Za-z0-9]+)* (-?\d+|Jet|Turboprop)\n")
FIGURES = rb"\d+ \d+ [01]"
ANSWER = re.compile(
    rb"(?:(?:start|uplift|jettison|touchdown) " + FIGURES
    + rb"|leg (?:CR|IC|TO|AP|LD) \d+ \d+ \d+ \d+ [01] " + FIGURES
    + rb"|no (?:1[1-9]|2[0-6])|standard|bench \d{1,10} -?\d{1,10})\Z"
)


def mutated(rng, data):
    data = bytearray(data)
    for _ in range(rng.choice((1, 1, 2, 3, 10))):
        at = rng.randrange(len(data) + 1)
        kind = rng.randrange(6)
        if kind == 0 and data:
            data[at % len(data)] = rng.randrange(256)
        elif kind == 1 and data:
            data[at % len(data)] = rng.choice(b"0123456789.-+E \n\r/CDFI")
        elif kind == 2:
            data[at:at] = bytes(rng.randrange(256) for _ in range(rng.choice((1, 3, 200))))
        elif kind == 3:
            del data[at : at + rng.choice((1, 2, 30, 500))]
        elif kind == 4:
            line = data[at : data.find(b"\n", at) + 1]
            data[at:at] = line
        else:
            data = data[:at]
    return bytes(data)


def run(program, where, args=(), given=b""):
    done = subprocess.run([program, *args], cwd=where, input=given, capture_output=True, timeout=20)
    assert done.returncode == 0, (program, done.returncode, done.stderr[:200])
    return done.stdout


def lines_of(script):
    lines = script.split(b"\n")
    return len(lines) - (lines[-1] == b"")


def main():
    opfcheck, fuelsheet, folder = (os.path.abspath(p) for p in sys.argv[1:4])
    cases, seed = (int(sys.argv[i]) if len(sys.argv) > i else d for i, d in ((4, 2000), (5, 1)))
    rng = random.Random(seed)
    files = [open(p, "rb").read() for p in sorted(glob.glob(folder + "/*.opf"))]
    scripts = [open(p, "rb").read() for p in sorted(glob.glob(folder + "/*.script"))]
    good = faults = answers = 0
    with tempfile.TemporaryDirectory() as where:
        for _ in range(cases):
            data = mutated(rng, rng.choice(files)) if rng.random() < 0.9 else bytes(rng.randrange(256) for _ in range(rng.randrange(400)))
            open(where + "/aircraft.opf", "wb").write(data)
            out = run(opfcheck, where)
            if out.startswith(b"no "):
                assert FAULT.match(out), out[:100]
                assert run(fuelsheet, where, given=b"standard\n") == b" ".join(out.split()[:4]) + b"\n"
                faults += 1
            else:
                assert all(VALUE.fullmatch(l + b"\n") for l in out.split(b"\n")[:-1]) and out.count(b"\n") == 37, out[:200]
                good += 1
        for _ in range(cases):
            open(where + "/aircraft.opf", "wb").write(rng.choice(files))
            script = mutated(rng, rng.choice(scripts)) if rng.random() < 0.9 else bytes(rng.randrange(256) for _ in range(rng.randrange(400)))
            out = run(fuelsheet, where, given=script)
            said = out.split(b"\n")[:-1]
            if len(said) == 1 and said[0].startswith(b"no ") and len(said[0].split()) == 4:
                continue
            assert len(said) == lines_of(script), (len(said), lines_of(script))
            for line in said:
                assert ANSWER.match(line), line[:100]
            answers += len(said)
    print(f"files: {good} read, {faults} refused; script lines answered: {answers}")


main()
