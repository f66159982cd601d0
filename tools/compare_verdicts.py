#!/usr/bin/env python3
"""compare_verdicts.py [COUNT [SEED]]: hold the product's check of a lent state against the second program's.

`reference/` makes COUNT states (120,000), valid ones, ones at a boundary, ones that fail a single clause of validity, and altered ones, and tells of
each whether it is valid; the program of the crate `verdicts` reads them and tells the same, verdict by verdict. Also, that a frame
that is cut or too long ends the run. Needs rt and cargo. Exit status 0 if every verdict is the same, 1 if one differs."""
import pathlib
import re
import struct
import subprocess
import sys
import tempfile

ROOT = pathlib.Path(__file__).resolve().parent.parent
PROGRAM = ROOT / "target/bin/verdicts"
STATES = ROOT / "reference/target/release/states"
# States in a file, and states for each clause of validity in front of them.
BATCH, EACH = 10_000, 20


def build():
    subprocess.run(["cargo", "build", "--release", "--offline", "--quiet"], cwd=ROOT / "reference", check=True)
    subprocess.run([ROOT / "tools/build_programs", "verdicts"], check=True)


def judged(frames):
    """What the program writes on a file of frames."""
    with open(frames, "rb") as source:
        return subprocess.run([PROGRAM], stdin=source, stdout=subprocess.PIPE, check=True).stdout


def judged_bytes(folder, frames):
    path = folder / "cut"
    path.write_bytes(frames)
    return judged(path)


def frames_of(data):
    """Where each frame begins, and where the last one ends."""
    at = [0]
    while at[-1] < len(data):
        words, store, outbox = struct.unpack_from("<3I", data, at[-1])
        at.append(at[-1] + 12 + 4 * words + store + outbox)
    return at


def compare(folder, seed, count):
    """States, those that are not as a script left them, valid ones, and the numbers of those on which the two differ."""
    frames, verdicts = folder / "frames", folder / "verdicts"
    made = [STATES, str(seed), str(count), frames, verdicts, "--each-clause", str(EACH)]
    counts = subprocess.run(made, check=True, stderr=subprocess.PIPE, text=True).stderr
    found = re.search(r"^Valid: (\d+) states", counts)
    untouched = int(found[1]) if found else 0
    expected, got = verdicts.read_bytes().split(b"\n"), judged(frames).split(b"\n")
    states = len(expected) - 1
    differ = [i for i in range(states) if i >= len(got) or got[i] != expected[i]]
    if len(got) != len(expected):
        differ.append(states)
    for i in differ[:5]:
        print(f"seed {seed}, state {i}: expected {expected[i]}, got {got[i] if i < len(got) else None}")
    return states, states - untouched, expected.count(b"1"), differ


def refused(folder):
    """Whether each cut, and each number beyond twice the right length, ends the run."""
    data = (folder / "frames").read_bytes()
    at = frames_of(data)[:4]
    two, right = data[: at[2]], judged_bytes(folder, data[: at[2]])
    wrong = []
    for cut in [1, 11, 12, 13, 500, at[3] - at[2] - 1]:
        if judged_bytes(folder, two + data[at[2] : at[2] + cut]) != right + b"?\n":
            wrong.append(f"cut to {cut} bytes")
    words, store, outbox = struct.unpack_from("<3I", data, at[2])
    for head in [(1 << 31, store, outbox), (words, 1 << 20, outbox), (words, store, 0xFFFFFFFF)]:
        if judged_bytes(folder, two + struct.pack("<3I", *head) + data[at[2] + 12 :]) != right + b"?\n":
            wrong.append(f"lengths {head}")
    return wrong


def main():
    count = int(sys.argv[1]) if len(sys.argv) > 1 else 120_000
    seed = int(sys.argv[2]) if len(sys.argv) > 2 else 1
    build()
    states = altered = valid = differ = 0
    with tempfile.TemporaryDirectory() as name:
        folder = pathlib.Path(name)
        while states < count:
            made, other, good, wrong = compare(folder, seed, min(BATCH, count - states))
            states, altered, valid, differ = states + made, altered + other, valid + good, differ + len(wrong)
            seed += 1
        broken = refused(folder)
    print(f"{states} states, {altered} of them altered, {valid} valid: {differ} verdicts differ")
    print(f"frames that should be refused and were not: {broken or 'none'}")
    return 1 if differ or broken else 0


if __name__ == "__main__":
    sys.exit(main())
