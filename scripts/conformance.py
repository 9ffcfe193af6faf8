#!/usr/bin/env python3
"""Plays cases on the model and on the proved library, and compares their answers. docs/cases.md has the format.

usage: scripts/conformance.py cases SEED COUNT    random cases of this seed, and the model's answers, which out/cases keeps; and what occurs in them
       scripts/conformance.py fuzz [MINUTES]      cases of fresh seeds, for so long or until it is stopped
       scripts/conformance.py play FILE           the cases of a file

The first case that is answered differently is cut down to the lines that it takes, and kept in out/failing/. Both programs have to be
built: scripts/build_model.sh, and rt run in crates/conformance.
"""

import difflib
import functools
import os
import subprocess
import sys
import time

MODEL = ("model/target/release/model", "answers")
COUNTS = ("model/target/release/model", "stats")
LIBRARY = ("crates/conformance/out/conformance",)
WRITTEN = "out/cases"
KEPT = "out/failing"
# cases of one seed in a round of fuzz
ROUND = 500
# lines that a case may do without
LOOSE = {"fill", "cells", "clear", "seal", "flip", "register", "read", "write", "show"}


def random_cases(seed, count):
    command = (MODEL[0], "cases", str(seed), str(count))
    return subprocess.run(command, stdout=subprocess.PIPE, text=True, check=True).stdout


@functools.lru_cache(maxsize=4)
def answers(command, text):
    """What a program answers, and where it fails also how."""
    done = subprocess.run(command, input=text, capture_output=True, text=True)
    failed = f"status {done.returncode}: {done.stderr}" if done.returncode else ""
    return done.stdout + failed


def write_cases(seed, count):
    """Writes random cases with the model's answers, and shows what occurs in them. Answers the cases."""
    text = random_cases(seed, count)
    os.makedirs(WRITTEN, exist_ok=True)
    path = os.path.join(WRITTEN, f"{seed}-{count}")
    for name, content in ((path + ".cases", text), (path + ".answers", answers(MODEL, text))):
        with open(name, "w", encoding="ascii") as file:
            file.write(content)
    print(answers(COUNTS, text), end="")
    print(f"The cases are in {path}.cases, the model's answers in {path}.answers; above is how often each thing occurs in them.", flush=True)
    return text


def differ(text):
    return answers(MODEL, text) != answers(LIBRARY, text)


def cases_of(text):
    """The lines of each case."""
    cases = [[]]
    for line in text.splitlines(keepends=True):
        cases[-1].append(line)
        if line == "end\n":
            cases.append([])
    return cases[:-1]


def cut_down(case):
    """The case without lines that it does not take to differ: many at a time, and then fewer."""
    many = len(case)
    while many > 0:
        at = 0
        while at < len(case):
            part = case[at : at + many]
            held = [line for line in part if line.split()[0] not in LOOSE]
            fewer = case[:at] + held + case[at + many :]
            if len(held) < len(part) and differ("".join(fewer)):
                case = fewer
                at += len(held)
            else:
                at += many
        many //= 2
    return case


def keep(case):
    os.makedirs(KEPT, exist_ok=True)
    path = os.path.join(KEPT, case[0].split()[1] + ".case")
    with open(path, "w", encoding="ascii") as file:
        file.writelines(case)
    return path


def show(text):
    model, library = (answers(command, text).splitlines(keepends=True) for command in (MODEL, LIBRARY))
    sys.stdout.writelines(difflib.unified_diff(model, library, "model", "library", n=1))


def compare(text):
    """Whether the cases are answered alike. The first one that is not is kept and shown."""
    if not differ(text):
        return True
    case = next((case for case in cases_of(text) if differ("".join(case))), None)
    if case is None:
        print("FAILED: the answers differ, and those to no case alone:")
        show(text)
        return False
    case = cut_down(case)
    calls = sum(line.startswith(("read ", "write ")) for line in case)
    path = keep(case)
    print(f"FAILED: {case[0].strip()} is answered differently; with {calls} calls left it is kept in {path}:")
    show("".join(case))
    print(f"It is played again by: scripts/conformance.py play {path}")
    return False


def play(text):
    begin = time.monotonic()
    alike = compare(text)
    if alike:
        count, seconds = len(cases_of(text)), time.monotonic() - begin
        print(f"ok: {count} cases are answered alike, in {seconds:.1f} seconds")
    return alike


def fuzz(minutes):
    """Rounds of fresh seeds, which are counted up from the time of day."""
    begin, count, seed = time.monotonic(), 0, time.time_ns() // 1000
    while time.monotonic() - begin < minutes * 60:
        text = random_cases(seed, ROUND)
        if not compare(text):
            print(f"It is of seed {seed}.")
            return False
        count += len(cases_of(text))
        rate = count / (time.monotonic() - begin)
        print(f"{count} cases are answered alike, {rate:.0f} in a second; the last seed is {seed}", flush=True)
        seed += 1
    return True


def run(words):
    match words:
        case ["cases", seed, count]:
            return play(write_cases(seed, count))
        case ["play", path]:
            with open(path, encoding="ascii") as file:
                return play(file.read())
        case ["fuzz"]:
            return fuzz(float("inf"))
        case ["fuzz", minutes]:
            return fuzz(float(minutes))
    print(__doc__)
    return False


def wanting():
    """The first of the two programs that is not built, and how it is."""
    for command, build in ((MODEL, "scripts/build_model.sh"), (LIBRARY, "rt run in crates/conformance")):
        if not os.path.exists(command[0]):
            return f"conformance: {command[0]} is wanting: it is built by {build}"
    return None


if __name__ == "__main__":
    os.chdir(os.path.join(os.path.dirname(os.path.abspath(__file__)), ".."))
    if wanting():
        sys.exit(wanting())
    try:
        sys.exit(0 if run(sys.argv[1:]) else 1)
    except KeyboardInterrupt:
        print("stopped")
