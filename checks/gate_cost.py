#!/usr/bin/env python3
"""Measures what the gate costs: processor minutes by crate, for its proof, its tests and its must-fail edits.

Each part starts from nothing, in a scratch copy of the repository as it stands, in turn and with one job, as the processes
below it count their time. The tests' part proves the crate once more, with its tests, and runs them; the edits' part proves it a
third time and tries each file of must-fail/ over that: so does the gate. The libraries below a crate are taken as earlier checks
on this machine left them. Numbers hold for the machine that they are taken on, and rise where other work shares its processors.

It is run by hand, takes as many minutes as it prints, and needs `rt` on the path. A table row is printed as soon as it is there.
"""
import argparse
import contextlib
import glob
import os
import shutil
import subprocess
import sys
import time

sys.dont_write_bytecode = True  # no folder of theirs beside these files
import scratch

PARTS = ("proof", "tests", "edits")


def minutes(words, folder, log):
    """The processor minutes of a command and of all below it. One that fails is told, and counts."""
    begin = log.tell()
    started = subprocess.Popen(words, cwd=folder, stdin=subprocess.DEVNULL, stdout=log, stderr=log)
    _, status, used = os.wait4(started.pid, 0)
    started.returncode = os.waitstatus_to_exitcode(status)
    if started.returncode:
        log.seek(begin)
        print(f"gate_cost: {' '.join(words)} in {folder} ended with {started.returncode}:\n{log.read()[-2000:]}", file=sys.stderr)
    log.seek(0, os.SEEK_END)
    return (used.ru_utime + used.ru_stime) / 60


def has_tests(folder):
    files = glob.glob(f"{folder}/src/**/*.rt", recursive=True)
    return any("#[test]" in open(file, encoding="utf-8").read() for file in files)


@contextlib.contextmanager
def anew(folder):
    """Has the crate's next check begin with nothing: `rt` takes what a check kept, in any copy on this machine, by the crate's
    text, so the text has a line that no other has, and the kept work of this copy is none."""
    root = next(it for it in (f"{folder}/src/main.rt", f"{folder}/src/lib.rt") if os.path.isfile(it))
    kept = os.path.join(folder, "out", "incremental")
    with open(root, encoding="utf-8") as file:
        text = file.read()
    shutil.rmtree(kept, ignore_errors=True)
    os.makedirs(kept)
    with open(root, "w", encoding="utf-8") as file:
        file.write(f"{text}\n// Measured in {folder} at {time.time_ns()}.\n")
    try:
        yield
    finally:
        with open(root, "w", encoding="utf-8") as file:
            file.write(text)
        shutil.rmtree(kept, ignore_errors=True)


def proof(room, name, log):
    """The crate's own proof."""
    folder = os.path.join(room, "crates", name)
    with anew(folder):
        return minutes(["rt", "check", "--jobs", "1"], folder, log)


def tests(room, name, log):
    """The proof of the crate with its tests, and their run."""
    folder = os.path.join(room, "crates", name)
    if not has_tests(folder):
        return 0.0
    with anew(folder):
        return minutes(["rt", "test", "--jobs", "1"], folder, log)


def edits(room, name, log):
    """A proof of the crate, and the tries of its must-fail edits over it."""
    if not glob.glob(f"{room}/crates/{name}/must-fail/*.edit"):
        return 0.0
    return minutes(["rt", "must-fail", "--anew", name], room, log)


def row(name, costs):
    cells = [f"{cost:.1f}" if cost is not None else "" for cost in [*costs, sum(it for it in costs if it is not None)]]
    print(f"| {name} | {' | '.join(cells)} |", flush=True)


def measured(room, name, parts, log):
    """The minutes of each part of a crate, or None for one that was not asked for."""
    calls = {"proof": proof, "tests": tests, "edits": edits}
    return [calls[part](room, name, log) if part in parts else None for part in PARTS]


def options():
    parser = argparse.ArgumentParser(description=__doc__, formatter_class=argparse.RawDescriptionHelpFormatter)
    parser.add_argument("names", metavar="NAME", nargs="*", help="a crate; without one, all of them")
    parser.add_argument("--parts", default=",".join(PARTS), help="which parts: words of %(default)s, joined by commas")
    parser.add_argument("--room", help="the scratch folder, which stays; without it one is made and removed")
    asked = parser.parse_args()
    asked.parts = asked.parts.split(",")
    if {*asked.parts} - {*PARTS}:
        parser.error(f"--parts takes {', '.join(PARTS)}")
    return asked


def main():
    asked = options()
    names = scratch.chosen(asked.names)
    sums, started = [0.0] * len(PARTS), time.monotonic()
    with scratch.copied(scratch.below(names), asked.room) as room, open(os.path.join(room, "gate_cost.log"), "a+") as log:
        print("| Crate | Proof | Tests | Edits | Sum |\n|---|---|---|---|---|", flush=True)
        for name in names:
            scratch.prove_below(room, [name])
            costs = measured(room, name, asked.parts, log)
            sums = [total + (cost or 0) for total, cost in zip(sums, costs)]
            row(name, costs)
        row("all", sums)
    print(f"\nProcessor minutes on {os.cpu_count()} processors; {(time.monotonic() - started) / 60:.0f} minutes went by.")


if __name__ == "__main__":
    main()
