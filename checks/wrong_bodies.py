#!/usr/bin/env python3
"""Tries the wrong bodies that stand beside the gate's: each edit of checks/wrong_bodies/NAME/ has to be refused by the prover.

A crate keeps at most five edits in crates/NAME/must-fail/, which the gate tries. The others are files of the same form, and
this is run over each crate that a change touches. It copies the repository as it stands to a scratch folder, with the proved
libraries that earlier checks left, puts the edits in place of the gate's there, and has `rt must-fail` try them.

An edit that falls only because a proof file names what it took away shows nothing of the contract. Such edits are listed apart,
to be written anew so that they keep the names and turn a value.

Ends with 1 where an edit is let through, or cannot be tried.
"""
import argparse
import collections
import concurrent.futures
import glob
import os
import re
import shutil
import subprocess
import sys

sys.dont_write_bytecode = True  # no folder of theirs beside these files
import scratch

EDITS = os.path.join(scratch.TOP, "checks", "wrong_bodies")
OUTCOMES = {"refused": "refused for what they mean", "names": "refused only by the names in a proof", "through": "let through", "bad": "not tried"}


def outcome(said):
    """What a line of `rt must-fail` says of an edit."""
    if said.startswith("refused, as it must be (only because a proof file names"):
        return "names"
    if said.startswith("refused, as it must be"):
        return "refused"
    return "through" if said.startswith("NOT REFUSED") else "bad"


def place_edits(room, name, gate):
    """Puts the crate's edits into its must-fail/ in the copy, in place of the gate's unless those are wanted too."""
    to = os.path.join(room, "crates", name, "must-fail")
    if not gate:
        shutil.rmtree(to, ignore_errors=True)
    os.makedirs(to, exist_ok=True)
    for edit in glob.glob(f"{EDITS}/{name}/*.edit"):
        shutil.copy2(edit, to)
    return sorted(os.path.basename(edit) for edit in glob.glob(f"{to}/*.edit"))


def tried(room, name, edits):
    """The outcome of each edit of a crate, with the line that tells it."""
    found = {edit: ("bad", "rt must-fail says nothing of it") for edit in edits}
    if not edits:
        return found
    words = ["rt", "must-fail", name]
    ran = subprocess.run(words, cwd=room, stdin=subprocess.DEVNULL, stdout=subprocess.PIPE, stderr=subprocess.STDOUT, errors="replace")
    for edit, said in re.findall(rf"^rt: must-fail {re.escape(name)}/(\S+): (.*)$", ran.stdout, re.M):
        found[edit] = outcome(said), said
    if any(said == "rt must-fail says nothing of it" for _, said in found.values()):
        print(ran.stdout[-2000:], file=sys.stderr)
    return found


def show(name, found):
    for edit, (kind, said) in found.items():
        print(f"{name}/{edit}: {OUTCOMES[kind].upper() if kind != 'refused' else 'refused'}: {said.partition(': ')[2] or said}", flush=True)


def summary(results):
    """Prints what is to be mended and the count, and returns whether each edit was refused."""
    counted = collections.Counter()
    for name, found in results.items():
        counted.update(kind for kind, _ in found.values())
    apart = [f"{name}/{edit}" for name, found in results.items() for edit, (kind, _) in found.items() if kind == "names"]
    if apart:
        print(f"To be written anew: {' '.join(apart)}")
    print(f"{sum(counted.values())} wrong bodies: " + ", ".join(f"{counted[kind]} {said}" for kind, said in OUTCOMES.items()))
    return not counted["through"] and not counted["bad"]


def options():
    parser = argparse.ArgumentParser(description=__doc__, formatter_class=argparse.RawDescriptionHelpFormatter)
    parser.add_argument("names", metavar="NAME", nargs="*", help="a crate; without one, all of them")
    parser.add_argument("--gate", action="store_true", help="try the edits of must-fail/ too, which the gate tries")
    parser.add_argument("--at-once", type=int, default=1, metavar="N", help="so many crates side by side, of 1 to 3 GB each (%(default)s)")
    return parser.parse_args()


def main():
    asked = options()
    names = [name for name in scratch.chosen(asked.names) if asked.gate or glob.glob(f"{EDITS}/{name}/*.edit")]
    results = {}
    with scratch.copied(scratch.below(names)) as room, concurrent.futures.ThreadPoolExecutor(asked.at_once) as pool:
        scratch.prove_below(room, names)
        edits = {name: place_edits(room, name, asked.gate) for name in names}
        for name, found in zip(names, pool.map(lambda name: tried(room, name, edits[name]), names)):
            results[name] = found
            show(name, found)
    sys.exit(0 if summary(results) else 1)


if __name__ == "__main__":
    main()
