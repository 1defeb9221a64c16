#!/usr/bin/env python3
"""Tries the built server on real files, where no proof reaches: kills and signals in the midst of its writes, garbage,
disks that do not take a write, requests of all kinds beside a plain map, closed descriptors, two servers on one folder,
words of all kinds, the modes of what it makes, the client of clients/den.py, a port with clients
that go away, and a configuration from a file. Says what it did, and ends with 1 where a put that was answered is lost, or a status, a line or a file is another.

A kill leaves what the operating system was handed, synced or not: it shows the order of writes and replies, and the opening
of what stands there, and not that a sync was made.

    checks/real_files.py [PROGRAM]

PROGRAM is the built server, without the word the one that `rt ci` leaves in crates/den_program/out.
"""
import os
import random
import shutil
import sys
import tempfile

sys.dont_write_bytecode = True

import answers
import clients
import descriptors
import faults
import listening
import stops
import two_servers
from serving import TOP, fail, say

BUILT = os.path.join(TOP, "crates", "den_program", "out", "den_program")


def try_all(program, room):
    seed = random.SystemRandom().randrange(1 << 32)
    say(f"seed {seed}")
    draw = random.Random(seed)
    faults.garbage(program, room)
    faults.refused(program, room)
    faults.unwritable(program, room)
    faults.full(program, room)
    faults.file_in_place(program, room)
    faults.not_text(program)
    faults.no_name(program, room)
    faults.modes(program, room)
    faults.streams(program, room)
    descriptors.descriptors(program, room)
    two_servers.two_servers(program, room)
    clients.clients(program, room)
    listening.listening(program, room)
    answers.whole_runs(program, room, draw)
    answers.stopped_runs(program, room, draw)
    stops.signals(program, room, draw)
    stops.file_size_signal(program, room)
    stops.kills(program, room, draw)
    stops.rewrites(program, room, draw)


def main():
    built = sys.argv[1] if len(sys.argv) > 1 else BUILT
    if not os.path.isfile(built):
        fail(f"{built} is not there; rt ci builds it")
    room = tempfile.mkdtemp(prefix="hevlicar-")
    try:
        # The server runs as a user that permissions bind, so it is copied to where that user can read it.
        program = os.path.join(room, "den_server")
        shutil.copyfile(built, program)
        os.chmod(program, 0o755)
        os.chmod(room, 0o777)
        try_all(program, room)
    finally:
        shutil.rmtree(room, ignore_errors=True)


if __name__ == "__main__":
    main()
