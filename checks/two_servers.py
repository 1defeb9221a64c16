"""Two servers on one folder: the second is refused, and what the first answered stands."""
import os
import signal

from faults import storage
from serving import WRITTEN, Server, fail, files_of, put, run, say, values, wants

DUETS, PUTS = 10, 5
IN_USE = storage(b"the folder is in use by another server")


def second_refused(program, room):
    folder = os.path.join(room, "shared")
    first = Server(program, folder)
    first.feed([put(b"a", b"1")])
    first.read_on(1)
    before = files_of(folder)
    wants("a second server", run(program, folder, [put(b"a", b"2"), put(b"b", b"2")]), 5, IN_USE)
    if files_of(folder) != before:
        fail("a second server changed the folder")
    first.feed([put(b"c", b"1")])
    first.read_on(2)
    if first.end() != (0, [WRITTEN] * 2):
        fail("a server did not go on beside a second one")
    if values(program, folder, [b"a", b"b", b"c"]) != [b"1", None, b"1"]:
        fail("beside a second server a put was lost")
    say("a second server on a folder is refused, and the first goes on")


def killed_lock(program, room):
    folder = os.path.join(room, "unlocked")
    server = Server(program, folder)
    server.feed([put(b"a", b"1")])
    server.read_on(1)
    server.end(signal.SIGKILL)
    if values(program, folder, [b"a"]) != [b"1"]:
        fail("a killed server's put is lost")
    say("the lock goes with a server that is killed")


def duets(program, room):
    """Two servers that are started at once. One may end before the other opens the folder."""
    for duet in range(DUETS):
        folder = os.path.join(room, f"duet{duet}")
        keys = [[b"%d.%d" % (player, n) for n in range(PUTS)] for player in range(2)]
        players = [Server(program, folder) for _ in keys]
        for player, own in zip(players, keys):
            player.feed([put(key, key) for key in own])
        ends = [player.end() for player in players]
        if {status for status, _ in ends} - {0, 5} or all(status == 5 for status, _ in ends):
            fail(f"two servers at once: {ends}")
        for (status, answers), own in zip(ends, keys):
            count = len(answers)
            if count != (PUTS if status == 0 else 0) or values(program, folder, own)[:count] != own[:count]:
                fail(f"two servers at once: {count} answers at status {status}, and not all are there")
    say(f"{DUETS} times two servers at once: what was answered is there")


def two_servers(program, room):
    second_refused(program, room)
    killed_lock(program, room)
    duets(program, room)
