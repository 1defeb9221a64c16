"""Servers that are stopped in the midst of their writes: nothing that they answered is lost, and the folder opens again."""
import os
import random
import resource
import shutil
import signal
import time

from serving import WRITTEN, Server, as_nobody, bodies, fail, owned, put, run, say, values

KILLS, FOLDERS, PUTS = 50, 5, 1000
VALUE = b"v" * 2000
# A checkpoint and a purge come once in a thousand puts: these kills come where they are due.
FEW, REWRITES, BEFORE, BEHIND = 8, 30, 985, 40
FAMILIES = ["log", "meta", "state"]


def plain():
    """As nobody, with the signals as a shell leaves them, and no core files."""
    as_nobody()
    for number in (signal.SIGINT, signal.SIGTERM, signal.SIGXFSZ):
        signal.signal(number, signal.SIG_DFL)
    resource.setrlimit(resource.RLIMIT_CORE, (0, 0))


def limited():
    """A file may have no more than the room of a slot's first growth."""
    plain()
    resource.setrlimit(resource.RLIMIT_FSIZE, (65536, 65536))


def count_of(answers):
    if any(body != WRITTEN for body in answers):
        fail("a put was answered otherwise")
    return len(answers)


def stopped(program, folder, frames, answers, how):
    """How many of the frames were answered by a run that a signal stops behind so many answers."""
    server = Server(program, folder, plain)
    server.feed(frames)
    server.read_on(answers)
    time.sleep(0 if answers else random.random() / 50)
    status, answered = server.end(how)
    if status != -how:
        fail(f"status {status} where {how.name} stopped the server")
    return count_of(answered)


def check_held(program, folder, keys, held, new, count):
    """The first `count` puts stand, the next one may, and no other does."""
    for n, value in enumerate(values(program, folder, keys)):
        if n < count and value != new[n]:
            fail(f"put {n} of {count} that were answered is lost: {value!r} stands for {new[n]!r}")
        if n == count and value not in (held[n], new[n]) or n > count and value != held[n]:
            fail(f"put {n} was not made, behind {count} that were answered: {value!r}")
        held[n] = value


def kills(program, room, draw):
    keys = [b"key%04d" % n for n in range(PUTS)]
    answered = 0
    for round_number in range(FOLDERS):
        folder = os.path.join(room, f"killed{round_number}")
        held = [None] * PUTS
        for kill in range(KILLS // FOLDERS):
            new = [b"%d.%d.%d" % (round_number, kill, n) for n in range(PUTS)]
            # Every fifth is killed at once: in its opening, or before its first answer.
            answers = 0 if kill % 5 == 4 else draw.randrange(1, 60)
            count = stopped(program, folder, list(map(put, keys, new)), answers, signal.SIGKILL)
            answered += count
            check_held(program, folder, keys, held, new, count)
    say(f"{KILLS} kills in the midst of {PUTS} puts each, {answered} puts were answered and none is lost")


def other_slot(folder, family):
    """The slot that a family's head does not name: a rewrite fills it, and then empties the one that was named."""
    head = os.path.join(folder, f"{family}.head")
    named = open(head, "rb").read(1) if os.path.exists(head) else b""
    return os.path.join(folder, family + (".a" if named == b"\x01" else ".b"))


def has_bytes(path):
    return os.path.exists(path) and os.path.getsize(path) > 0


def killed_inside(program, folder, frames, family, pause):
    """How many of the frames were answered by a run that is killed a pause behind the first bytes of a family's rewrite."""
    slot = other_slot(folder, family)
    server = Server(program, folder, plain)
    server.feed(frames)
    while not has_bytes(slot) and server.process.poll() is None:
        pass
    time.sleep(pause)
    status, answered = server.end(signal.SIGKILL)
    if status != -signal.SIGKILL or not has_bytes(slot):
        fail(f"status {status} where {family} is to be written anew")
    return count_of(answered)


def rewrites(program, room, draw):
    """Kills where checkpoints and purges are due, in puts of a few keys: nothing that was answered is lost."""
    keys = [b"few%d" % (n % FEW) for n in range(BEFORE + BEHIND)]
    answered, fell = 0, 0
    ready = os.path.join(room, "ready")
    status, out, lines = run(program, ready, [put(key, b"0.%d" % n) for n, key in enumerate(keys[:BEFORE])])
    if status or count_of(bodies(out)) != BEFORE:
        fail(f"{BEFORE} puts of {FEW} keys: status {status}, {lines!r}")
    for kill in range(REWRITES):
        folder = os.path.join(room, f"rewritten{kill}")
        shutil.copytree(ready, folder)
        owned(folder)
        new = [b"%d.%d" % (kill + 1, n) for n in range(BEHIND)]
        pause = draw.choice([0, 0.001]) * draw.random()
        count = killed_inside(program, folder, list(map(put, keys[BEFORE:], new)), FAMILIES[kill % 3], pause)
        fell += any(has_bytes(other_slot(folder, family)) for family in FAMILIES)
        answered += count
        check_few(program, folder, keys, [b"0.%d" % n for n in range(BEFORE)] + new, BEFORE + count)
        shutil.rmtree(folder)
    say(f"{REWRITES} kills where checkpoints and purges are due, {fell} of them inside a rewrite; {answered} puts were answered and none is lost")


def check_few(program, folder, keys, made, count):
    """Each key has its last value of the first `count` puts, or of one more."""
    found = values(program, folder, keys[:FEW])
    allowed = [dict(zip(keys[:n], made[:n])) for n in (count, min(count + 1, len(made)))]
    if dict(zip(keys[:FEW], found)) not in allowed:
        fail(f"behind {count} puts of {FEW} keys stand {found!r}")


def signals(program, room, draw):
    keys = [b"key%04d" % n for n in range(PUTS)]
    folder = os.path.join(room, "signals")
    held = [None] * PUTS
    for turn, how in enumerate([signal.SIGTERM, signal.SIGINT] * 3):
        new = [b"%d.%d" % (turn, n) for n in range(PUTS)]
        count = stopped(program, folder, list(map(put, keys, new)), draw.randrange(1, 40), how)
        check_held(program, folder, keys, held, new, count)
    say("SIGTERM and SIGINT in the midst of puts end the server at once, and no put that was answered is lost")


def file_size_signal(program, room):
    keys = [b"key%04d" % n for n in range(PUTS)]
    folder = os.path.join(room, "limited")
    server = Server(program, folder, limited)
    server.feed([put(key, VALUE) for key in keys])
    status, answered = server.ended()
    count = count_of(answered)
    if status != -signal.SIGXFSZ or not 0 < count < PUTS:
        fail(f"a file size limit: status {status}, {count} answers")
    if any(value != VALUE for value in values(program, folder, keys)[:count]):
        fail("a put that was answered before a file size limit is lost")
    say(f"SIGXFSZ behind {count} puts ends the server at once, and no put that was answered is lost")
