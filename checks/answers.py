"""Requests of all kinds at random, beside a plain map: each answer and each event is the map's, also behind kills."""
import os
import signal
import time

from serving import Server, blob, bodies, fail, frame, number, run, say
from stops import plain

RUNS, REQUESTS, STOPS, UNDER_WAY = 6, 400, 20, 300
KEYS = [b"", b"a", b"ab", b"abc", b"b", b"/x/1", b"/x/2", b"\xff", b"k" * 40]
PREFIXES = [b"", b"a", b"/x/", b"\xff", b"none"]
WATCHED = [b"/", b"/x/", b"/x/1/", b"/x", b"x/", b""]
PUT, DELETE = 1, 2
INVALID = bytes.fromhex("010e000000")
NO_LEASE = bytes.fromhex("0603")
NO_PREFIX = bytes.fromhex("0601")
ITSELF = bytes.fromhex("050000000000000000" "0100000001" "0000000000000001" "00000001000000000000000e") + b"127.0.0.1:9081" + bytes.fromhex("0000000000000002")


def text(draw, most=60):
    return bytes(draw.randrange(256) for _ in range(draw.randrange(most)))


def option(data):
    return b"\0" if data is None else b"\1" + blob(data)


class Plain:
    """The map that the server is to be: pairs, the index of the last entry, and who watches. Each request is answered with
    the bodies that are sent."""

    def __init__(self):
        self.pairs, self.index, self.watchers = {}, 0, []

    def copy(self):
        other = Plain()
        other.pairs, other.index, other.watchers = dict(self.pairs), self.index, list(self.watchers)
        return other

    def opened(self):
        """The opening takes an index, and nobody watches."""
        self.index += 1
        self.watchers = []

    def written(self, done, events=()):
        return [bytes.fromhex("0100000001") + bytes([done]), *events]

    def events(self, kind, key, value):
        """What those who watch the key are told of its change, which is not made yet."""
        told = []
        for watcher, (watched, prefix, earlier) in enumerate(self.watchers, 1):
            if key.startswith(watched) if prefix else key == watched:
                before = self.pairs.get(key, b"") if earlier else b""
                told.append(b"\4" + number(watcher) + bytes([kind]) + number(self.index) + blob(key) + blob(value) + blob(before))
        return told

    def watch(self, key, prefix, earlier):
        if prefix and not (key.startswith(b"/") and key.endswith(b"/")):
            return [NO_PREFIX]
        self.watchers.append((key, prefix, earlier))
        return [b"\3" + number(len(self.watchers))]

    def insert(self, key, value, ttl):
        if ttl:
            return [NO_LEASE]
        self.index += 1
        events = self.events(PUT, key, value)
        self.pairs[key] = value
        return self.written(True, events)

    def delete(self, key):
        self.index += 1
        events = self.events(DELETE, key, b"")
        self.pairs.pop(key, None)
        return self.written(True, events)

    def swap(self, key, expected, value):
        self.index += 1
        if self.pairs.get(key) != expected:
            return self.written(False)
        events = self.events(PUT, key, value)
        self.pairs[key] = value
        return self.written(True, events)

    def read(self, keys):
        found = [blob(key) + blob(self.pairs[key]) for key in keys if key in self.pairs]
        return [bytes.fromhex("0100000002") + number(len(found)) + b"".join(found)]

    def scan(self, prefix):
        found = [blob(key) + blob(self.pairs[key]) for key in sorted(self.pairs) if key.startswith(prefix)]
        return [b"\2" + number(self.index) + number(len(found)) + b"".join(found)]


def drawn(draw):
    """A frame, and what a map answers to it."""
    client = draw.randrange(1 << 32).to_bytes(4, "big")
    key, value = draw.choice(KEYS), text(draw)
    kind = draw.randrange(12)
    if kind < 3:
        ttl = draw.choice([0, 0, 0, 5])
        return frame(b"\1" + client + b"\1" + blob(key) + blob(value) + number(ttl)), lambda m: m.insert(key, value, ttl)
    if kind == 3:
        return frame(b"\1" + client + b"\2" + blob(key)), lambda m: m.delete(key)
    if kind < 6:
        few = draw.choice([b"x", b"y"])
        expected = draw.choice([None, b"x", b"y"])
        return frame(b"\1" + client + b"\3" + blob(key) + option(expected) + blob(few)), lambda m: m.swap(key, expected, few)
    if kind < 8:
        keys = [draw.choice(KEYS) for _ in range(draw.randrange(5))]
        policy = bytes([draw.randrange(256)])
        return frame(b"\2" + client + policy + number(len(keys)) + b"".join(map(blob, keys))), lambda m: m.read(keys)
    if kind == 8:
        prefix = draw.choice(PREFIXES)
        return frame(b"\3" + client + blob(prefix)), lambda m: m.scan(prefix)
    if kind == 9:
        return frame(b"\1" + client + b"\0"), lambda m: [INVALID]
    if kind == 10:
        # No request begins so, and none has a byte behind its end.
        bad = draw.choice([b"", b"\0" + text(draw), b"\7" + text(draw), b"\3" + client + blob(key) + b"\0"])
        return frame(bad), lambda m: [INVALID]
    if draw.randrange(4) == 0:
        return frame(b"\5" + client), lambda m: [ITSELF]
    prefix, earlier = draw.random() < 0.5, draw.random() < 0.5
    watched = draw.choice(WATCHED) if prefix else key
    return frame(b"\4" + client + bytes([prefix, earlier]) + blob(watched)), lambda m: m.watch(watched, prefix, earlier)


def answered(what, body, wanted):
    if body != wanted:
        fail(f"{what} is answered {body!r}, and is to be answered {wanted!r}")


def whole_runs(program, room, draw):
    """Runs to their end over one folder: each answer is the map's."""
    folder, plain_map, told = os.path.join(room, "requests"), Plain(), 0
    for number_of_run in range(RUNS):
        asked = [drawn(draw) for _ in range(REQUESTS)]
        tail = draw.choice([b"", b"\0\0\0", number(9) + b"\1"])
        status, out, lines = run(program, folder, [data for data, _ in asked] + [tail])
        found = bodies(out)
        plain_map.opened()
        wanted = [(f"request {n} of run {number_of_run}, {data!r},", body) for n, (data, answer) in enumerate(asked) for body in answer(plain_map)]
        wanted += [("a torn tail", INVALID)] if tail else []
        if status or len(found) != len(wanted):
            fail(f"run {number_of_run}: status {status}, {lines!r}, {len(found)} answers and events, and {len(wanted)} are to be")
        for (what, body), sent in zip(wanted, found):
            answered(what, sent, body)
        told += sum(body.startswith(b"\4") for body in found)
    say(f"{RUNS} runs of {REQUESTS} requests of all kinds, each answered as a plain map answers, with {told} events")


def stopped_runs(program, room, draw):
    """Kills in the midst of requests: what was answered stands, and of the rest no more than a front was done."""
    folder, plain_map, total = os.path.join(room, "stopped"), Plain(), 0
    for stop in range(STOPS):
        asked = [drawn(draw) for _ in range(UNDER_WAY)]
        server = Server(program, folder, plain)
        server.feed([data for data, _ in asked])
        server.read_on(draw.randrange(1, UNDER_WAY // 2))
        time.sleep(draw.random() / 100)
        status, found = server.end(signal.SIGKILL)
        if status != -signal.SIGKILL:
            fail(f"stop {stop}: status {status}")
        plain_map.opened()
        done, left = 0, found
        while left:
            wanted = asked[done][1](plain_map)
            for body, sent in zip(wanted, left):
                answered(f"request {done} of stop {stop}", sent, body)
            done, left = done + 1, left[len(wanted):]
        total += done
        plain_map = behind(program, folder, plain_map, [answer for _, answer in asked[done:]])
    say(f"{STOPS} kills in the midst of requests of all kinds, {total} were answered, and what stands is a map's behind a front of them")


def behind(program, folder, plain_map, rest):
    """The map that stands in the folder: what was answered, or that with some more requests done, in their order."""
    scan = frame(b"\3\0\0\0\1" + number(0))
    status, out, lines = run(program, folder, [scan])
    found = bodies(out)
    if status or len(found) != 1:
        fail(f"a folder is not opened again: status {status}, {lines!r}")
    plain_map = plain_map.copy()
    # One request may be done whose answer was not sent.
    for answer in [None, *rest[:1]]:
        if answer is not None:
            answer(plain_map)
        again = plain_map.copy()
        again.opened()
        if again.scan(b"") == found:
            return again
    fail(f"what stands is {found[0]!r}, and is to be {plain_map.scan(b'')[0]!r} or the map before")
