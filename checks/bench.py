#!/usr/bin/env python3
"""Measures the built server on this machine, beside what the machine itself can do.

Prints durable puts a second one by one, where each waits for its reply, and with all frames sent at once; reads a second in
the same two ways; both over a connection to a port, one by one and with 64 under way; how long an opening takes, how large the folder is and how much memory the server took after so many keys;
and the instructions of a put, of a new key and of one that is held, where valgrind is there. In front of them it prints the
machine's floor: appends of the bytes of a put with one fdatasync each, in the same folder. All that is compared is measured
in one run, since a disk's speed varies by the hour.

It is run by hand, and no gate reads its numbers. With the sizes that it has by itself it takes a few minutes at most: each
measure ends after the seconds that are given, and a number of keys that is not reached in their twentyfold is left out.
"""
import argparse
import os
import re
import shutil
import socket
import subprocess
import sys
import tempfile
import time

sys.dont_write_bytecode = True

from real_files import BUILT
from serving import WRITTEN, frame, put, read

VALUE = b"v" * 16
ANSWER = frame(WRITTEN)
# How many requests a client over a port has sent before it reads the first reply.
UNDER_WAY = 64


def key(n):
    return b"key%09d" % n


def puts(numbers):
    return b"".join(put(key(n), VALUE) for n in numbers)


def stop(why):
    sys.exit(f"bench: {why}")


def served(program, folder, data, limit=None, words=()):
    """The seconds of a run over these frames, all sent at once, and its output; None where it takes longer than the limit."""
    with tempfile.TemporaryFile() as given:
        given.write(data)
        given.seek(0)
        started = time.monotonic()
        try:
            ended = subprocess.run([*words, program, folder], stdin=given, capture_output=True, timeout=limit)
        except subprocess.TimeoutExpired:
            return None
    if ended.returncode:
        stop(f"the server ended with status {ended.returncode}: {ended.stderr.decode(errors='replace')[-300:]}")
    return time.monotonic() - started, ended.stdout


class Server:
    """A server that is sent one frame at a time."""

    def __init__(self, program, folder):
        how = {"stdin": subprocess.PIPE, "stdout": subprocess.PIPE, "bufsize": 0}
        self.running = subprocess.Popen([program, folder], **how)

    def ask(self, sent):
        """The body of the reply to a frame."""
        self.running.stdin.write(sent)
        size = int.from_bytes(self.taken(8), "big")
        return self.taken(size)

    def taken(self, size):
        out = b""
        while len(out) < size:
            piece = self.running.stdout.read(size - len(out))
            if not piece:
                stop("the server ended before it replied")
            out += piece
        return out

    def peak(self):
        """The most memory that it has held so far, in bytes."""
        with open(f"/proc/{self.running.pid}/status", encoding="ascii") as file:
            return 1024 * int(re.search(r"VmHWM:\s+(\d+)", file.read())[1])

    def end(self):
        self.running.stdin.close()
        self.running.stdout.read()
        if self.running.wait():
            stop(f"the server ended with status {self.running.returncode}")


class Connection:
    """A server that listens on a port, and its client."""

    def __init__(self, program, folder):
        with socket.create_server(("127.0.0.1", 0)) as taken:
            self.port = taken.getsockname()[1]
        self.running = subprocess.Popen([program, folder, "--listen", str(self.port)])
        self.client = self.connected()
        self.client.setsockopt(socket.IPPROTO_TCP, socket.TCP_NODELAY, 1)
        self.replies = self.client.makefile("rb")

    def connected(self):
        """The connection, once the server listens."""
        while self.running.poll() is None:
            try:
                return socket.create_connection(("127.0.0.1", self.port))
            except ConnectionRefusedError:
                time.sleep(0.01)
        return stop(f"the server ended with status {self.running.returncode}")

    def ask(self, sent):
        """The body of the reply to a frame."""
        self.client.sendall(sent)
        return self.reply()

    def reply(self):
        size = int.from_bytes(self.replies.read(8), "big")
        body = self.replies.read(size)
        return body if body else stop("the server ended before it replied")

    def under_way(self, sent, seconds):
        """Replies a second, where so many frames are under way."""
        count, started = 0, time.monotonic()
        self.client.sendall(b"".join(sent(n) for n in range(UNDER_WAY)))
        while time.monotonic() - started < seconds:
            self.reply()
            self.client.sendall(sent(count + UNDER_WAY))
            count += 1
        rate = count / (time.monotonic() - started)
        for _ in range(UNDER_WAY):
            self.reply()
        return rate

    def end(self):
        self.client.shutdown(socket.SHUT_WR)
        self.replies.read()
        if self.running.wait():
            stop(f"the server ended with status {self.running.returncode}")


def each_waits(call, seconds):
    """How often a second a call is done, one behind the other, for so many seconds."""
    count, started = 0, time.monotonic()
    while time.monotonic() - started < seconds:
        call(count)
        count += 1
    return count / (time.monotonic() - started)


def floor(room, size, seconds):
    """Appends of so many bytes a second, each with a call of fdatasync behind it."""
    with open(os.path.join(room, "floor"), "ab", buffering=0) as file:

        def append(_):
            file.write(b"x" * size)
            os.fdatasync(file.fileno())

        return each_waits(append, seconds)


def one_by_one(program, folder, sent, seconds):
    """Replies a second, where each frame waits for the reply to the one before."""
    server = Server(program, folder)
    server.ask(read(key(0)))
    rate = each_waits(lambda n: server.ask(sent(n)), seconds)
    server.end()
    return rate


def at_once(program, folder, frames, count):
    """Replies a second, where all frames are there from the beginning. The opening is in the time."""
    seconds, out = served(program, folder, frames)
    return count / seconds, out


def rates(program, room, seconds):
    print(f"{floor(room, len(put(key(0), VALUE)), seconds):12,.0f}  appends a second, of the bytes of a put and an fdatasync each")
    folder = os.path.join(room, "rates")
    rate = one_by_one(program, folder, lambda n: put(key(n), VALUE), seconds)
    print(f"{rate:12,.0f}  durable puts a second, one by one")
    count = max(int(rate * seconds), 10)
    rate, out = at_once(program, folder, puts(range(count)), count)
    if out != ANSWER * count:
        stop("a put was answered otherwise")
    print(f"{rate:12,.0f}  durable puts a second, all frames sent at once")
    print(f"{one_by_one(program, folder, lambda n: read(key(n % count)), seconds):12,.0f}  reads a second, one by one")
    asked = b"".join(read(key(n % count)) for n in range(20000))
    print(f"{at_once(program, folder, asked, 20000)[0]:12,.0f}  reads a second, all frames sent at once", flush=True)


def over_port(program, room, seconds):
    """The same over a connection."""
    server = Connection(program, os.path.join(room, "port"))
    server.ask(read(key(0)))
    for what, sent in [("durable puts", lambda n: put(key(n), VALUE)), ("reads", lambda n: read(key(n % 1000)))]:
        print(f"{each_waits(lambda n: server.ask(sent(n)), seconds):12,.0f}  {what} a second over a port, one by one")
        print(f"{server.under_way(sent, seconds):12,.0f}  {what} a second over a port, {UNDER_WAY} under way", flush=True)
    server.end()


def size_of(folder):
    found = [os.stat(os.path.join(folder, name)) for name in os.listdir(folder)]
    return sum(it.st_size for it in found)


def opening(program, room, count, limit):
    """Prints what a folder with so many keys costs to open, up to the reply to a first read."""
    folder = os.path.join(room, f"keys{count}")
    if served(program, folder, puts(range(count)), limit) is None:
        print(f"{count:12,} keys: not put in {limit:.0f} seconds")
        return
    started = time.monotonic()
    server = Server(program, folder)
    body = server.ask(read(key(count - 1)))
    seconds, peak = time.monotonic() - started, server.peak()
    server.end()
    if not body.endswith(VALUE):
        stop("a key that was put is not there")
    print(f"{count:12,} keys: opened in {seconds:.3f} s, {size_of(folder) / 1e6:.2f} MB of files, {peak / 1e6:.1f} MB of memory", flush=True)
    shutil.rmtree(folder)


def churned(program, room, count, limit):
    """Prints the folder that many puts of a hundred keys leave beside a fresh one of the same pairs, and what each takes to open."""
    pairs = [put(key(n), b"v" * 100) for n in range(100)]
    told = []
    for what, times in (("fresh", 1), ("churned", count // 100)):
        folder = os.path.join(room, what)
        if served(program, folder, b"".join(pairs) * times, limit) is None:
            print(f"{count:12,} puts of 100 keys: not done in {limit:.0f} seconds")
            return
        started = time.monotonic()
        server = Server(program, folder)
        server.ask(read(key(99)))
        told.append((size_of(folder), time.monotonic() - started))
        server.end()
        shutil.rmtree(folder)
    (fresh, quick), (size, seconds) = told
    print(f"{count:12,} puts of 100 keys: {size / 1e6:.2f} MB of files, opened in {seconds:.3f} s; 100 puts of them: {fresh / 1e6:.2f} MB, {quick:.3f} s", flush=True)


def instructions(program, room, numbers):
    """The instructions of a run that puts the keys of these numbers."""
    told = os.path.join(room, "callgrind")
    folder = os.path.join(room, "counted")
    words = ["valgrind", "--quiet", "--tool=callgrind", f"--callgrind-out-file={told}"]
    served(program, folder, puts(numbers), words=words)
    shutil.rmtree(folder)
    with open(told, encoding="utf-8", errors="replace") as file:
        found = re.search(r"^(?:summary|totals): (\d+)", file.read(), re.M)
    return int(found[1]) if found else stop("callgrind tells no sum")


def counted(program, room):
    """Prints the instructions of a put: what 500 more cost, from their frames to their part of the end, behind a hundred first ones."""
    if not shutil.which("valgrind"):
        print("             instructions of a put were not counted: there is no valgrind")
        return
    first = list(range(100))
    before = instructions(program, room, first)
    for what, more in (("a new key", range(100, 600)), ("a key that is held", first * 5)):
        each = (instructions(program, room, [*first, *more]) - before) / 500
        print(f"{each:12,.0f}  instructions of a put of {what}, by callgrind", flush=True)


def options():
    parser = argparse.ArgumentParser(description=__doc__, formatter_class=argparse.RawDescriptionHelpFormatter)
    parser.add_argument("program", metavar="PROGRAM", nargs="?", default=BUILT, help="the built server (what `rt ci` leaves)")
    parser.add_argument("--seconds", type=float, default=3, help="how long each rate is measured (%(default)s)")
    parser.add_argument("--keys", default="1000,10000,100000", help="the numbers of keys that are opened (%(default)s)")
    parser.add_argument("--churn", type=int, default=200000, help="how many puts of a hundred keys a folder is filled with (%(default)s)")
    parser.add_argument("--folder", help="where the files lie while it runs; without it, the system's place for such files")
    asked = parser.parse_args()
    asked.keys = [int(it) for it in asked.keys.split(",") if it]
    return asked


def main():
    asked = options()
    if not os.path.isfile(asked.program):
        stop(f"{asked.program} is not there; rt ci builds it")
    program = os.path.abspath(asked.program)
    with tempfile.TemporaryDirectory(prefix="hevlicar-bench-", dir=asked.folder) as room:
        rates(program, room, asked.seconds)
        over_port(program, room, asked.seconds)
        for count in asked.keys:
            opening(program, room, count, 20 * asked.seconds)
        churned(program, room, asked.churn, 200 * asked.seconds)
        counted(program, room)


if __name__ == "__main__":
    main()
