"""The words of the program, and what it serves over a port and drives in memory: partial frames, many at once, clients that go away
or read slowly, a second client and a second server, and a configuration from a file."""
import os
import socket
import struct
import subprocess
import time

from faults import USAGE, link
from serving import LIMIT, WRITTEN, as_nobody, bodies, fail, frame, number, owned, put, read, run, say, value_in, values, wants

PIECES, AT_ONCE, LONG = 40, 1000, 1 << 20
LEASES = b"[raft.state_machine.lease]\nenabled = true\n"
DRIVES = [
    (0, b"requests=0 keys=0 index=1 bytes=25\n"),
    (1, b"requests=1 keys=1 index=2 bytes=67\n"),
]


def free_port():
    """A port that nobody listened on a moment ago."""
    with socket.create_server(("127.0.0.1", 0)) as taken:
        return taken.getsockname()[1]


class Listener:
    """A server that listens on a port, and the one client that it takes."""

    def __init__(self, program, folder, *words):
        self.port = free_port()
        words = [program, folder, "--listen", str(self.port), *words]
        self.process = subprocess.Popen(words, preexec_fn=as_nobody, stdin=subprocess.DEVNULL, stdout=subprocess.PIPE, stderr=subprocess.PIPE)
        self.client = self.connected()
        self.out = b""

    def connected(self):
        """A connection, once the server listens."""
        until = time.monotonic() + LIMIT
        while time.monotonic() < until and self.process.poll() is None:
            try:
                return socket.create_connection(("127.0.0.1", self.port), LIMIT)
            except ConnectionRefusedError:
                time.sleep(0.01)
        return fail(f"no server listens: {self.process.poll()}")

    def read_on(self, count):
        """Reads until so many frames were answered, and gives their bodies."""
        while len(bodies(self.out)) < count:
            piece = self.client.recv(65536)
            if not piece:
                fail("the server over a port ended before its time")
            self.out += piece
        return bodies(self.out)

    def reset(self):
        """Goes away without a word, so that the server's connection is reset."""
        self.client.setsockopt(socket.SOL_SOCKET, socket.SO_LINGER, struct.pack("ii", 1, 0))
        self.client.close()

    def ended(self):
        """Its status, what it wrote to standard output, and its lines."""
        out, lines = self.process.communicate(timeout=LIMIT)
        self.client.close()
        return self.process.returncode, out, lines

    def end(self):
        """Ends the input, and gives the bodies of all replies and what the server ended with."""
        self.client.shutdown(socket.SHUT_WR)
        while piece := self.client.recv(65536):
            self.out += piece
        return bodies(self.out), self.ended()


def words(program, room):
    """Words that do not parse, whatever else they say: status 2, and nothing is made."""
    here = os.path.join(room, "words")
    os.mkdir(here)
    owned(here)
    for given in [
        [],
        ["a", "b"],
        ["-x"],
        ["d", "--listen", "0"],
        ["d", "--listen", "65536"],
        ["d", "--listen", "080"],
        ["d", "--listen"],
        ["d", "--drive", "x"],
        ["d", "--drive", "1000001"],
        ["d", "--drive", "+1"],
        ["d", "--drive", "1", "--listen", "4000"],
        ["d", "--config", "a", "--config", "b"],
        ["d", "--help"],
        ["--version"],
    ]:
        ended = subprocess.run([program, *given], input=b"", capture_output=True, cwd=here, preexec_fn=as_nobody, timeout=LIMIT)
        wants(f"the words {given}", (ended.returncode, ended.stdout, ended.stderr), 2, USAGE)
    if os.listdir(here):
        fail("words that do not parse made files")
    say("words that do not parse are a faulty command line, and nothing is made")


def driven(program, room):
    """What is driven needs neither folder nor input, and says the same each time."""
    folder = os.path.join(room, "driven")

    def drive(count):
        how = {"stdin": subprocess.DEVNULL, "capture_output": True, "preexec_fn": as_nobody, "timeout": LIMIT}
        ended = subprocess.run([program, folder, "--config", "/none", "--drive", str(count)], **how)
        return ended.returncode, ended.stdout, ended.stderr

    for count, line in DRIVES:
        wants(f"{count} driven requests", drive(count), 0, b"", line)
    first, second = drive(2000), drive(2000)
    if first != second or first[0] or not first[1].startswith(b"requests=2000 keys="):
        fail(f"2,000 driven requests: {first} and {second}")
    if os.path.exists(folder):
        fail("a drive made a folder")
    say("driven requests, and nothing is made")


def in_pieces(program, room):
    """Frames that arrive byte by byte, each answered as soon as it is whole."""
    server = Listener(program, os.path.join(room, "pieces"))
    for n in range(PIECES):
        for byte in put(b"key", b"%d" % n):
            server.client.send(bytes([byte]))
        server.read_on(n + 1)
    server.client.sendall(read(b"key")[:5])
    server.client.sendall(read(b"key")[5:])
    if value_in(server.read_on(PIECES + 1)[-1]) != b"%d" % (PIECES - 1):
        fail("frames in pieces: another value was read")
    replies, ended = server.end()
    if replies[:PIECES] != [WRITTEN] * PIECES or ended != (0, b"", b""):
        fail(f"frames in pieces: {ended}")
    say(f"{PIECES} frames that arrive byte by byte over a port")


def at_once(program, room):
    """Frames that arrive in one write."""
    folder = os.path.join(room, "at-once")
    server = Listener(program, folder)
    server.client.sendall(b"".join(put(b"key%d" % n, b"%d" % n) for n in range(AT_ONCE)))
    replies, ended = server.end()
    if replies != [WRITTEN] * AT_ONCE or ended != (0, b"", b""):
        fail(f"{AT_ONCE} frames in one write: {len(replies)} replies, {ended}")
    if values(program, folder, [b"key0", b"key%d" % (AT_ONCE - 1)]) != [b"0", b"%d" % (AT_ONCE - 1)]:
        fail("frames in one write: a put is lost")
    say(f"{AT_ONCE} frames in one write over a port")


def slow_reader(program, room):
    """A client that asks for more than the connection holds, and reads later."""
    server = Listener(program, os.path.join(room, "slow"))
    server.client.sendall(put(b"long", b"v" * LONG))
    server.read_on(1)
    server.client.sendall(read(b"long") * 20)
    time.sleep(1)
    replies, ended = server.end()
    if [value_in(body) for body in replies[1:]] != [b"v" * LONG] * 20 or ended != (0, b"", b""):
        fail(f"a slow reader: {len(replies)} replies, {ended}")
    say("a client that reads slowly gets all that it asked for")


def gone_client(program, room):
    """A client that goes away in the midst of a reply: what it was told of a put stands."""
    folder = os.path.join(room, "gone")
    server = Listener(program, folder)
    server.client.sendall(put(b"long", b"v" * LONG))
    server.read_on(1)
    server.client.sendall(read(b"long") * 20)
    server.client.recv(1000)
    server.reset()
    status, out, lines = server.ended()
    gone = [link(b"what is sent to the client: " + why) for why in (b"Connection reset by peer (os error 104)", b"Broken pipe (os error 32)")]
    if status != 6 or out or lines not in gone:
        fail(f"a client that goes away: status {status}, lines {lines!r}")
    server = Listener(program, folder)
    server.client.sendall(put(b"a", b"b") + read(b"a")[:10])
    server.read_on(1)
    server.reset()
    lines = link(b"what the client sends: Connection reset by peer (os error 104)")
    wants("a client that goes away in a frame", server.ended(), 6, lines)
    if values(program, folder, [b"long", b"a"]) != [b"v" * LONG, b"b"]:
        fail("a client that went away: a put that was answered is lost")
    say("a client that goes away is a link fault, and what it was told stands")


def second_client(program, room):
    """A second client waits unanswered, and is turned away when the server ends with the first one."""
    server = Listener(program, os.path.join(room, "second"))
    server.client.sendall(put(b"a", b"b"))
    server.read_on(1)
    with socket.create_connection(("127.0.0.1", server.port), LIMIT) as second:
        second.sendall(put(b"a", b"c"))
        second.settimeout(0.5)
        try:
            fail(f"a second client was answered: {second.recv(100)!r}")
        except TimeoutError:
            pass
        server.client.sendall(read(b"a"))
        if value_in(server.read_on(2)[-1]) != b"b":
            fail("a second client's put was carried out")
        server.end()
        second.settimeout(LIMIT)
        try:
            left = second.recv(100)
        except ConnectionResetError:
            left = b""
        if left:
            fail(f"a second client was answered behind the first: {left!r}")
    say("a second client waits unanswered while the first is served")


def second_server(program, room):
    """A second server on the port, and one on the folder: each is refused, and the first goes on."""
    folder = os.path.join(room, "port-held")
    server = Listener(program, folder)
    server.client.sendall(put(b"a", b"b"))
    server.read_on(1)
    held = str(server.port)
    for what, at, status, lines in [
        ("port", os.path.join(room, "port-other"), 6, link(f"port {held}: Address already in use (os error 98)".encode())),
        ("folder", folder, 5, b"den_server: storage fault\n  the folder is in use by another server\n"),
    ]:
        ended = subprocess.run([program, at, "--listen", held], input=b"", capture_output=True, preexec_fn=as_nobody, timeout=LIMIT)
        wants(f"a second server on the {what}", (ended.returncode, ended.stdout, ended.stderr), status, lines)
    server.client.sendall(read(b"a"))
    if value_in(server.read_on(2)[-1]) != b"b" or server.end()[1] != (0, b"", b""):
        fail("a second server disturbed the first")
    say("a second server on the port or on the folder is refused, and the first goes on")


def with_ttl(key, value, seconds):
    body = put(key, value)[8:-8] + number(seconds)
    return frame(body)


def configured(program, room):
    """A configuration from a file: leases, a text that is none, a key that is refused, a file that is not there."""

    def served(text, frames):
        with open(path, "wb") as file:
            file.write(text)
        return run(program, folder, frames, words=["--config", path])

    folder, path = os.path.join(room, "configured"), os.path.join(room, "node.toml")
    asked = [with_ttl(b"a", b"b", 100), read(b"a")]
    status, out, lines = served(LEASES, asked)
    if (status, lines) != (0, b"") or bodies(out)[0] != WRITTEN or value_in(bodies(out)[1]) != b"b":
        fail(f"leases from a file: {status}, {out!r}, {lines!r}")
    # Under the default configuration the folder, which holds an expiry now, is refused.
    wants("a lease without its configuration", run(program, folder, []), 9, b"den_server: lease is not enabled\n")
    interval = b"den_server: bad configuration at raft.state_machine.lease.cleanup_interval_ms\n"
    wants("an interval of 0", served(b"[raft.state_machine.lease]\ncleanup_interval_ms = 0", asked), 3, interval)
    wants("no TOML", served(b"[[", asked), 3, b"den_server: bad configuration at text\n")
    wants("no text", served(b"\xff", asked), 3, b"den_server: bad configuration at text\n")
    os.remove(path)
    unread = b"den_server: configuration cannot be read\n  the configuration's file: No such file or directory (os error 2)\n"
    wants("no file", run(program, folder, asked, words=["--config", path]), 4, unread)
    other = os.path.join(room, "never-made")
    wants("no file", run(program, other, asked, words=["--config", path]), 4, unread)
    if os.path.exists(other):
        fail("a folder was made under a configuration that cannot be read")
    say("a configuration from a file, and each way in which one is refused")


def listening(program, room):
    words(program, room)
    driven(program, room)
    configured(program, room)
    in_pieces(program, room)
    at_once(program, room)
    slow_reader(program, room)
    gone_client(program, room)
    second_client(program, room)
    second_server(program, room)
