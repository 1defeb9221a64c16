#!/usr/bin/env python3
"""A client of the server: a module, and a command. It needs Python 3.8 and its standard library alone.

As a module, with bytes in and out:

    import den

    with den.Client.start("/tmp/den_store") as client:      # or den.Client.connect(7070)
        client.put(b"a", b"b")
        print(client.get(b"a"))                             # b'b', or None where the key is not held
        watch = client.watch(b"/jobs/", prefix=True)
        client.put(b"/jobs/1", b"ready")
        print(next(watch))                                  # the event of the put

`Client` has `put`, `get`, `get_many`, `delete`, `cas`, `scan`, `watch` and `members`. A refusal raises `Refused`, the
end of the stream (inside a reply, too) `Ended`, a server that does not come up `NotStarted`, and bytes that are no
reply `BadReply`. All four are a `DenError`. docs/FORMATS.md has the frames byte by byte.
"""
import argparse
import collections
import os
import select
import shlex
import socket
import subprocess
import sys
import tempfile
import time

BUILT = os.path.join(os.path.dirname(os.path.abspath(__file__)), "..", "crates", "den_program", "out", "den_program")
FRAME_LIMIT = 1 << 24
"""The most bytes of a request's body: the server takes none that is longer."""
REPLY_LIMIT = 1 << 30
"""The most bytes of a reply's body that a client takes, where it is given no other limit."""
PIECE = 1 << 16
AHEAD = 1 << 20
PATIENCE = 60.0
MOST = 2**64 - 1

CODES = (
    "Success ConnectionTimeout InvalidAddress LeaderChanged JoinError InvalidResponse VersionMismatch DiskFull "
    "DataCorruption StorageIoError StoragePermissionDenied KeyNotExist NotLeader StaleOperation InvalidRequest "
    "RateLimited ClusterUnavailable ProposeFailed TermOutdated RetryRequired WatchBufferOverflow General Uncategorized"
).split()
REFUSALS = {1: "InvalidPrefix", 2: "LimitExceeded", 3: "FeatureNotEnabled"}
KINDS = {1: "put", 2: "delete"}


class DenError(Exception):
    """What every error of a client is. `status` is what the command ends with."""

    status = 2


class TooLong(DenError, ValueError):
    """A request that is longer than the server takes. It was not sent."""


class Refused(DenError):
    """The server answered that it does not carry the request out. `code` names why; `leader` and `retry` (in
    milliseconds) are hints, each None where the server gave none."""

    status = 3

    def __init__(self, code, leader=None, retry=None):
        self.code, self.leader, self.retry = code, leader, retry
        hint = f"; the leader is node {leader.id} at {leader.address}" if leader else ""
        super().__init__(f"refused: {code}{hint}" + (f"; try again in {retry} ms" if retry is not None else ""))


class Ended(DenError):
    """The stream ended, or no reply came in time. A request without a reply may have been carried out or not."""

    status = 4


class NotStarted(DenError):
    """No server was reached: the program could not be started, refused its folder, or nothing listens on the port."""

    status = 5


class BadReply(DenError):
    """The server sent bytes that are no reply, or a reply to another request."""

    status = 6


Leader = collections.namedtuple("Leader", "id address")
Response = collections.namedtuple("Response", "code leader retry result")
"""`result` is None, the truth value of a write, or a read's list of pairs."""
Scan = collections.namedtuple("Scan", "revision pairs")
Watching = collections.namedtuple("Watching", "number")
Event = collections.namedtuple("Event", "watcher kind revision key value earlier")
"""`kind` is "put" or "delete"; `earlier` is empty where the watch did not ask for it."""
Node = collections.namedtuple("Node", "id address role status")
Members = collections.namedtuple("Members", "version leader nodes")
Refusal = collections.namedtuple("Refusal", "name")


def number(value, size=8):
    return value.to_bytes(size, "big")


def blob(data):
    return number(len(data)) + data


WRITE, READ, SCAN, WATCH, MEMBERS = (bytes([kind]) + number(1, 4) for kind in range(1, 6))


def put_request(key, value, ttl=None):
    if ttl is not None and not 1 <= ttl <= MOST:
        raise ValueError("a time to live is a number of seconds from 1 to 2^64 - 1")
    return WRITE + b"\1" + blob(key) + blob(value) + number(ttl or 0)


def delete_request(key):
    return WRITE + b"\2" + blob(key)


def cas_request(key, expected, value):
    return WRITE + b"\3" + blob(key) + (b"\0" if expected is None else b"\1" + blob(expected)) + blob(value)


def read_request(keys):
    return READ + b"\0" + number(len(keys)) + b"".join(map(blob, keys))


def scan_request(prefix):
    return SCAN + blob(prefix)


def watch_request(key, prefix=False, earlier=False):
    return WATCH + bytes([bool(prefix), bool(earlier)]) + blob(key)


def members_request():
    return MEMBERS


class Reader:
    """Reads values from the front of a body."""

    def __init__(self, body):
        self.body, self.at = body, 0

    def bytes(self, count):
        if count > len(self.body) - self.at:
            raise BadReply(f"a reply of {len(self.body)} bytes ends inside a value")
        self.at += count
        return self.body[self.at - count : self.at]

    def number(self, size=8, signed=False):
        return int.from_bytes(self.bytes(size), "big", signed=signed)

    def blob(self):
        return self.bytes(self.number())

    def text(self):
        try:
            return self.blob().decode()
        except UnicodeDecodeError:
            raise BadReply("a text of a reply is not UTF-8") from None

    def truth(self):
        return bool(self.one_of("a truth value", {0: 0, 1: 1}))

    def one_of(self, what, names):
        found = self.number(1)
        if found not in names:
            raise BadReply(f"{what} of a reply is {found}")
        return names[found]

    def option(self, read):
        return read() if self.truth() else None

    def list(self, read):
        """Each item takes a byte at least, so a count that is too great ends where the bytes do."""
        return [read() for _ in range(self.number())]

    def pair(self):
        return self.blob(), self.blob()

    def result(self):
        none, truth, pairs = (lambda: None), self.truth, (lambda: self.list(self.pair))
        return self.one_of("the kind of a result", {0: none, 1: truth, 2: pairs})()

    def leader(self):
        return Leader(self.number(4), self.text())

    def response(self):
        code = self.one_of("the code", dict(enumerate(CODES)))
        return Response(code, self.option(self.leader), self.option(self.number), self.result())

    def scan(self):
        return Scan(self.number(), self.list(self.pair))

    def event(self):
        watcher, kind = self.number(), self.one_of("the kind of an event", KINDS)
        return Event(watcher, kind, self.number(), self.blob(), self.blob(), self.blob())

    def node(self):
        return Node(self.number(4), self.text(), self.number(4, signed=True), self.number(4, signed=True))

    def members(self):
        return Members(self.number(), self.option(lambda: self.number(4)), self.list(self.node))


def decode(body):
    """The value of a reply's body. Raises BadReply where it is none."""
    reader = Reader(body)
    kinds = {
        1: reader.response,
        2: reader.scan,
        3: lambda: Watching(reader.number()),
        4: reader.event,
        5: reader.members,
        6: lambda: Refusal(reader.one_of("the refusal", REFUSALS)),
    }
    reply = reader.one_of("the first byte", kinds)()
    if reader.at != len(body):
        raise BadReply(f"{len(body) - reader.at} bytes stand behind a reply")
    return reply


class Watch:
    """The events of one watch, in their order. It is an iterator that waits for the next one, and raises Ended where
    the stream ends."""

    def __init__(self, client, reply):
        self.client, self.number = client, reply.number
        self.events = client.events[reply.number]

    def __iter__(self):
        return self

    def __next__(self):
        while not self.events:
            self.client.turn(None)
        return self.events.popleft()

    def arrived(self):
        """The events that have come and were not taken yet. It does not wait."""
        found = list(self.events)
        self.events.clear()
        return found


class Client:
    """One connection to a server. It reads replies while it writes, so that no pipe fills; `patience` is how many
    seconds it waits for a byte that is due (None: without end), `limit` the most bytes of a reply."""

    def __init__(self, given, taken, process=None, lines=None, patience=PATIENCE, limit=REPLY_LIMIT):
        self.given, self.taken, self.process, self.lines = given, taken, process, lines
        self.patience, self.limit = patience, limit
        self.outgoing, self.incoming = bytearray(), bytearray()
        self.asked, self.replies, self.events = 0, collections.deque(), {}
        self.over = self.cause = None
        self.closed = False
        for stream in (given, taken):
            os.set_blocking(stream.fileno(), False)

    @classmethod
    def connect(cls, port, wait=0.0, **more):
        """A client of the server that listens on this port of 127.0.0.1. It tries again for `wait` seconds where none
        does."""
        until = time.monotonic() + wait
        while True:
            try:
                made = socket.create_connection(("127.0.0.1", port))
                break
            except OSError as why:
                if time.monotonic() >= until:
                    raise NotStarted(f"port {port} of 127.0.0.1: {why.strerror or why}") from None
                time.sleep(0.05)
        made.setsockopt(socket.IPPROTO_TCP, socket.TCP_NODELAY, 1)
        return cls(made, made, **more)

    @classmethod
    def start(cls, folder, program=BUILT, **more):
        """A client of a server that it starts on this folder, and that ends with it. It answers once the folder is
        open."""
        # The server reads a word that begins with `-` as an option.
        folder = os.path.join(".", folder) if folder.startswith("-") else folder
        lines = tempfile.TemporaryFile()
        pipes = {"stdin": subprocess.PIPE, "stdout": subprocess.PIPE, "stderr": lines, "bufsize": 0}
        try:
            process = subprocess.Popen([program, folder], **pipes)
        except (OSError, ValueError) as why:
            lines.close()
            raise NotStarted(f"{program}: {getattr(why, 'strerror', None) or why}") from None
        client = cls(process.stdin, process.stdout, process, lines, **more)
        try:
            # A read of no key changes nothing, and its reply says that the folder is open.
            client.ask(read_request([]))
        except Ended:
            raise NotStarted(f"no server on the folder {folder!r}: {client.cause}") from None
        except BaseException:
            client.drop()
            raise
        return client

    def __enter__(self):
        return self

    def __exit__(self, kind, error, trace):
        if kind is None:
            self.close()
        else:
            self.drop()

    def send(self, body):
        if self.over:
            raise Ended(self.over)
        if len(body) > FRAME_LIMIT:
            raise TooLong(f"a request of {len(body)} bytes, and the server takes at most {FRAME_LIMIT}")
        self.outgoing += blob(body)
        self.asked += 1

    def ask(self, body):
        """The reply to a request of this body."""
        if not self.over and (self.asked or self.replies):
            raise RuntimeError("replies to earlier requests were not taken")
        self.send(body)
        while not self.replies:
            self.turn(self.patience)
        return self.replies.popleft()

    def ask_all(self, bodies):
        """Sends requests one behind the other without waiting, and gives the reply to each, in their order."""
        for body in bodies:
            self.send(body)
            while len(self.outgoing) > AHEAD:
                self.turn(self.patience)
            while self.replies:
                yield self.replies.popleft()
        while self.asked or self.replies:
            while not self.replies:
                self.turn(self.patience)
            yield self.replies.popleft()

    def turn(self, patience):
        """Waits until bytes can be written or have come, and writes and reads them."""
        if self.over:
            raise Ended(self.over)
        waits = select.poll()
        if self.given is self.taken:
            waits.register(self.taken, select.POLLIN | (select.POLLOUT if self.outgoing else 0))
        else:
            waits.register(self.taken, select.POLLIN)
            if self.outgoing:
                waits.register(self.given, select.POLLOUT)
        if not waits.poll(None if patience is None else patience * 1000):
            self.end(f"no reply came in {patience:g} seconds")
        try:
            self.write()
            self.read()
        except BadReply as why:
            self.over = f"the stream was given up: {why}"
            self.drop()
            raise

    def write(self):
        try:
            while self.outgoing:
                del self.outgoing[: os.write(self.given.fileno(), bytes(self.outgoing[:PIECE]))]
        except BlockingIOError:
            pass
        except OSError:
            # The other end reads no more. What it sent before is read, and then the end.
            self.outgoing.clear()

    def read(self):
        try:
            piece = os.read(self.taken.fileno(), PIECE)
        except BlockingIOError:
            return
        except OSError as why:
            self.end(f"the connection was lost: {why.strerror}")
        if not piece:
            self.end("the server ended inside a reply" if self.incoming else "the server ended")
        self.incoming += piece
        self.frames()

    def frames(self):
        while len(self.incoming) >= 8:
            size = int.from_bytes(self.incoming[:8], "big")
            if size > self.limit:
                raise BadReply(f"a reply of {size} bytes, and at most {self.limit} are taken")
            if len(self.incoming) < 8 + size:
                return
            body = bytes(self.incoming[8 : 8 + size])
            del self.incoming[: 8 + size]
            self.arrived(decode(body))

    def arrived(self, reply):
        if isinstance(reply, Event):
            if reply.watcher not in self.events:
                raise BadReply(f"an event of watcher {reply.watcher}, which was not registered")
            self.events[reply.watcher].append(reply)
            return
        if not self.asked:
            raise BadReply("a reply that no request asked for")
        if isinstance(reply, Watching):
            if reply.number in self.events:
                raise BadReply(f"watcher {reply.number} is registered twice")
            self.events[reply.number] = collections.deque()
        self.asked -= 1
        self.replies.append(reply)

    def end(self, why):
        """The stream is over: says why, and what the server that was started told of it."""
        self.cause = why + self.drop()
        lost = "; a request without a reply may have been carried out or not" if self.asked else ""
        self.over = self.cause + lost
        raise Ended(self.over)

    def drop(self):
        """Closes the streams at once, and waits for the server that was started. Gives its status and its lines."""
        if self.closed:
            return ""
        self.closed = True
        self.over = self.over or "the client is closed"
        for stream in (self.given, self.taken):
            try:
                stream.close()
            except OSError:
                pass
        if self.process is None:
            return ""
        try:
            status = self.process.wait(5)
        except subprocess.TimeoutExpired:
            self.process.kill()
            status = self.process.wait()
        self.lines.seek(0)
        lines = self.lines.read().decode(errors="replace").strip()
        self.lines.close()
        how = f", by signal {-status}" if status < 0 else f", with status {status}"
        return how + (f": {lines}" if lines else "")

    def kill(self):
        """Kills the server that was started, as `kill -9` does, and closes the streams. What was answered is not
        lost."""
        if self.process is not None:
            self.process.kill()
        self.drop()

    def close(self):
        """Sends what is left, ends the requests and reads to the end; events that come by then can still be taken. A
        server that was started ends with it. Raises Ended where it ends with another status than 0."""
        if self.closed:
            return
        while self.outgoing:
            self.turn(self.patience)
        try:
            if self.given is self.taken:
                self.given.shutdown(socket.SHUT_WR)
            else:
                self.given.close()
        except OSError:
            pass
        try:
            while True:
                self.turn(self.patience)
        except Ended:
            if self.asked or self.incoming or self.process and self.process.returncode:
                raise

    def wrote(self, body):
        """Whether a write succeeded."""
        return self.result(self.ask(body), bool)

    def result(self, reply, kind):
        reply = self.expected(reply, Response)
        if not isinstance(reply.result, kind):
            self.mistaken()
        return reply.result

    def expected(self, reply, kind):
        """The reply, where it is of this kind and no refusal."""
        if isinstance(reply, Refusal):
            raise Refused(reply.name)
        if isinstance(reply, Response) and reply.code != "Success":
            raise Refused(reply.code, reply.leader, reply.retry)
        return reply if isinstance(reply, kind) else self.mistaken()

    def mistaken(self):
        self.drop()
        raise BadReply("the reply is to another request")

    def put(self, key, value, ttl=None):
        """Sets a key's value, for `ttl` seconds where they are given."""
        if not self.wrote(put_request(key, value, ttl)):
            self.mistaken()

    def delete(self, key):
        """Takes a key away. One that is not held is no error."""
        if not self.wrote(delete_request(key)):
            self.mistaken()

    def cas(self, key, expected, value):
        """Sets a key's value where it has the expected one, None meaning that the key is not held. Says whether it
        did."""
        return self.wrote(cas_request(key, expected, value))

    def get(self, key):
        """A key's value, or None where it is not held."""
        return self.get_many([key])[0]

    def get_many(self, keys):
        """The values of these keys, each None where it is not held."""
        keys = list(keys)
        pairs = self.result(self.ask(read_request(keys)), list)
        found = dict(pairs)
        if [key for key, _ in pairs] != [key for key in keys if key in found]:
            self.mistaken()
        return [found.get(key) for key in keys]

    def scan(self, prefix=b""):
        """All pairs whose keys begin with these bytes, in the order of the keys, and the index of the last entry."""
        return self.expected(self.ask(scan_request(prefix)), Scan)

    def watch(self, key, prefix=False, earlier=False):
        """A watch of a key, or of all keys under a prefix that begins and ends with `/`; with the values before each
        write where `earlier` is true."""
        return Watch(self, self.expected(self.ask(watch_request(key, prefix, earlier)), Watching))

    def members(self):
        return self.expected(self.ask(members_request()), Members)


ABOUT = """A client of the server. It speaks to one that listens on a port,
or to one that it starts on a folder and ends again."""

EXAMPLES = """examples:
  den.py --folder /tmp/den_store put a b                the first call makes the folder
  den.py --folder /tmp/den_store get a                  prints b
  den.py --folder /tmp/den_store put -- -k -v           a key and a value that begin with -
  den.py --folder /tmp/den_store put big --from FILE    a long value; - is the standard input
  den.py --folder /tmp/den_store get big --raw > FILE   its bytes alone, without an end of line
  den.py --folder /tmp/den_store cas lock me --absent || echo taken
  den.py --folder /tmp/den_store cas lock you --expected me
  den.py --folder /tmp/den_store scan /jobs/            lines of a key, a tab and its value
  den.py --folder /tmp/den_store get 00ff --hex         keys and values as hex digits, both ways
  den.py --connect 7070 --wait 5 members                a server that is just being started on a port
  den.py --folder /tmp/den_store --kill put a c         the server is killed behind its reply, and has kept it
  printf 'watch --prefix /s/\\nput /s/a v\\n' | den.py --folder /tmp/den_store do
                                                        one connection for several commands

A watch is told of the writes that the same server carries out behind it. With --folder nobody else reaches the
server, so only writes of the same `do` are seen.

status:
  0  done, or found             4  the connection ended, or no reply came in time: a request
  1  not found, or not swapped     without a reply may have been carried out or not
  2  faulty words               5  the server could not be started or reached
  3  the server refused: the    6  the server sent bytes that are no reply
     line names its code        7  standard output does not take what was found"""


HEX = "keys and values are hex digits, both ways"


class Usage(Exception):
    """Words of the command that are faulty."""


class Unprinted(Exception):
    """Standard output took not all."""


class Words(argparse.ArgumentParser):
    def error(self, message):
        raise Usage(message)


def whole(least, most):
    def read(word):
        if not word.isdecimal() or not word.isascii() or not least <= int(word) <= most:
            raise argparse.ArgumentTypeError(f"{word!r} is no number from {least} to {most}")
        return int(word)

    return read


def seconds(word):
    try:
        found = float(word)
    except ValueError:
        found = -1.0
    if not 0 <= found <= 1e6:
        raise argparse.ArgumentTypeError(f"{word!r} is no number of seconds")
    return found


def data(word, asked):
    """The bytes of a word: those that the shell gave, or those that its hex digits name."""
    if not asked.hex:
        return os.fsencode(word)
    try:
        return bytes.fromhex(word)
    except ValueError:
        raise Usage(f"{word!r} is not hex digits, two for each byte") from None


def shown(found, asked):
    return found.hex().encode() if asked.hex else found


def tell(text):
    """Writes to standard output, unbuffered, so that a fault of it is told at once."""
    if sys.stdout is None:
        raise Unprinted("it is closed")
    left = memoryview(text)
    try:
        while left:
            left = left[os.write(1, left[:PIECE]) :]
    except OSError as why:
        raise Unprinted(why.strerror) from None


def warn(text):
    if sys.stderr is not None:
        try:
            print(f"den.py: {text}", file=sys.stderr, flush=True)
        except OSError:
            pass


def tell_fields(*fields):
    tell(b"\t".join(fields) + b"\n")


def value_of(asked):
    """The value of a put: a word, or the bytes of a file."""
    if (asked.value is None) == (asked.source is None):
        raise Usage("put takes a value, or --from FILE in its place")
    if asked.source is None:
        return data(asked.value, asked)
    if asked.source == "-" and sys.stdin is None:
        return b""
    try:
        with open(0 if asked.source == "-" else asked.source, "rb", closefd=asked.source != "-") as file:
            return file.read(FRAME_LIMIT + 1)
    except (OSError, ValueError) as why:
        raise Usage(f"{asked.source}: {getattr(why, 'strerror', None) or why}") from None


def run_put(client, asked):
    client.put(data(asked.key, asked), value_of(asked), asked.ttl)
    return 0


def run_get(client, asked):
    value = client.get(data(asked.key, asked))
    if value is None:
        warn("not found")
        return 1
    tell(value if asked.raw else shown(value, asked) + b"\n")
    return 0


def run_delete(client, asked):
    client.delete(data(asked.key, asked))
    return 0


def run_cas(client, asked):
    expected = None if asked.absent else data(asked.expected, asked)
    if client.cas(data(asked.key, asked), expected, data(asked.value, asked)):
        return 0
    warn("not swapped: the key is held" if asked.absent else "not swapped: the key has another value, or is not held")
    return 1


def run_scan(client, asked):
    pairs = client.scan(data(asked.prefix, asked)).pairs
    tell(b"".join(shown(key, asked) + b"\t" + shown(value, asked) + b"\n" for key, value in pairs))
    return 0


def run_members(client, asked):
    found = client.members()
    for node in found.nodes:
        leads = [b"leader"] if node.id == found.leader else []
        numbers = (str(it).encode() for it in (node.role, node.status))
        tell_fields(str(node.id).encode(), node.address.encode(), *numbers, *leads)
    return 0


def tell_event(event, asked, earlier):
    fields = [event.key, event.value] + [event.earlier] * earlier
    tell_fields(event.kind.encode(), str(event.revision).encode(), *(shown(field, asked) for field in fields))


def run_watch(client, asked):
    watch = client.watch(data(asked.key, asked), asked.prefix, asked.earlier)
    if asked.inside is not None:
        asked.inside.append((watch, asked))
        return 0
    left = asked.count
    while left is None or left:
        tell_event(next(watch), asked, asked.earlier)
        left = None if left is None else left - 1
    return 0


def tell_arrived(watches):
    """Tells the events that have come, in the order of the writes."""
    found = [(event, asked) for watch, asked in watches for event in watch.arrived()]
    for event, asked in sorted(found, key=lambda it: it[0].revision):
        tell_event(event, asked, asked.earlier)


def lines_of(asked):
    if asked.file is None:
        return sys.stdin.buffer if sys.stdin is not None else []
    try:
        return open(asked.file, "rb")
    except (OSError, ValueError) as why:
        raise Usage(f"{asked.file}: {getattr(why, 'strerror', None) or why}") from None


def run_do(client, asked):
    """Carries out a command of each line over one connection, and stops at the first line that is faulty or
    refused."""
    words_of_lines, watches, worst = lines_parser(), [], 0
    for count, line in enumerate(lines_of(asked), 1):
        try:
            words = shlex.split(os.fsdecode(line), comments=True)
            if not words:
                continue
            given = words_of_lines.parse_args(words, argparse.Namespace(hex=asked.hex, inside=watches))
            worst = max(worst, given.run(client, given))
        except (Usage, ValueError) as why:
            raise Usage(f"line {count}: {why}") from None
        tell_arrived(watches)
    client.close()
    tell_arrived(watches)
    return worst


def commands(parser, **more):
    """Adds what both a call and a line of `do` may ask for."""
    hexed = argparse.ArgumentParser(add_help=False)
    hexed.add_argument("--hex", action="store_true", default=argparse.SUPPRESS, help=HEX)
    kinds = parser.add_subparsers(metavar="COMMAND", required=True, dest="command")

    def command(name, run, about):
        made = kinds.add_parser(name, help=about, description=about, parents=[hexed], allow_abbrev=False, **more)
        made.set_defaults(run=run)
        return made

    made = command("put", run_put, "set a key's value")
    made.add_argument("key", metavar="KEY")
    made.add_argument("value", metavar="VALUE", nargs="?")
    made.add_argument("--from", metavar="FILE", dest="source", help="the bytes of a file; - is standard input")
    made.add_argument("--ttl", metavar="SECONDS", type=whole(1, MOST), help="time to live; the server needs leases")
    made = command("get", run_get, "print a key's value; status 1 where it is not held")
    made.add_argument("key", metavar="KEY")
    made.add_argument("--raw", action="store_true", help="the value's bytes alone, without an end of line")
    made = command("delete", run_delete, "take a key away; one that is not held is no error")
    made.add_argument("key", metavar="KEY")
    made = command("cas", run_cas, "set a key's value where it is the expected one; status 1 where it is not")
    made.add_argument("key", metavar="KEY")
    made.add_argument("value", metavar="VALUE", help="the new value")
    either = made.add_mutually_exclusive_group(required=True)
    either.add_argument("--expected", metavar="VALUE", help="what the key has to have (--expected=-x for -x)")
    either.add_argument("--absent", action="store_true", help="the key is not to be held")
    made = command("scan", run_scan, "print all pairs whose keys begin with a prefix, without one all")
    made.add_argument("prefix", metavar="PREFIX", nargs="?", default="")
    made = command("watch", run_watch, "print each write of a key as it is made: kind, revision, key, value")
    made.add_argument("key", metavar="KEY")
    made.add_argument("--prefix", action="store_true", help="all keys under KEY, which begins and ends with /")
    made.add_argument("--earlier", action="store_true", help="print the value before, too")
    made.add_argument("--count", metavar="N", type=whole(1, MOST), help="end behind so many events (not in `do`)")
    made = command("members", run_members, "print the nodes: id, address, role, status, and which leads")
    return command


def lines_parser():
    parser = Words(prog="", add_help=False, allow_abbrev=False)
    commands(parser, add_help=False)
    return parser


def call_parser():
    how = argparse.RawDescriptionHelpFormatter
    parser = Words(prog="den.py", description=ABOUT, epilog=EXAMPLES, formatter_class=how, allow_abbrev=False)
    where = parser.add_mutually_exclusive_group(required=True)
    where.add_argument("--connect", metavar="PORT", type=whole(1, 65535), help="the server on this port of 127.0.0.1")
    where.add_argument("--folder", metavar="DIR", help="start a server on this folder, and end it behind the command")
    parser.add_argument("--program", metavar="PATH", default=BUILT, help="the server to start (what `rt run` built)")
    parser.add_argument("--kill", action="store_true", help="with --folder: end the server by SIGKILL")
    timed = {"metavar": "SECONDS", "type": seconds}
    parser.add_argument("--wait", default=0.0, help="with --connect: try for so long (%(default)g)", **timed)
    parser.add_argument("--timeout", default=PATIENCE, help="for a reply, 0 without end (%(default)g)", **timed)
    parser.add_argument("--hex", action="store_true", help=HEX)
    command = commands(parser)
    made = command("do", run_do, "carry out a command of each line over one connection; quoted as in a shell")
    made.add_argument("file", metavar="FILE", nargs="?", help="where the lines stand, without it standard input")
    return parser


def carry_out(words):
    asked = call_parser().parse_args(words, argparse.Namespace(inside=None))
    if asked.kill and asked.folder is None:
        raise Usage("--kill goes with --folder")
    patience = asked.timeout or None
    if asked.folder is None:
        client = Client.connect(asked.connect, asked.wait, patience=patience)
    else:
        client = Client.start(asked.folder, asked.program, patience=patience)
    try:
        status = asked.run(client, asked)
        client.kill() if asked.kill else client.close()
    finally:
        client.drop()
    return status


def main():
    # No pipe or socket takes the place of a standard stream that is closed.
    while os.open(os.devnull, os.O_RDWR) <= 2:
        pass
    try:
        return carry_out(sys.argv[1:])
    except Usage as why:
        warn(f"{why} (den.py --help tells more)")
        return 2
    except DenError as why:
        warn(why)
        return why.status
    except Unprinted as why:
        warn(f"standard output: {why}")
        return 7
    except KeyboardInterrupt:
        return 130


if __name__ == "__main__":
    sys.exit(main())
