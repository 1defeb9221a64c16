"""The client clients/den.py: its decoding, alone, and its calls and its command on the built server."""
import os
import signal
import socket
import subprocess
import sys
import time

from serving import LIMIT, TOP, fail, frame, number, say

sys.path.insert(0, os.path.join(TOP, "clients"))

import den

DEN = os.path.join(TOP, "clients", "den.py")
ITSELF = den.Members(0, 1, [den.Node(1, "127.0.0.1:9081", 0, 2)])


def response(code, leader=None, retry=None, result=None):
    return den.Response(code, leader, retry, result)


# Bodies of replies in hex digits, and what they say.
A, B, PATH = "000000000000000161", "000000000000000162", "00000000000000042f732f61"
V, EMPTY = "000000000000000176", "0000000000000000"
ONE, TWO, THREE = "0000000000000001", "0000000000000002", "0000000000000003"
WRITE, PAIRS, LATER = "010000000101", "0100000002", "010f0001" "00000000000003e8" "00"
FOLLOWER = "010c" "0100000002" "0000000000000003683a32" "0000"
HELD, SCANNED, WATCHING = PAIRS + ONE + A + B, "02" + THREE + ONE + A + B, "03" + ONE
EVENT, DELETED = "04" + ONE + "01" + TWO + PATH + V + EMPTY, "04" + ONE + "02" + THREE + PATH + EMPTY + V
ADDRESS = "000000000000000e" "3132372e302e302e313a39303831"
ALONE = "05" + EMPTY + "0100000001" + ONE + "00000001" + ADDRESS + "00000000" "00000002"
ODD = "05" + THREE + "00" + ONE + "00000009" + EMPTY + "ffffffff" "00000001"
PUT_EVENT = den.Event(1, "put", 2, b"/s/a", b"v", b"")
REPLIES = [
    (WRITE, response("Success", result=True)),
    ("010000000100", response("Success", result=False)),
    (PAIRS + EMPTY, response("Success", result=[])),
    (HELD, response("Success", result=[(b"a", b"b")])),
    ("010e000000", response("InvalidRequest")),
    ("0111000000", response("ProposeFailed")),
    ("0116000000", response("Uncategorized")),
    (FOLLOWER, response("NotLeader", den.Leader(2, "h:2"))),
    (LATER, response("RateLimited", retry=1000)),
    (SCANNED, den.Scan(3, [(b"a", b"b")])),
    (WATCHING, den.Watching(1)),
    (EVENT, PUT_EVENT),
    (DELETED, den.Event(1, "delete", 3, b"/s/a", b"", b"v")),
    (ALONE, ITSELF),
    (ODD, den.Members(3, None, [den.Node(9, "", -1, 1)])),
    ("0601", den.Refusal("InvalidPrefix")),
    ("0602", den.Refusal("LimitExceeded")),
    ("0603", den.Refusal("FeatureNotEnabled")),
]
NONE = {
    "no byte": "",
    "an unknown kind": "07",
    "the kind 0": "00",
    "an unknown code": "0117000000",
    "an unknown result": "0100000003",
    "no truth value of a write": "010000000102",
    "no truth value of a leader": "0100020001",
    "an unknown refusal": "0604",
    "the refusal 0": "0600",
    "an unknown kind of event": "04" + ONE + "03" + TWO + EMPTY * 3,
    "a byte behind the end": WRITE + "00",
    "a list longer than the reply": PAIRS + "f" * 16,
    "a blob longer than the reply": "02" + ONE + ONE + "7fffffffffffffff61",
    "an address that is not UTF-8": "010c0100000002" "0000000000000001ff" "0000",
}


def equal(what, found, wanted):
    if found != wanted:
        fail(f"the client: {what} gives {found!r}, and is to give {wanted!r}")


def raised(what, kind, call):
    """The error of a call, which has to be of this kind."""
    try:
        found = call()
    except kind as error:
        return error
    return fail(f"the client: {what} gives {found!r} and no {kind.__name__}")


def decoding():
    for digits, wanted in REPLIES:
        body = bytes.fromhex(digits)
        equal(digits, den.decode(body), wanted)
        for end in range(len(body)):
            raised(f"the first {end} bytes of {digits}", den.BadReply, lambda: den.decode(body[:end]))
    for what, digits in NONE.items():
        raised(what, den.BadReply, lambda: den.decode(bytes.fromhex(digits)))
    say(f"the client reads {len(REPLIES)} replies, and refuses {len(NONE)} that are none and each front of a reply")


def sent(data, call):
    """What a call gives to a client whose server sends these bytes and ends."""
    ours, theirs = socket.socketpair()
    theirs.sendall(data)
    theirs.shutdown(socket.SHUT_WR)
    with theirs:
        client = den.Client(ours, ours, patience=LIMIT, limit=1000)
        try:
            return call(client)
        finally:
            client.drop()


def whole(digits):
    return frame(bytes.fromhex(digits))


def streams():
    """Streams that end or say what nobody asked for."""
    held = whole(HELD)
    equal("a read", sent(held, lambda client: client.get(b"a")), b"b")
    for end in range(len(held)):
        error = raised(f"{end} bytes of a reply", den.Ended, lambda: sent(held[:end], lambda client: client.get(b"a")))
        equal("an end inside a reply", "inside a reply" in str(error), end > 0)
    for what, data in [
        ("a reply of 1001 bytes", number(1001) + bytes(1001)),
        ("an endless reply", number(2**64 - 1)),
        ("an event of no watcher", whole(EVENT)),
        ("two replies", held * 2),
        ("the reply to a put", whole(WRITE)),
        ("the reply to a scan", whole(SCANNED)),
        ("another key", whole(PAIRS + ONE + B + A)),
    ]:
        raised(what, den.BadReply, lambda: sent(data, lambda client: client.get(b"a")))
    hints(FOLLOWER, "NotLeader", den.Leader(2, "h:2"), None)
    hints(LATER, "RateLimited", None, 1000)
    watching = whole(WATCHING) + whole(EVENT)
    equal("a watch", sent(watching, lambda client: next(client.watch(b"/s/", prefix=True))), PUT_EVENT)
    raised("a watch that ends", den.Ended, lambda: sent(watching, lambda client: [*client.watch(b"/s/", prefix=True)]))
    say("the client tells streams that are torn, that end or that say what nobody asked for")


def hints(digits, *wanted):
    """A refusal's code, and the leader and the time that it names."""
    error = raised(digits, den.Refused, lambda: sent(whole(digits), lambda client: client.put(b"a", b"b")))
    equal(digits, (error.code, error.leader, error.retry), wanted)


def calls(program, room):
    """Each call of the module, over a server that it starts."""
    with den.Client.start(os.path.join(room, "module"), program) as client:
        writes(client)
        watches(client)
        equal("the members", client.members(), ITSELF)
        equal("a time to live", refused(lambda: client.put(b"a", b"b", 5)), "FeatureNotEnabled")
        equal("a request that is no request", client.ask(b"\7"), response("InvalidRequest"))
        long_ones(client)
    say("the client's calls on the built server, a value of 1 MB and requests that are sent at once too")


def refused(call):
    return raised("a refusal", den.Refused, call).code


def writes(client):
    client.put(b"a", b"b")
    client.put(b"", b"\0\xff")
    client.delete(b"none")
    equal("a read", client.get_many([b"a", b"z", b"", b"a"]), [b"b", None, b"\0\xff", b"b"])
    equal("a swap", client.cas(b"a", b"b", b"c"), True)
    equal("a swap of another value", client.cas(b"a", b"b", b"d"), False)
    equal("a swap of a key that is held", client.cas(b"a", None, b"d"), False)
    equal("a swap of a key that is not held", client.cas(b"n", None, b""), True)
    # The opening took index 1, and each of the seven writes one.
    equal("a scan", client.scan(b"a"), den.Scan(8, [(b"a", b"c")]))


def watches(client):
    """Behind eight entries, so the put is the ninth and the delete the tenth."""
    under, one = client.watch(b"/s/", prefix=True, earlier=True), client.watch(b"/s/a")
    client.put(b"/s/a", b"v")
    client.delete(b"/s/a")
    put, deleted = (9, b"/s/a", b"v", b""), (10, b"/s/a", b"")
    equal("a put's event", (next(under), next(one)), (den.Event(1, "put", *put), den.Event(2, "put", *put)))
    gone = (den.Event(1, "delete", *deleted, b"v"), den.Event(2, "delete", *deleted, b""))
    equal("a delete's event", (next(under), next(one)), gone)
    equal("a prefix", refused(lambda: client.watch(b"s/", prefix=True)), "InvalidPrefix")


def long_ones(client):
    raised("a request that is too long", den.TooLong, lambda: client.put(b"a", bytes(den.FRAME_LIMIT)))
    big = os.urandom(1_000_000)
    client.put(b"big", big)
    equal("a long value", client.get(b"big") == big, True)
    # More than the two pipes hold, there and back.
    asked = [den.put_request(b"m%03d" % n, bytes(2000)) for n in range(100)] + [den.read_request([b"big"])] * 9
    replies = [it.result if it.result is True else it.result[0][1] == big for it in client.ask_all(asked)]
    equal("requests at once", replies, [True] * 109)


def killed(program, room):
    """A server that is killed between two calls: the second says so, and what was answered stands."""
    folder = os.path.join(room, "client-killed")
    client = den.Client.start(folder, program)
    client.put(b"a", b"b")
    os.kill(client.process.pid, signal.SIGKILL)
    error = raised("a call of a killed server", den.Ended, lambda: client.put(b"a", b"c"))
    equal("a killed server", "by signal 9" in str(error), True)
    raised("a call behind the end", den.Ended, lambda: client.get(b"a"))
    with den.Client.start(folder, program) as client:
        equal("what was put before a kill", client.get(b"a"), b"b")
        raised("a second server", den.NotStarted, lambda: den.Client.start(folder, program))
        equal("a put beside a second server", (client.put(b"a", b"d"), client.get(b"a")), (None, b"d"))
    say("a server that is killed between two calls of the client has kept what it answered")


def command(words, given=b"", **more):
    """Status, output and lines of the command."""
    how = {"input": given, "stdout": subprocess.PIPE, "stderr": subprocess.PIPE, "timeout": LIMIT, **more}
    ended = subprocess.run([sys.executable, "-B", DEN, *words], **how)
    return ended.returncode, ended.stdout, ended.stderr


def commands(program, room):
    """What the command prints and ends with."""
    start = ["--program", program, "--folder", os.path.join(room, "command")]
    not_found, not_swapped = b"den.py: not found\n", b"den.py: not swapped: the key "
    for words, given, wanted in [
        (["put", "a", "b"], b"", (0, b"", b"")),
        (["get", "a"], b"", (0, b"b\n", b"")),
        (["get", "a", "--raw"], b"", (0, b"b", b"")),
        (["get", "z"], b"", (1, b"", not_found)),
        (["put", "--", "-k", "-v"], b"", (0, b"", b"")),
        (["get", "--", "-k"], b"", (0, b"-v\n", b"")),
        (["put", "", "--from", "-"], b"none\n", (0, b"", b"")),
        (["get", ""], b"", (0, b"none\n\n", b"")),
        (["delete", ""], b"", (0, b"", b"")),
        (["get", ""], b"", (1, b"", not_found)),
        (["--hex", "put", "00ff", "C3"], b"", (0, b"", b"")),
        (["get", "00ff", "--hex"], b"", (0, b"c3\n", b"")),
        (["scan", "--hex"], b"", (0, b"00ff\tc3\n2d6b\t2d76\n61\t62\n", b"")),
        (["scan", "a"], b"", (0, b"a\tb\n", b"")),
        (["cas", "lock", "me", "--absent"], b"", (0, b"", b"")),
        (["cas", "lock", "you", "--absent"], b"", (1, b"", not_swapped + b"is held\n")),
        (["cas", "lock", "you", "--expected", "me"], b"", (0, b"", b"")),
        (["cas", "lock", "me", "--expected=-"], b"", (1, b"", not_swapped + b"has another value, or is not held\n")),
        (["members"], b"", (0, b"1\t127.0.0.1:9081\t0\t2\tleader\n", b"")),
        (["put", "a", "c", "--ttl", "5"], b"", (3, b"", b"den.py: refused: FeatureNotEnabled\n")),
        (["watch", "--prefix", "s/"], b"", (3, b"", b"den.py: refused: InvalidPrefix\n")),
        (["--kill", "put", "a", "c"], b"", (0, b"", b"")),
        (["get", "a"], b"", (0, b"c\n", b"")),
        # A new folder, whose opening takes index 1.
        (
            ["--folder", os.path.join(room, "lines"), "do"],
            b"watch --prefix /s/\n# a remark\n\nput /s/a 'a value'\nget z\ndelete /s/a\nscan\n",
            (1, b"put\t2\t/s/a\ta value\ndelete\t3\t/s/a\t\n", not_found),
        ),
    ]:
        equal(f"den.py {words}", command(start + words, given), wanted)
    faulty(start)
    say("the client's command: what it prints, its lines and its statuses")


def faulty(start):
    """Words, folders and streams that are refused, each by its status."""
    for words, given, status in [
        ([], b"", 2),
        (["put", "a"], b"", 2),
        (["put", "a", "b", "--ttl", "0"], b"", 2),
        (["put", "a", "--from", "/none"], b"", 2),
        (["get", "0", "--hex"], b"", 2),
        (["cas", "a", "b"], b"", 2),
        (["do"], b"get a\nget\nput a never\n", 2),
        (["do"], b"put 'a\n", 2),
        (["--folder", "", "get", "a"], b"", 5),
        (["--folder", os.path.join(DEN, "folder"), "get", "a"], b"", 5),
        (["--program", "/none", "get", "a"], b"", 5),
    ]:
        found = command(start + words, given)
        if found[0] != status or not found[2].startswith(b"den.py: "):
            fail(f"the client: den.py {words} ends with {found}, and is to end with {status}")
    equal("den.py get a", command(start + ["get", "a"])[:2], (0, b"c\n"))
    equal("a closed output", command(start + ["get", "a"], preexec_fn=lambda: os.close(1))[0], 7)
    unheard = command(start + ["put", "a", "d"], preexec_fn=lambda: os.closerange(0, 3))
    equal("a put with all streams closed", unheard[0], 0)
    with open("/dev/full", "wb") as device:
        equal("a full output", command(start + ["get", "a"], stdout=device)[0], 7)
    bare = {"LC_ALL": "C", "PYTHONCOERCECLOCALE": "0", "PYTHONUTF8": "0"}
    equal("a key that is no text", command(start + ["put", b"\xc3\xff", "v"], env=bare)[0], 0)
    equal("a key that is no text", command(start + ["get", b"\xc3\xff"], env=bare)[:2], (0, b"v\n"))
    equal("a key that is no text", command(start + ["do"], b"get \xc3\xff\n", env=bare)[:2], (0, b"v\n"))


def ports(program, room):
    """The command over a port that the built server listens on, and over none."""
    with socket.create_server(("127.0.0.1", 0)) as taken:
        port = str(taken.getsockname()[1])
    for words, wanted in [(["put", "a", "b"], (0, b"", b"")), (["get", "a"], (0, b"b\n", b""))]:
        server = subprocess.Popen([program, os.path.join(room, "port"), "--listen", port])
        until = time.monotonic() + LIMIT
        found = command(["--connect", port, *words])
        # The server listens once its folder is open.
        while found[0] == 5 and time.monotonic() < until:
            time.sleep(0.01)
            found = command(["--connect", port, *words])
        equal(f"den.py {words} over a port", found, wanted)
        equal("a server whose client has gone", server.wait(LIMIT), 0)
    equal("a port without a server", command(["--connect", port, "get", "a"])[0], 5)
    equal("a port that is none", command(["--connect", "0", "get", "a"])[0], 2)
    say("the client over a port")


def clients(program, room):
    decoding()
    streams()
    calls(program, room)
    killed(program, room)
    commands(program, room)
    ports(program, room)
