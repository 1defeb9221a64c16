"""Folders and streams that do not take a call: the status, both lines, and what stands afterwards."""
import os
import resource
import shutil
import signal
import socket
import stat

from serving import WRITTEN, as_nobody, blob, bodies, fail, files_of, frame, number, owned, put, read, region, run, say, values, wants

PUTS, VALUE = 100, b"v" * 2000
USAGE = b"den_server: usage: den_server FOLDER [--config FILE] [--listen PORT] [--drive N]\n"


# A place in the log or the map: an index and the term 1. The moment 1000, and the pair a = b.
FIRST, SECOND, MOMENT, PAIR = number(1) + number(1), number(2) + number(1), number(1000), blob(b"a") + blob(b"b")
# Files that are refused, each alone in its folder: its name and bytes, the status and the line.
REFUSED = [
    # A region that runs past the end of its file.
    ("log.a", b"\x01" + number(100), 8, b"den_server: data corruption in log.a at 0\n"),
    # A region of no known kind.
    ("state.a", region(b"\x09"), 8, b"den_server: data corruption in state.a at 0\n"),
    # One record: a put of a = b with an expiry of 2000.
    ("state.a", region(b"\x03" + number(1) + FIRST + b"\x01" + PAIR + number(2000)), 9, b"den_server: lease is not enabled\n"),
    # Two entries: a put of a = b with a time to live of 1, and a delete of a.
    (
        "log.a",
        region(b"\x01" + number(2) + FIRST + MOMENT + b"\x01" + PAIR + b"\x01" + number(1) + SECOND + MOMENT + b"\x02" + blob(b"a")),
        9,
        b"den_server: lease is not enabled\n",
    ),
    # The last term, without a vote.
    ("meta.a", region(number(2**64 - 1) + b"\0"), 10, b"den_server: term or index exhausted\n"),
]


def storage(cause):
    return b"den_server: storage fault\n  " + cause + b"\n"


def link(cause):
    return b"den_server: link fault\n  " + cause + b"\n"


def garbage_in(folder):
    os.mkdir(folder)
    with open(os.path.join(folder, "log.a"), "wb") as file:
        file.write(bytes.fromhex("010000000000000064") + b"garbage")
    owned(folder)


def garbage(program, room):
    folder = os.path.join(room, "garbage")
    garbage_in(folder)
    before = files_of(folder)
    wants("garbage in log.a", run(program, folder, [put(b"a", b"b")]), 8, b"den_server: data corruption in log.a at 0\n")
    if files_of(folder) != before:
        fail("a folder with garbage was changed")
    say("garbage in log.a is refused, and the folder stays as it is")


def refused(program, room):
    folder = os.path.join(room, "refused")
    for name, data, status, line in REFUSED:
        os.mkdir(folder)
        with open(os.path.join(folder, name), "wb") as file:
            file.write(data)
        owned(folder)
        wants(f"{data.hex()} in {name}", run(program, folder, [put(b"a", b"b"), read(b"a")]), status, line)
        if files_of(folder) != {name: data}:
            fail(f"a folder with {data.hex()} in {name} was changed")
        shutil.rmtree(folder)
    say(f"{len(REFUSED)} files that are refused, each with its status and its line, and the folder stays as it is")


def unwritable(program, room):
    folder = os.path.join(room, "unwritable")
    wants("a put into a new folder", run(program, folder, [put(b"a", b"b")]), 0, b"", frame(WRITTEN))
    before = files_of(folder)
    names = [os.path.join(folder, name) for name in os.listdir(folder)]
    for name in names:
        os.chmod(name, 0o444)
    os.chmod(folder, 0o555)
    lines = storage(b"log.a: Permission denied (os error 13)")
    wants("a folder that cannot be written", run(program, folder, [put(b"a", b"c")]), 5, lines)
    if files_of(folder) != before:
        fail("a folder that cannot be written was changed")
    os.chmod(folder, 0o755)
    for name in names:
        os.chmod(name, 0o644)
    if values(program, folder, [b"a"]) != [b"b"]:
        fail("a folder that could not be written has lost a put")
    say("a folder that cannot be written is a storage fault, and loses nothing")


def full(program, room):
    """A file may have no more than so many bytes: the room of a slot's first growth, and no second."""

    def limited():
        as_nobody()
        signal.signal(signal.SIGXFSZ, signal.SIG_IGN)
        resource.setrlimit(resource.RLIMIT_FSIZE, (65536, 65536))

    folder = os.path.join(room, "full")
    keys = [b"key%04d" % n for n in range(PUTS)]
    status, out, lines = run(program, folder, [put(key, VALUE) for key in keys], limited)
    count = len(bodies(out))
    # The log's region of such a put is the longest, so the log is full first.
    if status != 5 or lines != storage(b"log.a: File too large (os error 27)") or not 0 < count < PUTS:
        fail(f"a full disk: status {status}, {count} answers, lines {lines!r}")
    if any(value != VALUE for value in values(program, folder, keys)[:count]):
        fail("a put that was answered before the disk was full is lost")
    say(f"a disk that was full behind {count} puts is a storage fault, and loses none of them")


def file_in_place(program, room):
    folder = os.path.join(room, "file")
    with open(folder, "wb") as file:
        file.write(b"a file")
    lines = storage(b"the folder: Not a directory (os error 20)")
    wants("a file in the folder's place", run(program, folder, [put(b"a", b"b")]), 5, lines)
    if open(folder, "rb").read() != b"a file":
        fail("a file in the folder's place was changed")
    say("a file in the folder's place is a storage fault, and stays as it is")


def not_text(program):
    """A word that is no text names no folder."""
    wants("a word that is no text", run(program, b"\xff", []), 2, USAGE)
    say("a word that is no text is a faulty command line")


def no_name(program, room):
    """An empty word, as an unset variable makes one, does not serve the folder that the server is started in."""
    folder = os.path.join(room, "here")
    os.mkdir(folder)
    owned(folder)
    got = run(program, "", [put(b"a", b"b")], cwd=folder)
    wants("an empty word", got, 5, storage(b"the folder has no name"))
    if os.listdir(folder):
        fail("an empty word made files")
    say("an empty word is a storage fault, and makes nothing")


def modes(program, room):
    """What is made is for its owner alone, whatever the umask."""

    def open_to_all():
        as_nobody()
        os.umask(0)

    top = os.path.join(room, "made")
    folder = os.path.join(top, "on the way", "folder")
    wants("a put", run(program, folder, [put(b"a", b"b")], open_to_all), 0, b"", frame(WRITTEN))
    made = [top, os.path.dirname(folder), folder, *(os.path.join(folder, name) for name in os.listdir(folder))]
    found = [stat.S_IMODE(os.stat(at).st_mode) for at in made]
    if len(made) < 6 or found != [0o700] * 3 + [0o600] * (len(made) - 3):
        fail(f"the modes of what was made: {list(map(oct, found))}")
    say("folders are made with mode 0700 and files with 0600")


def broken(data):
    """A socket that gives these bytes and then fails, since its other end was closed with a byte that it had not read."""
    ours, theirs = socket.socketpair()
    theirs.sendall(data)
    ours.sendall(b"x")
    theirs.close()
    return ours


def streams(program, room):
    """Standard input that cannot be read, also behind a whole frame, and output that cannot be written."""
    folder = os.path.join(room, "streams")
    with open("/dev/full", "wb") as device:
        got = run(program, folder, [put(b"a", b"b")], stdout=device)
    wants("a full output", got, 6, link(b"standard output: No space left on device (os error 28)"))
    unread = os.open("/", os.O_RDONLY)
    got = run(program, folder, [], input=None, stdin=unread)
    os.close(unread)
    wants("an input that is a folder", got, 6, link(b"standard input: Is a directory (os error 21)"))
    if values(program, folder, [b"a"]) != [b"b"]:
        fail("a put before a link fault is lost")
    with broken(put(b"a", b"c") + read(b"a")[:5]) as stream:
        got = run(program, folder, [], input=None, stdin=stream)
    lines = link(b"standard input: Connection reset by peer (os error 104)")
    wants("an input that fails behind a put", got, 6, lines, frame(WRITTEN))
    if values(program, folder, [b"a"]) != [b"c"]:
        fail("a put before a fault of the input is lost")
    say("streams that fail are link faults, and what was answered before is kept")
