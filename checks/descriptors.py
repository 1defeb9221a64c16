"""Servers that are started with standard descriptors closed: no file of the folder gets the number of one, and each file
has the bytes that docs/FORMATS.md gives for what was served."""
import itertools
import os
import shutil

from faults import garbage_in, link
from serving import WRITTEN, as_nobody, blob, fail, files_of, frame, number, put, region, run, say, wants

ROOM = 65536
# Where the moment stands in a log region of one entry: behind the gate, the length, the opcode, the count, index and term.
MOMENT = slice(1 + 8 + 1 + 8 + 8 + 8, 1 + 8 + 1 + 8 + 8 + 8 + 8)


def entry_regions(index, term, pair):
    """The regions of log and state of an entry, without its moment: of a put, or of none at opening."""
    place = number(index) + number(term)
    command = b"\x00" if pair is None else b"\x01" + blob(pair[0]) + blob(pair[1]) + b"\x00"
    record = b"\x00" + blob(b"") * 2 if pair is None else b"\x01" + blob(pair[0]) + blob(pair[1])
    log = region(b"\x01" + number(1) + place + bytes(8) + command)
    return log, region(b"\x03" + number(1) + place + record + number(0))


def files_after(runs):
    """The files with bytes after runs of puts on an empty folder, the moments in the log zero, and where those stand."""
    log = state = b""
    moments, index = [], 0
    for term, pairs in enumerate(runs, 1):
        for pair in [None, *pairs]:
            index += 1
            moments.append(slice(len(log) + MOMENT.start, len(log) + MOMENT.stop))
            in_log, in_state = entry_regions(index, term, pair)
            log, state = log + in_log, state + in_state
    return {"log.a": slot(log), "state.a": slot(state), **meta_files(len(runs))}, moments


def slot(regions):
    return regions.ljust(ROOM, b"\0")


def meta_files(term):
    """Each opening writes the hard state anew in its family's other slot, so behind the first one that is slot b."""
    name = "meta.b" if term % 2 else "meta.a"
    vote = b"\x01" + bytes([0, 0, 0, 1]) + number(term)
    return {"meta.head": bytes([term % 2]), name: slot(region(number(term) + vote))}


def check_files(what, folder, runs):
    wanted, moments = files_after(runs)
    found = {name: data for name, data in files_of(folder).items() if data}
    log = bytearray(found.get("log.a", b""))
    for at in moments:
        log[at] = bytes(8)
    if {**found, "log.a": bytes(log)} != wanted:
        fail(f"{what}: the files are not those of {runs}")


def closing(closed):
    def before():
        as_nobody()
        for descriptor in closed:
            os.close(descriptor)

    return before


def served(what, program, folder, closed, runs):
    """A run of two puts on a folder that earlier runs left, with some descriptors closed."""
    pairs = [(b"c", b"d"), (b"e", b"f")]
    got = run(program, folder, [put(*pair) for pair in pairs], closing(closed))
    if 0 in closed:
        status, out, lines, taken = 0, b"", b"", []
    elif 1 in closed:
        status, out, lines, taken = 6, b"", link(b"standard output: Bad file descriptor (os error 9)"), pairs[:1]
    else:
        status, out, lines, taken = 0, frame(WRITTEN) * 2, b"", pairs
    wants(what, got, status, b"" if 2 in closed else lines, out)
    check_files(what, folder, [*runs, taken])


def refused(what, program, folder, closed):
    before = files_of(folder)
    line = b"" if 2 in closed else b"den_server: data corruption in log.a at 0\n"
    wants(what, run(program, folder, [put(b"a", b"b")], closing(closed)), 8, line)
    if files_of(folder) != before:
        fail(f"{what}: a folder with garbage was changed")


def descriptors(program, room):
    for closed in itertools.chain.from_iterable(itertools.combinations(range(3), n) for n in range(4)):
        folder = os.path.join(room, "closed")
        what = f"descriptors {list(closed)} closed"
        served(f"{what}, a new folder", program, folder, closed, [])
        shutil.rmtree(folder)
        run(program, folder, [put(b"a", b"b")])
        served(f"{what}, a folder with a put", program, folder, closed, [[(b"a", b"b")]])
        shutil.rmtree(folder)
        garbage_in(folder)
        refused(f"{what}, garbage", program, folder, closed)
        shutil.rmtree(folder)
    say("each of the three standard descriptors closed, in all eight combinations: no file of a folder is mixed up with one")
