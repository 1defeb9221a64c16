"""What the checks on real files have in common: frames, runs of the server, and what stands in a folder."""
import os
import subprocess
import sys
import threading

LIMIT = 120
TOP = os.path.dirname(os.path.dirname(os.path.abspath(__file__)))
NOBODY = 65534
WRITTEN = bytes.fromhex("0100000001" "01")


def number(n):
    return n.to_bytes(8, "big")


def blob(data):
    return number(len(data)) + data


def frame(body):
    return number(len(body)) + body


def region(payload):
    return b"\x01" + blob(payload)


def put(key, value):
    return frame(b"\x01\0\0\0\x01\x01" + blob(key) + blob(value) + number(0))


def read(key):
    return frame(b"\x02\0\0\0\x01\0" + number(1) + blob(key))


def bodies(data):
    """The bodies of the whole frames that the bytes begin with."""
    found, at = [], 0
    while at + 8 <= len(data):
        size = int.from_bytes(data[at : at + 8], "big")
        if at + 8 + size > len(data):
            break
        found.append(data[at + 8 : at + 8 + size])
        at += 8 + size
    return found


def value_in(body):
    """The value that a read was answered with, or none."""
    if body == bytes.fromhex("0100000002") + number(0):
        return None
    front = bytes.fromhex("0100000002") + number(1)
    assert body.startswith(front), body
    at = len(front)
    at += 8 + int.from_bytes(body[at : at + 8], "big")
    return body[at + 8 :]


def say(what):
    print(f"real files: {what}", flush=True)


def fail(why):
    say(why)
    sys.exit(1)


def as_nobody():
    if os.geteuid() == 0:
        os.setgroups([])
        os.setgid(NOBODY)
        os.setuid(NOBODY)


def run(program, folder, frames, before=as_nobody, words=(), **streams):
    """The status, the output and the lines of a run to the end of these frames, with more words behind the folder's. `before` is called
    before it starts."""
    how = {"input": b"".join(frames), "stdout": subprocess.PIPE, "stderr": subprocess.PIPE, **streams}
    ended = subprocess.run([program, folder, *words], preexec_fn=before, timeout=LIMIT, **how)
    return ended.returncode, ended.stdout or b"", ended.stderr


def wants(what, got, status, lines, output=b""):
    if got != (status, output, lines):
        fail(f"{what}: status {got[0]}, output {got[1]!r}, lines {got[2]!r}")


def values(program, folder, keys):
    status, out, lines = run(program, folder, [read(key) for key in keys])
    if status != 0:
        fail(f"a folder is not opened again: status {status}, {lines!r}")
    answers = bodies(out)
    if len(answers) != len(keys):
        fail(f"{len(keys)} reads were answered {len(answers)} times")
    return [value_in(body) for body in answers]


def files_of(folder):
    return {name: open(os.path.join(folder, name), "rb").read() for name in sorted(os.listdir(folder))}


def owned(folder):
    """Gives a folder and its files to the user that the server runs as."""
    if os.geteuid() == 0:
        for at in [folder, *(os.path.join(folder, name) for name in os.listdir(folder))]:
            os.chown(at, NOBODY, NOBODY)


class Server:
    """A server that runs while a check goes on, for at most LIMIT seconds."""

    def __init__(self, program, folder, before=as_nobody):
        pipes = {"stdin": subprocess.PIPE, "stdout": subprocess.PIPE, "stderr": subprocess.DEVNULL}
        self.process = subprocess.Popen([program, folder], preexec_fn=before, **pipes)
        self.late = threading.Timer(LIMIT, self.process.kill)
        self.late.daemon = True
        self.late.start()
        self.feeders = []
        self.out = b""

    def feed(self, frames):
        """Hands over frames, while the check goes on."""
        self.feeders.append(threading.Thread(target=self.write, args=(b"".join(frames),)))
        self.feeders[-1].start()

    def write(self, data):
        try:
            self.process.stdin.write(data)
            self.process.stdin.flush()
        except OSError:
            pass

    def read_on(self, count):
        """Reads until so many frames were answered."""
        while len(bodies(self.out)) < count:
            piece = os.read(self.process.stdout.fileno(), 65536)
            if not piece:
                fail("the server ended before its time, or did not answer in time")
            self.out += piece

    def end(self, how=None):
        """Sends a signal, or closes its input where there is none, and gives its status and its answers."""
        if how is None:
            self.join()
            self.close()
        else:
            self.process.send_signal(how)
        return self.ended()

    def ended(self):
        """Its status and its answers, once it ends by itself."""
        self.out += self.process.stdout.read()
        status = self.process.wait()
        self.join()
        self.late.cancel()
        self.process.stdout.close()
        self.close()
        return status, bodies(self.out)

    def close(self):
        """Ends its input. What a server that ended did not read is lost."""
        try:
            self.process.stdin.close()
        except OSError:
            pass

    def join(self):
        for feeder in self.feeders:
            feeder.join()
