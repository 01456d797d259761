"""A program under test: found, run in one go or fed in pieces, and talked with over pipes."""
import os
import select
import subprocess
import sys
import threading

TOP = os.path.dirname(os.path.dirname(os.path.abspath(__file__)))
PATIENCE = 10  # seconds for an answer; a whole run has six times as many


class Difference(Exception):
    """What a program does in place of what it should, and the input if there is one."""

    def __init__(self, what, data=None):
        super().__init__(what)
        self.data = data


def here(name):
    """The path of a file that runs target/bin/NAME on this machine."""
    script = os.path.join(TOP, "tests", "emulated", "program.sh")
    found = subprocess.run([script, os.path.join(TOP, "target", "bin", name)], stdout=subprocess.PIPE, text=True)
    if found.returncode != 0:
        sys.exit(1)  # the script has said why
    return found.stdout.strip()


class Talk:
    """A program with pipes on both sides."""

    def __init__(self, path):
        self.program = subprocess.Popen([path], stdin=subprocess.PIPE, stdout=subprocess.PIPE, bufsize=0)
        self.source = self.program.stdout.fileno()

    def send(self, data):
        """Whether the program has listened to the end."""
        left = memoryview(data)
        try:
            while left:
                left = left[self.program.stdin.write(left) :]
            return True
        except BrokenPipeError:
            return False

    def hear(self, size):
        """The next so many bytes, or fewer where they don't come."""
        heard = b""
        while len(heard) < size and select.select([self.source], [], [], PATIENCE)[0]:
            piece = os.read(self.source, size - len(heard))
            if not piece:
                break
            heard += piece
        return heard

    def end(self, still_to_send=()):
        """What is written while the rest is sent and after that, and the exit status."""
        alarm = threading.Timer(6 * PATIENCE, self.program.kill)
        hand = threading.Thread(target=self.hand_over, args=[still_to_send])
        alarm.daemon = True
        alarm.start()
        hand.start()
        heard = b"".join(iter(lambda: os.read(self.source, 65536), b""))
        hand.join()
        self.program.stdout.close()
        status = self.program.wait()
        if not alarm.is_alive():
            raise Difference("the program doesn't end")
        alarm.cancel()
        return heard, status

    def hand_over(self, still_to_send):
        for piece in still_to_send:
            if not self.send(piece):
                break
        self.program.stdin.close()

    def stop(self):
        self.program.kill()
        self.program.wait()


def pieces(data, sizes, chance):
    """An input cut into pieces of these sizes, chosen by chance."""
    at = 0
    while at < len(data):
        size = chance.choice(sizes)
        yield data[at : at + size]
        at += size


def run(path, data):
    """What the program writes for an input, and its exit status."""
    return Talk(path).end([data])


def hold_failures(path):
    """Raises what a program does in place of telling, under its own name, that reading or writing failed, and ending with status 1."""
    name, folder, full = os.path.basename(path), os.open(TOP, os.O_RDONLY), os.open("/dev/full", os.O_WRONLY)
    for told, streams in (
        ("input can't be read", {"stdin": folder, "stdout": subprocess.PIPE}),
        ("output can't be written", {"input": b"\n", "stdout": full}),
    ):
        ended = subprocess.run([path], stderr=subprocess.PIPE, timeout=6 * PATIENCE, **streams)
        wanted, got = (f"{name}: standard {told}\n".encode(), b"", 1), (ended.stderr, ended.stdout or b"", ended.returncode)
        if got != wanted:
            raise Difference("expected on standard error {!r}, on output {!r}, status {}; got {!r}, {!r}, {}".format(*wanted, *got))
    os.close(folder)
    os.close(full)


def compare(label, data, wanted, result):
    """Raises the first line of an input that isn't answered as wanted; one line is written for each."""
    got, status = result
    if got == wanted and status == 0:
        return
    if got == wanted:
        raise Difference(f"{label}: all is answered, and the exit status is {status}", data)
    lines, expected, given = data.split(b"\n"), wanted.split(b"\n"), got.split(b"\n")
    for k, line in enumerate(lines):
        want, have = (answers[k] if k < len(answers) else b"nothing" for answers in (expected, given))
        if want != have:
            raise Difference(f"{label}, line {k + 1}: {line[:60]!r}: expected {want.decode()}, got {have[:60]!r}", data)
    raise Difference(f"{label}: {len(got)} bytes answered in place of {len(wanted)}", data)


def fail(who, difference):
    """Ends with 1 and leaves the input in a file."""
    if difference.data is None:
        sys.exit(f"{who}: {difference}")
    with open("differs", "wb") as file:
        file.write(difference.data)
    sys.exit(f"{who}: {difference}; the input is in the file 'differs'")
