"""The statement program as a person runs it: started, fed by hand, read as it answers, ended. Every wait has an end."""
import os
import select
import struct
import subprocess
import threading

from statement_tools import PROGRAM, Failed, demand

PATIENCE = 10  # seconds until an answer that does not come is a failure


class Session:
    """A running program. `given` may name other streams or settings than pipes, as subprocess.Popen takes them."""

    def __init__(self, folder, **given):
        streams = {"stdin": subprocess.PIPE, "stdout": subprocess.PIPE, "stderr": subprocess.PIPE}
        self.child = subprocess.Popen([PROGRAM], cwd=folder, bufsize=0, **{**streams, **given})

    def __enter__(self):
        return self

    def __exit__(self, *_):
        self.child.kill()
        self.child.wait()
        for stream in (self.child.stdin, self.child.stdout, self.child.stderr):
            if stream:
                stream.close()

    def send(self, data):
        while data:
            data = data[self.child.stdin.write(data):]

    def send_rest(self, data):
        """Sends the rest of the feed to a program that may end before it has read it all."""
        try:
            self.send(data)
        except BrokenPipeError:
            pass
        self.child.stdin.close()

    def expect(self, lines, when):
        """Reads as many bytes as these lines have; they must be these, and come soon."""
        got, fd = bytearray(), self.child.stdout.fileno()
        while len(got) < len(lines):
            ready, _, _ = select.select([fd], [], [], PATIENCE)
            due = f"{bytes(lines[len(got):][:80])!r} is due"
            demand(ready, f"{when}: nothing came in {PATIENCE} seconds, but {due}")
            more = os.read(fd, len(lines) - len(got))
            demand(more, f"{when}: the statement has ended, but {due}")
            demand(lines.startswith(more, len(got)), f"{when}: {more[:80]!r} came, but {due}")
            got += more

    def expect_while_sent(self, send, pieces, lines, when):
        """The same, while the pieces of a feed are sent: longer than what fits between the two."""
        def send_all():
            try:
                for piece in pieces:
                    send(piece)
            except OSError:
                pass  # it reads no further; the lines will tell why

        sender = threading.Thread(target=send_all, daemon=True)
        sender.start()
        self.expect(lines, when)
        sender.join(PATIENCE)
        demand(not sender.is_alive(), f"{when}: all lines are out, but the rest of the feed is not read")

    def end(self):
        """Status, rest of standard output, and standard error, when the program ends. Its input is left as it is."""
        try:
            status = self.child.wait(PATIENCE)
        except subprocess.TimeoutExpired:
            raise Failed(f"the program did not end in {PATIENCE} seconds") from None
        out = self.child.stdout.read() if self.child.stdout else b""
        return status, out, self.child.stderr.read()

    def peak_memory(self):
        """The most memory it had so far, in KiB: resident, and asked for (which is the same in every run)."""
        with open(f"/proc/{self.child.pid}/status", encoding="ascii") as file:
            sizes = dict(line.split(":", 1) for line in file)
        return int(sizes["VmHWM"].split()[0]), int(sizes["VmPeak"].split()[0])


def records(feed):
    """The records of a feed that is sound."""
    start = 0
    while start < len(feed):
        kind, n, m = struct.unpack_from("<BHH", feed, start)
        length = [0, 21, 9, 9, 5 + 8 * n + 24 * m, 9 + 8 * n + 24 * m, 5 + 16 * m, 5][kind]
        yield start, feed[start:start + length]
        start += length


def records_with_lines(feed, statement):
    """Each record with the lines that the statement has for it: lines come in the order of the records."""
    lines = statement.splitlines(keepends=True)
    for start, record in records(feed):
        own = []
        if lines and lines[0].startswith(b"R ") and int(lines[0].split()[2]) == start:
            own = [lines.pop(0)]
        elif lines and record[0] == 6:
            while not (own and own[-1].startswith(b"K ")):
                own.append(lines.pop(0))
        yield record, b"".join(own)
    demand(not lines, f"lines that belong to no record: {lines}")
