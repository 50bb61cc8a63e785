"""The built program held over a pipe. It answers each line before it takes the next, so that a line's own answer is
what is printed before the refusal of an unknown line that is sent after it."""

import os
import select
import subprocess
import tempfile
import time

UNKNOWN = "?"
SECONDS = 20


class HeldFault(Exception):
    """The program didn't answer as it should: it died, or took too long."""


class Refusal(Exception):
    """The program part is refused. `line` is what the program says of it."""

    def __init__(self, line):
        super().__init__(line)
        self.line = line


class Held:
    """A run of the program over a script that grows. As a context it ends the process when it is left."""

    def __init__(self, program, seconds=SECONDS):
        self.seconds, self.sent, self.asked, self.rest = seconds, 0, 0, b""
        self.status = None
        self.errors = tempfile.TemporaryFile()
        pipe = subprocess.PIPE
        try:
            self.process = subprocess.Popen([str(program)], stdin=pipe, stdout=pipe, stderr=self.errors)
        except OSError as fault:
            self.errors.close()
            raise HeldFault(f"{program} does not start: {fault.strerror}") from None
        os.set_blocking(self.process.stdin.fileno(), False)

    def __enter__(self):
        return self

    def __exit__(self, *_):
        self.close()

    def close(self):
        """Ends the process."""
        if self.process.poll() is None:
            self.process.kill()
        self.process.wait()
        for stream in (self.process.stdin, self.process.stdout, self.errors):
            try:
                stream.close()
            except OSError:
                pass

    def load(self, content):
        """Gives the program part. It is taken, or `Refusal` says why not."""
        said = self.exchange(content + ("" if content.endswith("\n") else "\n") + "%%\n")
        if self.status is not None:
            raise Refusal("\n".join(said))

    def line(self, text, is_counted=True):
        """What a script line prints, as lines. The number in a refusal counts the lines that were given here."""
        if "\n" in text:
            raise ValueError("a script line has no line feed")
        if self.status is not None:
            raise HeldFault(f"the run ended with status {self.status} at an earlier line")
        self.asked += is_counted
        self.sent += 1
        number = self.sent
        said = self.exchange(text + "\n")
        front = f"refused {number} "
        return [f"refused {self.asked} {line[len(front):]}" if line.startswith(front) else line for line in said]

    def exchange(self, text):
        """Sends a text and an unknown line, and gives what comes before the refusal of that, or before the run ends."""
        self.sent += 1
        mark = f"refused {self.sent} 3 UnknownLine\n".encode()
        self.talk((text + UNKNOWN + "\n").encode("utf-8", "surrogateescape"), mark)
        said = self.rest if self.status is not None else self.rest[: -len(mark)]
        self.rest = b""
        return said.decode("utf-8").split("\n")[:-1]

    def talk(self, data, mark):
        """Writes and reads until the mark ends what was read, or until the process ends."""
        deadline = time.monotonic() + self.seconds
        source, sink = self.process.stdout.fileno(), self.process.stdin.fileno()
        while not (self.rest.endswith(mark) and self.rest[: -len(mark)][-1:] in (b"", b"\n")):
            left = deadline - time.monotonic()
            readable, writable, _ = select.select([source], [sink] if data else [], [], max(left, 0))
            if not readable and not writable:
                self.close()
                raise HeldFault(f"the program gave no answer within {self.seconds} s")
            if writable:
                data = self.write(sink, data)
            if readable:
                piece = os.read(source, 1 << 16)
                if not piece:
                    self.ended()
                    return
                self.rest += piece

    @staticmethod
    def write(sink, data):
        """Writes what the pipe takes, and gives the rest. A run that has ended takes nothing more."""
        try:
            return data[os.write(sink, data) :]
        except BlockingIOError:
            return data
        except BrokenPipeError:
            return b""

    def ended(self):
        """The process ended by itself: that is an answer where the run says so by its status."""
        status = self.process.wait()
        if status in (3, 4):
            self.status = status
            return
        self.errors.seek(0)
        why = self.errors.read().decode("utf-8", "replace").strip().split("\n")[-1]
        how = f"was ended by signal {-status}" if status < 0 else f"ended with status {status}"
        self.close()
        raise HeldFault(f"the program {how} in the middle of the run{': ' if why else ''}{why}")


def play(held, lines):
    """What each of several lines prints, as pairs of a line and its answer, up to the run's end."""
    for line in lines:
        yield line, held.line(line)
        if held.status is not None:
            return
