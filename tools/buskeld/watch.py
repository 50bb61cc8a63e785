"""usage: bin/watch [--port N] FILE.frame
       bin/watch [--port N] APP.json SCRIPT

Plays a program on a page of this machine, at an address that it prints: http://127.0.0.1:PORT/TOKEN/. The page shows
each frame, and what the lines that act on it printed. The last frame answers: click it, drag it, turn the wheel over it,
and type on it. When the file is saved the program is played again, with what was done on the page. Ctrl-C ends it.

  --port N   takes this port in place of any that is free

Nothing but this page is served, and only to this machine's own browser (docs/LIVE.md)."""

import pathlib
import sys
import threading
import time

from . import build, source
from .build import NoBuild
from .live import Live
from .page import live_page
from .server import Served, Server
from .source import BadInput

EVERY = 0.15


class Files:
    """The files of an input, which are looked at again and again."""

    def __init__(self, words):
        self.words, self.paths = words, [pathlib.Path(word) for word in words]
        self.seen = self.contents()

    def contents(self):
        """What the files hold now; nothing where one can't be read."""
        try:
            return [path.read_bytes() for path in self.paths]
        except OSError:
            return None

    def given(self):
        """The input that they hold."""
        inputs = source.inputs_of(self.words)
        if len(inputs) != 1:
            raise BadInput(__doc__)
        return inputs[0]

    def has_changed(self):
        """Whether they hold something else than before, and the same twice, so that none is only half written."""
        now = self.contents()
        if now is None or now == self.seen:
            return False
        time.sleep(EVERY / 3)
        if self.contents() != now:
            return False
        self.seen = now
        return True


def told(live):
    """What is told of a program that was played."""
    return live.broken or (live.refused[0] if live.refused else live.said)


def reload(served, files):
    """Plays the files as they are now."""

    def loaded():
        try:
            served.live.load(files.given())
        except BadInput as fault:
            served.live.refused = [str(fault)]
        print(f"{time.strftime('%H:%M:%S')} {told(served.live)}", flush=True)

    served.change(loaded)


def watch(served, files, stop):
    """Looks at the files until it is told to stop."""
    while not stop.wait(EVERY):
        if files.has_changed():
            reload(served, files)


def saver(files):
    """What writes a file beside the first one that is watched."""
    folder = files.paths[0].resolve().parent
    own = {path.resolve() for path in files.paths}

    def save(live, name, is_over):
        path = folder / name
        if path.resolve() in own:
            return f"{name} is the file that is watched: take another name"
        if path.exists() and not is_over:
            return f"{name} is there already: save it once more to write over it"
        is_test = path.suffix == ".test"
        lines = live.test() if is_test else live.script()
        head = "" if is_test or not live.given else live.given.program.content.rstrip("\n") + "\n%%\n"
        try:
            path.write_bytes(source.bytes_of(head + "".join(f"{line}\n" for line in lines)))
        except OSError as fault:
            return f"{name} can't be written: {fault.strerror}"
        return f"wrote {name}: {len(lines)} lines"

    return save


def options(words):
    """The port, and the files."""
    words, port = list(words), 0
    if words[:1] == ["--port"] and len(words) > 1 and words[1].isdigit() and int(words[1]) < 1 << 16:
        port, words = int(words[1]), words[2:]
    if not words or any(word.startswith("-") for word in words):
        raise BadInput(__doc__)
    return port, words


def serve(files, port):
    """Serves the page until it is ended."""
    live = Live(build.proved_program())
    live.load(files.given())
    name = files.paths[0].stem
    served = Served(live, lambda data: live_page(name, data), saver(files))
    stop = threading.Event()
    with Server(served, port) as server:
        print(server.address, flush=True)
        print(told(live), flush=True)
        threading.Thread(target=watch, args=(served, files, stop), daemon=True).start()
        try:
            server.serve_forever(0.1)
        finally:
            stop.set()
            served.close()


def main(words):
    """Plays a file on a page."""
    if list(words) == ["--help"]:
        print(__doc__)
        return 0
    try:
        port, files = options(words)
        serve(Files(files), port)
    except KeyboardInterrupt:
        print()
        return 0
    except (BadInput, NoBuild, OSError) as fault:
        is_usage = str(fault) == __doc__
        print(fault if is_usage else f"bin/watch: {fault}", file=sys.stderr)
        return 2
    return 0
