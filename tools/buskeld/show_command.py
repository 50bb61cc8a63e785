"""usage: bin/show [--try | --printed TEXT] FILE.frame >page.html
       bin/show [--try | --printed TEXT] APP.json SCRIPT >page.html

Runs a program with its script and makes one page of what it shows, which needs no network: each frame as a picture, and
the lines that act on it with what each of them printed. The arrow keys, Home and End step through the frames.

  --try            runs the program without its proof (bin/frame --try)
  --printed TEXT   draws what stands in the file TEXT, such as examples/NAME.out, and runs nothing"""

import pathlib
import sys

from . import build, moments, source
from .build import NoBuild
from .frame_command import WIDTH
from .live import Live
from .page import page
from .printed import Unreadable
from .source import BadInput


def shown_of(given, is_try, kept):
    """The moments of a run, or of what was kept of one, and the lines that say why its program is refused."""
    if kept:
        return moments.of_text(given, source.content_of(kept))
    if is_try:
        return tried(given)
    live = Live(build.proved_program())
    try:
        live.load(given, False)
        if live.broken:
            raise NoBuild(live.broken)
        return live.moments or moments.Moments(given.program.content, None), live.refused
    finally:
        live.close()


def tried(given):
    """The same of a run without a proof; where its program is refused by its check, one more build says why."""
    ran = build.try_all([given.data])[0]
    if ran.cut:
        raise NoBuild(ran.cut)
    if not ran.text:
        raise NoBuild("the program printed nothing, and so there is nothing to draw")

    def ask(datas):
        return [it.text.split("\n")[0] for it in build.try_all(datas, ["check"])]

    return moments.of_text(given, ran.text, moments.Reasons(given, ask, None, WIDTH))


def main(words):
    """Writes the page."""
    words = list(words)
    if words == ["--help"]:
        print(__doc__)
        return 0
    is_try = words[:1] == ["--try"]
    kept = words[1] if len(words) > 2 and words[0] == "--printed" else None
    files = words[2:] if kept else words[is_try:]
    try:
        if not files or any(word.startswith("-") for word in files):
            raise BadInput(__doc__)
        inputs = source.inputs_of(files)
        if len(inputs) != 1:
            raise BadInput(__doc__)
        given = inputs[0]
        made, refused = shown_of(given, is_try, kept)
        shown = page(pathlib.Path(given.name).stem, made.shown(), refused)
        sys.stdout.buffer.write(shown.encode("utf-8"))
    except (BadInput, NoBuild, Unreadable) as fault:
        is_usage = str(fault) == __doc__
        print(fault if is_usage else f"bin/show: {fault}", file=sys.stderr)
        return 2
    return 0
