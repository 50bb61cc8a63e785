"""A program that is played for a page: its file's script, and then what is done on the page. When the file changes, all
of it is played again."""

import functools
import json
from dataclasses import dataclass

from . import build, refusals, steps
from .found import lines_of
from .held import HeldFault, Refusal
from .moments import Moments, Reasons, explained
from .player import LONG, Player, StepFault, quoted
from .source import readable
from .steps import BadStep


class Recorder(Player):
    """A player that keeps each line with what it printed."""

    def __init__(self, program, content, seconds):
        self.log = []
        super().__init__(program, content, seconds)

    def send(self, line):
        """What a script line prints, as blocks."""
        blocks = super().send(line)
        self.log.append((line, blocks))
        return blocks


def guarded(method):
    """A method that asks the program something. Where that gives no answer, this is kept as what is wrong."""

    @functools.wraps(method)
    def asked(self, *words, **named):
        try:
            return method(self, *words, **named)
        except HeldFault as fault:
            self.broken = str(fault)
            return None

    return asked


@dataclass
class Done:
    """A line or a step that was done on the page, in the act with a number. `fits` says whether it did what it should
    when it was played last, and `ever` whether it has at any time."""

    text: str
    act: int
    fits: bool = True
    ever: bool = False


class Live:
    """The program of a file, as it is played now. `refused` are lines that say why the file as it stands isn't played;
    what was played before it stays then. `broken` says that the program gave no answer."""

    def __init__(self, program, seconds=60):
        self.program, self.seconds = program, seconds
        self.given, self.player, self.moments = None, None, None
        self.done, self.act, self.generation = [], 1, 0
        self.refused, self.broken, self.said = [], "", ""
        self.pointers, self.tweens, self.focus, self.heard = {}, {}, None, []

    def close(self):
        """Ends the program."""
        if self.player:
            self.player.close()

    @property
    def ended(self):
        """The status with which the run ended; none while it goes on."""
        return self.player.held.status if self.player else None

    def is_open(self):
        """Whether lines can be played."""
        return bool(self.player) and not self.broken and self.ended is None

    # ---- playing all of it

    def load(self, given, wants_frame=True):
        """Plays a file as it is now, and then again what was done on the page. A script without a frame gets one, where
        that is wanted."""
        reasons = Reasons(given, lambda datas: build.checked(self.program, datas), self.program)
        try:
            player = Recorder(self.program, given.program.content, self.seconds)
        except Refusal as fault:
            self.refused = explained(reasons, fault.line)
            return
        except HeldFault as fault:
            self.broken = str(fault)
            return
        self.close()
        self.given, self.player, self.refused, self.broken = given, player, [], ""
        self.moments = Moments(given.program.content, reasons)
        self.pointers, self.tweens, self.focus = {}, {}, None
        self.generation += 1
        self.done = [it for it in self.done if it.act and it.ever]
        if wants_frame and "frame" not in given.script:
            self.done.insert(0, Done("frame", 0))
        self.play_all()

    def play_all(self):
        """Plays the file's script and what was done, up to the run's end."""
        for number, line in enumerate(self.given.script, 1):
            self.play_or_tell(line, number)
        for it in self.done:
            it.fits = self.play_or_tell(it.text)
            it.ever = it.ever or it.fits
        self.settle()
        self.heard = []
        unfit = [it.text for it in self.done if not it.fits]
        self.said = f"played {len(self.given.script) + len(self.done)} lines"
        if unfit:
            more = " .." if unfit[5:] else ""
            self.said += f"; of those done here {len(unfit)} no longer fit: {', '.join(unfit[:5])}{more}"

    def play_or_tell(self, text, own=None):
        """Plays a line where the run goes on, else tells that it wasn't; whether it did what it should."""
        if self.is_open():
            return self.play(text, own)
        self.moments.add(text, [], own)
        return False

    def again(self, done):
        """Plays the file as it was when it was accepted, with other lines in place of those that were done."""
        self.done, refused = done, self.refused
        if self.given:
            self.load(self.given)
            self.refused = refused

    # ---- one line

    def play(self, text, own=None):
        """Plays a line of the file's script, or a line or step; whether it did what it should."""
        if text == "frame":
            self.settle()
        before = len(self.player.log)
        wrong = [self.broken] if self.broken else self.wrong_with(text, own)
        played = self.player.log[before:]
        said = [block for _, blocks in played for block in blocks]
        self.note(played)
        self.hear(text, said, wrong)
        lines = [line for line, _ in played if line != text or len(played) > 1]
        self.moments.add(text, said, own, lines, wrong)
        if text == "frame" and self.is_open():
            self.look()
        is_expected = text.startswith("refused ")
        return not wrong and (is_expected or not any(block.kind in ("refused", "fault") for block in said))

    def wrong_with(self, text, own):
        """Plays it, and gives what isn't as wanted, as lines."""
        try:
            step = steps.one(0, text) if own is None else None
            if step is None or step.is_script:
                self.player.send(text)
            elif text.startswith("picture "):
                return ["a picture is compared by bin/test"]
            else:
                step.does(self.player, None)
        except BadStep as fault:
            return [str(fault).partition(": ")[2]]
        except StepFault as fault:
            return [f"wanted {fault.wanted}", f"found {fault.found}"]
        except HeldFault as fault:
            self.broken = str(fault)
            return [self.broken]
        return []

    def hear(self, text, said, wrong=()):
        """Keeps what a line printed, in short."""
        answers = ", ".join([block.lines[0] for block in said if block.kind != "frame"] + list(wrong))
        self.heard.append(f"{text}: {answers}" if answers else text)

    def note(self, played):
        """Keeps what lines changed: pointers that are down, tweens that run, and who has the focus."""
        for line, blocks in played:
            words = line.split(" ")
            if any(block.kind in ("refused", "fault") for block in blocks):
                continue
            if words[0] == "down":
                self.pointers[int(words[1])] = (int(words[2]), int(words[3]))
            elif words[0] in ("up", "cancel"):
                self.pointers.pop(int(words[1]), None)
            elif words[0] == "tween":
                self.tweens[(words[1], words[2])] = self.player.time + int(words[5])
            elif words[0] == "frame":
                self.tweens = {it: end for it, end in self.tweens.items() if end > self.player.time}
            self.focus = next((block.node for block in blocks if block.kind == "focus"), self.focus)

    @guarded
    def settle(self):
        """Takes the states as the lines since the last frame left them."""
        if self.is_open() and self.player.frame:
            self.moments.look([self.player.ask("states")])

    @guarded
    def look(self):
        """Takes what a new frame shows. A focus that it lost is told by the refusal of being given it again."""
        self.moments.look([self.player.ask("semantics"), self.player.ask("states")])
        if self.focus is not None and self.player.ask(f"focus #{self.focus}").kind == "refused":
            self.focus = None
        self.moments.now["focus"] = self.focus

    # ---- what is done on the page

    def line(self, text):
        """Does a line or a step."""
        text = text.strip()
        if not text or text.startswith("#") or not self.is_open():
            return
        fits = self.play(text)
        self.done.append(Done(text, self.act, fits, fits))
        self.moments.now["focus"] = self.focus

    def frame_after(self, start):
        """Makes a frame, where something was done from the one of a number on."""
        if any(it.fits for it in self.done[start:]):
            self.line("frame")

    def point(self, x, y):
        """The nodes at a point, the deepest first."""
        return self.hits(x, y) or []

    @guarded
    def hits(self, x, y):
        """The same; nothing where no line can be played."""
        is_shown = self.is_open() and self.player.frame
        return getattr(self.player.ask(f"hit {x} {y}"), "nodes", []) if is_shown else []

    def free_pointer(self):
        """A pointer that isn't down."""
        return next(number for number in range(1, 1 << 32) if number not in self.pointers)

    @guarded
    def tap(self, x, y):
        """A tap at a point: by the text there, where a tap on that comes to the same, so that it still fits when the
        program changes."""
        text = self.text_at(x, y)
        if text is None:
            self.press_down(x, y)
            self.press_up()
            return
        before = len(self.player.log)
        self.line(f"tap {text}")
        if self.done[-1].fits or self.broken:
            return
        self.done.pop()
        self.heard.pop()
        self.moments.now["lines"].pop()
        for line, blocks in self.player.log[before:]:
            self.moments.add(line, blocks)
            self.hear(line, blocks)
            self.done.append(Done(line, self.act, True, True))

    def text_at(self, x, y):
        """The one text at a point of which the middle has the same nodes as the point, as a step has it."""
        player = self.player
        if not self.is_open() or not player.frame:
            return None
        texts = [it.text.strip() for it in lines_of(player.frame, player.view, player.scale) if holds(it.seen, x, y)]
        nodes = [it for it in player.ask("semantics").each() if it.marks and holds(it.area, x, y)]
        texts += [label for it in reversed(nodes) for label in it.label.split("\n") if label]
        nodes_here = self.point(x, y)
        for text in dict.fromkeys(filter(None, texts)):
            spots = [spot for spot in player.spots(text)[0] if spot.is_seen]
            for index, spot in enumerate(spots, 1):
                if holds(spot.area, x, y) and self.point(*spot.middle()) == nodes_here:
                    return quoted(text) + (f"[{index}]" if len(spots) > 1 else "")
        return None

    def press_down(self, x, y):
        """A pointer goes down."""
        self.line(f"down {self.free_pointer()} {x} {y}")

    def moved(self, x, y):
        """The pointer that went down last moves."""
        if self.pointers:
            self.line(f"move {list(self.pointers)[-1]} {x} {y}")

    def press_up(self, word="up"):
        """It goes up, or is cancelled."""
        if self.pointers:
            self.line(f"{word} {list(self.pointers)[-1]}")

    def hold(self):
        """It is held until a long press is due."""
        self.line(f"at {self.player.time + LONG}")

    @guarded
    def scroll(self, x, y, by):
        """Scrolls the innermost Viewport at a point; where none is hit there, the only one that there is."""
        viewports = [state.node for state in self.player.states() if state.name == "Viewport"]
        only = viewports[0] if len(viewports) == 1 else None
        inner = next((node for node in self.point(x, y) if node in viewports), only)
        if inner is not None and by:
            self.line(f"scroll #{inner} {by}")

    @guarded
    def type(self, node, field, key):
        """A key that is typed into a field with a text."""
        for state in self.player.states():
            value = state.fields.get(field)
            if state.node == node and isinstance(value, str):
                value = value[:-1] if key == "Backspace" else value + key
                self.line(f"set #{node} {field} {json.dumps(value, ensure_ascii=False)}")

    def undo(self):
        """Takes back the last act."""
        last = self.done[-1].act if self.done else 0
        self.again([it for it in self.done if it.act != last or not last])

    # ---- what is saved

    def script(self):
        """The script lines that were accepted; steps as the lines that they became."""
        return [line for line in self.player.accepted if line] if self.player else []

    def test(self):
        """The lines and steps as they were done, which fit: of the file's script those that were accepted."""
        if not self.player:
            return []
        own = self.player.log[: len(self.given.script)]
        accepted = [line for line, blocks in own if line and not any(map(refusals.of_block, blocks))]
        return accepted + [it.text for it in self.done if it.fits]

    def data(self, generation=None, have=0):
        """What the page is told. One that has the first moments of this generation is told what may have changed."""
        moments = self.moments.shown() if self.moments else []
        first = min(max(have - 1, 0), len(moments)) if generation == self.generation else 0
        told = {"generation": self.generation, "first": first, "moments": moments[first:], "refused": self.refused}
        told |= {"broken": self.broken, "ended": self.ended, "isOpen": self.is_open(), "said": self.said}
        if self.player:
            told |= {"time": self.player.time, "tweensEnd": max(self.tweens.values(), default=0)}
            told |= {"script": list(map(readable, self.script())), "test": list(map(readable, self.test()))}
            told["canUndo"] = bool(self.done and self.done[-1].act)
        return told


def holds(area, x, y):
    """Whether an area holds a point."""
    return area[0] <= x < area[0] + area[2] and area[1] <= y < area[1] + area[3]
