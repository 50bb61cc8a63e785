"""Plays script lines and steps by what is shown on a program that is held over a pipe: `tap "Wi-Fi"`, `see "Home"`."""

import json

from . import found, json_text, printed
from .drawing import Scale, scale_of
from .held import Held
from .schema import nearest

LONG = 500
POINTER = 99


class StepFault(Exception):
    """What was wanted of a step, and what was found."""

    def __init__(self, wanted, found_text, is_final=True):
        super().__init__(f"wanted {wanted}, found {found_text}")
        self.wanted, self.found, self.is_final = wanted, found_text, is_final


class Player:
    """A program that is played, and what its last frame showed. `Refusal` says that the program part is refused."""

    def __init__(self, program, content, seconds=20):
        self.held = Held(program, seconds)
        self.frame, self.time, self.is_behind, self.accepted = None, 0, False, []
        self.view, self.next_view, self.scale = (1, 1), (1, 1), Scale(1)
        try:
            self.held.load(content)
            plain = json_text.read(json_text.Text("program", content)).plain()
            self.next_view, self.scale = tuple(plain["view"]), scale_of(plain)
        except BaseException:
            self.held.close()
            raise

    def close(self):
        """Ends the program."""
        self.held.close()

    # ---- script lines

    def send(self, line):
        """What a script line prints, as blocks."""
        blocks = printed.of_lines(self.held.line(line))
        if not any(block.kind == "refused" for block in blocks):
            self.accepted.append(line)
            self.note(line, blocks)
        return blocks

    def ask(self, line):
        """The block that a line prints which changes nothing, and is no line of the script that is played."""
        return printed.of_lines(self.held.line(line, False))[0]

    def note(self, line, blocks):
        """Keeps what an accepted line changes."""
        words = line.split(" ")
        if words[0] == "at":
            self.time = int(words[1])
        if words[0] == "resize":
            self.next_view = (int(words[1]), int(words[2]))
        if words[0] not in ("hit", "semantics", "states", "cells", "focus"):
            self.is_behind = words[0] != "frame"
        if blocks and blocks[-1].kind == "frame":
            self.frame, self.view = blocks[-1], self.next_view

    def do(self, line):
        """A script line that has to be accepted."""
        blocks = self.send(line)
        for block in blocks:
            if block.kind in ("refused", "fault"):
                raise StepFault(f"`{line}` to be accepted", f"`{block.lines[0]}`")
        return blocks

    # ---- what is shown

    def shown(self):
        """The lines of text, and the semantics tree, of the last frame."""
        if self.frame is None:
            raise StepFault("a frame", "none yet: give a line `frame` first")
        return found.lines_of(self.frame, self.view, self.scale), self.ask("semantics")

    def spots(self, text):
        """The places at which a text stands."""
        lines, semantics = self.shown()
        return found.spots_of(text, lines, semantics, self.view), lines, semantics

    def spot(self, text, index):
        """The one place at which a text stands, or the one with this number in the order of reading."""
        spots, lines, semantics = self.spots(text)
        seen = [spot for spot in spots if spot.is_seen]
        if index and index <= len(seen):
            return seen[index - 1]
        if len(seen) == 1 and not index:
            return seen[0]
        wanted = f"{quoted(text)}, {index} times" if index else f"{quoted(text)} once"
        raise StepFault(wanted, self.what_there_is(text, spots, lines, semantics))

    def what_there_is(self, text, spots, lines, semantics):
        """What is there in place of a text that stands at no place, or at several."""
        seen = [spot for spot in spots if spot.is_seen]
        if seen:
            places = ", ".join(f"[{at}] at {point(spot.middle())}" for at, spot in enumerate(seen, 1))
            return f"it {len(seen)} times: {places}" + ("" if len(seen) == 1 else f"; {quoted(text)}[1] is the first")
        if spots and spots[0].is_said:
            return "it said by the view, at no place of its own"
        if spots:
            return "it outside of what is to be seen"
        words = [line.text for line in lines if line.is_seen()]
        words += [label for node in semantics.each() for label in node.label.split("\n") if label]
        words = list(dict.fromkeys(words))
        near = nearest(text, words)
        hint = f"; is {quoted(near)} meant?" if near else ""
        late = "; lines since the last frame may have changed it: give a line `frame`" if self.is_behind else ""
        return f"none among {', '.join(map(quoted, words)) or 'no text'}{hint}{late}"

    # ---- steps

    def tap(self, text, index):
        """A tap on a text. Something has to take it."""
        x, y = self.spot(text, index).middle()
        blocks = self.do(f"down {POINTER} {x} {y}") + self.do(f"up {POINTER}")
        self.taken(blocks, "tap", text, (x, y))
        return blocks

    def long(self, text, index):
        """A long press on a text; it takes half a second."""
        x, y = self.spot(text, index).middle()
        blocks = self.do(f"down {POINTER} {x} {y}") + self.do(f"at {self.time + LONG}") + self.do(f"up {POINTER}")
        self.taken(blocks, "long", text, (x, y))
        return blocks

    def drag(self, text, index, dx, dy):
        """A drag that begins at a text. Where nothing has won yet it goes past the slop first, so that what wins it is
        told of exactly dx and dy."""
        x, y = self.spot(text, index).middle()
        blocks = self.do(f"down {POINTER} {x} {y}")
        if not any(block.kind == "start" for block in blocks):
            slop = self.scale.pan_slop + 1
            along = abs(dx) > abs(dy)
            x, y = x + along * sign(dx) * slop, y + (not along) * sign(dy) * slop
            blocks += self.do(f"move {POINTER} {x} {y}")
        blocks += self.do(f"move {POINTER} {x + dx} {y + dy}") + self.do(f"up {POINTER}")
        self.taken(blocks, "update", text, (x, y))
        return blocks

    @staticmethod
    def taken(blocks, kind, text, at):
        """Whether a gesture was taken by something."""
        if any(block.kind == kind for block in blocks):
            return
        what = {"tap": "a tap", "long": "a long press", "update": "a drag"}[kind]
        won = ", ".join(f"`{block.lines[0]}`" for block in blocks) or "nothing there that takes a gesture"
        raise StepFault(f"{what} on {quoted(text)} to be taken", f"{won}, at {point(at)}")

    def scroll(self, text, index, by):
        """Scrolls the innermost Viewport that shows a text."""
        x, y = self.spot(text, index).middle()
        hits = self.ask(f"hit {x} {y}").nodes
        viewports = [state.node for state in self.states() if state.name == "Viewport"]
        inner = next((node for node in hits if node in viewports), None)
        if inner is None:
            raise StepFault(f"a Viewport that shows {quoted(text)}", f"none among the nodes at {point((x, y))}: {hits}")
        return self.do(f"scroll #{inner} {by}")

    # ---- expectations

    def see(self, text, index):
        """A text that is to be seen."""
        spots, lines, semantics = self.spots(text)
        seen = [spot for spot in spots if spot.is_seen or spot.is_said]
        if not seen or index > len(seen):
            raise StepFault(f"{quoted(text)} to be seen", self.what_there_is(text, spots, lines, semantics), False)

    def no(self, text, index):
        """A text that isn't to be seen."""
        spots, _, _ = self.spots(text)
        seen = [spot for spot in spots if spot.is_seen or spot.is_said]
        if len(seen) >= max(index, 1):
            raise StepFault(f"no {quoted(text)}", f"it at {point(seen[0].middle())}", False)

    def states(self):
        """The states as they are now."""
        return self.ask("states").states

    def field(self, name, field, wanted):
        """A component's field that has a value."""
        states = self.states()
        those = [state for state in states if name in (state.name, f"#{state.node}") and field in state.fields]
        if len(those) != 1:
            there = ", ".join(f"#{state.node} {state.name}.{it}" for state in states for it in state.fields)
            many = "none" if not those else f"{len(those)} of them"
            raise StepFault(f"one {name}.{field}", f"{many} among {there or 'no field'}", False)
        value = those[0].fields[field]
        if value != wanted or isinstance(value, bool) != isinstance(wanted, bool):
            raise StepFault(f"{name}.{field} to be {quoted(wanted)}", quoted(value), False)


def sign(number):
    """1 for a number above 0, else -1."""
    return 1 if number > 0 else -1


def quoted(value):
    """A value as it is written in steps."""
    return json.dumps(value, ensure_ascii=False)


def point(at):
    """A point for a reader."""
    return f"({at[0]}, {at[1]})"
