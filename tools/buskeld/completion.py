"""What the Tab key adds to a line: words, node numbers, fields, and texts that are shown."""

import json

from . import found
from .explain import LINES
from .steps import TEXT_STEPS

WORDS = sorted({*LINES, *TEXT_STEPS, "field", "refused", "save", "help", "quit"})
AFTER = {
    "focus": ["next", "prev", "none"],
    "delegate": ["bars count", "bars color", "grid step", "grid color", "corner dx", "corner dy"],
    "unplug": ["bars", "grid", "corner"],
}
OF_STATES = ("set", "scroll", "tween")


class Completer:
    """Completes lines by what the program shows now."""

    def __init__(self, player):
        self.player, self.lines = player, []

    def complete(self, line, at):
        """The completion of a line with a number, from 0, as the module readline asks for it."""
        if at == 0:
            try:
                self.lines = self.completions(line)
            except Exception:  # nothing that goes wrong here may end what is typed
                self.lines = []
        return self.lines[at] if at < len(self.lines) else None

    def completions(self, line):
        """All lines that a line may become."""
        words = line.split(" ")
        head = line[: len(line) - len(words[-1])]
        if line.count('"') % 2:
            start = line.index('"')
            return [line[:start] + text for text in self.texts() if text.startswith(line[start:])]
        if len(words) == 1:
            return [word for word in WORDS if word.startswith(line)]
        return [head + word for word in self.words(words) if word.startswith(words[-1])]

    def words(self, words):
        """The words that may stand after others."""
        first = words[0]
        if len(words) == 2 and first in TEXT_STEPS and not words[1].startswith("#"):
            texts = self.texts() if first != "scroll" or words[1] else self.texts() + self.numbers(first)
            return texts
        if len(words) == 2 and first == "field":
            return [f"{state.name}.{field}" for state in self.states() for field in state.fields]
        if len(words) == 3 and first in ("set", "tween"):
            return [field for state in self.states() if f"#{state.node}" == words[1] for field in state.fields]
        if len(words) == 3 and first == "act":
            return ["tap", "long"]
        if len(words) == 2:
            return self.numbers(first) + AFTER.get(first, [])
        return []

    def states(self):
        """The components with fields, and the Viewports."""
        return self.player.states()

    def semantics(self):
        """The nodes of the semantics tree."""
        return list(self.player.ask("semantics").each())

    def numbers(self, word):
        """The numbers of nodes that a line may name."""
        if word in OF_STATES:
            return [f"#{state.node}" for state in self.states() if (state.name == "Viewport") == (word == "scroll")]
        if word == "act":
            return [f"#{node.node}" for node in self.semantics() if "tap" in node.marks or "long" in node.marks]
        if word == "focus":
            return [f"#{node.node}" for node in self.semantics() if "tap" in node.marks]
        return []

    def texts(self):
        """The texts that are shown or said, in quotes."""
        if self.player.frame is None:
            return []
        lines = found.lines_of(self.player.frame, self.player.view, self.player.scale)
        texts = [line.text.strip() for line in lines if line.is_seen()]
        texts += [label for node in self.semantics() for label in node.label.split("\n") if label]
        return [json.dumps(text, ensure_ascii=False) for text in dict.fromkeys(texts)]
