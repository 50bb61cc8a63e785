"""Which widget of a program the number of a node with a note is. The script is played once more over a program in which
a component without a box, that prints its own number, stands right above each widget that can have a note. It changes
no layout, and each number by exactly so many such components as were made before."""

import bisect
import json
import re

from . import json_text, printed
from .held import Held, HeldFault, Refusal

NOTED = ("Row", "Column", "Viewport")
NUMBER = re.compile(r"(?<= )#([0-9]{1,18})(?= |$)")


class Marked:
    """A program with a marking component above each widget that can have a note. `widgets` are those widgets."""

    def __init__(self, program):
        self.widgets = []
        given = program.plain()
        known = {component["name"] for component in given.get("components", [])}
        self.names = {kind: free_name(f"Mark{kind}", known) for kind in NOTED}
        made = self.marked(program)
        made["components"] = [self.component(name) for name in self.names.values()] + made.get("components", [])
        self.program = made

    @staticmethod
    def component(name):
        """The marking component of a kind: it has a field, so that `states` prints it, and no box."""
        made = {"name": name, "props": [["which", "int"]], "fields": [["which", "int", ["prop", "which"]]]}
        return {**made, "slots": ["inside"], "body": {"w": "slot", "name": "inside"}}

    def marked(self, node):
        """A value as plain data, with the marks in it."""
        if node.kind == "list":
            return [self.marked(entry) for entry in node.entries]
        if node.kind != "object":
            return node.value
        made = {it.name: it.value.plain() if it.name == "props" else self.marked(it.value) for it in node.members}
        if made.get("w") not in NOTED:
            return made
        self.widgets.append(node)
        use = {"w": "use", "name": self.names[made["w"]], "props": {"which": len(self.widgets) - 1}}
        if "key" in made:
            use["key"] = made.pop("key")
        return {**use, "slots": {"inside": made}}


def free_name(name, known):
    """A name that isn't taken."""
    while name in known:
        name += "_"
    return name


class Numbers:
    """The marks that were seen, and what follows for the numbers of nodes in the program as it is."""

    def __init__(self):
        self.marks = {}

    def see(self, states, names):
        """Takes the marks that a block of states shows."""
        for state in states.states:
            if state.name in names:
                self.marks.setdefault(state.node, state.fields["which"])

    def widgets(self):
        """The marked widgets' own numbers, each with which one it is."""
        return {mark - at: self.marks[mark] for at, mark in enumerate(sorted(self.marks))}

    def line(self, text):
        """A script line with the numbers that the marked program has."""
        own = sorted(self.widgets())
        return NUMBER.sub(lambda found: f"#{int(found[1]) + bisect.bisect_right(own, int(found[1]))}", text, count=1)


def marked_line(line, numbers, marked, place):
    """A script line for the marked program."""
    if not line.startswith("root "):
        return numbers.line(line)
    try:
        node = json_text.read(json_text.Text(place[0], line[5:], place[1], len("root ") + 1))
    except json_text.JsonFault:
        return line
    return "root " + json.dumps(marked.marked(node), ensure_ascii=False)


def noted_widgets(given, program, wanted, seconds=20):
    """Of the numbers of noted nodes, the widgets that they are, as values with places. `program` is the built program's
    file. A number whose widget isn't found is left out."""
    marked, numbers = Marked(json_text.read(given.program)), Numbers()
    try:
        with Held(program, seconds) as held:
            held.load(json.dumps(marked.program, ensure_ascii=False))
            for at, line in enumerate(given.script):
                place = (given.script_name, given.first_line + at)
                held.line(marked_line(line, numbers, marked, place))
                if held.status is not None:
                    break
                if line == "frame":
                    numbers.see(printed.of_lines(held.line("states"))[0], marked.names.values())
    except (HeldFault, Refusal, IndexError, AttributeError):
        return {}
    found = numbers.widgets()
    return {number: marked.widgets[found[number]] for number in wanted if number in found}
