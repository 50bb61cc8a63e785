"""examples/todo.frame, written in Python: `PYTHONPATH=tools python3 examples/todo.py FILE` writes it into FILE."""

import sys

from buskeld.write import *

Item = component(
    "Item",
    props={"title": "text"},
    fields={"done": False},
    body=lambda it: Detector(behavior="opaque", tap=[it.done.set(~it.done)], child=Padding(
        left=px(8), top=px(8), right=px(8), bottom=px(8),
        child=Text(if_(it.done, "[x] ", "[ ] ") + it.title, color=if_(it.done, color("#9e9e9e"), color("#000000"))),
    )),
)

Todo = component(
    "Todo",
    fields={"order": [0, 1, 2], "titles": ["buy milk", "call Ada", "fix the roof"]},
    body=lambda it: Column(cross="stretch", children=[
        each(it.order, lambda i: Item(key=local(i), title=at(it.titles, i, "?"))),
    ]),
)

PROGRAM = program(view=px(320, 160), components=[Item, Todo], root=Todo())

if __name__ == "__main__":
    write(sys.argv[1], PROGRAM, script=["frame"])
