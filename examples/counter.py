"""examples/counter.frame, written in Python: `PYTHONPATH=tools python3 examples/counter.py FILE` writes it into FILE."""

import sys

from buskeld.write import *

Counter = component(
    "Counter",
    fields={"count": 0},
    body=lambda it: Column(cross="stretch", children=[
        ColoredBox(color="#2196f3", child=Padding(left=px(16), top=px(16), bottom=px(16), child=Text("Counter", color="#ffffff"))),
        Flexible(fit="tight", child=Align(Text("You tapped " + (show(it.count) + " times")))),
        Align(ax=100, child=Padding(right=px(16), bottom=px(16), child=Detector(
            behavior="opaque",
            tap=[it.count.set(it.count + 1)],
            child=Semantics(label="Add one", button=True, child=ColoredBox(color="#ff9800", child=SizedBox(
                width=px(56), height=px(56), child=Align(ExcludeSemantics(Text("+")))))),
        ))),
    ]),
)

PROGRAM = program(view=px(320, 200), components=[Counter], root=Counter())

if __name__ == "__main__":
    write(sys.argv[1], PROGRAM, script=["frame"])
