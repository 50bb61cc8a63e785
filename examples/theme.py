"""examples/theme.frame, written in Python: `PYTHONPATH=tools python3 examples/theme.py FILE` writes it into FILE."""

import sys

from buskeld.write import *

WHITE, BLACK = color("#ffffff"), color("#000000")

Card = component(
    "Card",
    props={"title": "text"},
    body=lambda it: ColoredBox(color=inherit("paper"), child=Padding(
        left=px(8), top=px(8), right=px(8), bottom=px(8), child=Text(it.title, color=inherit("ink")))),
)

App = component(
    "App",
    fields={"dark": False},
    body=lambda it: Inherit("paper", if_(it.dark, color("#212121"), WHITE), Inherit("ink", if_(it.dark, color("#eeeeee"), BLACK), Column(
        cross="stretch",
        children=[Card(title="follows the theme"), Inherit("ink", color("#f44336"), Card(title="always in red"))],
    ))),
)

PROGRAM = program(view=px(320, 120), inherited={"paper": WHITE, "ink": BLACK}, components=[Card, App], root=App())

if __name__ == "__main__":
    write(sys.argv[1], PROGRAM, script=["frame"])
