"""Where things stand in this repository."""

import os
import pathlib

TOP = pathlib.Path(__file__).resolve().parent.parent.parent
CRATE = TOP / "crates" / "frame_cli"
EXAMPLES = TOP / "examples"
SCHEMA = TOP / "docs" / "program.schema.json"
REFUSALS = TOP / "docs" / "refusals.json"
FORMATS = TOP / "docs" / "FORMATS.md"


def built_program():
    """The proved program's file, which may not be there yet. The variable BUSKELD_PROGRAM names another one."""
    return pathlib.Path(os.environ.get("BUSKELD_PROGRAM") or CRATE / "out" / "frame_cli")
