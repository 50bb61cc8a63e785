#!/usr/bin/env python3
"""layout_tree [DEPTH]: a program whose tree is balanced, and one frame of it, for `frame`: Rows and Columns by turns, eight
children each, every second of them flexible, over boxes of 3 by 3. Depth 5 has 37,449 Rows, Columns and boxes."""
import json
import sys


def tree(depth):
    if depth == 0:
        return {"w": "SizedBox", "width": 3, "height": 3}
    below = tree(depth - 1)
    flexible = {"w": "Flexible", "flex": 1, "child": below}
    return {"w": "Row" if depth % 2 else "Column", "children": [below, flexible] * 4}


PROGRAM = {"version": 3, "view": [1000000, 1000000], "components": []}


def main():
    depth = int(sys.argv[1]) if len(sys.argv) > 1 else 5
    print(json.dumps(PROGRAM | {"root": tree(depth)}))
    print("%%")
    print("frame")


if __name__ == "__main__":
    main()
