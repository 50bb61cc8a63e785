"""Frames as pictures (SVG), one shape a line, in which a logical pixel is a pixel where there is room for that."""

import html
import unicodedata

from .printed import Picture

WIDE = {"W": 2, "F": 2}
JOINER = "\u200d"


class Scale:
    """The sizes of a program's version: u in a logical pixel, and a cell of text."""

    def __init__(self, version):
        self.unit = 256 if version == 3 else 64
        self.width, self.height = 8 * self.unit, 16 * self.unit
        self.pan_slop = 36 * self.unit


def scale_of(program):
    """The scale of a program, given as plain data."""
    return Scale(program.get("version") if isinstance(program, dict) else 1)


def cells_of(text):
    """How many cells a text takes: two for a wide character, none for a mark on the one before."""
    cells, joined = 0, False
    for character in text:
        is_mark = unicodedata.category(character) in ("Mn", "Me", "Cf")
        if not is_mark and not joined:
            cells += WIDE.get(unicodedata.east_asian_width(character), 1)
        joined = character == JOINER
    return cells


def paint(color):
    """A color as attributes."""
    alpha = int(color[:2], 16)
    return f'fill="#{color[2:]}"' + ("" if alpha == 255 else f' fill-opacity="{alpha / 255:.3f}"')


class Drawing:
    """The shapes of frames; each clip has a name of its own in all of them."""

    def __init__(self, scale):
        self.scale, self.clips = scale, 0

    def picture(self, frame, view, label):
        """A frame as an SVG, under a name."""
        width, height = view
        unit = self.scale.unit
        head = (
            f'<svg xmlns="http://www.w3.org/2000/svg" viewBox="0 0 {width} {height}" width="{max(width / unit, 1):g}"'
            f' height="{max(height / unit, 1):g}" role="img" aria-label="{html.escape(label)}">'
        )
        return "\n".join([head, *self.shapes([frame.root]), "</svg>"])

    def shapes(self, items):
        """The shapes of layers and pictures."""
        lines = []
        for item in items:
            lines += map(self.record, item.records) if isinstance(item, Picture) else self.layer(item)
        return lines

    def layer(self, layer):
        """The shapes of a layer."""
        inner = self.shapes(layer.items)
        if layer.kind == "clip":
            self.clips += 1
            width, height = layer.size
            area = f'<rect x="{layer.x}" y="{layer.y}" width="{width}" height="{height}"/>'
            clip = f'<clipPath id="clip{self.clips}">{area}</clipPath>'
            return [clip, f'<g clip-path="url(#clip{self.clips})">', *inner, "</g>"]
        fade = f' opacity="{layer.alpha / 255:.3f}"' if layer.kind == "opacity" else ""
        return [f'<g transform="translate({layer.x} {layer.y})"{fade}>', *inner, "</g>"]

    def record(self, record):
        """The shape of a record."""
        if record.text is None:
            width, height = record.size
            return f'<rect x="{record.x}" y="{record.y}" width="{width}" height="{height}" {paint(record.color)}/>'
        height, width = self.scale.height, cells_of(record.text) * self.scale.width
        place = f'x="{record.x}" y="{record.y + height * 3 // 4}" {paint(record.color)}'
        font = f'font-size="{height * 13 // 16}" font-family="monospace" xml:space="preserve"'
        length = f'textLength="{width}" lengthAdjust="spacingAndGlyphs"'
        return f"<text {place} {font} {length}>{html.escape(visible(record.text))}</text>"


def visible(text):
    """A text without the control characters that no SVG may have."""
    return "".join("\ufffd" if character < " " or character == "\x7f" else character for character in text)
