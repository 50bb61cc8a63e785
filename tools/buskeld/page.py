"""The page of a run: one HTML file with its own style and script, which asks for nothing else. With a program behind it
(bin/watch) it has the controls to touch that, too."""

import base64
import hashlib
import html
import json
import pathlib
import re

WEB = pathlib.Path(__file__).resolve().parent / "web"
STILL, LIVE = ("show.js",), ("show.js", "touch.js")
SELF, NONE = "'self'", "'none'"


def text_of(name):
    """A file of the page."""
    return (WEB / name).read_text(encoding="utf-8")


def sum_of(text):
    """The sum by which a style or a script may be in the page."""
    return "'sha256-" + base64.b64encode(hashlib.sha256(text.encode("utf-8")).digest()).decode("ascii") + "'"


def policy(style, script, is_live):
    """What the page may ask for: nothing, and where a program is behind it what its own server gives."""
    own = [f"style-src {sum_of(style)}", f"script-src {sum_of(script)}", f"connect-src {SELF if is_live else NONE}"]
    return "; ".join([f"default-src {NONE}", *own, "img-src data:", f"base-uri {NONE}", f"form-action {NONE}"])


def without_program(text):
    """The page's text without the parts that are for a program behind it."""
    return re.sub(r"<!-- with a program -->\n.*?<!-- end -->\n", "", text, flags=re.S)


def made(name, data, is_live):
    """A page with its data."""
    style, script = text_of("page.css"), "".join(map(text_of, LIVE if is_live else STILL))
    told = json.dumps({"name": name, **data}, ensure_ascii=False).replace("<", "\\u003c")
    parts = {"NAME": html.escape(name), "POLICY": html.escape(policy(style, script, is_live))}
    parts |= {"STYLE": style, "DATA": told, "SCRIPT": script}
    content = text_of("page.html")
    content = content if is_live else without_program(content)
    return re.sub(r"\{\{([A-Z]+)\}\}", lambda found: parts[found[1]], content)


def page(name, moments, refused=()):
    """The page of a run that is over."""
    return made(name, {"moments": moments, "refused": list(refused)}, False)


def live_page(name, data):
    """The page of a program that is played."""
    return made(name, data, True)
