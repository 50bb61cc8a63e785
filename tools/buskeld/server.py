"""The server of bin/watch: one page at 127.0.0.1, below a token that nobody can guess, for the browser on this machine
alone. It serves that page, what changes on it and nothing else."""

import hmac
import http.server
import json
import re
import secrets
import socketserver
import threading
from urllib.parse import parse_qsl

HOST = "127.0.0.1"
MOST = 1 << 20
WAIT = 20
NAME = re.compile(r"[A-Za-z0-9_-]{1,80}\.(?:frame|test)")
SIZE = re.compile(r"[0-9]{1,7}")
UNFIT = re.compile("[\n\ud800-\udfff]")
COORDINATE = 1 << 53
KEYS = {
    "line": {"text": str},
    "tap": {"x": int, "y": int},
    "down": {"x": int, "y": int},
    "move": {"x": int, "y": int},
    "up": {},
    "cancel": {},
    "hold": {},
    "scroll": {"x": int, "y": int, "by": int},
    "type": {"node": int, "field": str, "key": str},
    "frame": {},
    "undo": {},
    "again": {},
}


class BadRequest(Exception):
    """A request whose content is none of the page's own."""


class Served:
    """What the server serves: the live program, to one request at a time, with a number for each change."""

    def __init__(self, live, page, save):
        self.live, self.page, self.save = live, page, save
        self.changed, self.revision, self.is_closed = threading.Condition(), 1, False

    def change(self, what):
        """Does something that changes what is shown."""
        with self.changed:
            what()
            self.revision += 1
            self.changed.notify_all()

    def close(self):
        """Lets those go who wait."""
        with self.changed:
            self.is_closed = True
            self.changed.notify_all()
            self.live.close()

    def data(self, generation=None, have=0):
        """What the page is told."""
        return {**self.live.data(generation, have), "revision": self.revision}

    def whole_page(self):
        """The page as it is now."""
        with self.changed:
            return self.page(self.data())

    def changes(self, query):
        """What changed since a revision, when something has or some time is over."""
        since, generation, have = (number(query, name) for name in ("since", "generation", "have"))
        with self.changed:
            self.changed.wait_for(lambda: self.revision != since or self.is_closed, WAIT)
            return {} if self.revision == since else self.data(generation, have)

    def do(self, asked):
        """Does what was done on the page, in order."""
        given = checked(asked, {"acts": list, "generation": int, "have": int})["acts"]
        if not 0 < len(given) <= 100:
            raise BadRequest("no acts, or too many")
        names = [checked(it, {"do": str})["do"] for it in given]
        acts = [(name, checked(it, KEYS.get(name))) for name, it in zip(names, given)]
        self.change(lambda: self.act(acts, asked.get("more") is True))
        with self.changed:
            return self.data(asked["generation"], asked["have"])

    def act(self, acts, is_more):
        """Does acts, which are one together, or more of the last one."""
        live = self.live
        live.act, live.heard = live.act + (not is_more), []
        start = len(live.done)
        doers = {"line": live.line, "tap": live.tap, "down": live.press_down, "move": live.moved, "hold": live.hold}
        doers |= {"up": live.press_up, "cancel": lambda: live.press_up("cancel"), "scroll": live.scroll}
        doers |= {"type": live.type, "frame": lambda: live.frame_after(start)}
        doers |= {"undo": live.undo, "again": lambda: live.again([])}
        for name, words in acts:
            if live.is_open() or name in ("undo", "again"):
                doers[name](**words)
        live.settle()
        if acts[-1][0] not in ("undo", "again"):
            live.said = "; ".join(live.heard)[:300]

    def at(self, query):
        """The nodes at a point."""
        x, y = number(query, "x"), number(query, "y")
        with self.changed:
            return {"hits": self.live.point(x, y)}

    def keep(self, asked):
        """Writes a file of what was done."""
        words = checked(asked, {"name": str})
        if not NAME.fullmatch(words["name"]):
            raise BadRequest("a name has letters, digits, `_` and `-`, and ends with .frame or .test")
        with self.changed:
            return {"said": self.save(self.live, words["name"], asked.get("over") is True)}


def number(query, name):
    """A number in a query."""
    try:
        made = int(query[name])
    except (KeyError, ValueError):
        raise BadRequest(f"{name} is no number") from None
    if abs(made) > COORDINATE:
        raise BadRequest(f"{name} is too large")
    return made


def checked(asked, wanted):
    """The members of an object that are wanted, each of its type."""
    if wanted is None or not isinstance(asked, dict):
        raise BadRequest("nothing that the page does")
    for name, kind in wanted.items():
        value = asked.get(name)
        is_right = type(value) is kind
        if kind is int:
            is_right = is_right and abs(value) <= COORDINATE
        if kind is str:
            is_right = is_right and not UNFIT.search(value)
        if not is_right:
            raise BadRequest(f"{name} isn't as it should be")
    return {name: asked[name] for name in wanted}


def answerer(served, token):
    """The class that answers requests to a token."""

    class Answerer(http.server.BaseHTTPRequestHandler):
        """Answers the page of this token, and refuses all else."""

        protocol_version, server_version, sys_version = "HTTP/1.1", "buskeld", ""
        timeout = 60

        def do_GET(self):
            """The page, or what changes on it."""
            self.answer({"": self.send_page, "changes": self.send_data(served.changes), "at": self.send_data(served.at)})

        def do_POST(self):
            """What is done on the page."""
            self.answer({"do": self.take(served.do), "save": self.take(served.keep)})

        def answer(self, ways):
            """Answers a request that comes from this machine's browser, for the page itself."""
            if self.is_foreign():
                self.refuse(403, "refused")
                return
            path, _, query = self.path.partition("?")
            before, _, name = path.rpartition("/")
            if not hmac.compare_digest(before.encode("utf-8", "replace"), f"/{token}".encode()) or name not in ways:
                self.refuse(404, "nothing is here")
                return
            try:
                ways[name](dict(parse_qsl(query)))
            except BadRequest as fault:
                self.refuse(400, str(fault))

        def is_foreign(self):
            """Whether it is for another host's name, or comes from another page. What is posted says where it is from."""
            own = f"{HOST}:{self.server.server_address[1]}"
            origins = self.headers.get_all("Origin", [])
            site = self.headers.get("Sec-Fetch-Site", "none")
            is_own = all(it == f"http://{own}" for it in origins) and site in ("none", "same-origin")
            has_origin = bool(origins) or self.command == "GET"
            return self.headers.get_all("Host") != [own] or not is_own or not has_origin

        def send_page(self, _):
            """The page."""
            self.send(200, served.whole_page().encode("utf-8"), "text/html; charset=utf-8")

        def send_data(self, what):
            """Data that a query asks for."""
            return lambda query: self.send(200, as_json(what(query)), "application/json")

        def take(self, what):
            """Takes JSON and answers with JSON."""

            def taken(_):
                size = self.headers.get("Content-Length", "")
                if self.headers.get("Content-Type") != "application/json" or not SIZE.fullmatch(size) or int(size) > MOST:
                    raise BadRequest("JSON is wanted, of at most a million bytes")
                try:
                    asked = json.loads(self.rfile.read(int(size)))
                except ValueError:
                    raise BadRequest("this is no JSON") from None
                self.send(200, as_json(what(asked)), "application/json")

            return taken

        def refuse(self, status, why):
            """Refuses a request, and reads no more of it."""
            self.close_connection = True
            self.send(status, (why + "\n").encode("utf-8"), "text/plain; charset=utf-8")

        def send(self, status, content, kind):
            """Sends an answer."""
            self.send_response(status)
            heads = {"Content-Type": kind, "Content-Length": str(len(content)), "Cache-Control": "no-store"}
            heads |= {"X-Content-Type-Options": "nosniff", "X-Frame-Options": "DENY", "Referrer-Policy": "no-referrer"}
            heads |= {"Cross-Origin-Resource-Policy": "same-origin", "Cross-Origin-Opener-Policy": "same-origin"}
            if self.close_connection:
                heads["Connection"] = "close"
            for name, value in heads.items():
                self.send_header(name, value)
            self.end_headers()
            self.wfile.write(content)

        def log_message(self, *_):
            """Requests aren't told."""

    return Answerer


def as_json(value):
    """A value as JSON's bytes."""
    return json.dumps(value, ensure_ascii=True).encode("ascii")


class Server(http.server.ThreadingHTTPServer):
    """The server. It is bound to this machine's own loopback alone."""

    daemon_threads = True

    def __init__(self, served, port=0):
        self.token = secrets.token_urlsafe(24)
        super().__init__((HOST, port), answerer(served, self.token))

    def server_bind(self):
        """Binds the server, and asks no other host for a name."""
        socketserver.TCPServer.server_bind(self)
        self.server_name, self.server_port = self.server_address[:2]

    @property
    def address(self):
        """The page's address."""
        return f"http://{HOST}:{self.server_address[1]}/{self.token}/"

    def handle_error(self, request, client_address):
        """A browser that went away is no fault to tell."""
