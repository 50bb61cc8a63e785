"""The server of bin/watch: what it refuses, and what it serves. No browser is needed."""

import http.client
import json
import threading
import unittest

from .support import Case

from buskeld import page, server


class Standing:
    """What stands for a live program here."""

    def __init__(self):
        self.act, self.heard, self.said, self.done = 0, [], "", []

    def data(self, generation=None, have=0):
        return {"moments": [], "refused": [], "generation": 1, "done": list(self.done)}

    def is_open(self):
        return True

    def line(self, text):
        self.done.append(text)

    def point(self, x, y):
        return [x, y]

    def __getattr__(self, name):
        return lambda *words, **named: None


class Served(Case):
    def setUp(self):
        super().setUp()
        self.live = Standing()
        self.served = server.Served(self.live, lambda data: page.live_page("app", data), lambda live, name, over: f"{name} {over}")
        self.server = server.Server(self.served)
        thread = threading.Thread(target=self.server.serve_forever, args=(0.02,), daemon=True)
        thread.start()
        self.addCleanup(thread.join)
        self.addCleanup(self.server.server_close)
        self.addCleanup(self.server.shutdown)
        self.addCleanup(self.served.close)
        self.port, self.own = self.server.server_address[1], f"/{self.server.token}/"
        self.host = f"127.0.0.1:{self.port}"

    def ask(self, method, path, body=None, **heads):
        """A request, as the browser asks of its own page where nothing else is said; its status, its heads, its text."""
        link = http.client.HTTPConnection("127.0.0.1", self.port, timeout=20)
        self.addCleanup(link.close)
        given = {"Host": self.host, "Sec-Fetch-Site": "same-origin"}
        if method == "POST":
            given |= {"Origin": f"http://{self.host}", "Content-Type": "application/json", "Content-Length": str(len(body or ""))}
        given |= {name.replace("_", "-"): value for name, value in heads.items()}
        link.putrequest(method, path, skip_host=True, skip_accept_encoding=True)
        for name, value in given.items():
            if value is not None:
                link.putheader(name, value)
        link.endheaders((body or "").encode("utf-8"))
        said = link.getresponse()
        return said.status, dict(said.getheaders()), said.read().decode("utf-8")

    def post(self, path, asked, **heads):
        """Something that is posted as JSON."""
        return self.ask("POST", self.own + path, json.dumps(asked), **heads)

    def do(self, *acts, **heads):
        """Acts that are posted."""
        return self.post("do", {"acts": list(acts), "generation": 1, "have": 0}, **heads)


class Refused(Served):
    def refused(self, answer, status):
        self.assertEqual(answer[0], status)
        for secret in (self.server.token, "<html"):
            self.assertNotIn(secret, answer[2])
        self.assertEqual(self.live.done, [])

    def test_it_is_bound_to_this_machine_alone(self):
        self.assertEqual(self.server.server_address[0], "127.0.0.1")
        self.assertRegex(self.server.address, rf"^http://127\.0\.0\.1:{self.port}/[A-Za-z0-9_-]{{32}}/$")

    def test_another_token_or_none(self):
        other = "x" * len(self.server.token)
        for path in ("/", f"/{other}/", f"/{self.server.token[:-1]}/", f"/{self.server.token}", f"/{self.server.token}x/", f"/{other}/at?x=1&y=1"):
            self.refused(self.ask("GET", path), 404)
        self.refused(self.ask("POST", f"/{other}/do", "{}"), 404)

    def test_another_path(self):
        for name in ("favicon.ico", "index.html", "../", "changes/", "do", "save", "page.css", "%2e%2e/etc/passwd", "//etc/passwd", "#", "[", ";"):
            self.refused(self.ask("GET", self.own + name), 404)
        self.refused(self.post("at", {}), 404)

    def test_another_host(self):
        for host in ("localhost", f"localhost:{self.port}", "127.0.0.1", "127.0.0.1:1", "evil.example", f"evil.example:{self.port}", None):
            self.refused(self.ask("GET", self.own, Host=host), 403)
            self.refused(self.do({"do": "line", "text": "frame"}, Host=host), 403)

    def test_another_origin(self):
        for origin in ("http://evil.example", f"http://localhost:{self.port}", "http://127.0.0.1", f"https://{self.host}", "null"):
            self.refused(self.ask("GET", self.own, Origin=origin), 403)
            self.refused(self.do({"do": "line", "text": "frame"}, Origin=origin), 403)
        self.refused(self.do({"do": "line", "text": "frame"}, Origin=None), 403)

    def test_another_site(self):
        for site in ("cross-site", "same-site", "evil"):
            self.refused(self.ask("GET", self.own, Sec_Fetch_Site=site), 403)

    def test_another_method(self):
        for method in ("PUT", "DELETE", "OPTIONS", "HEAD", "TRACE", "CONNECT"):
            self.assertEqual(self.ask(method, self.own)[0], 501)

    def test_another_content(self):
        act = {"do": "line", "text": "frame"}
        self.refused(self.do(act, Content_Type="text/plain"), 400)
        self.refused(self.do(act, Content_Length=str(server.MOST + 1)), 400)
        for size in ("-1", "\u00b2", "1e3", "", None):
            self.refused(self.do(act, Content_Length=size), 400)
        self.refused(self.ask("POST", self.own + "do", "{"), 400)

    def test_what_the_page_does_not_do(self):
        acts = [{"do": "exit"}, {"do": "line"}, {"do": "line", "text": 1}, {"do": "line", "text": "a\nb"}, {"do": "tap", "x": 1, "y": True}]
        acts += [{"do": "tap", "x": 1, "y": 1 << 60}, {"do": "tap", "x": 1.5, "y": 1}, {}, [], "line", {"do": ["line"]}]
        acts += [{"do": "line", "text": "\ud800"}, {"do": "line", "text": "\udc80"}]
        for act in acts:
            with self.subTest(act):
                self.refused(self.do(act), 400)
        for asked in ([], {}, {"acts": [], "generation": 1, "have": 0}, {"acts": [{"do": "line", "text": "frame"}]}):
            self.refused(self.post("do", asked), 400)

    def test_names_of_files(self):
        for name in ("../app.test", "/tmp/app.test", "app", "app.py", ".test", "a b.test", "a\n.test", "app.test\n", 5):
            with self.subTest(name):
                self.refused(self.post("save", {"name": name}), 400)

    def test_numbers_that_are_none(self):
        for query in ("", "?x=1", "?x=a&y=1", "?x=1&y=99999999999999999999"):
            self.refused(self.ask("GET", f"{self.own}at{query}"), 400)


class Given(Served):
    def test_the_page(self):
        status, heads, text = self.ask("GET", self.own)
        self.assertEqual((status, heads["Content-Type"], heads["Cache-Control"]), (200, "text/html; charset=utf-8", "no-store"))
        self.assertEqual((heads["X-Frame-Options"], heads["Referrer-Policy"]), ("DENY", "no-referrer"))
        self.assertIn("connect-src &#x27;self&#x27;", text)
        self.assertNotIn(self.server.token, text)
        self.assertEqual(self.ask("GET", self.own, Sec_Fetch_Site=None)[0], 200)

    def test_what_is_done(self):
        status, _, text = self.do({"do": "line", "text": "frame"}, {"do": "line", "text": "states"})
        self.assertEqual((status, json.loads(text)["done"], json.loads(text)["revision"]), (200, ["frame", "states"], 2))
        self.assertEqual(self.post("save", {"name": "a-1.test", "over": True})[2], '{"said": "a-1.test True"}')
        self.assertEqual(self.ask("GET", f"{self.own}at?x=3&y=-4")[2], '{"hits": [3, -4]}')

    def test_who_waits_is_told_of_a_change(self):
        said = []
        waits = threading.Thread(target=lambda: said.append(self.ask("GET", f"{self.own}changes?since=1&generation=1&have=0")))
        waits.start()
        waits.join(0.1)
        self.assertEqual(said, [])
        self.do({"do": "line", "text": "frame"})
        waits.join(20)
        self.assertEqual(json.loads(said[0][2])["revision"], 2)

    def test_who_waits_is_let_go_at_the_end(self):
        said = []
        waits = threading.Thread(target=lambda: said.append(self.ask("GET", f"{self.own}changes?since=1&generation=1&have=0")))
        waits.start()
        waits.join(0.1)
        self.served.close()
        waits.join(20)
        self.assertEqual(said[0][2], "{}")


if __name__ == "__main__":
    unittest.main()
