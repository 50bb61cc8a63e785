"""bin/show, and the examples' script with its planted wrong statuses."""

import json
import re
import shutil
import unittest
from unittest import mock

from .support import PROGRAM, Case, ProgramCase, script

from buskeld import build, examples, moments, page, paths, show_command, source

EXAMPLES = sorted(paths.EXAMPLES.glob("*.frame"))


def data_of(shown):
    """What a page shows, as plain data."""
    return json.loads(re.search('<script type="application/json" id="data">(.*?)</script>', shown, re.S)[1])


class Page(Case):
    def test_each_example_has_a_page(self):
        for path in EXAMPLES:
            with self.subTest(path.name):
                (given,), text = source.inputs_of([path]), path.with_suffix(".out").read_text(encoding="utf-8")
                made, refused = moments.of_text(given, text)
                data = data_of(page.page(path.stem, made.shown(), refused))
                frames = [it for it in data["moments"] if it["picture"].startswith("<svg ")]
                self.assertEqual(len(frames), len(re.findall("^frame ", text, re.M)))
                lines = sum(len(line["text"].split("\n")) for it in data["moments"] for line in it["lines"])
                self.assertEqual(lines, 0 if refused else len(given.script))

    def test_a_page_has_pictures_lines_and_answers(self):
        path = paths.EXAMPLES / "counter.frame"
        status, shown, told = script("show", "--printed", path.with_suffix(".out"), path)
        self.assertEqual((status, told), (0, ""))
        first, second, third = data_of(shown)["moments"]
        self.assertEqual([it["title"] for it in (first, second, third)], ["frame 1", "frame 2", "frame 3"])
        self.assertIn("You tapped 2 times</text>", third["picture"])
        self.assertEqual(second["lines"][1]["text"], "act #11 tap")
        self.assertEqual(first["semantics"][0]["below"][0]["label"], "Add one")
        self.assertEqual(third["states"], [{"node": 1, "name": "Counter", "fields": [["count", "2"]]}])
        self.assertNotIn("semantics", third)

    def test_a_page_asks_for_nothing(self):
        shown = page.page("a", [])
        policy = re.search('http-equiv="Content-Security-Policy" content="([^"]*)"', shown)[1]
        self.assertIn("default-src &#x27;none&#x27;", policy)
        self.assertIn("connect-src &#x27;none&#x27;", policy)
        self.assertNotIn("unsafe", policy)
        self.assertIsNone(re.search("(?:src|href)=[\"'](?!data:)|url\\(|@import|fetch", shown))
        self.assertIn("fetch(", page.live_page("a", {"moments": []}))

    def test_what_is_shown_is_no_markup(self):
        text = 'frame 1\noffset 0 0\n  picture\n    text 0 0 ff000000 "</script><b>&\\u0001"\nend\n'
        given = source.of_text("a<b", '{"version":1,"view":[9,9]}\n%%\nframe\nset #1 t </script>\n')
        shown = page.page("a<b", moments.of_text(given, text)[0].shown())
        self.assertEqual(shown.count("</script>"), 2)
        self.assertIn("<title>a&lt;b</title>", shown)
        (moment,) = data_of(shown)["moments"]
        self.assertIn("&lt;/script&gt;&lt;b&gt;&amp;\ufffd</text>", moment["picture"])
        self.assertEqual(moment["lines"][1]["text"], "set #1 t </script>")

    def test_words_that_are_none(self):
        for words in ((), ("--printed",), ("--tyr", "a"), (self.folder / "none",)):
            self.assertEqual(script("show", *words)[0], 2)


class Run(ProgramCase):
    def test_the_page_of_a_run_tells_more_than_that_of_its_text(self):
        path = paths.EXAMPLES / "keyboard.frame"
        ran = data_of(script("show", path)[1])["moments"]
        kept = data_of(script("show", "--printed", path.with_suffix(".out"), path)[1])["moments"]
        same = ("title", "picture", "lines", "notes", "view", "time")
        self.assertEqual([[it[name] for name in same] for it in ran], [[it[name] for name in same] for it in kept])
        self.assertTrue(all("semantics" in it and "states" in it for it in ran))
        self.assertEqual([it["focus"] for it in ran], [19, 7, 19])
        self.assertFalse(any("semantics" in it for it in kept))

    def test_a_refused_program_is_explained(self):
        path = paths.EXAMPLES / "misspelled.frame"
        data = data_of(script("show", path)[1])
        self.assertEqual((data["moments"], data["refused"][0]), ([], "program shape 4 /root/children/1"))
        self.assertIn("misspelled.frame:6:11: there is no kind `Paddin`", data["refused"][1])
        self.assertEqual(data_of(script("show", "--printed", path.with_suffix(".out"), path)[1]), data)

    def test_a_run_that_prints_nothing(self):
        silent = self.file("silent", "#!/bin/sh\nexit 2\n", True)
        with mock.patch.object(build, "proved_program", lambda: silent):
            with self.assertRaisesRegex(build.NoBuild, "status 2"):
                show_command.shown_of(source.of_text("a", "{}"), False, None)

    def test_a_run_without_a_proof(self):
        given = source.inputs_of([paths.EXAMPLES / "twins.frame"])[0]
        with mock.patch.object(build, "try_all", lambda datas, words=(): [build.run(PROGRAM, it, words) for it in datas]):
            made, refused = show_command.shown_of(given, True, None)
        self.assertEqual(([it["title"] for it in made.shown()], refused), (["frame 1", "frame 2 has a fault"], []))


class Statuses(ProgramCase):
    """The examples' script takes the program's own statuses, and no others."""

    def wrapped(self, ending):
        """A program that does all that the program does, and ends with another status."""
        body = f'"{PROGRAM}" "$@"\nstatus=$?\nexit {ending}\n'
        return str(self.file("wrapped", f"#!/bin/sh\n{body}", True))

    def copies(self, *names):
        """A folder with some of the examples."""
        folder = self.folder / "examples"
        folder.mkdir()
        for name in names:
            for path in paths.EXAMPLES.glob(f"{name}.*"):
                shutil.copy(path, folder)
        return folder

    def test_each_status_to_4_is_there(self):
        stored = {int(path.read_text(encoding="utf-8")) for path in paths.EXAMPLES.glob("*.status")}
        self.assertEqual(stored, {1, 2, 3, 4})

    def test_a_status_of_at_most_1_fails(self):
        folder = self.copies("first", "keyboard", "misspelled", "twins", "words")
        others = (examples.folder, examples.full_disk)
        self.assertEqual(examples.check(str(PROGRAM), folder, others), ([], 7))
        faults, _ = examples.check(self.wrapped("$((status > 1 ? 1 : status))"), folder, others)
        names = ["misspelled.frame", "twins.frame", "words.frame", "a folder as input", "a full disk as output"]
        self.assertEqual([fault.split(":")[0] for fault in faults], names)

    def test_a_status_modulo_8_fails(self):
        long = self.file("long", '#!/bin/sh\ncat >/dev/null\nexit 8\n', True)
        self.assertEqual(examples.too_long(str(long)), [])
        modulo = self.file("modulo", '#!/bin/sh\ncat >/dev/null\nexit $((8 % 8))\n', True)
        self.assertEqual(len(examples.too_long(str(modulo))), 1)

    def test_a_wrong_text_fails(self):
        program = self.file("other", f'#!/bin/sh\n"{PROGRAM}" "$@" | sed "s/Counter/Countess/"\n', True)
        (fault, *_), _ = examples.check(str(program), self.copies("counter"), ())
        self.assertIn('counter.out:5: wanted `    text 1024 1024 ffffffff "Counter"`', fault)

    def test_words_that_are_none(self):
        self.assertEqual(script("check-examples")[0], 2)


if __name__ == "__main__":
    unittest.main()
