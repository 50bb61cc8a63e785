"""The page in a headless browser: as bin/show writes it, and as bin/watch serves it. Where no browser is installed that is
said, and nothing is tested."""

import json
import os
import subprocess
import sys
import unittest

from . import browser
from .support import PROGRAM, PROGRAMS, SECONDS, Case, ProgramCase, script
from .test_testing import BUTTONS

from buskeld import moments, page, paths, source

STATE = {}
TWINS = '{"version":1,"view":[6400,6400],"root":{"w":"Row","children":[{"w":"Row","key":["local",1]},{"w":"Row","key":["local",1]}]}}'
FIELD = (paths.EXAMPLES / "pattern_text_field.frame").read_text(encoding="utf-8").partition("%%")[0] + "%%\nframe\n"
SLIDE = (paths.EXAMPLES / "slide.frame").read_text(encoding="utf-8").partition("%%")[0] + "%%\nframe\ntween #1 x -6400 0 300 out\n"
LIST = (paths.EXAMPLES / "list.frame").read_text(encoding="utf-8").partition("%%")[0] + "%%\nframe\n"

# What a page has that can't be read: a pair of colors whose contrast is below 4.5, or 3 where the text is large.
FAINT = """(() => {
  const parts = color => color.match(/[\\d.]+/g).map(Number)
  const light = color => parts(color).slice(0, 3).map(it => it / 255).map(it => it <= 0.03928 ? it / 12.92 : ((it + 0.055) / 1.055) ** 2.4)
    .reduce((sum, it, at) => sum + it * [0.2126, 0.7152, 0.0722][at], 0)
  const behind = it => { for (; it; it = it.parentElement) { const color = getComputedStyle(it).backgroundColor
    const [, , , alpha = 1] = parts(color); if (alpha === 1) return color } return "rgb(255, 255, 255)" }
  const faint = []
  for (const it of document.querySelectorAll("body *")) {
    const own = [...it.childNodes].some(node => node.nodeType === 3 && node.textContent.trim()) || it.matches("input[type=text], select, textarea")
    if (!own || it.closest("svg, script, [hidden]") || !it.getClientRects().length || it.disabled) continue
    const [one, other] = [light(getComputedStyle(it).color), light(behind(it))].sort((a, b) => b - a)
    const contrast = (one + 0.05) / (other + 0.05), size = parseFloat(getComputedStyle(it).fontSize)
    if (contrast < (size >= 24 ? 3 : 4.5)) faint.push(`${it.tagName} ${it.id} ${it.textContent.slice(0, 20)}: ${contrast.toFixed(2)}`)
  }
  return faint
})()"""
HEADS = '[...document.querySelectorAll("h1, h2, h3")].filter(it => it.getClientRects().length).map(it => [it.tagName, it.textContent])'
NAMED = ("button", "checkbox", "textbox", "combobox", "slider", "image", "img", "application", "navigation", "alert", "status")


def setUpModule():
    """Starts the browser."""
    file = browser.installed()
    if file is None:
        print("tools/tests: no browser is installed, and so the page isn't tested in one (docs/LIVE.md)", file=sys.stderr)
        raise unittest.SkipTest("no browser is installed")
    STATE["browser"] = browser.Browser(file)
    unittest.addModuleCleanup(STATE["browser"].close)


class PageCase(Case):
    """A test of a page. `left` are pages whose server has ended."""

    left = ()

    def open(self, address, width=1200, height=900):
        """A page of an address; at the end nothing has gone wrong on it."""
        made = STATE["browser"].page(address, width, height)
        self.addCleanup(made.close)
        self.addCleanup(self.is_whole, made)
        return made

    def is_whole(self, shown):
        """Nothing went wrong on a page, and it asked for nothing but its own."""
        faults = shown.events("Runtime.exceptionThrown", "Log.entryAdded")
        if shown in self.left:
            faults = [it for it in faults if it["params"].get("entry", {}).get("source") != "network"]
        self.assertEqual(faults, [])
        asked = {it["params"]["request"]["url"] for it in shown.events("Network.requestWillBeSent")}
        own = shown.value("location.href.split('#')[0]")
        self.assertEqual([url for url in asked if not url.startswith((own, "data:")) and url != "about:blank"], [])

    def is_usable(self, shown):
        """What a page is to those who read or hear it: headings, names of controls, contrast."""
        heads = shown.value(HEADS)
        self.assertEqual([tag for tag, _ in heads].count("H1"), 1)
        self.assertTrue(all(text.strip() for _, text in heads), heads)
        self.assertEqual(heads[0][0], "H1")
        self.assertEqual(shown.value(FAINT), [])
        self.assertEqual(shown.value("document.documentElement.lang"), "en")
        for node in shown.ask("Accessibility.getFullAXTree")["nodes"]:
            role = node.get("role", {}).get("value")
            if node.get("ignored") or role not in NAMED or role in ("status", "alert"):
                continue
            self.assertTrue(node.get("name", {}).get("value", "").strip(), node)

    def drawn(self, shown):
        """The texts of the picture."""
        return shown.value('[...document.querySelectorAll("#picture text")].map(it => it.textContent)')

    def box(self, shown, selector):
        """The place of an element: its left edge, upper edge, width and height."""
        return shown.value(f'(() => {{ const it = document.querySelector("{selector}").getBoundingClientRect();'
                           " return [it.x, it.y, it.width, it.height] })()")

    def middle_of(self, shown, text):
        """The middle of a text of the picture, in the window."""
        return shown.middle(f'[...document.querySelectorAll("#picture text")].find(it => it.textContent === {json.dumps(text)})')


def is_at(title, place):
    """Whether a page shows a frame, at a place."""
    title, place = json.dumps(title), json.dumps(place)
    return f'document.querySelector("#title").textContent === {title} && document.querySelector("#place").textContent.startsWith({place})'


class Still(PageCase):
    """The page that bin/show writes, of texts that are stored."""

    def show(self, name, width=1200, height=900, place=""):
        path = paths.EXAMPLES / f"{name}.frame"
        (given,), text = source.inputs_of([path]), path.with_suffix(".out").read_text(encoding="utf-8")
        made, refused = moments.of_text(given, text)
        file = self.file(f"{name}.html", page.page(name, made.shown(), refused))
        return self.open(f"{file.as_uri()}{place}", width, height)

    def test_it_is_loaded_and_goes_on(self):
        shown = self.show("counter")
        self.assertTrue(shown.value(is_at("frame 1", "1 of 3")))
        self.assertEqual(self.drawn(shown), ["Counter", "You tapped 0 times", "+"])
        shown.click_button("Next")
        self.assertTrue(shown.value(is_at("frame 2", "2 of 3")))
        self.assertEqual(self.drawn(shown)[1], "You tapped 1 times")
        self.assertEqual((shown.value("location.hash"), shown.value("document.title")), ("#frame=2", "counter: frame 2"))
        shown.click_button("First")
        lines = shown.value('[...document.querySelectorAll("#lines .asked")].map(it => it.textContent)')
        self.assertEqual(lines, ["frame", "semantics", "down 1 18000 10000\nup 1"])
        self.assertIn("arena 1 #11 tap", shown.text("#lines > li:last-child"))
        self.assertIn("Add one", shown.text("#semantics"))

    def test_the_address_has_the_place(self):
        shown = self.show("counter", place="#frame=3")
        self.assertTrue(shown.value(is_at("frame 3", "3 of 3")))
        self.assertIn("Counter", shown.text("#states"))
        shown.value('location.hash = "#frame=2"')
        shown.until(is_at("frame 2", "2 of 3"))

    def test_by_the_keyboard_alone(self):
        shown = self.show("counter")
        for key, title, place in (("End", "frame 3", "3 of 3"), ("ArrowLeft", "frame 2", "2 of 3"), ("ArrowLeft", "frame 1", "1 of 3"),
                                  ("ArrowLeft", "frame 1", "1 of 3"), ("ArrowRight", "frame 2", "2 of 3"), ("Home", "frame 1", "1 of 3")):
            shown.key(key)
            self.assertTrue(shown.value(is_at(title, place)), key)
        names = []
        for _ in range(12):
            shown.key("Tab")
            at = shown.value("document.activeElement.id || document.activeElement.textContent")
            if at in names or shown.value("document.activeElement === document.body"):
                break
            names.append(at)
        self.assertEqual(names, ["play", "next", "last", "numbers", "#0", "#11"])
        self.assertNotEqual(shown.value('getComputedStyle(document.querySelector("#numbers")).outlineWidth'), "")
        shown.value('document.querySelector("#next").focus()')
        shown.key("Enter")
        self.assertTrue(shown.value(is_at("frame 2", "2 of 3")))
        shown.key("Home")
        shown.value('document.querySelector("#numbers").focus()')
        shown.key(" ")
        self.assertTrue(shown.value('document.querySelector("#numbers").checked'))

    def test_it_plays(self):
        shown = self.show("slide")
        shown.click_button("Play")
        self.assertEqual(shown.text("#play"), "Pause")
        shown.until(is_at("frame 7", "7 of 7"))
        shown.until('document.querySelector("#play").textContent === "Play"')
        self.assertIn("at 900 ms", shown.text("#place"))

    def test_a_narrow_window(self):
        for name in ("counter", "chat", "refusals", "board"):
            shown = self.show(name, 360, 740, "#frame=1")
            with self.subTest(name):
                self.assertEqual(self.box(shown, "#picture svg")[::2], [0, 360])
                self.assertLessEqual(shown.value("document.documentElement.scrollWidth"), 360)

    def test_a_wide_window(self):
        shown = self.show("counter", 1200)
        self.assertEqual(self.box(shown, "#picture svg")[2:], [320, 200])
        left = [self.box(shown, selector)[0] for selector in ("#stage", "#lines", "#focus")]
        self.assertEqual(left, sorted(set(left)))

    def test_a_refused_program(self):
        shown = self.show("misspelled", 360)
        text = shown.text("#refusal")
        self.assertIn("program shape 4 /root/children/1", text)
        self.assertIn("misspelled.frame:6:11: there is no kind `Paddin`. Did you mean `Padding`?", text)
        red, green, blue = map(int, shown.value('getComputedStyle(document.querySelector("#refusal")).color.match(/\\d+/g)'))
        self.assertGreater(red, 2 * max(green, blue))
        self.assertTrue(shown.value('document.querySelector("main").hidden'))
        self.assertLessEqual(shown.value("document.documentElement.scrollWidth"), 360)
        self.is_usable(shown)

    def test_refused_lines_and_faults(self):
        shown = self.show("refusals", place="#frame=0")
        self.assertTrue(shown.value(is_at("before the first frame", "1 of 4")))
        self.assertIn("give a `frame` first", shown.text("#lines .refused"))
        shown.key("End")
        self.assertTrue(shown.value(is_at("frame 3", "4 of 4")))
        self.assertIn("TooManyTweens", shown.text("#lines"))
        shown = self.show("twins", place="#frame=2")
        self.assertEqual((shown.text("#title"), shown.text("#states")), ("frame 2 has a fault", "There is no frame here."))
        self.assertIn("give the items of an `each` keys that differ", shown.text("#lines .fault"))

    def test_nodes_and_points(self):
        shown = self.show("counter")
        self.assertEqual(shown.value('document.querySelectorAll("#marks rect").length'), 0)
        shown.click(*shown.middle('document.querySelector("#numbers")'))
        self.assertEqual(shown.value('[...document.querySelectorAll("#marks text")].map(it => it.textContent)'), ["#0", "#11"])
        left, top, *_ = self.box(shown, "#picture svg")
        shown.mouse("mouseMoved", left + 250, top + 130)
        self.assertIn("(16000, 8320) u; semantics #11", shown.text("#point"))
        area = shown.value('(() => { const it = document.querySelector("#marks rect.chosen"); '
                           'return ["x", "y", "width", "height"].map(name => it.getAttribute(name)) })()')
        self.assertEqual(area, ["15872", "8192", "3584", "3584"])
        placed = self.box(shown, "#marks rect.chosen")
        self.assertEqual([round(it) for it in placed], [round(left + 248), round(top + 128), 56, 56])

    def test_cells_and_what_is_text(self):
        shown = self.show("board", place="#frame=2")
        self.assertGreater(shown.value('document.querySelectorAll("#lines .cells").length'), 0)
        made = [{"number": 1, "title": "<b>1</b>", "view": [64, 64], "unit": 64, "time": 0, "picture": "", "notes": ["<i>"],
                 "lines": [{"text": "</script><script>x = 1</script>", "answers": [], "own": True, "played": [], "wrong": ["<u>"]}]}]
        file = self.file("odd.html", page.page("<b>&{{DATA}}", made))
        shown = self.open(file.as_uri())
        self.assertEqual(shown.value('document.querySelectorAll("b, i, u").length'), 0)
        self.assertEqual(shown.text("h1"), "<b>&{{DATA}}")
        self.assertIn("</script><script>", shown.text("#lines"))

    def test_its_own_semantics(self):
        for name in ("counter", "refusals", "todo"):
            self.is_usable(self.show(name))


class LiveCase(PageCase, ProgramCase):
    """A test of the page that bin/watch serves."""

    def watch(self, text, width=1200, height=1000):
        """The page of a program."""
        self.path = self.file("app.frame", text)
        env = {**os.environ, "BUSKELD_PROGRAM": str(PROGRAM)}
        command = [sys.executable, str(paths.TOP / "bin" / "watch"), str(self.path)]
        pipe = subprocess.PIPE
        self.process = subprocess.Popen(command, stdout=pipe, stderr=pipe, env=env, text=True)
        self.addCleanup(self.end, self.process)
        address = self.process.stdout.readline().strip()
        self.assertRegex(address, r"^http://127\.0\.0\.1:\d+/[\w-]{32}/$")
        return self.open(address, width, height)

    def end(self, process):
        """Ends bin/watch."""
        if process.poll() is None:
            process.terminate()
            process.communicate(timeout=SECONDS)

    def done(self, shown):
        """What was done, as a test has it."""
        return shown.value("told.test")

    def until_done(self, shown, *lines):
        """Waits until this was done after the file's script."""
        shown.until(f"JSON.stringify(told.test).endsWith({json.dumps(json.dumps(list(lines), separators=(',', ':'), ensure_ascii=False)[1:])})")


class Touched(LiveCase):
    def test_a_button_is_clicked_by_its_text(self):
        shown = self.watch(BUTTONS)
        self.assertTrue(shown.value(is_at("frame 1", "1 of 1")))
        shown.click(*self.middle_of(shown, "More"))
        shown.until(is_at("frame 2", "2 of 2"))
        self.assertIn("1", self.drawn(shown))
        self.assertEqual(self.done(shown), ["frame", 'tap "More"', "frame"])
        self.assertIn("tap #3", shown.text("#said"))
        shown.click_button("Back")
        self.assertIn("arena 99 #3 tap", shown.text("#lines > li:last-child"))
        self.assertEqual(shown.value("location.hash"), "#frame=1")
        shown.click(*self.middle_of(shown, "More"))
        self.assertIn("Only the last frame answers.", shown.text("#past"))
        shown.click_button("Go to the last frame")
        self.assertTrue(shown.value(is_at("frame 2", "2 of 2")))
        shown.click_button("tap")
        self.until_done(shown, "act #3 tap", "frame")
        shown.click_button("Undo")
        shown.until(is_at("frame 2", "2 of 2"))
        shown.click_button("Start again")
        shown.until(is_at("frame 1", "1 of 1"))
        self.assertEqual(self.done(shown), ["frame"])

    def test_dragged_held_and_turned(self):
        shown = self.watch(BUTTONS)
        x, y = self.middle_of(shown, "Move")
        shown.mouse("mousePressed", x, y, button="left", clickCount=1)
        shown.mouse("mouseMoved", x + 10, y, button="left", buttons=1)
        shown.mouse("mouseMoved", x + 20, y, button="left", buttons=1)
        shown.mouse("mouseReleased", x + 20, y, button="left", clickCount=1)
        shown.until('told.test.some(it => it.startsWith("up "))')
        self.assertEqual(shown.value("moments.at(-1).states[0].fields[0][1]"), str(20 * 32))
        x, y = self.middle_of(shown, "Hold")
        shown.mouse("mousePressed", x, y, button="left", clickCount=1)
        shown.until('told.test.includes("at 500")')
        shown.mouse("mouseReleased", x, y, button="left", clickCount=1)
        shown.until("""moments.at(-1).states[0].fields[1][1] === '"held"'""")
        shown = self.watch(LIST)
        left, top, *_ = self.box(shown, "#picture svg")
        shown.mouse("mouseWheel", left + 50, top + 50, deltaX=0, deltaY=60)
        self.until_done(shown, f"scroll #1 {60 * 40}", "frame")
        self.assertNotIn("Settings", self.drawn(shown))

    def test_by_the_keyboard_alone(self):
        shown = self.watch(FIELD)
        for _ in range(20):
            shown.key("Tab")
            if shown.value('document.activeElement.id === "frame"'):
                break
        self.assertEqual(shown.value("document.activeElement.getAttribute('role')"), "application")
        shown.type("Ada L")
        shown.until('told.test.filter(it => it.startsWith("set")).length === 5')
        shown.key("Backspace")
        shown.key("ArrowDown")
        self.until_done(shown, 'set #1 value "Ada "', "frame", "focus next")
        shown.until('document.querySelectorAll("#marks rect.focused").length === 1')
        self.assertIn("#5", shown.text("#focus"))
        shown.key("Enter")
        self.until_done(shown, "press", "frame")
        self.assertIn("sent Ada", self.drawn(shown))
        shown.key("Tab")
        self.assertEqual(shown.value("document.activeElement.id"), "numbers")
        shown.value("frame.focus()")
        shown.key("Escape")
        self.assertFalse(shown.value('document.activeElement.id === "frame"'))
        shown.value('document.querySelector("#line").focus()')
        shown.type('see "sent Ada"')
        shown.key("Enter")
        self.until_done(shown, 'see "sent Ada"')
        shown.value('document.querySelector("[data-key=\\"field 1 sent\\"]").select()')
        shown.type('"B"')
        shown.key("Enter")
        self.until_done(shown, 'set #1 sent "B"', "frame")
        self.assertEqual(shown.value("document.activeElement.dataset.key"), "field 1 sent")
        self.assertIn("sent B", self.drawn(shown))

    def test_what_is_not_as_wanted(self):
        shown = self.watch(BUTTONS)
        for text in ('see "7"', "farme", 'tap "Mroe"'):
            shown.value('document.querySelector("#line").focus()')
            shown.type(text)
            shown.click_button("Do")
        shown.until('document.querySelectorAll("#lines > li.bad").length === 3')
        text = shown.text("#lines")
        for part in ('wanted "7" to be seen', "refused 2 3 UnknownLine", 'is "More" meant?'):
            self.assertIn(part, text)
        self.assertNotIn('see "7"', self.done(shown))

    def test_time_and_tweens(self):
        shown = self.watch(SLIDE)
        x, y = shown.middle('document.querySelector("#time")')
        shown.value('(() => { const it = document.querySelector("#time"); it.value = 100; '
                    'it.dispatchEvent(new Event("input")); it.dispatchEvent(new Event("change")) })()')
        self.until_done(shown, "at 100", "frame")
        self.assertEqual(shown.text("#clock"), "100 ms")
        shown.click_button("Play tweens")
        shown.until("told.time === 300")
        shown.until('document.querySelector("#tweens").disabled')
        self.assertEqual(shown.value("moments.at(-1).states[0].fields[0][1]"), "0")
        self.assertEqual(shown.value('document.querySelector("#time").min'), "300")

    def test_what_was_done_is_a_test(self):
        shown = self.watch(BUTTONS)
        shown.click(*self.middle_of(shown, "More"))
        shown.until(is_at("frame 2", "2 of 2"))
        self.assertEqual(shown.value('document.querySelector("#script").value'), 'frame\ntap "More"\nframe\n')
        may = {"permissions": ["clipboardReadWrite", "clipboardSanitizedWrite"], "origin": shown.value("location.origin")}
        shown.browser.ask("Browser.grantPermissions", **may)
        shown.click_button("Copy")
        shown.until('document.querySelector("#saved").textContent === "Copied."')
        self.assertEqual(shown.value("navigator.clipboard.readText()"), 'frame\ntap "More"\nframe\n')
        shown.click_button("Save")
        shown.until('document.querySelector("#saved").textContent === "wrote app.test: 3 lines"')
        self.assertEqual(script("test", "--update", self.path)[0], 0)
        self.assertEqual(script("test", self.path)[0], 0)
        shown.value('(() => { const it = document.querySelector("#form"); it.value = "script"; it.dispatchEvent(new Event("change")) })()')
        self.assertEqual(shown.value('document.querySelector("#script").value'), "frame\ndown 99 1024 512\nup 99\nframe\n")
        self.assertEqual(shown.value('document.querySelector("#file").value'), "app.frame")
        shown.click_button("Save")
        shown.until('document.querySelector("#saved").textContent.includes("is the file that is watched")')

    def test_its_own_semantics(self):
        shown = self.watch((PROGRAMS / "settings.frame").read_text(encoding="utf-8"))
        self.is_usable(shown)
        shown.size(360, 740)
        self.assertEqual(self.box(shown, "#picture svg")[::2], [0, 360])
        self.assertLessEqual(shown.value("document.documentElement.scrollWidth"), 360)
        left, top, *_ = self.box(shown, "#picture svg")
        shown.mouse("mouseMoved", left + 5, top + 60)
        shown.until('document.querySelector("#point").textContent.includes("hit #")')


class Reloaded(LiveCase):
    def save(self, text):
        """Saves the file, as an editor does."""
        new = self.file("new", text)
        new.replace(self.path)

    def test_the_script_is_kept(self):
        shown = self.watch(BUTTONS)
        shown.click(*self.middle_of(shown, "More"))
        shown.until(is_at("frame 2", "2 of 2"))
        self.save(BUTTONS.replace('"children": [', '"children": [{"w": "Text", "text": "New"},', 1))
        shown.until('[...document.querySelectorAll("#picture text")].some(it => it.textContent === "New")')
        self.assertTrue(shown.value(is_at("frame 2", "2 of 2")))
        self.assertIn("1", self.drawn(shown))
        self.assertEqual(self.done(shown), ["frame", 'tap "More"', "frame"])
        self.save(BUTTONS.replace("More", "Less"))
        shown.until('document.querySelector("#said").textContent.includes("1 no longer fit: tap \\"More\\"")')
        self.assertEqual(self.done(shown), ["frame", "frame"])

    def test_a_refused_program(self):
        shown = self.watch(BUTTONS)
        self.save(BUTTONS.replace("Column", "Colum"))
        shown.until('!document.querySelector("#refusal").hidden')
        self.assertIn("app.frame:2:16: there is no kind `Colum`. Did you mean `Column`?", shown.text("#refusal"))
        self.assertIn("More", self.drawn(shown))
        self.is_usable(shown)
        self.save(BUTTONS)
        shown.until('document.querySelector("#refusal").hidden')

    def test_a_program_that_is_refused_at_first(self):
        shown = self.watch(BUTTONS.replace('"field", "n"', '"field", "m"', 1), 360)
        self.assertIn("there is no field `m` here", shown.text("#refusal"))
        self.assertTrue(shown.value('document.querySelector("main").hidden'))
        self.save(BUTTONS)
        shown.until(is_at("frame 1", "1 of 1"))

    def test_two_pages_of_one_program(self):
        shown = self.watch(BUTTONS)
        other = self.open(shown.value("location.href.split('#')[0]"))
        shown.click(*self.middle_of(shown, "More"))
        other.until(is_at("frame 2", "2 of 2"))
        other.click_button("Back")
        shown.click(*self.middle_of(shown, "More"))
        other.until('document.querySelector("#place").textContent === "1 of 3"')
        self.assertEqual(other.text("#title"), "frame 1")

    def test_a_run_that_ends(self):
        shown = self.watch(TWINS)
        self.assertIn("The run has ended with status 4", shown.text("#said"))
        self.assertIn("give the items of an `each` keys that differ", shown.text("#lines .fault"))
        self.assertTrue(shown.value('document.querySelector("#line").disabled'))

    def test_bin_watch_ends(self):
        shown = self.watch(BUTTONS)
        self.left = (shown,)
        self.end(self.process)
        shown.until('document.querySelector("#said").textContent.startsWith("bin/watch has ended")')


if __name__ == "__main__":
    unittest.main()
