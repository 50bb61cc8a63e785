"""How outcomes of tests are told: for a reader, as TAP, and as JUnit's XML."""

import xml.sax.saxutils as xml


def failure_lines(failure):
    """A failure for a reader: file and line, wanted, found."""
    head = f"{failure.file}:{failure.line}: wanted {failure.wanted}"
    return [head, f"    found {failure.found}", *(f"    {line}" for line in failure.more)]


class Plain:
    """A line for each outcome, what failed below it, and a count at the end."""

    def one(self, outcome):
        """Tells of an outcome."""
        word = "FAILED" if outcome.failures else "skipped" if outcome.skipped else "ok"
        print(f"{word:7} {outcome.name}" + (f": {outcome.skipped}" if outcome.skipped else ""), flush=True)
        for failure in outcome.failures:
            print("\n".join(failure_lines(failure)), flush=True)

    def end(self, outcomes):
        """Tells how many there were."""
        failed = sum(bool(outcome.failures) for outcome in outcomes)
        skipped = sum(bool(outcome.skipped) for outcome in outcomes)
        print(f"{len(outcomes)} tests, {failed} failed" + (f", {skipped} skipped" if skipped else ""))


class Tap:
    """The Test Anything Protocol, version 13."""

    def __init__(self):
        self.count = 0
        print("TAP version 13")

    def one(self, outcome):
        """Tells of an outcome."""
        self.count += 1
        skip = f" # SKIP {outcome.skipped}" if outcome.skipped else ""
        name = outcome.name.replace("#", "\\#")
        print(f"{'not ok' if outcome.failures else 'ok'} {self.count} - {name}{skip}", flush=True)
        for failure in outcome.failures:
            print("\n".join(f"# {line}" for line in failure_lines(failure)), flush=True)

    def end(self, outcomes):
        """Tells how many there were."""
        print(f"1..{len(outcomes)}")


def junit(outcomes):
    """The outcomes as JUnit's XML."""
    failed = sum(bool(outcome.failures) for outcome in outcomes)
    skipped = sum(bool(outcome.skipped) for outcome in outcomes)
    counts = f'tests="{len(outcomes)}" failures="{failed}" skipped="{skipped}"'
    lines = ['<?xml version="1.0" encoding="UTF-8"?>', f'<testsuite name="buskeld" {counts}>']
    for outcome in outcomes:
        head = f'<testcase classname="buskeld" name={attribute(outcome.name)} time="{outcome.seconds:.3f}"'
        inner = [f"<skipped message={attribute(outcome.skipped)}/>"] if outcome.skipped else []
        for failure in outcome.failures:
            told = failure_lines(failure)
            inner.append(f"<failure message={attribute(told[0])}>{xml.escape(plain(chr(10).join(told)))}</failure>")
        lines += [f"  {head}>", *(f"    {line}" for line in inner), "  </testcase>"] if inner else [f"  {head}/>"]
    return "\n".join([*lines, "</testsuite>", ""])


def plain(text):
    """A text without the control characters that no XML may have."""
    return "".join(it if it >= " " or it in "\n\t" else "\ufffd" for it in text)


def attribute(text):
    """A text as an attribute's value."""
    return xml.quoteattr(plain(text))
