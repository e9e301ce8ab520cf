"""Whether the page can be read and reached: the contrast of its colours, the names of its parts, and the keys alone."""

from __future__ import annotations

import json
import re
from collections import Counter
from collections.abc import Iterator

from sweeps.browser import Browser
from sweeps.program import Tally

# What stands on what, and how many times as light the one is to be, at least: as WCAG 2.2 has it for text, and for what
# is no text.
TEXT, OTHER = 4.5, 3.0
PAIRS = {
    **{(text, ground): TEXT for text in ("ink", "quiet") for ground in ("paper", "panel", "bar")},
    ("ink", "hot"): TEXT,
    ("bad", "paper"): TEXT,
    ("link", "paper"): TEXT,
    ("word", "work"): TEXT,
    ("writes", "panel"): TEXT,
    ("edge", "paper"): OTHER,
    ("gauge", "hot"): OTHER,
    ("gauge", "paper"): OTHER,
    ("work", "bar"): OTHER,
}
COLOURS = re.compile(r":root \{([^}]*)\}")
COLOUR = re.compile(r"--(\w+): #(\w\w)(\w\w)(\w\w);")
# What has to have a name, and no other of its kind the same.
NAMED = {"button", "combobox", "DisclosureTriangle", "link", "region", "searchbox", "table", "textbox", "treegrid"}
LISTS = "get /a\nadd /b 1 20\n\nget /a\n"
FILL = f"document.getElementById('lists').value = {json.dumps(LISTS)}; document.getElementById('plan').click()"
# What is too wide is known once the page has been drawn.
DRAWN = "requestAnimationFrame(() => requestAnimationFrame(() => { window.isDrawn = true; }))"
# What the keys are at: its place among all that they may be at, and whether it has a visible outline.
AT = """(() => {
  const all = [...document.querySelectorAll('a, button, textarea, input, select, summary, [tabindex]')]
    .filter((element) => element.checkVisibility() && !element.closest('dialog'));
  const at = document.activeElement;
  const shown = at.id === 'table' ? at.querySelector('.active') : at;
  return [all.indexOf(at), getComputedStyle(shown).outlineStyle, all.length];
})()"""
WIDTHS = (1280, 400)


def note_readable(address: str, script: str, tally: Tally) -> None:
    """By the page's text alone, and in a browser if there is one."""
    for fault in contrasts(script):
        tally.note("contrast", fault)
    if Browser.is_there():
        for width in WIDTHS:
            with Browser(address) as page:
                size = {"width": width, "height": 800, "deviceScaleFactor": 1, "mobile": False}
                page.call("Emulation.setDeviceMetricsOverride", **size)
                page.until("document.querySelectorAll('#nodes td.weight').length > 0")
                page.run(FILL)
                page.until("document.querySelectorAll('section.plan').length === 2")
                page.run(DRAWN)
                page.until("window.isDrawn")
                note_names(page, f"{width} wide", tally)
                note_keys(page, f"{width} wide", tally)
                note_written(page, f"{width} wide", tally)


def contrasts(script: str) -> Iterator[str | None]:
    """Of each pair of colours, for light and for dark, whether they differ enough."""
    for theme, found in zip(("light", "dark"), COLOURS.findall(script), strict=True):
        lights = {name: light([int(part, 16) for part in parts]) for name, *parts in COLOUR.findall(found)}
        for (text, ground), least in PAIRS.items():
            low, high = sorted((lights[text], lights[ground]))
            ratio = (high + 0.05) / (low + 0.05)
            yield None if ratio >= least else f"{text} on {ground}, {theme}: {ratio:.2f}"


def light(parts: list[int]) -> float:
    """How light a colour is, as WCAG reckons it."""
    red, green, blue = (linear(part / 255) for part in parts)
    return 0.2126 * red + 0.7152 * green + 0.0722 * blue


def linear(share: float) -> float:
    return share / 12.92 if share <= 0.04045 else float(((share + 0.055) / 1.055) ** 2.4)


def note_names(page: Browser, where: str, tally: Tally) -> None:
    page.call("Accessibility.enable")
    nodes = [node for node in page.call("Accessibility.getFullAXTree")["nodes"] if not node["ignored"]]
    named = Counter((node["role"]["value"], node.get("name", {}).get("value", "")) for node in nodes)
    for (role, name), count in named.items():
        if role in NAMED:
            tally.note(f"{where}: names", None if name and count == 1 else f"{count} times {role} {name!r}")


def note_keys(page: Browser, where: str, tally: Tally) -> None:
    """From the beginning on, the key Tab is at each part in turn, which then has an outline, and at last at none."""
    page.run("document.activeElement.blur()")
    came, shown, count = [], True, page.run(AT)[2]
    for _ in range(count + 1):
        page.press("Tab", 9)
        at, outline, _ = page.run(AT)
        came.append(at)
        shown = shown and (at < 0 or outline != "none")
    tally.note(f"{where}: Tab", None if came == [*range(count), -1] else f"it is at {came} of {count}")
    tally.note(f"{where}: what Tab is at", None if shown else "something has no outline")


def note_written(page: Browser, where: str, tally: Tally) -> None:
    """What the key Enter writes of a node into the lists is told, until something else is written there."""
    page.run("document.getElementById('table').focus()")
    page.press("Enter", 13)
    line = page.run("document.getElementById('lists').value.split('\\n').at(-2)")
    told = page.run("document.getElementById('written').textContent")
    is_told = line == "get /" and told == f"{line} is the last line of the lists."
    tally.note(f"{where}: Enter", None if is_told else f"it wrote {line!r} and told {told!r}")
    page.run("document.getElementById('lists').focus()")
    page.call("Input.insertText", text="get /b\n")
    told = page.run("document.getElementById('written').textContent")
    tally.note(f"{where}: more lines", None if told == "" else f"it still tells {told!r}")
