"""Tests of the panel on a robot from inside: what it shows at the film's cycle, its keys and its marks. Worked out by hand."""

from __future__ import annotations

from .battles import Battle, Settings
from .pages import Page, Tests

# CONST 1 and BRANCH of line 4; FRAME, CONST 0, CONST 5, FCALL scan, STORE a, CHOP of line 5; FETCH, CONST 1, BINOP +, STORE seen, CHOP of
# line 6; CONST 0 and BRANCH back: a turn is 15 cycles
LOOKER = ("looker.r", b"int seen;\nmain() {\n  int a;\n  while (1) {\n    a = scan(0, 5);\n    seen = seen + 1;\n  }\n}\n")
# calls a function in its cycle 3, which goes on
CALLER = ("caller.r", b"main() {\n  down(7);\n}\ndown(n) {\n  int m;\n  while (1)\n    m = m + n;\n}\n")
# Calls a function in each turn of 20 cycles. CONST 1 and BRANCH of line 2; FRAME, CONST 3, FCALL twice of line 3; FETCH, FETCH, BINOP +,
# STORE n, CHOP of line 8; FETCH and RETSUB of line 9; CHOP of line 3; FRAME, CONST 0, CONST 0, FCALL drive, CHOP of line 4; and back by
# CONST 0 and BRANCH of line 2
STEPPER = ("stepper.r", b"main() {\n  while (1) {\n    twice(3);\n    drive(0, 0);\n  }\n}\ntwice(n) {\n  n = n + n;\n  return n;\n}\n")
SHIFT, F10, F11 = "\ue008", "\ue03a", "\ue03b"
KEYS = {F10: "F10", F11: "F11", SHIFT + F11: "F11"}
# keys, or a button, and the cycle and the place to which they lead, with a mark at line 3
STEPS = [
    (F11, 2, "line 3, main"), (F11, 5, "line 8, twice"), (F10, 10, "line 9, twice"), (F10, 12, "line 3, main"), (F10, 13, "line 4, main"),
    (F11, 18, "line 2, main"), (F11, 20, "line 2, main"), (F11, 22, "line 3, main"), (F10, 33, "line 4, main"), ("[", 22, "line 3, main"),
    ("step-into", 25, "line 8, twice"), (SHIFT + F11, 32, "line 3, main"), ("[", 22, "line 3, main"), ("step-over", 33, "line 4, main"),
    ("line-before", 22, "line 3, main"), (F11, 25, "line 8, twice"), ("step-out", 32, "line 3, main"),
]


def opened(page: Page, limit: int = 100, first: tuple[str, bytes] = LOOKER) -> None:
    """Watches a match of two robots with the panel open."""
    page.fresh()
    page.show(Battle([first, CALLER], Settings(limit=limit)))
    page.watch(1)
    page.js("document.getElementById('inside').open = true")
    page.wait("return document.getElementById('inside-at').textContent.startsWith('Cycle 0 ')")
    page.js("document.getElementById('inside-source').focus()")


def arrived(page: Page, cycle: int) -> list[str]:
    """Waits until the panel and the film are at a cycle; returns the panel's lines and its table."""
    page.wait("return document.getElementById('inside-at').textContent.startsWith(`Cycle ${arguments[0]} `)", cycle)
    film = page.js("return document.getElementById('film').contentWindow.player.cycle")
    assert film == cycle, f"the film is at {film}, the panel at {cycle}"
    rows = page.js("return [...document.querySelectorAll('#inside-calls tr')].map(it => [...it.children].map(one => one.textContent).join(' '))")
    return [page.text("inside-at"), page.text("inside-next"), page.text("inside-asked"), ", ".join(rows), page.text("inside-stack"),
            page.js("return document.querySelector('#inside-source .current code').textContent.trim()")]


def differ(got: object, wanted: object) -> list[str]:
    """What is wrong, if they differ."""
    return [] if got == wanted else [f"{got}, not {wanted}"]


def moments(page: Page) -> list[str]:
    """A question before and after it is asked, and a value before and after it changes."""
    opened(page)
    wrong = differ(arrived(page, 0), ["Cycle 0 · line 4, main", "Next: 0 CONST 1", "It has asked nothing yet.", "main, line 4, a 0, externals, seen 0", "0",
                                      "while (1) {"])
    page.press(*".....")
    wrong += differ(arrived(page, 5), ["Cycle 5 · line 5, main", "Next: 5 FCALL scan · it asks scan(0, 5)", "It has asked nothing yet.",
                                       "main, line 5, a 0, externals, seen 0", "0 0 5", "a = scan(0, 5);"])
    page.press(".")
    asked = "Last question: scan(0, 5) gave 0 in cycle 6"
    wrong += differ(arrived(page, 6)[1:3], ["Next: 6 STORE L0 = (a)", asked])
    page.press(*"......")
    wrong += differ(arrived(page, 12)[1:4], ["Next: 12 CHOP", asked, "main, line 6, a 0, externals, seen 1"])
    page.press(",")
    return wrong + differ(arrived(page, 11)[1:4], ["Next: 11 STORE E0 = (seen)", asked, "main, line 6, a 0, externals, seen 0"])


def lines(page: Page) -> list[str]:
    """A line begins again 15 cycles later; a mark leads to another one; before the first turn there is none."""
    opened(page)
    page.press(*"...]")
    wrong = differ(arrived(page, 17)[5], "a = scan(0, 5);")
    page.press("[")
    wrong += differ(arrived(page, 2)[5], "a = scan(0, 5);")
    page.press("[")
    page.wait("return document.getElementById('inside-said').textContent")
    wrong += differ(page.text("inside-said"), "Nothing: before this cycle it doesn't come to line 5.")
    page.js("document.querySelectorAll('#inside-source button')[5].click(); document.getElementById('line-after').click()")
    return wrong + differ(arrived(page, 8)[5], "seen = seen + 1;")


def calls(page: Page) -> list[str]:
    """Another robot, inside a call, and after the end: FRAME, CONST 7 and FCALL lead to line 6 of `down`, which goes on."""
    opened(page, 30)
    page.js("const it = document.getElementById('inside-robot'); it.selectedIndex = 1; it.dispatchEvent(new Event('change'))")
    page.press(*"...")
    page.wait("return document.getElementById('inside-at').textContent === 'Cycle 3 · line 6, down'")
    wrong = differ(arrived(page, 3)[3:], ["down, line 6, n 7, m 0, main, line 2", "7 0", "while (1)"])
    page.inside("it.defaultView.player.seek(30)")
    return wrong + differ(arrived(page, 30)[0].endswith(" · the match is over"), True)


def steps(page: Page) -> list[str]:
    """Into a call, over it, and out of it, by keys of which the browser gets none, and by buttons; from main there is no way out."""
    opened(page, first=STEPPER)
    page.js("window.keys = []; addEventListener('keydown', event => window.keys.push([event.key, event.defaultPrevented]));"
            "document.querySelectorAll('#inside-source button')[2].click(); document.getElementById('inside-source').focus()")
    wrong = []
    for step, cycle, place in STEPS:
        if step.startswith(("step-", "line-")):
            page.click(step)
        else:
            page.driver.switch_to.active_element.send_keys(step)
        wrong += differ(arrived(page, cycle)[0], f"Cycle {cycle} · {place}")
    page.driver.switch_to.active_element.send_keys(SHIFT + F11)
    page.wait("return document.getElementById('inside-said').textContent")
    wrong += differ(page.text("inside-said"), "Nothing: after this cycle it doesn't come to the end of this call.")
    pressed = [[KEYS[step], True] for step, _, _ in [*STEPS, (SHIFT + F11, 0, "")] if step in KEYS]
    return wrong + differ(page.js("return window.keys.filter(([key]) => key.startsWith('F'))"), pressed)


IS_SEEN = """const box = document.getElementById('inside-source'), it = box.querySelector('.current');
    return it.offsetTop >= box.scrollTop && it.offsetTop + it.offsetHeight <= box.scrollTop + box.clientHeight"""


def turned(page: Page) -> list[str]:
    """The line is seen after the screen was turned, too: then the source is lower, and what stands above goes over more lines."""
    page.size(1366, 800)
    opened(page, first=("long.r", b"/* far, far above all that does anything at all */\n" * 60 + LOOKER[1]))
    for width, height in ((1366, 800), (360, 640)):
        page.size(width, height)
        # drawn and scrolled after the next frame, which comes late if the machine has much to do
        page.wait(IS_SEEN)
    page.whole_window()
    return []


def kept_focus(page: Page) -> list[str]:
    """Who opens the panel by a key, and closes it, has the focus on it all the time, wherever the panel stands then."""
    opened(page)
    page.js("document.getElementById('inside').open = false")
    page.wait("return document.getElementById('inside').closest('#right')")
    page.js("document.querySelector('#inside summary').focus()")
    for column in ("left", "right"):
        page.press("ENTER")
        page.wait("return document.getElementById('inside').closest(`#${arguments[0]}`)", column)
        if wrong := differ(page.js("return document.activeElement.parentElement?.id"), "inside"):
            return wrong
    return []


def tests() -> Tests:
    """The tests by their names."""
    yield "moments inside", moments
    yield "lines inside", lines
    yield "calls inside", calls
    yield "steps inside", steps
    yield "a turned screen inside", turned
    yield "the focus inside", kept_focus
