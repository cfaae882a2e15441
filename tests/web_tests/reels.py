"""Tests of films that are saved: the SVG shows what the film shows, and the video is one."""

from __future__ import annotations

import xml.etree.ElementTree

from .battles import Battle, Settings, samples
from .pages import Page, Tests

# the bytes that a WebM begins with
EBML = [0x1A, 0x45, 0xDF, 0xA3]
# what is saved, in place of a download
CAUGHT = """window.saved = []; const plain = URL.createObjectURL; URL.createObjectURL = blob => { window.saved.push(blob); return plain.call(URL, blob); };
    HTMLAnchorElement.prototype.click = function () { window.savedAs = this.download; }"""
# where the middle of what has a robot's colour is, in parts of the field, in the film and in its SVG: the field has 20 pixels above and
# to the right, and to the left 22 or 30
MIDDLES = """const [svg, done] = arguments, view = document.getElementById('film').contentWindow, field = view.document.getElementById('field');
    const middles = canvas => { const {width} = canvas, margin = width < 500 ? 22 : 30, data = canvas.getContext('2d').getImageData(0, 0, width, width).data;
      return view.player.field.colours.robots.slice(0, 2).map(colour => { const wanted = [1, 3, 5].map(at => parseInt(colour.slice(at, at + 2), 16)); let x = 0, y = 0, count = 0;
        for (let at = 0; at < data.length; at += 4) if (wanted.every((it, one) => Math.abs(it - data[at + one]) < 12)) { count += 1; x += at / 4 % width; y += Math.floor(at / 4 / width); }
        return [(x / count - margin) / (width - margin - 20), (y / count - 20) / (width - margin - 20), count]; }); };
    const image = new Image(); image.onerror = () => done('no picture');
    image.onload = () => { const canvas = document.createElement('canvas'); canvas.width = canvas.height = 640; const it = canvas.getContext('2d');
      it.fillStyle = '#fff'; it.fillRect(0, 0, 640, 640); it.drawImage(image, 0, 0); done([middles(field), middles(canvas)]); };
    image.src = 'data:image/svg+xml;utf8,' + encodeURIComponent(svg)"""
CYCLES = (0, 300, 900, 1500, 1800)
MOST_SVG_BYTES = 1_500_000


def svg(page: Page) -> list[str]:
    """The SVG of a film is XML, not too large, and its first picture has the robots where the film has them."""
    page.show(Battle(samples()[:2], Settings(limit=3_000)))
    page.js(CAUGHT)
    wrong = []
    for cycle in CYCLES:
        page.watch(1, cycle)
        # so slow that pictures which follow one another are alike
        page.inside("const list = it.getElementById('speed'); list.value = '0'; list.dispatchEvent(new Event('change'))")
        page.click("film-svg")
        text = str(page.driver.execute_async_script("saved.at(-1).text().then(arguments[0])"))
        xml.etree.ElementTree.fromstring(text)
        found = page.driver.execute_async_script(MIDDLES, text)
        far = [max(abs(one - other) for one, other in zip(*pair)) for pair in zip(*[[it[:2] for it in robots] for robots in found])]
        wrong += [] if max(far) < 0.03 and len(text) < MOST_SVG_BYTES else [f"from cycle {cycle}: {found}, {len(text)} bytes"]
    name = page.js("return window.savedAs")
    return wrong + ([] if name.startswith("match-1-") and name.endswith(".svg") else [name])


def webm(page: Page) -> list[str]:
    """Where the browser records videos the film is saved as one, and can be ended before; elsewhere there is no such button."""
    page.show(Battle([("mover.r", b"main() { while (1) drive(90, 50); }"), ("still.r", b"main() { }")], Settings(limit=3_000)))
    page.js(CAUGHT)
    page.watch(1)
    can = page.js("return typeof MediaRecorder === 'function' && 'captureStream' in HTMLCanvasElement.prototype && MediaRecorder.isTypeSupported('video/webm')")
    if page.js("return document.getElementById('film-webm').hidden") == can:
        return [f"it can record: {can}, and the button says otherwise"]
    if not can:
        return []
    # who ends it at once gets a film, too
    page.click("film-webm")
    begun = page.js("return document.getElementById('film-webm').textContent")
    page.click("film-webm")
    page.wait("return saved.length && document.getElementById('told').textContent.startsWith('The film is saved')")
    begin, codec, kind = page.driver.execute_async_script(
        "const done = arguments[0]; saved.at(-1).arrayBuffer().then(it => { const bytes = new Uint8Array(it);"
        "done([[...bytes.slice(0, 4)], /V_VP[89]|V_AV1/.test(new TextDecoder('latin1').decode(bytes)), saved.at(-1).type]); })")
    right = begun == "End the recording" and begin == EBML and codec and kind == "video/webm" and page.text("film-webm") == "As WebM" and page.js("return savedAs").endswith(".webm")
    return [] if right else [f"{begin} {codec} {kind} {page.text('film-webm')}"]


def tests() -> Tests:
    """The tests by their names."""
    yield "a film as SVG", svg
    yield "a film as a video", webm
