"""Lays the page into its folder: its modules as scripts, what it is built with as another one, the editor, pages, and a zip."""

import base64
import contextlib
import glob
import hashlib
import html
import json
import os
import re
import shutil
import subprocess
import zipfile
from pathlib import Path
from string import Template

from catalog.rules import diagnostics
from replays.modules import script_of, waiting_script
from replays.pages import framed_script, put_together, style_of_page
from tools.rules import MOST_CYCLES, MOST_FIRST, MOST_MATCHES
from tools.samples import ladder

from .helping import functions, panel, steps, text_of, whole
from .manuals import Page
from .packing import packed
from .renaming import renamed
from .slimming import Unclear, short, short_style
from .texts import pages
from .zipping import zipped

TOP = os.path.normpath(os.path.join(os.path.dirname(os.path.abspath(__file__)), "..", ".."))
WEB = os.path.join(TOP, "web")
MANUALS = ("crobots-robots.6", "crobots.6")
LICENCES = ("LICENSE", "LICENCE", "COPYING")
EDITOR = "/usr/share/javascript/codemirror"
EDITOR_SCRIPTS = ("lib/codemirror.js", "addon/edit/matchbrackets.js", "addon/edit/closebrackets.js", "addon/selection/active-line.js",
                  "addon/hint/show-hint.js")
EDITOR_STYLES = ("lib/codemirror.css", "addon/hint/show-hint.css")
# A folder or a zip is a page if it has this file.
KNOWN_BY = "data.js"
# The page runs its own scripts, the module and the player's script, and no other; it asks the network for nothing.
POLICY = ("default-src 'none'; script-src 'self' blob: 'wasm-unsafe-eval' 'sha256-$player'; worker-src blob:; style-src 'self' 'unsafe-inline'; "
          "img-src data:; base-uri 'none'; form-action 'none'")


def samples() -> list[dict[str, str | int]]:
    """The robots to choose from, in the order of the ladder."""
    robots = [(os.path.basename(path), level) for path, level in ladder()]
    there = {name for name in os.listdir(os.path.join(TOP, "robots")) if name.endswith(".r")}
    assert {name for name, _ in robots} == there and len(robots) == len(there), robots
    return [{"name": name, "level": level, "source": text_of(TOP, "robots", name)} for name, level in robots]


def unadvised() -> set[str]:
    """The diagnostics that web/advice.js doesn't have, and what it has that is none."""
    return {*re.findall(r'^    "(.+?)": "', text_of(WEB, "advice.js"), re.MULTILINE)} ^ {*diagnostics()}


def index(manual: Page) -> str:
    """The page itself, with its limits."""
    return Template(text_of(WEB, "index.html")).substitute(
        policy=policy(), language=panel(manual, WEB), matches=MOST_MATCHES, cycles=MOST_CYCLES, first=MOST_FIRST)


def scripts() -> dict[str, str]:
    """The page's scripts, as they are written: what waits until it is called, what starts it, the player's and the worker's. A function in
    brackets is compiled by browsers before it is called, beside the page's thread."""
    return {"page": f"globalThis.CROBOTS_PAGE=({waiting_script(os.path.join(WEB, 'page.js'))});\n", "start": script_of(os.path.join(WEB, "start.js")),
            "player": framed_script(), "worker": script_of(os.path.join(WEB, "worker.js"))}


def small(script: str) -> str:
    """A script of the page without its comments and needless blanks, and with short names."""
    return renamed(short(script))


def data_of(module: bytes, manual: Page) -> dict[str, object]:
    """What the page is built with."""
    return {"robots": samples(), "steps": steps(WEB), "functions": functions(manual), "editor": os.path.isdir(EDITOR),
            "player": put_together(player(), short_style(style_of_page())), "worker": small(scripts()["worker"]), "module": packed(module)}


def start_script(data: dict[str, object], page: str) -> str:
    """The script that starts the page, with the SHA-256 of what it looks at: the data as JSON, and the function's text."""
    function = page.strip().removeprefix("globalThis.CROBOTS_PAGE=(").removesuffix(");")
    parts = {"data": json.dumps(data, ensure_ascii=False, separators=(",", ":")).encode(), "page": function.encode()}
    text = scripts()["start"]
    for name, part in parts.items():
        assert text.count(f'"${name}"') == 1, name
        text = text.replace(f'"${name}"', f'"{hashlib.sha256(part).hexdigest()}"')
    return small(text)


def player() -> str:
    """The script of the page in a frame."""
    return small(scripts()["player"])


def policy() -> str:
    """What the page may do."""
    digest = hashlib.sha256(f"\n{player()}".encode()).digest()
    return Template(POLICY).substitute(player=base64.b64encode(digest).decode())


def slim(text: str) -> str:
    """A script of the editor without its comments and needless blanks, and with short names, as far as that is clear."""
    try:
        made = short(text)
    except Unclear:
        return text
    with contextlib.suppress(Unclear):
        made = renamed(made)
    return made


def notice(text: str) -> str:
    """The notice of its licence, with which a script of the editor begins."""
    return text.split("\n\n")[0]


def editor_script() -> str:
    """The editor's scripts as one, which begins with the notices of their licences. What one ends with never goes on in the next."""
    texts = [text_of(EDITOR, name) for name in EDITOR_SCRIPTS]
    return "\n".join((*dict.fromkeys(map(notice, texts)), ";".join(slim(text).strip().removesuffix(";") + "\n" for text in texts)))


def editor_style() -> str:
    """The editor's styles as one."""
    return "".join(short_style(text_of(EDITOR, name)) for name in EDITOR_STYLES)


def version() -> str:
    """The version of the repository, if it is one of git."""
    ran = subprocess.run(["git", "-C", TOP, "describe", "--tags", "--always"], capture_output=True, text=True, check=False)
    return ran.stdout.strip() or "unknown"


def licence() -> str:
    """The file with the licence, if there is one."""
    return next((name for name in LICENCES if os.path.isfile(os.path.join(TOP, name))), "")


def about(module: bytes) -> str:
    """The page on what this is."""
    name = licence()
    text = f'The licence is in the file <a href="{name}.txt">{name}</a>.' if name else "The sources state no licence."
    return Template(text_of(WEB, "about.html")).substitute(
        version=html.escape(version()), hash=hashlib.sha256(module).hexdigest(), bytes=f"{len(module):,}", licence=text)


def put(folder: str, name: str, text: str) -> None:
    """Writes a file of the page."""
    Path(folder, name).write_text(text, encoding="utf-8")


def lay_editor(folder: str) -> None:
    """Puts the editor into a folder, if it is installed."""
    os.makedirs(folder)
    if os.path.isdir(EDITOR):
        put(folder, "codemirror.js", editor_script())
        put(folder, "codemirror.css", editor_style())


def lay(folder: str, module: str) -> None:
    """Puts the page's files into the folder, and beside it all of them in a zip, and the module."""
    assert not unadvised(), unadvised()
    shutil.rmtree(folder, ignore_errors=True)
    lay_editor(os.path.join(folder, "codemirror"))
    manuals = [Page(text_of(TOP, "man", name)) for name in MANUALS]
    put(folder, "index.html", index(manuals[0]))
    put(folder, "embed.html", Template(text_of(WEB, "embed.html")).substitute(policy=policy()))
    put(folder, "manual.html", Template(text_of(WEB, "manual.html")).substitute(text=whole(manuals)))
    content = Path(module).read_bytes()
    put(folder, "about.html", about(content))
    os.makedirs(os.path.join(folder, "pages"))
    for name, text in pages(TOP, WEB).items():
        put(os.path.join(folder, "pages"), name, text)
    for name in ("page.css", "text.css"):
        put(folder, name, short_style(text_of(WEB, name)))
    if licence():
        shutil.copy(os.path.join(TOP, licence()), os.path.join(folder, f"{licence()}.txt"))
    # a function whose text can be looked at before it is called; it answers what the page exports
    data, page = data_of(content, manuals[0]), small(scripts()["page"])
    put(folder, "page.js", page)
    put(folder, "data.js", f"globalThis.CROBOTS={json.dumps(data, separators=(',', ':'))};\n")
    put(folder, "start.js", start_script(data, page))
    pack(folder)
    if os.path.abspath(module) != f"{folder}.wasm":
        shutil.copy(module, f"{folder}.wasm")


def pack(folder: str) -> None:
    """Puts all files of a folder into a zip beside it."""
    paths = sorted(path for path in glob.glob(os.path.join(folder, "**", "*"), recursive=True) if os.path.isfile(path))
    Path(f"{folder}.zip").write_bytes(zipped({os.path.relpath(path, folder): Path(path).read_bytes() for path in paths}))


def is_foreign(folder: str) -> bool:
    """Whether a folder, or the zip beside it, holds something else than an earlier page."""
    pack_ = f"{folder}.zip"
    if os.path.exists(pack_) and not (zipfile.is_zipfile(pack_) and KNOWN_BY in zipfile.ZipFile(pack_).namelist()):
        return True
    return os.path.exists(folder) and (not os.path.isdir(folder) or os.listdir(folder) != [] and not os.path.isfile(os.path.join(folder, KNOWN_BY)))
