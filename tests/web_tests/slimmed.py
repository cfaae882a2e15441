"""Tests of what makes the page small: of scripts comments and needless blanks go, variables get short names, and nothing else changes;
files are deflated into fewer bytes than by zlib, which reads them, and the page's script unpacks the module."""

from __future__ import annotations

import hashlib
import os
import random
import subprocess
import sys
import tempfile
import zipfile
import zlib
from pathlib import Path
from typing import Callable, Iterator

HERE = os.path.dirname(os.path.abspath(__file__))
sys.path.insert(0, os.path.join(HERE, "..", "..", "scripts"))

from harness import skip  # noqa: E402
from packages import lacking  # noqa: E402
from replays.modules import script_of, waiting_script  # noqa: E402
from webs.deflating import DISTANCES, LENGTHS, deflated, distance_class  # noqa: E402
from webs.laying import EDITOR, EDITOR_SCRIPTS, editor_script, scripts, small  # noqa: E402
from webs.packing import packed  # noqa: E402
from webs.renaming import renamed  # noqa: E402
from webs.slimming import Unclear, short, short_style  # noqa: E402
from webs.zipping import zipped  # noqa: E402

NODE, TYPES = "node", "tsc"

CASES = {
    "blanks": ("let a  =  b + 1 ;\n", "let a=b+1;"),
    "words": ("return a in b ;", "return a in b;"),
    "lines": ("a\n\n  b\n", "a\nb\n"),
    "lines that end nothing": ("f(\n  a,\n  b\n) {\n  c;\n  [\n1\n]\n}\n", "f(a,b){c;[1]}\n"),
    "semicolons that end a block's last statement": ("{ a; }\n{ f((b)); }\n{ c = ';' ; }\n{ do d(); while (e)\nf(); }", "{a}\n{f((b))}\n{c=';'}\n{do d();while(e)\nf()}"),
    "semicolons that are statements": ("{ for (;(a);) ; } { while (b(c)); } { if (d) e; else ; } { ; } { f: ; } { if (g) ; }",
                                       "{for(;(a););}{while(b(c));}{if(d)e;else;}{;}{f:;}{if(g);}"),
    "lines that end something": ("a\n(b)\n+c\n++\nd\n{}", "a\n(b)\n+c\n++\nd\n{}"),
    "comments": ("a; // one\nb; /* two */ c;\n/* three\n */ d\n// four", "a;b;c;d\n"),
    "a comment between words": ("typeof/* x */a; b /* x\n*/ c", "typeof a;b\nc"),
    "texts": ("f( 'a  // b' , \"c /* d\" );", "f('a  // b',\"c /* d\");"),
    "quotes in texts": (r"f( 'it\'s  a' , '\\' ); // x", r"f('it\'s  a','\\');"),
    "a text over lines": ("f('a \\\n  b' );", "f('a \\\n  b');"),
    "signs": ("a + +b; a - -b; a - --b; a++ + b; a < !--b; a + - b", "a+ +b;a- -b;a- --b;a++ +b;a< !--b;a+-b"),
    "a division": ("a / b / c; f( 1 ) / 2; g[ 0 ] / '  '", "a/b/c;f(1)/2;g[0]/'  '"),
    "expressions": ("x = / a  b\\/ [/'] /g . test( y ); return /'/ ; f( /  / ); /a/ in b", "x=/ a  b\\/ [/'] /g.test(y);return/'/;f(/  /);/a/ in b"),
    "a quotient of an expression": ("a = b / /c  d/", "a=b/ /c  d/"),
    "a number's part": ("1 .toFixed( 2 ); a . b", "1 .toFixed(2);a.b"),
    "templates": ("f( `a  ${ b + `  c  ` + { d } }  // e` ); // f", "f(`a  ${ b + `  c  ` + { d } }  // e`);"),
    "a template in a template": ("f( `${ a(({b}) => `  ${b}  `) }  c`  );", "f(`${ a(({b}) => `  ${b}  `) }  c`);"),
    "a template's escapes": ("f( `\\`  ${ '}' }  \\${ ` );", "f(`\\`  ${ '}' }  \\${ `);"),
    "letters": ("let größe = 1 ; $a = this . #b", "let größe=1;$a=this.#b"),
}
STYLES = {
    "blanks": ("a  b ,\n c {\n  d: e  f;\n}\n\n@media (x: y) {\n  g { h: i }\n}\n", "a b , c{d: e f;}@media (x: y){g{h: i}}"),
    "comments": ("/* a; */ b { c: d; /* e\n */ f: g }", " b{c: d; f: g}"),
    "texts": ("a::after { content: \" ;  } /* b */\"; c: ' { ' }", "a::after{content: \" ;  } /* b */\";c: ' { '}"),
}
# The first names are e, t, n, a and i, for what is declared first; a name is taken again where its variable isn't named.
NAMES = {
    "variables of a function": ("function f(one,two){var three=one;return two+three}", "function f(e,t){var n=e;return t+n}"),
    "names of all": ("function f(one){return e(one,t.n)}", "function f(n){return e(n,t.n)}"),
    "members": ("function f(one){return{one:one,'two':one.one,3:{one:one}}}", "function f(e){return{one:e,'two':e.one,3:{one:e}}}"),
    "functions within": ("function f(one){return function(two){var three;return one(two,three)}}",
                         "function f(e){return function(t){var n;return e(t,n)}}"),
    "functions side by side": ("(function(one){one()});(function(two){two()})", "(function(e){e()});(function(e){e()})"),
    "a name that is free within": ("function f(one){return function(two,three){return three}}", "function f(e){return function(e,t){return t}}"),
    "a name that is needed further within": ("function f(one){return function(two){return function(){one()}}}",
                                             "function f(e){return function(t){return function(){e()}}}"),
    "the same name within": ("function f(one){return function(){var one=1;return one}}", "function f(e){return function(){var e=1;return e}}"),
    "a value's name": ("x=function own(one){return own(own)}", "x=function e(t){return e(e)}"),
    "a statement's name": ("function f(){function one(){}\none(one)}", "function f(){function e(){}\ne(e)}"),
    "use before the declaration": ("function f(){one(two);var two;function one(){}}", "function f(){t(e);var e;function t(){}}"),
    "lists": ("function f(){var one=one(one,x),two=[one,y],three;return z,one}", "function f(){var e=e(e,x),t=[e,y],n;return z,e}"),
    "a line's end": ("function f(){var one=x\ny,z}", "function f(){var e=x\ny,z}"),
    "a loop over names": ("function f(one){for(var two in one,x)two()}", "function f(e){for(var t in e,x)t()}"),
    "a caught fault": ("function f(one){try{one()}catch(two){let three;one(two)}try{}catch{one()}}",
                       "function f(e){try{e()}catch(t){let n;e(t)}try{}catch{e()}}"),
    "labels": ("function f(one){{out:for(;one;){if(one){break out}}}}", "function f(e){{out:for(;e;){if(e){break out}}}}"),
    "conditions": ("function f(one,two){switch(one){case two:{x({two:one?{two:one}:one})}}}",
                   "function f(e,t){switch(e){case t:{x({two:e?{two:e}:e})}}}"),
    "texts": ("function f(one){return'one'+/one/.one(one)}", "function f(e){return'one'+/one/.one(e)}"),
    "words": ("function f(it){return it.in.it,it in it}", "function f(e){return e.in.it,e in e}"),
    "arrows": ("x=one=>async(two,three)=>two?one:{one};one()", "x=e=>async(t,n)=>t?e:{one:e};one()"),
    "an arrow's body": ("x=(one,two=three=>one)=>{const four=two;y(four)}", "x=(e,t=t=>e)=>{const n=t;y(n)}"),
    "blocks": ("function f(one){{let two=one;{const one=two}}one()}", "function f(e){{let t=e;{const e=t}}e()}"),
    "a variable of all the function": ("function f(one){{var two=one}two()}", "function f(e){{var t=e}t()}"),
    "patterns": ("function f({one,two:three,...four},[five,,six=one]){}", "function f({one:e,two:t,...n},[a,,i=e]){}"),
    "a pattern's values": ("function f(one){const{two=one,[one]:three}=x;two=three}", "function f(e){const{two:t=e,[e]:n}=x;t=n}"),
    "objects": ("function f(one){return{one,two(){},get three(){return one},[one]:one,...one,async*four(five){}}}",
                "function f(e){return{one:e,two(){},get three(){return e},[e]:e,...e,async*four(e){}}}"),
    "a pattern that declares nothing": ("function f(one,two){({one,three:two=3}=x);[one,two]=[two,one]}",
                                        "function f(e,t){({one:e,three:t=3}=x);[e,t]=[t,e]}"),
    "classes": ("class A extends B{#one=1;two=x=>x\nthree;static async four(one){this.#one=one}get five(){}}",
                "class A extends B{#one=1;two=e=>e\nthree;static async four(e){this.#one=e}get five(){}}"),
    "a class within": ("function f(){class One{}return class Two extends One{make(){return new Two}}}",
                       "function f(){class e{}return class t extends e{make(){return new t}}}"),
    "templates": ("function f(one){return`one ${one+`$${one}`} {one} \\${one}`}", "function f(e){return`one ${e+`$${e}`} {one} \\${one}`}"),
    "loops": ("function f(one){for(const[two,three]of one.of){two()}for(const four of one)one(four)}",
              "function f(e){for(const[t,n]of e.of){t()}for(const t of e)e(t)}"),
    "what may be lacking": ("function f(one){return one?.5:one?.one??one?.[one]}", "function f(e){return e?.5:e?.one??e?.[e]}"),
}
UNKNOWN = ("with(x){}", "eval(x)", "import(x)", "import.meta", "function*f(){yield 1}", "class A{static{}}", "for(const x of y)if(x)z();",
           "function f({1}){}", "x={1}", "1=>x", "(", ")", "f(]")
# what a script looks like in which a variable is another one
SLIP = ("function f(first,second){return third=>first(second,third,third)}", "function f(e,t){return n=>e(t,n,t)}")
UNCLEAR = {"a template": "`a", "an expression": "x = /a", "a text": "'a"}


def refuses(script: str, make: Callable[[str], str] = short) -> bool:
    """Whether a script isn't made short."""
    try:
        make(script)
    except Unclear:
        return True
    return False


def text_of(*path: str) -> str:
    """The text of a file."""
    with open(os.path.join(*path), encoding="utf-8") as file:
        return file.read()


def differing(pairs: list[tuple[str, str]]) -> list[str]:
    """What another program, which reads types, finds of pairs of scripts: the first name of each that means something else."""
    with tempfile.TemporaryDirectory() as place:
        rows = []
        for number, pair in enumerate(pairs):
            paths = [os.path.join(place, f"{number}{side}.js") for side in "ab"]
            for path, script in zip(paths, pair):
                with open(path, "w", encoding="utf-8") as file:
                    file.write(script)
            rows.append("\t".join(paths))
        ran = subprocess.run([NODE, os.path.join(HERE, "bindings.mjs")], input="\n".join(rows), capture_output=True, text=True, check=True)
    return ran.stdout.splitlines()


def editors() -> list[tuple[str, str]]:
    """The scripts of the editor, one after the other, and the page's script of them, if they are installed."""
    texts = [text_of(EDITOR, name).strip().removesuffix(";") for name in EDITOR_SCRIPTS if os.path.isdir(EDITOR)]
    return [(";\n".join(texts), editor_script())] if texts else []


def wrong_scripts() -> list[str]:
    """What is wrong with the scripts of the page and of the editor: each name has to mean what it meant."""
    if why := lacking([NODE, TYPES]):
        skip("what names mean in scripts that are made short", why)
        return []
    pairs = [*((script, small(script)) for script in scripts().values()), *editors()]
    found = differing([*pairs, *NAMES.values(), SLIP])
    return [*filter(None, found[:-1]), *([] if found[-1] else ["a slip isn't seen"])]


def wrong_notices() -> list[str]:
    """What is wrong if the editor's script doesn't begin with the notice of its licence, or has it twice."""
    begins = "// CodeMirror, copyright (c) by Marijn Haverbeke and others\n// Distributed under an MIT license: https://codemirror.net"
    return [script[:200] for _, script in editors() if not script.startswith(begins) or script.count("Marijn Haverbeke") != 1]


def wrong_names() -> list[str]:
    """What is wrong with names, and with what is put together of scripts that get them."""
    cases = [f"{name}: {renamed(before)!r}, not {after!r}" for name, (before, after) in NAMES.items() if renamed(before) != after]
    return cases + [f"{script!r} gets names" for script in UNKNOWN if not refuses(script, renamed)] + wrong_scripts() + wrong_notices()


def wrong() -> list[str]:
    """What is wrong with scripts that are made short."""
    differing = [f"{name}: {short(before)!r}, not {after!r}" for name, (before, after) in CASES.items() if short(before) != after]
    differing += [f"{name}: {short_style(before)!r}, not {after!r}" for name, (before, after) in STYLES.items() if short_style(before) != after]
    return differing + [f"{name} is made short" for name, script in UNCLEAR.items() if not refuses(script)]


# What the scripts of a folder leave, as the page's start looks at it, and the hashes of that.
HASHES = """const {readFileSync} = require("node:fs"), {createHash} = require("node:crypto");
const text = name => readFileSync(`${process.argv[1]}/${name}.js`, "utf8"), hash = it => createHash("sha256").update(it).digest("hex");
["data", "page"].forEach(name => (0, eval)(text(name)));
console.log([JSON.stringify(CROBOTS), String(CROBOTS_PAGE)].map(hash).filter(it => text("start").includes(it)).length);"""


def wrong_hashes(folder: str) -> list[str]:
    """What is wrong if the script that starts the page has other hashes than those of its data and its function."""
    ran = subprocess.run([NODE, "-e", HASHES, folder], capture_output=True, text=True, check=False)
    return [] if ran.stdout == "2\n" else [f"{ran.stdout}{ran.stderr[-300:]}"]


# The first values of some classes, and how many bits they have, as RFC 1951 has them in 3.2.5: of lengths and of distances.
OF_LENGTHS = {0: (3, 0), 7: (10, 0), 8: (11, 1), 12: (19, 2), 22: (99, 4), 24: (131, 5), 27: (227, 5), 28: (258, 0)}
OF_DISTANCES = {0: (1, 0), 3: (4, 0), 4: (5, 1), 15: (193, 6), 16: (257, 7), 17: (385, 7), 28: (16385, 13), 29: (24577, 13)}
SEEDS = range(15)


def drawn(seed: int) -> bytes:
    """Bytes of all kinds, one after another: few letters, all letters, one again and again, copies from near and far."""
    draw = random.Random(seed)
    made = bytearray()
    for _ in range(draw.randrange(1, 9)):
        letters, size = draw.choice((1, 2, 5, 60, 256)), draw.choice((1, 3, 40, 700))
        made += bytes(draw.randrange(letters) for _ in range(size))
        begin = draw.randrange(len(made))
        made += made[begin:begin + draw.choice((2, 3, 257, 258, 259, 2000))]
    return bytes(made)


def texts() -> Iterator[bytes]:
    """What is deflated in tests: drawn bytes; nothing, and little; a copy from just as far as may be, and from further; and letters of
    which each comes as often as the two before it together, whose best codes would be longer than codes may be."""
    yield from (*map(drawn, SEEDS), b"", b"a", b"ab", b"a" * 600)
    for far in (32768, 32769):
        yield b"a word" + bytes(random.Random(far).choices(b"bcd", k=far - 6)) + b"a word"
    counts = [1, 1]
    while len(counts) < 19:
        counts.append(counts[-1] + counts[-2])
    yield bytes(random.Random(1).sample([letter for letter, count in enumerate(counts) for _ in range(count)], sum(counts)))


def wrong_deflating() -> list[str]:
    """What is wrong with what is deflated: another program has to read it; of the page's style and a script it is less than zlib makes."""
    wrong = [f"class {at}" for at, it in OF_LENGTHS.items() if LENGTHS[at] != it] + [f"distance class {at}" for at, it in OF_DISTANCES.items() if DISTANCES[at] != it]
    wrong += [f"distance {first}" for at, (first, _) in enumerate(DISTANCES) if (distance_class(first), at and distance_class(first - 1)) != (at, max(at - 1, 0))]
    wrong += [f"{text[:20]!r} of {len(text)} bytes" for text in texts() if zlib.decompress(deflated(text), -15) != text]
    for name in ("page.css", "page.js"):
        text = text_of(HERE, "..", "..", "web", name).encode()
        own, least = len(deflated(text)), len(zlib.compress(text, 9, wbits=-15))
        wrong += [] if own < 0.985 * least else [f"{name}: {own}, and zlib {least}"]
    return wrong


# Unpacks each line that is read, by the page's own script, and says its hash.
UNPACKS = """import {createHash} from "node:crypto";
import {readFileSync} from "node:fs";
const {unpackedBytes} = await import("data:text/javascript," + encodeURIComponent(readFileSync(process.argv[1], "utf8")));
for (const line of readFileSync(0, "utf8").split("\\n")) {
    console.log(createHash("sha256").update(unpackedBytes(Buffer.from(line, "base64"))).digest("hex"));
}"""


def from_afar(seed: int) -> bytes:
    """Bytes with copies from near and from up to a million bytes before, again and again from as far as the last ones."""
    draw = random.Random(seed)
    made = bytearray(draw.randbytes(1 << draw.choice((9, 14, 20))))
    ways = [1]
    for _ in range(200):
        far = draw.choice(ways[-4:]) if draw.random() < 0.5 else min(len(made), 1 << draw.randrange(20)) - draw.randrange(3)
        ways.append(max(far, 1))
        for _ in range(draw.choice((1, 2, 9, 17, 18, 273, 300))):
            made.append(made[-ways[-1]])
        made += draw.randbytes(draw.randrange(3))
    return bytes(made)


def wrong_packing(folder: str) -> list[str]:
    """What is wrong with what is packed: the page's script has to unpack it; the data have the module."""
    data = text_of(folder, "data.js")
    begin = data.index('"module":"') + 10
    module = data[begin:data.index('"', begin)]
    cases = [*texts(), *map(from_afar, range(12))]
    script = os.path.join(HERE, "..", "..", "web", "unpacking.js")
    lines = "\n".join([module, *map(packed, cases)])
    ran = subprocess.run([NODE, "--input-type=module", "-e", UNPACKS, script], input=lines, capture_output=True, text=True, check=False)
    wanted = [hashlib.sha256(it).hexdigest() for it in (Path(f"{folder}.wasm").read_bytes(), *cases)]
    found = ran.stdout.split()
    return [ran.stderr[-300:]] if len(found) != len(wanted) else [f"case {at}" for at, it in enumerate(wanted) if found[at] != it]


FILES = {"index.html": b"<!DOCTYPE html>\n" * 40, "pages/a.html": b"", "start.js": bytes(range(256))}
RIGHTS = 0o100644


def wrong_zip() -> list[str]:
    """What is wrong with a zip: another program has to read from it what was put in, with names and times that no machine changes."""
    with tempfile.TemporaryFile() as file:
        file.write(zipped(FILES))
        with zipfile.ZipFile(file) as pack:
            read = {name: pack.read(name) for name in pack.namelist()}
            heads = {(it.date_time, it.compress_type, it.external_attr >> 16, it.create_system) for it in pack.infolist()}
            sizes = [(it.compress_size, it.file_size) for it in pack.infolist()]
    wanted = {((1980, 1, 1, 0, 0, 0), zipfile.ZIP_DEFLATED, RIGHTS, 3)}
    wrong = [] if list(read.items()) == list(FILES.items()) and heads == wanted else [f"{list(read)} {heads}"]
    return wrong + ([] if sizes == [(len(deflated(it)), len(it)) for it in FILES.values()] else [f"{sizes}"])


# Modules, of which the last one takes what the others export, as two scripts leave them; worked out by hand.
MODULES = {
    "one.js": "export const a = 1, unseen = 2;\nexport function b() {\n    return a;\n}\n",
    "two.js": 'import {b, a} from "./one.js";\nexport class C {}\nC.sum = a + b();\n',
    "last.js": 'import {C} from "./two.js";\nimport {b} from "./one.js";\nexport async function start() {\n    return [C, b];\n}\n',
}
TOGETHER = """const modules = {};
modules.one = (() => {
const a = 1, unseen = 2;
function b() {
return a;
}
return [a, b];
})();
modules.two = (() => {
const {1: b, 0: a} = modules.one;
class C {}
C.sum = a + b();
return [C];
})();
modules.last = (() => {
const {0: C} = modules.two;
const {1: b} = modules.one;
async function start() {
return [C, b];
}
return {start};
})();
"""


def wrong_modules() -> list[str]:
    """What is wrong with modules that are put together: one takes from a list what another one exports, the last one's have names."""
    with tempfile.TemporaryDirectory() as place:
        for name, text in MODULES.items():
            with open(os.path.join(place, name), "w", encoding="ascii") as file:
                file.write(text)
        path = os.path.join(place, "last.js")
        made, waiting = script_of(path), waiting_script(path)
        with open(os.path.join(place, "two.js"), "w", encoding="ascii") as file:
            file.write(MODULES["two.js"].replace("b, a", "b, c"))
        wrong = [] if refused_to_take(path) else ["what no module exports is taken"]
    wrong += [] if made == f'"use strict";\n(() => {{\n{TOGETHER}}})();\n' else [made]
    return wrong + ([] if waiting == f'() => {{\n"use strict";\n{TOGETHER}return modules.last;\n}}' else [waiting])


def refused_to_take(path: str) -> bool:
    """Whether a script isn't made, since a module takes what none exports."""
    try:
        script_of(path)
    except ValueError:
        return True
    return False
