"""Tests of the HTML that is made of pages in Markdown: each form of a line and of a block, worked out by hand."""

from __future__ import annotations

import os
import sys
from typing import Iterator

HERE = os.path.dirname(os.path.abspath(__file__))
sys.path.insert(0, os.path.join(HERE, "..", "..", "scripts"))

from webs.markdown import written  # noqa: E402

# Where links lead here; those to other places lead nowhere.
LEADS = {"a.md": "a.html", "a.md#b": "a.html#b", "q": 'x?a=1&b="2"'}
CASES = (
    ("a heading", "# One *big* `h1`, (two)\n", '<h1 id="one-big-h1-two">One <em>big</em> <code>h1</code>, (two)</h1>\n'),
    ("a heading below another", "### A_b c-d\n", '<h3 id="a_b-c-d">A_b c-d</h3>\n'),
    ("a paragraph of two lines", "one\ntwo\n\nthree", "<p>one two</p>\n<p>three</p>\n"),
    ("signs of HTML", 'a < b && c > "d"', '<p>a &lt; b &amp;&amp; c &gt; "d"</p>\n'),
    ("signs of HTML in code", "`a<b` and `x && y`", "<p><code>a&lt;b</code> and <code>x &amp;&amp; y</code></p>\n"),
    ("a mark of code within code", "`` a`b ``", "<p><code>a`b</code></p>\n"),
    ("marks in code are letters", "`*a*` `[b](a.md)`", "<p><code>*a*</code> <code>[b](a.md)</code></p>\n"),
    ("strong and stressed words", "**a *b* c** and *d e*", "<p><strong>a <em>b</em> c</strong> and <em>d e</em></p>\n"),
    ("stars with blanks around them", "2 * 3 * 4", "<p>2 * 3 * 4</p>\n"),
    ("escaped marks", r"\*a\* \_b\_ \`c\` \| d", "<p>*a* _b_ `c` | d</p>\n"),
    ("a link", "[t `c`](a.md) [u](a.md#b)", '<p><a href="a.html">t <code>c</code></a> <a href="a.html#b">u</a></p>\n'),
    ("a link that leads nowhere", "[t](gone.md).", "<p>t.</p>\n"),
    ("signs in an address", "[t](q)", '<p><a href="x?a=1&amp;b=&quot;2&quot;">t</a></p>\n'),
    ("a picture", "![A match](a.png)\n\nb ![c](d.svg) e", "<p>b  e</p>\n"),
    ("a table", "| a | b |\n|---|---|\n| 1 | **2** |\nc", "<table>\n<tr><th>a</th><th>b</th></tr>\n<tr><td>1</td><td><strong>2</strong></td></tr>\n</table>\n<p>c</p>\n"),
    ("bars in cells", "| a \\| b | `c \\|\\| d` |\n|---|---|\n| \\| | `\\|` |\n",
     "<table>\n<tr><th>a | b</th><th><code>c || d</code></th></tr>\n<tr><td>|</td><td><code>|</code></td></tr>\n</table>\n"),
    ("an empty cell", "| | b |\n|---|---|\n| 1 | |\n", "<table>\n<tr><th></th><th>b</th></tr>\n<tr><td>1</td><td></td></tr>\n</table>\n"),
    ("a list", "- a\n- *b*\n\nc", "<ul>\n<li>a</li>\n<li><em>b</em></li>\n</ul>\n<p>c</p>\n"),
    ("a list with numbers", "9. a\n10. b - c\n", "<ol>\n<li>a</li>\n<li>b - c</li>\n</ol>\n"),
    ("a list behind a line", "a:\n- b\n", "<p>a:</p>\n<ul>\n<li>b</li>\n</ul>\n"),
    ("code between fences", "```\n$ a < b\n\n  *c*\n```\nd", '<pre tabindex="0">$ a &lt; b\n\n  *c*</pre>\n<p>d</p>\n'),
    ("code between fences with a language", "```antt\n# a\n- b\n```", '<pre tabindex="0"># a\n- b</pre>\n'),
    ("code that is indented", "    a\n      `b`\n\nc", '<pre tabindex="0">a\n  `b`</pre>\n<p>c</p>\n'),
)


def lacking(_folder: str) -> str:
    """What is lacking for these tests: nothing."""
    return ""


def results(_crobots: str, _stages: str, _folder: str) -> Iterator[tuple[str, list[str]]]:
    """The tests' names, and what is wrong."""
    for name, text, wanted in CASES:
        found = written(text, lambda link: LEADS.get(link, ""))
        yield name, [] if found == wanted else [f"{found!r}, not {wanted!r}"]
