"""Requests: whose they are, whether they may change something, and how they are answered."""

import hmac
import threading

from flask import Flask, Response, abort, current_app, request
from leagues.store import Store, connected, path_of

from . import accounts
from .accounts import LINK, SESSION, Who
from .attempts import Attempts
from .frames import Site
from .handing import Answer
from .pages import told

COOKIE = "crobots"
BEARER = "Bearer "
SITE = "crobots_site"
POLICY = ("default-src 'none'; style-src 'self'; script-src 'self'; img-src 'self' data:; connect-src 'self'; form-action 'self'; "
          "frame-src 'self'; base-uri 'none'; frame-ancestors 'none'")
# A film has its script and its style inside: it gets a place of its own, which has no cookies and reaches nothing.
FILM_POLICY = ("sandbox allow-scripts; default-src 'none'; img-src data:; style-src 'unsafe-inline'; script-src 'unsafe-inline'; "
               "frame-ancestors 'self'")
SOURCE_POLICY = "sandbox; default-src 'none'"
ATTEMPTS = "crobots_attempts"
mine = threading.local()


def site() -> Site:
    """What all pages share."""
    found: Site = current_app.config[SITE]
    return found


def store() -> Store:
    """The league's database: a connection for each thread."""
    path = path_of(site().folder)
    if getattr(mine, "path", None) != path:
        mine.path, mine.store = path, Store(site().folder, connected(path))
    found: Store = mine.store
    return found


def attempts() -> Attempts:
    """The wrong tokens of late."""
    found: Attempts = current_app.config[ATTEMPTS]
    return found


def address() -> str:
    return request.remote_addr or ""


def bearer() -> str:
    """The token of the head of a request, if it has one."""
    said = request.headers.get("Authorization", "")
    return said.removeprefix(BEARER).strip() if said.startswith(BEARER) else ""


def who() -> Who | None:
    """Whose request it is: by the head's token, or by the cookie. Wrong tokens are counted, and after many of them none is looked at."""
    token, cookie = bearer(), request.cookies.get(COOKIE, "")
    if not token and not cookie:
        return None
    if attempts().are_many(address()):
        abort(429)
    found = accounts.who(store(), token, (LINK,)) if token else accounts.who(store(), cookie, (SESSION,))
    if found is None:
        attempts().count(address())
    return found


def origin() -> str:
    """The origin of this server's own pages."""
    return site().outside or f"{request.scheme}://{request.host}"


def is_from_here() -> bool:
    """Whether a request is of a page of this very server: its origin has to be the host that was asked, with scheme and port."""
    return hmac.compare_digest(request.headers.get("Origin", "").encode(), origin().encode())


def writer() -> Who:
    """Whose request it is that changes something. With a cookie it has to be of a page of this server. A program that gives a token in
    the head has no origin, or the right one."""
    if ("Origin" in request.headers or COOKIE in request.cookies and not bearer()) and not is_from_here():
        abort(Response("403: this was not sent by a page of this league\n", 403, mimetype="text/plain"))
    found = who()
    if found is None:
        abort(Response("401: your link or token isn't one of this league, or was withdrawn\n", 401, mimetype="text/plain"))
    return found


def organiser() -> Who:
    """The organiser, if it is the organiser's request."""
    found = writer() if request.method == "POST" else who()
    if found is None or not found.is_organiser:
        abort(404)
    return found


def wants_page() -> bool:
    """Whether a browser asks."""
    return "text/html" in request.headers.get("Accept", "")


def answered(answer: Answer, by: Who | None) -> Response:
    """An answer as a page for a browser, and as a line for a program."""
    if wants_page():
        return html(told(site(), by, answer), answer.status)
    return Response(f"{answer.words}\n", answer.status, mimetype="text/plain")


def html(text: str, status: int = 200) -> Response:
    return Response(text, status, mimetype="text/html")


def secured(response: Response) -> Response:
    """The heads that every answer has."""
    heads = response.headers
    heads.setdefault("Content-Security-Policy", POLICY)
    heads["X-Content-Type-Options"] = "nosniff"
    # no other site hears an address; a stricter policy would take the origin of forms, too
    heads["Referrer-Policy"] = "same-origin"
    heads["Cross-Origin-Resource-Policy"] = "same-origin"
    heads.setdefault("Cache-Control", "no-store")
    return response


def configured(app: Flask, site: Site) -> None:
    """Makes an application know its site."""
    app.config[SITE], app.config[ATTEMPTS] = site, Attempts()
    app.after_request(secured)
