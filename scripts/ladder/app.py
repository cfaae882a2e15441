"""The addresses of the ladder, and what each answers."""

import json
import logging
import os
import sqlite3
from typing import Callable

from flask import Flask, Response, abort, redirect, request
from leagues import naming
from leagues.entries import source
from leagues.store import Store
from replays.modules import text_of
from tools.faults import Fault
from werkzeug.exceptions import HTTPException

from . import accounts, films, handing, organisers, pages, reasons, trials, walls, workbench
from .accounts import SESSION_SECONDS, Who
from .frames import SCRIPT, STYLES, Site
from .handing import FAULTY, FULL, MANY, TAKEN, Answer
from .live import read
from .requests import (COOKIE, FILM_POLICY, SOURCE_POLICY, address, answered, attempts, configured, html, is_from_here, organiser, origin, site, store,
                       wants_page, who, writer)
from .terms import terms

HERE = os.path.dirname(os.path.abspath(__file__))
# A form has its other fields beside the source, and a source may have letters that a form codes with three.
FORM_MAX = 1 << 18
FORM_PARTS = 20
TYPES = {"css": "text/css", "js": "text/javascript", "html": "text/html"}


def made(site: Site) -> Flask:
    """The application of a site."""
    app = Flask(__name__, static_folder=None, template_folder=None)
    app.config["MAX_CONTENT_LENGTH"] = FORM_MAX
    logging.getLogger("waitress").setLevel(logging.ERROR)
    configured(app, site)
    app.request_class.max_form_parts = FORM_PARTS
    app.register_error_handler(HTTPException, failed)
    app.register_error_handler(sqlite3.OperationalError, unwritten)
    for rule, does, methods in ROUTES:
        app.add_url_rule(rule, f"{rule} {methods}", does, methods=[methods])
    return app


def failed(why: HTTPException) -> Response:
    """An answer of Flask's own, as a line."""
    if why.response is not None:
        assert isinstance(why.response, Response)
        return why.response
    return Response(f"{why.code}: {why.name}\n", why.code, mimetype="text/plain")


def unwritten(_: sqlite3.OperationalError) -> Response:
    """What is answered if the database can't be written: nothing of the request was done."""
    return Response(f"{FULL}: the league's disk is full, or can't be written now: ask the organiser\n", FULL, mimetype="text/plain")


def tag() -> Response:
    """What changes if the table does: readers poll it."""
    return Response(read(site().folder).tag, mimetype="text/plain")


def shared(name: str) -> Response:
    """A style or the script."""
    folder = os.path.join(HERE, "..", "sites") if name == STYLES[0] else HERE
    answer = of_type(name, text_of(os.path.join(folder, name)))
    answer.headers["Cache-Control"] = "max-age=300"
    return answer


def of_type(name: str, text: str) -> Response:
    """A file's text, of the type that its name says."""
    return Response(text, mimetype=TYPES.get(name.rpartition(".")[2], "text/plain"))


def workbench_file(name: str) -> Response:
    """A file of the page that plays. Its first page has the script of Send, and may reach that alone."""
    text = workbench.file(site().workbench, name)
    if text is None:
        abort(404)
    is_first = name == workbench.INDEX
    answer = of_type(name, workbench.added(text, trials.opponents(store())) if is_first else text)
    answer.headers["Content-Security-Policy"] = workbench.policy(text, f"{origin()}{site().to('send')}" if is_first else "")
    answer.headers["Cache-Control"] = "no-cache"
    answer.add_etag()
    answer.make_conditional(request)
    return answer


def send() -> Response:
    """A robot of the workbench, as the bytes of its source: what became of it, as data. Against a robot it is a trial."""
    by, source_ = writer(), request.get_data(cache=False)
    name, against = request.args.get("robot", ""), request.args.get("against", "")
    if against:
        answer = trials.tried(store(), by, name, source_, against, site().programs, address())
    else:
        answer = handing.hand_in(store(), by, name, source_, site().programs, address())
    return Response(json.dumps({"taken": answer.is_taken, "words": answer.words}), answer.status, mimetype="application/json")


def robot_id(name: str) -> str:
    """A robot of the league, or 404."""
    return name if name in naming.taken(store()) else abort(404)


def robot(name: str) -> Response:
    by = who()
    robot = robot_id(name)
    why = [*reasons.shown(site(), store(), robot)] if handing.is_theirs(store(), by, robot) else []
    return html(pages.robot(site(), store(), by, robot, why))


def version(name: str, number: int) -> Response:
    """A version's source, to be saved and never shown as a page."""
    robot, by = robot_id(name), who()
    found = handing.versions(store(), robot)
    if not pages.is_shown(store(), by, robot) or not 1 <= number <= len(found):
        abort(404)
    answer = Response(source(store(), found[number - 1].sha256), mimetype="text/plain")
    answer.headers["Content-Disposition"] = f'attachment; filename="{robot}.r"'
    answer.headers["Content-Security-Policy"] = SOURCE_POLICY
    return answer


def can_sign_up(store: Store) -> bool:
    """Whether one author more may sign up."""
    return len(accounts.authors(store)) < terms(store).sign_up


def refuse_foreign() -> None:
    """Refuses what another site's page sends."""
    if not is_from_here():
        abort(Response("403: this was not sent by a page of this league\n", 403, mimetype="text/plain"))
    if attempts().are_many(address()):
        abort(Response("429: too many wrong tokens came from your address: wait a minute\n", 429, mimetype="text/plain"))


def join() -> Response:
    """Sets the cookie of somebody who has a link."""
    refuse_foreign()
    session = accounts.join(store(), request.form.get("token", "").strip(), address())
    if not session:
        attempts().count(address())
        return answered(Answer(401, "this link isn't one of this league, or was withdrawn: ask the organiser for a new one"), None)
    answer = away("mine")
    answer.set_cookie(COOKIE, session, max_age=int(SESSION_SECONDS), path=site().to(""), httponly=True, samesite="Strict", secure=is_secure())
    return answer


def is_secure() -> bool:
    """Whether readers come by TLS."""
    return site().outside.startswith("https:") or request.is_secure


def away(to: str) -> Response:
    """Leads to another page."""
    answer = redirect(site().to(to), 303)
    assert isinstance(answer, Response)
    return answer


def leave() -> Response:
    refuse_foreign()
    accounts.leave(store(), request.cookies.get(COOKIE, ""), address())
    answer = away("")
    answer.delete_cookie(COOKIE, path=site().to(""), httponly=True, samesite="Strict", secure=is_secure())
    return answer


def sign_up() -> Response:
    """Makes an author of somebody without an invitation, as long as the terms allow it."""
    refuse_foreign()
    if not can_sign_up(store()):
        return answered(Answer(MANY, "nobody more can sign up: ask the organiser for an invitation"), None)
    try:
        name = accounts.name_of(request.form.get("name", ""))
        if accounts.number_of(store(), name) is not None:
            return answered(Answer(FAULTY, "there is an author of that name already: choose another one"), None)
        invitation = accounts.invite(store(), name, "", "sign-up", address())
    except Fault as why:
        return answered(Answer(FAULTY, str(why)), None)
    return html(pages.signed_up(site(), invitation.name, invitation.token, origin()))


def mine() -> Response:
    by = who()
    return html(pages.mine(site(), store(), by, origin())) if by else away("join")


def filled_in() -> tuple[str, bytes]:
    """The name and the source of a form: of a file, or what was written. A browser sends line ends that nobody typed."""
    file, name = request.files.get("file"), request.form.get("robot", "").strip()
    if file is not None and file.filename:
        return name or file.filename, file.read()
    return name, request.form.get("source", "").replace("\r\n", "\n").encode("utf-8", "replace")


def by_form() -> Response:
    """A robot of a form. What is refused comes back with the form, so nobody loses what was written."""
    by = writer()
    name, text = filled_in()
    answer = handing.hand_in(store(), by, name, text, site().programs, address())
    return answered(answer, by) if answer.is_taken else again(answer, by, name, text)


def again(answer: Answer, by: Who, name: str, text: bytes) -> Response:
    """An answer with the form as it was filled in."""
    if not wants_page():
        return answered(answer, by)
    form = pages.hand_in(site(), terms(store()), name, text.decode("utf-8", "replace"))
    return html(pages.told(site(), by, answer, form), answer.status)


def check() -> Response:
    """What the compiler says of a source, which isn't handed in."""
    by = writer()
    name, text = filled_in()
    return again(handing.checked(store(), by, name, text, site().programs), by, name, text)


def by_file(name: str) -> Response:
    """A robot that `curl -T` or `crobots-league send` sends."""
    text, by = request.get_data(cache=False), writer()
    return answered(handing.hand_in(store(), by, name, text, site().programs, address()), by)


def back(name: str) -> Response:
    by = writer()
    number = request.form.get("version", "")
    whole = int(number) if number.isascii() and number.isdigit() and len(number) < 9 else 0
    return answered(handing.back(store(), by, robot_id(name), whole, site().programs, address()), by)


def withdraw(name: str) -> Response:
    by = writer()
    return answered(handing.withdraw(store(), by, robot_id(name), address()), by)


def replay(seating: int, number: int) -> Response:
    """A film of a match. It shows no source."""
    made_ = films.page(store(), seating, number) if max(seating, number) < 1 << 62 else None
    if made_ is None:
        abort(404)
    answer = Response(films.shown(made_, site().to(""), "play" in request.args), mimetype="text/html")
    answer.headers["Content-Security-Policy"] = FILM_POLICY
    return answer


def invite() -> Response:
    """Makes an author, or gives one a new link, which is shown once."""
    by = organiser()
    try:
        invitation = accounts.invite(store(), request.form.get("name", ""), request.form.get("team", ""), by.name, address())
    except Fault as why:
        return answered(Answer(FAULTY, str(why)), by)
    return answered(Answer(TAKEN, f"The link of {invitation.name}, which is shown only now:\n\n{origin()}{site().to('join')}#{invitation.token}"), by)


def withdraw_link() -> Response:
    by = organiser()
    name = request.form.get("name", "")
    try:
        accounts.withdraw(store(), name, by.name, address())
    except Fault as why:
        return answered(Answer(FAULTY, str(why)), by)
    return answered(Answer(TAKEN, f"the link of {name} is withdrawn"), by)


def checklist_csv() -> Response:
    organiser()
    answer = Response(organisers.checklist_csv(store(), site().folder), mimetype="text/csv")
    answer.headers["Content-Disposition"] = 'attachment; filename="checklist.csv"'
    return answer


Does = Callable[..., Response]
GET, POST, PUT = "GET", "POST", "PUT"
ROUTES: tuple[tuple[str, Does, str], ...] = (
    ("/", lambda: html(pages.index(site(), store(), who())), GET), ("/tag", tag, GET),
    ("/table", lambda: html(pages.standing(site(), store(), read(site().folder))), GET), ("/wall", lambda: html(walls.wall(site(), store())), GET),
    (f"/{STYLES[0]}", lambda: shared(STYLES[0]), GET), (f"/{STYLES[1]}", lambda: shared(STYLES[1]), GET), (f"/{SCRIPT}", lambda: shared(SCRIPT), GET),
    ("/workbench/", lambda: workbench_file(workbench.INDEX), GET), ("/workbench/<path:name>", workbench_file, GET), (f"/{workbench.SCRIPT}", lambda: shared(workbench.SCRIPT), GET),
    ("/send", send, POST),
    ("/join", lambda: html(pages.join(site(), can_sign_up(store()))), GET), ("/join", join, POST), ("/leave", leave, POST), ("/sign-up", sign_up, POST),
    ("/mine", mine, GET), ("/robots", by_form, POST), ("/check", check, POST), ("/robots/<name>", robot, GET), ("/robots/<name>", by_file, PUT),
    ("/robots/<name>/versions/<int:number>", version, GET), ("/robots/<name>/back", back, POST), ("/robots/<name>/withdraw", withdraw, POST),
    ("/replays/<int:seating>/<int:number>", replay, GET),
    ("/organiser", lambda: html(organisers.organiser(site(), store(), organiser())), GET), ("/organiser/invite", invite, POST),
    ("/organiser/withdraw", withdraw_link, POST), ("/checklist", lambda: html(organisers.checklist(site(), store(), organiser())), GET),
    ("/checklist.csv", checklist_csv, GET),
)
