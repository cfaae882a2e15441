"""Behind a proxy that does TLS, below a path: by the very configurations of the page."""

from __future__ import annotations

import contextlib
import http.client
import os
import re
import socket
import ssl
import subprocess
import time
from contextlib import closing
from dataclasses import dataclass
from typing import Iterator

from harness import skip
from packages import lacking

from .base import HERE, IDLE, LEAGUE, SECONDS, Answer, Base, Ladder, other

PAGE = os.path.join(HERE, "..", "..", "docs", "ladder.md")
HOST = "localhost"
# What a proxy of a test has around the part of the page: files in a folder of its own, and a certificate that nobody signed.
NGINX = """daemon off; pid {folder}/nginx.pid; error_log {folder}/nginx.log; worker_processes 1; user root;
events {{}}
http {{
client_body_temp_path {folder}/body; proxy_temp_path {folder}/proxy; fastcgi_temp_path {folder}/fastcgi; uwsgi_temp_path {folder}/uwsgi;
scgi_temp_path {folder}/scgi; access_log off; ssl_certificate {folder}/certificate.pem; ssl_certificate_key {folder}/key.pem;
{part}
}}
"""
CADDY = "{{\nadmin off\nauto_https disable_redirects\nlocal_certs\nskip_install_trust\nstorage file_system {folder}/caddy\n}}\n{part}"
# Heads that say twice, or in a way that not all understand alike, where a body ends.
FRAMINGS = (b"Content-Length: %(size)d\r\nTransfer-Encoding: chunked", b"Transfer-Encoding: chunked\r\nContent-Length: 4",
            b"Content-Length: 4\r\nTransfer-Encoding: xchunked", b"Content-Length: %(size)d\r\nTransfer-Encoding : chunked",
            b"Content-Length: %(size)d\r\nTransfer-Encoding:\tchunked", b"Content-Length: %(size)d\r\nTransfer-Encoding: chunked, identity",
            b"Content-Length: %(size)d\r\nX: y\r\n Transfer-Encoding: chunked", b"Content-Length: %(size)d\nTransfer-Encoding: chunked",
            b"Content-Length: %(size)d\r\nTransfer-Encoding: \x0bchunked", b"Content-Length: 0\r\nContent-Length: %(size)d",
            b"Content-Length: %(size)d\r\nContent-Length: 0", b"Content-Length: 0, %(size)d", b"Content-Length: +%(size)d",
            b"Content-Length: 0x%(size)x", b"Content-Length: %(size)d\r\nTransfer_Encoding: chunked", b"Transfer-Encoding: chunked\r\nTransfer-Encoding: identity",
            b"Content-Length: %(size)d\r\nConnection: Content-Length", b"Content-Length: %(size)d\r\nUpgrade: h2c\r\nConnection: Upgrade, HTTP2-Settings")
CERTIFICATE = ("openssl", "req", "-x509", "-newkey", "ec", "-pkeyopt", "ec_paramgen_curve:prime256v1", "-nodes", "-days", "2", "-subj", f"/CN={HOST}")


@dataclass
class Proxied:
    """A ladder as it is seen through its proxy, whose certificate nobody looks at."""

    ladder: Ladder
    port: int

    @property
    def origin(self) -> str:
        return f"https://{HOST}:{self.port}"

    def context(self) -> ssl.SSLContext:
        """Takes any certificate."""
        it = ssl.create_default_context()
        it.check_hostname, it.verify_mode = False, ssl.CERT_NONE
        return it

    def ask(self, method: str, path: str, body: bytes | str | None = None, source: str = "127.0.0.1", **heads: str) -> Answer:
        """Asks through the proxy, from an address of this machine."""
        line = http.client.HTTPSConnection(HOST, self.port, timeout=SECONDS, context=self.context(), source_address=(source, 0))
        line.request(method, path, body, {name.replace("_", "-"): value for name, value in heads.items()})
        with closing(line):
            it = line.getresponse()
            return Answer(it.status, it.read().decode(), {name.lower(): value for name, value in it.getheaders()})


class Proxies(Base):
    """Tests behind proxies."""

    def behind_nginx(self) -> Iterator[str]:
        if why := lacking(["nginx", "openssl"]):
            skip("the ladder behind nginx", why)
            return
        part = self._part("nginx").replace("listen 443", "listen 127.0.0.1:{port}").replace("ssl_certificate host.pem;", "").replace("ssl_certificate_key host.key;", "")
        folder = self._proxy_folder("nginx")
        subprocess.run([*CERTIFICATE, "-keyout", f"{folder}/key.pem", "-out", f"{folder}/certificate.pem"], check=True, capture_output=True)
        yield from self._tried("nginx", folder, NGINX, part, ["nginx", "-p", folder, "-c", f"{folder}/configuration"])

    def behind_caddy(self) -> Iterator[str]:
        if why := lacking(["caddy"]):
            skip("the ladder behind Caddy", why)
            return
        part = self._part("caddy").replace("host {{", f"{HOST}:{{port}} {{{{")
        folder = self._proxy_folder("caddy")
        yield from self._tried("caddy", folder, CADDY, part, ["caddy", "run", "--adapter", "caddyfile", "--config", f"{folder}/configuration"])

    def nginx_limits_how_often_an_address_asks(self) -> Iterator[str]:
        if why := lacking(["nginx", "openssl"]):
            skip("the limit of nginx", why)
            return
        part = self._part("nginx")
        found = re.search(r"rate=(\d+)r/s", part), re.search(r"burst=(\d+)", part)
        if not (found[0] and found[1] and int(found[0][1]) >= 25 and int(found[1][1]) >= 50 and "limit_req zone=" in part):
            yield f"a class behind one address may not ask so often: {part}"

    def the_unit_is_one(self) -> Iterator[str]:
        """By systemd's own check, with the command where it is here."""
        if why := lacking(["systemd-analyze"]):
            skip("the unit of systemd", why)
            return
        unit = self._file("crobots-ladder.service", self._part("systemd").replace("/usr/bin/crobots-league", os.path.abspath(LEAGUE)))
        ran = subprocess.run(["systemd-analyze", "verify", unit], capture_output=True, text=True, timeout=SECONDS, check=False)
        if ran.returncode or "crobots-ladder" in ran.stdout + ran.stderr:
            yield f"{ran.returncode}: {ran.stdout}{ran.stderr}"

    def _part(self, name: str) -> str:
        """A configuration of the page, as a pattern for `format` with no place in it yet."""
        with open(PAGE, encoding="utf-8") as file:
            found = re.search(f"```{name}\n(.*?)```", file.read(), re.DOTALL)
        assert found, f"the page has no part for {name}"
        return found[1].replace("{", "{{").replace("}", "}}") if name != "systemd" else found[1]

    def _proxy_folder(self, name: str) -> str:
        folder = self._at(f"of-{name}")
        os.makedirs(folder)
        return folder

    def _tried(self, name: str, folder: str, frame: str, part: str, words: list[str]) -> Iterator[str]:
        """Begins a proxy before a ladder, and asks through it."""
        port = free()
        ladder = self._made(name)
        ladder.begin(f"https://{HOST}:{port}", "/robots")
        part = part.replace("127.0.0.1:8080", f"127.0.0.1:{ladder.port}").format(port=port)
        with open(f"{folder}/configuration", "w", encoding="utf-8") as file:
            file.write(frame.format(folder=folder, part=part))
        with open(f"{folder}/said", "w", encoding="utf-8") as said, subprocess.Popen(words, stdout=said, stderr=said) as proxy:
            try:
                it = Proxied(ladder, port)
                waited(it)
                yield from through(it)
            finally:
                proxy.terminate()
                proxy.wait(SECONDS)


def free() -> int:
    """A port at which nobody listens."""
    with socket.create_server(("127.0.0.1", 0)) as it:
        return int(it.getsockname()[1])


def waited(it: Proxied) -> None:
    """Waits until the proxy answers."""
    end = time.monotonic() + SECONDS
    while time.monotonic() < end:
        try:
            if it.ask("GET", "/robots/tag").status == 200:
                return
        except OSError:
            time.sleep(0.1)
    raise AssertionError("the proxy doesn't answer")


def through(it: Proxied) -> Iterator[str]:
    """What is wrong on the way of an author through the proxy, and with what it says of addresses."""
    token = it.ladder.author("Ann")
    form = {"Content_Type": "application/x-www-form-urlencoded", "Origin": it.origin}
    joined = it.ask("POST", "/robots/join", f"token={token}", **form)
    heads = joined.heads.get("set-cookie", "")
    if not ("Secure" in heads and "Path=/robots/" in heads and joined.heads.get("location", "").endswith("/robots/mine")):
        yield f"joining: {joined.status} {joined.heads}"
    for origin, status in ((it.origin, 200), (it.ladder.here, 403), (f"https://{HOST}", 403)):
        answer = it.ask("POST", "/robots/send?robot=mine", IDLE, Cookie=joined.cookie, Origin=origin)
        if answer.status != status:
            yield f"a hand-in from {origin}: {answer.status}"
    text = it.ask("GET", "/robots/mine", Cookie=joined.cookie).text
    if strange := [link for link in re.findall('(?:href|src|action)="(/[^"]*)"', text) if not link.startswith("/robots/")]:
        yield f"links lead elsewhere: {strange}"
    if f"{it.origin}/robots/robots/" not in text:
        yield f"the page doesn't say its address: {text}"
    yield from of_addresses(it, token)
    yield from of_hidden_requests(it, token)


def of_hidden_requests(it: Proxied, token: str) -> Iterator[str]:
    """A request that the proxy takes for a part of another one reaches nothing. Here only one that no proxy understood has such a path."""
    hidden = f"PUT /robots/hidden HTTP/1.1\r\nHost: a\r\nAuthorization: Bearer {token}\r\nContent-Length: {len(IDLE)}\r\n\r\n{IDLE}".encode()
    for framing in FRAMINGS:
        for body in (b"0\r\n\r\n" + hidden, b"%x\r\n%b\r\n0\r\n\r\n" % (len(hidden), hidden), hidden):
            said(it, b"POST /robots/join HTTP/1.1\r\nHost: %b\r\n%b\r\n\r\n%b" % (HOST.encode(), framing % {b"size": len(body)}, body))
    if it.ladder.rows("SELECT 1 FROM robot WHERE id = 'hidden'"):
        yield "a hidden request was taken"
    with socket.create_connection(("127.0.0.1", it.ladder.port), timeout=SECONDS) as line:
        line.sendall(hidden)
        line.recv(1000)
    if not it.ladder.rows("SELECT 1 FROM robot WHERE id = 'hidden'"):
        yield "it isn't taken by the ladder itself, so nothing is seen by it"


def said(it: Proxied, asked: bytes) -> bytes:
    """The beginning of what a proxy answers to these bytes; nothing if it closes."""
    with socket.create_connection((HOST, it.port), timeout=SECONDS) as line, it.context().wrap_socket(line, server_hostname=HOST) as tls:
        with contextlib.suppress(OSError):
            tls.sendall(asked + b"GET /robots/tag HTTP/1.1\r\nHost: a\r\nConnection: close\r\n\r\n")
            return tls.recv(1000)
    return b""


def of_addresses(it: Proxied, token: str) -> Iterator[str]:
    """Who guesses has to wait, and nobody else: the proxy says from where a request comes, and who asks can't."""
    found = [it.ask("PUT", "/robots/robots/x", IDLE, "127.0.0.2", Authorization="Bearer x", X_Forwarded_For=f"10.0.0.{at}").status for at in range(21)]
    if found != [401] * 20 + [429]:
        yield f"guesses: {found}"
    if (status := it.ask("PUT", "/robots/robots/x", other(1), Authorization=f"Bearer {token}").status) != 200:
        yield f"another address has to wait, too: {status}"
    audit = it.ladder.rows("SELECT count(DISTINCT address) FROM ladder_audit WHERE what IN ('join', 'hand in')")
    if audit != [(1,)]:
        yield f"addresses in the audit: {audit}"
