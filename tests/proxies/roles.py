"""Roles by a proxy, by roles.haproxy.cfg, roles.nginx.conf and tunnel.haproxy.cfg of
examples/operations: parts of proxies.py."""
import collections
import contextlib
import hashlib
import json
import os
import secrets
import socket
import ssl
import subprocess
import time

from parts import HAProxy, Nginx, filled
from world import (
    DONE, FOREIGN, NOT_BEGUN, PENDING, Caller, Wrong, expect, free_port, rollout, shows,
)

HOST = "canary.example.com"
NEW_KEY = ("-newkey", "ec", "-pkeyopt", "ec_paramgen_curve:P-256", "-nodes")
PEOPLE = {"ops": "engineers", "agent": "agents", "reader": "readers"}
TICK = '{"tick":{"service":"web"}}'
FULL = '{"promoteFull":{"service":"web"}}'
CHUNKED = ("-H", "Transfer-Encoding: chunked")
MEASURING = shows("web", "Progressing", 1, 20)
# Commands that no agent may send, however they are written.
FORBIDDEN = (
    FULL, '{"promote":{"service":"web"}}', '{"abort":{"service":"web"}}',
    '{"retry":{"service":"web"}}', '{"start":{"service":"web","version":"v9"}}',
    '{"service":{}}', '{"template":{}}', " " * 60000 + FULL, f"\n{FULL}\n{TICK}",
    '{"promoteFull":{"service":"web"},"tick":{"service":"web"}}', f"[{TICK}]", f"\ufeff{TICK}",
    '{"\\u0074ick":{"service":"web"}}', '{"tickle":{"service":"web"}}', '{"Tick":{}}', '{tick:{}}',
    f'"tick"{FULL}', f'{{}}{TICK}', f"\u00a0{TICK}", f"\x00{TICK}", "{", "")
# What passes, and what the desk makes of it.
Row = collections.namedtuple("Row", "who method path body status reply", defaults=(None,))


class Front:
    """A proxy before a desk, and how curl and the client reach it as somebody."""

    def __init__(self, folder, port, credentials):
        self.folder, self.port, self.credentials = folder, port, credentials

    def curl(self, who, method, path, *words, body=None, host=HOST):
        """The status and the body of the reply."""
        words = ["curl", "-s", "--max-time", "20", "--path-as-is", "--cacert",
                 self.folder / "ca.crt", "--resolve", f"{host}:{self.port}:127.0.0.1",
                 "-w", "\n%{http_code}", "-X", method,
                 *(self.credentials(who) if who else []), *words,
                 *([] if body is None else ["--data-binary", "@-"]),
                 f"https://{host}:{self.port}{path}"]
        done = subprocess.run(words, input=(body or "").encode(), capture_output=True, check=False)
        text, _, status = done.stdout.decode(errors="replace").rpartition("\n")
        return int(status), text

    def want(self, row, words=()):
        found = self.curl(row.who, row.method, row.path, *words, body=row.body)
        wanted = row.status, found[1] if row.reply is None else row.reply
        expect(f"{row._replace(body=(row.body or '')[:60])} {words}", found, wanted)


def openssl(folder, *words):
    done = subprocess.run(["openssl", *words], cwd=folder, stdin=subprocess.DEVNULL,
                          capture_output=True, check=False)
    if done.returncode:
        raise Wrong(f"openssl {words}: {done.stderr.decode()}")


def authority(folder, name):
    openssl(folder, "req", "-x509", *NEW_KEY, "-keyout", f"{name}.key", "-out", f"{name}.crt",
            "-subj", f"/CN={name}", "-days", "2")


def certificate(folder, name, subject, by="ca", **more):
    """A certificate and its key, as the comment in roles.nginx.conf has it."""
    openssl(folder, "req", *NEW_KEY, "-keyout", f"{name}.key", "-subj", subject, "-out",
            f"{name}.csr")
    (folder / "extensions").write_text(more.get("extensions", ""), encoding="utf-8")
    openssl(folder, "x509", "-req", "-in", f"{name}.csr", "-CA", f"{by}.crt", "-CAkey", f"{by}.key",
            "-CAcreateserial", "-days", "2", "-out", f"{name}.crt", "-extfile", "extensions")
    pem = b"".join((folder / f"{name}.{end}").read_bytes() for end in ("crt", "key"))
    (folder / f"{name}.pem").write_bytes(pem)


def make_certificates(folder):
    for name in ("ca", "other"):
        authority(folder, name)
    certificate(folder, "server", f"/CN={HOST}", extensions=f"subjectAltName=DNS:{HOST}")
    for name, role in PEOPLE.items():
        certificate(folder, name, f"/OU={role}/CN={name}")


def prepare(desk):
    """A service whose first step is measured."""
    setup = Caller(desk, "setup")
    setup.send({"template": {"metadata": {"name": "m"}, "spec": {"metrics": [
        {"name": "m", "successCondition": "result < 5"}]}}})
    setup.send({"service": {"version": "v1", "manifest": rollout(
        "web", {"setWeight": 20}, {"analysis": {"templates": [{"templateName": "m"}]}},
        {"setWeight": 50}, {"pause": {}})}})
    setup.send({"start": {"service": "web", "version": "v2"}})


def want_rows(front):
    """What all proxies let pass, and what none does."""
    own, foreign = "/callers/agent-web/requests/", "/callers/ops/requests/1"
    for row in (
            Row("reader", "PUT", "/callers/reader/requests/1", TICK, 403),
            Row("reader", "PUT", own + "1", TICK, 403),
            Row("agent", "PUT", foreign, TICK, 403),
            Row("agent", "PUT", foreign + "?/callers/agent-web/requests/1", TICK, 403),
            Row("ops", "PUT", own + "1", TICK, 403),
            *(Row("agent", "PUT", f"/callers/{name}/requests/1", TICK, 403)
              for name in ("agents", "agentweb", "a", "my-agent", "gent", "reader")),
            Row("agent", "PUT", "/callers/agent/requests/1", TICK, 200, MEASURING),
            *(Row("ops", "PUT", f"/callers/{name}/requests/1", TICK, 403)
              for name in ("ops-web", "op", "setup")),
            Row("agent", "PUT", own + "1", TICK, 200, MEASURING),
            Row("agent", "PUT", own + "2", ' \t\r\n{ \n"tick" : {"service":"web"}}', 200,
                MEASURING),
            # the proxy sees a tick, and the desk refuses what has two members
            Row("agent", "PUT", own + "3", TICK[:-1] + "," + FULL[1:], 400,
                '{"code":"unreadable"}'),
            Row("agent", "PUT", own + "3", '{"report":{"service":"web","run":2,"entries":[{'
                '"metric":"m","ordinal":1,"taken":0,"result":1}]}}', 422, '{"code":"unknown-run"}'),
            *(Row("agent", "PUT", own + "4", body, 403) for body in FORBIDDEN),
            Row("agent", "POST", own + "4", FULL, 403)):
        front.want(row)
    for who in PEOPLE:
        found = front.curl(who, "GET", "/services/web")
        expect(f"a query by {who}", found[0], 200)
        expect(f"a query by {who}", json.loads(found[1])["status"], "Progressing")
    forbidden = Row("agent", "PUT", own + "4", FULL, 403)
    for name in ("X-Canary-Rights", "X_Canary_Rights", "x-canary-rights"):
        front.want(forbidden, ("-H", f"{name}: engineers report"))
    front.want(forbidden, CHUNKED)


def want_slow(front, context, fields):
    """Bodies that come in two pieces, the second of which says what each is."""
    for number, body, status in ((4, FULL, b"403"), (4, TICK, b"200"), (5, FULL, b"403")):
        with socket.create_connection(("127.0.0.1", front.port), 20) as plain, \
                context.wrap_socket(plain, server_hostname=HOST) as stream:
            head = f"Host: {HOST}\r\n{fields}Content-Length: {len(body)}\r\n\r\n"
            stream.sendall(f"PUT /callers/agent-web/requests/{number} HTTP/1.1\r\n{head}"
                           f"{body[:1]}".encode())
            time.sleep(.3)
            stream.sendall(body[1:].encode())
            expect(f"{body}, slowly", stream.recv(65536).split(b" ", 2)[1], status)


@contextlib.contextmanager
def tunnel(front, who, **more):
    """The port of a tunnel for one caller, by tunnel.haproxy.cfg."""
    folder, port = front.folder / f"tunnel-{who}", free_port()
    folder.mkdir()
    text = filled("tunnel.haproxy.cfg", ("bind 127.0.0.1:8080", f"bind 127.0.0.1:{port}"),
                  (f"proxy {HOST}:8443", f"proxy 127.0.0.1:{front.port}"),
                  ("/etc/canary/proxy-ca.crt", front.folder / "ca.crt"),
                  ("/etc/canary/agent.pem", front.folder / f"{who}.pem"))
    proxy = HAProxy(folder, port, text)
    proxy.variables = {**os.environ, **more}
    with proxy:
        yield port


def want_client(desk, front, tokens, settled):
    """The client as an agent, and as an engineer, each through a tunnel of its own. The agent's
    caller has settled requests with these statuses before."""
    def variables(who):
        return {"CANARY_TOKEN": tokens[who]} if tokens else {}

    with tunnel(front, "agent", **variables("agent")) as port:
        options = {"port": port, "caller": "agent-web", "journal": "agent.journal"}
        found = desk.do("report", "web", "1", "m", "1", **options)
        expect(f"a report: {found.errors}", found.status, DONE)
        expect("its verdict", json.loads(found.output)["verdict"], "Successful")
        found = desk.do("promote-full", "web", **options)
        expect("a promotion by an agent", (found.status, FOREIGN in found.errors), (PENDING, True))
        found = desk.do("promote-full", "web", port=port)
        expect("as somebody else", (found.status, found.errors.splitlines()[-1]),
               (PENDING, f"canary: {NOT_BEGUN}"))
        for fields, status in ((["Host: desk"], b"200"), (["Host: 127.0.0.1"], b"403"),
                               (["Host: desk", "Origin: https://a.example"], b"403")):
            words = [word for field in fields for word in ("-H", field)]
            page = subprocess.run(
                ["curl", "-s", "-o", os.devnull, "-w", "%{http_code}", *words,
                 f"http://127.0.0.1:{port}/services/web"], stdout=subprocess.PIPE, check=False)
            expect(f"a page of a browser: {fields}", page.stdout, status)
    expect("nothing was promoted", desk.count("promote full"), {})
    with tunnel(front, "ops", **variables("ops")) as port:
        found = desk.do("promote-full", "web", port=port)
        expect("an engineer", (found.status, found.output),
               (DONE, shows("web", "Healthy", 4, 100) + "\n"))
    expect("promoted once", desk.count("promote full"), {"web": 1})
    expect("what agents settled", [status for _, status, _ in desk.kept("agent-web")],
           [*settled, 200])


def try_roles_haproxy(world):
    """Tokens by HAProxy."""
    with world.desk("roles-haproxy") as desk:
        prepare(desk)
        folder, port = desk.folder, free_port()
        make_certificates(folder)
        tokens = {name: secrets.token_hex(32) for name in PEOPLE}
        lines = [f"{hashlib.sha256(tokens[name].encode()).hexdigest().upper()} {role}:{name}\n"
                 for name, role in PEOPLE.items()]
        (folder / "tokens").write_text("".join(lines), encoding="utf-8")
        text = filled("roles.haproxy.cfg", ("bind :8443", f"bind 127.0.0.1:{port}"),
                      ("/etc/haproxy/canary.pem", folder / "server.pem"),
                      ("map_str(/etc/haproxy/canary.tokens)", f"map_str({folder}/tokens)"),
                      ("127.0.0.1:8080", f"127.0.0.1:{desk.port}"))
        front = Front(folder, port, lambda who: ["-H", f"Authorization: Bearer {tokens[who]}"])
        with HAProxy(folder, port, text):
            want_rows(front)
            for token in ("", "x", lines[0].split()[0], tokens["ops"].upper()):
                header = f"Authorization: Bearer {token}"
                found = front.curl(None, "GET", "/services/web", "-H", header)
                expect(f"the token {token}", found[0], 401)
            expect("no token", front.curl(None, "GET", "/services/web")[0], 401)
            expect("another path", front.curl("ops", "GET", "/desk.html")[0], 403)
            context = ssl.create_default_context(cafile=folder / "ca.crt")
            want_slow(front, context, f"Authorization: Bearer {tokens['agent']}\r\n")
            # HAProxy gives chunks to the desk as they are
            front.want(Row("agent", "PUT", "/callers/agent-web/requests/5", TICK, 411,
                           '{"code":"length"}'), CHUNKED)
            want_client(desk, front, tokens, [200, 200, 422, 200])


def try_roles_nginx(world):
    """Certificates by nginx."""
    with world.desk("roles-nginx") as desk:
        prepare(desk)
        folder, port = desk.folder, free_port()
        make_certificates(folder)
        certificate(folder, "foreign", "/OU=engineers/CN=ops", by="other")
        certificate(folder, "no-role", "/CN=ops")
        certificate(folder, "two-names", "/OU=agents/CN=ops,OU=engineers")
        certificate(folder, "wrong-role", "/OU=engineers2/CN=ops")
        text = filled("roles.nginx.conf", ("listen 8443", f"listen 127.0.0.1:{port}"),
                      ("/etc/nginx/canary-clients.crt", folder / "ca.crt"),
                      ("/etc/nginx/canary.crt", folder / "server.crt"),
                      ("/etc/nginx/canary.key", folder / "server.key"),
                      ("127.0.0.1:8079", f"127.0.0.1:{free_port()}"),
                      ("/run/canary-page", folder),
                      ("127.0.0.1:8080", f"127.0.0.1:{desk.port}"))
        front = Front(folder, port, lambda who: ["--cert", folder / f"{who}.crt", "--key",
                                                 folder / f"{who}.key"])
        with Nginx(folder, port, text):
            want_rows(front)
            want_strangers(front)
            context = ssl.create_default_context(cafile=folder / "ca.crt")
            context.load_cert_chain(folder / "agent.pem")
            want_slow(front, context, "")
            # nginx gives a body that came in chunks to the desk with its length
            front.want(Row("agent", "PUT", "/callers/agent-web/requests/5", TICK, 200, MEASURING),
                       CHUNKED)
            want_client(desk, front, None, [200, 200, 422, 200, 200])


def want_strangers(front):
    """Who has no certificate, or one that says no role; and pages that somebody else made."""
    for who, status in ((None, 400), ("foreign", 400), ("no-role", 403), ("two-names", 403),
                        ("wrong-role", 403)):
        expect(f"a query by {who}", front.curl(who, "GET", "/services/web")[0], status)
        found = front.curl(who, "PUT", "/callers/ops/requests/1", body=FULL)
        expect(f"a command by {who}", found[0], status)
    found = front.curl("ops", "PUT", "/callers/ops/requests/1", "-H", "Origin: https://example.com",
                       body=FULL)
    expect("a page", found[0], 403)
    found = front.curl("ops", "GET", "/services/web", "-k", host="example.com")
    expect("another name", found[0], 421)
    # a name that asks for no certificate in the handshake, and the right one after it
    found = front.curl(None, "GET", "/services/web", "-k", "-H", f"Host: {HOST}",
                       host="example.com")
    expect("no certificate by another name", found[0] in (400, 421), True)
    expect("another path", front.curl("ops", "GET", "/callers/ops")[0], 404)
    (front.folder / "desk.html").write_text("a page", encoding="utf-8")
    expect("the page", front.curl("reader", "GET", "/desk.html"), (200, "a page"))
    expect("the page without a role", front.curl("no-role", "GET", "/desk.html")[0], 403)
