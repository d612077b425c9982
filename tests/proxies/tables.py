"""The followers of examples/operations with a table of services, over real proxies: parts of
proxies.py. What they make of odd files, desks and routers stands in table_edges.py."""
import contextlib
import http.server
import json
import os
import pathlib
import re
import threading
import time

from followers import LONGEST, Load, Meanwhile
from parts import (
    HAProxy, Nginx, answers, children_of, filled, follower, lasts, version, want_shares)
from silence import variables
from world import Caller, Late, add, expect, free_port, rollout, wait_until

# The servers of the example's table, with their ports there.
SERVERS = {"web-1": 9101, "web-2": 9102, "web-3": 9103, "web-4": 9104, "shop-1": 9201,
           "shop-2": 9202}
SAMPLE = re.compile(r'(canary_router_\w+)\{(.*)\} (\S+)')


class Spoken:
    """A desk that says of each service what it is told to say: a value, or a function that answers
    the handler. It counts connections and queries."""

    def __init__(self):
        self.stands, self.connections, self.queries, spoken = {}, 0, 0, self

        class Handler(http.server.BaseHTTPRequestHandler):
            protocol_version = "HTTP/1.1"
            wbufsize = -1

            def setup(self):
                super().setup()
                spoken.connections += 1

            def do_GET(self):  # pylint: disable=invalid-name
                spoken.queries += 1
                name = self.path.removeprefix("/services/")
                told = spoken.stands.get(name, (404, {"code": "unknown-service"}))
                told(self) if callable(told) else self.tell(*told)

            def tell(self, status, value):
                body = value if isinstance(value, bytes) else json.dumps(value).encode()
                self.send_response(status)
                self.send_header("Content-Length", str(len(body)))
                self.end_headers()
                self.wfile.write(body)

            def log_message(self, *_):  # pylint: disable=arguments-differ
                """Nothing."""

        self.server = http.server.ThreadingHTTPServer(("127.0.0.1", free_port()), Handler)
        self.server.daemon_threads = True
        self.server.handle_error = lambda *_: None
        threading.Thread(target=self.server.serve_forever, args=(.05,), daemon=True).start()

    def say(self, service, stable, name, weight, **more):
        """From now on it says that the service stands so."""
        self.stands[service] = 200, {
            "code": "ok", "hold": "none", "moment": 1, "open": [], "runs": 0, "service": service,
            "stable": stable, "status": "Paused", "step": 1, "version": name, "weight": weight,
            **more}

    def variables(self):
        return {**os.environ, "CANARY_DESK": f"127.0.0.1:{self.server.server_port}"}


@contextlib.contextmanager
def spoken():
    desk = Spoken()
    try:
        yield desk
    finally:
        desk.server.shutdown()
        desk.server.server_close()


@contextlib.contextmanager
def servers(names=SERVERS):
    """A server for each name, which answers with it; the port of each."""
    with contextlib.ExitStack() as stack:
        yield {name: stack.enter_context(version(name)) for name in names}


def pairs_of(ports):
    return [(f"127.0.0.1:{SERVERS[name]}", f"127.0.0.1:{port}") for name, port in ports.items()]


@contextlib.contextmanager
def haproxy_of_table(folder, is_master=False, ports=None):
    """HAProxy by follow-table.haproxy.cfg, and its table in the folder."""
    with contextlib.ExitStack() as stack:
        ports, port = ports or stack.enter_context(servers()), free_port()
        (folder / "table").write_text(filled("follow.table", *pairs_of(ports)), encoding="utf-8")
        of_haproxy = [pair for name, pair in zip(ports, pairs_of(ports)) if name != "shop-2"]
        text = filled("follow-table.haproxy.cfg", ("/run/haproxy/admin.sock", folder / "socket"),
                      ("/var/lib/canary-follow", folder),
                      ("bind :8081", f"bind 127.0.0.1:{port}"), *of_haproxy)
        yield stack.enter_context(HAProxy(folder, port, text, is_master))


def words_for(folder):
    return ("follow-haproxy", "--table", folder / "table", "--state", folder / "haproxy.state",
            "--health", folder / "health", "--report", folder / "canary-router.prom",
            folder / "socket")


def report_in(folder):
    """The samples of the report, by the family and the labels."""
    text = (folder / "canary-router.prom").read_text(encoding="utf-8")
    found = [SAMPLE.fullmatch(line) for line in text.splitlines() if not line.startswith("#")]
    return {(each[1], *re.findall('="(.*?)"', each[2])): float(each[3]) for each in found}


def shares_told(folder, service):
    """The shares of a service by the report."""
    with contextlib.suppress(FileNotFoundError):
        return {key[2]: value for key, value in report_in(folder).items()
                if key[:2] == ("canary_router_weight_percent", service)}
    return None


def want_weights(row, proxy, seconds=LONGEST, **wanted):
    """HAProxy has these weights, `_` for `-`."""
    wanted = {name.replace("_", "-"): weight for name, weight in wanted.items()}

    def found():
        weights = proxy.weights()
        return {name: weights.get(name) for name in wanted}

    try:
        wait_until(row, lambda: found() == wanted, seconds)
    except Late as late:
        raise Late(f"{row}: {found()} in place of {wanted}") from late


def want_report(folder, service, **wanted):
    """The report has these shares of a service."""
    row = f"the report has {wanted} of {service}"
    wait_until(row, lambda: shares_told(folder, service) == wanted, LONGEST)


class Seen(Meanwhile):
    """Looks at HAProxy's weights all the while: the longest time for which they were others, and
    how often they were seen."""

    def __init__(self, proxy, wanted):
        super().__init__()
        self.proxy, self.wanted, self.longest, self.looks = proxy, wanted, 0, 0

    def go_on(self):
        since = None
        while not self.is_over:
            with contextlib.suppress(OSError):
                found = self.proxy.weights()
                is_wrong = any(found.get(name) != each for name, each in self.wanted.items())
                since = (since or time.monotonic()) if is_wrong else None
                self.looks += 1
            if since is not None:
                self.longest = max(self.longest, time.monotonic() - since)
            time.sleep(.02)


def try_table(world):
    """One follower gives HAProxy the weights of two services by one process and one connection to
    the desk: a version has several servers, one is added without a reload, and the report and the
    state have what HAProxy says; also after a restart of HAProxy and of the desk."""
    with world.desk("table") as desk, haproxy_of_table(desk.folder) as proxy:
        add(desk)
        ops = Caller(desk, "ops")
        ops.send({"service": {"version": "v7", "manifest": rollout("shop", {"setWeight": 25},
                                                                   {"pause": {}})}})
        with follower(desk.folder, variables(desk), *words_for(desk.folder)) as (started, said):
            want_weights("20%", proxy, web_1=40, web_2=40, web_3=10, web_4=10, shop_1=100, shop_2=0)
            expect("it has no process beside it", children_of(started), [])
            ops.send({"start": {"service": "shop", "version": "v8"}})
            want_weights("25%", proxy, shop_1=75, shop_2=25, web_3=10)
            expect("who answers", set(answers(proxy.port, 20)) - set(SERVERS), set())
            want_report(desk.folder, "shop", v7=75, v8=25)
            want_report(desk.folder, "web", v1=80, v2=20)
            proxy.restart()
            want_weights("HAProxy restarted", proxy, web_1=40, web_3=10, shop_1=75, shop_2=25)
            want_away(desk, proxy, ops)
            expect("each addition is said", said().count("shop/shop-2 is added"), 3)
            expect("it goes on", started.poll(), None)


def want_away(desk, proxy, ops):
    """While the desk is away the weights stay; then there are those that it says."""
    desk.kill()
    lasts("the desk is away", lambda: proxy.weights()["shop-2"] == 25)
    proxy.restart()
    want_weights("HAProxy restarted, and no desk", proxy, web_1=40, web_3=10, shop_1=75)
    desk.start()
    ops.send({"promote": {"service": "web"}})
    ops.send({"promote": {"service": "shop"}})
    want_weights("promoted", proxy, web_1=25, web_3=25, shop_1=0, shop_2=100)
    ops.send({"abort": {"service": "web"}})
    want_weights("aborted", proxy, web_1=50, web_2=50, web_3=0, web_4=0)


@contextlib.contextmanager
def nginx_of_table(folder):
    """nginx by follow-table.nginx.conf, with its table in the folder, and where it says what it has
    loaded. Its follower has to run before it."""
    port, told = free_port(), free_port()
    with servers() as ports:
        (folder / "table").write_text(filled("follow.table", *pairs_of(ports)), encoding="utf-8")
        text = filled("follow-table.nginx.conf",
                      ("/var/lib/canary-follow/nginx.conf;", f"{folder}/shares.conf;"),
                      ("listen 8081", f"listen 127.0.0.1:{port}"),
                      ("listen 127.0.0.1:8082", f"listen 127.0.0.1:{told}"))
        proxy = Nginx(folder, port, text)
        proxy.told = f"127.0.0.1:{told}"
        try:
            yield proxy
        finally:
            proxy.kill()


def words_of(proxy):
    folder = proxy.folder
    return ["follow-nginx", "--table", folder / "table", "--ask", proxy.told, "--health",
            folder / "health", "--report", folder / "canary-router.prom", folder / "shares.conf",
            *proxy.called()]


def try_table_reloads(world):
    """HAProxy is reloaded 20 times under 40 requests a second, of which none may go to a version
    that runs no longer: none is refused, and no weight is another one for more than a second."""
    folder = world.place("table-reloads")
    with spoken() as desk, servers([name for name in SERVERS if name != "web-1"]) as alive:
        desk.say("web", "v1", "v2", 100)
        desk.say("shop", "v7", "v8", 0)
        ports = {name: alive.get(name) or free_port() for name in SERVERS}
        ports["web-2"] = free_port()
        with haproxy_of_table(folder, True, ports) as proxy, follower(
                folder, desk.variables(), *words_for(folder)):
            without_checks(proxy)
            weights = {"web-1": 0, "web-2": 0, "web-3": 50, "web-4": 50, "shop-1": 100}
            wait_until("its weights", lambda: weights.items() <= proxy.weights().items(), LONGEST)
            wait_until("the state is kept", (folder / "haproxy.state").exists, LONGEST)
            with Load(proxy.port, 40) as load, Seen(proxy, weights) as seen:
                for _ in range(20):
                    proxy.reload()
                wait_until("40 requests", lambda: sum(load.found.values()) >= 40, LONGEST)
            expect("who answered", {*load.found} - {"web-3", "web-4"}, set())
            if seen.longest > 1:
                raise Late(f"other weights for {seen.longest:.2f} seconds")
            return (f"passed: {sum(load.found.values())} requests, other weights for at most"
                    f" {seen.longest:.2f} s of {seen.looks} looks")


def without_checks(proxy):
    """A dead server is known by its weight alone."""
    file = proxy.folder / "haproxy.cfg"
    file.write_text(file.read_text(encoding="utf-8").replace(" check", ""), encoding="utf-8")
    proxy.restart()


def try_table_added(world):
    """The servers of a new version are added by the runtime socket, and get all requests, without a
    reload and without an error; once the configuration has them, a reload loses neither."""
    folder = world.place("table-added")
    with spoken() as desk, servers([*SERVERS, "web-5", "web-6"]) as alive:
        desk.say("web", "v1", "v1", 100)
        desk.say("shop", "v7", "v7", 100)
        ports = {name: alive[name] for name in SERVERS}
        with haproxy_of_table(folder, True, ports) as proxy, follower(
                folder, desk.variables(), *words_for(folder)) as (_, said):
            without_checks(proxy)
            workers, table = proxy.workers(), (folder / "table").read_text(encoding="utf-8")
            new = " ".join(f"{name}=127.0.0.1:{alive[name]}" for name in ("web-5", "web-6"))
            (folder / "table.new").write_text(f"{table}web web v3 {new}\n", encoding="utf-8")
            with Load(proxy.port, 40) as load:
                (folder / "table.new").rename(folder / "table")
                want_weights("added", proxy, web_5=0, web_6=0, web_1=50)
                desk.say("web", "v1", "v3", 30)
                want_weights("30%", proxy, web_5=15, web_6=15, web_1=35, web_3=0)
                desk.say("web", "v1", "v3", 100)
                want_weights("100%", proxy, web_5=50, web_6=50, web_1=0)
                expect("no reload", proxy.workers(), workers)
                wait_until("the state is kept", lambda: " web-6 127.0.0.1 2 0 50 " in (
                    folder / "haproxy.state").read_text(encoding="utf-8"), LONGEST)
                configure(proxy, {name: alive[name] for name in ("web-5", "web-6")})
                proxy.reload()
                want_weights("reloaded", proxy, web_5=50, web_6=50, web_1=0)
            expect("errors", [name for name in load.found if name not in alive], [])
            expect("each is added once", [said().count(f"web/{name} is added")
                                          for name in ("web-5", "web-6")], [1, 1])


def configure(proxy, ports):
    """Writes servers into the backend `web`."""
    file = proxy.folder / "haproxy.cfg"
    lines = "".join(f"    server {name} 127.0.0.1:{port} weight 0\n"
                    for name, port in ports.items())
    text = file.read_text(encoding="utf-8")
    file.write_text(text.replace("\nbackend shop\n", f"{lines}\nbackend shop\n"), encoding="utf-8")


def try_table_uneven(world):
    """Versions with different numbers of servers have their shares all the same: the servers of one
    have as much as each other, up to HAProxy's greatest weight of 256."""
    folder = world.place("table-uneven")
    with spoken() as desk, haproxy_of_table(folder) as proxy:
        (folder / "table").write_text("web web v1 web-1\nweb web v2 web-2 web-3 web-4\n",
                                      encoding="utf-8")
        with follower(folder, desk.variables(), *words_for(folder)):
            # 20 in three, and 80 in one, three times as much each
            desk.say("web", "v1", "v2", 20)
            want_weights("20%", proxy, web_1=240, web_2=20, web_3=20, web_4=20)
            want_report(folder, "web", v1=80, v2=20)
            # 1 in three by 256 at most: twice as much each
            desk.say("web", "v1", "v2", 1)
            want_weights("1%", proxy, web_1=198, web_2=1, web_3=1, web_4=0)
            want_report(folder, "web", v1=99, v2=1)
            desk.say("web", "v1", "v2", 99)
            want_weights("99%", proxy, web_1=1, web_2=33, web_3=33, web_4=33)
            desk.say("web", "v1", "v2", 0)
            want_weights("0%", proxy, web_1=100, web_2=0, web_3=0, web_4=0)


# ---- thirty services


MANY = [f"s{number:02}" for number in range(30)]
CLOCK = os.sysconf("SC_CLK_TCK")


@contextlib.contextmanager
def haproxy_of_many(folder, port, names):
    """HAProxy before such services, of two servers each."""
    lines = (f"backend {name}\n    balance roundrobin\n"
             f"    server {name}-1 127.0.0.1:{port} weight 100\n"
             f"    server {name}-2 127.0.0.1:{port} weight 0\n" for name in names)
    head = filled("follow-table.haproxy.cfg", ("/run/haproxy/admin.sock", folder / "socket"),
                  ("/var/lib/canary-follow", folder),
                  ("bind :8081", f"bind 127.0.0.1:{free_port()}"))
    rows = [f"{name} {name} v{at} {name}-{at}=127.0.0.1:{port}\n"
            for name in names for at in (1, 2)]
    (folder / "table").write_text("".join(rows), encoding="utf-8")
    front = int(re.search(r"bind 127.0.0.1:(\d+)", head)[1])
    with HAProxy(folder, front, head + "\n" + "".join(lines)) as proxy:
        yield proxy


def processor_of(process):
    """The seconds of a processor that a process has taken."""
    stat = pathlib.Path(f"/proc/{process.pid}/stat").read_text(encoding="utf-8").rsplit(") ", 1)[1]
    return sum(map(int, stat.split()[11:13])) / CLOCK


def memory_of(process):
    """Its memory, in MiB."""
    text = pathlib.Path(f"/proc/{process.pid}/status").read_text(encoding="utf-8")
    return int(re.search(r"VmHWM:\s+(\d+)", text)[1]) / 1024


def try_table_thirty(world):
    """One follower for 30 services with 60 servers: its memory, its share of a processor, and the
    seconds from a command until HAProxy has the weights."""
    with world.desk("table-thirty") as desk, version("v") as port, \
            haproxy_of_many(desk.folder, port, MANY) as proxy:
        add(desk, *MANY)
        ops = Caller(desk, "ops")
        with follower(desk.folder, variables(desk), *words_for(desk.folder)) as (started, _):
            wait_until("20%", lambda: new_weights(proxy) == {20}, LONGEST)
            begun, before = time.monotonic(), processor_of(started)
            time.sleep(20 if world.is_whole else 5)
            used = (processor_of(started) - before) / (time.monotonic() - begun)
            seconds = [seconds_until(proxy, ops, name) for name in MANY]
            memory = memory_of(started)
            want_report(desk.folder, "s29", v1=50, v2=50)
            expect("one process, one connection", children_of(started), [])
        if memory > 64 or used > .25:
            raise Late(f"{memory:.1f} MiB, {used:.1%} of a processor")
        middle = sorted(seconds)[len(seconds) // 2]
        return (f"passed: 30 services, 60 servers: {memory:.1f} MiB, {used:.1%} of a processor, a"
                f" weight after {middle:.2f} s (median), {max(seconds):.2f} s at most")


def new_weights(proxy):
    """The weights of the new versions of all."""
    weights = proxy.weights()
    return {weights[f"{name}-2"] for name in MANY}


def seconds_until(proxy, ops, name):
    """The seconds from the reply to a promotion until HAProxy has its weight."""
    ops.send({"promote": {"service": name}})
    begun = time.monotonic()
    wait_until(f"{name}: 50%", lambda: f" {name}-2 127.0.0.1 2 0 50 " in proxy.ask(
        f"show servers state {name}"), LONGEST, .05)
    return time.monotonic() - begun


# ---- nginx


def try_table_nginx(world):
    """One follower gives nginx the shares of two services, whose upstreams it writes; it reads back
    what nginx has loaded. A version that is added, one that is not there, a restart, and an nginx
    that refuses its configuration."""
    folder = world.place("table-nginx")
    with spoken() as desk, nginx_of_table(folder) as proxy:
        desk.say("web", "v1", "v2", 20)
        with follower(folder, desk.variables(), *words_of(proxy)) as (started, said):
            wait_until("it writes its file", (folder / "shares.conf").exists, LONGEST)
            proxy.start()
            want_nginx("20%, and a service that the desk does not have", proxy, web=(80, 20),
                       shop=(100, 0))
            want_shares("20%", proxy.port, {"web-1": 40, "web-2": 40, "web-3": 10, "web-4": 10}, 12,
                        300)
            desk.say("shop", "v7", "v8", 25)
            want_nginx("25%", proxy, web=(80, 20), shop=(75, 25))
            proxy.restart()
            desk.say("web", "v1", "v2", 50)
            want_nginx("50%, and nginx restarted", proxy, web=(50, 50), shop=(75, 25))
            desk.say("web", "v1", "v9", 10)
            wait_until("v9 has no upstream", lambda: (
                "there is no upstream web_v9: nothing is changed of web" in said()), LONGEST)
            desk.say("shop", "v7", "v8", 75)
            want_nginx("the other one", proxy, web=(50, 50), shop=(25, 75))
            want_added(proxy, desk)
            want_refused(proxy, desk, said)
            expect("it goes on", started.poll(), None)


def want_nginx(row, proxy, **wanted):
    """nginx says that it has loaded these shares of the stable and the new version."""
    names = {"web": ("v1", "v2"), "shop": ("v7", "v8")}

    def found():
        told = {name: shares_told(proxy.folder, name) or {} for name in wanted}
        return {name: tuple(told[name].get(each) for each in names[name]) for name in wanted}

    try:
        wait_until(row, lambda: found() == wanted, LONGEST)
    except Late as late:
        raise Late(f"{row}: {found()} in place of {wanted}") from late


def want_added(proxy, desk):
    """The upstream of a version is added by a line of the table."""
    with version("web-9") as port:
        table = (proxy.folder / "table").read_text(encoding="utf-8")
        (proxy.folder / "table.new").write_text(f"{table}web web v9 web-9=127.0.0.1:{port}\n",
                                                encoding="utf-8")
        (proxy.folder / "table.new").rename(proxy.folder / "table")
        want_report(proxy.folder, "web", v1=90, v2=0, v9=10)
        desk.say("web", "v9", "v9", 100)
        wait_until("it answers", lambda: answers(proxy.port, 5) == {"web-9": 5}, LONGEST)
        desk.say("web", "v1", "v1", 100)
        wait_until("it answers no more", lambda: "web-9" not in answers(proxy.port, 5), LONGEST)


def want_twice(proxy, said):
    """nginx refuses what the follower has written, since it has an upstream, too: the file is as it
    was before."""
    file, table = proxy.folder / "shares.conf", proxy.folder / "table"
    good, lines = proxy.file.read_text(encoding="utf-8"), table.read_text(encoding="utf-8")
    before = file.read_text(encoding="utf-8")
    mine = "    upstream web_v3 {\n        server 127.0.0.1:1;\n    }\n"
    proxy.file.write_text(good.replace("http {\n", f"http {{\n{mine}"), encoding="utf-8")
    table.write_text(f"{lines}web web v3 web-3x=127.0.0.1:1\n", encoding="utf-8")
    wait_until("it is refused", lambda: 'duplicate upstream "web_v3"' in said(), LONGEST)
    table.write_text(lines, encoding="utf-8")
    wait_until("its file is as before", lambda: file.read_text(encoding="utf-8") == before, LONGEST)
    lasts("its file", lambda: file.read_text(encoding="utf-8") == before, 1.5)
    proxy.file.write_text(good, encoding="utf-8")


def want_refused(proxy, desk, said):
    """nginx refuses the configuration: its file is as before. Then another program writes it."""
    file, good = proxy.folder / "shares.conf", proxy.file.read_text(encoding="utf-8")
    before = file.read_text(encoding="utf-8")
    proxy.file.write_text(good.replace("events {}", "events {}\nnonsense on;"), encoding="utf-8")
    desk.say("web", "v1", "v2", 30)
    wait_until("nginx refuses it", lambda: 'unknown directive "nonsense"' in said(), LONGEST)
    lasts("its file is as before", lambda: file.read_text(encoding="utf-8") == before)
    proxy.file.write_text(good, encoding="utf-8")
    want_nginx("it is right again", proxy, web=(70, 30))
    want_twice(proxy, said)
    file.unlink()
    os.mkfifo(file)
    wait_until("a FIFO is replaced", lambda: file.is_file() and "30%" in file.read_text(), LONGEST)
    (proxy.folder / "elsewhere").write_bytes(file.read_bytes())
    (proxy.folder / "link").symlink_to("elsewhere")
    (proxy.folder / "link").rename(file)
    desk.say("web", "v1", "v2", 40)
    want_nginx("a link is replaced", proxy, web=(60, 40))
    expect("where the link led", ("30%" in (proxy.folder / "elsewhere").read_text(encoding="utf-8"),
                                  file.is_symlink()), (True, False))
    proxy.kill()
    away = f"nginx at {proxy.told}: Connection refused"
    wait_until("nginx is away", lambda: said().rstrip().endswith(away), LONGEST)
