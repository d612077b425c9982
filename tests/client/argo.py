"""Argo's manifests that `do --argo` translates and sends: parts of client.py."""
import json

from words import MANIFEST
from world import (
    CONTRADICTION, DONE, KEY_USED, LOCAL, PENDING, REFUSED, WORDS, answering, ask, expect, rollout,
    shows, want, want_all_said, want_delivered)

ARGO = ("--argo",)
KEY = ("--argo", "--once", "deploy-77")
UNTRANSLATED = "nothing was sent: these manifests are not translated"
ARGO_COMMAND = "--argo takes template FILE.. or service FILE.. VERSION"
UNREAD_FILE = "nothing was sent: a file cannot be read"
INPUT = "- is no FILE of do --argo: give /dev/stdin"
LATENCY = """
apiVersion: argoproj.io/v1alpha1
kind: AnalysisTemplate
metadata: {name: latency}
spec:
  args: [{name: limit, value: "0.5"}]
  metrics:
  - name: p99
    interval: 1s
    count: 10
    successCondition: isNaN(result[0]) || result[0] <= {{args.limit}}
    failureLimit: 1
    provider:
      prometheus: {address: "http://prometheus:9090", query: p99}
"""
FOUND = ("canary: other.yaml:11:23: spec.metrics[0].successCondition: arithmetic: do it in the "
         "query (filled in: isNaN(result[0]) || result[0] + 1 <= 0.5)")
FILES = ("latency.yaml", "rollouts.yaml")
NO_DEADLINE = ("the desk ignores it, and has no deadline: have a job look for late measurements,"
               " and abort")
NAN = -9223372036854775808


def steps(**more):
    """The steps of a service whose analysis has these arguments."""
    return [{"setWeight": 10}, {"analysis": {"templates": [{"templateName": "latency"}], **more}},
            {"setWeight": 50}, {"pause": {}}]


def write_files(desk):
    """Argo's template, and two Rollouts that use it."""
    desk.write("latency.yaml", LATENCY)
    desk.write("rollouts.yaml", json.dumps({"kind": "List", "items": [
        rollout("cart", *steps()),
        rollout("search", *steps(args=[{"name": "limit", "value": "0.25"}]))]}))


def made_template(service, limit):
    """The desk's template of a service."""
    condition = f"result == {NAN} || (result <= {limit} && result != {NAN})"
    return {"apiVersion": "argoproj.io/v1alpha1", "kind": "AnalysisTemplate",
            "metadata": {"name": f"latency-for-{service}"}, "spec": {"metrics": [
                {"name": "p99.e6nf", "successCondition": condition, "interval": "1s", "count": 10,
                 "failureLimit": 1}]}}


def made_service(name):
    made = [{"setWeight": 10}, {"analysis": {"templates": [
        {"templateName": f"latency-for-{name}"}]}}, {"setWeight": 50}, {"pause": {}}]
    return rollout(name, *made)


def registered(*names, revision=1):
    """The replies to templates."""
    return "".join(f'{{"code":"ok","revision":{revision},"template":"{name}"}}\n' for name in names)


TEMPLATES = registered("latency-for-cart", "latency-for-search")
SERVICES = "".join(shows(name, "Healthy", 4, 100) + "\n" for name in ("cart", "search"))


def recorded(service, phase, status="Progressing", step=1, weight=10, verdict="Running"):
    return (f'{{"code":"ok","phases":["{phase}"],"run":1,"service":"{service}",'
            f'"status":"{status}","step":{step},"verdict":"{verdict}","weight":{weight}}}\n')


def want_nothing_sent(row, desk):
    """Nothing was asked, and no journal begun."""
    expect(f"{row}: requests", desk.rows("SELECT count(*) FROM kept"), [(0,)])
    expect(f"{row}: a journal", (desk.folder / "ops.journal").exists(), False)


def try_argo(world):
    """Each template and each service is a command, whose translated body the journal keeps; and
    reports with the label are judged as Argo judges the decimals."""
    with world.desk("argo") as desk:
        write_files(desk)
        want("templates", desk.do("template", *FILES, options=ARGO), DONE, TEMPLATES)
        want("services", desk.do("service", *FILES, "v1", options=ARGO), DONE, SERVICES)
        bodies = [json.loads(each.body_asked) for each in desk.journal().kept]
        expect("the journal", bodies, [
            {"template": made_template("cart", 500000)},
            {"template": made_template("search", 250000)},
            {"service": {"version": "v1", "manifest": made_service("cart")}},
            {"service": {"version": "v1", "manifest": made_service("search")}}])
        want("a second time", desk.do("template", *FILES, options=ARGO), DONE,
             registered("latency-for-cart", "latency-for-search", revision=2))
        # the first one is refused, so the next one is not asked
        count = len(desk.journal().kept)
        want("services again", desk.do("service", *FILES, "v1", options=ARGO), REFUSED,
             '{"code":"service-exists"}\n')
        expect("asked", len(desk.journal().kept), count + 1)
        for name in ("cart", "search"):
            want(f"start {name}", desk.do("start", name, "v2"), DONE,
                 shows(name, "Progressing", 1, 10) + "\n")
        report_each(desk)
        want_delivered("argo", desk)


def report_each(desk):
    """0.5 of cart, and NaN of search, as their label says."""
    for service, result, phase in (("cart", 500000, "Successful"), ("search", NAN, "Successful")):
        words = ("report", service, "1", "p99.e6nf")
        want(f"{service}: {result}", desk.do(*words, "--", str(result)), DONE,
             recorded(service, phase))
    want("search: not as Argo has it", desk.do("report", "search", "1", "p99", "0"), 1,
         said="the run has no such metric")


def try_argo_of_many_files(world):
    """However many files the words name, each template in them is sent."""
    with world.desk("argo-of-many-files") as desk:
        names = [f"t{number}" for number in range(1, 8)]
        files = [desk.write(f"{name}.json", {
            "kind": "AnalysisTemplate", "metadata": {"name": name},
            "spec": {"metrics": [{"name": "m", "successCondition": "result > 1"}]}})
            for name in names]
        want("seven files", desk.do("template", *files, options=ARGO), DONE, registered(*names))
        want_delivered("argo of many files", desk)


def try_argo_once(world):
    """With a key a second call sends nothing, and needs no desk; another manifest under it is a
    contradiction."""
    with world.desk("argo-once") as desk:
        write_files(desk)
        want("first", desk.do("template", *FILES, options=KEY), DONE, TEMPLATES)
        kept = (desk.folder / "ops.journal").read_bytes()
        expect("the keys", [each.key for each in desk.journal().kept],
               ["deploy-77 latency-for-cart", "deploy-77 latency-for-search"])
        want("second", desk.do("template", *FILES, options=KEY), DONE, TEMPLATES)
        desk.kill()
        want("no desk", desk.do("template", *FILES, options=KEY, tries=1), DONE, TEMPLATES)
        desk.start()
        desk.write("latency.yaml", LATENCY.replace('"0.5"', '"0.75"'))
        want("another limit", desk.do("template", *FILES, options=KEY), CONTRADICTION,
             said=KEY_USED)
        expect("the journal", (desk.folder / "ops.journal").read_bytes(), kept)
        want_delivered("argo-once", desk)


def try_argo_cut(world):
    """The second command's message or reply is lost: the same call with the key goes on there."""
    for name, is_passed in (("lost", False), ("unanswered", True)):
        with world.desk(f"argo-{name}") as desk:
            write_files(desk)

            def cut(client, desk=desk, is_passed=is_passed):
                message = client.recv(65536)
                is_second = b"/requests/2 " in message
                if not is_second or is_passed:
                    reply = ask(desk.port, message)
                    client.sendall(b"" if is_second else reply)

            with answering(cut) as port:
                ended = desk.do("template", *FILES, options=KEY, port=port, tries=1)
            expect(f"{name}: the first", (ended.status, ended.output),
                   (PENDING, registered("latency-for-cart")))
            want(f"{name}: again", desk.do("template", *FILES, options=KEY), DONE, TEMPLATES)
            want_delivered(name, desk)


def try_argo_found(world):
    """Nothing is sent if anything is found in one of the files, or one is too long for a desk, or
    cannot be read."""
    with world.desk("argo-found") as desk:
        write_files(desk)
        desk.write("other.yaml", LATENCY.replace("name: latency", "name: other").replace(
            "<=", "+ 1 <="))
        for words in (("template", *FILES, "other.yaml"),
                      ("service", *FILES, "other.yaml", "v1")):
            ended = desk.do(*words, options=ARGO)
            want(words, ended, WORDS, said=UNTRANSLATED)
            expect(f"{words}: what was found", ended.errors.splitlines()[:-1], [FOUND])
            want_nothing_sent(words, desk)
        ended = desk.do("template", *FILES, "none\x1b.yaml", options=ARGO)
        want("no file", ended, LOCAL, said=UNREAD_FILE)
        want_all_said("no file", ended, "the file cannot be read: none\\u001b.yaml", UNREAD_FILE)
        for words in (("template", *FILES, "-"), ("service", "-", "v1")):
            ended = desk.do(*words, options=ARGO)
            want(words, ended, WORDS, said=ARGO_COMMAND)
            want_all_said(words, ended, INPUT, ARGO_COMMAND)
            want_nothing_sent(words, desk)
        long = " || ".join(["result > 1"] * 51)
        metrics = [{"name": f"m{at}", "successCondition": long, "failureCondition": long,
                    "provider": {"web": {}}} for at in range(32)]
        desk.write("long.yaml", json.dumps({"kind": "AnalysisTemplate", "metadata": {
            "name": "long"}, "spec": {"metrics": metrics}}))
        want("too long", desk.do("template", *FILES, "long.yaml", options=ARGO), WORDS,
             said=MANIFEST)
        want_nothing_sent("too long", desk)


def try_argo_warned(world):
    """What is warned of is said once in each call, and changes neither what is sent nor the
    status."""
    with world.desk("argo-warned") as desk:
        made = rollout("web", {"setWeight": 10}, {"pause": {}})
        made["spec"]["progressDeadlineSeconds"] = 600
        text = json.dumps(made)
        desk.write("web.json", text)
        desk.write("latency.yaml", LATENCY.replace("{{args.limit}}", "0.5"))
        said = (f"warning: web.json:1:{text.index('600') + 1}: spec.progressDeadlineSeconds: "
                f"{NO_DEADLINE}")
        shown = shows("web", "Healthy", 2, 100) + "\n"
        for row, options, words, output in (
                ("templates", ARGO, ("template", "latency.yaml", "web.json"),
                 registered("latency")),
                ("a service", KEY, ("service", "web.json", "v1"), shown),
                ("the same again", KEY, ("service", "web.json", "v1"), shown)):
            ended = desk.do(*words, options=options)
            want(row, ended, DONE, output, said)
            want_all_said(row, ended, said)
        expect("what was asked", len(desk.journal().kept), 2)
        del made["spec"]["progressDeadlineSeconds"]
        desk.write("web.json", json.dumps(made))
        ended = desk.do("template", "latency.yaml", "web.json", options=ARGO)
        want("nothing to warn of", ended, DONE, registered("latency", revision=2))


def try_argo_words(world):
    """Commands that --argo is not for, and words that are missing."""
    with world.desk("argo-words") as desk:
        write_files(desk)
        for words in (("promote", "web"), ("start", "web", "v2"), ("tick", "web"),
                      ("report", "web", "1", "m", "5")):
            want(words, desk.do(*words, options=ARGO), WORDS, said=ARGO_COMMAND)
            want_nothing_sent(words, desk)
        for words in (("template",), ("service",), ("service", "v1"), ("service", *FILES),
                      ("service", "latency.yaml", "v1")):
            expect(words, desk.do(*words, options=ARGO).status, WORDS)
            want_nothing_sent(words, desk)
        for words in (("template", *FILES), ("service", *FILES, "v1")):
            ended = desk.do(*words)
            expect(f"{words} without --argo", ended.status, WORDS)
            want_nothing_sent(words, desk)
