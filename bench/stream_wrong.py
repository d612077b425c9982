"""Messages for bench/streams that are refused before any request is settled, and go on."""
from stream_texts import Raw, compact, get, nested, odd, put

NAMES = ("Ops", "-ops", "ops-", "-", "o_ps", "o.ps", "a" * 64, "%61", "o%2Fps", "ops+1", "~")
NUMBERS = ("0", "007", "1000000001", "x", "-1", "+1", "1.0", "1e3", "99999999999999999999", "1_0")
PATHS = ("/", "/nope", "/callers", "/callers/ops", "/callers/ops/requests", "/services",
         "/Services/a", "/services/a/runs", "/services/a/runs/1/2", "/services/a/histories",
         "/callers/ops/request/1", "/callers/ops/requests/1/", "/services/a/history/",
         "/services/a/", "*", "/services/a/b/c", "//services/a", "/services/a/history/1")
METHODS = ("POST", "DELETE", "HEAD", "PATCH", "OPTIONS", "put", "get", "Get", "G")
NO_JSON = (b"", b" ", b"{", b"[]", b"7", b'"tick"', b"null", b"{}", b'{"tick":{"service":"a"}',
           b'{"tick":{"service":"a"}}}', b'{"tick":{"service":"a"}} x',
           b'{"tick":{"service":"a",}}', b"{'tick':{}}", b'{"tick":{"service":"a\xff"}}',
           b'{"tick":{"service":"\\ud800"}}', b'\xef\xbb\xbf{"tick":{"service":"a"}}',
           b'{"tick":{"service":"a\n"}}', b'{"tick":nul}',
           b'{"tick":{"service":"a"},"abort":{"service":"a"}}', b'{"tack":{"service":"a"}}',
           b'{"Tick":{"service":"a"}}', b'{"tick":[]}', b'{"tick":{}}', b'{"tick":null}',
           b'{"tick":{"service":null}}', b'{"tick":{"service":"a","more":null}}',
           b'{"tick":{"service":"A"}}', b'{"start":{"service":"a"}}', b'{"template":{}}',
           b'{"start":{"service":"a","version":""}}', b'{"start":{"service":"a","version":"a b"}}',
           b'{"service":{"version":"v1"}}', b'{"tick":{"service":"a"}}\x00',
           b'{"tick":{"service":01}}', b'{"template":{"more":' + b"[" * 126 + b"]" * 126 + b"}}",
           b'{"template":{"more":' + b"[" * 200 + b"]" * 200 + b"}}", b"[" * 127 + b"]" * 127,
           b"[" * 128 + b"]" * 128, b"\t\r\n ", b'{"promoteFull":{"service":5}}')
ENTRIES = ({"taken": -1}, {"taken": 253370764800}, {"taken": "0"}, {"taken": Raw("1.0")},
           {"ordinal": 0}, {"ordinal": 1_000_000_001}, {"ordinal": Raw("1e0")}, {"ordinal": None},
           {"metric": ""}, {"metric": "a b"}, {"metric": "\u00e9"}, {"metric": "a" * 64},
           {"metric": 5}, {"result": Raw("1.5")}, {"result": Raw("-0")}, {"result": Raw("1e2")},
           {"result": Raw("9223372036854775808")}, {"result": Raw("-9223372036854775809")},
           {"result": Raw("18446744073709551616")}, {"result": Raw("1e999")}, {"result": "5"},
           {"result": None}, {"result": []}, {"result": [1] * 17}, {"result": [1, Raw("2.0")]},
           {"result": [[1]]}, {"result": [None]}, {"result": {}}, {"result": True}, {"more": 1},
           {"failure": "both"}, {"result": [Raw("-0")]}, {"result": [9223372036854775807] * 17})
FAILURES = ("", "x" * 201, "\u00e9" * 101, 5, None, [])
RUNS = (0, -1, 1_000_000_001, "1", Raw("1.0"), None, [1], Raw("-0"))
METRICS = ({"name": ""}, {"name": 5}, {"name": "a" * 64}, {"name": "a/b"}, {"name": None},
           {"count": -1}, {"count": 1_000_001}, {"count": "1 "}, {"count": ""},
           {"count": Raw("1.0")}, {"count": Raw("-0")}, {"count": "+1"}, {"count": "1000001"},
           {"count": True}, {"interval": 60}, {"interval": "60"}, {"interval": "8760h1s"},
           {"interval": "1.5s"}, {"interval": "5ms"}, {"interval": "-5s"}, {"interval": "s"},
           {"interval": "1s 1m"}, {"interval": "5S"}, {"interval": "99999999999999999999s"},
           {"initialDelay": "1"}, {"initialDelay": "{{args.delay}}"}, {"failureLimit": "x"},
           {"failureLimit": True}, {"inconclusiveLimit": -1}, {"inconclusiveLimit": "-1"},
           {"consecutiveErrorLimit": -1}, {"consecutiveErrorLimit": [4]}, {"successCondition": 5},
           {"failureCondition": ["x"]}, {"interval": 0}, {"count": {}},
           {"passAfter": -1}, {"passAfter": 1_000_001}, {"passAfter": "+2"}, {"passAfter": True},
           {"passAfter": Raw("2.0")}, {"passAfter": "2 "}, {"passAfter": []},
           {"failureLimit": Raw("1e2")})
UNSUPPORTED_METRICS = ({"failureLimit": -1}, {"failureLimit": "-3"}, {"consecutiveSuccessLimit": 1},
                       {"consecutiveSuccessLimit": "x"}, {"consecutiveSuccessLimit": 0})
STEPS = ({}, {"setWeight": 10, "pause": {}}, {"setWeight": -1}, {"setWeight": 1_000_001},
         {"setWeight": "10"}, {"setWeight": Raw("10.0")}, {"pause": 5}, {"pause": []}, 5, None, [],
         {"pause": {"duration": -1}}, {"pause": {"duration": "1.5s"}}, {"pause": {"duration": ""}},
         {"pause": {"duration": "0s5"}}, {"pause": {"duration": "5m3"}}, {"analysis": {}},
         {"pause": {"duration": 31_536_001}}, {"pause": {"duration": "31536001"}},
         {"pause": {"duration": Raw("5.0")}}, {"pause": {"duration": Raw("-0")}}, {"pause": None},
         {"analysis": {"templates": {}}}, {"analysis": {"templates": ["t"]}}, {"analysis": []},
         {"analysis": {"templates": [{"templateName": "-"}]}}, {"analysis": {"templates": None}},
         {"analysis": {"templates": [{}]}}, {"analysis": {"templates": []}, "setWeight": 1})
UNSUPPORTED_STEPS = ({"setCanaryScale": {}}, {"setWeight": 10, "experiment": {}},
                     {"pause": {}, "more": False}, {"analysis": {"templates": [], "dryRun": [{}]}},
                     {"analysis": {"templates": [], "measurementRetention": "x"}},
                     {"analysis": {"templates": [{"templateName": "t", "clusterScope": True}]}},
                     {"analysis": {"dryRun": {}}}, {"setHeaderRoute": 5, "setWeight": -1})
TEMPLATE_SPECS = ({"metrics": []}, {"metrics": None}, {"metrics": {}}, {"metrics": [None]},
                  {"metrics": [{"name": "m"}] * 33}, {"dryRun": {}}, {"dryRun": [{}]},
                  {"dryRun": [{"metricName": ""}]}, {"dryRun": [{"metricName": "m" * 64}]},
                  {"dryRun": ["m"]}, {"dryRun": [{"metricName": 5}]}, {"dryRun": "m"},
                  {"more": nested(125)}, {"more": nested(126)}, {"more": nested(200)})
UNSUPPORTED_SPECS = ({"templates": [{"templateName": "t"}]}, {"measurementRetention": [{}]},
                     {"templates": {}}, {"measurementRetention": "x"}, {"templates": 0})
CANARIES = ({"steps": {}}, {"steps": "x"}, {"analysis": []}, {"analysis": {}},
            {"analysis": {"templates": [], "startingStep": 65}}, {"analysis": {"templates": 5}},
            {"analysis": {"templates": [], "startingStep": -1}},
            {"analysis": {"templates": [], "startingStep": "1"}},
            {"analysis": {"templates": [], "startingStep": Raw("1.0")}})
UNSUPPORTED_CANARIES = ({"analysis": {"templates": [], "dryRun": [{"metricName": "m"}]}},
                        {"analysis": {"measurementRetention": [1]}},
                        {"analysis": {"templates": [{"clusterScope": True}]}})


def changed(chance, member, changes):
    """One of the changes made to a member, whose other members stay."""
    change = chance.choice(changes)
    if isinstance(change, dict) and isinstance(member, dict):
        return {**member, **change}
    return change


def wrong_report(chance):
    """A report that has not the form of one."""
    entry = {"metric": "m0", "ordinal": 1, "taken": 1_767_225_600, "result": 5}
    report = {"service": "a", "run": 1, "entries": [entry]}
    turn = chance.randrange(8)
    if turn == 0:
        report["run"] = chance.choice(RUNS)
    elif turn == 1:
        report["entries"] = chance.choice(([], [entry] * 33, {}, None, [None], [[]], "x"))
    elif turn == 2:
        del entry["result"]
        entry["failure"] = chance.choice(FAILURES)
    elif turn == 3:
        del entry[chance.choice(list(entry))]
    else:
        report["entries"] = [changed(chance, entry, ENTRIES)]
    return {"report": report}


def wrong_template(chance, supported):
    """A template that has not the form of one, or asks for what is not supported."""
    metric = changed(chance, {"name": "m"}, METRICS if supported else UNSUPPORTED_METRICS)
    spec = {"metrics": [{"name": "n"}, metric]}
    if chance.random() < 0.4:
        spec = changed(chance, {"metrics": [{"name": "m"}]},
                       TEMPLATE_SPECS if supported else UNSUPPORTED_SPECS)
    tree = {"metadata": {"name": "wrong"}, "spec": spec}
    if not supported and chance.random() < 0.2:
        tree = {"kind": chance.choice(("Rollout", "ClusterAnalysisTemplate", 5, {}))}
    elif chance.random() < 0.1:
        tree["metadata"] = chance.choice(({"name": "Wrong"}, {}, {"name": 5}, [], None))
    return {"template": tree}


def wrong_service(chance, supported):
    """A service that has not the form of one, or asks for what is not supported."""
    step = chance.choice(STEPS if supported else UNSUPPORTED_STEPS)
    canary = {"steps": [{"setWeight": 5}, step]}
    if chance.random() < 0.3:
        canary = changed(chance, {"steps": []}, CANARIES if supported else UNSUPPORTED_CANARIES)
    manifest = {"metadata": {"name": "wrong"}, "spec": {"strategy": {"canary": canary}}}
    whole = {"manifest": manifest, "version": "v1"}
    if chance.random() < 0.3 and not supported:
        chance.choice((lambda: manifest.update(kind="Deployment"),
                       lambda: manifest["spec"].update(paused=True),
                       lambda: manifest["spec"]["strategy"].update(blueGreen={})))()
    elif chance.random() < 0.2 and supported:
        whole.update(chance.choice(({"version": "a b"}, {"version": None}, {"more": 1},
                                    {"manifest": []}, {"manifest": {"metadata": {}}})))
    return {"service": whole}


def wrong_body(chance):
    """A body that is no command."""
    if chance.random() < 0.4:
        return chance.choice(NO_JSON)
    turn, supported = chance.randrange(3), chance.random() < 0.7
    if turn == 0 and supported:
        tree = wrong_report(chance)
    else:
        tree = (wrong_template if turn == 1 else wrong_service)(chance, supported)
    return odd(chance, tree).encode()


def wrong_message(chance):
    """A message that the wire refuses, after which the stream goes on."""
    turn = chance.randrange(10)
    body = compact({"tick": {"service": "a"}}).encode()
    if turn == 0:
        return get(chance, chance.choice(PATHS), chance.choice(("GET", "GET", "HEAD", "POST")))
    if turn == 1:
        path = chance.choice(("/callers/ops/requests/1", "/services/a", "/services/A/history",
                              "/services/a/runs/0", "/callers/Ops/requests/x"))
        right = path.startswith("/s")
        return get(chance, path, chance.choice(METHODS + (("GET",) if not right else ("G",))))
    if turn == 2:
        return put(chance, chance.choice(("/services/a", "/services/a/history", "/nope")), body)
    if turn == 3:
        paths = ("/callers/{}/requests/1", "/callers/{}/requests/0")
        return put(chance, chance.choice(paths).format(chance.choice(NAMES)), body)
    if turn == 4:
        paths = ("/services/{}", "/services/{}/history", "/services/{}/runs/1")
        return get(chance, chance.choice(paths).format(chance.choice(NAMES)))
    if turn == 5:
        path = "/callers/ops/requests/" + chance.choice(NUMBERS)
        return put(chance, path, chance.choice((body, b"")))
    if turn == 6:
        return get(chance, "/services/a/runs/" + chance.choice(NUMBERS))
    return put(chance, f"/callers/ops/requests/{chance.randint(1, 9)}", wrong_body(chance))
