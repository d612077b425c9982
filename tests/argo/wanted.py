"""What becomes of each file of examples/argo, written by hand: TAKEN has what is made of it, and
REFUSED what is found, each with line, column, path and text."""

NAN = ("NaN beside asInt is a failure here, an Error; what Argo makes of it depends on the "
       "processor: leave asInt out where NaN is to count (said once, for all metrics)")
# What conditions have that is refused, with what to write.
TEXT = "a text: have what is asked give 1 or 0, and write result == 1"
TRUTH = "a truth: have what is asked give 1 or 0, and write result == 1"
FUNCTION = "this function: do it in the query"
NUMBER = "this number: write 15 digits at most, as 0.95"
PLACE = "this place of a list: write result[0], up to result[15]; with len(result), to [14]"
NAN_NUMBER = -9223372036854775808
# What is warned of steps that wait for nobody.
NOBODY = ("no step after weight {} waits for anybody: a version reaches 100 % even if nothing is "
          "measured: put an analysis step, or pause: {{}}, {}")


class Taken:
    """A file that is translated: the desk's templates with their metrics, its services with their
    strategies, how an agent measures, and the lines and columns of the note on NaN and of steps
    that wait for nobody, if there are such, with the first weight and where a step is to be put."""

    def __init__(self, templates, services, plan, nan=None, dry=(), nobody=None):
        self.templates = [template(name, metrics, dry) for name, metrics in templates.items()]
        self.services = [service(name, canary) for name, canary in services.items()]
        self.plan = [planned(*row) for row in plan]
        self.notes = [(*nan, "spec.metrics[0]", NAN)] if nan else []
        self.warnings = [(*nobody[:2], "spec.strategy.canary.steps", NOBODY.format(*nobody[2:]))
                         ] if nobody else []

    def text(self):
        """What is printed of it."""
        lines = []
        for made in self.templates:
            lines.append(f"template {made['metadata']['name']}")
            for metric in made["spec"]["metrics"]:
                lines.append(f"  {metric['name']}")
                lines += [f"    {when}: {metric[f'{when}Condition']}"
                          for when in ("success", "failure") if f"{when}Condition" in metric]
        lines += [f"service {made['metadata']['name']}" for made in self.services]
        lines += ["measure {label} of {service} by {kind}".format(**it) for it in self.plan]
        return "".join(f"{line}\n" for line in lines)


def template(name, metrics, dry):
    spec = {"metrics": metrics}
    if dry:
        spec["dryRun"] = [{"metricName": metric} for metric in dry]
    return {"apiVersion": "argoproj.io/v1alpha1", "kind": "AnalysisTemplate",
            "metadata": {"name": name}, "spec": spec}


def service(name, canary):
    return {"apiVersion": "argoproj.io/v1alpha1", "kind": "Rollout", "metadata": {"name": name},
            "spec": {"strategy": {"canary": canary}}}


def planned(of, label, by, metric, provider, late=None):
    (kind,) = provider
    return {"service": of, "label": label, "template": by, "metric": metric, "kind": kind,
            "provider": provider, "late": late or {}}


def weight(percent):
    return {"setWeight": percent}


def pause(duration=None):
    return {"pause": {"duration": duration} if duration else {}}


def named(*templates, **more):
    return {"templates": [{"templateName": name} for name in templates], **more}


def prometheus(address, query):
    return {"prometheus": {"address": address, "query": query}}


REQUESTS = """sum(irate(
  istio_requests_total{{reporter="source",destination_service=~"{0}",response_code!~"5.*"}}[5m]
)) /
sum(irate(
  istio_requests_total{{reporter="source",destination_service=~"{0}"}}[5m]
))
"""
LATENCY = ('histogram_quantile(0.99, sum(rate(http_request_duration_seconds_bucket{{service="{}"}}'
           '[2m])) by (le))')
ERRORS = ('sum(rate(http_requests_total{app="shop-web",code=~"5.."}[1m])) / '
          'sum(rate(http_requests_total{app="shop-web"}[1m]))')
REGIONS = ('sort(sum by (region) (rate(ok_total{app="checkout"}[5m])) / '
           'sum by (region) (rate(all_total{app="checkout"}[5m])))')
RESTARTS = ('sum(increase(kube_pod_container_status_restarts_total{pod=~"profile-.*",'
            'pod!~"profile-{{args.stable-hash}}.*"}[5m]))')
SMOKE = {"job": {"spec": {"backoffLimit": 1, "template": {"spec": {
    "restartPolicy": "Never", "containers": [{
        "name": "smoke", "image": "registry.example/shop/smoke:3",
        "args": ["--target", "http://shop-{{args.hash}}:8080"]}]}}}}}
JUDGE = {"web": {
    "url": "http://judge.internal/api/v1/score?service=billing", "timeoutSeconds": 20,
    "headers": [{"key": "Authorization", "value": "Bearer {{args.api-token}}"}],
    "jsonPath": "{$.data.score}"}}
LOQ = {"datadog": {"apiVersion": "v2", "interval": "5m",
                   "query": "sum:requests.error.rate{service:loq}\n"}}
APDEX = {"web": {"url": "http://apm.internal/apdex/profile", "jsonPath": "{$.apdex}"}}


def latency(limit):
    return [{"name": "p99.e6nf",
             "successCondition": f"(result <= {limit} && result != {NAN_NUMBER})",
             "interval": "1m", "count": 10, "failureLimit": 2}]


TAKEN = {
    "success-rate.yaml": Taken(
        {"success-rate": [
            {"name": "success-rate.e6nf", "successCondition": "result >= 950000", "interval": "5m",
             "count": 6, "failureLimit": 3}]},
        {"guestbook": {
            "steps": [weight(20), pause("10m"), weight(40), pause("10m"), weight(60), pause("10m"),
                      weight(80), pause("10m")],
            "analysis": named("success-rate", startingStep=2)}},
        [("guestbook", "success-rate.e6nf", "success-rate", "success-rate",
          prometheus("http://prometheus.example.com:9090",
                     REQUESTS.format("guestbook-svc.default.svc.cluster.local")))],
        nobody=(58, 7, 20, "before setWeight 40")),
    "web.yaml": Taken(
        {"success-rate": [
            {"name": "success-rate.e6nf", "successCondition": "result >= 950000",
             "interval": "5m"}]},
        {"web": {"steps": [weight(20), pause()], "analysis": named("success-rate")}},
        [("web", "success-rate.e6nf", "success-rate", "success-rate",
          prometheus("http://prometheus.example.com:9090",
                     REQUESTS.format("web.default.svc.cluster.local")))]),
    "threshold-argument.yaml": Taken(
        {"latency-for-cart": latency(500000), "latency-for-search": latency(250000)},
        {"cart": {"steps": [weight(10), {"analysis": named("latency-for-cart")}, weight(50),
                            pause()]},
         "search": {"steps": [weight(10), {"analysis": named("latency-for-search")}, weight(50),
                              pause()]}},
        [("cart", "p99.e6nf", "latency-for-cart", "p99",
          prometheus("http://prometheus:9090", LATENCY.format("cart"))),
         ("search", "p99.e6nf", "latency-for-search", "p99",
          prometheus("http://prometheus:9090", LATENCY.format("search")))]),
    "empty-and-nan.yaml": Taken(
        {"error-share": [
            {"name": "error-share.e6nl1",
             "successCondition": f"result[0] == 0 || result[1] == {NAN_NUMBER} || "
                                 f"(result[1] < 20000 && result[1] != {NAN_NUMBER})",
             "failureCondition": "result[0] > 0 && result[1] >= 100000",
             "interval": "30s", "failureLimit": 1, "inconclusiveLimit": 5}]},
        {"web": {"steps": [weight(25), pause("15m"), weight(75), pause("15m")],
                 "analysis": named("error-share")}},
        [("web", "error-share.e6nl1", "error-share", "error-share",
          prometheus("http://prometheus:9090", ERRORS))],
        nobody=(31, 14, 25, "before setWeight 75")),
    "web-jsonpath.yaml": Taken(
        {"judge": [
            {"name": "score.e6t", "successCondition": "result >= 92500000",
             "failureCondition": f"(result < 80000000 && result != {NAN_NUMBER})",
             "interval": "2m", "count": 5, "inconclusiveLimit": 2}]},
        {"billing": {"steps": [weight(5), {"analysis": named("judge")}, weight(100)]}},
        [("billing", "score.e6t", "judge", "score", JUDGE,
          {"api-token": {"secretKeyRef": {"name": "judge-secret", "key": "token"}}})]),
    "job.yaml": Taken(
        {"smoke": [{"name": "smoke-test", "successCondition": "result == 1"}]},
        {"shop": {"steps": [weight(1), {"analysis": named("smoke")}, weight(30), pause("1h")]}},
        [("shop", "smoke-test", "smoke", "smoke-test", SMOKE,
          {"hash": {"podTemplateHashValue": "Latest"}})]),
    "two-regions-dry-run.yaml": Taken(
        {"regions": [
            {"name": "availability.e6np2",
             "successCondition": "(result[0] > 999000) && (result[1] > 999000)",
             "failureCondition": f"(result[0] < 990000 && result[0] != {NAN_NUMBER}) || "
                                 f"(result[1] < 990000 && result[1] != {NAN_NUMBER})",
             "interval": "1m", "count": 5, "inconclusiveLimit": 3, "consecutiveErrorLimit": 2},
            {"name": "saturation.e6nf", "failureCondition": "result > 80500000",
             "interval": "1m", "count": 5}]},
        {"checkout": {"steps": [weight(10), {"analysis": named("regions")}, weight(60),
                                pause("30m")]}},
        [("checkout", "availability.e6np2", "regions", "availability",
          prometheus("http://thanos:9090", REGIONS)),
         ("checkout", "saturation.e6nf", "regions", "saturation",
          prometheus("http://thanos:9090", 'max(container_cpu_percent{app="checkout"})'))],
        dry=["saturation.e6nf"]),
    "many-digits.yaml": Taken(
        {"budget": [
            {"name": "burn-rate.e8nf",
             "successCondition": f"(result < 1440012500 && result != {NAN_NUMBER}) && "
                                 "result >= 10",
             "interval": "10m", "count": 12, "failureLimit": 1}]},
        {"mail": {"steps": [weight(10), {"analysis": named("budget")}, weight(100)]}},
        [("mail", "burn-rate.e8nf", "budget", "burn-rate",
          prometheus("http://prometheus:9090", 'slo:burn:rate1h{app="mail"}'))]),
    "datadog.yaml": Taken(
        {"loq-error-rate": [
            {"name": "error-rate.e6s",
             "successCondition": f"(result <= 10000 && result != {NAN_NUMBER})",
             "interval": "5m", "count": 3, "failureLimit": 3}]},
        {"loq": {"steps": [weight(50), pause("20m")], "analysis": named("loq-error-rate")}},
        [("loq", "error-rate.e6s", "loq-error-rate", "error-rate", LOQ)],
        nobody=(32, 14, 50, "at the end")),
    "several-templates.yaml": Taken(
        {"apdex-for-profile": [
            {"name": "apdex.e6n", "successCondition": "result >= 850000", "interval": "1m",
             "failureLimit": 3}],
         "restarts": [
             {"name": "restarts.e6wf", "failureCondition": "result >= 1000000",
              "interval": "1m", "failureLimit": 0}]},
        {"profile": {"steps": [weight(20), pause("5m"), weight(50), pause("5m")],
                     "analysis": named("apdex-for-profile", "restarts", startingStep=1)}},
        [("profile", "apdex.e6n", "apdex-for-profile", "apdex", APDEX),
         ("profile", "restarts.e6wf", "restarts", "restarts",
          prometheus("http://prometheus:9090", RESTARTS),
          {"stable-hash": {"podTemplateHashValue": "Stable"}})],
        nan=(21, 5), nobody=(41, 14, 20, "before setWeight 50")),
}


class Refused:
    """A file in which something is found. Nothing is noted or warned of."""

    def __init__(self, findings):
        self.findings, self.notes, self.warnings = findings, [], []


def success(at, line, text):
    return line, 23, f"spec.metrics[{at}].successCondition", text


def failure(at, line, text):
    return line, 23, f"spec.metrics[{at}].failureCondition", text


def provider(at, line, text):
    return line, 15, f"spec.metrics[{at}].provider", text


REFUSED = {
    "dry-run-of-an-analysis.yaml": Refused([
        (32, 25, "spec.strategy.canary.steps[1].setCanaryScale",
         "expected no member but setWeight, pause or analysis (others are unsupported)\n"
         "    instead: leave the step out: the desk scales no pods"),
        (29, 9, "spec.strategy.canary.analysis.dryRun",
         "expected none or an empty list (others are unsupported)\n"
         "    instead: write dryRun in the spec of the AnalysisTemplate"),
    ]),
    "refused.yaml": Refused([
        success(0, 13, f"byte 11: {TEXT}"),
        success(1, 16, f"byte 11: {TRUTH}"),
        success(2, 19, f"byte 1: {TRUTH}"),
        success(3, 22, "byte 1: a member: put the path into the provider's jsonPath"),
        success(4, 25, "byte 11: arithmetic: do it in the query"),
        success(5, 28, "byte 1: two results: put their quotient or difference into the query"),
        success(6, 31, f"byte 1: {FUNCTION}"),
        failure(7, 34, "byte 1: asInt beside isNaN or isInf: leave asInt out"),
        (36, 5, "spec.metrics[8]",
         "default beside a value without it: write it at each value"),
        success(9, 40, "byte 17: nil: write default(result, 0) at each value, or leave it out"),
        success(10, 43, f"byte 13: {NUMBER}"),
        success(11, 46, f"byte 13: {NUMBER}"),
        success(12, 49, "byte 20: this number is too large for the digits after the points"),
        success(13, 52, "byte 3: a comparison is wanted here, as result[0] >= 0.95"),
        success(14, 55, "byte 17: a chain: write 1 < result && result < 5"),
        success(15, 58, "byte 1: ! before a comparison: write !(result > 5)"),
        success(16, 61, "byte 17: a choice: write default(result, 0) for ??, and no ? :"),
        success(17, 64, "byte 8: in: write result == 1 || result == 2, and so on"),
        (66, 5, "spec.metrics[18]", "result beside result[0]: write one of the two"),
        (70, 5, "spec.metrics[19]", PLACE),
        success(20, 74, "{{args.threshold}} is no argument of the template: "
                        "add it to its spec.args"),
        success(21, 77, "{{args.limit}} has no value for Rollout nothing: "
                        "give it one in the args of its analysis"),
        success(22, 80, "{{args.hash}} is known only as the agent measures: write a constant"),
        (82, 11, "spec.metrics[23].name",
         "a name that ends as that of a translated metric: write another one"),
        provider(24, 86, "kayenta is not asked: "
                         "write the metrics of its canary judgement one by one"),
        provider(25, 89, "a job has no result: leave the conditions of the metric out"),
        provider(26, 92, "expected an object with one provider: write a metric for each"),
        (105, 27, "spec.strategy.canary.steps[1].analysis.templates[1].templateName",
         "AnalysisTemplate elsewhere is in none of the files"),
    ]),
}
