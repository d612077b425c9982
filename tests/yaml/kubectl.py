"""Asks kubectl, without a cluster: what it reads, and how it prints. It changes manifests by
`annotate --local`, which leaves their members as they are."""
import json
import shutil
import subprocess

HEAD = {"apiVersion": "v1", "kind": "Any", "metadata": {"name": "any"}}
ANNOTATE = ["kubectl", "--kubeconfig=/dev/null", "annotate", "--local", "-f", "-", "read=yes", "-o"]


def is_here():
    return shutil.which("kubectl") is not None


def asked(text, form):
    done = subprocess.run([*ANNOTATE, form], input=text.encode(), capture_output=True, timeout=60,
                          check=True)
    return done.stdout.decode()


def is_value(word):
    """Whether a plain scalar is one that stands after a colon, and has a meaning in JSON."""
    return not word.endswith(":") and word.lower()[-4:] not in (".inf", ".nan")


def read(words):
    """The values of plain scalars, as kubectl reads them."""
    head = "".join(f"{key}: {json.dumps(value)}\n" for key, value in HEAD.items())
    members = "".join(f"  k{number}: {word}\n" for number, word in enumerate(words))
    spec = json.loads(asked(f"{head}spec:\n{members}", "json"))["spec"]
    return [spec[f"k{number}"] for number in range(len(words))]


def printable(values):
    """Those of which kubectl's print is read by all: it leaves a key `<<` without quotes, and texts
    that are numbers out of range to others."""
    texts = ('"<<"', '"1e999"', '"0x10000000000000000"')
    return [value for value in values if not any(it in json.dumps(value) for it in texts)]


def printed(values):
    """Values in YAML, each as the member `spec` of a document, as kubectl prints them."""
    manifests = [json.dumps({**HEAD, "spec": {"value": value}}) for value in values]
    return asked("\n".join(manifests), "yaml")


def alike(left, right):
    """Equality in which a number is a float, as kubectl has most."""
    if isinstance(left, bool) or isinstance(right, bool):
        return left is right
    if isinstance(left, (int, float)) and isinstance(right, (int, float)):
        return float(left) == float(right)
    if isinstance(left, dict) and isinstance(right, dict):
        return left.keys() == right.keys() and all(alike(left[it], right[it]) for it in left)
    if isinstance(left, list) and isinstance(right, list):
        return len(left) == len(right) and all(map(alike, left, right))
    return left == right
