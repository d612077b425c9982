"""What PyYAML reads of a text under the core schema of YAML 1.2, with JSON in view, and which plain
scalars YAML 1.1, YAML 1.2 and kubectl read as different values."""
import contextlib
import datetime
import math
import re

import yaml

TAG = "tag:yaml.org,2002:"
# The core schema (YAML 1.2.2, 10.3.2).
SCHEMA = {
    "null": (r"~|null|Null|NULL|", ["~", "n", "N", ""]),
    "bool": (r"true|True|TRUE|false|False|FALSE", list("tTfF")),
    "int": (r"[-+]?[0-9]+|0o[0-7]+|0x[0-9a-fA-F]+", list("-+0123456789")),
    "float": (r"[-+]?(\.[0-9]+|[0-9]+(\.[0-9]*)?)([eE][-+]?[0-9]+)?"
              r"|[-+]?\.(inf|Inf|INF)|\.(nan|NaN|NAN)", list("-+.0123456789")),
    "merge": ("<<", ["<"]),
}
# What kubectl takes for a boolean or a number, and neither YAML 1.2 nor PyYAML by YAML 1.1 does: y
# and n, and numbers in other bases, if each `_` is left out.
KUBECTL = re.compile(r"[yYnN]|[-+]?0([bB][01]+|[oO][0-7]+|[xX][0-9a-fA-F]+)")
KUBECTL_DECIMAL = re.compile(r"[-+]?(\.[0-9]+|[0-9]+(\.[0-9]*)?)([eE][-+]?[0-9]+)?")
# All of them read these alike.
HEXADECIMAL = re.compile("0x[0-9a-fA-F]+")


class Left(Exception):
    """What is refused by name."""


class CoreLoader(yaml.SafeLoader):
    """PyYAML's reader of structure under the core schema."""

    yaml_implicit_resolvers = {}


for name, (pattern, first) in SCHEMA.items():
    CoreLoader.add_implicit_resolver(TAG + name, re.compile(f"^(?:{pattern})$"), first)


def core_int(loader, node):
    """An integer: beyond 64 bits, and below 0 if it is -0, the float that JSON's readers take."""
    text = loader.construct_scalar(node)
    if text[:2] in ("0x", "0o"):
        number = int(text[2:], 16 if text[1] == "x" else 8)
        if number >= 2 ** 64:
            raise Left("range")
        return number
    number = int(text, 10)
    is_whole = -2 ** 63 <= number < 2 ** 64 and (number or text[0] != "-")
    return number if is_whole else finite(float(text))


def finite(number):
    if not math.isfinite(number):
        raise Left("range")
    return number


def core_float(loader, node):
    text = loader.construct_scalar(node).lower()
    if text.endswith(("inf", "nan")):
        raise Left("not finite")
    return finite(float(text))


def core_str(loader, node):
    # PyYAML leaves two escapes \\u of a pair of surrogates apart; JSON has one character for them.
    return loader.construct_scalar(node).encode("utf-16", "surrogatepass").decode("utf-16")


def core_map(loader, node):
    found = {}
    for key_node, value_node in node.value:
        if not isinstance(key_node, yaml.ScalarNode) or key_node.tag == TAG + "merge":
            raise Left("key")
        key = loader.construct_object(key_node, deep=True)
        if not isinstance(key, str) or key in found:
            raise Left("key")
        found[key] = loader.construct_object(value_node, deep=True)
    return found


for name, function in {"int": core_int, "float": core_float, "str": core_str, "map": core_map,
                       "merge": core_str}.items():
    CoreLoader.add_constructor(TAG + name, function)


def value_by(loader_class, word):
    """The value of a plain scalar: a date and `=` of YAML 1.1 are their texts, as in JSON."""
    loader = loader_class("")
    tag = loader.resolve(yaml.ScalarNode, word, (True, False))
    with contextlib.suppress(ValueError, yaml.YAMLError):
        value = loader.construct_object(yaml.ScalarNode(tag, word))
        return word if isinstance(value, (datetime.date, datetime.datetime)) else value
    return word


def is_apart(word):
    """Whether YAML 1.1, YAML 1.2 and kubectl read a plain scalar as different values. kubectl reads
    the floats of YAML 1.2, of which YAML 1.1 has fewer."""
    new = value_by(CoreLoader, word)
    if isinstance(new, float):
        return False
    if is_number_of_kubectl(word) and not HEXADECIMAL.fullmatch(word):
        return True
    return not same(value_by(yaml.SafeLoader, word), new)


def is_number_of_kubectl(word):
    """go-yaml v2, by which kubectl reads, leaves out each `_` of a word that begins as a number."""
    short = word.replace("_", "") if word[:1] in set("+-0123456789") else word
    return bool(KUBECTL.fullmatch(short) or short != word and KUBECTL_DECIMAL.fullmatch(short))


def refuse_apart(node):
    """Refuses a node with a plain scalar that is read as different values."""
    if isinstance(node, yaml.ScalarNode):
        if node.style is None and is_apart(node.value):
            raise Left("versions")
        return
    for part in node.value:
        for one in part if isinstance(part, tuple) else (part,):
            refuse_apart(one)


def refuse_events(text):
    for event in yaml.parse(text, Loader=CoreLoader):
        is_start = isinstance(event, yaml.DocumentStartEvent)
        if getattr(event, "anchor", None) or getattr(event, "tag", None):
            raise Left("anchor, alias or tag")
        if is_start and (event.version or event.tags):
            raise Left("directive")


def documents_of(text):
    refuse_events(text)
    loader, documents = CoreLoader(text), []
    while loader.check_node():
        node = loader.get_node()
        refuse_apart(node)
        value = loader.construct_document(node)
        if not (value is None and node.start_mark.index == node.end_mark.index):
            documents.append(value)
    return documents


def core(text):
    """("read", documents), without those that are empty, or ("refused", why)."""
    try:
        return "read", documents_of(text)
    except Left as left:
        return "refused", str(left)
    except yaml.YAMLError as error:
        return "refused", f"PyYAML: {getattr(error, 'problem', error)}"
    except (ValueError, OverflowError, RecursionError) as error:
        return "refused", f"Python: {error}"


def same(left, right):
    """Equality that keeps 1 from 1.0 and from True, and -0.0 from 0.0."""
    if type(left) is not type(right):
        return False
    if isinstance(left, dict):
        return left.keys() == right.keys() and all(same(left[key], right[key]) for key in left)
    if isinstance(left, list):
        return len(left) == len(right) and all(map(same, left, right))
    if isinstance(left, float):
        return left == right and math.copysign(1, left) == math.copysign(1, right)
    return left == right
