"""Filters and rules as units that can be compared: what they say, without ids and however they are written.

A list's unit is a line, by the rules that it gives. A rules file's unit is a rule; one for many hosts, such as a compiled
list has, is a unit for each of them.
"""
import json
import re
from collections import defaultdict
from typing import NamedTuple

from dnr_lines.session import run_on
from dnr_tools.known import METHODS, TYPES
from dnr_tools.lists import Unread, read

# A host that a rule names alone is written as the pattern that fits the same URLs.
PLAIN_HOST = re.compile(r"[a-z0-9_-]+(\.[a-z0-9_-]+)*")
OLD_NAMES = {"domains": "initiatorDomains", "excludedDomains": "excludedInitiatorDomains"}


class Unit(NamedTuple):
    """`key` is what is said, `place` where, `text` how, and `about` the filter alone, without what it does."""

    key: str
    place: str
    text: str
    about: str


def normal(rule):
    """A rule that the program takes, written as it writes rules itself, without its id."""
    condition = {OLD_NAMES.get(key, key): value for key, value in rule["condition"].items()}
    for key, value in list(condition.items()):
        if key.endswith("Domains"):
            condition[key] = sorted({entry.lower() for entry in value})
        elif key in ("tabIds", "excludedTabIds"):
            condition[key] = sorted(set(value))
        elif key.endswith("Types") or key.endswith("Methods"):
            condition[key] = [it for it in (TYPES if key.endswith("Types") else METHODS) if it in value]
    excluded = condition.pop("excludedResourceTypes", None)
    if excluded is not None:
        condition["resourceTypes"] = [it for it in TYPES if it not in excluded]
    if condition.get("resourceTypes") == TYPES[1:]:
        del condition["resourceTypes"]
    kept = {key: value for key, value in condition.items() if value not in (False, []) or key == "resourceTypes"}
    return {"priority": rule.get("priority", 1), "condition": kept, "action": rule["action"]}


def by_host(rule):
    """A rule for some hosts and no pattern as one rule for each of them."""
    condition = rule["condition"]
    hosts = condition.get("requestDomains", ())
    plain = all(PLAIN_HOST.fullmatch(host) and not host.rpartition(".")[2].isdigit() for host in hosts)
    if not hosts or not plain or "urlFilter" in condition or "regexFilter" in condition:
        return [rule]
    rest = {key: value for key, value in condition.items() if key not in ("requestDomains", "isUrlFilterCaseSensitive")}
    return [{**rule, "condition": {**rest, "urlFilter": f"||{host}^"}} for host in hosts]


def dumped(value):
    """A value as a text that is the same where the value is."""
    return json.dumps(value, sort_keys=True, separators=(",", ":"), ensure_ascii=False)


def about(rule):
    """What a rule is about: its pattern, or the hosts in its place."""
    condition = rule["condition"]
    pattern = condition.get("urlFilter") or condition.get("regexFilter")
    return pattern or dumped(condition.get("requestDomains", []))


def units_of_list(path, data):
    """The units of a filter list, and all its other lines that say something by their kind and text."""
    units, others = [], []
    for line in read(data)[0]:
        if line.kind not in ("filter", "blank", "comment", "header"):
            others.append((line.kind, line.text))
        for rules in [[one for rule in line.rules for one in by_host(normal(rule))]] if line.rules else []:
            units.append(Unit(dumped(rules), f"{path}:{line.number}", line.text, about(rules[0])))
    return units, others


def units_of_rules(path, data):
    """The units of a rules file. Raises `Unread` where the program refuses it."""
    status, output = run_on(data, "check", "session")
    if status:
        raise Unread(output.decode().strip() or f"dnr check ended with status {status}")
    units = []
    for rule in json.loads(data):
        for one in by_host(normal(rule)):
            units.append(Unit(dumped([one]), f"{path}: rule {rule['id']}", text_of(one), about(one)))
    return units, []


def text_of(rule):
    """A rule in a line: what it does, for what, and on which further conditions."""
    condition = {key: value for key, value in rule["condition"].items() if key not in ("urlFilter", "regexFilter")}
    action = {key: value for key, value in rule["action"].items() if key != "type"}
    words = [rule["action"]["type"], about(rule)]
    words += [dumped(it) for it in (condition, action) if it]
    return " ".join(words) + (f" priority {rule['priority']}" if rule["priority"] != 1 else "")


def units(path):
    """The units of a file, and its other lines."""
    data = path.read_bytes()
    is_rules = data.lstrip()[:1] == b"[" and not data.lstrip().startswith(b"[Adblock")
    return (units_of_rules if is_rules else units_of_list)(path, data)


def counted(units_):
    """Units by their key."""
    found = defaultdict(list)
    for unit in units_:
        found[unit.key].append(unit)
    return found
