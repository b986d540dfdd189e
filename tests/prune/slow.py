#!/usr/bin/env python3
"""Says what `dnr prune RULES` has to print, by comparing each rule with each: tests/prune/slow.py RULES

It is written from docs/BEHAVIOUR.md and docs/FORMATS.md alone, for files that `dnr check` accepts as static rules.
Rules that make others needless are looked for in no clever order, so it takes minutes where the program takes a moment.
"""
import json
import re
import sys
from pathlib import Path

TYPES = (
    "main_frame sub_frame stylesheet script image font object xmlhttprequest ping csp_report media websocket"
    " webtransport webbundle other"
).split()
DEFAULT_TYPES = TYPES[1:]
METHODS = "connect delete get head options patch post put other".split()
SAFE = ("block", "allow", "allowAllRequests", "upgradeScheme")
MOST = 10_000
PLAIN = re.compile(r"\|\|((?:[a-z0-9_-]+\.)*[a-z0-9_-]*[a-z][a-z0-9_-]*)\^")


# ---- rules as they are read


def lower(text):
    """The text with the letters of ASCII in lower case."""
    return "".join(c.lower() if c.isascii() else c for c in text)


def domains_of(condition, name, old=None):
    """A list of domains, under its name or its old one; none where it is absent."""
    entries = condition.get(name, condition.get(old) if old else None)
    return None if entries is None else [lower(entry) for entry in entries]


def types_of(condition):
    """The types on which the rule holds."""
    if "resourceTypes" in condition:
        return set(condition["resourceTypes"])
    if condition.get("excludedResourceTypes"):
        return set(TYPES) - set(condition["excludedResourceTypes"])
    return set(DEFAULT_TYPES)


def test_of(test):
    """A test of response headers as it is kept."""
    values = test.get("values")
    return (lower(test["header"]), None if values is None else tuple(values), tuple(test.get("excludedValues") or ()))


def tests_of(condition, name):
    """Tests of response headers, in their order; none where the list is absent."""
    tests = condition.get(name)
    return None if tests is None else tuple(test_of(test) for test in tests)


class Rule:
    """A rule, with what is compared of it."""

    def __init__(self, given):
        condition = given["condition"]
        self.given = given
        self.id = given["id"]
        self.priority = given.get("priority", 1)
        self.action = given["action"]["type"]
        self.pattern = condition.get("urlFilter")
        self.expression = condition.get("regexFilter")
        self.case = condition.get("isUrlFilterCaseSensitive", False)
        self.initiators = domains_of(condition, "initiatorDomains", "domains")
        self.not_initiators = domains_of(condition, "excludedInitiatorDomains", "excludedDomains") or []
        self.hosts = domains_of(condition, "requestDomains")
        self.not_hosts = domains_of(condition, "excludedRequestDomains") or []
        self.party = condition.get("domainType")
        self.types = types_of(condition)
        self.methods = condition.get("requestMethods")
        self.not_methods = condition.get("excludedRequestMethods") or []
        self.tabs = condition.get("tabIds")
        self.not_tabs = condition.get("excludedTabIds") or []
        self.tests = tests_of(condition, "responseHeaders")
        self.not_tests = tests_of(condition, "excludedResponseHeaders") or ()
        plain = self.pattern is not None and PLAIN.fullmatch(self.pattern)
        self.domain = plain.group(1) if plain else None


# ---- which rules make others needless


def is_address(host):
    """Whether the host is that of an address."""
    return host.startswith("[") or re.fullmatch(r"[0-9]+", host.rsplit(".", 1)[-1]) is not None


def covers(entry, host):
    """Whether a listed domain covers the host."""
    return entry == host or (not is_address(host) and host.endswith("." + entry))


def all_covered(entries, domains):
    """Whether each of the domains is covered by an entry."""
    return all(any(covers(entry, domain) for entry in entries) for domain in domains)


def has_weaker_filter(k, s):
    if k.pattern is None and k.expression is None:
        return True
    if k.pattern is not None and k.pattern == s.pattern and (not k.case or s.case):
        return True
    if k.domain is not None and s.domain is not None and (s.domain == k.domain or s.domain.endswith("." + k.domain)):
        return True
    return k.expression is not None and k.expression == s.expression and k.case == s.case


def includes_domains(k, s):
    """Whether a list of domains that must cover is absent, or takes in the other."""
    return k is None or (s is not None and all_covered(k, s))


def includes(k, s):
    """Whether a list is absent, or the other is part of it."""
    return k is None or (s is not None and set(s) <= set(k))


def tests_no_others(k, s):
    if k.tests is None and not k.not_tests:
        return True
    return k.tests == s.tests and k.not_tests == s.not_tests


def shadows(k, s):
    """Whether k makes s needless, without a look at where they stand."""
    return (
        k.id != s.id
        and k.action == s.action
        and k.action in SAFE
        and k.priority >= s.priority
        and has_weaker_filter(k, s)
        and includes_domains(k.initiators, s.initiators)
        and all_covered(s.not_initiators, k.not_initiators)
        and includes_domains(k.hosts, s.hosts)
        and all_covered(s.not_hosts, k.not_hosts)
        and k.party in (None, s.party)
        and s.types <= k.types
        and includes(k.methods, s.methods)
        and set(k.not_methods) <= set(s.not_methods)
        and includes(k.tabs, s.tabs)
        and set(k.not_tabs) <= set(s.not_tabs)
        and tests_no_others(k, s)
    )


def removals(rules):
    """The pairs of a rule that goes and the first that stays and makes it needless, in the list's order."""

    def outdoes(i, j):
        return shadows(rules[i], rules[j]) and (not shadows(rules[j], rules[i]) or i < j)

    places = range(len(rules))
    better = [[i for i in places if outdoes(i, j)] for j in places]
    return [(rules[j], rules[next(i for i in better[j] if not better[i])]) for j in places if better[j]]


# ---- rules as they are written


def ascending(entries):
    return sorted(set(entries), key=lambda entry: entry.encode() if isinstance(entry, str) else entry)


def written_test(test):
    name, values, excluded = test
    written = {"header": name}
    if values is not None:
        written["values"] = list(values)
    if excluded:
        written["excludedValues"] = list(excluded)
    return written


def written_condition(rule):
    fields = {}
    for name, text in (("urlFilter", rule.pattern), ("regexFilter", rule.expression), ("domainType", rule.party)):
        if text is not None:
            fields[name] = text
    if rule.case:
        fields["isUrlFilterCaseSensitive"] = True
    for name, entries in (
        ("initiatorDomains", rule.initiators),
        ("excludedInitiatorDomains", rule.not_initiators or None),
        ("requestDomains", rule.hosts),
        ("excludedRequestDomains", rule.not_hosts or None),
        ("tabIds", rule.tabs),
        ("excludedTabIds", rule.not_tabs or None),
    ):
        if entries is not None:
            fields[name] = ascending(entries)
    if not rule.types:
        fields["excludedResourceTypes"] = TYPES
    elif rule.types != set(DEFAULT_TYPES):
        fields["resourceTypes"] = [name for name in TYPES if name in rule.types]
    if rule.methods is not None:
        fields["requestMethods"] = [name for name in METHODS if name in rule.methods]
    if rule.not_methods:
        fields["excludedRequestMethods"] = [name for name in METHODS if name in rule.not_methods]
    if rule.tests is not None:
        fields["responseHeaders"] = [written_test(test) for test in rule.tests]
    if rule.not_tests:
        fields["excludedResponseHeaders"] = [written_test(test) for test in rule.not_tests]
    return fields


def written_pair(pair):
    written = {"key": pair["key"], "value": pair["value"]}
    if pair.get("replaceOnly"):
        written["replaceOnly"] = True
    return written


def written_transform(transform):
    names = ("scheme", "port", "path", "query", "fragment", "username", "password")
    written = {name: transform[name] for name in names if name in transform}
    if "host" in transform:
        written["host"] = lower(transform["host"])
    if "queryTransform" in transform:
        given = transform["queryTransform"]
        query = {}
        if given.get("removeParams"):
            query["removeParams"] = given["removeParams"]
        if given.get("addOrReplaceParams"):
            query["addOrReplaceParams"] = [written_pair(pair) for pair in given["addOrReplaceParams"]]
        written["queryTransform"] = query
    return written


def written_change(change):
    written = {"header": lower(change["header"]), "operation": change["operation"]}
    if "value" in change:
        written["value"] = change["value"]
    return written


def written_action(action):
    written = {"type": action["type"]}
    if action["type"] == "redirect":
        redirect = action["redirect"]
        names = ("extensionPath", "url", "regexSubstitution")
        written["redirect"] = {name: redirect[name] for name in names if name in redirect}
        if "transform" in redirect:
            written["redirect"]["transform"] = written_transform(redirect["transform"])
    if action["type"] == "modifyHeaders":
        for name in ("requestHeaders", "responseHeaders"):
            if action.get(name):
                written[name] = [written_change(change) for change in action[name]]
    return written


def written(rule):
    return {
        "id": rule.id,
        "priority": rule.priority,
        "condition": written_condition(rule),
        "action": written_action(rule.given["action"]),
    }


def compact(value, sort=True):
    return json.dumps(value, ensure_ascii=False, separators=(",", ":"), sort_keys=sort)


# ---- the whole


def output(file, text):
    """What the program writes for the file of this name and text, and the status with which it ends."""
    rules = [Rule(given) for given in json.loads(text)]
    if len(rules) > MOST:
        return compact({"file": file, "refused": "too-many-rules", "count": len(rules)}, sort=False) + "\n", 1
    pairs = removals(rules)
    gone = {s.id for s, _ in pairs}
    rest = [rule for rule in rules if rule.id not in gone]
    lines = [compact({"removed": s.id, "by": k.id}, sort=False) for s, k in pairs]
    lines += [compact({"rules": len(rest)}), compact([written(rule) for rule in rest])]
    return "".join(line + "\n" for line in lines), 0


def main():
    if len(sys.argv) != 2:
        sys.exit(__doc__.split("\n")[0])
    text, status = output(sys.argv[1], Path(sys.argv[1]).read_text(encoding="utf-8"))
    sys.stdout.buffer.write(text.encode())
    sys.exit(status)


if __name__ == "__main__":
    main()
