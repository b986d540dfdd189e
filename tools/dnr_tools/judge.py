"""All faults of rules, as the built program judges them.

The program names the first fault of a rules file. So each rule is asked for alone, and one that is refused is asked again
without the part that was at fault, until it is taken or nothing of it is left. Of a list each entry is asked for alone.
"""
from copy import deepcopy
from typing import NamedTuple

from dnr_lines.session import Session

STUB = {"id": 1, "condition": {}, "action": {"type": "block"}}
ENOUGH = 20


class Fault(NamedTuple):
    """A fault: the code, the field's path in the rule, the reason that the program gives, and the value at fault."""

    code: str
    path: tuple
    why: str = ""
    value: object = None


class Judge:
    """Asks the program for rules of a kind: "static", "dynamic" or "session"."""

    def __init__(self, kind):
        self.kind, self.session = kind, Session()
        self.session.ask({"cmd": "install", "extension": "rules", "rulesets": []})

    def __enter__(self):
        return self

    def __exit__(self, *_):
        self.session.__exit__()

    def lines(self, rule):
        """The two lines that ask for a rule and take it back."""
        if self.kind == "static":
            ruleset = {"id": "rule", "enabled": True, "rules": [rule]}
            return [{"cmd": "install", "extension": "rule", "rulesets": [ruleset]}, {"cmd": "uninstall", "extension": "rule"}]
        number = rule.get("id") if isinstance(rule, dict) and isinstance(rule.get("id"), int) else 1
        return [
            {"cmd": self.kind, "extension": "rules", "addRules": [rule]},
            {"cmd": self.kind, "extension": "rules", "removeRuleIds": [number]},
        ]

    def refusals(self, rules):
        """For each rule what the program says of it alone: None, or the refusal."""
        answers = self.session.ask_all(line for rule in rules for line in self.lines(rule))
        return [answer if "refused" in answer else None for answer in answers[::2]]

    def refusal(self, rule):
        """What it says of one rule."""
        return self.refusals([rule])[0]

    def faults(self, rules):
        """For each rule the list of its faults."""
        return [self.all_faults(rule, first) if first else [] for rule, first in zip(rules, self.refusals(rules))]

    def all_faults(self, rule, refusal):
        """The faults of a rule that is refused so."""
        faults, rest = [], deepcopy(rule)
        while refusal and len(faults) < ENOUGH:
            found, rest = self.fault_and_rest(rest, refusal)
            faults += found
            refusal = self.refusal(rest) if rest is not None else None
        return faults

    def fault_and_rest(self, rule, refusal):
        """The faults that a refusal tells of, and the rule without what is at fault; None where nothing is left to ask."""
        code, why = refusal["refused"], refusal.get("why", "")
        if code == "not-object":
            return [Fault(code, (), why, rule)], None
        if code in ("bad-action", "bad-redirect", "bad-transform", "bad-header"):
            return self.action_faults(rule, code, why), {**rule, "action": STUB["action"]}
        path = tuple(refusal["path"].split(".")) if "path" in refusal else PATHS[code]
        faults = self.entry_faults(code, path, value_at(rule, path)) or [Fault(code, path, why, value_at(rule, path))]
        return faults, without(rule, code, path)

    def entry_faults(self, code, path, value):
        """The faults of the entries of a list, each asked for alone."""
        if not isinstance(value, list) or code not in ("bad-field", "bad-domain", "bad-header-test") or len(path) != 2:
            return []
        told = self.refusals([{**STUB, "condition": {path[1]: [entry]}} for entry in value])
        return [
            Fault(code, (*path, place), "", value[place])
            for place, refusal in enumerate(told)
            if refusal and refusal["refused"] == code
        ]

    def action_faults(self, rule, code, why):
        """The faults of an action: of header changes and of the fields of a transform each is asked for alone."""
        action = rule.get("action")
        parts = list(action_parts(action, code))
        told = self.refusals([{"id": 1, "condition": {"regexFilter": "(.)"}, "action": part} for _, part in parts])
        faults = [
            Fault(code, ("action", *path), refusal.get("why", ""), value_at(action, path))
            for (path, _), refusal in zip(parts, told)
            if refusal and refusal["refused"] == code
        ]
        return faults or [Fault(code, ("action", *PARTS.get(code, ())), why, action)]


PARTS = {"bad-redirect": ("redirect",), "bad-transform": ("redirect", "transform")}
PATHS = {
    "bad-id": ("id",),
    "duplicate-id": ("id",),
    "bad-priority": ("priority",),
    "both-filters": ("condition", "regexFilter"),
    "bad-url-filter": ("condition", "urlFilter"),
    "bad-regex": ("condition", "regexFilter"),
    "pattern-host": ("condition", "regexFilter"),
    "both-type-lists": ("condition", "excludedResourceTypes"),
    "allow-all-types": ("condition", "resourceTypes"),
    "tabs-not-session": ("condition", "tabIds"),
}


def action_parts(action, code):
    """The parts of an action that can be asked for alone: the path of each in the action, and an action with no other."""
    if code == "bad-header":
        for name in ("requestHeaders", "responseHeaders"):
            listed = action.get(name)
            for place, change in enumerate(listed if isinstance(listed, list) else ()):
                yield (name, place), {"type": "modifyHeaders", name: [change]}
    transform = value_at(action, ("redirect", "transform"))
    if code == "bad-transform" and isinstance(transform, dict):
        for name, value in transform.items():
            yield ("redirect", "transform", name), {"type": "redirect", "redirect": {"transform": {name: value}}}


def value_at(value, path):
    """What a path leads to, or None."""
    for step in path:
        try:
            value = value[step]
        except (LookupError, TypeError):
            return None
    return value


def without(rule, code, path):
    """A rule without the field at fault, or with one that is none."""
    rest = deepcopy(rule)
    if code in ("bad-id", "duplicate-id"):
        return {**rest, "id": 1}
    if path == ("condition",):
        return {**rest, "condition": {}}
    if code == "allow-all-types":
        rest["condition"].pop("excludedResourceTypes", None)
        rest["condition"]["resourceTypes"] = ["main_frame"]
        return rest
    if code in ("bad-regex", "pattern-host"):
        rest["condition"]["regexFilter"] = "()()()()()()()()()"
        return rest
    if code == "tabs-not-session":
        rest["condition"].pop("excludedTabIds", None)
    holder = value_at(rest, path[:-1])
    if not isinstance(holder, dict) or path[-1] not in holder:
        return None
    del holder[path[-1]]
    return rest
