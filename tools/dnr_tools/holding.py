"""Which of many rules fit a request, though one alone decides: the one that decides is disabled, and asked is again."""
from copy import deepcopy

# Rules are handed to the program in rulesets of so many.
RULESET, MOST = 20_000, 40
# What of a condition is told by the URL alone.
BY_URL = ("urlFilter", "regexFilter", "isUrlFilterCaseSensitive", "requestDomains", "excludedRequestDomains")
NAME = "probe"


def by_url(rule):
    """The condition of a rule, as far as the URL alone decides it; it holds on all types."""
    kept = {key: value for key, value in rule["condition"].items() if key in BY_URL}
    return {**kept, "excludedResourceTypes": []}


def blocking(number, condition):
    """A rule that blocks where a condition holds."""
    return {"id": number, "condition": condition, "action": {"type": "block"}}


class Probe:
    """An extension of a session that has the rules which are asked for; it is gone when it is left."""

    def __init__(self, session, conditions):
        self.session = session
        rules = [blocking(number, condition) for number, condition in enumerate(conditions, 1)]
        sets = [rules[start : start + RULESET] for start in range(0, len(rules), RULESET)]
        self.sets = [{"id": f"s{place}", "enabled": True, "rules": some} for place, some in enumerate(sets)]

    def __enter__(self):
        self.session.ask({"cmd": "install", "extension": NAME, "rulesets": self.sets})
        return self

    def __exit__(self, *_):
        self.session.ask({"cmd": "uninstall", "extension": NAME})

    def winner(self, request):
        """The rule of this extension that decides a request: its set and its number, or None."""
        told = self.session.ask({**request, "cmd": "explain"})
        rule = next((why["rule"] for why in told.get("why", ()) if why["extension"] == NAME), None)
        return (rule[1], rule[2]) if rule else None

    def fitting(self, request):
        """The places of the conditions that hold on a request, at most some, ascending."""
        found, update = [], {"cmd": "static", "extension": NAME}
        while len(found) < MOST and (winner := self.winner(request)):
            found.append(winner)
            self.session.ask({**update, "rulesetId": winner[0], "disableRuleIds": [winner[1]]})
        for name, number in found:
            self.session.ask({**update, "rulesetId": name, "enableRuleIds": [number]})
        return sorted(number - 1 for _, number in found)


def holds(session, condition, request):
    """Whether a condition holds on a request itself, by a rule of its own."""
    with Probe(session, [deepcopy(condition)]) as probe:
        return probe.winner(request) is not None
