"""Exceptions that nearly held on a request: their pattern fits its URL, and something else does not."""
from typing import NamedTuple

from dnr_tools.holding import Probe, by_url, holds
from dnr_tools.words import some

# The parts of a condition besides those told by the URL, and how a request says of each what it is.
PARTS = (
    ("resourceTypes", "excludedResourceTypes"),
    ("domainType",),
    ("initiatorDomains", "excludedInitiatorDomains", "domains", "excludedDomains"),
    ("requestMethods", "excludedRequestMethods"),
    ("tabIds", "excludedTabIds"),
    ("responseHeaders", "excludedResponseHeaders"),
)


class Allowing(NamedTuple):
    """A rule that allows: where it stands, how it is written there, and the rule."""

    place: str
    text: str
    rule: dict


def site(request):
    """Who asks, in words."""
    return request.get("initiator") or "nobody"


def part_words(condition, request):
    """What a part of a condition asks for, and what the request is instead."""
    if "resourceTypes" in condition:
        return f"it is for {some(condition['resourceTypes'], 4)}, and this is {request['type']}"
    if "excludedResourceTypes" in condition:
        return f"it is not for {some(condition['excludedResourceTypes'], 4)}"
    if "domainType" in condition:
        party = {"firstParty": "first", "thirdParty": "third"}[condition["domainType"]]
        return f"it is for the {party} party alone, and {site(request)} is not that"
    listed = condition.get("initiatorDomains") or condition.get("domains")
    if listed:
        return f"it is for what {some(listed)} {'asks' if len(listed) == 1 else 'ask'} for, and here it is {site(request)}"
    excluded = condition.get("excludedInitiatorDomains") or condition.get("excludedDomains")
    if excluded:
        return f"it is not for what {some(excluded)} {'asks' if len(excluded) == 1 else 'ask'} for"
    if "requestMethods" in condition or "excludedRequestMethods" in condition:
        return f"it is not for the method {request.get('method', 'get')}"
    if "tabIds" in condition or "excludedTabIds" in condition:
        return "it is for other tabs"
    return "its tests of response headers aren't met"


def reasons(session, rule, request):
    """Why an exception whose pattern fits doesn't hold: each part of its condition is asked for alone."""
    base, condition = by_url(rule), rule["condition"]
    if not any(key in condition for key in PARTS[0]) and request["type"] == "main_frame":
        yield "it is for what pages load, and this is a page"
    for names in PARTS:
        part = {name: condition[name] for name in names if name in condition}
        if not part:
            continue
        asked = {**base, **part}
        if names is PARTS[0]:
            asked = {**{key: value for key, value in base.items() if key != "excludedResourceTypes"}, **part}
        if not holds(session, asked, request):
            yield part_words(part, request)


def fitting(session, conditions, request):
    """The places of the conditions that fit a request."""
    with Probe(session, conditions) as probe:
        return probe.fitting(request)


def nearly(session, exceptions, request):
    """Pairs of an exception that nearly held and the reasons why it didn't."""
    for place in fitting(session, [by_url(it.rule) for it in exceptions], request):
        found = list(reasons(session, exceptions[place].rule, request))
        yield exceptions[place], found
    pages = [request["initiator"]] if request.get("initiator") and not request.get("frames") else []
    whole = [it for it in exceptions if it.rule["action"]["type"] == "allowAllRequests"]
    for page in pages:
        asked = {"url": page, "type": "main_frame"}
        for place in fitting(session, [by_url(it.rule) for it in whole], asked):
            yield whole[place], [f"it exempts what the page {page} loads, and no --frame said that this is one of its requests"]
