"""The keys that rules have, and what is meant by one that they don't have."""
from difflib import get_close_matches

TYPES = """main_frame sub_frame stylesheet script image font object xmlhttprequest ping csp_report media websocket webtransport
webbundle other""".split()
METHODS = "connect delete get head options patch post put other".split()
ACTIONS = "block redirect allow upgradeScheme modifyHeaders allowAllRequests".split()
# The words that fields of a condition may have, or their entries.
WORDS = {
    "resourceTypes": TYPES,
    "excludedResourceTypes": TYPES,
    "requestMethods": METHODS,
    "excludedRequestMethods": METHODS,
    "domainType": ["firstParty", "thirdParty"],
}
HEADER_TEST = {"header": None, "values": None, "excludedValues": None}
HEADER_CHANGE = {"header": None, "operation": None, "value": None}
PAIR = {"key": None, "value": None, "replaceOnly": None}
CONDITION = dict.fromkeys(
    """urlFilter regexFilter isUrlFilterCaseSensitive initiatorDomains excludedInitiatorDomains domains excludedDomains
    requestDomains excludedRequestDomains domainType resourceTypes excludedResourceTypes requestMethods excludedRequestMethods
    tabIds excludedTabIds topDomains excludedTopDomains""".split()
)
CONDITION.update(responseHeaders=[HEADER_TEST], excludedResponseHeaders=[HEADER_TEST])
TRANSFORM = dict.fromkeys("scheme host port path query fragment username password".split())
TRANSFORM["queryTransform"] = {"removeParams": None, "addOrReplaceParams": [PAIR]}
REDIRECT = {"extensionPath": None, "url": None, "regexSubstitution": None, "transform": TRANSFORM}
ACTION = {"type": None, "redirect": REDIRECT, "requestHeaders": [HEADER_CHANGE], "responseHeaders": [HEADER_CHANGE]}
RULE = {"id": None, "priority": None, "condition": CONDITION, "action": ACTION}
OPTIONS = """script image stylesheet object xmlhttprequest ping websocket font media subdocument other third-party domain
match-case document""".split()
# Options of uBlock Origin and Adblock Plus that no rule can say.
FURTHER_OPTIONS = "popup csp redirect removeparam important replace rewrite permissions header badfilter".split()
# What uBlock Origin calls options that Adblock Plus has under another name.
OTHER_NAMES = {
    "3p": "third-party",
    "1p": "~third-party",
    "first-party": "~third-party",
    "strict3p": "third-party",
    "strict1p": "~third-party",
    "xhr": "xmlhttprequest",
    "frame": "subdocument",
    "css": "stylesheet",
    "from": "domain",
    "doc": "document",
    "beacon": "ping",
}


def unknown(value, known, path=()):
    """The keys in a value that are not known, each with its path, and the known ones that may stand there."""
    if isinstance(known, list) and isinstance(value, list):
        for place, entry in enumerate(value):
            yield from unknown(entry, known[0], (*path, place))
    elif isinstance(known, dict) and isinstance(value, dict):
        for key, inner in value.items():
            if key in known:
                yield from unknown(inner, known[key], (*path, key))
            else:
                yield (*path, key), list(known)


def meant(word, among):
    """The word among these that is most likely meant, or None."""
    folded = {it.lower().replace("-", "").replace("_", ""): it for it in among}
    near = get_close_matches(word.lower().replace("-", "").replace("_", ""), folded, 1, 0.75)
    return folded[near[0]] if near else None
