"""Rules that can hold on no request, by their conditions alone."""
import re

from dnr_tools.known import TYPES
from dnr_tools.words import some

SCHEMES = ("http://", "https://", "ws://", "wss://", "ftp://", "chrome-extension://")
# The URL Standard writes none of these in what stands before a fragment.
NOT_IN_URLS = re.compile(r'[\x00-\x20"<>#\x7f]')
ODD_WORDS = {"#": "a fragment, which is cut off", " ": "a space, which stands as %20"}
BEHIND_DOMAIN_ANCHOR = re.compile(r"[A-Za-z0-9._\[*^-]|$")
PLAIN_HOST = re.compile(r"\|\|([a-z0-9_-]+(?:\.[a-z0-9_-]+)*)[/^].*", re.I)


def under(domain, other):
    """Whether a domain is another or one of its subdomains."""
    domain, other = domain.lower(), other.lower()
    return domain == other or domain.endswith(f".{other}")


def by_lists(condition):
    """Why a condition's lists keep it from holding, or None."""
    if set(condition.get("excludedResourceTypes", ())) == set(TYPES):
        return "it excludes every type"
    for name in ("initiatorDomains", "requestDomains", "domains"):
        listed, excluded = condition.get(name, ()), condition.get(f"excluded{name[0].upper()}{name[1:]}", ())
        if listed and all(any(under(one, other) for other in excluded) for one in listed):
            return f"each of its {name} is excluded, too"
    for name in ("requestMethods", "tabIds"):
        listed, excluded = condition.get(name, ()), condition.get(f"excluded{name[0].upper()}{name[1:]}", ())
        if listed and set(listed) <= set(excluded):
            return f"each of its {name} is excluded, too"
    return None


def by_domain_anchor(rest, heeds_case):
    """Why a pattern behind `||` fits nothing, or None."""
    if not BEHIND_DOMAIN_ANCHOR.match(rest):
        return f"|| stands before a host, and no host has {rest[0]}"
    host = re.match(r"[^/^*?:|]*", rest)[0]
    if heeds_case and host != host.lower():
        return f"it heeds case, and hosts such as {host} are written in lower case"
    return None


def by_begin_anchor(rest, heeds_case):
    """Why a pattern behind `|` fits nothing, or None."""
    literal = re.match(r"[^*^|]*", rest)[0]
    literal = literal if heeds_case else literal.lower()
    if any(scheme.startswith(literal) or literal.startswith(scheme) for scheme in SCHEMES):
        return None
    return f"| stands before the beginning of a URL, and none that rules see begins with {literal[:20]}"


def by_pattern(condition):
    """Why the urlFilter fits no URL, or None."""
    text = condition.get("urlFilter", "")
    odd = NOT_IN_URLS.search(text)
    if odd:
        return f"no URL that rules see has {ODD_WORDS.get(odd[0]) or repr(odd[0]) + ', which is escaped'}"
    heeds_case = condition.get("isUrlFilterCaseSensitive") is True
    if text.startswith("||"):
        return by_domain_anchor(text[2:], heeds_case)
    return by_begin_anchor(text[1:], heeds_case) if text.startswith("|") else None


def by_host(condition):
    """Why the host of the urlFilter is none of the requestDomains, or None."""
    plain = PLAIN_HOST.fullmatch(condition.get("urlFilter", ""))
    listed = condition.get("requestDomains")
    if not plain or not listed or any(under(plain[1], one) or under(one, plain[1]) for one in listed):
        return None
    return f"its urlFilter is for {plain[1]}, and its requestDomains are {some(listed)}"


def by_action(rule):
    """Why the action has nothing to do where the condition holds, or None."""
    text = rule["condition"].get("urlFilter", "").lower()
    if rule["action"]["type"] == "upgradeScheme" and text.startswith(("|https:", "|ws:", "|wss:")):
        return "upgradeScheme is for http and ftp"
    return None


def never(rule):
    """Why a rule that the program takes can hold on no request, or None."""
    condition = rule["condition"]
    return by_lists(condition) or by_pattern(condition) or by_host(condition) or by_action(rule)
