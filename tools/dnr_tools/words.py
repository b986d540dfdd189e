"""Words for a person: what codes of the program mean."""

FAULTS = {
    "not-object": "a rule is an object",
    "bad-id": "the id is missing, or no whole number from 1 to 2147483647",
    "duplicate-id": "an earlier rule has this id",
    "bad-priority": "the priority is no whole number from 1 to 2147483647",
    "bad-field": "this has another form",
    "both-filters": "a rule has a urlFilter or a regexFilter, not both",
    "bad-regex": "this is no regular expression that is known here (no look-around, no back-references, at most 4096 bytes of ASCII)",
    "bad-domain": "this is no domain (labels of letters, digits, - and _ with dots between them; past ASCII in punycode)",
    "empty-list": "a list that is given has at least one entry",
    "both-type-lists": "a rule has resourceTypes or excludedResourceTypes, not both",
    "allow-all-types": "allowAllRequests needs resourceTypes, with main_frame and sub_frame alone",
    "bad-header-test": "this header test has no header name, or a pattern that is none",
    "tabs-not-session": "only session rules may name tabs",
    "bad-action": "the action is missing, or of no type that is known",
    "bad-redirect": "a redirect has one of extensionPath, url, regexSubstitution and transform, in its form",
    "bad-transform": "this breaks the form of a transform",
    "pattern-host": "this regular expression is too big to be built",
}
WHYS = {
    ("bad-url-filter", "empty"): "an empty urlFilter is refused; leave it out where every URL is meant",
    ("bad-url-filter", "too-long"): "a urlFilter has at most 8192 bytes",
    ("bad-url-filter", "anchor-star"): "a urlFilter that begins with ||* is refused; * at the beginning says the same",
    ("bad-url-filter", "not-ascii"): "a urlFilter is ASCII: hosts in punycode, the rest percent-encoded",
    ("bad-header", "no-headers"): "modifyHeaders needs requestHeaders or responseHeaders with an entry",
    ("bad-header", "bad-shape"): "a header change is an object with header, operation (append, set, remove) and value",
    ("bad-header", "bad-name"): "this is no name of a header",
    ("bad-header", "bad-value"): "a value has at most 8192 bytes and no CR, LF or NUL",
    ("bad-header", "value-missing"): "append and set need a value",
    ("bad-header", "value-given"): "remove has no value",
    ("bad-header", "append-not-allowed"): "Chrome lets no rule append to this request header",
}
UNSUPPORTED = {
    "line-too-long": "the line or its pattern is too long",
    "element-hiding": "what is hidden on a page is no request",
    "not-ascii": "a filter is ASCII: hosts are written in punycode",
    "space": "there is white space inside",
    "unknown-option": "the option is not known",
    "option-value": "the option has a value and takes none, or its list is none",
    "document-on-block": "document stands in exceptions alone",
    "bad-domain": "an entry of domain= is no domain",
    "empty-pattern": "there is neither a pattern nor an option",
    "anchor-star": "a pattern doesn't begin with ||*",
    "bad-regex": "this is no regular expression that is known here (no look-around, no back-references)",
}


def fault(code, why):
    """What a refusal says."""
    return WHYS.get((code, why)) or FAULTS.get(code, code)


def some(words, most=3):
    """A list of words in a sentence, shortened where it is long."""
    words = list(words)
    if len(words) > most:
        return f"{', '.join(words[:most])} and {len(words) - most:,} more"
    return " and ".join([", ".join(words[:-1])] * (len(words) > 1) + words[-1:])


def number(count, noun):
    """A count with its noun."""
    return f"{count:,} {noun if count == 1 else noun + 's'}"
