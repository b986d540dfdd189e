#!/usr/bin/env python3
"""What `dnr check KIND RULES` has to print, worked out slowly: tests/load/slow.py KIND RULES

It reads docs/FORMATS.md and docs/BEHAVIOUR.md as a person would: the bytes become a tree, and each rule of the tree is
tested field by field, in the order in which the refusals are listed there. The program's answer has to be the same bytes.
Of regular expressions and of URLs only those are known that tests/load/run draws: see PATTERNS and URLS.
"""
import math
import re
import sys

DEEPEST = 127
GREATEST = 2_147_483_647
TYPES = (
    "main_frame sub_frame stylesheet script image font object xmlhttprequest ping csp_report media websocket webtransport webbundle other"
).split()
METHODS = "connect delete get head options patch post put other".split()
APPENDABLE = (
    "accept accept-encoding accept-language access-control-request-headers cache-control connection content-language cookie "
    "forwarded if-match if-none-match keep-alive range te trailer transfer-encoding upgrade user-agent via want-digest x-forwarded-for"
).split()
# Regular expressions that are drawn, each with the count of its groups, or with None where it is no pattern.
PATTERNS = {
    "a": 0,
    "^https?://": 0,
    "(a)(b)?": 2,
    "(?:a|b)+": 0,
    "[0-9]{2,4}": 0,
    r"\d+\.js$": 0,
    "(?P<name>x)": 1,
    "(": None,
    "a)": None,
    "[": None,
    "*": None,
    "a{2,1}": None,
    "(?=a)": None,
    r"\1": None,
    "a" * 4096: 0,
    "a" * 4097: 0,
    "": 0,
    "é": 0,
}
# Texts of redirects that are drawn, each with whether the URL Standard reads a URL in it that is no script.
URLS = {
    "https://b.example/x": True,
    "HTTP://B.example:80": True,
    "data:text/plain,x": True,
    "about:blank": True,
    "chrome-extension://abc/x": True,
    "": False,
    "b.example": False,
    "http://": False,
    "http://b.example:99999/": False,
    "javascript:alert(1)": False,
    "JavaScript:x": False,
}
FIELD_NAME = re.compile(r"[!#$%&'*+\-.^_`|~0-9A-Za-z]{1,256}\Z")
LABELS = re.compile(r"[0-9A-Za-z\-_]+(\.[0-9A-Za-z\-_]+)*\Z")
ADDRESS = re.compile(r"\[[0-9A-Fa-f:.]*\]\Z")
VALUE_PATTERN = re.compile(r"(?:[^\\]|\\[*?\\])*\Z", re.DOTALL)


# ---- JSON


class NoJson(Exception):
    """The text is no JSON."""


class Whole(int):
    """A number that is written as a whole one."""


class Text:
    """A place in a text that is read as JSON."""

    def __init__(self, text):
        self.text = text
        self.place = 0

    def skip(self):
        """Passes over white space, and gives what stands behind it; nothing at the end."""
        while self.text[self.place : self.place + 1] in (" ", "\t", "\n", "\r"):
            self.place += 1
        return self.text[self.place : self.place + 1]

    def take(self, word):
        """Passes over a word that has to stand here."""
        if not self.text.startswith(word, self.place):
            raise NoJson
        self.place += len(word)

    def value(self, nested):
        """A value, inside so many lists and objects."""
        first = self.skip()
        if first == "{":
            return self.members(nested + 1)
        if first == "[":
            return self.items(nested + 1)
        if first == '"':
            return self.string()
        for word, value in (("true", True), ("false", False), ("null", None)):
            if first == word[0]:
                self.take(word)
                return value
        return self.number()

    def items(self, nested):
        """A list."""
        if nested > DEEPEST:
            raise NoJson
        self.take("[")
        items = []
        if self.skip() == "]":
            self.place += 1
            return items
        while True:
            items.append(self.value(nested))
            if self.skip() == "]":
                self.place += 1
                return items
            self.take(",")

    def members(self, nested):
        """An object. Of a key that is repeated the last value counts."""
        if nested > DEEPEST:
            raise NoJson
        self.take("{")
        members = {}
        if self.skip() == "}":
            self.place += 1
            return members
        while True:
            self.skip()
            key = self.string()
            self.skip()
            self.take(":")
            members[key] = self.value(nested)
            if self.skip() == "}":
                self.place += 1
                return members
            self.take(",")

    def number(self):
        """A number: a whole one, or a float that a double can hold."""
        found = re.compile(r"-?(?:0|[1-9][0-9]*)(\.[0-9]+)?([eE][+-]?[0-9]+)?").match(self.text, self.place)
        if not found:
            raise NoJson
        self.place = found.end()
        if not math.isfinite(float(found.group())):
            raise NoJson
        if found.group(1) or found.group(2) or found.group() == "-0":
            return float(found.group())
        return Whole(found.group())

    def string(self):
        """A text, with its escapes read."""
        self.take('"')
        read = []
        while True:
            letter = self.text[self.place : self.place + 1]
            self.place += 1
            if letter == '"':
                return "".join(read)
            if letter == "" or letter < " ":
                raise NoJson
            read.append(self.escaped() if letter == "\\" else letter)

    def escaped(self):
        """The character of an escape."""
        letter = self.text[self.place : self.place + 1]
        self.place += 1
        plain = {'"': '"', "\\": "\\", "/": "/", "b": "\b", "f": "\f", "n": "\n", "r": "\r", "t": "\t"}
        if letter in plain:
            return plain[letter]
        if letter != "u":
            raise NoJson
        unit = self.unit()
        if 0xDC00 <= unit <= 0xDFFF:
            raise NoJson
        if 0xD800 <= unit <= 0xDBFF:
            self.take("\\u")
            low = self.unit()
            if not 0xDC00 <= low <= 0xDFFF:
                raise NoJson
            return chr(0x10000 + (unit - 0xD800) * 0x400 + (low - 0xDC00))
        return chr(unit)

    def unit(self):
        """Four hexadecimal digits."""
        digits = self.text[self.place : self.place + 4]
        if not re.fullmatch("[0-9A-Fa-f]{4}", digits):
            raise NoJson
        self.place += 4
        return int(digits, 16)


def tree_of(data):
    """The tree of bytes."""
    try:
        text = Text(data.decode("utf-8"))
    except UnicodeDecodeError:
        raise NoJson from None
    value = text.value(0)
    if text.skip():
        raise NoJson
    return value


# ---- rules


class Refused(Exception):
    """A rule is refused, with a code and what is told besides."""

    def __init__(self, code, **more):
        super().__init__(code)
        self.code = code
        self.more = more


def bytes_in(text):
    return len(text.encode())


def is_number(value):
    """Whether it is an id or a priority."""
    return isinstance(value, Whole) and 1 <= value <= GREATEST


def is_texts(value):
    return isinstance(value, list) and all(isinstance(item, str) for item in value)


def is_words(known):
    return lambda value: is_texts(value) and all(item in known for item in value)


def is_tabs(value):
    return isinstance(value, list) and all(isinstance(item, Whole) and -1 <= item <= GREATEST for item in value)


def is_test(value):
    """A header test, by its form alone."""
    return (
        isinstance(value, dict)
        and isinstance(value.get("header"), str)
        and all(is_texts(value[key]) for key in ("values", "excludedValues") if key in value)
    )


def is_tests(value):
    return isinstance(value, list) and all(map(is_test, value))


# The fields of a condition in the order in which they are tested, each with its form.
FIELDS = {
    "topDomains": lambda value: False,
    "excludedTopDomains": lambda value: False,
    "urlFilter": lambda value: isinstance(value, str),
    "regexFilter": lambda value: isinstance(value, str),
    "isUrlFilterCaseSensitive": lambda value: isinstance(value, bool),
    "initiatorDomains": is_texts,
    "excludedInitiatorDomains": is_texts,
    "domains": is_texts,
    "excludedDomains": is_texts,
    "requestDomains": is_texts,
    "excludedRequestDomains": is_texts,
    "domainType": lambda value: value in ("firstParty", "thirdParty") and isinstance(value, str),
    "resourceTypes": is_words(TYPES),
    "excludedResourceTypes": is_words(TYPES),
    "requestMethods": is_words(METHODS),
    "excludedRequestMethods": is_words(METHODS),
    "tabIds": is_tabs,
    "excludedTabIds": is_tabs,
    "responseHeaders": is_tests,
    "excludedResponseHeaders": is_tests,
}
NEW_NAMES = {"domains": "initiatorDomains", "excludedDomains": "excludedInitiatorDomains"}
DOMAINS = ("initiatorDomains", "excludedInitiatorDomains", "domains", "excludedDomains", "requestDomains", "excludedRequestDomains")
FILLED = ("initiatorDomains", "domains", "requestDomains", "resourceTypes", "requestMethods", "tabIds", "responseHeaders")
TESTS = ("responseHeaders", "excludedResponseHeaders")


def test_filters(condition):
    """Refuses filters that are none."""
    pattern, regex = condition.get("urlFilter"), condition.get("regexFilter")
    if pattern is not None and regex is not None:
        raise Refused("both-filters")
    if pattern is not None:
        for why, is_so in (
            ("empty", not pattern),
            ("too-long", bytes_in(pattern) > 8192),
            ("anchor-star", pattern.startswith("||*")),
            ("not-ascii", not pattern.isascii()),
        ):
            if is_so:
                raise Refused("bad-url-filter", why=why)
    if regex is not None and (not regex or bytes_in(regex) > 4096 or not regex.isascii() or PATTERNS[regex] is None):
        raise Refused("bad-regex")


def test_lists(condition):
    """Refuses domains that are none, and lists that have no entry."""
    for field in DOMAINS:
        if not all(LABELS.match(entry) or ADDRESS.match(entry) for entry in condition.get(field, ())):
            raise Refused("bad-domain", path=f"condition.{field}")
    for field in FILLED:
        if condition.get(field) == []:
            raise Refused("empty-list", path=f"condition.{field}")
    for field in TESTS:
        if any(test.get("values") == [] for test in condition.get(field, ())):
            raise Refused("empty-list", path=f"condition.{field}.values")
    if "resourceTypes" in condition and "excludedResourceTypes" in condition:
        raise Refused("both-type-lists")


def is_good_test(test):
    """Whether a header test has a name and patterns that are some."""
    patterns = [*test.get("values", ()), *test.get("excludedValues", ())]
    return bool(FIELD_NAME.match(test["header"])) and all(
        text.isascii() and len(text) <= 8192 and VALUE_PATTERN.match(text) for text in patterns
    )


def test_headers(action):
    """Refuses changes of headers that are none."""
    lists = {key: action.get(key, []) for key in ("requestHeaders", "responseHeaders")}
    if all(changes == [] for changes in lists.values()):
        raise Refused("bad-header", why="no-headers")
    for changes in lists.values():
        if not isinstance(changes, list) or not all(map(is_change, changes)):
            raise Refused("bad-header", why="bad-shape")
    for key, changes in lists.items():
        for change in changes:
            test_change(key, change)


def is_change(change):
    return (
        isinstance(change, dict)
        and isinstance(change.get("header"), str)
        and isinstance(change.get("operation"), str)
        and change["operation"] in ("append", "set", "remove")
        and ("value" not in change or isinstance(change["value"], str))
    )


def test_change(key, change):
    """Refuses a change that has the form of one."""
    value = change.get("value")
    appends, removes = change["operation"] == "append", change["operation"] == "remove"
    for why, is_so in (
        ("bad-name", not FIELD_NAME.match(change["header"])),
        ("bad-value", value is not None and (bytes_in(value) > 8192 or any(letter in value for letter in "\r\n\0"))),
        ("value-missing", not removes and value is None),
        ("value-given", removes and value is not None),
        ("append-not-allowed", appends and key == "requestHeaders" and change["header"].lower() not in APPENDABLE),
    ):
        if is_so:
            raise Refused("bad-header", why=why)


def is_short(value):
    return isinstance(value, str) and bytes_in(value) <= 8192


def is_pair(value):
    return (
        isinstance(value, dict)
        and is_short(value.get("key"))
        and is_short(value.get("value"))
        and isinstance(value.get("replaceOnly", False), bool)
    )


def is_query_transform(value):
    if not isinstance(value, dict):
        return False
    removed, added = value.get("removeParams", []), value.get("addOrReplaceParams", [])
    return (
        isinstance(removed, list)
        and isinstance(added, list)
        and all(map(is_short, removed))
        and all(map(is_pair, added))
        and len(removed) + len(added) <= 1024
    )


# The fields of a transform, each with its form.
PARTS = {
    "scheme": lambda value: value in ("http", "https", "ftp", "chrome-extension") and isinstance(value, str),
    "host": lambda value: is_short(value) and bool(ADDRESS.match(value) or re.match(r"[0-9A-Za-z\-._]+\Z", value)),
    "port": lambda value: is_short(value) and bool(re.match(r"[0-9]{0,5}\Z", value)) and int(value or 0) <= 65535,
    "path": lambda value: is_short(value) and "?" not in value and "#" not in value,
    "query": lambda value: is_short(value) and value[:1] in ("", "?") and "#" not in value,
    "queryTransform": is_query_transform,
    "fragment": lambda value: is_short(value) and value[:1] in ("", "#"),
    "username": is_short,
    "password": is_short,
}


def is_transform(value):
    return (
        isinstance(value, dict)
        and all(form(value[part]) for part, form in PARTS.items() if part in value)
        and not ("query" in value and "queryTransform" in value)
    )


def is_substitution(value, groups):
    return (
        isinstance(value, str)
        and groups is not None
        and bytes_in(value) <= 2048
        and bool(re.match(rf"(?:[^\\]|\\[0-{min(groups, 9)}\\])*\Z", value, re.DOTALL))
    )


def test_redirect(redirect, groups):
    """Refuses where a rule leads to, if that is nowhere."""
    given = [key for key in ("extensionPath", "transform", "url", "regexSubstitution") if isinstance(redirect, dict) and key in redirect]
    if len(given) != 1:
        raise Refused("bad-redirect")
    value = redirect[given[0]]
    if given == ["transform"]:
        if not is_transform(value):
            raise Refused("bad-transform")
        return
    good = {
        "extensionPath": lambda: is_short(value) and value.startswith("/"),
        "url": lambda: isinstance(value, str) and URLS[value],
        "regexSubstitution": lambda: is_substitution(value, groups),
    }
    if not good[given[0]]():
        raise Refused("bad-redirect")


def test_rule(kind, rule, taken):
    """Refuses a rule, in the order in which the refusals are listed."""
    if not isinstance(rule, dict):
        raise Refused("not-object")
    if not is_number(rule.get("id")):
        raise Refused("bad-id")
    if rule["id"] in taken:
        raise Refused("duplicate-id")
    if "priority" in rule and not is_number(rule["priority"]):
        raise Refused("bad-priority")
    condition = rule.get("condition")
    if not isinstance(condition, dict):
        raise Refused("bad-field", path="condition")
    for field, has_form in FIELDS.items():
        if field in condition and (not has_form(condition[field]) or NEW_NAMES.get(field) in condition):
            raise Refused("bad-field", path=f"condition.{field}")
    test_filters(condition)
    test_lists(condition)
    action = rule.get("action")
    name = action.get("type") if isinstance(action, dict) else None
    frames = condition.get("resourceTypes")
    if name == "allowAllRequests" and (frames is None or not set(frames) <= {"main_frame", "sub_frame"}):
        raise Refused("allow-all-types")
    for field in TESTS:
        if not all(map(is_good_test, condition.get(field, ()))):
            raise Refused("bad-header-test", path=f"condition.{field}")
    if kind != "session" and ("tabIds" in condition or "excludedTabIds" in condition):
        raise Refused("tabs-not-session")
    if name not in ("block", "allow", "upgradeScheme", "allowAllRequests", "redirect", "modifyHeaders") or not isinstance(name, str):
        raise Refused("bad-action")
    if name == "redirect":
        test_redirect(action.get("redirect"), PATTERNS[condition["regexFilter"]] if "regexFilter" in condition else None)
    if name == "modifyHeaders":
        test_headers(action)


def told(refusal, place, rule):
    """The fields of the line that tells of a refusal, behind the file's name."""
    number = rule.get("id") if isinstance(rule, dict) and is_number(rule.get("id")) else "null"
    more = "".join(f',"{key}":"{value}"' for key, value in refusal.more.items())
    return f'"refused":"{refusal.code}","place":{place},"id":{number}{more}'


def answer(kind, data):
    """The count of the rules in the bytes, or the fields that tell of the first refusal."""
    try:
        rules = tree_of(data)
    except NoJson:
        return None, '"refused":"bad-json"'
    return answer_of(kind, rules)


def answer_of(kind, rules):
    """The same of a tree."""
    if not isinstance(rules, list):
        return None, told(Refused("not-object"), 0, None)
    taken = set()
    for place, rule in enumerate(rules):
        try:
            test_rule(kind, rule, taken)
        except Refused as refusal:
            return None, told(refusal, place, rule)
        taken.add(rule["id"])
    return len(rules), None


def printed(kind, file, data):
    """What is printed for a file of this name, which needs no escapes, and the status."""
    count, refusal = answer(kind, data)
    if refusal is None:
        return f'{{"rules":{count}}}\n', 0
    return f'{{"file":"{file}",{refusal}}}\n', 1


if __name__ == "__main__":
    kind, file = sys.argv[1:]
    with open(file, "rb") as opened:
        line, status = printed(kind, file, opened.read())
    sys.stdout.write(line)
    sys.exit(status)
