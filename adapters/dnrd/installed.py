"""What is installed, kept so that a fresh engine can be brought to the same state.

Lists and extensions that the words named stay as words of `dnr serve`, in their order. What updates did to them is kept
as what it came to, not as the updates: a rule that was added and removed again is nowhere.
"""
from dnr_lines.lines import LONGEST, dumped

RULES_A_LINE = 200


class Item:
    """An extension: one that the words name (`kind` "ext" or "list"), or one that an update installed ("install")."""

    def __init__(self, name, kind, source=None, stored=None, rulesets=(), permissions=None):
        self.name, self.kind, self.source, self.stored = name, kind, source, stored
        self.rulesets, self.permissions = list(rulesets), permissions
        self.dynamic, self.session = {}, {}
        self.enabled, self.disabled = {}, {}

    def exchanged(self, source, stored):
        """The item with another list or folder: dynamic and session rules stay, and what was chosen of the old one goes."""
        new = Item(self.name, self.kind, source, stored)
        new.dynamic, new.session = self.dynamic, self.session
        return new

    def as_json(self):
        """The item as the journal keeps it."""
        lists = {"dynamic": list(self.dynamic.values()), "session": list(self.session.values())}
        disabled = {name: sorted(ids) for name, ids in self.disabled.items() if ids}
        return {**vars(self), **lists, "disabled": disabled}

    @staticmethod
    def from_json(value, with_session):
        """The item that the journal kept."""
        item = Item(value["name"], value["kind"])
        vars(item).update(value)
        item.dynamic = {rule["id"]: rule for rule in value["dynamic"]}
        item.session = {rule["id"]: rule for rule in value["session"]} if with_session else {}
        item.disabled = {name: set(ids) for name, ids in value["disabled"].items()}
        return item


class Installed:
    """All that is installed: a suffix list, if any, and the extensions in the order of their installation."""

    def __init__(self, items=(), suffixes=None):
        self.items, self.suffixes = list(items), suffixes

    def item(self, name):
        """The extension of this name, or None."""
        return next((item for item in self.items if item.name == name), None)

    def with_exchanged(self, name, source, stored):
        """All of this with one extension of the words exchanged, in its place."""
        return Installed([it.exchanged(source, stored) if it.name == name else it for it in self.items], self.suffixes)

    def words(self):
        """The words of `dnr serve`, by the names under which the files stand in an engine's room."""
        words = ["--psl", "suffixes.dat"] if self.suffixes else []
        for item in self.items:
            if item.kind == "ext":
                words += ["--ext", item.name]
            elif item.kind == "list":
                words += ["--list", f"{item.name}={item.name}"]
        return words

    def take(self, update):
        """Takes in an update that the engine accepted."""
        if update["cmd"] == "batch":
            for one in update["updates"]:
                self.take(one)
            return
        item = self.item(update["extension"])
        getattr(self, f"_{update['cmd']}")(item, update)

    def _install(self, _, update):
        self.items.append(
            Item(update["extension"], "install", rulesets=update["rulesets"], permissions=update.get("hostPermissions"))
        )

    def _uninstall(self, item, _):
        self.items.remove(item)

    def _dynamic(self, item, update):
        exchange_rules(item.dynamic, update)

    def _session(self, item, update):
        exchange_rules(item.session, update)

    def _rulesets(self, item, update):
        item.enabled.update(dict.fromkeys(update.get("disableRulesetIds", ()), False))
        item.enabled.update(dict.fromkeys(update.get("enableRulesetIds", ()), True))

    def _static(self, item, update):
        ids = item.disabled.setdefault(update["rulesetId"], set())
        ids |= set(update.get("disableRuleIds", ()))
        ids -= set(update.get("enableRuleIds", ()))

    def lines(self):
        """The lines, in bytes, that bring a fresh engine, started with `words`, to this state.

        No limit is passed on the way that holds at its end: rulesets are disabled before others are enabled.
        """
        named = [item for item in self.items if item.kind != "install"]
        yield from (rulesets_line(item, False) for item in named if False in item.enabled.values())
        yield from (install_line(item) for item in self.items if item.kind == "install")
        yield from (rulesets_line(item, True) for item in named if True in item.enabled.values())
        for item in self.items:
            for name, ids in item.disabled.items():
                yield dumped({"cmd": "static", "extension": item.name, "rulesetId": name, "disableRuleIds": sorted(ids)})
            yield from rules_lines("dynamic", item.name, item.dynamic)
            yield from rules_lines("session", item.name, item.session)


def exchange_rules(rules, update):
    """Removes rules and adds others, as a dynamic or session update does."""
    for number in update.get("removeRuleIds", ()):
        rules.pop(number, None)
    rules.update((rule["id"], rule) for rule in update.get("addRules", ()))


def rulesets_line(item, enabled):
    """The update that enables, or disables, what was chosen so."""
    key = "enableRulesetIds" if enabled else "disableRulesetIds"
    return dumped({"cmd": "rulesets", "extension": item.name, key: [it for it, on in item.enabled.items() if on == enabled]})


def install_line(item):
    """The update that installs an extension with its rulesets as they are enabled now."""
    rulesets = [{**it, "enabled": item.enabled.get(it["id"], it["enabled"])} for it in item.rulesets]
    line = {"cmd": "install", "extension": item.name, "rulesets": rulesets}
    return dumped(line if item.permissions is None else {**line, "hostPermissions": item.permissions})


def rules_lines(command, name, rules):
    """The updates that add these rules, each short enough for a line."""
    chunk, size = [], 0
    for text in map(dumped, rules.values()):
        if chunk and (len(chunk) == RULES_A_LINE or size + len(text) > LONGEST // 2):
            yield rules_line(command, name, chunk)
            chunk, size = [], 0
        chunk.append(text)
        size += len(text)
    if chunk:
        yield rules_line(command, name, chunk)


def rules_line(command, name, texts):
    """The update that adds rules of which these are the texts."""
    return b'{"cmd":"%s","extension":"%s","addRules":[%s]}' % (command.encode(), name.encode(), b",".join(texts))
