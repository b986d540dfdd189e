"""A folder in which the program finds lists, extensions and rules files under the names of extensions."""
import contextlib
import json
import re
import tempfile
from pathlib import Path
from typing import NamedTuple


class Item(NamedTuple):
    """What is served: `kind` is "list", "ext" or "rules"; `path` a file, or the folder of an extension."""

    kind: str
    name: str
    path: Path


def name_of(path):
    """A name of an extension for a file."""
    return re.sub(r"[^a-z0-9_-]+", "-", Path(path).stem.lower())[:64].strip("-") or "list"


def item_of(kind, word):
    """The item that a word names: a path, or for a list and a rules file NAME=PATH."""
    name, equals, path = word.partition("=")
    if kind == "ext" or not equals or not re.fullmatch("[a-z0-9_-]{1,64}", name):
        name, path = name_of(word), word
    return Item(kind, name, Path(path))


@contextlib.contextmanager
def room(items, suffixes=None):
    """A folder for these, and the words with which `dnr serve` serves them there."""
    with tempfile.TemporaryDirectory(prefix="dnr-") as folder:
        folder, words = Path(folder), []
        if suffixes:
            (folder / "suffixes.dat").symlink_to(Path(suffixes).resolve())
            words += ["--psl", "suffixes.dat"]
        for kind, name, path in items:
            target = folder / name
            if kind == "rules":
                target.mkdir()
                resource = {"id": "rules", "enabled": True, "path": "rules.json"}
                (target / "manifest.json").write_text(json.dumps({"declarative_net_request": {"rule_resources": [resource]}}))
                target = target / "rules.json"
            target.symlink_to(path.resolve())
            words += ["--list", f"{name}={name}"] if kind == "list" else ["--ext", name]
        yield folder, words


def rulesets(item):
    """The rules files of an extension that isn't a list: pairs of a ruleset's id and a path."""
    if item.kind == "rules":
        return {"rules": item.path}
    manifest = json.loads((item.path / "manifest.json").read_bytes())
    resources = manifest.get("declarative_net_request", {}).get("rule_resources", [])
    return {resource["id"]: item.path / resource["path"] for resource in resources}
