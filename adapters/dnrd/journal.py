"""The journal: a folder with what is installed, and with each update that was accepted since it was last written whole.

    journal     lines of JSON: first all that was installed then, and behind it each update or exchange
    store/      copies of the lists, extensions and the suffix list as they were taken in
    rooms/      a folder for each engine, in which these stand under the names of their extensions
    lock        held by the broker that uses the journal
"""
import fcntl
import json
import os
import shutil
from itertools import count
from pathlib import Path

from dnr_lines.lines import dumped, loaded
from installed import Installed, Item

# The journal is written anew after so many updates, and after so many bytes.
UPDATES, BYTES = 10_000, 64 << 20


class Trouble(Exception):
    """What keeps a journal from being used."""


def rules_files(folder):
    """The rules files in a folder that its manifest names, as far as it can be read; `dnr` says what is wrong with it."""
    try:
        resources = json.loads((folder / "manifest.json").read_bytes())["declarative_net_request"]["rule_resources"]
        paths = [Path(resource["path"]) for resource in resources]
        return [path for path in paths if not path.is_absolute() and ".." not in path.parts]
    except (OSError, ValueError, LookupError, TypeError):
        return []


class Journal:
    """The journal of a folder. `installed` is what it says, `number` the count of accepted updates, and `words`
    the kinds and names with which it began."""

    def __init__(self, folder):
        self.folder = Path(folder)
        self.installed, self.number, self.words = None, 0, []
        for name in ("store", "rooms"):
            (self.folder / name).mkdir(mode=0o700, parents=True, exist_ok=True)
        self.lock = open(self.folder / "lock", "w")
        try:
            fcntl.flock(self.lock, fcntl.LOCK_EX | fcntl.LOCK_NB)
        except OSError:
            raise Trouble(f"another broker uses {folder}") from None
        self.file, self.updates, self.rooms = None, 0, count(1)

    def load(self):
        """Takes up what the folder says, and whether there was a journal. Session rules end with the broker that had them."""
        path = self.folder / "journal"
        if not path.exists():
            return False
        lines = path.read_bytes().split(b"\n")[:-1]
        try:
            first = loaded(lines[0])
            self.number, self.words = first["number"], first["words"]
            self.installed = Installed([Item.from_json(it, False) for it in first["items"]], first["suffixes"])
            for line in map(loaded, lines[1:]):
                self.take(line)
        except (ValueError, LookupError, AttributeError, TypeError) as error:
            raise Trouble(f"{path} is no journal ({error!r}); --anew begins another one") from None
        for item in self.installed.items:
            item.session.clear()
        return True

    def take(self, line):
        """Takes in one line behind the first."""
        self.number = line["number"]
        if "exchange" in line:
            self.installed = self.installed.with_exchanged(line["exchange"], line["source"], line["stored"])
        else:
            self.installed.take(line["update"])

    def begin(self, items, suffixes):
        """Begins with what the words of a broker name: its files are taken in."""
        self.words = [[kind, name] for kind, name, _ in items]
        kept = [Item(name, kind, source, self.copy(name, source)) for kind, name, source in items]
        self.installed = Installed(kept, self.copy("suffixes.dat", suffixes) if suffixes else None)

    def copy(self, name, source):
        """Copies a file, or an extension's folder, into the store, and gives its name there. Raises OSError."""
        number = next(it for it in count(1) if not (self.folder / "store" / f"{name}.{it}").exists())
        target, source = self.folder / "store" / f"{name}.{number}", Path(source)
        if not source.is_dir():
            shutil.copyfile(source, target)
            return target.name
        for part in ["manifest.json", *rules_files(source)]:
            (target / part).parent.mkdir(parents=True, exist_ok=True)
            if (source / part).is_file():
                shutil.copyfile(source / part, target / part)
        return target.name

    def room(self, installed):
        """A folder in which an engine finds what is installed under its names."""
        room = self.folder / "rooms" / f"{os.getpid()}.{next(self.rooms)}"
        room.mkdir(mode=0o700)
        if installed.suffixes:
            (room / "suffixes.dat").symlink_to(f"../../store/{installed.suffixes}")
        for item in installed.items:
            if item.stored:
                (room / item.name).symlink_to(f"../../store/{item.stored}")
        return room

    def write(self):
        """Writes all of the journal anew, and takes away what nothing names any more."""
        items = [item.as_json() for item in self.installed.items]
        whole = {"number": self.number, "words": self.words, "suffixes": self.installed.suffixes, "items": items}
        fresh = self.folder / "journal.new"
        with open(fresh, "wb") as file:
            file.write(dumped(whole) + b"\n")
            file.flush()
            os.fsync(file.fileno())
        os.replace(fresh, self.folder / "journal")
        if self.file:
            self.file.close()
        self.file, self.updates = open(self.folder / "journal", "ab", buffering=0), 0
        self.tidy()

    def tidy(self):
        """Takes away copies that nothing names. An engine has read its files before it answers."""
        named = {item.stored for item in self.installed.items} | {self.installed.suffixes}
        for path in (self.folder / "store").iterdir():
            if path.name not in named:
                shutil.rmtree(path) if path.is_dir() else path.unlink()

    def add_update(self, line):
        """Keeps an update that was accepted, as the client wrote it. Raises OSError where it can't be written down."""
        self.number += 1
        self.installed.take(loaded(line))
        self.append(b'{"number":%d,"update":%s}\n' % (self.number, line.strip()))

    def add_exchange(self, installed, name):
        """Keeps an exchange that was made."""
        item = installed.item(name)
        self.number += 1
        self.installed = installed
        line = {"number": self.number, "exchange": name, "source": item.source, "stored": item.stored}
        self.append(dumped(line) + b"\n")
        self.tidy()

    def append(self, line):
        """Writes a line behind the others, or all anew where they have become many."""
        self.updates += 1
        if self.updates > UPDATES or self.file.tell() > BYTES:
            self.write()
        else:
            self.file.write(line)

    def close(self):
        """Ends the use of the folder."""
        if self.file:
            self.file.close()
        shutil.rmtree(self.folder / "rooms", ignore_errors=True)
        self.lock.close()
