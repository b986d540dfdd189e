"""What measures share: a run of a program, its time, its memory and its instructions; the rules of a list; extensions that are
written, and what lines of a script cost."""
import json
import os
import platform
import re
import resource
import shutil
import subprocess
import sys
import time
from concurrent.futures import ThreadPoolExecutor
from functools import partial
from pathlib import Path
from statistics import median

TOP = Path(__file__).resolve().parent.parent
RUNS = 3
# So many times as many runs there may be, until differences tell something.
PATIENCE = 5
# A process that Python starts would count Python's own memory as its peak.
TIME = "/usr/bin/time"
# So many requests are counted by valgrind, which is slow.
COUNTED = 10_000
# What is told of a request, and what cachegrind calls it. Only where it imitates caches does it count their misses.
COUNTERS = {
    "request_instructions": "I refs",
    "request_d1_misses": "D1 misses",
    "request_i1_misses": "I1 misses",
    "request_lld_misses": "LLd misses",
    "request_lli_misses": "LLi misses",
}
# The caches that it imitates: their KiB and their ways, with lines of 64 bytes. They are the same on each machine, so that
# counts are too. The last one is what a processor may have of one that many share.
CACHES = {"I1": (32, 8), "D1": (32, 8), "LL": (2_048, 16)}
# So many rules has a ruleset that is made up, as many as an extension has for itself.
STATIC = 30_000
SYNC = '{"cmd":"sync"}\n'


def built_program():
    """The program that DNR_PROGRAM names, or else the one that ./build made here."""
    named = os.environ.get("DNR_PROGRAM")
    if not named:
        return TOP / "crates/dnr/out/dnr"
    return Path(named if "/" in named else shutil.which(named) or named).absolute()


PROGRAM = built_program()


def want_program(who):
    """Ends where there is no built program."""
    if not os.access(PROGRAM, os.X_OK):
        sys.exit(f"{who}: {PROGRAM} is not there; ./build builds the program, and DNR_PROGRAM names one that was built elsewhere")


def seconds_of_children():
    used = resource.getrusage(resource.RUSAGE_CHILDREN)
    return used.ru_utime + used.ru_stime


def run(words, output, folder=None):
    """Runs a program once: its seconds of the processor, and its peak memory in MiB (0 where that can't be measured)."""
    peak = output.with_name("peak")
    meter = [TIME, "-f", "%M", "-o", peak] if os.access(TIME, os.X_OK) else []
    with open(output, "wb") as out:
        begun = seconds_of_children()
        subprocess.run([*meter, *words], stdout=out, cwd=folder, check=True)
        seconds = seconds_of_children() - begun
    return seconds, int(peak.read_text()) / 1024 if meter else 0.0


def caches_told():
    """The caches that cachegrind imitates."""
    return ", ".join(f"{name} of {size:,} KiB in {ways} ways" for name, (size, ways) in CACHES.items())


def counts(words, folder=None, caches=False):
    """What valgrind counts of a run: its instructions, and with caches, which takes twice as long, their misses."""
    meter = ["valgrind", "--tool=cachegrind", "--cachegrind-out-file=/dev/null", f"--cache-sim={'yes' if caches else 'no'}"]
    meter += [f"--{name}={1_024 * size},{ways},64" for name, (size, ways) in CACHES.items()]
    pipes = {"stdout": subprocess.DEVNULL, "stderr": subprocess.PIPE, "text": True}
    said = subprocess.run([*meter, *words], cwd=folder, check=True, **pipes).stderr
    found = {f"{of} {what}": count for of, what, count in re.findall(r"(\w+) +(refs|misses): +([\d,]+)", said)}
    return {name: int(found[it].replace(",", "")) for name, it in COUNTERS.items() if it in found}


def processor():
    """The model of the processor."""
    model = re.search(r"model name\s*: (.*)", Path("/proc/cpuinfo").read_text())
    return model[1] if model else platform.machine()


def best(words, output, folder=None):
    """The least seconds and the least peak memory of some runs."""
    return tuple(map(min, zip(*(run(words, output, folder) for _ in range(RUNS)))))


def tells(pairs):
    """Whether a whole took longer than its part in three of four pairs. Where it did not, other work hides the difference."""
    return 4 * sum(whole > part for part, whole, _ in pairs) >= 3 * len(pairs)


def in_turn(measures, runs=RUNS):
    """For each name the least seconds of a part, how much longer the whole takes, and the least peak memory of the whole.

    A measure is two functions that run the part and the whole, and give seconds and peak memory. They are run one behind the
    other, and the names take turns. The difference is the median of those of all pairs: the least whole and the least part
    may come from moments that differ by more than that. There are more runs where other work hides it.
    """
    pairs = {name: [] for name in measures}
    while min(map(len, pairs.values())) < runs or not all(map(tells, pairs.values())):
        if min(map(len, pairs.values())) >= PATIENCE * runs:
            break
        for name, (part, whole) in measures.items():
            (seconds, _), (total, peak) = part(), whole()
            pairs[name].append((seconds, total, peak))
    return {name: summed(rows) for name, rows in pairs.items()}


def summed(pairs):
    """What pairs come to: the least part, the median difference, and the least peak memory."""
    parts, _, peaks = zip(*pairs)
    return min(parts), median(whole - part for part, whole, _ in pairs), min(peaks)


def compiled(program, name, folder):
    """The rules that `dnr compile` makes of a list, whose file of this name is in the folder."""
    out = subprocess.run([program, "compile", name], stdout=subprocess.PIPE, cwd=folder, check=True).stdout
    return json.loads(out.splitlines()[-1])


def counted(measures, requests):
    """For each name what is counted of each of so many requests, and of all before them: nothing where valgrind is missing.

    A measure is two functions that give the counts of the part and of the whole. Other work changes nothing of a count, so all
    of them run side by side.
    """
    if not shutil.which("valgrind"):
        return {name: {} for name in measures}
    with ThreadPoolExecutor(len(os.sched_getaffinity(0))) as pool:
        found = {name: [pool.submit(it) for it in pair] for name, pair in measures.items()}
    pairs = {name: [it.result() for it in pair] for name, pair in found.items()}
    before = {name: {"load_instructions": part["request_instructions"]} for name, (part, _) in pairs.items()}
    return {name: {it: (whole[it] - part[it]) / requests for it in whole} | before[name] for name, (part, whole) in pairs.items()}


INSTRUCTIONS = ("request_instructions", "load_instructions")


def counts_told(each):
    """What is counted of each request, as it is written into a file."""
    # (where memory lies moves a miss or two from the whole to the part)
    misses = {name: f"{max(0.0, count):.2f}" for name, count in each.items() if name not in INSTRUCTIONS}
    return {name: round(each[name]) if each else "" for name in INSTRUCTIONS} | misses


def figures(requests, load, beyond, peak, each):
    """What so many requests took and what is counted of each, as they are written into a file."""
    return {
        # (where other work hides it nothing is told)
        "request_us": f"{beyond / requests * 1e6:.3f}" if beyond > 0 else "",
        **counts_told(each),
        "load_s": f"{load:.4f}",
        "peak_mib": f"{peak:.1f}" if peak else "",
    }


def told(what, seconds, peak, ratio=0.0):
    """A line that says what something cost."""
    return f"{what}: {seconds:.6f} s" + (f", ratio {ratio:.2f}" if ratio else "") + (f", {peak:.1f} MiB" if peak else "")


def built_by_rustc(name, room):
    """A program in Rust of this folder, or nothing where rustc is missing."""
    if not shutil.which("rustc"):
        return None
    program = room / name
    subprocess.run(["rustc", "-O", "--edition", "2021", "-o", program, TOP / f"bench/{name}.rs"], check=True)
    return program


def rule(number, host="host"):
    """A rule that is made up, and blocks a host of its own."""
    return {"id": number, "condition": {"urlFilter": f"||{host}{number}.test^"}, "action": {"type": "block"}}


def line(value):
    """A line of a script."""
    return json.dumps(value, separators=(",", ":")) + "\n"


def switched(number):
    """An update that disables the first ruleset, or of an odd number one that enables it."""
    which = "disableRulesetIds" if number % 2 == 0 else "enableRulesetIds"
    return line({"cmd": "rulesets", "extension": "own", which: ["set0"]})


def write_extension(folder, name, rulesets):
    """Writes an extension into a folder of its name. A ruleset is its id, whether it is enabled, and its rules."""
    (folder / name).mkdir(exist_ok=True)
    resources = []
    for which, enabled, rules in rulesets:
        (folder / name / f"{which}.json").write_text(json.dumps(rules))
        resources.append({"id": which, "enabled": enabled, "path": f"{which}.json"})
    manifest = {"declarative_net_request": {"rule_resources": resources}} if resources else {}
    (folder / name / "manifest.json").write_text(json.dumps(manifest))


def fill(folder, sets, off=0):
    """Writes the extension `own` with so many rulesets that are made up, the first so many of them disabled."""
    made = ((f"set{it}", it >= off, [rule(number + 1, f"set{it}-") for number in range(STATIC)]) for it in range(sets))
    write_extension(folder, "own", made)


def served(script, names=("own",)):
    """The words that serve a script over extensions of the folder in which they are run."""
    return [PROGRAM, "serve", *(word for name in names for word in ("--ext", name)), script]


def cost_of_updates(folder, before, updates):
    """The cost of updates behind the line that comes before them."""
    (folder / "before").write_text(before)
    (folder / "script").write_text(before + "".join(updates))
    pair = [partial(run, served(script), folder / "out", folder) for script in ("before", "script")]
    _, beyond, peak = in_turn({"updates": pair})["updates"]
    return beyond, peak


def waits(folder, texts):
    """How many seconds each text keeps waiting who asks for it. A text is a line, or as many as a round may hold, and is written
    into a pipe when the one before it was answered."""
    os.mkfifo(folder / "asked")
    with subprocess.Popen(served("asked"), stdout=subprocess.PIPE, cwd=folder) as engine, open(folder / "asked", "w") as script:
        for each in texts:
            begun = time.perf_counter()
            script.write(each + SYNC)
            script.flush()
            for _ in range(each.count("\n") + 1):
                engine.stdout.readline()
            yield time.perf_counter() - begun
    (folder / "asked").unlink()
