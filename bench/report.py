"""Writes docs/MEASURED.md, its picture, and the table of README.md, of the files that bench/all wrote of one day, and of
what bench/library wrote last.
"""
import csv
import hashlib
import sys
from functools import partial
from importlib.machinery import SourceFileLoader
from pathlib import Path

sys.dont_write_bytecode = True
plot = SourceFileLoader("plot", str(Path(__file__).resolve().parent / "plot")).load_module()
BEGIN, END = "<!-- made by bench/all -->\n", "<!-- to here -->\n"


def sum_of(path):
    return hashlib.sha256(Path(path).read_bytes()).hexdigest()


def table(head, rows):
    """A table of Markdown."""
    lines = [head, ["---"] * len(head), *rows]
    return "".join("| " + " | ".join(map(str, row)) + " |\n" for row in lines)


def number(value, form, unit=""):
    """A value as it is told, or nothing where it was not measured."""
    return f"{float(value):{form}}{unit}" if value != "" else ""


def seconds(value):
    """Seconds in the unit that fits them. A difference that is less than nothing is hidden by other work on the machine."""
    value = float(value)
    if value <= 0:
        return "too little to tell"
    for unit, most in (("s", 0.1), ("ms", 1e-3)):
        if value >= most:
            value = value if unit == "s" else 1e3 * value
            return f"{value:.{1 if value >= 10 else 2}f} {unit}"
    return f"{1e6 * value:.0f} µs"


def ratio(one, other, column):
    """A figure of a row by that of another, where both were measured."""
    return f"{float(one[column]) / float(other[column]):.2f}" if one is not other and one[column] and other[column] else ""


# Misses are counted in some files, and in none of an earlier state.
MISSES = {"request_d1_misses": "D1", "request_i1_misses": "I1", "request_lld_misses": "LLd", "request_lli_misses": "LLi"}


def misses_in(rows):
    """The columns of misses that were counted."""
    return [it for it in MISSES if any(row.get(it) for row in rows)]


def are_loads_counted(rows):
    return any(row.get("load_instructions") for row in rows)


def each_rule(row):
    """The instructions until the first request, by the count of rules."""
    count = int(row["rules"])
    return f"{int(row['load_instructions']) / count:,.0f}" if count and row.get("load_instructions") else ""


def told_of(row, by, misses=(), loads=False):
    """What requests took in a row, and a ratio of each column that has one."""
    return [
        number(row["request_us"], ".2f", " µs"),
        by("request_us"),
        number(row["request_instructions"], ",.0f"),
        by("request_instructions"),
        *(number(row[it], ",.1f") for it in misses),
        seconds(row["load_s"]),
        *([each_rule(row)] if loads else []),
        peak_of(row),
    ]


def row_of(row, others, misses=(), loads=False):
    """A row of requests, with what `dnr` takes by what each plain program does."""
    mine = next(it for it in others if it["program"] == "dnr" and it["rules"] == row["rules"])
    return [f"{int(row['rules']):,}", row["program"], *told_of(row, partial(ratio, mine, row), misses, loads)]


def head_of(misses=(), loads=False):
    """The head of what requests took."""
    return ["a request", "ratio", "instructions", "ratio", *(MISSES[it] for it in misses), "loading", *(["instructions a rule"] if loads else []), "peak"]


def request_table(rows):
    """A row for each program over each count of rules."""
    shown = misses_in(rows), are_loads_counted(rows)
    return table(["rules", "program", *head_of(*shown)], [row_of(it, rows, *shown) for it in rows])


def peak_of(row):
    return number(row["peak_mib"], ".1f", " MiB")


def machine_part(of, day):
    """What the figures are figures of. `of` is what bench/all wrote of the machine."""
    package = f", of Debian's uBlock Origin {of['lists_package']}" if of["lists_package"] else ""
    load = f"{of['load_before']} and {of['load_after']} processes that wanted a processor, in the mean of a minute"
    head = f"""# Measured

Figures of one state on one machine: the program built of commit `{of["commit"]}`, measured on {of["day"]} by

```
bench/all
```

which wrote them into [bench/results](../bench/results) as files that begin with `{day}`, and made this page, its picture and the table of the [README](../README.md) of these files.
Nothing of this is promised, and what is proved says nothing of time or memory.

"""
    told = [
        ["processor", f"{of['processor']}, {of['processors']} of them"],
        ["memory", f"{of['memory_gb']} GB"],
        ["system", of["system"]],
        ["other work, before and behind", load],
        ["toolchain", f"`{of['toolchain']}`" if of["toolchain"] else "not on this machine"],
        ["the program, its SHA-256", f"`{of['program_sha256']}`"],
        ["plain programs", f"{of['rustc']}, `-O`" if of["rustc"] else "not measured, since rustc was missing"],
        ["instructions", f"{of['valgrind']}, cachegrind" if of["valgrind"] else "not counted, since valgrind was missing"],
        ["lists", of["lists"] + package if of["lists"] else "none"],
    ]
    pairs = " What is told without what stands before it, as a request without the loading, is the median of the differences of such pairs of runs, one right behind the other."
    tail = f"""
![Time and instructions a request, memory and loading against the number of rules; requests a second by workers; updates](measured.svg)

A time is one of the processor, so that other work counts little, and the least of {of["runs"]} runs or more in which the programs take turns; where it is by the clock it says so.{pairs if of.get("differences") else ""}
"""
    return head + table(["what", ""], told) + tail


def requests_part(rows, of):
    head = f"""
## Requests

Rules and requests are drawn from the seed {of["seed"]}, as `bench/run` says: each rule with a urlFilter and, as in filter lists, some of types, a party, domains and methods; {int(of["requests"]):,} requests as pages ask for them.
Reading a request's line and writing its answer are in these figures.
Beside `dnr match` stand plain Rust programs that find rules by the rarest of their words, as Brave's engine does. One reads lines by `serde_json` and `url`, as most Rust programs do, and the other by hand, with little checking. Neither checks the rules that it loads. All write the same bytes.
A ratio is the figure of `dnr` by that of the program in its row: below 1 `dnr` needs less.

"""
    return head + request_table(rows)


def filters_part(rows, of):
    head = """
## Requests over the filters of lists

The same with filters of the lists, some of them and then all, each a rule of its own, and requests of which a fifth go to hosts that filters name.
What plain programs do not read is left out: regular expressions, filters that heed case, and other actions than block and allow.
"""
    if misses_in(rows):
        head += f"""Misses of a request are counted with its instructions, in caches that cachegrind imitates: of a first cache for data (D1) and of one for code (I1), and of a last cache for both, by data (LLd) and by code (LLi). They are the same on each machine: {of["caches"]}.
"""
    return head + "\n" + request_table(rows)


def lists_part(rows, of):
    head = """
## Filter lists

`serve all` has each list as an extension. A list may give many filters as one rule.

"""
    told = [[it["what"], f"{int(it['lines']):,}", f"{int(it['rules']):,}", seconds(it["seconds"]), peak_of(it)] for it in rows]
    return head + table(["what", "lines", "rules", "time", "peak"], told)


def limits_part(rows, of):
    head = """
## Updates, long scripts and hostile lines

Of updates the time is less that of the same session without them. Where each rule is added when the last was, it is by the clock, from the line that a program writes into a pipe to the answer that it reads.
"""
    # (an earlier state has none)
    ratios = ["ratio"] if any(it.get("ratio") for it in rows) else []
    if ratios:
        head += """Building the index of these rules is what the plain programs above do with rules that they have read: the least of many builds, by the clock too. Its ratio is the longest answer by it.
"""
    told = [[it["what"], seconds(it["seconds"]), *(number(it[column], ".2f") for column in ratios), peak_of(it)] for it in rows]
    return head + "\n" + table(["what", "time", *ratios, "peak"], told)


def rulesets_part(rows, of):
    dealt = {it["what"]: it for it in rows if it["rules"]}
    toggled = [it for it in rows if not it["rules"]]
    head = f"""
## Many rulesets

The first {max(int(it["rules"]) for it in dealt.values()):,} filters of the lists, each a rule of its own, dealt out one after another to rulesets, and requests as over the filters of lists, answered by `serve`.
A ratio is the figure of a row by that of one ruleset; where some rulesets of an extension are enabled and the others are not, by that of these alone.
Of several extensions each is asked: what one blocks no other allows.

"""
    between = """
A ruleset enabled and disabled beside others of its extension, which with it have all rules that may be in force.
An answer is by the clock, from the line that a program writes into a pipe, or all lines, to the answer that it reads; the last row is of the processor, less the same session without these updates.

"""
    told = []
    for row in dealt.values():
        other = dealt[row["beside"]]
        told.append([row["what"], f"{int(row['rules']):,}", *told_of(row, partial(ratio, row, other))])
    tail = table(["what", "time", "peak"], [[it["what"], seconds(it["seconds"]), peak_of(it)] for it in toggled])
    return head + table(["rulesets", "rules in force", *head_of()], told) + between + tail


def workers_part(rows, of):
    head = f"""
## Workers

By the clock, so other work on the machine shows here. {"The rules of the lists" if of["lists"] else "Rules that are drawn"}, as one ruleset, and {int(of.get("served", of["requests"])):,} requests; with updates there is one every 100 lines.
What the machine has to give is told by programs side by side, which share nothing.

"""
    speeds = [it for it in rows if it["requests_a_second"]]
    told = [[it["what"], f"{int(it['requests_a_second']):,}", it["times_one_worker"]] for it in speeds]
    others = [f"- {it['what'][0].upper()}{it['what'][1:]}: {it['times_one_worker']}.\n" for it in rows if it not in speeds]
    return head + table(["what", "requests a second", "times one worker"], told) + "\n" + "".join(others)


# What each phase of bench/phases does.
PHASES = {
    "cut": "lines are cut from the script",
    "ask": "lines that are not plain are asked what they ask for",
    "take": "lines are taken into the round",
    "answer": "seats answer, the writer updates, and threads are started for them and for cutting",
    "settle": "answers are put in order",
    "write": "they are written",
}


def phases_part(rows, of):
    head = """
## What a round takes

Instructions of a line in each phase of the [path of a round](ARCHITECTURE.md#the-path-of-a-round), counted by valgrind's callgrind, by `bench/phases`: some of the requests above, served over the same rules, less a session with an empty script.
All threads are counted, and in the last row the one alone that serves the script. `answer` is done by all seats beside each other, and a thread of its own does most of `cut` meanwhile, where there are several; all else is done by that one thread, while no seat has work.
What the loop around the phases does of its own is counted as the rest.

"""
    found = {(it["workers"], it["what"]): float(it["instructions"]) for it in rows}
    counts = list(dict.fromkeys(it["workers"] for it in rows))
    columns = [column for it in counts for column in (f"{it} worker{'s' * (it != '1')}", "share")]
    told = []
    for what in dict.fromkeys(it["what"] for it in rows):
        of_each = [(found[it, what], found[it, what] / found[it, "all"]) for it in counts]
        name = f"{what}: {PHASES[what]}" if what in PHASES else what
        texts = (text for cost, share in of_each for text in (f"{cost:,.0f}", f"{share:.1%}"))
        told.append([name, *texts])
    return head + table(["phase", *columns], told)


def answers_part(rows, of):
    head = """
## One request, and its answer

By the clock, from the line that a program writes into a named pipe, with a `sync` behind it, to the answer that it reads, by `bench/answers`: 20,000 questions, one after another, of `serve` with the lists.
`echo` is a program in C that only writes as many lines for each question. A ratio is the figure of a row by that of `echo`.

"""
    told = [[it["program"], f"{it['answer_us']} µs", it["ratio"], f"{it['slow_us']} µs"] for it in rows]
    return head + table(["program", "an answer in the median", "ratio", "99 of 100"], told)


def broker_part(rows, of):
    head = """
## Through the broker and the proxies

What `bench/broker` measured, by the clock.

"""
    return head + table(list(rows[0]), [list(it.values()) for it in rows])


def library_part(results):
    """What bench/library wrote, if it has written anything."""
    file = results / "library.csv"
    if not file.is_file():
        return ""
    with open(file, newline="") as it:
        rows = list(csv.DictReader(it))
    mine = rows[0]
    head = f"""
## Decisions through the library for C

The {int(mine["rules"]):,} filters and the requests of the lists once more, by `bench/library`, of commit `{mine["commit"]}` on {mine["day"]}, on {mine["processor"]}; {mine["load"]} processes wanted a processor, before and behind. It may be another machine than the one above.
`dnr_ask` reads the lines that `dnr match` reads and writes the same bytes. `dnr_decide` gets each request by its parts, and gives the verdict by its parts. Opening the engine is not in these figures, and for `dnr_decide` neither is what reads requests.
A ratio is the figure of a row by that of `dnr match`.

"""
    told = [
        [
            row["program"],
            number(row["request_us"], ".2f", " µs"),
            ratio(row, mine, "request_us"),
            number(row["request_instructions"], ",.0f"),
            ratio(row, mine, "request_instructions"),
        ]
        for row in rows
    ]
    return head + table(["program", "a request", "ratio", "instructions", "ratio"], told)


PARTS = {
    "requests": requests_part,
    "filters": filters_part,
    "lists": lists_part,
    "limits": limits_part,
    "rulesets": rulesets_part,
    "workers": workers_part,
    "phases": phases_part,
    "answers": answers_part,
    "broker": broker_part,
}


def document(results, day):
    """The text of docs/MEASURED.md, with a part for each file of that day."""
    of = {it["what"]: it["is"] for it in plot.rows_of(results, day, "machine")}
    rows = {name: plot.rows_of(results, day, name) for name in PARTS}
    return machine_part(of, day) + "".join(part(rows[name], of) for name, part in PARTS.items() if rows[name]) + library_part(results)


def short_table(results, day):
    """The table of README: what a request takes without rules, with some and with all."""
    rows = plot.rows_of(results, day, "requests")
    counts = sorted({int(it["rules"]) for it in rows})
    wanted = {counts[0], *counts[-3:-2], counts[-1]}
    found = [row_of(it, rows) for it in rows if int(it["rules"]) in wanted]
    head = ["rules", "program", *head_of()]
    of = {it["what"]: it["is"] for it in plot.rows_of(results, day, "machine")}
    told = (
        f"\nOf commit `{of['commit']}`, on {of['day']}; {of['load_before']} processes wanted the {of['processors']} processors of the"
        f" machine before it, and {of['load_after']} behind it. Instructions are counted, and other work shows in times.\n"
    )
    # (all but the loading)
    return table([*head[:6], head[7]], [[*row[:6], row[7]] for row in found]) + told


def with_table(text, made):
    """The text of README with this table between its two marks."""
    before, _, rest = text.partition(BEGIN)
    _, _, behind = rest.partition(END)
    return before + BEGIN + made + END + behind if behind else text


def write(results, day, docs, readme=None):
    """Writes the page and its picture into a folder, and the table into README."""
    docs.mkdir(parents=True, exist_ok=True)
    (docs / "MEASURED.md").write_text(document(results, day))
    (docs / "measured.svg").write_text(plot.picture(results, day))
    if readme:
        readme.write_text(with_table(readme.read_text(), short_table(results, day)))
