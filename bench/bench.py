#!/usr/bin/env python3
"""How long cite_run takes, and how much memory, as documents grow.

    bench/bench.py [--program PATH] [--kinds NAME,..] [--most N] [--runs N] [--instructions]

Makes documents of n = 1,000, 4,000, 16,000 and 64,000 (up to --most) of each kind, runs the program
on each, and prints a row for each: the document's size, the best processor time of --runs runs, the
peak of memory, the growth of the time from the n before (from n to 4n; linear is 4), and the ratio
of the time to that of reading alone. Reading alone is the same program on the same document with
one more key at the top, which it reads as JSON whole and then refuses.

With --instructions it counts the millions of instructions that the program executes (one run each,
by valgrind's callgrind, much slower) in place of time and peak: these don't depend on caches and on
what else the machine does.

Only Python's standard library and the built program are used, and valgrind with --instructions.
Build the program first: (cd crates/cite_run && rt run < stdin).
Documents are made in a process of their own, since a child's peak of memory begins with that of its
parent: peaks below some 12 MiB are this script's.
"""
import argparse
import json
import os
import pathlib
import re
import subprocess
import sys
import tempfile

ROOT = pathlib.Path(__file__).resolve().parent.parent
SIZES = [1_000, 4_000, 16_000, 64_000]
DOCUMENT_REFUSED = 2
LINE = "{:<23} {:>7} {:>9} {:>9} {:>9} {:>7} {:>8}"


def numeric_style():
    number = {"kind": "number", "variable": "citation-number"}
    return {
        "citation": {"elements": [number], "prefix": "[", "suffix": "]", "delimiter": ", "},
        "bibliography": {"elements": [{**number, "prefix": "[", "suffix": "]"}]},
    }


def document(style, entries, requests, **top):
    return {
        "styles": {"s": style},
        "entries": entries,
        "requests": [{"style": "s", "items": [{"entry": key} for key in keys]} for keys in requests],
        "bibliography": {"style": "s"},
        **top,
    }


def keys_of(count):
    return [f"entry{i}" for i in range(count)]


def numeric(n):
    """n requests of two cites each; every entry is cited about four times."""
    keys = keys_of(max(n // 2, 1))
    requests = [[keys[i * 7 % len(keys)], keys[i * 11 % len(keys)]] for i in range(n)]
    return document(numeric_style(), [{"key": key} for key in keys], requests)


def all_distinct(n):
    """n requests, each of an entry of its own."""
    keys = keys_of(n)
    return document(numeric_style(), [{"key": key} for key in keys], [[key] for key in keys])


def one_entry(n):
    """n requests of one entry."""
    return document(numeric_style(), [{"key": "entry"}], [["entry"]] * n)


def one_request(n):
    """One request of n cites."""
    keys = keys_of(n)
    return document(numeric_style(), [{"key": key} for key in keys], [keys])


def handed_order(n):
    """n requests, and an order that lists their entries from the last to the first."""
    keys = keys_of(n)
    made = document(numeric_style(), [{"key": key} for key in keys], [[key] for key in keys])
    made["bibliography"]["order"] = keys[::-1]
    return made


def macros(n):
    """A style of n macros, each of which calls the next, and no layout calls one; one request."""
    style = numeric_style()
    style["macros"] = [
        {"name": f"macro{i}", "children": [{"kind": "text", "macro": f"macro{i + 1}"}]} for i in range(n)
    ]
    return document(style, [{"key": "entry"}], [["entry"]])


def author_date(n):
    """n requests of one cite each, of two persons and a year, as in (Doe & Roe 1999); every entry
    another one."""
    names = {"kind": "names", "variables": ["author"], "options": {"and": "symbol", "name_form": "short"}}
    date = {"kind": "date", "variable": "issued"}
    group = {"kind": "group", "children": [names, date], "delimiter": " "}
    style = {"citation": {"elements": [group], "prefix": "(", "suffix": ")", "delimiter": "; "}}
    entries = [
        {
            "key": key,
            "author": [[f"Doe{i}", "Jane"], ["Roe", "Rick"]],
            "issued": 1900 + i % 100,
        }
        for i, key in enumerate(keys_of(n))
    ]
    return document(style, entries, [[entry["key"]] for entry in entries])


def citing(children, **ways):
    """A style whose cites are a group of these elements, as in (Doe 1999)."""
    group = {"kind": "group", "children": children, "delimiter": " "}
    return {"citation": {"elements": [group], "prefix": "(", "suffix": ")", "delimiter": "; ", **ways}}


NAMES = {"kind": "names", "variables": ["author"], "options": {"and": "symbol", "name_form": "short"}}
YEAR = {"kind": "date", "variable": "issued"}


def called(requests, more=0, terms=1):
    """Requests of two persons and a year, which macros of the style write, behind so many more
    macros of a dozen elements that nothing calls; the word between the persons is the last of so
    many terms."""
    made = author_date(requests)
    named = {**NAMES, "options": {"and": "text", "name_form": "short"}}
    unused = [{"name": f"unused{i}", "children": [{"kind": "text", "value": "text"}] * 12} for i in range(more)]
    style = citing([{"kind": "text", "macro": "authors"}, {"kind": "text", "macro": "year"}])
    style["macros"] = [*unused, {"name": "authors", "children": [named]}, {"name": "year", "children": [YEAR]}]
    dated = [{"name": "no-date", "single": "n.d."}] * (terms - 1)
    made["locales"] = [{"lang": "en-US", "terms": [*dated, {"name": "and", "single": "and"}]}]
    made["styles"]["s"] = style
    return made


def few_macros(n):
    """n requests in a style of three macros, with one term."""
    return called(n, more=1)


def many_macros(n):
    """n requests in a style of 150 macros of a dozen elements, with 260 terms."""
    return called(n, more=148, terms=260)


def requests_and_macros(n):
    """n requests in a style of n macros."""
    return called(n, more=n - 2)


def requests_and_terms(n):
    """n requests with a locale of n terms."""
    return called(n, terms=n)


def macro_chain(n):
    """One request in a style whose layout calls the first of n macros, and each of these the
    next."""
    made = macros(n)
    layout = made["styles"]["s"]["citation"]
    layout["elements"] = [{"kind": "text", "macro": "macro0"}, *layout["elements"]]
    return made


def macro_calls(n):
    """One request in a style whose layout calls n macros."""
    style = numeric_style()
    style["macros"] = [{"name": f"macro{i}", "children": [{"kind": "text", "value": "text"}]} for i in range(n)]
    style["citation"]["elements"] = [{"kind": "text", "macro": f"macro{i}"} for i in range(n)]
    return document(style, [{"key": "entry"}], [["entry"]])


def ambiguous_pairs(n):
    """n requests of one cite each, of two persons and a year; every two entries read alike."""
    entries = [
        {"key": key, "author": [[f"Doe{i // 2}", "Jane"], ["Roe", "Rick"]], "issued": 1999}
        for i, key in enumerate(keys_of(n))
    ]
    style = citing([NAMES, YEAR], add_names=True, add_givenname=True, add_year_suffix=True)
    return document(style, entries, [[entry["key"]] for entry in entries])


def one_author(n):
    """n requests, each of another work of one person and one year, which all get suffixes."""
    entries = [{"key": key, "author": [["Doe", "Jane"]], "issued": 1999} for key in keys_of(n)]
    style = citing([NAMES, YEAR], add_names=True, add_givenname=True, add_year_suffix=True)
    return document(style, entries, [[entry["key"]] for entry in entries])


def one_family(n):
    """n requests, each of another person of one family, told apart by given names."""
    entries = [{"key": key, "author": [["Doe", f"Jane{i}"]], "issued": 1999} for i, key in enumerate(keys_of(n))]
    style = citing([NAMES, YEAR], add_names=True, add_givenname=True)
    return document(style, entries, [[entry["key"]] for entry in entries])


def without_text(n):
    """n requests of one cite each, none of which has any text."""
    keys = keys_of(n)
    return document(citing([NAMES, YEAR], add_year_suffix=True), [{"key": key} for key in keys], [[key] for key in keys])


def chained(n):
    """n requests, each of an entry that shows its publisher, or its title where it is chosen, in as
    many rounds as mark: each round chooses one entry, which reads as the next from then on, so
    there are n - 1."""
    publishers = [1, *range(1, n)]
    titles = [0, *range(2, n + 1)]
    entries = [
        {"key": key, "publisher": f"X{publishers[i]}", "title": f"X{titles[i]}"} for i, key in enumerate(keys_of(n))
    ]
    chosen = {"if": ["disambiguate"], "children": [{"kind": "text", "variable": "title"}]}
    choose = {"kind": "choose", "branches": [chosen], "else": [{"kind": "text", "variable": "publisher"}]}
    return document(citing([choose]), entries, [[entry["key"]] for entry in entries], rounds="full")


def interleaved(n):
    """One request of n cites, of n / 4 authors by turns."""
    authors = max(n // 4, 1)
    entries = [
        {"key": key, "author": [[f"Doe{i % authors}"]], "issued": 1990 + i // authors}
        for i, key in enumerate(keys_of(n))
    ]
    return document(citing([NAMES, YEAR], cite_group_delimiter=", "), entries, [[entry["key"] for entry in entries]])


def collapsing(n):
    """One request of n cites whose numbers are one run."""
    made = one_request(n)
    made["styles"]["s"]["citation"]["collapse"] = "citation-number"
    return made


def one_text(n):
    """n requests, each of another work of one title, which nothing tells apart."""
    entries = [{"key": key, "title": "Works"} for key in keys_of(n)]
    title = {"kind": "text", "variable": "title"}
    style = citing([NAMES, title], add_names=True, add_givenname=True, add_year_suffix=True)
    return document(style, entries, [[entry["key"]] for entry in entries])


def last_person_differs(n):
    """n requests, each of a work of six persons and one year, of which the last alone is another
    one."""
    first = [[f"Roe{i}", "Jane"] for i in range(5)]
    entries = [{"key": key, "author": [*first, [f"Doe{i}"]], "issued": 1999} for i, key in enumerate(keys_of(n))]
    names = {**NAMES, "options": {"name_form": "short", "et_al_min": 3, "et_al_use_first": 1}}
    style = citing([names, YEAR], add_names=True, add_givenname=True, add_year_suffix=True)
    return document(style, entries, [[entry["key"]] for entry in entries])


def greatest_distance(n):
    """n notes, each of one of a hundred entries, with the greatest distance of near notes."""
    near = {"if": ["near-note"], "children": [{"kind": "text", "value": "near"}]}
    choose = {"kind": "choose", "branches": [near], "else": [{"kind": "text", "value": "far"}]}
    style = {"class": "note", "citation": {"elements": [choose], "near_note_distance": 2**32 - 1}}
    keys = keys_of(100)
    made = document(style, [{"key": key} for key in keys], [[keys[i * 7 % 100]] for i in range(n)])
    for i, request in enumerate(made["requests"]):
        request["note"] = i + 1
    return made


def copies(name, n):
    """An example's document over and over, up to n requests: the families of each copy are its own,
    and so are its keys."""
    made = json.loads((ROOT / f"examples/{name}.json").read_text())
    count = -(-n // len(made["requests"]))
    order = made["bibliography"].get("order")
    if order:
        made["bibliography"]["order"] = [f"{key}-{i}" for i in range(count) for key in order]
    made["entries"] = [copied_entry(entry, i) for i in range(count) for entry in made["entries"]]
    made["requests"] = [
        copied_request(request, i * len(made["requests"]), i) for i in range(count) for request in made["requests"]
    ][:n]
    return made


def copied_entry(entry, i):
    """The entry of the i-th copy."""
    persons = {key: [[f"{family}{i}", *given] for family, *given in entry[key]] for key in ("author", "editor") if key in entry}
    return {**entry, "key": f"{entry['key']}-{i}", **persons}


def copied_request(request, before, i):
    """The request of the i-th copy, behind so many other requests."""
    items = [{**item, "entry": f"{item['entry']}-{i}"} for item in request["items"]]
    note = {"note": request["note"] + before} if "note" in request else {}
    return {**request, "items": items, **note}


def whole_author_date(n):
    """n requests as users have them: names, given names, suffixes, groups, and a bibliography with
    repeated authors."""
    return copies("author_date", n)


def whole_numeric(n):
    """The same in a numeric style, whose numbers collapse."""
    return copies("numeric", n)


def whole_notes(n):
    """The same in a style of notes, with ibid and references to first notes."""
    return copies("note", n)


def last_person_differs_csl(n):
    """Works of six persons, of which the last differs, told apart as CSL 1.0.2 has it."""
    return {**last_person_differs(n), "rounds": "csl"}


def one_text_csl(n):
    """Works of one title, which get suffixes as CSL 1.0.2 has it."""
    return {**one_text(n), "rounds": "csl"}


def whole_author_date_csl(n):
    """n requests as users have them, told apart as CSL 1.0.2 has it."""
    return {**whole_author_date(n), "rounds": "csl"}


KINDS = {
    kind.__name__: kind
    for kind in (
        numeric, all_distinct, one_entry, one_request, handed_order, macros, author_date,
        ambiguous_pairs, one_author, one_family, without_text, interleaved, collapsing,
        one_text, last_person_differs, greatest_distance, whole_author_date, whole_numeric, whole_notes, chained,
        few_macros, many_macros, requests_and_macros, requests_and_terms, macro_chain, macro_calls,
        last_person_differs_csl, one_text_csl, whole_author_date_csl,
    )
}

def run(program, path):
    """Processor seconds, peak of memory in MiB, and status of one run."""
    with open(path, "rb") as source:
        child = subprocess.Popen([program], stdin=source, stdout=subprocess.DEVNULL, stderr=subprocess.DEVNULL)
        _, status, usage = os.wait4(child.pid, 0)
    child.returncode = os.waitstatus_to_exitcode(status)
    return usage.ru_utime + usage.ru_stime, usage.ru_maxrss / 1024, child.returncode


def best(program, path, runs, wanted):
    """The best time in milliseconds and the peak of memory of some runs on a document."""
    results = [run(program, path) for _ in range(runs)]
    for _, _, status in results:
        if status != wanted:
            sys.exit(f"bench: {path}: the program ended with status {status}, not {wanted}")
    return min(seconds for seconds, _, _ in results) * 1000, max(peak for _, peak, _ in results)


def count(program, path, wanted):
    """Millions of instructions of one run on a document."""
    command = ["valgrind", "--tool=callgrind", "--callgrind-out-file=/dev/null", program]
    with open(path, "rb") as source:
        child = subprocess.run(command, stdin=source, stdout=subprocess.DEVNULL, stderr=subprocess.PIPE, text=True)
    if child.returncode != wanted:
        sys.exit(f"bench: {path}: the program ended with status {child.returncode}, not {wanted}")
    return int(re.search(r"Collected : (\d+)", child.stderr).group(1)) / 1e6


def make(folder, name, n):
    """Writes the document of a kind and a size, and the one that is only read."""
    made = KINDS[name](n)
    for file, text in [("whole", made), ("refused", {**made, "unknown": 0})]:
        (folder / file).write_text(json.dumps(text, separators=(",", ":")))


def measure(folder, chosen, name):
    """Prints the rows of a kind."""
    before = None
    for n in (size for size in SIZES if size <= chosen.most):
        subprocess.run([sys.executable, __file__, "--make", str(folder), name, str(n)], check=True)
        whole, refused = folder / "whole", folder / "refused"
        if chosen.instructions:
            cost, peak = count(chosen.program, whole, 0), None
            reading = count(chosen.program, refused, DOCUMENT_REFUSED)
        else:
            cost, peak = best(chosen.program, whole, chosen.runs, 0)
            reading, _ = best(chosen.program, refused, chosen.runs, DOCUMENT_REFUSED)
        growth = f"{cost / before:.2f}" if before else ""
        size = whole.stat().st_size // 1024
        memory = "" if peak is None else f"{peak:.1f}"
        print(LINE.format(name, n, size, f"{cost:.1f}", memory, growth, f"{cost / reading:.1f}"), flush=True)
        before = cost


def main():
    parser = argparse.ArgumentParser(description=__doc__, formatter_class=argparse.RawDescriptionHelpFormatter)
    parser.add_argument("--program", default=str(ROOT / "crates/cite_run/out/cite_run"))
    parser.add_argument("--kinds", default=",".join(KINDS), help="which kinds, joined by commas")
    parser.add_argument("--most", type=int, default=SIZES[-1], help="the greatest n")
    parser.add_argument("--runs", type=int, default=3)
    parser.add_argument("--instructions", action="store_true", help="count these in place of the time")
    parser.add_argument("--make", nargs=3, metavar=("FOLDER", "KIND", "N"), help=argparse.SUPPRESS)
    chosen = parser.parse_args()
    if chosen.make:
        folder, name, n = chosen.make
        return make(pathlib.Path(folder), name, int(n))
    unit = "million" if chosen.instructions else "ms"
    print(LINE.format("kind", "n", "KiB", unit, "MiB", "growth", "reading"))
    with tempfile.TemporaryDirectory() as folder:
        for name in chosen.kinds.split(","):
            measure(pathlib.Path(folder), chosen, name)


if __name__ == "__main__":
    main()
