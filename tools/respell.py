#!/usr/bin/env python3
"""Brings the names of definitions, fields, constructors and lemmas to one spelling: words in snake case.

usage: tools/respell.py [--dry]     at the top of the repository, once, right after the port to today's Rattle

A name counts if a file of crates/*/specs or crates/*/proofs (not of a function's own folder proofs/F) defines it.
There `lengthAt` and `length-at` become `length_at`; types, modules and files keep theirs. Where two of the
repository's names would fall together, TOLD says what the second is called. A name that a file takes from the library
keeps its spelling there. Sources are turned too where clauses and ghost imports name such a name, and so are the
must-fail edits and the pages. The file Contracts.antt of promises becomes Promised.antt: Rattle now makes a module
`contracts` of its own.
"""
import collections
import os
import re
import subprocess
import sys
# Files where one spelling stands for a module of Rattle's in a path and for a definition: no scope has both.
APART = {"crates/promises/specs/Entries.antt", "crates/promises/specs/Unique.antt"}

TOKEN = r"[^\s(){}\[\]:;.,=λ⊢|\"`«»]+"
# Names that would fall together with another of the repository's, and what they are called.
TOLD = {
    # a function of src/ has the name, and clauses of its crate speak of both
    "endBeyond": "the_end_beyond",
    "runNamed": "the_run_named",
    "treeNamed": "the_tree_named",
    "writeNumber": "the_write_number",
    "segmentAt": "nth_segment",
    "lookedAt": "places_looked_at",
    "legOf": "the_leg_of",
    "firstPath": "the_first_path",
    "marginBy": "the_margin_by",
    "marginIn": "the_margin_in",
    "pathIn": "the_path_in",
    "headIn": "the_head_in",
    "otherAt": "the_other_at",
    "otherRatio": "the_other_ratio",
    "ownPosts": "the_own_posts",
    "sameForm": "the_same_form",
    "wantedBy": "the_wanted_by",
    "countOf": "the_count_of",
    "goesOn": "does_go_on",
    "headSays": "said_of_head",
    "rowSays": "said_of_row",
    "rowEnds": "end_of_row",
    "segmentOf": "the_segment_of",
    "threeOf": "the_three_of",
    "leastLengths": "the_least_lengths",
    "numberFor": "the_number_for",
    # a field has the name already
    "onePost": "the_one_post",
    "roomAfter": "the_room_after",
    "ownRead": "the_own_read",
    # a lemma that is named like the definition it is about
    "between-of": "between_of_law",
    "lightest-of": "lightest_of_law",
    "shortest-of": "shortest_of_law",
    "tree-of": "tree_of_law",
    "build-refusal": "build_refusal_law",
    "margin-refusal": "margin_refusal_law",
    "write-refusal": "write_refusal_law",
    "is-nan": "is_nan_law",
    "field-length": "field_length_law",
    "margin-of": "margin_of_law",
    "same-form": "same_form_law",
    "answer-handing": "answer_handing_law",
    "belongs-at": "belongs_at_law",
    "head-lines": "head_lines_law",
    "own-lines": "own_lines_law",
    "children-to": "children_to_law",
    "says-numbered": "says_numbered_law",
    "says-written": "says_written_law",
    "margin-read": "margin_read_law",
    "laid_by": "laid_by_law",
    "drawn-number": "drawn_number_law",
    "margin-number": "margin_number_law",
    "plan-number": "plan_number_law",
    "write-number": "write_number_law",
    "own-posts": "own_posts_law",
    "post-written": "post_written_law",
    "longest-record": "longest_record_law",
    "row-up-to": "row_up_to_law",
    "own-written": "own_written_law",
    "head-says": "head_says_law",
    # left by the port, which found both spellings in one file
    "treeOf": "tree_of",
}


def files(root, *ends):
    for folder, dirs, names in os.walk(root):
        dirs[:] = sorted(d for d in dirs if d not in ("out", ".git", "target"))
        for name in sorted(names):
            if name.endswith(ends):
                yield os.path.join(folder, name)


def of_function(path):
    """Whether a proof file belongs to one function: crates/NAME/proofs/F/..."""
    return "/proofs/" in path and path.split("/proofs/", 1)[1].count("/") > 0


def is_odd(name):
    return bool(re.search(r"[A-Za-z0-9'/]-[A-Za-z0-9]", name) or re.match(r"[a-z0-9_'+-]+[A-Z]", name))


def snake(name):
    if re.fullmatch(r"[A-Z][A-Za-z0-9]*'*", name):
        return name
    name = re.sub(r"(?<=[a-z0-9'])([A-Z])", lambda m: "_" + m.group(1).lower(), name)
    name = re.sub(r"(?<=.)-(?=.)", "_", name)
    return name[:1].lower() + name[1:]


DEFINES = re.compile(
    r"^\s*(?:(?:abbrev|unfoldable|pub|private|open|irrelevant) )*(" + TOKEN + r"(?: " + TOKEN + r")*?)\s*:(?!=)(?!:)"
)
HEADS = re.compile(r"^\s*(?:pub )?(?:data|record) (" + TOKEN + ")")


def defined(text):
    names = set()
    for line in text.split("\n"):
        if line.lstrip().startswith("--") or line.startswith("use "):
            continue
        m = DEFINES.match(line)
        if m:
            names.update(m.group(1).split())
        m = HEADS.match(line)
        if m:
            names.add(m.group(1))
    return names


def imported(text):
    """Name -> whether the repository's own module gives it, for each name that a file imports."""
    found = {}
    for m in re.finditer(r"^\s*(?:ghost )?use ([^\s{]+?)\.?\{([^}]*)\}", text, re.M):
        own = re.match(r"Rattle\.(\w+)\.", m.group(1) + ".")
        own = bool(own and own.group(1) in CRATES)
        for it in m.group(2).split(","):
            words = it.split(" as ")
            for w in words:
                if w.strip():
                    found[w.strip()] = own
    return found


def turned(text, path, table):
    taken = imported(text)
    local = defined(text) if path.endswith(".antt") else set()

    def new(m):
        before, name = m.group(1), m.group(2)
        if name not in table:
            return m.group(0)
        if name in taken and not taken[name]:
            return m.group(0)
        if of_function(path) and name not in taken and not (before == "." and name in FIELDS):
            return m.group(0)
        return before + table[name]

    return re.sub(r"(^|[\s(){}\[\]:;.,=λ⊢|\"`«»])(" + TOKEN + ")", new, text)


def main():
    global CRATES, FIELDS
    dry = "--dry" in sys.argv
    CRATES = set(os.listdir("crates"))
    names = collections.defaultdict(set)
    FIELDS = set()
    for path in files("crates", ".antt"):
        if of_function(path):
            continue
        with open(path, encoding="utf-8") as f:
            text = f.read()
        for name in defined(text):
            names[name].add(path)
        FIELDS.update(n for line in text.split("\n") if re.match(r"^\s+", line) for n in defined(line))
    table = {n: TOLD.get(n, snake(n)) for n in set(names) | {"treeOf"} if n in TOLD or is_odd(n)}
    table = {n: m for n, m in table.items() if n != m}
    together = 0
    written = {}
    for path in files("crates", ".antt", ".rt"):
        with open(path, encoding="utf-8") as f:
            text = f.read()
        was = collections.Counter(re.findall(TOKEN, text))
        after = turned(text, path, table)
        now = collections.Counter(re.findall(TOKEN, after))
        back = collections.defaultdict(set)
        for n in was:
            m = table.get(n)
            if m and now[n] < was[n]:
                back[m].add(n)
        for n in was:
            if n in back and n not in table:
                back[n].add(n)
        for m, ns in sorted(back.items()):
            if len(ns) > 1:
                if path not in APART and not of_function(path):
                    together += 1
                    print("fall together:", path, m, sorted(ns))
        if after != text:
            written[path] = after
    print(len(table), "names,", len(written), "files;", together, "places fall together")
    if dry or together:
        return 1
    for path, after in written.items():
        with open(path, "w", encoding="utf-8") as f:
            f.write(after)
    pages(table)
    old, new = "crates/promises/specs/Contracts.antt", "crates/promises/specs/Promised.antt"
    if os.path.exists(old):
        subprocess.run(["git", "mv", old, new], check=True)
        for path in files("crates/promises", ".antt"):
            swap(path, r"Rattle\.promises\.specs\.Contracts\b", "Rattle.promises.specs.Promised")
        swap("crates/promises/specs/Lib.antt", r"\bmod Contracts\b", "mod Promised")
        for path in list(files("docs", ".md")) + ["README.md"]:
            swap(path, r"\bContracts\.antt\b", "Promised.antt")
            swap(path, r"\bspecs/Contracts\b", "specs/Promised")
    return 0


def swap(path, old, new):
    with open(path, encoding="utf-8") as f:
        text = f.read()
    after = re.sub(old, new, text)
    if after != text:
        with open(path, "w", encoding="utf-8") as f:
            f.write(after)


def pages(table):
    """Names in the must-fail edits, and names between backquotes in the pages."""
    for path in files("crates", ".edit"):
        with open(path, encoding="utf-8") as f:
            text = f.read()
        after = turned(text, path, table)
        if after != text:
            with open(path, "w", encoding="utf-8") as f:
                f.write(after)
    for path in list(files("docs", ".md")) + ["README.md"]:
        with open(path, encoding="utf-8") as f:
            text = f.read()
        after = re.sub(r"`([^`\n]+)`", lambda m: "`" + turned(m.group(1), path, table) + "`", text)
        if after != text:
            with open(path, "w", encoding="utf-8") as f:
                f.write(after)


if __name__ == "__main__":
    raise SystemExit(main())
