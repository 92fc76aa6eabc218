#!/usr/bin/env python3
"""Brings the names of the repository's own definitions and lemmas to the spelling of today's Rattle.

    python3 tools/names.py [FOLDER] [--list]

Run once, after the kit's port.py, at the top of the repository (or over FOLDER). --list writes the renamings and
changes nothing. The rules, from the kit's CONTRACT_STYLE.md, "Names":

- Definitions, constructors, fields and lemmas are in snake case: keyByte is key_byte.
- A dash joins the names of two definitions, and stays there: length-trimEnd is length-trim_end. Any other word is
  added with _: walk-done is walk_done.
- A name that would meet a function of src/ or another name of its file gets the one that BY_HAND gives it.

Functions of src/, strings, inputs and outputs keep their names. Edits in must-fail/ and the pages of docs/ are
renamed too; what else has changed in an edit's text is brought over by hand.
"""
import collections
import glob
import os
import re
import sys

# Parameters of signatures.
PARAMETERS = {
    "textAt": "text_at",
    "textSize": "text_size",
    "sectionsSize": "sections_size",
    "entriesSize": "entries_size",
    "outSize": "out_size",
    "bytesSize": "bytes_size",
    "endsSize": "ends_size",
    "backSize": "back_size",
    "againSize": "again_size",
    "otherSize": "other_size",
}

# Names that would fall together with another one, or hide it.
BY_HAND = {
    # fields that say what a buffer holds afterwards, beside the definitions text_after, sections_after ..
    "text-after": "new_text",
    "sections-after": "new_sections",
    "entries-after": "new_entries",
    "out-after": "new_out",
    "bytes_after": "new_bytes",
    "ends-after": "new_ends",
    "report-after": "new_report",
    "bytes_back": "bytes_came_back",
    "ends-back": "ends_came_back",
    # lemmas that would have their function's name
    "bare-byte": "bare_byte_lem",
    "bare-item": "bare_item_lem",
    "boolean-means": "boolean_means_lem",
    "check-means": "check_means_lem",
    "entry-count": "entry_count_lem",
    "entry-numbers": "entry_numbers_lem",
    "entry-of": "entry_of_lem",
    "find-means": "find_means_lem",
    "header-kind": "header_kind_lem",
    "key-same": "key_same_lem",
    "line-length": "line_length_lem",
    "normal-means": "normal_means_lem",
    "one-or-more": "one_or_more_lem",
    "quoted-item": "quoted_item_lem",
    "read-means": "read_means_lem",
    "same-lengths": "same_lengths_lem",
    "section-count": "section_count_lem",
    "section-numbers": "section_numbers_lem",
    "sections-in": "sections_in_lem",
    "sections-named": "sections_named_lem",
    "span-means": "span_means_lem",
    "split-means": "split_means_lem",
    "table-in": "table_in_lem",
    "text-of-table": "text_of_table_lem",
    "text_in": "text_in_lem",
    # a dash joins two definitions only where it means them
    "value-number": "value_number",
    "step-quote": "step_quote",
    "value-means": "value_means_lem",
    "write-means": "write_means_lem",
}

TOKEN = re.compile(r"[^\s(){}\[\].;,@`|«»]+")
SIGNATURE = re.compile(r"^\s*(?:(?:abbrev|unfoldable|pub|field) )*((?:[^\s:(){}]+ )+): ")
CAMEL = re.compile(r"^[a-z][a-z0-9]*(?:[A-Z][A-Za-z0-9]*)")


def files(top, *patterns):
    return sorted(f for p in patterns for f in glob.glob(os.path.join(top, p), recursive=True) if "/out/" not in f)


def strip_comment(line):
    i = line.find("--")
    return line if i < 0 else line[:i]


def defined(top):
    """Every name with a signature of its own: definitions, lemmas, fields, constructors."""
    names, specs, fields = set(), set(), set()
    for f in files(top, "crates/*/specs/**/*.antt", "crates/*/proofs/**/*.antt"):
        if f.endswith("Proof.antt"):
            continue
        block = None
        for line in open(f, encoding="utf-8"):
            line = strip_comment(line)
            head = re.match(r"^(?:pub )?(record|data) ", line)
            if head:
                block = head.group(1)
            elif re.match(r"^\S", line):
                block = None
            m = SIGNATURE.match(line)
            if not m:
                continue
            for n in m.group(1).split():
                if n in ("record", "data", "module", "use", "_", "let", "where", "in"):
                    continue
                names.add(n)
                if not line.startswith(" ") and "/specs/" in f:
                    specs.add(n)
                if block and line.startswith("  "):
                    fields.add(n)
    return names, specs, fields


def imported(text):
    """The names that a file takes from elsewhere than the repository's crates."""
    out = set()
    own = os.environ.get("OWN", "").split()
    for m in re.finditer(r"^(?:ghost )?use ([^\s{]+?)\.?\{([^}]*)\}", text, re.M):
        if re.match(r"Rattle\.(\w+)\.", m.group(1)) and re.match(r"Rattle\.(\w+)\.", m.group(1)).group(1) in own:
            continue
        for n in m.group(2).split(","):
            out.update(n.strip().split(" as "))
    return out


def snake(word):
    word = re.sub(r"LF$", "Lf", word)
    word = re.sub(r"(?<=[a-z0-9])([A-Z])", lambda m: "_" + m.group(1).lower(), word)
    return word.replace("NoLF", "no_lf")


def renamings(top):
    names, specs, fields = defined(top)
    # definitions, by their new names: what a dash may join
    words = {snake(n) for n in specs if re.match(r"^[a-z]", n) and "-" not in n}
    words |= {"length", "take", "drop", "map", "set", "reverse", "sum"}
    out = {}
    for n in sorted(names):
        if n in BY_HAND:
            out[n] = BY_HAND[n]
            continue
        parts = n.split("-")
        if any(not re.match(r"^[A-Za-z]", p) for p in parts):
            continue
        if not re.match(r"^[a-z]", n):
            continue
        new = [snake(p) if re.match(r"^[a-z]", p) else p for p in parts]
        if len(new) > 1 and (n in fields or n in specs or not all(p in words for p in new)):
            new = ["_".join(new)]
        res = "-".join(new)
        if res != n:
            out[n] = res
    return out, names


def replace(text, table, skip):
    def sub(m):
        w = m.group(0)
        if w in skip:
            return w
        return table.get(w, w)

    # strings keep their names
    parts = re.split(r'("(?:[^"\\]|\\.)*")', text)
    return "".join(p if i % 2 else TOKEN.sub(sub, p) for i, p in enumerate(parts))


def main():
    args = [a for a in sys.argv[1:] if not a.startswith("--")]
    top = args[0] if args else "."
    os.environ["OWN"] = " ".join(os.listdir(os.path.join(top, "crates")))
    if os.path.exists(os.path.join(top, "docs", "PORT.md")) and "--list" not in sys.argv:
        sys.exit("names.py: docs/PORT.md says that this has been done: a second run would rename what stands")
    table, names = renamings(top)
    table.update(PARAMETERS)
    if "--list" in sys.argv:
        for old, new in sorted(table.items()):
            print(old, new)
        return
    camel = {o: n for o, n in table.items() if "-" not in o}
    for f in files(top, "crates/*/specs/**/*.antt", "crates/*/proofs/**/*.antt", "crates/*/src/*.rt"):
        text = open(f, encoding="utf-8").read()
        skip = imported(text)
        lines = []
        for line in text.split("\n"):
            mark = "//" if f.endswith(".rt") else "--"
            i = line.find(mark)
            code, comment = (line, "") if i < 0 else (line[:i], line[i:])
            lines.append(replace(code, table, skip) + replace(comment, camel, skip))
        new = "\n".join(lines)
        if new != text:
            open(f, "w", encoding="utf-8").write(new)
    # port.py turns no edit and no page: there the names that it has turned are turned too
    known = {table.get(n, n) for n in names}

    class Everywhere(dict):
        def get(self, w, default=None):
            if w in table:
                return table[w]
            return snake(w) if re.match(r"[a-z][a-z0-9]*[A-Z]", w) and snake(w) in known else default

    everywhere = Everywhere()
    for f in files(top, "crates/*/must-fail/*.edit"):
        text = open(f, encoding="utf-8").read()
        lines = []
        for line in text.split("\n"):
            if re.match(r"(old|new):", line):
                line = re.sub(r"Rattle·(\w+)·specs\.specs\.", r"Rattle.\1.specs.", line)
                line = re.sub(r"Rattle·(\w+)\.specs\.", r"Rattle.\1.specs.", line)
                line = re.sub(r"\((\w+(?: \.[\w-]+)+)\)", lambda m: m.group(1).replace(" .", "."), line)
                line = re.sub(r"(?<=\w) \.(?=[a-z])", ".", line)
                line = line.replace("′", "'")
                line = line[:5] + replace(line[5:], everywhere, set())
            lines.append(line)
        new = "\n".join(lines)
        if new != text:
            open(f, "w", encoding="utf-8").write(new)
    for f in files(top, "docs/*.md", "README.md"):
        text = open(f, encoding="utf-8").read()
        new = re.sub(r"`[^`\n]+`", lambda m: replace(m.group(0), everywhere, set()), text)
        if new != text:
            open(f, "w", encoding="utf-8").write(new)


main()
