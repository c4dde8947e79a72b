#!/usr/bin/env python3
"""Respells the repository's own definitions and lemmas: words in snake case, types and facts in camel case.

usage: python3 tools/respell.py            at the top of the repository, once, after the toolchain's port script
       python3 tools/respell.py --list     prints each old name with its new one and changes nothing

Renamed are the names that specs/ and proofs/ declare: definitions, lemmas, fields of records and cases of data.
A name from src/, a goal that the check makes, a string and a comment keep their spelling. In a lemma's name a dash
stays between two words that are each the name of a definition of specs/ or one of STD_WORDS, functions of the
library, as in `entered-there` and `entries-length`; elsewhere it becomes `_`.
"""

import glob
import os
import re
import sys

STD_WORDS = "length take drop append map filter reverse cond".split()
TOKEN = re.compile(r"[^\s(){}.,;:\"«»⌜⌝λ\\]+")
GOAL = re.compile(r":\s*goal\.")
HEAD = re.compile(
    r"^(?P<indent>[ ]*)(?P<marks>(?:abbrev |unfoldable |pub )*)(?:(?P<kind>record|data|ruleset) )?"
    r"(?P<name>[^\s(){}:.,;\"|]+)(?P<rest>(?:[ ]*[({][^\n]*?[)}])*[ ]*:(?!:).*)$",
    re.M,
)
WORDS_OF_SYNTAX = {"use", "where", "let", "in", "module", "unfolding", "record", "data", "_"}
# a new name that would fall together with another one in the same files
APART = {"place-of": "place_of_lem", "bit-or": "bit-bit_or"}
# likewise for a name that a file gives to what it brings in
APART_ALIASES = {"words-of": "text_words"}


def files(pattern):
    return sorted(p for p in glob.glob(pattern, recursive=True) if "/out/" not in p)


def snake(name):
    name = re.sub(r"(?<=[a-z0-9])([A-Z])", lambda m: "_" + m.group(1).lower(), name)
    return name.replace("-", "_")


def camel(name):
    return "".join(w[:1].upper() + w[1:] for w in name.split("-"))


def declared(path):
    """The names that a file declares, each with whether it is a definition (and not a lemma)."""
    with open(path, encoding="utf-8") as f:
        text = f.read()
    found = {}
    for m in HEAD.finditer(text):
        name = m.group("name")
        if name in WORDS_OF_SYNTAX or GOAL.search(m.group("rest")) or name.startswith("--"):
            continue
        inside = bool(m.group("indent")) and not m.group("marks").startswith(("abbrev", "unfoldable"))
        definition = m.group("marks").startswith(("abbrev", "unfoldable")) or m.group("kind") is not None or "/specs/" in path
        found[name] = found.get(name, False) or definition
    return found


def renaming(paths):
    """For each declared name that changes, its new spelling; and what each file declares."""
    by_file = {p: declared(p) for p in paths}
    definitions, lemmas = set(), set()
    for names in by_file.values():
        for name, definition in names.items():
            (definitions if definition else lemmas).add(name)
    lemmas -= definitions
    new = {}
    for name in definitions:
        new[name] = camel(name) if name[0].isupper() else snake(name)
    known = {snake(name) for name in functions(paths) if not name[0].isupper()} | set(STD_WORDS)
    for name in lemmas:
        if name[0].isupper():
            new[name] = camel(name)
            continue
        parts = [snake(p) for p in name.split("-")]
        new[name] = joined(parts, known)
    new.update(APART)
    return {k: v for k, v in new.items() if k != v}, by_file


def functions(paths):
    """The definitions of specs/ that stand at the top of their file: no field and no case of data."""
    found = set()
    for path in paths:
        if "/specs/" not in path:
            continue
        with open(path, encoding="utf-8") as f:
            text = f.read()
        found |= {m.group(1) for m in re.finditer(r"^(?:abbrev |unfoldable )+(?:pub )?([^\s(){}:]+)[^:\n]*:", text, re.M)}
        for m in re.finditer(r"^(?:abbrev )?mutual\n((?:  .*\n|\n)*)", text, re.M):
            found |= {n.group(1) for n in re.finditer(r"^  (?:pub )?([^\s(){}:]+) :", m.group(1), re.M)}
    return found


def joined(parts, known):
    """The parts with a dash where the longest known names on both sides meet, else with `_`."""
    out, i = [], 0
    while i < len(parts):
        for j in range(len(parts), i, -1):
            word = "_".join(parts[i:j])
            if word in known:
                out.append((word, True))
                i = j
                break
        else:
            out.append((parts[i], False))
            i += 1
    text = out[0][0]
    for (_, a), (word, b) in zip(out, out[1:]):
        text += ("-" if a and b else "_") + word
    return text


def imports(text, own):
    """The names and the aliases of modules that a file brings in from the repository's own crates."""
    names, aliases = set(), set()
    for m in re.finditer(r"\buse Rattle\.(\w+)\.([^\s{;]+?)(?:\.\{([^}]*)\})?(?: as (\S+?))?;?\s*$", text, re.M):
        crate, _, items, alias = m.groups()
        if crate not in own:
            continue
        for item in (items or "").split(","):
            item = item.strip()
            if item:
                names.add(item.split(" as ")[0].strip("«» "))
        if not items:
            aliases.add(alias or m.group(2).split(".")[-1])
    return names, aliases


def other_names(text):
    """The names that a file itself gives to what it brings in, as `b` in `a as b`, with their new spelling."""
    found = {m.group(1) for m in re.finditer(r"\bas «?([a-z][^\s,;{}()»]*)»?", text) if "-" in m.group(1)}
    return {k: APART_ALIASES.get(k, snake(k)) for k in found}


def cut_comments(line):
    """A line as (code, comment)."""
    at = line.find("--") if line.lstrip().startswith("--") else -1
    m = re.search(r"(?:^|\s)--(?:\s|$)", line)
    if m:
        at = m.start()
    return (line, "") if at < 0 else (line[:at], line[at:])


def respell(line, names, fields, aliases, imported):
    """The line with the names in scope in their new spelling."""
    out, last = [], 0
    for m in TOKEN.finditer(line):
        word = m.group(0)
        behind_dot = m.start() > 0 and line[m.start() - 1] == "."
        if behind_dot:
            path = re.search(r"[^\s(){},;\"]*$", line[: m.start() - 1]).group(0)
            head = path.split(".")[0].strip("«»")
            if head == "goal":
                continue
            table = imported if head == "Rattle" or head in aliases else fields
        else:
            table = names
        if word in table:
            out.append(line[last : m.start()])
            out.append(table[word])
            last = m.end()
    out.append(line[last:])
    text = "".join(out)
    return re.sub(r"«([A-Za-z_][A-Za-z0-9_]*)»", lambda q: q.group(1) if q.group(0) not in line else q.group(0), text)


def turn_antt(path, new, declares, fields, own):
    with open(path, encoding="utf-8") as f:
        text = f.read()
    brought, aliases = imports(text, own)
    scope = {k: new[k] for k in (set(declares) | brought) if k in new}
    scope.update({k: new[k] for k in fields if k in new and k not in scope})
    scope.update(other_names(text))
    flds = {k: new[k] for k in fields if k in new}
    lines = []
    for line in text.split("\n"):
        code, comment = cut_comments(line)
        if re.search(r":\s*goal\.", code) and HEAD.match(code):
            lines.append(line)
            continue
        if re.match(r"\s*(pub )?use ", code):
            mine = re.match(r"\s*(?:pub )?use Rattle\.(\w+)", code)
            table = new if mine and mine.group(1) in own else {}
            also = other_names(code)
            code = respell(code, table | also, {}, set(), table)
        else:
            code = respell(code, scope, flds, aliases, new)
        lines.append(code + comment)
    return text, "\n".join(lines)


def turn_rt(path, new, fields, own):
    with open(path, encoding="utf-8") as f:
        text = f.read()
    brought, aliases = imports(text, own)
    scope = {k: new[k] for k in brought if k in new}
    scope.update(other_names(text))
    flds = {k: new[k] for k in fields if k in new}
    lines = []
    for line in text.split("\n"):
        if line.lstrip().startswith("//") or ('"' in line and "ensures" not in line):
            lines.append(line)
            continue
        mine = re.match(r"\s*ghost use Rattle\.(\w+)", line)
        if mine:
            also = other_names(line)
            line = respell(line, new | also, {}, set(), new) if mine.group(1) in own else line
        else:
            line = respell(line, scope | {k: v for k, v in flds.items() if "-" in k}, {k: v for k, v in flds.items() if "-" in k}, aliases, new)
        lines.append(line)
    return text, "\n".join(lines)


def main():
    own = {os.path.basename(p) for p in glob.glob("crates/*")}
    paths = files("crates/*/specs/**/*.antt") + files("crates/*/proofs/**/*.antt")
    new, by_file = renaming(paths)
    fields = set()
    for path in paths:
        with open(path, encoding="utf-8") as f:
            text = f.read()
        for m in re.finditer(r"^pub record .*where\n((?:[ ]+.*\n|--.*\n|\n(?=  ))*)", text + "\n", re.M):
            fields |= {n.group(1) for n in re.finditer(r"^  pub (\S+) :", m.group(1), re.M)}
        for m in re.finditer(r"^record .*where\n((?:[ ]+.*\n|--.*\n)*)", text + "\n", re.M):
            fields |= {n.group(1) for n in re.finditer(r"^  (?:pub )?(\S+) :", m.group(1), re.M)}
    if "--list" in sys.argv:
        for k in sorted(new):
            print(k, new[k])
        return
    changed = 0
    for path in paths:
        old, text = turn_antt(path, new, by_file[path], fields, own)
        if text != old:
            changed += 1
            with open(path, "w", encoding="utf-8") as f:
                f.write(text)
    for path in files("crates/*/src/**/*.rt"):
        old, text = turn_rt(path, new, fields, own)
        if text != old:
            changed += 1
            with open(path, "w", encoding="utf-8") as f:
                f.write(text)
    print(f"respell: {len(new)} names, {changed} files")


if __name__ == "__main__":
    main()
