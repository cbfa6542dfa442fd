#!/usr/bin/env python3
"""Brings this repository's own names of specs/ and proofs/ to the spelling of today's library.

usage: python3 tools/respell.py            in the repository, once, after the toolchain's own port.py
       python3 tools/respell.py --list     prints what would be renamed, and writes nothing

A type, a fact or a record is in upper camel case: Is-leaf becomes IsLeaf. Everything else is in snake case: file-verdict
becomes file_verdict. A lemma named after its left side keeps the dash that joins two names, the outer call first: where
group_line is a definition, length-group-line becomes length-group_line. Names that the toolchain makes (goals, steps) and
names of functions in src/ stay. Text in quotes and comments stays.
In the proofs of functions, a name that the toolchain makes of one in src/ keeps that name's spelling, as it does today:
put-line-requires becomes put_line-requires.
"""

import os
import re
import sys

OWN = re.compile(r"^(\s*)(?:abbrev |unfoldable )?(?:pub )?(record |data )?([^\s(){};,.@\"⌜⌝«»:=]+)(?= )(.*)$")
TOKEN = re.compile(r'"(?:[^"\\]|\\.)*"|[^\s(){};,.@"⌜⌝«»]+')
# names of the library that the repository's lemmas begin with
LIBRARY = {"length", "map", "slice_index", "append", "get_or", "every"}


def files(ending, *folders):
    for crate in sorted(os.listdir("crates")):
        for folder in folders:
            for at, dirs, names in os.walk(os.path.join("crates", crate, folder)):
                dirs.sort()
                for name in sorted(names):
                    if name.endswith(ending):
                        yield os.path.join(at, name)


def code(line):
    """The line without its comment."""
    m = re.match(r'((?:"(?:[^"\\]|\\.)*"|(?!--(?:\s|$))[^"])*)', line)
    return m.group(1) if m else line


def defined():
    """The repository's own names: name -> is it of specs/; and the names of goals in each file."""
    own, goals = {}, {}
    for path in list(files(".antt", "specs")) + list(files(".antt", "proofs")):
        goals[path] = set()
        for line in open(path, encoding="utf-8"):
            m = OWN.match(code(line.rstrip("\n")))
            if not m:
                continue
            kind, name, rest = m.group(2), m.group(3), m.group(4)
            if not kind and not rest.startswith(" : ") and rest.strip() != ":":
                continue
            if re.match(r" : (goal|need|given)\.", rest):
                goals[path].add(name)
                continue
            own[name] = own.get(name, False) or "/specs/" in path
    return own, goals


def respelled(name, own):
    """How a name is spelled today."""
    parts = name.split("-")
    if len(parts) == 1 or "" in parts:
        return name
    if re.match(r"[A-Z]", name):
        return "".join(p[:1].upper() + p[1:] for p in parts)
    if own[name]:
        return "_".join(parts)
    # a lemma: the names in it, the longest first, and plain words between them
    units, i = [], 0
    while i < len(parts):
        for j in range(len(parts), i, -1):
            word = "-".join(parts[i:j])
            # a word that is a name by accident is a plain word
            known = (own.get(word) is True and j - i > 1) or word in LIBRARY
            if known or j == i + 1:
                units.append(("_".join(parts[i:j]), known))
                i = j
                break
    text = units[0][0]
    for (_, a), (word, b) in zip(units, units[1:]):
        text += ("-" if a and b else "_") + word
    return text


def turn(text, names, keep, clauses):
    """The text with the names respelled; with clauses, only in the ghost lines and clauses of a source."""
    done, depth, inside = [], 0, False
    for line in text.split("\n"):
        if clauses:
            starts = re.match(r"\s*(pub(\([a-z]+\))? )?(ghost|requires|ensures)\b", line) and not line.lstrip().startswith("//")
            if not starts and not inside:
                done.append(line)
                continue
            body, tail = line, ""
            depth += line.count("{") - line.count("}")
            inside = depth > 0
            if not inside:
                depth = 0
        else:
            body = code(line)
            tail = line[len(body):]
        done.append(TOKEN.sub(lambda m: m.group(0) if m.group(0)[0] == '"' or m.group(0) in keep else names.get(m.group(0), m.group(0)), body) + tail)
    return "\n".join(done)


# names of the library's functions, and words of the toolchain's own, that stand in names of goals and steps
MADE = """push_reserved copy_from_slice from_le_bytes deref_mut type_inv in_default in_ok in_err invariant_of slice_bounds
offset_bounds overflow_add overflow_sub overflow_mul overflow_cast overflow_step""".split()


def steps(text, words):
    """A proof's text, with the names of src/ spelled as they are there wherever they are part of a longer name."""
    return TOKEN.sub(lambda m: m.group(0) if m.group(0)[0] == '"' or "-" not in m.group(0) else words.sub(lambda w: w.group(0).replace("-", "_"), m.group(0)), text)


def source_words():
    found = set(MADE)
    for path in files(".rt", "src"):
        found |= set(re.findall(r"\b[a-z][a-z0-9]*(?:_[a-z0-9]+)+\b", open(path, encoding="utf-8").read()))
    dashed = sorted((w.replace("_", "-") for w in found), key=lambda w: (-len(w), w))
    return re.compile(r"(?:(?<=[-+·])|^)(?:" + "|".join(map(re.escape, dashed)) + r")(?=[-+·]|$)")


def main():
    own, goals = defined()
    names = {n: respelled(n, own) for n in own}
    names = {a: b for a, b in names.items() if a != b}
    new = {}
    for a, b in sorted(names.items()):
        if b in own:
            print(f"falls together: {a} becomes {b}, which is there")
        if b in new:
            print(f"falls together: {a} and {new[b]} become {b}")
        new[b] = a
    if "--list" in sys.argv:
        for a, b in sorted(names.items()):
            print(f"{a} {b}")
        return
    changed = 0
    for ending, folders, clauses in ((".antt", ("specs", "proofs"), False), (".rt", ("src",), True)):
        for path in files(ending, *folders):
            with open(path, encoding="utf-8") as f:
                text = f.read()
            turned = turn(text, names, goals.get(path, ()), clauses)
            if turned != text:
                with open(path, "w", encoding="utf-8") as f:
                    f.write(turned)
                changed += 1
    words = source_words()
    for path in files(".antt", "proofs"):
        if os.path.dirname(path).endswith("/proofs"):
            continue
        with open(path, encoding="utf-8") as f:
            text = f.read()
        turned = "\n".join(steps(code(l), words) + l[len(code(l)):] for l in text.split("\n"))
        if turned != text:
            with open(path, "w", encoding="utf-8") as f:
                f.write(turned)
    print(f"respell: {len(names)} names, {changed} files")


if __name__ == "__main__":
    main()
