#!/usr/bin/env python3
"""Spells the definitions and lemmas that this repository declares by the four rules of the toolchain's CONTRACT_STYLE.md, "Names":
snake case, a dash only between two names, and no other name touched.

usage: python3 tools/spell_names.py [FOLDER]     the top of a checkout, else this one; once, right after the toolchain's port.py

It goes over .antt files, the clauses of .rt files and the names in Markdown, but for docs/landings, which says how things stood. A lemma that would meet its definition gets `_lem`.
What meets another name all the same is printed in a line 'meets:'.
"""

import os
import re
import sys

ROOT = os.path.abspath(sys.argv[1]) if len(sys.argv) > 1 else os.path.dirname(os.path.dirname(os.path.abspath(__file__)))
STOP = r"\s(){}.;,@\"«»"
NAME = rf"[^{STOP}]+"
# Words of the toolchain's libraries that a lemma's name joins to another by a dash.
LIBRARY = set("length take drop append get_or map set flatten replicate sum filter some none absurd eqb leb ltb not div sub add mul".split())
TOP = re.compile(rf"^(?:abbrev |unfoldable )?(?:pub )?(?:abbrev |unfoldable )?(?:pub )?(data |record )?({NAME})(?: \{{[^}}]*\}})*(?: \([^)]*\))* :")
INNER = re.compile(rf"^  (?:pub )?({NAME}) :")
OWN = re.compile(r"^(?:abbrev )?(?:pub )?(%s) : (.*)" % NAME)


def files(ending):
    for folder, dirs, names in os.walk(ROOT):
        dirs[:] = sorted(d for d in dirs if d not in (".git", "out", "must-fail", "target", "build", "landings"))
        for name in sorted(names):
            if name.endswith(ending):
                yield os.path.join(folder, name)


def read(path):
    with open(path, encoding="utf-8") as it:
        return it.read()


def is_of_a_function(path):
    return os.path.basename(path) in ("Proof.antt", "Answers.antt", "Invariants.antt")


def in_snake_case(name):
    return re.sub(r"(?<=[a-z0-9])[A-Z]", lambda m: "_" + m[0].lower(), name)


def spelled(name, known):
    """The name by the rules: `known` has the names between which a dash may stand."""
    parts = [in_snake_case(it) for it in name.split("-")]
    to, was_known, at = "", False, 0
    while at < len(parts):
        end = next((it for it in range(len(parts), at, -1) if re.sub("'+$", "", "_".join(parts[at:it])) in known), at)
        is_known = end > at
        end = max(end, at + 1)
        to += ("-" if was_known and is_known else "_" if to else "") + "_".join(parts[at:end])
        was_known, at = is_known, end
    return to


def unqualified(text):
    """The names of a file's text that stand behind no dot and are no module's: an alias gives way to them."""
    code = re.sub(r"(?m)^ *--.*$|^use [^{\n]*", "", text)
    return set(re.findall(rf"(?<![^{STOP}])(?<!\.){NAME}", code)) - set(own_names(text))


def declared():
    """The names at the top of lemma files and specs; the fields and constructors; and the definitions, with the functions of src/."""
    top, inner, definitions = set(), set(), set()
    for path in files(".antt"):
        if is_of_a_function(path):
            continue
        for line in read(path).split("\n"):
            found = TOP.match(line)
            if found:
                top.add(found[2])
                if "/specs/" in path:
                    definitions.add(found[2])
            found = INNER.match(line)
            if found:
                inner.add(found[1])
    for path in files(".rt"):
        definitions |= set(re.findall(r"\bfn (\w+)", read(path)))
    return top, inner, definitions


def mapping(top, inner, definitions):
    """Each name in its new spelling. Two names of the top that would fall together in a file are told apart: the lemma gets `_lem`."""
    known = {in_snake_case(it) for it in definitions if "-" not in it} | LIBRARY
    small = sorted((it for it in top | inner if not it[0].isupper()), key=lambda it: (it not in definitions, it))
    groups = {}
    for name in small:
        groups.setdefault(spelled(name, known), []).append(name)
    wanted = {it for new, group in groups.items() if set(group) & top and group != [new] for it in [new, *group]}
    words = [wanted & unqualified(read(path)) for path in files(".antt")]
    to = {}
    for new, group in groups.items():
        # An import from a library may have the new spelling.
        kept = [] if new in top | inner else [new]
        top = top | set(kept)
        for name in group:
            meets = name in top and any(it in top and any({it, name} <= here for here in words) for it in kept)
            to[name] = new + "_lem" if meets else new
            if meets:
                print(f"told apart: {name} is {to[name]}, beside {', '.join(kept)}")
            kept.append(name)
    return to


def turned(text, to, inner):
    """The text with each name of `to` in its new spelling. Behind a dot a name is a field, or an item of a module."""

    def name(m):
        was = m[0]
        if was not in to:
            return was
        before = text[: m.start()]
        if before.endswith("."):
            head = re.search(rf"({NAME})\.$", before)
            if was not in inner and not (head and head[1][0].isupper()):
                return was
        return to[was]

    return re.sub(NAME, name, text)


def in_ticks(line, to, inner):
    """A comment's line: what stands in backticks is turned."""
    return re.sub(r"`[^`\n]*`", lambda m: turned(m[0].strip("`"), to, inner).join("``"), line)


def of_antt(text, to, inner):
    return "\n".join((in_ticks if line.lstrip().startswith("--") else turned)(line, to, inner) for line in text.split("\n"))


def of_rust(text, to, inner):
    camel = {a: b for a, b in to.items() if re.search(r"[a-z0-9][A-Z]|-", a)}
    out = []
    for line in text.split("\n"):
        if line.lstrip().startswith("//"):
            line = in_ticks(line, camel, inner)
        elif '"' not in line:
            line = turned(line, camel, inner)
        out.append(line)
    return "\n".join(out)


def of_page(text, to, inner):
    camel = {a: b for a, b in to.items() if re.search(r"[a-z0-9][A-Z]", a)}
    return in_ticks(re.sub(r"[A-Za-z0-9_]+'*", lambda m: camel.get(m[0], m[0]), text), to, inner)


def own_names(text):
    """What a file alone calls by a name: aliases of modules, and in a function's proof its helpers."""
    return re.findall(rf"^use \S+ as ({NAME})$", text, re.M)


def of_file(path, text, to):
    """The spelling that holds in one .antt file, where a goal keeps the name that the toolchain gave it and an alias gives way."""
    here = dict(to)
    if is_of_a_function(path):
        for line in text.split("\n"):
            found = OWN.match(line)
            if found:
                here.pop(found[1], None)
    words, aliases = unqualified(text), own_names(text)
    for alias in aliases:
        here[alias] = in_snake_case(alias).replace("-", "_")
        if here[alias] in {here.get(it, it) for it in words if it not in aliases}:
            here[alias] += "_reads"
    return here


def tell_meetings(path, words, to):
    for was in sorted(words & set(to)):
        if to[was] != was and to[was] in words:
            print(f"meets: {os.path.relpath(path, ROOT)}: {was} and {to[was]}")


def rewrite(path, was, new):
    if new != was:
        with open(path, "w", encoding="utf-8") as it:
            it.write(new)


def main():
    top, inner, definitions = declared()
    to = mapping(top, inner, definitions)
    for path in files(".antt"):
        text = read(path)
        here = of_file(path, text, to)
        tell_meetings(path, unqualified(text), here)
        rewrite(path, text, of_antt(text, here, inner))
    for path in files(".rt"):
        text = read(path)
        tell_meetings(path, set(re.findall(r"[A-Za-z_0-9]+", re.sub(r"//.*", "", text))), to)
        rewrite(path, text, of_rust(text, to, inner))
    for path in files(".md"):
        text = read(path)
        rewrite(path, text, of_page(text, to, inner))
    print(f"spelled {sum(1 for a, b in to.items() if a != b)} names")


if __name__ == "__main__":
    main()
