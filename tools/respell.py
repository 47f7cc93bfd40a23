#!/usr/bin/env python3
"""Spells the repository's own names as today's Rattle does: words in snake case, facts and types in camel case, a prime as an apostrophe.

    python3 tools/respell.py          after the kit's port.py, at the top of the repository
    python3 tools/respell.py --list   prints old and new, and changes nothing

A name is the repository's own where no file takes it from the kit and where it is no part of what Rattle generates. Rust's identifiers, strings, comments' words,
inputs and outputs stay; a name between backquotes is respelled in comments and pages too. Prints names that would fall together, and then changes nothing.
"""

import collections
import glob
import os
import re
import sys

TOP = os.path.dirname(os.path.dirname(os.path.abspath(__file__)))
OWN = set(os.listdir(os.path.join(TOP, "crates")))
PAGES = ["README.md", "tests/README.md"] + ["docs/%s.md" % page for page in ("ARCHITECTURE", "DECISIONS", "FORMAT", "PERFORMANCE", "PROVED")]
TOKEN = re.compile(r"[^\s(){}\[\];,.\"`«»]+")
USE = re.compile(r"^(?:ghost )?use ([^\s{};]+?)(?:\.\{([^}]*)\}| as ([^\s;]+))?;?$", re.MULTILINE | re.DOTALL)
GENERATED = {"Tie", "Goals", "Given", "Statement", "Lts", "declared", "contracts"}
# Names whose plain respelling another name has already: a lemma that would have its function's name ends in _lem.
CHOSEN = {name: name.replace("-", "_") + "_lem" for name in (
    "answer-lines binding-field covered-from fact-field facts-from good-head head-noted later-item meant-equations part-fits resolved-all "
    "starts-at step-here value-here").split()}
CHOSEN |= {
    "bit-or": "bit_of_or", "bit-and": "bit_of_and", "allNoted": "noted_all", "parts_from": "parts_from_lem", "ofNode": "is_of_node",
    "ofVariable": "is_of_variable", "ofNodes": "nodes_told", "ofVariables": "variables_told", "ofSide": "side_demand", "forVariable": "variable_demand",
    "for-variable": "pair_of_variable", "freshPair": "demanded_pair", "onNodes": "asked_of_nodes", "onVariables": "asked_of_variables",
    "nodeVariables": "variables_of_nodes", "is-given": "given_is", "is-protected": "protected_is", "with-atom": "sets_with_atom",
    "one-variable": "from_one_variable",
}


def respelled(name):
    if name.startswith("."):
        return name[1:].replace("-", "_")
    if name in CHOSEN:
        return CHOSEN[name]
    name = name.replace("′", "'")
    parts = re.split(r"(?<=[\w'])-(?=\w)", name)
    for at, part in enumerate(parts):
        if re.match(r"[^\W\d_A-Z]", part) or re.match(r"\W", part):
            parts[at] = re.sub(r"(?<=[a-z0-9])([A-Z])(?=[a-z])|(?<=[a-z])([A-Z])$", lambda m: "_" + m[0].lower(), part)
    return "_".join(parts)


# Words of Rust's in the crates: Rattle's own names of steps and arguments had dashes for their underscores.
RUST = set()


def is_old(name):
    if not re.search(r"[^\W\d_]", name):
        return False
    return respelled(name) != name


def files(kind):
    return sorted(f for f in glob.glob(os.path.join(TOP, "crates", "*", "**", "*." + kind), recursive=True) if "/out/" not in f)


def split(text, mark):
    """The text in turns of code and comment."""
    at = 0
    for found in re.finditer(r"(?:(?<=\s)|^)%s[^\n]*" % mark, text, re.MULTILINE):
        yield text[at : found.start()], found[0]
        at = found.end()
    yield text[at:], ""


def made(parts):
    """Whether Rattle makes the module: what it makes of a function lies in the function's folder."""
    return "declared" in parts or "contracts" in parts or (len(parts) > 4 and bool(GENERATED & set(parts[4:])))


def foreign(text):
    """The names that a file takes from the kit, or that Rattle generates."""
    names = set()
    for path, items, alias in USE.findall(text):
        parts = path.split(".")
        if len(parts) > 1 and parts[0] == "Rattle" and parts[1] in OWN and not made(parts):
            continue
        names.update(TOKEN.findall(items or ""))
        if alias:
            names.add(alias)
    return names


def own_fields(texts):
    names = set()
    for text in texts:
        for record in re.finditer(r"^(?:pub )?record [^\n]*where\n((?: [^\n]*\n|\n)*)", text, re.MULTILINE):
            names.update(re.findall(r"^  (?:pub )?([^\s:(){}]+) :", record[1], re.MULTILINE))
    return names


def own_rooms(text):
    """The short names under which a file has modules of the repository's own."""
    return {alias for path, _, alias in USE.findall(text) if alias and path.split(".")[:1] == ["Rattle"] and path.split(".")[1] in OWN
            and not made(path.split("."))}


def places(text, mark, fields, not_own):
    """Each place of a name that may be respelled: (start, end, name), comments' backquotes too."""
    at = 0
    rooms = own_rooms(text)
    for code, comment in split(text, mark):
        paths = [found.span(1) for found in USE.finditer(code)]
        for found in TOKEN.finditer(code):
            start, name = found.start(), found[0]
            if any(a <= start < b for a, b in paths):
                continue
            inside = re.search(r"(?<![^\s(){}\[\];,.])([^\s(){}\[\];,.]+)\.$", code[:start][-60:])
            if inside and inside[1] in rooms:
                yield at + start, at + found.end(), name
                continue
            if start and code[start - 1] == "." and not code[:start].endswith("..") and name not in fields:
                if "-" in name and name.replace("-", "_") in RUST:
                    yield at + start, at + found.end(), "." + name
                continue
            if name in not_own:
                continue
            yield at + start, at + found.end(), name
        at += len(code)
        for span in re.finditer(r"`([^`\n]+)`", comment):
            for found in TOKEN.finditer(span[1]):
                if found[0] not in not_own:
                    yield at + span.start(1) + found.start(), at + span.start(1) + found.end(), found[0]
        at += len(comment)


def main():
    antt = {path: open(path, encoding="utf-8").read() for path in files("antt")}
    rust = {path: open(path, encoding="utf-8").read() for path in files("rt")}
    fields = own_fields(antt.values())
    for text in rust.values():
        RUST.update(re.findall(r"[a-z]\w*_\w+", "".join(code for code, _ in split(text, "//"))))
    names = collections.Counter()
    here = {}
    for path, text in antt.items():
        here[path] = set()
        for _, _, name in places(text, "--", fields, foreign(text)):
            names[name] += 1
            here[path].add(name)
    # One that is spelled anew already has its old spelling by right.
    old = {name for name in names if is_old(name) and not (name in CHOSEN and CHOSEN[name] in names)}
    # Names that fall together: two old ones with one new spelling, or a new spelling that stands in the same file already.
    clash = collections.defaultdict(set)
    for path, found in here.items():
        outside = foreign(antt[path])
        for name in found & old:
            if respelled(name) in (found - old - RUST) | outside and not name.startswith("."):
                clash[name].add(path)
    spellings = collections.defaultdict(set)
    for name in old:
        if not name.startswith("."):
            spellings[respelled(name)].add(name)
    rust_words = set()
    for text in rust.values():
        rust_words |= set(re.findall(r"[A-Za-z_]\w*", "".join(code for code, _ in split(text, "//"))))
    if "--list" in sys.argv:
        for name in sorted(old):
            print(name, respelled(name))
    bad = False
    for new, olds in sorted(spellings.items()):
        if len(olds) > 1:
            print("fall together:", new, sorted(olds))
            bad = True
    for name, where in sorted(clash.items()):
        print("taken:", name, respelled(name), sorted(os.path.relpath(p, TOP) for p in where)[:4])
        bad = True
    for name in sorted(old):
        if respelled(name) in rust_words and not name.startswith("."):
            print("note: a Rust identifier is spelled so too:", name, respelled(name))
    if bad or "--list" in sys.argv:
        return 1 if bad else 0
    def write(path, text, mark, not_own):
        out, at = [], 0
        for start, end, name in places(text, mark, fields, not_own):
            if name in old:
                out += [text[at:start], respelled(name)]
                at = end
        new = "".join(out) + text[at:]
        if new != text:
            open(path, "w", encoding="utf-8").write(new)
            return 1
        return 0
    changed = sum(write(path, text, "--", foreign(text)) for path, text in antt.items())
    changed += sum(write(path, text, "//", foreign(text)) for path, text in rust.items())
    for page in PAGES:
        path = os.path.join(TOP, page)
        text = open(path, encoding="utf-8").read()
        new = re.sub(r"`[^`\n]+`", lambda m: TOKEN.sub(lambda t: respelled(t[0]) if t[0] in old else t[0], m[0]), text)
        if new != text:
            open(path, "w", encoding="utf-8").write(new)
            changed += 1
    print("respelled %d names in %d files" % (len(old), changed))
    return 0


if __name__ == "__main__":
    sys.exit(main())
