#!/usr/bin/env python3
"""See that each wrong change of the code and of the definitions was refused where it is wrong.

    edits.py [LOG [NAME...]]

crates/NAME/must-fail/LABEL.edit is one wrong change of the crate NAME: a line `file: FILE` says of which file, and each pair of lines `old: TEXT` and
`new: TEXT` behind it what stands there, once, and what is put in its place. `rt ci` makes each change in a copy of the crate, which the prover has to refuse.
Where it is wrong says a line `# At PLACE.` in its head: the function NAME::PLACE, or a law of proofs/PLACE.antt. What failed first has to lie there, as `rt
ci` told it: LOG (target/rt-ci.log, which .ci/proofs leaves) has what it said. An edit's proof has to fit it: where something that is still true would stand in
the way, the edit changes that line of the proof, too.

With NAMEs only the edits of these crates are looked at: `rt must-fail NAME | tests/edits.py - NAME` tries them and looks. The last line is
'N passed, M failed'.
"""

import glob
import os
import re
import sys

TOP = os.path.dirname(os.path.dirname(os.path.abspath(__file__)))
LOG = os.path.join(TOP, "target", "rt-ci.log")
# There are at least so many edits.
LEAST = 154
FUNCTION = re.compile(r'( *)(?:pub(?:\(\w+\))? )?(?:(?:const )?(?:unsafe )?(?:extern "C" )?fn|const) (\w+)')
BLOCK = re.compile(r"impl(?:<[^{]*?>)? (?:(\w+)[^{]* for )?(\w+)")


class Fault(Exception):
    """Why an edit does not count as refused at its place."""


def text_of(path):
    with open(path, encoding="utf-8") as file:
        return file.read()


def read_crates():
    """The crates that crates.txt lists. A name may have a word of what it is built as behind it."""
    with open(os.path.join(TOP, "crates.txt"), encoding="utf-8") as file:
        heads = [line.partition("#")[0].partition(":")[0].split() for line in file if ":" in line.partition("#")[0]]
    return [head[0] for head in heads]


def functions(text):
    """The functions and constants that stand in a file of the crate's layout: where each begins and ends, and its names, which have an impl's type in front, or type and trait."""
    lines = text.splitlines()
    fronts = [""]
    for number, line in enumerate(lines, 1):
        block = BLOCK.match(line)
        if block:
            fronts = [block[2] + "/"] + ([block[2] + block[1] + "/"] if block[1] else [])
        elif line == "}":
            fronts = [""]
        found = FUNCTION.match(line)
        if found:
            begin = end = number
            while begin > 1 and lines[begin - 2].lstrip().startswith("#["):
                begin -= 1
            while end < len(lines) and lines[end - 1] != found[1] + "}" and not (end == number and line.endswith(("}", ";"))):
                end += 1
            yield begin, end, [front + found[2] for front in fronts]


def module_of(file):
    """What stands in front of the names of the functions of a file of src."""
    path = os.path.splitext(file)[0]
    return "" if path in ("lib", "main") else path + "/"


class Edit:
    def __init__(self, path):
        self.path = path
        self.inside = os.path.relpath(path, os.path.join(TOP, "crates"))
        self.name, _, rest = self.inside.partition("/must-fail/")
        self.crate = os.path.join(TOP, "crates", self.name)
        self.label = rest[: -len(".edit")] if rest.endswith(".edit") else rest
        self.place = None

    def __str__(self):
        return "%s/%s" % (self.name, self.label)

    def files(self):
        """The texts of the files that it changes, with the changes made."""
        texts, path, old, changes = {}, None, None, 0
        for line in text_of(self.path).splitlines():
            word, _, text = line.partition(":")
            text = text[1:] if text.startswith(" ") else text
            if word == "file":
                path = text.strip()
                if os.path.normpath(path) != path or not re.match("(src|specs|proofs)/", path) or not os.path.isfile(os.path.join(self.crate, path)):
                    raise Fault("BAD EDIT: the crate has no file %s" % text)
                texts.setdefault(path, text_of(os.path.join(self.crate, path)))
            elif word == "old":
                old = text
            elif word == "new":
                if not path or not old or texts[path].count(old) != 1:
                    raise Fault("BAD EDIT: what is to be changed does not stand there just once: %s" % old)
                texts[path] = texts[path].replace(old, text)
                old, changes = None, changes + 1
        if not changes or all(text == text_of(os.path.join(self.crate, path)) for path, text in texts.items()):
            raise Fault("BAD EDIT: it changes nothing")
        return texts

    def find_place(self):
        """The place that its head names, which has to be there."""
        head = []
        for line in text_of(self.path).splitlines():
            if not line.startswith("#"):
                break
            head.append(line)
        found = re.findall(r"^# At (\S+)\.$", "\n".join(head), re.MULTILINE)
        if len(found) != 1:
            raise Fault("BAD EDIT: its head does not say by one line '# At PLACE.' where it has to be refused")
        self.place = found[0]
        if os.path.isfile(os.path.join(self.crate, "proofs", self.place + ".antt")):
            return
        for path in glob.glob(os.path.join(self.crate, "src", "**", "*.rt"), recursive=True):
            module = module_of(os.path.relpath(path, os.path.join(self.crate, "src")))
            if any(module + name == self.place for _, _, names in functions(text_of(path)) for name in names):
                return
        raise Fault("BAD EDIT: the crate has no function %s and no file proofs/%s.antt" % (self.place, self.place))

    def found_at(self, first, texts):
        """The places at which something lies that failed, as the prover names it."""
        at = re.match(r"(?:note: )?(?:\./)?(src|specs|proofs)/(\S+?)\.(?:rt|antt):(\d+):\d+: ", first)
        if not at:
            return []
        part, path, line = at[1], at[2], int(at[3])
        if part == "proofs":
            # a law's file, or one of a function's folder; that of a function that calls itself begins with a plus
            folder = os.path.dirname(path)
            return [path, folder, folder.replace("+", "")]
        if part == "specs":
            return []
        file = "src/%s.rt" % path
        text = texts.get(file) or text_of(os.path.join(self.crate, file))
        return [module_of(path + ".rt") + name for begin, end, names in functions(text) if begin <= line <= end for name in names]

    def refused(self, said):
        """Holds what rt said of its tries against it."""
        if not re.fullmatch(r"[^/]+/must-fail/[^/]+\.edit", self.inside):
            raise Fault("BAD EDIT: an edit stands right in must-fail/, and its name ends in .edit")
        texts = self.files()
        self.find_place()
        if len(said) != 1:
            raise Fault("it was tried %d times, and not once: its crate, or what that stands on, is not proved" % len(said))
        words = said[0]
        good = re.match(r"refused, as it must be(?: \(only by a limit of [^:]*: [^)]*\))?: (.*)", words)
        if not good:
            raise Fault(words)
        if self.place not in self.found_at(good[1], texts):
            raise Fault("REFUSED ELSEWHERE: not at %s, but at %s" % (self.place, good[1]))


def main(arguments):
    log, names = arguments[0] if arguments else LOG, arguments[1:]
    crates = read_crates()
    unknown = [name for name in names if name not in crates]
    if unknown:
        sys.exit("crates.txt has no crate " + " ".join(unknown))
    if log != "-" and not os.path.isfile(log):
        print("there is no %s: .ci/proofs leaves it\n0 passed, 1 failed" % log)
        sys.exit(1)
    lines = sys.stdin.read().splitlines() if log == "-" else open(log, encoding="utf-8", errors="replace").read().splitlines()
    said, kept = {}, 0
    for line in lines:
        told = re.match(r"rt: must-fail (\w+)/(\S+?)\.edit: (.*)", line)
        if told:
            said.setdefault((told[1], told[2]), []).append(told[3])
        of_earlier = re.match(r"rt: (\w+): (\d+) of its \d+ must-fail edits were tried by an earlier run", line)
        if of_earlier and (not names or of_earlier[1] in names):
            kept += int(of_earlier[2])
    paths = []
    for name in names or sorted(os.listdir(os.path.join(TOP, "crates"))):
        for folder, _, files in os.walk(os.path.join(TOP, "crates", name, "must-fail")):
            paths += [os.path.join(folder, file) for file in files if not file.endswith(".md")]
    passed = failed = by_limit = 0
    edits = [Edit(path) for path in sorted(paths)]
    for edit in edits:
        tries = said.pop((edit.name, edit.label), [])
        try:
            edit.refused(tries)
            by_limit += "only by a limit" in tries[0]
            passed += 1
            print("%s: refused at %s" % (edit, edit.place))
        except Fault as fault:
            failed += 1
            print("%s: %s" % (edit, fault))
    for name, label in said:
        if not names or name in names:
            failed += 1
            print("%s/%s: rt tried it, and there is no such edit" % (name, label))
    least = 1 if names else LEAST
    if len(edits) < least:
        failed += 1
        print("%d edits; there must be at least %d" % (len(edits), least))
    if by_limit:
        print("by a limit of the prover alone: %d" % by_limit)
    print("tried by an earlier run on this machine, and nothing changed since that they stand on: %d" % kept)
    print("%d passed, %d failed" % (passed, failed))
    sys.exit(failed > 0 or passed == 0)


if __name__ == "__main__":
    main(sys.argv[1:])
