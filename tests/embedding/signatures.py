#!/usr/bin/env python3
"""Compares the header with what it is a header of.

    signatures.py           the header's text against the crates: prints each difference; its last line is `N passed, M failed`
    signatures.py --lent    prints a C program that puts itself in the archive's place: the entries over lent tables as the crate has them, each of which
                            compares every pointer that it gets with the member of that name, and every member's size with the crate's array

A prototype that takes other types than the crate's function makes the printed program fail to compile.
"""
import functools
import glob
import math
import re
import sys

CRATE = "crates/cheesetrestle/src/lib.rt"
ENTRIES = ("judge", "judge_with", "solve", "solve_with", "version")
WIDTHS = {"u8": ("uint8_t", 1), "u16": ("uint16_t", 2), "u32": ("uint32_t", 4), "u64": ("uint64_t", 8)}


def text_of(name):
    with open(name, encoding="utf-8") as file:
        return file.read()


def found(pattern, text, what):
    match = re.search(pattern, text, re.S)
    if not match:
        raise SystemExit("signatures.py: %s is not where it is looked for" % what)
    return match


def constants_of(text, known):
    """The constants that a file declares, with those that it may name: each is a number, or a sum of constants."""
    values = dict(known)
    for name, sum_of in re.findall(r"^(?:pub )?const (\w+): usize = ([\w +]+);", text, re.M):
        values[name] = sum(int(values.get(word, word)) for word in sum_of.split(" + "))
    return values


@functools.lru_cache(maxsize=None)
def declared():
    """The array types that the crates declare, by name, with each constant's value in its place."""
    types = {}
    limits = constants_of(text_of("crates/names/src/lib.rt"), {})
    for name in sorted(glob.glob("crates/*/src/**/*.rt", recursive=True)):
        text = text_of(name)
        constants = constants_of(text, limits)
        for kind, array in re.findall(r"^pub type (\w+) = (\[.*\]);", text, re.M):
            array = re.sub(r"\b[A-Z_]+\b", lambda word: str(constants[word.group()]), array)
            if types.setdefault(kind, array) != array:
                raise SystemExit("signatures.py: %s is declared twice" % kind)
    return types


def laid_out(kind):
    """A type's element and the lengths of its array, the outermost first; none for a number."""
    array = re.match(r"^\[(.*); (\d+)\]$", declared().get(kind, kind))
    if not array:
        return found(r"^u\d+$", kind, "the element in '%s'" % kind).group(), []
    element, lengths = laid_out(array.group(1))
    return element, [int(array.group(2))] + lengths


class Parameter:
    """A parameter of an exported function of the crate: a slice, or a table, which is an array with its lengths."""

    def __init__(self, words):
        match = found(r"^(\w+): &(?:'\w+ )?(mut )?(?:\[(u\d+)\]|(\w+))$", words, "the type in '%s'" % words)
        self.name, self.lent_for_writing = match.group(1), bool(match.group(2))
        self.element, self.lengths = laid_out(match.group(3) or match.group(4))

    def size(self):
        return math.prod(self.lengths) * WIDTHS[self.element][1]

    def brackets(self):
        return "".join("[%d]" % length for length in self.lengths)

    def in_c(self):
        kind = ("" if self.lent_for_writing else "const ") + WIDTHS[self.element][0]
        if self.lengths:
            return ["%s %s%s" % (kind, self.name, self.brackets())]
        return ["%s *%s" % (kind, self.name), "size_t %s_length" % self.name]


class Entry:
    def __init__(self, name, crate):
        match = found(r"#\[unsafe\(no_mangle\)\]\npub extern \"C\" fn %s(?:<'\w+>)?\((.*?)\) -> (u\d+)" % name, crate, "the export " + name)
        words = [word.strip() for word in re.split(r",\s*(?![^\[]*\])", match.group(1)) if word.strip()]
        self.name = name
        self.result = WIDTHS[match.group(2)][0]
        self.parameters = [Parameter(word) for word in words]
        self.tables = [p for p in self.parameters if p.lengths]

    def parameters_in_c(self):
        return [words for p in self.parameters for words in p.in_c()] or ["void"]


def entries():
    crate = text_of(CRATE)
    return [Entry("cheesetrestle_" + name, crate) for name in ENTRIES]


class Comparison:
    def __init__(self):
        self.passed = self.failed = 0

    def same(self, what, expected, actual):
        if expected == actual:
            self.passed += 1
        else:
            self.failed += 1
            print("%s:\n  the crate  %s\n  the header %s" % (what, expected, actual))


def plain(text):
    """Without comments, and with one space between words."""
    return re.sub(r"\s+", " ", re.sub(r"/\*.*?\*/", "", text, flags=re.S))


def compare_entries(comparison, header):
    everything = entries()
    for entry in everything:
        match = found(r"(\w+) %s\(([^)]*)\);" % entry.name, header, "the prototype of " + entry.name)
        comparison.same("what %s gives back" % entry.name, entry.result, match.group(1))
        comparison.same("the parameters of " + entry.name, entry.parameters_in_c(), [word.strip() for word in match.group(2).split(",")])
    exported = sorted(re.findall(r'pub extern "C" fn (\w+)', text_of(CRATE)))
    comparison.same("the exports", exported, sorted(entry.name for entry in everything))
    tables = {entry.name: [(p.name, p.element, p.lengths) for p in entry.tables] for entry in everything if entry.tables}
    comparison.same("the tables of solver and judge", tables["cheesetrestle_solve_with"], tables["cheesetrestle_judge_with"])
    return everything[-2].tables


def compare_tables(comparison, header, tables):
    members = found(r"struct cheesetrestle_tables \{(.*?)\};", header, "the struct").group(1)
    written = {name: (kind, lengths) for kind, name, lengths in re.findall(r"(\w+) (\w+)((?:\[\d+\])+);", members)}
    asserted = {name: int(size) for name, size in re.findall(r"CHEESETRESTLE_TAKES\((\w+), (\d+)\);", header)}
    comparison.same("the order of the members", [table.name for table in tables], list(written))
    for table in tables:
        comparison.same("the member " + table.name, (WIDTHS[table.element][0], table.brackets()), written.pop(table.name, None))
        comparison.same("the assertion of the size of " + table.name, table.size(), asserted.pop(table.name, None))
    comparison.same("members and assertions of no table", ({}, {}), (written, asserted))
    whole = int(found(r"sizeof\(struct cheesetrestle_tables\) == (\d+)", header, "the struct's assertion").group(1))
    comparison.same("the assertion of the struct's size", sum(table.size() for table in tables), whole)


def compare_numbers(comparison):
    """The enum's names and numbers against those of the crate `numbers`."""
    crate = text_of("crates/numbers/src/lib.rt")
    reasons = re.findall(r"Reason::(\w+) => (\d+),", crate)
    expected = {"CHEESETRESTLE_" + re.sub(r"(?<!^)(?=[A-Z])", "_", name).upper(): int(number) for name, number in reasons}
    none = int(found(r"Given \{ number: (\d+), place \}", crate, "the number of no refusal").group(1))
    expected.update(CHEESETRESTLE_ACCEPTED=none, CHEESETRESTLE_HOLDS=none)
    header = plain(text_of("include/cheesetrestle_numbers.h"))
    actual = {name: int(number) for name, number in re.findall(r"(CHEESETRESTLE_\w+) = (\d+)", header)}
    actual.pop("CHEESETRESTLE_NO_ROOM", None)
    for name in sorted(set(expected) | set(actual)):
        comparison.same("the number " + name, expected.get(name), actual.get(name))


def compare_constants(comparison, header):
    proved = found(r"pub answer_room : .*?≤ (\d+)\n", text_of("crates/room/proofs/Answers.antt"), "the law of an answer's room").group(1)
    comparison.same("an answer's room", proved, found(r"#define CHEESETRESTLE_ANSWER_ROOM (\d+)\n", text_of("include/cheesetrestle.h"), "its macro").group(1))
    stated = found(r"fn cheesetrestle_version\(\) -> u32\n\s*ensures \{ result ≡ (\d+) \}", text_of(CRATE), "the version's contract").group(1)
    version = [found(r"#define CHEESETRESTLE_VERSION_%s (\d+) " % part, header, "the version's macro").group(1) for part in ("MAJOR", "MINOR", "PATCH")]
    major, minor, patch = (int(part) for part in version)
    comparison.same("the version", int(stated), 10000 * major + 100 * minor + patch)
    written = found(r'#define CHEESETRESTLE_VERSION "([^"]*)"', header, "the version's text").group(1)
    comparison.same("the version's text", ".".join(version), written)


def print_lent():
    print('#include <stdio.h>\n\n#include "cheesetrestle.h"\n')
    print("static struct cheesetrestle_tables tables;\nstatic uint8_t bytes[3];\nstatic int compared, faults;\n")
    print("static void same(const char *what, int is_so)\n{\n    compared++;\n    if (!is_so) {")
    print("        faults++;\n        printf(\"%s\\n\", what);\n    }\n}\n")
    for entry in entries():
        if not entry.tables:
            continue
        print("%s %s(\n    %s)\n{" % (entry.result, entry.name, ",\n    ".join(entry.parameters_in_c())))
        print('    same("%s: input", input == bytes && input_length == 1);' % entry.name)
        if any(p.name == "output" for p in entry.parameters):
            print('    same("%s: output", output == bytes + 1 && output_length == 2);' % entry.name)
        for table in entry.tables:
            print('    same("%s: %s", %s == tables.%s && sizeof tables.%s == %d);' % (entry.name, *[table.name] * 4, table.size()))
        print("    return 7;\n}\n")
    print("int main(void)\n{")
    print('    same("what solve_lent gives", cheesetrestle_solve_lent(bytes, 1, bytes + 1, 2, &tables) == 7);')
    print('    same("what judge_lent gives", cheesetrestle_judge_lent(bytes, 1, &tables) == 7);')
    print('    printf("%d passed, %d failed\\n", compared - faults, faults);\n    return faults != 0;\n}')


def main(arguments):
    if arguments == ["--lent"]:
        print_lent()
        return 0
    if arguments:
        raise SystemExit(__doc__)
    comparison = Comparison()
    header = plain(text_of("include/cheesetrestle.h"))
    compare_tables(comparison, header, compare_entries(comparison, header))
    compare_numbers(comparison)
    compare_constants(comparison, header)
    print("%d passed, %d failed" % (comparison.passed, comparison.failed))
    return 1 if comparison.failed else 0


if __name__ == "__main__":
    sys.exit(main(sys.argv[1:]))
