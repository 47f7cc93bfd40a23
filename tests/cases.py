"""What the tests share: cases of known answer, read from their files and counted, and commands that are run within limits."""

import os
import signal
import subprocess
import tempfile
import threading

# How long a command may take, in seconds: far more than any takes on a slow machine.
LIMIT = float(os.environ.get("LIMIT", "240"))


class Fault(Exception):
    """Something that makes the whole test worthless, in words."""


class Case:
    def __init__(self, place, columns):
        if len(columns) != 4:
            raise Fault("%s: %d columns, not 4" % (place, len(columns)))
        self.place = place
        self.name = columns[0]
        self.input = bytes.fromhex(columns[1])
        if not columns[2].endswith("|"):
            raise Fault("%s: the solver's lines do not end in |" % place)
        self.lines = columns[2].split("|")[:-1]
        self.judged, judge_place = (int(part) for part in columns[3].split(" "))
        self.judge_line = "holds" if self.judged == 0 else "refused %d %d" % (self.judged, judge_place)

    @property
    def solved(self):
        """The solver's number."""
        first = self.lines[0].split(" ")
        return 0 if first[0] == "accepted" else int(first[1])

    def lines_in(self, room):
        """The solver's lines if so many bytes are lent for the answer: 7 bytes for the steps, 6 and the images for a binding, 5 for a fact."""
        wanted = sum({"accepted": 7, "bind": 6 + (self.input + b"0000")[3], "fresh": 5}.get(line.split(" ")[0], 0) for line in self.lines)
        return self.lines if wanted <= room else ["refused 13 %d" % wanted]


def counts_beside(name):
    """How many cases each file of a folder has, as the folder's file `counts` says: a line FILE NUMBER for each."""
    folder = os.path.dirname(name) or "."
    with open(os.path.join(folder, "counts"), encoding="utf-8") as file:
        counts = dict(line.split() for line in file)
    missing = set(counts) ^ {found for found in os.listdir(folder) if found.endswith(".tsv")}
    if missing:
        raise Fault("%s/counts and the files beside it differ: %s" % (folder, " ".join(sorted(missing))))
    return {os.path.join(folder, found): int(number) for found, number in counts.items()}


def load(names):
    """All cases of the files, which have to be as many as the file `counts` beside them says."""
    cases = []
    for name in names:
        with open(name, encoding="utf-8", newline="\n") as file:
            found = [Case("%s:%d" % (name, index), line.rstrip("\n").split("\t")) for index, line in enumerate(file, 1)]
        wanted = counts_beside(name)[os.path.join(os.path.dirname(name) or ".", os.path.basename(name))]
        if len(found) != wanted:
            raise Fault("%s has %d cases; counts beside it says %d" % (name, len(found), wanted))
        cases += found
    if not cases:
        raise Fault("no cases")
    return cases


def blocks_of(output):
    """The blocks of lines, each ended by an empty line, and what stands after the last one."""
    pieces = output.split(b"\n\n")
    return pieces[:-1], pieces[-1]


class Ran:
    """A command that was run: what it printed, how it ended, and what was wrong with that, in words."""

    def __init__(self, command, given, most, limit=None):
        """`given` on standard input; it may print `most` bytes, and take LIMIT seconds."""
        limit = LIMIT if limit is None else limit
        self.faults = []
        with tempfile.TemporaryFile() as file:
            file.write(given)
            file.seek(0)
            # A process group of its own, so that what the command has started ends with it.
            process = subprocess.Popen(command, stdin=file, stdout=subprocess.PIPE, preexec_fn=os.setpgrp)
            timer = threading.Timer(limit, self.end, (process, "it did not end within %g s" % limit))
            timer.start()
            self.output = process.stdout.read(most + 1)
            if len(self.output) > most:
                self.end(process, "it printed more than %d bytes" % most)
            self.status = process.wait()
            timer.cancel()
            process.stdout.close()

    def end(self, process, why):
        self.faults.append(why)
        try:
            os.killpg(process.pid, signal.SIGKILL)
        except ProcessLookupError:
            pass  # it has ended in the meantime


def finish(passed, failed):
    """The last line of every test, and its exit status."""
    print("%d passed, %d failed" % (passed, failed))
    return 1 if failed or not passed else 0
