"""What the scripts of tests/ share: where the programs are, how a case that differs is shown, and how a script ends.

The programs are those in the folder that the variable BUILT names, or else in target/unproved, where `quick` builds them. The
last line of each script is `SCRIPT: N passed, N failed, N skipped`, and it exits with 1 if a case failed or none ran."""
import os
import re
import shlex
import subprocess
import sys
import textwrap

TOP = os.path.dirname(os.path.dirname(os.path.realpath(__file__)))
FOLDER = os.path.abspath(os.environ.get("BUILT") or f"{TOP}/target/unproved")
MOST_SHOWN = 20
LAST_LINE = re.compile(r"^[\w-]+: (\d+) passed, (\d+) failed, (\d+) skipped$", re.M)


def make(*words):
    """Runs a script of the repository that builds what is tested."""
    if subprocess.run([f"{TOP}/{words[0]}", *words[1:]], stdin=subprocess.DEVNULL, check=False).returncode:
        sys.exit(1)


def built(name):
    """Returns the path of a program."""
    if not os.environ.get("BUILT"):
        make("quick", name)
    if not os.access(f"{FOLDER}/{name}", os.X_OK):
        sys.exit(f"there is no program {FOLDER}/{name}")
    return f"{FOLDER}/{name}"


def only_tests(program):
    """Returns whether a program is one of tests/programs, which aren't proved."""
    return os.path.isdir(f"{TOP}/tests/programs/{program}")


def folder_of(program):
    """Returns the folder with the sources, rows, input and output of a program."""
    return f"{TOP}/tests/programs/{program}" if only_tests(program) else f"{TOP}/crates/{program}"


def is_tested(program):
    """Returns whether a program is among those that are tested: one that only tests isn't beside proved ones."""
    return not (os.environ.get("BUILT") and only_tests(program)) or os.path.exists(f"{FOLDER}/{program}")


def answers(program, rows, seconds=300):
    """Returns what a program that answers rows says of each of these."""
    given = "".join(f"{it}\n" for it in rows)
    ran = subprocess.run([built(program)], input=given.encode(), capture_output=True, timeout=seconds, check=False)
    text, found, start = ran.stdout.decode(), [], 0
    for row, after in zip(rows, [*(f"\n{it}\t" for it in rows[1:]), None]):
        end = text.find(after, start) if after else len(text) - 1
        if not text.startswith(f"{row}\t", start) or end < start:
            break
        found.append(text[start + len(row) + 1 : end])
        start = end + 1
    if ran.returncode or len(found) != len(rows):
        sys.exit(f"{program} ended with {ran.returncode} after {len(found)} of {len(rows)} rows")
    return found


def library():
    """Makes sure that the C library is in the folder of what is tested."""
    if not os.environ.get("BUILT"):
        make("library", "--unproved", FOLDER)


def indented(value):
    """Returns what to print of a value: a line as it is, and several below one another."""
    text = value if isinstance(value, str) else repr(value)
    return f"\n{textwrap.indent(text, '    ')}".rstrip("\n") if "\n" in text else text


class Report:
    """Counts the cases of a script, and shows those that differ. With names of cases, only these count."""

    def __init__(self, script, names=()):
        self.script, self.names = script, set(names)
        self.passed = self.failed = self.skipped = 0

    def wants(self, case):
        """Returns whether to run a case."""
        return not self.names or case in self.names

    def expect(self, case, got, wanted, row=None):
        """Compares what a case came to with what is expected. Returns whether they are equal."""
        if got != wanted:
            self.fail(case, got, wanted, row)
            return False
        self.passed += 1
        return True

    def fail(self, case, got, wanted, row=None):
        """Shows a case that differs: its row if it has one, what is expected, what came, and how to run it alone."""
        self.failed += 1
        print(f"{self.script}: {case} FAILED")
        if row is not None:
            print(f"  row      {indented(row)}")
        print(f"  expected {indented(wanted)}")
        print(f"  got      {indented(got)}")
        print(f"  again    tests/{self.script} {shlex.quote(case)}", flush=True)

    def skip(self, what, package):
        """Notes what isn't run because the tool of a Debian package isn't installed."""
        self.skip_since(what, f"the Debian package {package} isn't installed")

    def skip_since(self, what, why):
        """Notes what isn't run, and why."""
        self.skipped += 1
        print(f"{self.script}: {what}: skipped, since {why}", flush=True)

    def end(self):
        """Prints the last line. Returns the exit status."""
        print(f"{self.script}: {self.passed} passed, {self.failed} failed, {self.skipped} skipped", flush=True)
        return 1 if self.failed or not self.passed + self.skipped else 0


class Cases(Report):
    """Shows only the first cases that differ."""

    def fail(self, case, got, wanted, row=None):
        if self.failed < MOST_SHOWN:
            super().fail(case, got, wanted, row)
        else:
            self.failed += 1

    def end(self):
        if self.failed > MOST_SHOWN:
            print(f"{self.script}: {self.failed - MOST_SHOWN} more differ")
        return super().end()
