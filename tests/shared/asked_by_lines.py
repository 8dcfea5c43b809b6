"""A program that is asked by lines of JSON, and the count of what is checked of it. Called by the tests of such programs."""
import json
import subprocess
from subprocess import PIPE


class Program:
    """A program: it is asked by lines, and each is answered by one."""

    def __init__(self, words, **how):
        self.process = subprocess.Popen(words, stdin=PIPE, stdout=PIPE, **how)
        self.number, self.said = 0, b""

    def raw(self, line):
        """The answer to a line of bytes; `said` is the line that it is."""
        self.process.stdin.write(line + b"\n")
        self.process.stdin.flush()
        self.said = self.process.stdout.readline()
        return json.loads(self.said)

    def ask(self, act, **members):
        self.number += 1
        answer = self.raw(json.dumps({"id": self.number, "act": act, **members}).encode())
        assert answer.pop("id") == self.number, answer
        return answer

    def ended(self):
        """The status, and what was still said, after the end of the input."""
        self.process.stdin.close()
        rest = self.process.stdout.read()
        return self.process.wait(), rest


class Checks:
    """What was checked: how often it was as wanted, and how often not."""

    def __init__(self, program):
        self.program, self.passed, self.failed = program, 0, 0

    def check(self, what, found, wanted=True):
        if found == wanted:
            self.passed += 1
        else:
            self.failed += 1
            print(f"FAILED: {what}: {found!r}, not {wanted!r}")

    def verdict(self):
        """Prints the last line of a test, and gives its status."""
        print(f"{self.passed} passed, {self.failed} failed")
        return int(self.failed != 0)
