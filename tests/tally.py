"""What passed and what failed, of one test program."""
import sys

SHOWN = 20


class Tally:
    def __init__(self, name):
        self.name = name
        self.passed = self.failed = 0

    def equal(self, what, want, got):
        if want == got:
            self.passed += 1
            return
        self.failed += 1
        if self.failed <= SHOWN:
            print(f"{self.name}: {what}: expected {want!r:.400}, got {got!r:.400}")

    def finish(self, more=""):
        """Prints the summary and ends the program: with status 0 only where something passed and nothing failed."""
        print(f"{self.name}: {self.passed} passed, {self.failed} failed{more}")
        sys.exit(1 if self.failed or not self.passed else 0)
