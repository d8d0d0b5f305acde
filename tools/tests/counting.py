"""Counts for a test in Python: the counterpart of counting.sh."""
import sys

sys.dont_write_bytecode = True


class Counts:
    """What passed, failed, and was skipped."""

    def __init__(self):
        self.passed, self.failed, self.skipped = 0, 0, 0

    def compare(self, name, found, wanted):
        """Counts whether what was found is what is wanted, and shows both where it is not."""
        if found == wanted:
            self.passed += 1
            print(f"{name}: passed")
        else:
            self.failed += 1
            print(f"{name}: FAILED\n  wanted {wanted!r}\n  found  {found!r}")

    def skip(self, name, why):
        """Tells what is left out, and why."""
        self.skipped += 1
        print(f"{name}: skipped, {why}")

    def finish(self):
        """Ends the test with the line that examples/check adds up."""
        print(f"{self.passed} passed, {self.failed} failed" + (f", {self.skipped} skipped" if self.skipped else ""))
        sys.exit(self.failed != 0)
