"""What the test scripts in Python share: they count checks, their last line is 'N passed, M failed', and they find what dist/ has."""

import platform
from pathlib import Path

ROOT = Path(__file__).resolve().parent.parent


def released(name: str) -> Path:
    """A file of dist/ for the processor of this machine."""
    return ROOT / "dist" / platform.machine() / name


class Checks:
    """Counts checks, and prints those that failed, at most `most` of them."""

    def __init__(self, most: int = 1000) -> None:
        self.passed = 0
        self.failed = 0
        self.most = most

    def check(self, is_so: bool, message: str) -> None:
        if is_so:
            self.passed += 1
            return
        self.failed += 1
        if self.failed <= self.most:
            print(f"FAILED {message}")

    def end(self) -> int:
        return print_counts(self.passed, self.failed)


def print_counts(passed: int, failed: int) -> int:
    """Prints the last line, and returns the script's status: 1 where a check failed, or none was made."""
    print(f"{passed} passed, {failed} failed")
    return 1 if failed or not passed else 0
