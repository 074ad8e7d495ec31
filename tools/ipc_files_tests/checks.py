"""Checks, each told by a line."""


class Checks:
    """What was checked so far, and how much of it failed."""

    def __init__(self):
        self.passed, self.failed = 0, 0

    def check(self, name: str, holds: bool, told: object = "") -> None:
        """Tells a check by its name, and where it fails what came."""
        if holds:
            self.passed += 1
            print(f"ok: {name}")
        else:
            self.failed += 1
            print(f"FAILED: {name}: {told}".rstrip(": "))
