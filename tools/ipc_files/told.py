"""What the tool says of a file: a change that it made, or why it makes none."""

from __future__ import annotations

from dataclasses import dataclass

from ipc_files.trees import Span


class Refusal(Exception):
    """A file that is not made into one of the language: the place, and why."""

    def __init__(self, at: Span, why: str):
        super().__init__(f"{at.told()}: {why}")


@dataclass(frozen=True)
class Change:
    """One thing that is written otherwise, by its kind, its place in the file that was handed in, and a sentence."""

    kind: str
    at: Span
    text: str

    def told(self) -> str:
        """The line that tells it."""
        return f"{self.at.told()}: {self.kind}: {self.text}"
