"""Links from a page to the plans and certificates of the runs that it tells of."""

from __future__ import annotations

import os
from html import escape
from urllib.parse import quote

from batching.lines import Line
from batching.reading import Lines


class Links:
    """Links of a page that stands at this path; None, where nothing is linked."""

    def __init__(self, page: str | None):
        self.folder = None if page is None else os.path.dirname(os.path.abspath(page))

    def to(self, path: str, words: str) -> str:
        """Words that lead to a file, where it is there."""
        if self.folder is None or not words or not os.path.isfile(path):
            return escape(words)
        return f'<a href="{escape(quote(os.path.relpath(path, self.folder)))}">{escape(words)}</a>'

    def to_plan(self, run: Lines, line: Line, words: str) -> str:
        """Words that lead to the plan, in the names of the files that were found."""
        return self.to(f"{run.folder}/answers/{line.task}/{run.plan_name}", words)

    def to_certificate(self, run: Lines, line: Line, words: str) -> str:
        return self.to(f"{run.folder}/answers/{line.task}/cert.txt", words)
