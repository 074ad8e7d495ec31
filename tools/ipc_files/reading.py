"""From the bytes of a file to the list that it is."""

from __future__ import annotations

import re

from ipc_files.told import Refusal
from ipc_files.trees import Group, Node, Span, Text, Word

MARK = b"\xef\xbb\xbf"
# Limits of the language.
MOST_BYTES, MOST_DEPTH = 16_777_216, 64

TOKEN = re.compile(rb"[ \t\r\n]+|;[^\n]*|([()])|([!-'*-:<-~]+)")


def read(text: Text) -> Group:
    """The one list of a text."""
    if len(text.data) > MOST_BYTES:
        raise Refusal(Span(text, MOST_BYTES, MOST_BYTES), f"the text has more than {MOST_BYTES:,} bytes")
    at, end = begin_of(text), len(text.data)
    open_lists: list[tuple[int, list[Node]]] = []
    whole = None
    while at < end:
        found = TOKEN.match(text.data, at)
        if not found:
            raise Refusal(Span(text, at, at + 1), f"the byte {text.data[at]} is neither blank nor printable ASCII")
        span, at = Span(text, at, found.end()), found.end()
        if not (found[1] or found[2]):
            continue
        if whole:
            raise Refusal(span, "nothing may follow the parenthesis that closes the file's list")
        node = word_or_closed(found, span, open_lists)
        if node is None:
            continue
        if open_lists:
            open_lists[-1][1].append(node)
        elif isinstance(node, Word):
            raise Refusal(span, "a file begins with `(`")
        else:
            whole = node
    if whole is None:
        raise Refusal(Span(text, end, end), "the text ends where a list is open")
    return whole


def word_or_closed(found: re.Match, span: Span, open_lists: list[tuple[int, list[Node]]]) -> Node | None:
    """The word that was found, or the list that it closes; None where it opens one."""
    if found[2]:
        return Word(found[2].decode("ascii"), span)
    if found[1] == b"(":
        if len(open_lists) == MOST_DEPTH:
            raise Refusal(span, f"lists stand in each other to a depth of more than {MOST_DEPTH}")
        open_lists.append((span.start, []))
        return None
    if not open_lists:
        raise Refusal(span, "this `)` closes nothing")
    start, parts = open_lists.pop()
    return Group(parts, Span(span.text, start, span.end))


def begin_of(text: Text) -> int:
    """The offset behind the byte order mark, if there is one."""
    return len(MARK) if text.data.startswith(MARK) else 0
