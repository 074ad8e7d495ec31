"""Trees as texts. What was not changed is written as it was, byte for byte."""

from __future__ import annotations

from ipc_files.files import File, Task
from ipc_files.reading import MOST_BYTES, MOST_DEPTH, begin_of
from ipc_files.told import Refusal
from ipc_files.trees import Group, Node, Word

WIDTH = 120


def is_same(one: Node, other: Node) -> bool:
    """Whether two trees are written with the same words, in upper and lower case."""
    if isinstance(one, Word) or isinstance(other, Word):
        return isinstance(one, Word) and isinstance(other, Word) and one.text == other.text
    return one is other or len(one.parts) == len(other.parts) and all(map(is_same, one.parts, other.parts))


def written(task: Task, file: File) -> bytes:
    """The text of a file: its own bytes where nothing is changed, and else those of each section that is as it was."""
    begin, data = begin_of(file.text), file.text.data
    heading = file.tree.parts[1]
    out = [data[begin:heading.at.start], source_or_text(Group([heading.parts[0], file.name], heading.at), heading)]
    end = heading.at.end
    for section, first in file.sections:
        if first is None:
            out.append(b"\n  " + source_or_text(section, None))
            continue
        gap = data[end:first.at.start]
        out += [gap if section.parts or gap.strip() else b"", source_or_text(section, first)]
        end = first.at.end
    out.append(data[end:])
    text = b"".join(out)
    if len(text) > MOST_BYTES:
        raise Refusal(file.tree.at, f"what is written would have more than {MOST_BYTES:,} bytes")
    for section, _ in file.sections:
        check_depth(section, 2)
    return text


def source_or_text(section: Group, first: Group | None) -> bytes:
    """A section as it stands in its file, where it is the same, and else as it is laid out."""
    if first and is_same(section, first):
        return first.at.text.data[first.at.start:first.at.end]
    return laid_out(section, 2).encode("ascii") if section.parts else b""


def laid_out(node: Node, column: int) -> str:
    """A tree on one line where it fits, and else a line for each part that is a list, or a keyword with its value."""
    line = on_line(node)
    if isinstance(node, Word) or column + len(line) <= WIDTH:
        return line
    out, inner = "(", column + 1
    for index, it in enumerate(node.parts):
        after_word = index > 0 and isinstance(node.parts[index - 1], Word)
        breaks = index > 0 and (isinstance(it, Group) and not after_word or isinstance(it, Word) and it.text[0] == ":")
        text = laid_out(it, inner)
        last = len(out) - out.rfind("\n") - 1 if "\n" in out else column + len(out)
        breaks = breaks or index > 0 and isinstance(it, Word) and last + len(text) > WIDTH
        out += ("" if index == 0 else "\n" + " " * inner if breaks else " ") + text
    return out + ")"


def on_line(node: Node) -> str:
    return node.text if isinstance(node, Word) else f"({' '.join(map(on_line, node.parts))})"


def check_depth(node: Node, depth: int) -> None:
    """Refuses lists that stand in each other too deep, which they may come to do where something is written out."""
    if isinstance(node, Group):
        if depth > MOST_DEPTH:
            raise Refusal(node.at, f"what is written here would stand in lists to a depth of more than {MOST_DEPTH}")
        for it in node.parts:
            check_depth(it, depth + 1)
