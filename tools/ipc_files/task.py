"""From the bytes of two files to those that are written, and what takes a plan back."""

from __future__ import annotations

from ipc_files.checking import MOST_VARIABLES, Names, check_whole
from ipc_files.constants import mend_constants
from ipc_files.costs import scale
from ipc_files.derived import write_out
from ipc_files.effects import move_out
from ipc_files.files import File, Task
from ipc_files.grammar import check_file
from ipc_files.names import rename
from ipc_files.reading import MARK, begin_of, read
from ipc_files.scopes import rename_shadowing
from ipc_files.sections import add_parameters, drop_length, drop_negative_facts, drop_requirements, drop_total_time
from ipc_files.splitting import split
from ipc_files.trees import Span, Text
from ipc_files.type_tree import mend_types


def read_task(domain: Text, problem: Text) -> Task:
    """The two files as they are, or the refusal of one."""
    files = []
    for text, kind in ((domain, "domain"), (problem, "problem")):
        tree = read(text)
        check_file(tree, kind)
        files.append(File(text, tree))
    task = Task(*files)
    for it in (domain, problem):
        if begin_of(it):
            task.tell("byte-order-mark", Span(it, 0, len(MARK)), "the byte order mark is dropped")
    return task


def mend(task: Task, most_variables: int = MOST_VARIABLES) -> None:
    """Makes the task one of the language that means the same, or refuses it. Actions with more variables in scope than this are
    written as steps."""
    rename(task)
    drop_requirements(task)
    drop_length(task)
    drop_total_time(task)
    add_parameters(task)
    mend_types(task)
    mend_constants(task)
    Names(task).check()
    drop_negative_facts(task)
    scale(task)
    rename_shadowing(task)
    write_out(task)
    move_out(task)
    split(task, most_variables)
    check_whole(task)
