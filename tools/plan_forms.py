"""Plans as other planners write them, and their steps in the plan format of docs/language.md.

`tools/plan-of` prints what is read here, and `bench/score` judges it. `plan_logs` finds the plan of a whole log. It needs nothing
but Python 3.8."""

from __future__ import annotations

import codecs
import re
from bisect import bisect_right
from dataclasses import dataclass, replace
from decimal import Decimal
from typing import Iterator, Union

from plan_logs import Log, NoPlanInLog, log_in

# What a refusal gives as an example.
EXAMPLE = "`(drive t1 a)`"
BLANKS = re.compile(r"[ \t\r\n\f\v]+")
COMMENT = re.compile(r";[^\n]*")
NUMBER = r"(?:[0-9]+\.?[0-9]*|\.[0-9]+)(?:e[-+]?[0-9]+)?"
# `0.000:`, and `step 0:` as FF has it.
STAMP = re.compile(rf"(?:step[ \t]+)?({NUMBER})[ \t]*:", re.IGNORECASE)
# `[1.000]`, and `[D:1.00; C:0.10]` as LPG has it.
DURATION = re.compile(r"[ \t]*\[([^\]\n]*)\]")
PLAIN = re.compile(r"\(([^();]*)\)")
# `drive(t1, depot)`.
CALL = re.compile(r"([^\s();,:\[\]'\"]+)\(([^()\n]*)\)")
# `drive t1 a (1)`, as the log of Fast Downward has it.
LOGGED = re.compile(r"([^\s();,:\[\]]+(?:[ \t]+[^\s();,:\[\]]+)*)[ \t]+\([0-9]+\)[ \t\r]*(?=;|\n|$)")
# The headings of unified-planning, and the line of LPG that tells its time.
HEADING = re.compile(r"(?:SequentialPlan|TimeTriggeredPlan):[ \t\r]*(?=;|\n|$)")
LIST = re.compile(r"(?:SequentialPlan\([ \t]*)?\[")
# Of a list: what stands around its steps, between them and behind them.
AROUND, COMMA, WORD = re.compile(r"[\s'\"]+"), re.compile(","), re.compile(r"[^\s();,:\[\]'\"]+")
IN_LIST, IN_CALL = re.compile(r"\]"), re.compile(r"\]\s*\)")
TOOK = re.compile(rf"Time[ \t]+{NUMBER}[ \t\r]*(?=\n|$)", re.IGNORECASE)
# Behind a time stamp the words up to the end of the line, as FF has them; behind a heading one word alone.
BARE = re.compile(r"[^\s();,:\[\]]+(?:[ \t]+[^\s();,:\[\]]+)*[ \t\r]*(?=\[|;|\n|$)")
ALONE = re.compile(r"[^\s();,:\[\]]+[ \t\r]*(?=;|\n|$)")

# What other texts begin with, and what they are.
OTHERS = [
    (r"\(\s*define\b", "this is a file of PDDL, and no plan"),
    (r"pddl-cert\b", "this is a certificate, and no plan"),
    (r"(?:PartialOrderPlan|STNPlan|ContingentPlan|HierarchicalPlan|ScheduleKind|Schedule)\b",
     "only plans that are one sequence of steps are rewritten"),
    (r"unsolvable\b|unknown (?:states|instances|atoms|time)\b", "this is an answer without a plan"),
    (r"[{<]", "this is a text of JSON or XML, and no plan"),
]


class NotAPlan(Exception):
    """A text that is no plan: where, in lines and columns counted from 1 (columns count bytes), and why."""

    def __init__(self, line: int, column: int, why: str):
        super().__init__(f"{line}:{column}: {why}")
        self.line, self.column, self.why = line, column, why


@dataclass(frozen=True)
class Step:
    """An action's name and its objects in lower case, with what stands beside them."""

    words: tuple[str, ...]
    # Where the text has it.
    line: int
    # By its time stamp, and behind it in brackets.
    begins: Decimal | None = None
    lasts: Decimal | None = None

    @property
    def text(self) -> str:
        return f"({' '.join(self.words)})"


@dataclass(frozen=True)
class Comment:
    """A comment from its semicolon to the end of its line, and whether it stands behind a step."""

    text: str
    is_behind: bool


@dataclass(frozen=True)
class Plan:
    """A plan in the order in which it is run."""

    parts: tuple[Union[Step, Comment], ...]
    # What a reader should know of the order.
    notes: tuple[str, ...]

    @property
    def steps(self) -> list[Step]:
        return [it for it in self.parts if isinstance(it, Step)]

    def text(self) -> bytes:
        """The plan file: a step a line, with the comments where they were."""
        lines: list[str] = []
        for it in self.parts:
            if isinstance(it, Comment) and it.is_behind and lines:
                lines[-1] += f" {it.text}"
            else:
                lines.append(it.text)
        return "".join(f"{it}\n" for it in lines).encode("latin-1")


def read_plan(data: bytes) -> Plan:
    """The plan that a file's bytes are. Raises `NotAPlan` where they are none."""
    reader = Reader(decoded(data))
    try:
        return in_order([*reader.parts()])
    except NotAPlan:
        # A text that is a plan is no log, so that nothing of it is left out.
        log = log_of(reader)
        if log is None:
            raise
    return plan_in(log)


def log_of(reader: Reader) -> Log | None:
    """The log that a text is which is refused as a plan; None where it is none."""
    try:
        return log_in(reader.text, reader.first_begin)
    except NoPlanInLog as why:
        raise NotAPlan(why.line + 1, 1, why.why) from None


def plan_in(log: Log) -> Plan:
    """The plan of a log."""
    plan = in_order([*Reader(log.text).parts()])
    if log.steps is not None and log.steps != len(plan.steps):
        raise NotAPlan(log.told_in + 1, 1, f"the steps before this line are {len(plan.steps)}, and not {log.steps}")
    return replace(plan, notes=(*log.notes, *plan.notes))


def decoded(data: bytes) -> str:
    """The text without its byte order mark, a character for each byte."""
    for mark, name in ((codecs.BOM_UTF16_LE, "utf-16-le"), (codecs.BOM_UTF16_BE, "utf-16-be")):
        if data.startswith(mark):
            data = data[2:].decode(name, "replace").encode("utf-8")
    if data.startswith(codecs.BOM_UTF8):
        data = data[3:]
    return data.decode("latin-1")


class Reader:
    """Goes through a text from part to part."""

    def __init__(self, text: str):
        self.text, self.at = text, 0
        self.lines = [0, *(it.end() for it in re.finditer("\n", text))]
        # Whether a word alone on its line is a step, as unified-planning writes one without objects.
        self.has_heading = False
        # Where the first step begins, and where the last one ends; None before the first one.
        self.first_begin: int | None = None
        self.last_end: int | None = None

    def line_at(self, at: int) -> int:
        return bisect_right(self.lines, at)

    def refusal(self, at: int, why: str) -> NotAPlan:
        line = self.line_at(at)
        return NotAPlan(line, at - self.lines[line - 1] + 1, why)

    def take(self, pattern: re.Pattern) -> re.Match | None:
        """What a pattern finds here, which is passed."""
        found = pattern.match(self.text, self.at)
        if found:
            self.at = found.end()
        return found

    def parts(self) -> Iterator[Step | Comment]:
        """The steps and comments of the whole text."""
        self.take(BLANKS)
        while self.at < len(self.text):
            comment = self.take(COMMENT)
            if comment:
                is_behind = self.last_end is not None and "\n" not in self.text[self.last_end:comment.start()]
                yield Comment(comment[0].rstrip(), is_behind)
            elif self.take(HEADING):
                self.has_heading = True
            elif TOOK.match(self.text, self.at):
                yield Comment(f"; {self.take(TOOK)[0].strip()}", False)
            else:
                begin, is_first = self.at, self.last_end is None
                yield from self.listed() if is_first and LIST.match(self.text, begin) else [self.step()]
                self.first_begin = begin if is_first else self.first_begin
                self.last_end = self.at
            self.take(BLANKS)

    def step(self) -> Step:
        """One step, with its time stamp and its duration."""
        if self.last_end is None:
            self.refuse_others()
        line, stamp = self.line_at(self.at), self.take(STAMP)
        if stamp:
            self.take(BLANKS)
        words = self.words_of_step(BARE if stamp else ALONE if self.has_heading else None)
        duration = self.take(DURATION)
        number = duration and re.search(NUMBER, duration[1])
        return Step(words, line, Decimal(stamp[1]) if stamp else None, Decimal(number[0]) if number else None)

    def refuse_others(self) -> None:
        """Refuses a text that begins as something else does."""
        for pattern, why in OTHERS:
            if re.compile(pattern, re.IGNORECASE).match(self.text, self.at):
                raise self.refusal(self.at, why)

    def words_of_step(self, bare: re.Pattern | None) -> tuple[str, ...]:
        """The words of a step in one of its forms; None where it has to have parentheses."""
        begin = self.at
        if self.text.startswith("(", begin):
            return self.in_parentheses()
        call = self.take(CALL)
        if call:
            return self.checked([call[1], *self.split(call[2], call.start(2))], begin)
        found = self.take(LOGGED)
        if found:
            return self.checked(found[1].split(), begin)
        found = self.take(bare) if bare else None
        if found:
            return self.checked(found[0].split(), begin)
        raise self.refusal(begin, self.not_a_step())

    def not_a_step(self) -> str:
        """Why no step stands here."""
        rest = self.text[self.at:].partition("\n")[0].strip()
        if not rest:
            return f"the text ends where a step is expected, such as {EXAMPLE}"
        if rest[0] == ")":
            return "this `)` closes nothing"
        shown = rest if len(rest) <= 60 else f"{rest[:57]}.."
        return f"expected a step, such as {EXAMPLE}, not `{shown.encode('ascii', 'backslashreplace').decode()}`"

    def in_parentheses(self) -> tuple[str, ...]:
        """`(drive t1 a)`, which may go over several lines and have comments."""
        begin, inner, at = self.at, [], self.at + 1
        plain = self.take(PLAIN)
        if plain:
            return self.checked(self.split(plain[1], at), begin)
        while True:
            it = self.text[at:at + 1]
            if not it:
                raise self.refusal(begin, "this `(` is closed nowhere")
            if it == "(":
                raise self.refusal(at, f"expected a name or `)`: a step is a name with its objects, such as {EXAMPLE}")
            if it == ")":
                break
            end = COMMENT.match(self.text, at).end() if it == ";" else at + 1
            inner.append(" " * (end - at) if it == ";" else it)
            at = end
        self.at = at + 1
        return self.checked(self.split("".join(inner), begin + 1), begin)

    def split(self, inner: str, at: int) -> list[str]:
        """Words between blanks or commas."""
        parts = inner.split(",")
        if len(parts) > 1:
            for it in parts:
                if not it.strip():
                    raise self.refusal(at, "an object is missing beside a comma")
                at += len(it) + 1
        return [word for it in parts for word in it.split()]

    def checked(self, words: list[str], at: int) -> tuple[str, ...]:
        """Words in lower case that may be names."""
        if not words:
            raise self.refusal(at, f"a step without a name: expected one such as {EXAMPLE}")
        for it in words:
            strange = next((ord(one) for one in it if not "!" <= one <= "~"), None)
            if strange is not None:
                where = self.text.index(chr(strange), at)
                raise self.refusal(where, f"the byte {strange} is not printable ASCII")
            if it[0] in "?:":
                what = "variable" if it[0] == "?" else "keyword"
                raise self.refusal(self.text.index(it, at), f"`{it}` is a {what}, and a plan has names alone")
        return tuple(it.lower() for it in words)

    def listed(self) -> Iterator[Step]:
        """`[drive(t1, depot), load(p)]`, as unified-planning shows a plan."""
        begin = self.at
        closing = IN_LIST if "(" not in self.take(LIST)[0] else IN_CALL
        self.take(AROUND)
        while not self.take(closing):
            if self.at == len(self.text):
                raise self.refusal(begin, "this list is closed nowhere")
            yield Step(self.words_in_list(), self.line_at(self.at))
            self.take(AROUND)
            if not self.take(COMMA) and not closing.match(self.text, self.at):
                raise self.refusal(self.at, "expected `,` or the end of the list")
            self.take(AROUND)

    def words_in_list(self) -> tuple[str, ...]:
        """A step of a list, of which one without objects is a word."""
        begin = self.at
        if self.text.startswith("(", begin) or CALL.match(self.text, begin):
            return self.words_of_step(None)
        found = self.take(WORD)
        if not found:
            raise self.refusal(begin, self.not_a_step())
        return self.checked([found[0]], begin)


def in_order(parts: list[Step | Comment]) -> Plan:
    """The steps in the order of their time stamps, where all have one, with what there is to say of that."""
    steps = [it for it in parts if isinstance(it, Step)]
    if not steps or any(it.begins is None for it in steps):
        return Plan(tuple(parts), ())
    notes = []
    ordered = sorted(steps, key=lambda it: it.begins)
    if ordered != steps:
        notes.append("the steps are put into the order of their time stamps")
        # A comment behind a step would stand behind another one.
        left = iter(ordered)
        parts = [next(left) if isinstance(it, Step) else Comment(it.text, False) for it in parts]
    overlap = first_overlap(ordered)
    if overlap:
        one, other = overlap
        notes.append(f"{other.text} of line {other.line} begins before {one.text} of line {one.line} has ended: "
                     "they are written in the order in which they begin")
    return Plan(tuple(parts), tuple(notes))


def first_overlap(steps: list[Step]) -> tuple[Step, Step] | None:
    """The first step that begins while an earlier one lasts, with that one. A step without a duration lasts no time."""
    longest = None
    for it in steps:
        if longest and it.begins < longest.begins + (longest.lasts or 0):
            return longest, it
        if longest is None or it.begins + (it.lasts or 0) >= longest.begins + (longest.lasts or 0):
            longest = it
    return None
