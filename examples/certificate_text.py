"""The text of a certificate, by docs/certificates.md alone: what it says, and what is refused of it."""
import functools
import math
import re

from landmark_values import worth

MOST_SWAPS, MOST_ATOMS, MOST_TABLES, MOST_ROWS, MOST_STATES, LONGEST_LINE = 1048576, 1048576, 4194304, 4194304, 16777216, 16777216
# How many numbers the line of the constants has at least and at most, by the version.
CONSTANTS = {1: (1, 1), 2: (2, 2), 3: (2, 33), 4: (2, 33)}
MOST_ZONES, MOST_VALUES, MOST_ENTRIES, MOST_WEIGHT = 16777216, 16777216, 67108864, 2147483647
NAME = r"[a-z][a-z0-9_-]{0,254}"
NAMES = {40: "CertForm", 41: "CertVersion", 42: "Truncated", 43: "NotFluent", 44: "Repeated", 45: "NoInitial",
         46: "Unfair", 47: "UnfairGoal", 48: "GoalOpen", 49: "SuccessorMissing", 50: "SuccessorDearer", 51: "CutWeak", 52: "CutNotAllowed",
         53: "PlanInvalid", 54: "PlanDearer", 55: "Limit", 56: "DeadUnfair", 57: "DeadUnfairGoal", 58: "NotDead",
         59: "NotSymmetry", 62: "ValueUnfair", 63: "ValueNotDead"}


class Refused(Exception):
    """What is wrong with a certificate: its number, and the line, counted from 1, or the instance, or neither."""

    def __init__(self, number, line=None, instance=None):
        super().__init__(number)
        self.number, self.line, self.instance = number, line, instance

    def __str__(self):
        line = "" if self.line is None else f" line {self.line}"
        instance = "" if self.instance is None else f" ({' '.join(self.instance)})"
        return f"not accepted {self.number} {NAMES[self.number]}{line}{instance}"


# ---- tables

class Table:
    """A table: its rows, each as bits, one for each atom of the scope that is true, with their weights, one for each function."""

    def __init__(self, numbers):
        self.bits = {str(number): 1 << at for at, number in enumerate(numbers)}
        self.rows = {}
        self.rows_with = {bit: [] for bit in self.bits.values()}
        self.found_agreeing, self.found_losses = {}, {}

    def add(self, bits, weights):
        row = sum(bits)
        self.rows[row] = weights
        for bit in bits:
            self.rows_with[bit].append(row)

    def agreeing(self, wanted, unwanted):
        """The rows that have these bits and not those."""
        lists = [rows for bit, rows in self.rows_with.items() if wanted & bit]
        return [row for row in min(lists, key=len, default=self.rows) if row & wanted == wanted and not row & unwanted]

    def has_agreeing(self, *asked):
        """Whether a row has these bits and not those."""
        if asked not in self.found_agreeing:
            self.found_agreeing[asked] = bool(self.agreeing(*asked))
        return self.found_agreeing[asked]

    def losses(self, *seen):
        """What each function may lose at most by an instance that asks and changes this; without end where a row after is no row."""
        if seen not in self.found_losses:
            self.found_losses[seen] = self.worst(*seen)
        return self.found_losses[seen]

    def worst(self, asked, changed):
        worst = None
        for row in self.agreeing(*asked):
            before = self.rows[row]
            for after in rows_after(row, *changed):
                if after not in self.rows:
                    return [math.inf] * len(before)
                losses = map(int.__sub__, before, self.rows[after])
                worst = list(losses if worst is None else map(max, worst, losses))
        return worst


def rows_after(row, adds, deletes, others):
    """The rows that may follow a row: each of the other changes may be made or not, unless the row contradicts its condition."""
    after, free = row & ~deletes | adds, 0
    for bit, is_added, wanted, unwanted in others:
        if row & wanted == wanted and not row & unwanted and not adds & bit and is_added != bool(after & bit):
            free |= bit
    chosen = free
    while chosen:
        yield after ^ chosen
        chosen = (chosen - 1) & free
    yield after


# ---- reading a certificate

@functools.lru_cache(1 << 16)
def weight_of(word):
    """A constant or a weight."""
    if not re.fullmatch(r"0|-?[1-9][0-9]{0,9}", word) or abs(int(word)) > 2147483647:
        raise ValueError
    return int(word)


@functools.lru_cache(1 << 16)
def number(word):
    if not re.fullmatch(r"0|[1-9][0-9]{0,18}", word) or int(word) >= 2 ** 60:
        raise ValueError
    return int(word)


def lines_of(data):
    """The lines of the bytes, each with its number from 1; Refused(42) where the text ends in a line."""
    at, count = 0, 1
    while True:
        end = data.find(b"\n", at, at + LONGEST_LINE + 1)
        if end < 0:
            raise Refused(40 if len(data) - at > LONGEST_LINE else 42, count)
        yield count, data[at:end].decode("latin-1"), data[end + 1:end + 2]
        at, count = end + 1, count + 1


class Certificate:
    """What a text says: its claim, None for `claim none`, its functions, tables and states.

    The functions are its values and, last, that of dead ends: each has a constant, a weight of each atom and one of each row.
    """

    def __init__(self):
        self.version = self.claim = None
        self.constants, self.swaps, self.atoms, self.weights = [], [], [], {}
        self.tables, self.rows, self.places = [], 0, {}
        self.zones, self.values, self.literals, self.marks = [], [], 0, 0
        self.states, self.listed, self.bases = [], {}, {}

    def read_constants(self, words):
        least, most = CONSTANTS[self.version]
        if not least <= len(words) <= most:
            raise ValueError
        self.constants = self.padded(words)

    def read_weights(self, words):
        weights = self.padded(words)
        if len(weights) != len(self.constants):
            raise ValueError
        return weights

    def padded(self, words):
        """The numbers of these words; in version 1 there is one, and 0 takes the place of the other."""
        if self.version == 1 and len(words) != 1:
            raise ValueError
        return [weight_of(word) for word in words] + [0] * (self.version == 1)

    def read_swap(self, count, names):
        if len(names) % 2 or len(set(names)) < len(names) or not all(re.fullmatch(NAME, name) for name in names):
            raise ValueError
        if len(self.swaps) == MOST_SWAPS:
            raise Refused(55)
        self.swaps.append((count, names))

    def read_atom(self, task, count, text):
        weights, name = re.fullmatch(rf"atom ([^(]*) \(({NAME}(?: {NAME})*)\)", text).groups()
        weights, atom = self.read_weights(weights.split(" ")), tuple(name.split(" "))
        if len(self.atoms) == MOST_ATOMS:
            raise Refused(55)
        if not task.is_fluent_atom(atom):
            raise Refused(43, count)
        if atom in self.weights:
            raise Refused(44, count)
        self.weights[atom] = weights
        self.atoms.append(atom)

    def read_atom_numbers(self, words):
        """Numbers of atoms, which rise."""
        numbers = [number(word) for word in words]
        if any(it >= len(self.atoms) for it in numbers) or any(a >= b for a, b in zip(numbers, numbers[1:])):
            raise ValueError
        return numbers

    def read_table(self, words):
        numbers = self.read_atom_numbers(words)
        if not numbers:
            raise ValueError
        if len(self.tables) == MOST_TABLES:
            raise Refused(55)
        for at, it in enumerate(numbers):
            self.places.setdefault(self.atoms[it], []).append((len(self.tables), 1 << at))
        self.tables.append(Table(numbers))

    def read_row(self, count, words):
        table, width = self.tables[-1], len(self.constants)
        weights = self.read_weights(words[:width])
        self.read_atom_numbers(words[width:])
        if self.rows == MOST_ROWS:
            raise Refused(55)
        bits = [table.bits[word] for word in words[width:]]
        if sum(bits) in table.rows:
            raise Refused(44, count)
        table.add(bits, weights)
        self.rows += 1

    def read_zone(self, words):
        """A zone: literals, each the name of an atom and whether it is true."""
        at = words.index("not") if "not" in words else len(words)
        atoms, others = (self.read_atom_numbers(it) for it in (words[:at], words[at + 1:]))
        if not atoms + others or at < len(words) and not others or not set(atoms).isdisjoint(others):
            raise ValueError
        self.literals += len(atoms) + len(others)
        if len(self.zones) == MOST_ZONES or self.literals > MOST_ENTRIES:
            raise Refused(55)
        self.zones.append(frozenset((self.atoms[it], is_true) for these, is_true in ((atoms, True), (others, False)) for it in these))

    def read_value(self, count, words):
        """A landmark value: the line, and the zones with their weights."""
        numbers, weights = ([number(word) for word in words[at::2]] for at in (0, 1))
        if not numbers or len(numbers) != len(weights) or any(a >= b for a, b in zip(numbers, numbers[1:])):
            raise ValueError
        if numbers[-1] >= len(self.zones) or not all(1 <= it <= MOST_WEIGHT for it in weights):
            raise ValueError
        self.marks += len(numbers)
        if len(self.values) == MOST_VALUES or self.marks > MOST_ENTRIES:
            raise Refused(55)
        self.values.append((count, [(self.zones[it], weight) for it, weight in zip(numbers, weights)]))

    def read_state(self, count, kind, words):
        by = None
        if kind.endswith("-by"):
            kind, by, words = kind.removesuffix("-by"), number(words[0]), words[1:]
            if by >= len(self.values):
                raise ValueError
        cost, rest, words = number(words[0]), None, words[1:]
        if kind == "cut":
            rest, words = number(words[0]), words[1:]
        numbers = self.read_atom_numbers(words)
        if len(self.states) == MOST_STATES:
            raise Refused(55)
        state = frozenset(self.atoms[it] for it in numbers)
        if state in self.listed:
            raise Refused(44, count)
        if kind == "cut" and self.claim is None:
            raise Refused(52, count)
        self.listed[state] = cost
        self.states.append((count, kind, cost, rest, state))
        if by is not None:
            self.bases[count] = by

    def bits_of(self, atoms):
        """Of each table that has some of the atoms in its scope, their bits."""
        found = {}
        for atom in atoms:
            for at, bit in self.places.get(atom, ()):
                found[at] = found.get(at, 0) | bit
        return found

    def sums(self, state):
        """What each function gives a state, and zeros where a table has no row for it."""
        bits = self.bits_of(state)
        rows = [table.rows.get(bits.get(at, 0)) for at, table in enumerate(self.tables)]
        if None in rows:
            return [0] * len(self.constants)
        return list(map(sum, zip(self.constants, *(self.weights[atom] for atom in state if atom in self.weights), *rows)))

    def has_rows(self, state):
        bits = self.bits_of(state)
        return all(bits.get(at, 0) in table.rows for at, table in enumerate(self.tables))

    def landmark_value(self, by, state):
        """What the landmark value with this number gives a state, and 0 where a table has no row for it."""
        return worth(self.values[by][1], state) if self.has_rows(state) else 0

    def value(self, state, by=None):
        """What a state's cut rests on: a landmark value, or all values, of which the greatest counts."""
        return max(0, *self.sums(state)[:-1]) if by is None else self.landmark_value(by, state)

    def second_value(self, state, by=None):
        return max(0, self.sums(state)[-1]) if by is None else self.landmark_value(by, state)


def read_line(task, said, count, text):
    """One line of a certificate, which is none of its end."""
    kind, *words = text.split(" ")
    if count == 1:
        if kind != "pddl-cert" or len(words) != 1:
            raise ValueError
        said.version = number(words[0])
        if said.version not in CONSTANTS:
            raise Refused(41, 1)
    elif count == 2:
        said.claim = None if text == "claim none" else number(re.fullmatch("claim bound (.*)", text)[1])
    elif count == 3 and kind == "constant":
        said.read_constants(words)
    elif count > 3 and kind == "swap" and words and said.version >= 3 and not (said.atoms or said.tables or said.zones or said.states):
        said.read_swap(count, words)
    elif count > 3 and kind == "atom" and not (said.tables or said.zones or said.states):
        said.read_atom(task, count, text)
    elif count > 3 and kind == "table" and said.version >= 3 and not (said.zones or said.states):
        said.read_table(words)
    elif count > 3 and kind == "row" and said.tables and not (said.zones or said.states):
        said.read_row(count, words)
    elif count > 3 and kind == "zone" and said.version == 4 and not (said.values or said.states):
        said.read_zone(words)
    elif count > 3 and kind == "marks" and said.version == 4 and not said.states:
        said.read_value(count, words)
    elif count > 3 and (kind in ("open", "cut") or kind == "dead" and said.version != 1 or kind in ("cut-by", "dead-by") and said.version == 4):
        said.read_state(count, kind, words)
    else:
        raise ValueError


def read_certificate(task, data):
    """The certificate of these bytes. Its states are (line, kind, cost, rest, which is None but of a cut, atoms).

    What the line of a state rests on, where that is a landmark value, is its number, by line in `bases`.
    """
    said = Certificate()
    for count, text, behind in lines_of(data):
        try:
            words = text.split(" ")
            if count < 4 or words[0] != "end":
                read_line(task, said, count, text)
                continue
            if len(words) != 2 or number(words[1]) != len(said.states):
                raise ValueError
        except (ValueError, TypeError, LookupError, AttributeError):
            raise Refused(40, count) from None
        if behind:
            raise Refused(40, count + 1)
        return said
