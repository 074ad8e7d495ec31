"""Changes of a certificate's text, made at random, by which it is forged.

Each takes the text's lines, lists of words, changes them and says what it did. It raises IndexError where there is nothing to change.
"""

STATES = ("open", "cut", "dead", "cut-by", "dead-by")


def joined(lines):
    return "".join(" ".join(words) + "\n" for words in lines)


def lines_of(lines, *kinds):
    """Where the lines of these kinds are."""
    return [at for at, words in enumerate(lines) if words[0] in kinds]


def width(lines):
    """How many weights a line has."""
    return len(lines[2]) - 1


def first_atom(words):
    """Where the numbers of the atoms begin in the line of a state."""
    return {"open": 2, "dead": 2, "cut": 3, "dead-by": 3, "cut-by": 4}[words[0]]


def cost_at(words):
    """Where the cost is in the line of a state."""
    return 2 if words[0].endswith("-by") else 1


def with_weights(lines, chance, *kinds):
    return lines[chance.choice(lines_of(lines, *kinds))]


def moved(word, chance):
    return str(int(word) + chance.choice((-1, 1)))


def weight_moved(lines, chance):
    words, at = with_weights(lines, chance, "atom", "row"), chance.randint(1, width(lines))
    words[at] = moved(words[at], chance)
    return "a weight is one higher or lower"


def constant_moved(lines, chance):
    at = chance.randint(1, width(lines))
    lines[2][at] = moved(lines[2][at], chance)
    return "a constant is one higher or lower"


def row_dropped(lines, chance):
    del lines[chance.choice(lines_of(lines, "row"))]
    return "a row is dropped"


def row_added(lines, chance):
    at = chance.choice(lines_of(lines, "table"))
    inside = [word for word in lines[at][1:] if chance.random() < 0.5]
    weights = with_weights(lines, chance, "row")[1:1 + width(lines)]
    lines.insert(at + 1, ["row", *weights, *inside])
    return "a row is added"


def row_repeated(lines, chance):
    at = chance.choice(lines_of(lines, "row"))
    lines.insert(at + chance.randint(0, 2), list(lines[at]))
    return "a row is repeated"


def table_added(lines, chance):
    at = chance.choice(lines_of(lines, "table", "row")[:1] or [lines_of(lines, *STATES, "end")[0]])
    lines.insert(at, ["table", str(chance.randrange(len(lines_of(lines, "atom"))))])
    return "a table without rows is added"


def table_moved(lines, chance):
    words = lines.pop(chance.choice(lines_of(lines, "table")))
    lines.insert(chance.choice(lines_of(lines, "atom", "table", "row", *STATES)), words)
    return "a table's line is moved"


def scope_left(lines, chance):
    words = lines[chance.choice(lines_of(lines, "row", "table"))]
    if words[0] == "table" or chance.random() < 0.5:
        words.pop(chance.randrange(1, len(words)))
    else:
        words.append(str(chance.randrange(len(lines_of(lines, "atom")))))
    return f"a number of a {words[0]} is taken away or put in"


def dead_weights_swapped(lines, chance):
    first, second = (with_weights(lines, chance, "atom", "row") for _ in range(2))
    last = width(lines)
    first[last], second[last] = second[last], first[last]
    return "the weights of dead ends are swapped in two lines"


def dead_weights_cleared(lines, chance):
    last = width(lines)
    for at in lines_of(lines, "constant", "atom", "row"):
        lines[at][last] = "0"
    lines[chance.choice(lines_of(lines, "open", "dead"))][0] = "dead"
    return "the weights of dead ends are 0"


def values_swapped(lines, chance):
    if width(lines) == 1:
        raise IndexError
    first, second = chance.sample(range(1, width(lines) + 1), 2)
    kinds = chance.choice((["row"], ["atom"], ["atom", "row"], ["constant", "atom", "row"]))
    for at in lines_of(lines, *kinds):
        lines[at][first], lines[at][second] = lines[at][second], lines[at][first]
    return f"two values are swapped in each {' and '.join(kinds)}"


def kinds_of(lines):
    """The kinds of line that list states in texts of this version."""
    return STATES if lines[0][-1] == "4" else STATES[:3]


def some_value(lines, chance):
    """The number of a landmark value, or the one after the last."""
    return str(chance.randint(0, len(lines_of(lines, "marks"))))


def state_changed(lines, chance):
    words = lines[chance.choice(lines_of(lines, *STATES))]
    kind, cost, numbers = chance.choice(kinds_of(lines)), words[cost_at(words)], words[first_atom(words):]
    value = [some_value(lines, chance)] if kind.endswith("-by") else []
    words[:] = [kind, *value, cost, *(["1"] if kind.startswith("cut") else []), *numbers]
    return "a state's line is of another kind"


def state_cost_moved(lines, chance):
    words = lines[chance.choice(lines_of(lines, *STATES))]
    at = cost_at(words) + (words[0].startswith("cut") and chance.random() < 0.5)
    words[at] = moved(words[at], chance)
    return "a cost or a bound of a state is one higher or lower"


def count_states(lines):
    """Says at the end how many states are listed."""
    lines[lines_of(lines, "end")[-1]] = ["end", str(len(lines_of(lines, *STATES)))]


def state_dropped(lines, chance):
    del lines[chance.choice(lines_of(lines, *STATES))]
    count_states(lines)
    return "a state is dropped"


def atom_images(lines, names):
    """Of each atom's number the number of its image, where these objects change places and the image is listed."""
    image_of = {name: other for pair in zip(names[::2], names[1::2]) for name, other in (pair, pair[::-1])}
    atoms = [tuple(" ".join(lines[at][width(lines) + 1:])[1:-1].split(" ")) for at in lines_of(lines, "atom")]
    numbers = {atom: str(number) for number, atom in enumerate(atoms)}
    images = {number: numbers.get((atom[0], *(image_of.get(name, name) for name in atom[1:]))) for atom, number in numbers.items()}
    return {number: image for number, image in images.items() if image is not None}


def with_image(words, image_of):
    """The line of a state with the state's image in its place."""
    first = first_atom(words)
    return [*words[:first], *sorted((image_of.get(number, number) for number in words[first:]), key=int)]


def moved_states(lines, chance):
    """The lines of states that one exchange takes to others, with what they become: it is one of the `swap` lines."""
    image_of = atom_images(lines, lines[chance.choice(lines_of(lines, "swap"))][1:])
    found = {at: with_image(lines[at], image_of) for at in lines_of(lines, *STATES)}
    return {at: words for at, words in found.items() if words != lines[at]}


def states_replaced(lines, chance):
    images = moved_states(lines, chance)
    chosen = chance.sample(list(images), chance.choice((1, 1, 1, 1 + len(images) // 2, len(images))))
    for at in chosen:
        lines[at] = images[at]
    return f"images take the places of {len(chosen)} states"


def state_doubled(lines, chance):
    at, words = chance.choice(list(moved_states(lines, chance).items()))
    cost = words[cost_at(words)]
    words[cost_at(words)] = chance.choice((cost, cost, moved(cost, chance)))
    lines.insert(chance.choice((at, at + 1, lines_of(lines, *STATES)[0], len(lines) - 1)), words)
    count_states(lines)
    return "an image of a state is listed beside it"


def member_dropped(lines, chance):
    state_of = lambda words: tuple(words[first_atom(words):])
    listed = {state_of(lines[at]) for at in lines_of(lines, *STATES)}
    del lines[chance.choice([at for at, words in moved_states(lines, chance).items() if state_of(words) in listed])]
    count_states(lines)
    return "a state whose image is listed is dropped"


def objects_in(lines):
    """The objects that atoms name."""
    return sorted({word.rstrip(")") for at in lines_of(lines, "atom") for word in lines[at][width(lines) + 2:]})


def swap_added(lines, chance):
    objects, count = objects_in(lines), chance.choice((2, 2, 2, 2, 3, 4))
    names = chance.sample(objects, count) if chance.random() < 0.9 else chance.choices(objects, k=count)
    lines.insert(chance.randrange(3, 4 + len(lines_of(lines, "swap"))), ["swap", *names])
    return "objects change places"


def swap_dropped(lines, chance):
    del lines[chance.choice(lines_of(lines, "swap"))]
    return "a swap line is dropped"


def swap_changed(lines, chance):
    words = lines[chance.choice(lines_of(lines, "swap"))]
    words[chance.randrange(1, len(words))] = chance.choice(objects_in(lines))
    return "another object changes places"


def zone_of(lines, chance):
    """The line of a zone, and its literals: numbers of atoms, each with whether the atom is under `not`."""
    words = lines[chance.choice(lines_of(lines, "zone"))]
    at = words.index("not") if "not" in words else len(words)
    return words, [(number, place > at) for place, number in enumerate(words) if place and number != "not"]


def with_literals(words, literals):
    sides = [sorted((number for number, is_negated in literals if is_negated == it), key=int) for it in (False, True)]
    words[:] = ["zone", *sides[0], *(["not", *sides[1]] if sides[1] else [])]


def some_atom(lines, chance):
    """The number of an atom, or now and then the one after the last."""
    count = len(lines_of(lines, "atom"))
    return str(count if chance.random() < 0.1 else chance.randrange(count))


def literal_dropped(lines, chance):
    words, literals = zone_of(lines, chance)
    literals.pop(chance.randrange(len(literals)))
    with_literals(words, literals)
    return "a zone has a literal less"


def literal_added(lines, chance):
    words, literals = zone_of(lines, chance)
    with_literals(words, [*literals, (some_atom(lines, chance), chance.random() < 0.4)])
    return "a zone has a literal more"


def literal_turned(lines, chance):
    words, literals = zone_of(lines, chance)
    at = chance.randrange(len(literals))
    literals[at] = literals[at][0], not literals[at][1]
    with_literals(words, literals)
    return "a literal of a zone is turned"


def not_moved(lines, chance):
    words, _ = zone_of(lines, chance)
    words[:] = [word for word in words if word != "not"]
    words.insert(chance.randint(1, len(words)), "not")
    return "the `not` of a zone is moved or put in"


def zone_dropped(lines, chance):
    del lines[chance.choice(lines_of(lines, "zone"))]
    return "a zone is dropped"


def zone_repeated(lines, chance):
    at = chance.choice(lines_of(lines, "zone"))
    lines.insert(at, list(lines[at]))
    return "a zone is repeated, and those after it are renumbered"


def share_moved(lines, chance):
    words = lines[chance.choice(lines_of(lines, "marks"))]
    at = chance.randrange(1, len(words))
    words[at] = moved(words[at], chance)
    return "a zone's number or a weight of a landmark value is one higher or lower"


def share_dropped(lines, chance):
    words = lines[chance.choice(lines_of(lines, "marks"))]
    at = chance.randrange(1, len(words), 2)
    del words[at:at + 2]
    return "a landmark value has a zone less"


def share_added(lines, chance):
    words = lines[chance.choice(lines_of(lines, "marks"))]
    shares = dict(zip(words[1::2], words[2::2]))
    shares[str(chance.randint(0, len(lines_of(lines, "zone"))))] = chance.choice(words[2::2])
    words[:] = ["marks", *(word for share in sorted(shares.items(), key=lambda it: int(it[0])) for word in share)]
    return "a landmark value has a zone more"


def landmark_values_added_up(lines, chance):
    first, second = (lines[chance.choice(lines_of(lines, "marks"))] for _ in range(2))
    shares = {**dict(zip(second[1::2], second[2::2])), **dict(zip(first[1::2], first[2::2]))}
    first[:] = ["marks", *(word for share in sorted(shares.items(), key=lambda it: int(it[0])) for word in share)]
    return "a landmark value has the zones of two"


def landmark_value_added(lines, chance):
    count, at = len(lines_of(lines, "zone")), lines_of(lines, "marks", *STATES, "end")[0]
    literals = {some_atom(lines, chance): chance.random() < 0.4 for _ in range(chance.randint(1, 4))}
    lines.insert(at, ["zone"])
    with_literals(lines[at], literals.items())
    value = {str(chance.randint(0, count)): str(chance.randint(1, 3)), str(count): str(chance.randint(1, 3))}
    lines.insert(lines_of(lines, *STATES, "end")[0], ["marks", *(word for share in value.items() for word in share)])
    return "a zone of literals at random and a landmark value with it are added"


def landmark_value_dropped(lines, chance):
    del lines[chance.choice(lines_of(lines, "marks"))]
    return "a landmark value is dropped"


def landmark_values_moved(lines, chance):
    first, second = chance.sample(lines_of(lines, "zone", "marks"), 2)
    lines[first], lines[second] = lines[second], lines[first]
    return "two lines of zones and landmark values change places"


def basis_changed(lines, chance):
    words = lines[chance.choice(lines_of(lines, "cut-by", "dead-by"))]
    words[1] = chance.choice((some_value(lines, chance), moved(words[1], chance)))
    return "a state's line rests on another landmark value"


def basis_lost(lines, chance):
    words = lines[chance.choice(lines_of(lines, "cut-by", "dead-by"))]
    words[:2] = [words[0].removesuffix("-by")]
    return "a state's line rests on no landmark value"


def dead_by_added(lines, chance):
    words = lines[chance.choice(lines_of(lines, *STATES))]
    words[:] = ["dead-by", some_value(lines, chance), words[cost_at(words)], *words[first_atom(words):]]
    return "a state is a dead end by a landmark value"


def version_changed(lines, chance):
    lines[0][-1] = chance.choice("35")
    return "another version"


def claim_changed(lines, chance):
    if lines[1] == ["claim", "none"]:
        lines[1] = ["claim", "bound", "1"]
    else:
        lines[1] = chance.choice((["claim", "none"], ["claim", "bound", moved(lines[1][-1], chance)]))
    return "another claim"


def line_moved(lines, chance):
    words = lines.pop(chance.randrange(len(lines)))
    if chance.random() < 0.7:
        lines.insert(chance.randrange(len(lines) + 1), words)
    return "a line is moved or dropped"


def word_changed(lines, chance):
    words = chance.choice(lines)
    at = chance.randrange(len(words))
    other = chance.choice(("", "-0", "01", "x", "2147483648", "1152921504606846976"))
    words[at:at + 1] = chance.choice(([], [words[at]] * 2, [words[at], "0"], [other]))
    return "a word is changed"


# Those that stand here more than once are taken more often.
CHANGES = (weight_moved, weight_moved, weight_moved, constant_moved, row_dropped, row_dropped, row_added, row_repeated, table_added,
           table_moved, scope_left, dead_weights_swapped, dead_weights_cleared, values_swapped, state_changed, state_cost_moved,
           state_dropped, states_replaced, states_replaced, state_doubled, state_doubled, member_dropped, swap_added, swap_added,
           swap_dropped, swap_changed, claim_changed, line_moved, word_changed)


# Those of landmark values, which are taken twice as often where there are such values.
OF_LANDMARKS = (literal_dropped, literal_dropped, literal_added, literal_turned, not_moved, zone_dropped, zone_repeated,
                share_moved, share_moved, share_moved, share_dropped, share_added, landmark_values_added_up, landmark_value_added,
                landmark_value_added, landmark_value_dropped, landmark_values_moved, basis_changed, basis_changed, basis_lost,
                dead_by_added, dead_by_added, state_cost_moved, state_changed, version_changed)


def forged(text, chance, *kinds):
    """The text changed in one to three places, and what was done: each change is of one of these kinds."""
    lines, done, count = [line.split(" ") for line in text.split("\n")[:-1]], [], chance.choice((1, 1, 1, 2, 3))
    while len(done) < count:
        try:
            done.append(chance.choice(chance.choice(kinds))(lines, chance))
        except (IndexError, ValueError):
            pass
    return "; ".join(done), joined(lines)
