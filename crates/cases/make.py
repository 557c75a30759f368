#!/usr/bin/env python3
"""Makes the pattern files in data/, and from them args and stdout, with nothing but Python's library.

    crates/cases/make.py            writes data/, args and stdout
    crates/cases/make.py FILE..     prints what is to be printed of these files

What is to be printed is worked out here a second time, apart from the proved code and in another way: a row's values
under all events at once are one long number, bit a for event a. Before anything is written, the answers are audited
(see `audit`), and so is whether the cases would notice some likely mistakes (see `MISTAKES`).
"""

import sys
from pathlib import Path

HERE = Path(__file__).resolve().parent

FALSE, TRUE, STATE, SIGNAL, AND, OR, NOT = range(7)

BLOCK, PAYLOAD, LONGEST = 512, 504, 6656
MOST_STATES, MOST_SIGNALS, MOST_ROWS = 64, 16, 1024
FINDS = 1024


class Pattern:
    """A pattern's tables: `rows` are triples of operation, left and right."""

    def __init__(self, signals, start, finals, roots, rows):
        self.signals, self.start, self.finals = signals, start, finals
        self.roots, self.rows = list(roots), list(rows)

    def copy(self):
        return Pattern(self.signals, self.start, self.finals, self.roots, self.rows)


# Files


def low_first(number, size):
    return number.to_bytes(size, "little")


def number_at(data, at, size):
    return int.from_bytes(data[at : at + size], "little")


def payload_of(pattern):
    head = bytes([1, len(pattern.roots), pattern.signals, pattern.start])
    head += low_first(len(pattern.rows), 2) + low_first(pattern.finals, 8) + bytes(2)
    roots = b"".join(low_first(root, 2) for root in pattern.roots)
    rows = b"".join(bytes([op, 0]) + low_first(l, 2) + low_first(r, 2) for op, l, r in pattern.rows)
    return head + roots + rows


def check_sum(block):
    return sum((i + 1) * byte for i, byte in enumerate(block[:508]))


def sealed(block):
    """The block with the check that it should have."""
    return block[:508] + low_first(check_sum(block), 4)


def block_of(number, used, payload):
    return sealed(low_first(number, 2) + low_first(used, 2) + payload.ljust(PAYLOAD, b"\0") + bytes(4))


def blocks_of(payload):
    parts = [payload[i : i + PAYLOAD] for i in range(0, len(payload), PAYLOAD)]
    return [block_of(i, len(part), part) for i, part in enumerate(parts)]


def file_of(pattern):
    return b"".join(blocks_of(payload_of(pattern)))


class Refused(Exception):
    """A question answered no: its number, its layer and the place that it was about."""


def ask(answer, number, layer, place=0):
    if not answer:
        raise Refused(number, layer, place)


def read_file(data):
    """The pattern in a file; raises Refused."""
    payload = read_blocks(data)
    ask(len(payload) >= 16 and payload[0] == 1 and payload[14:16] == bytes(2), 25, "record")
    states, count = payload[1], number_at(payload, 4, 2)
    ask(len(payload) == 16 + 2 * states + 6 * count, 26, "record")
    roots = [number_at(payload, 16 + 2 * q, 2) for q in range(states)]
    rows, spare = [], []
    for at in range(16 + 2 * states, len(payload), 6):
        rows.append((payload[at], number_at(payload, at + 2, 2), number_at(payload, at + 4, 2)))
        spare.append(payload[at + 1])
    pattern = Pattern(payload[2], payload[3], number_at(payload, 6, 8), roots, rows)
    ask_pattern(pattern, spare)
    return pattern


def read_blocks(data):
    ask(512 <= len(data) <= LONGEST and len(data) % BLOCK == 0, 20, "block", len(data))
    payload, last = b"", len(data) // BLOCK - 1
    for place in range(last + 1):
        block = data[BLOCK * place : BLOCK * (place + 1)]
        used = number_at(block, 2, 2)
        ask(number_at(block, 508, 4) == check_sum(block), 21, "block", place)
        ask(number_at(block, 0, 2) == place, 22, "block", place)
        ask(used == PAYLOAD or place == last and 1 <= used <= PAYLOAD, 23, "block", place)
        ask(not any(block[4 + used : 508]), 24, "block", place)
        payload += block[4 : 4 + used]
    return payload


def ask_pattern(pattern, spare):
    """The six questions of a pattern; `spare` has each row's zero byte."""
    states, rows = len(pattern.roots), len(pattern.rows)
    ask(1 <= states <= MOST_STATES and pattern.signals <= MOST_SIGNALS and 1 <= rows <= MOST_ROWS, 1, "table")
    ask(pattern.start < states and pattern.finals < 1 << states, 2, "table")
    for q, root in enumerate(pattern.roots):
        ask(root < rows, 3, "table", q)
    stateful = set()
    for i, (op, left, right) in enumerate(pattern.rows):
        used = {FALSE: 0, TRUE: 0, STATE: 1, SIGNAL: 1, AND: 2, OR: 2, NOT: 1}.get(op)
        ask(used is not None and spare[i] == 0 and not any((left, right)[used:]), 4, "table", i)
        limit = {STATE: states, SIGNAL: pattern.signals}.get(op, i)
        ask(all(operand < limit for operand in (left, right)[:used]), 5, "table", i)
        ask(op != NOT or left not in stateful, 6, "table", i)
        if op == STATE or op in (AND, OR) and stateful & {left, right}:
            stateful.add(i)


# The search


def columns(pattern, states):
    """For each state the events under which its root row is 1 with this set: bit a for event a."""
    width = 1 << pattern.signals
    every = (1 << width) - 1
    value = []
    for op, left, right in pattern.rows:
        if op == STATE:
            value.append(every if states >> left & 1 else 0)
        elif op == SIGNAL:
            # 2^left events without the signal, 2^left with it, and so on
            value.append(every // ((1 << (1 << left)) + 1) << (1 << left))
        elif op == AND:
            value.append(value[left] & value[right])
        elif op == OR:
            value.append(value[left] | value[right])
        elif op == NOT:
            value.append(every ^ value[left])
        else:
            value.append(every if op == TRUE else 0)
    return [value[root] for root in pattern.roots]


def uncovered_events(column, held):
    """The events whose set of states no held set covers: for every held set some state outside it is there."""
    some = 0
    for of_state in column:
        some |= of_state
    events = some
    for cover in held:
        outside = 0
        for q, of_state in enumerate(column):
            if of_state and not cover >> q & 1:
                outside |= of_state
                if outside == some:
                    break
        events &= outside
        if not events:
            break
    return events


def within(x, y):
    return x & ~y == 0


class Outcome:
    def __init__(self, verdict, queries, finds, length, items):
        self.verdict, self.queries, self.finds = verdict, queries, finds
        self.length, self.items = length, items

    def lines(self):
        yield f"verdict {self.verdict}"
        yield f"queries {self.queries}"
        yield f"finds {self.finds}"
        if self.verdict != "NEVER":
            yield f"length {self.length}"
        for item in self.items:
            yield f"{'event' if self.verdict == 'MATCHES' else 'held'} {item}"


class Search:
    """The backward search over a table of 1,024 finds. A find has its set, its origin, its move and its length. Each
    method is one rule, so that a mistake is one method replaced."""

    def run(self, pattern):
        self.pattern = pattern
        self.table, self.held = [(pattern.finals, 0, 0, 0)], [pattern.finals]
        self.row, self.queries = 0, 0
        outcome = self.opening()
        while outcome is None:
            outcome = self.query()
        return outcome

    def opening(self):
        return self.ended("MATCHES", 0, []) if self.is_goal(self.pattern.finals) else None

    def query(self):
        self.queries += 1
        states, _, _, length = self.table[self.row]
        column = columns(self.pattern, states)
        events = self.new_events(column)
        if not events:
            self.row += 1
            return self.ended("NEVER", None, self.certificate()) if self.row == len(self.table) else None
        event = self.chosen(events)
        find = set_at(column, event)
        if self.is_full(find):
            return self.ended("FULL", length, [])
        self.table.append((find, self.row, event, length + 1))
        self.put(find)
        if self.is_found(find):
            sequence = self.sequence()
            return self.ended("MATCHES", len(sequence), sequence)

    def ended(self, verdict, length, items):
        return Outcome(verdict, self.queries, len(self.table), length, items)

    def is_goal(self, states):
        return states >> self.pattern.start & 1 == 1

    def is_found(self, find):
        return self.is_goal(find)

    def new_events(self, column):
        return uncovered_events(column, self.held)

    def chosen(self, events):
        return (events & -events).bit_length() - 1

    def is_full(self, find):
        return len(self.table) == FINDS

    def put(self, find):
        self.held = [states for states in self.held if not within(states, find)] + [find]

    def sequence(self):
        events, (_, origin, event, length) = [], self.table[-1]
        while length > 0:
            events.append(event)
            _, origin, event, length = self.table[origin]
        return events

    def certificate(self):
        return [find[0] for find in self.table if find[0] in self.held]


def search(pattern):
    return Search().run(pattern)


def set_at(column, event):
    return sum(1 << q for q, of_state in enumerate(column) if of_state >> event & 1)


def text_of(data, rules=Search):
    """What is to be printed of a file."""
    try:
        lines = rules().run(read_file(data)).lines()
    except Refused as refusal:
        number, layer, place = refusal.args
        lines = [f"refused {number} {layer} {place}"]
    return text_from(lines)


def text_from(lines):
    return "".join(line + "\n" for line in lines)


# The audit: what was found, held to the meaning of patterns and not to the search


def value_of(pattern, i, event, states):
    op, left, right = pattern.rows[i]
    if op == STATE:
        return states >> left & 1 == 1
    if op == SIGNAL:
        return event >> left & 1 == 1
    if op == AND:
        return value_of(pattern, left, event, states) and value_of(pattern, right, event, states)
    if op == OR:
        return value_of(pattern, left, event, states) or value_of(pattern, right, event, states)
    if op == NOT:
        return not value_of(pattern, left, event, states)
    return op == TRUE


def steps(pattern, here, event, there):
    """Whether a step leads from the set `here` to the set `there` under the event."""
    return all(value_of(pattern, root, event, there) for q, root in enumerate(pattern.roots) if here >> q & 1)


def shortest(pattern):
    """The length of a shortest accepted sequence, by walking forward over all sets; None if there is none."""
    sets = range(1 << len(pattern.roots))
    ahead, seen, length = {1 << pattern.start}, {1 << pattern.start}, 0
    while ahead:
        if any(within(here, pattern.finals) for here in ahead):
            return length
        ahead = {
            there
            for there in sets
            if there not in seen
            and any(steps(pattern, here, a, there) for here in ahead for a in range(1 << pattern.signals))
        }
        seen |= ahead
        length += 1
    return None


def audit(pattern, outcome):
    """Small patterns: the verdict and the length. All: the sequence is accepted, and the certificate inductive."""
    if len(pattern.roots) <= 5 and pattern.signals <= 3:
        length = shortest(pattern)
        assert (outcome.verdict == "NEVER") == (length is None)
        assert outcome.verdict != "MATCHES" or outcome.length == length
    if outcome.verdict == "MATCHES":
        states = pattern.finals
        for event in reversed(outcome.items):
            states = set_at(columns(pattern, states), event)
        assert states >> pattern.start & 1
    if outcome.verdict == "NEVER":
        held = outcome.items
        assert any(within(pattern.finals, h) for h in held)
        assert not any(h >> pattern.start & 1 for h in held)
        assert not any(x != y and within(x, y) for x in held for y in held)
        assert not any(uncovered_events(columns(pattern, h), held) for h in held)
    assert outcome.queries <= 2 * FINDS - 1


# Likely mistakes: each must change what is printed of some case


class DroppedRowsPassedOver(Search):
    def new_events(self, column):
        return super().new_events(column) if self.table[self.row][0] in self.held else 0


class OnlyEqualSetsCovered(Search):
    def new_events(self, column):
        events = range(1 << self.pattern.signals)
        return sum(1 << a for a in events if set_at(column, a) not in self.held)


class EmptyFinalSetRejects(Search):
    def opening(self):
        return super().opening() if self.pattern.finals else self.ended("NEVER", None, [])


class GreatestMove(Search):
    def chosen(self, events):
        return events.bit_length() - 1


class GoalAskedOfOrigin(Search):
    def is_found(self, find):
        return self.is_goal(self.table[self.row][0])


class GoalBeforeFullTable(Search):
    def is_full(self, find):
        return super().is_full(find) and not self.is_goal(find)


class OneRowLess(Search):
    def is_full(self, find):
        return len(self.table) == FINDS - 1


class OneRowMore(Search):
    def is_full(self, find):
        return len(self.table) == FINDS + 1


class NothingDropped(Search):
    def put(self, find):
        self.held = self.held + [find]


class NothingPut(Search):
    def put(self, find):
        pass


class SequenceReversed(Search):
    def sequence(self):
        return super().sequence()[::-1]


class SequenceWithFirstRow(Search):
    def sequence(self):
        return super().sequence() + [0]


class CertificateOfAllRows(Search):
    def certificate(self):
        return [find[0] for find in self.table]


MISTAKES = Search.__subclasses__()


# Making patterns


class Maker:
    """Rows one by one; each method answers the new row's number."""

    def __init__(self):
        self.rows = []

    def add(self, op, left=0, right=0):
        self.rows.append((op, left, right))
        return len(self.rows) - 1

    def all_of(self, parts):
        parts = list(parts)
        row = parts[0] if parts else self.add(TRUE)
        for part in parts[1:]:
            row = self.add(AND, row, part)
        return row

    def exactly(self, signals, event):
        """The event is this one."""
        rows = []
        for i in range(signals):
            row = self.add(SIGNAL, i)
            rows.append(row if event >> i & 1 else self.add(NOT, row))
        return self.all_of(rows)


class Chance:
    """Numbers as if by chance, the same each time (xorshift, 64 bits)."""

    def __init__(self, seed):
        self.state = seed

    def below(self, limit):
        x = self.state
        x ^= x << 13 & (1 << 64) - 1
        x ^= x >> 7
        x ^= x << 17 & (1 << 64) - 1
        self.state = x
        return (x >> 11) % limit


LATCH = Pattern(1, 0, 0, [2, 0], [(SIGNAL, 0, 0), (STATE, 1, 0), (AND, 0, 1)])
STUCK = Pattern(1, 0, 0, [2], [(SIGNAL, 0, 0), (STATE, 0, 0), (AND, 0, 1)])

# What LATCH accepts and LATCH does not: states 0 and 1 are LATCH's, 2 and 3 its duals, and 4 asks for 0 and for 2.
LATCH_TWICE = Pattern(
    1,
    4,
    0b01100,
    [2, 0, 8, 4, 9],
    LATCH.rows
    + [(SIGNAL, 0, 0), (NOT, 3, 0), (FALSE, 0, 0), (STATE, 3, 0), (FALSE, 0, 0), (OR, 4, 6), (AND, 2, 8)],
)


def chain(signals, events):
    """Each state asks for its event now and the next state then; the last asks for its event alone."""
    maker, roots = Maker(), []
    for q, event in enumerate(events):
        row = maker.exactly(signals, event)
        if q + 1 < len(events):
            row = maker.add(AND, row, maker.add(STATE, q + 1))
        roots.append(row)
    return Pattern(signals, 0, 0, roots, maker.rows)


def rings(sizes, ends):
    """State 0 asks for the heads of some rings of states; a ring is at its end after `end` events, and each turn on."""
    maker, roots, finals, at, heads = Maker(), [0], 0, 1, []
    for size, end in zip(sizes, ends):
        heads.append(maker.add(STATE, at))
        roots += [maker.add(STATE, at + (i + 1) % size) for i in range(size)]
        finals |= 1 << at + end
        at += size
    roots[0] = maker.all_of(heads)
    return Pattern(0, 0, finals, roots, maker.rows)


def counter(bits, goal):
    """Worked back it counts up from 0: states 2i and 2i + 1 say that bit i is 1 and 0. The start state asks for the
    count `goal`, or for nothing that comes."""
    maker, roots = Maker(), []
    ones = [maker.add(STATE, 2 * i) for i in range(bits)]
    zeros = [maker.add(STATE, 2 * i + 1) for i in range(bits)]
    carry, still = maker.add(TRUE), maker.add(FALSE)
    for one, zero in zip(ones, zeros):
        for kept, turned in ((one, zero), (zero, one)):
            roots.append(maker.add(OR, maker.add(AND, kept, still), maker.add(AND, turned, carry)))
        carry, still = maker.add(AND, carry, one), maker.add(OR, still, zero)
    if goal is None:
        roots.append(maker.add(FALSE))
    else:
        roots.append(maker.all_of(ones[i] if goal >> i & 1 else zeros[i] for i in range(bits)))
    return Pattern(0, 2 * bits, sum(2 << 2 * i for i in range(bits)), roots, maker.rows)


def registers(signals, depth, goal=None):
    """Worked back it keeps the last `depth` events, a state for each signal on and one for each signal off; the start
    state asks for every signal on in all of them, or for nothing that comes."""
    maker, roots = Maker(), []
    for i in range(signals):
        on = maker.add(SIGNAL, i)
        roots += [on, maker.add(NOT, on)]
    for q in range(2 * signals * (depth - 1)):
        roots.append(maker.add(STATE, q))
    if goal is None:
        roots.append(maker.add(FALSE))
    else:
        roots.append(maker.all_of(maker.add(STATE, 2 * i) for i in range(signals * depth)))
    return Pattern(signals, 2 * signals * depth, 0, roots, maker.rows)


def by_chance(chance, states, signals, count):
    """Rows by chance, NOT only over rows that are free of states, each root one of the later rows."""
    rows, free = [], []
    for i in range(count):
        op = (STATE, STATE, SIGNAL, AND, AND, OR, OR, NOT, NOT, TRUE, FALSE)[chance.below(11)]
        if op in (TRUE, FALSE) and chance.below(4):
            op = STATE
        known = [j for j in range(i) if free[j]]
        if op == SIGNAL and signals == 0 or op in (AND, OR) and i == 0 or op == NOT and not known:
            op = STATE
        left = right = 0
        if op == STATE:
            left = chance.below(states)
        elif op == SIGNAL:
            left = chance.below(signals)
        elif op in (AND, OR):
            left, right = chance.below(i), i - 1 - chance.below(min(i, 4))
        elif op == NOT:
            left = known[chance.below(len(known))]
        rows.append((op, left, right))
        free.append(op in (TRUE, FALSE, SIGNAL, NOT) or op in (AND, OR) and free[left] and free[right])
    roots = [count - 1 - chance.below((count + 1) // 2) for _ in range(states)]
    finals = sum(1 << q for q in range(states) if chance.below(3) == 0)
    return Pattern(signals, chance.below(states), finals, roots, rows)


def largest(chance):
    """64 states, 1,024 rows: 13 blocks. Conditions of one signal, states by chance, then ANDs and ORs over all that."""
    maker = Maker()
    for i in range(3):
        maker.add(SIGNAL, i)
    for i in range(3):
        maker.add(NOT, i)
    for q in range(64):
        maker.add(STATE, q)
    while len(maker.rows) < 1024:
        i = len(maker.rows)
        maker.add(AND if chance.below(5) < 3 else OR, chance.below(min(i, 70)), i - 1 - chance.below(min(i, 60)))
    roots = [1023 - chance.below(600) for _ in range(64)]
    return Pattern(3, chance.below(64), sum(1 << q for q in range(64) if chance.below(3)), roots, maker.rows)


# The cases


class Cases:
    def __init__(self):
        self.files, self.texts = {}, {}

    def add(self, name, data, text):
        assert name not in self.files
        self.files[name], self.texts[name] = data, text

    def pattern(self, name, pattern, expected=None):
        data = file_of(pattern)
        outcome = search(read_file(data))
        audit(pattern, outcome)
        self.add(name, data, text_from(outcome.lines()))
        if expected is not None:
            found = (outcome.verdict, outcome.queries, outcome.finds, outcome.length)
            assert all(e is None or e == f for e, f in zip(expected, found)), (name, found)

    def refused(self, name, data, number, place=0):
        """The layer and the question follow from the number, so a case says what it is to be."""
        layer = "block" if 20 <= number <= 24 else "record" if number in (25, 26) else "table"
        text = text_of(data)
        assert text == f"refused {number} {layer} {place}\n", (name, text)
        self.add(f"refused-{number:02}-{name}", data, text)


def worked_patterns(cases):
    cases.pattern("latch", LATCH, ("MATCHES", 3, 3, 2))
    cases.pattern("stuck", STUCK, ("NEVER", 1, 1, None))
    cases.pattern("latch-without-latch", LATCH_TWICE, ("NEVER", 5, 3, None))
    final = LATCH.copy()
    final.finals = 1
    cases.pattern("start-final", final, ("MATCHES", 0, 1, 0))
    cases.pattern("start-true", Pattern(0, 0, 0, [0], [(TRUE, 0, 0)]), ("MATCHES", 1, 2, 1))
    cases.pattern("start-false", Pattern(0, 0, 0, [0], [(FALSE, 0, 0)]), ("NEVER", 1, 1, None))
    cases.pattern("not-of-deep-rows", deep_not(), ("MATCHES", None, None, 1))


def deep_not():
    """NOT over AND of a signal and a state-free OR, which itself holds a NOT."""
    rows = [(SIGNAL, 0, 0), (SIGNAL, 1, 0), (NOT, 1, 0), (TRUE, 0, 0), (OR, 2, 3), (AND, 0, 4), (NOT, 5, 0)]
    return Pattern(2, 0, 0, [7], rows + [(AND, 6, 1)])


def sequences_of_each_length(cases):
    chance = Chance(0x5EED_0001)
    cases.pattern("length-00", Pattern(2, 1, 0b10, [0, 0], [(FALSE, 0, 0)]), ("MATCHES", 0, 1, 0))
    for length in range(1, 21):
        events = [chance.below(4) for _ in range(length)]
        cases.pattern(f"length-{length:02}", chain(2, events), ("MATCHES", None, None, length))
    for sizes, ends, length in (
        ((2, 3), (1, 2), 6),
        ((2, 5), (0, 3), 9),
        ((3, 5), (1, 3), 14),
        ((4, 5), (2, 3), 19),
        ((3, 7), (1, 5), 20),
        ((2, 3, 5), (1, 0, 3), 4),
        ((5, 7), (4, 5), 20),
    ):
        name = "rings-" + "-".join(map(str, sizes)) + "-ends-" + "-".join(map(str, ends))
        cases.pattern(name, rings(sizes, ends), ("MATCHES", None, None, length))
    for sizes, ends in (((2, 4), (0, 1)), ((4, 6), (1, 2)), ((6, 9), (2, 4))):
        name = "rings-" + "-".join(map(str, sizes)) + "-ends-" + "-".join(map(str, ends))
        cases.pattern(name, rings(sizes, ends), ("NEVER", None, None, None))


def table_edges(cases):
    """Counters meet the end of the table of finds to the row."""
    cases.pattern("counter-never-4", counter(4, None), ("NEVER", 31, 16, None))
    cases.pattern("counter-never-1024-finds", counter(10, None), ("NEVER", 2047, 1024, None))
    cases.pattern("counter-matches-in-row-63", counter(6, 62), ("MATCHES", None, 64, 63))
    cases.pattern("counter-matches-in-the-last-row", counter(10, 1022), ("MATCHES", 2045, 1024, 1023))
    cases.pattern("counter-full-at-a-goal", counter(11, 1023), ("FULL", 2047, 1024, 1023))
    cases.pattern("counter-full", counter(11, None), ("FULL", 2047, 1024, 1023))
    cases.pattern("registers-3-never", registers(3, 1), ("NEVER", None, 9, None))
    cases.pattern("registers-4-4-never", registers(4, 2), ("NEVER", None, 273, None))
    cases.pattern("registers-3-3-3-never", registers(3, 3), ("NEVER", None, 585, None))
    cases.pattern("registers-8-never", registers(8, 1), ("NEVER", None, 257, None))
    cases.pattern("registers-4-4-matches", registers(4, 2, goal=True), ("MATCHES", None, None, 3))
    cases.pattern("registers-5-5-full", registers(5, 2), ("FULL", None, 1024, 1))
    cases.pattern("registers-11-full", registers(11, 1), ("FULL", 1024, 1024, 0))


def pattern_edges(cases):
    """The most states, rows and signals, and the fewest."""
    chance = Chance(0x5EED_0002)
    cases.pattern("states-64", chain(1, [chance.below(2) for _ in range(64)]), ("MATCHES", None, None, 64))
    ends = Pattern(1, 63, (1 << 64) - 1, [q // 2 for q in range(64)], [(STATE, 63 - i, 0) for i in range(32)])
    cases.pattern("states-64-all-final", ends, ("MATCHES", 0, 1, 0))
    ends = ends.copy()
    ends.finals = (1 << 63) - 1
    cases.pattern("states-64-last-starts", ends, ("MATCHES", None, None, 1))
    wanted = {"MATCHES": 2, "NEVER": 1}
    while any(wanted.values()):
        pattern = largest(chance)
        outcome = search(pattern)
        deep = outcome.queries >= 6 and (outcome.length or 3) >= 3
        if deep and wanted.get(outcome.verdict, 0):
            cases.pattern(f"rows-1024-{outcome.verdict.lower()}-{wanted[outcome.verdict]}", pattern)
            wanted[outcome.verdict] -= 1
    cases.pattern("signals-16", chain(16, [0x8000, 1, 0xFFFF]), ("MATCHES", None, None, 3))
    cases.pattern("signals-16-first-event", chain(16, [0, 0xFFFE]), ("MATCHES", None, None, 2))
    cases.pattern("signals-16-never", never_16(), ("NEVER", None, None, None))
    cases.pattern("signals-0", chain(0, [0, 0, 0]), ("MATCHES", None, None, 3))


def never_16():
    """States 1 to 4 ask for signals 15 to 12 on with the rest free; the start asks for a signal on and off."""
    rows = [(SIGNAL, 12 + i, 0) for i in range(4)] + [(NOT, 3, 0), (AND, 3, 4), (STATE, 1, 0), (AND, 5, 6)]
    return Pattern(16, 0, 0, [7, 3, 2, 1, 0], rows)


def patterns_by_chance(cases):
    """Small patterns and larger ones, kept where verdict, counts and length are new together."""
    chance, seen, kept = Chance(0x5EED_0003), set(), 0
    while kept < 50:
        pattern = by_chance(chance, 1 + chance.below(5), chance.below(4), 1 + chance.below(24))
        outcome = search(pattern)
        mark = (outcome.verdict, outcome.queries, outcome.finds, outcome.length)
        if mark not in seen:
            seen.add(mark)
            cases.pattern(f"chance-small-{kept:02}", pattern)
            kept += 1
    kept = 0
    while kept < 24:
        pattern = by_chance(chance, 6 + chance.below(30), 1 + chance.below(5), 40 + chance.below(160))
        outcome = search(pattern)
        mark = (outcome.verdict, outcome.queries, outcome.finds, outcome.length)
        if mark not in seen and outcome.queries >= 5:
            seen.add(mark)
            cases.pattern(f"chance-large-{kept:02}", pattern)
            kept += 1


def patterns_with_dropped_rows(cases):
    """Patterns whose sequence gets longer, or whose counts change, if rows that are no longer held are passed over."""
    chance, kept = Chance(0x5EED_0004), 0
    while kept < 4:
        pattern = by_chance(chance, 3 + chance.below(3), 1 + chance.below(3), 8 + chance.below(24))
        outcome, passed = search(pattern), DroppedRowsPassedOver().run(pattern)
        if outcome.verdict == passed.verdict == "MATCHES" and outcome.length < passed.length:
            cases.pattern(f"dropped-row-leads-on-{kept}", pattern)
            kept += 1


def edited(data, changes, block=None):
    """The data with some bytes changed; with a block's number, that block's check is made right again."""
    data = bytearray(data)
    for at, byte in changes.items():
        data[at] = byte
    if block is not None:
        data[BLOCK * block : BLOCK * (block + 1)] = sealed(bytes(data[BLOCK * block : BLOCK * (block + 1)]))
    return bytes(data)


def refused_blocks(cases, wide):
    latch = file_of(LATCH)
    cases.refused("length-0", b"", 20, 0)
    cases.refused("length-1", latch[:1], 20, 1)
    cases.refused("length-511", latch[:511], 20, 511)
    cases.refused("length-513", latch + b"\0", 20, 513)
    cases.refused("length-6655", wide[:6655], 20, 6655)
    cases.refused("length-6657", wide + b"\0", 20, 6657)
    cases.refused("length-7168", wide + latch, 20, 7168)
    last = 12 * BLOCK
    cases.refused("payload-byte", edited(latch, {20: 3}), 21, 0)
    cases.refused("check-low-byte", edited(latch, {508: latch[508] ^ 1}), 21, 0)
    cases.refused("check-high-byte", edited(latch, {511: 1}), 21, 0)
    cases.refused("bytes-exchanged", edited(latch, {20: latch[24], 24: latch[20]}), 21, 0)
    cases.refused("first-block", edited(wide, {507: wide[507] ^ 0x80}), 21, 0)
    cases.refused("block-6", edited(wide, {6 * BLOCK + 300: wide[6 * BLOCK + 300] ^ 2}), 21, 6)
    cases.refused("last-block", edited(wide, {last + 508: wide[last + 508] ^ 0x10}), 21, 12)
    cases.refused("first-block", edited(wide, {0: 1}, 0), 22, 0)
    cases.refused("high-byte", edited(latch, {1: 1}, 0), 22, 0)
    one, two = wide[BLOCK : 2 * BLOCK], wide[2 * BLOCK : 3 * BLOCK]
    cases.refused("exchanged-blocks", wide[:BLOCK] + two + one + wide[3 * BLOCK :], 22, 1)
    cases.refused("last-block", edited(wide, {last: 11}, 12), 22, 12)
    cases.refused("none-used", edited(latch, {2: 0}, 0), 23, 0)
    cases.refused("used-505", block_of(0, 505, bytes(PAYLOAD)), 23, 0)
    cases.refused("used-550", edited(latch, {3: 2}, 0), 23, 0)
    cases.refused("first-block-503", edited(wide, {2: 503 & 255}, 0), 23, 0)
    cases.refused("last-block-0", edited(wide, {last + 2: 0}, 12), 23, 12)
    cases.refused("last-block-505", edited(wide, {last + 2: 505 & 255, last + 3: 505 >> 8}, 12), 23, 12)
    used = 4 + number_at(latch, 2, 2)
    cases.refused("first-unused-byte", edited(latch, {used: 1}, 0), 24, 0)
    cases.refused("last-unused-byte", edited(latch, {507: 255}, 0), 24, 0)
    cases.refused("last-block", edited(wide, {last + 507: 1}, 12), 24, 12)


def with_payload(pattern, changes, tail=b""):
    """The file of the pattern's payload with some bytes changed and others behind it."""
    payload = bytearray(payload_of(pattern)) + tail
    for at, byte in changes.items():
        payload[at] = byte
    return b"".join(blocks_of(bytes(payload)))


def refused_records(cases):
    payload = payload_of(LATCH)
    cases.refused("one-byte", b"".join(blocks_of(payload[:1])), 25)
    cases.refused("15-bytes", b"".join(blocks_of(payload[:15])), 25)
    cases.refused("edition-0", with_payload(LATCH, {0: 0}), 25)
    cases.refused("edition-2", with_payload(LATCH, {0: 2}), 25)
    cases.refused("first-zero-byte", with_payload(LATCH, {14: 1}), 25)
    cases.refused("second-zero-byte", with_payload(LATCH, {15: 128}), 25)
    cases.refused("one-byte-less", b"".join(blocks_of(payload[:-1])), 26)
    cases.refused("one-byte-more", with_payload(LATCH, {}, b"\0"), 26)
    cases.refused("heading-alone", b"".join(blocks_of(payload[:16])), 26)
    cases.refused("one-state-more", with_payload(LATCH, {1: 3}), 26)
    cases.refused("one-row-less", with_payload(LATCH, {4: 2}), 26)
    cases.refused("row-count-high-byte", with_payload(LATCH, {5: 1}), 26)


def changed(pattern, **fields):
    pattern = pattern.copy()
    for name, value in fields.items():
        setattr(pattern, name, value)
    return pattern


def with_row(pattern, place, row):
    rows = list(pattern.rows)
    rows[place] = row
    return changed(pattern, rows=rows)


def refused_patterns(cases, wide):
    """Questions 1 to 6, each at the first and at the last place that it can have."""
    yes = [(TRUE, 0, 0)]

    def refuse(name, pattern, number, place=0):
        cases.refused(name, file_of(pattern), number, place)

    refuse("no-state", Pattern(1, 0, 0, [], yes), 1)
    refuse("states-65", Pattern(1, 0, 0, [0] * 65, yes), 1)
    refuse("states-255", Pattern(1, 0, 0, [0] * 255, yes), 1)
    refuse("signals-17", changed(LATCH, signals=17), 1)
    refuse("no-row", Pattern(1, 0, 0, [0], []), 1)
    refuse("rows-1025", Pattern(1, 0, 0, [0], yes * 1025), 1)
    refuse("start-2-of-2", changed(LATCH, start=2), 2)
    refuse("start-255", changed(LATCH, start=255), 2)
    refuse("final-2-of-2", changed(LATCH, finals=0b100), 2)
    refuse("final-63-of-63", Pattern(0, 0, 1 << 63, [0] * 63, yes), 2)
    refuse("first-state", changed(LATCH, roots=[3, 0]), 3, 0)
    refuse("last-state", changed(LATCH, roots=[2, 65535]), 3, 1)
    refuse("state-63", changed(wide, roots=wide.roots[:63] + [1024]), 3, 63)
    refuse("operation-7", with_row(LATCH, 0, (7, 0, 0)), 4, 0)
    refuse("operation-255-last-row", with_row(wide, 1023, (255, 0, 0)), 4, 1023)
    refuse("false-with-left", with_row(LATCH, 1, (FALSE, 1, 0)), 4, 1)
    refuse("false-with-right", with_row(LATCH, 1, (FALSE, 0, 256)), 4, 1)
    refuse("true-with-left", with_row(LATCH, 1, (TRUE, 256, 0)), 4, 1)
    refuse("true-with-right", with_row(LATCH, 1, (TRUE, 0, 1)), 4, 1)
    refuse("state-with-right", with_row(LATCH, 1, (STATE, 1, 1)), 4, 1)
    refuse("signal-with-right", with_row(LATCH, 0, (SIGNAL, 0, 1)), 4, 0)
    refuse("not-with-right", with_row(LATCH, 2, (NOT, 0, 1)), 4, 2)
    at = len(payload_of(LATCH))
    cases.refused("zero-byte-first-row", with_payload(LATCH, {at - 17: 1}), 4, 0)
    cases.refused("zero-byte-last-row", with_payload(LATCH, {at - 5: 128}), 4, 2)
    refuse("first-row-and", with_row(LATCH, 0, (AND, 0, 0)), 5, 0)
    refuse("state-2-of-2", with_row(LATCH, 1, (STATE, 2, 0)), 5, 1)
    refuse("signal-1-of-1", with_row(LATCH, 0, (SIGNAL, 1, 0)), 5, 0)
    refuse("signal-0-of-0", changed(LATCH, signals=0), 5, 0)
    refuse("and-left-is-itself", with_row(LATCH, 2, (AND, 2, 0)), 5, 2)
    refuse("and-right-is-later", with_row(LATCH, 1, (AND, 0, 2)), 5, 1)
    refuse("or-left-is-no-row", with_row(LATCH, 2, (OR, 65535, 0)), 5, 2)
    refuse("or-right-is-itself", with_row(LATCH, 2, (OR, 0, 2)), 5, 2)
    refuse("not-of-itself", with_row(LATCH, 2, (NOT, 2, 0)), 5, 2)
    refuse("last-row", with_row(wide, 1023, (OR, 0, 1023)), 5, 1023)
    refuse("second-row", Pattern(0, 0, 0, [1], [(STATE, 0, 0), (NOT, 0, 0)]), 6, 1)
    refuse("last-row", with_row(wide, 1023, (NOT, 6, 0)), 6, 1023)
    below = [(SIGNAL, 0, 0), (STATE, 0, 0)]
    for name, op, left, right in (
        ("through-and-left", AND, 1, 0),
        ("through-and-right", AND, 0, 1),
        ("through-or-left", OR, 1, 0),
        ("through-or-right", OR, 0, 1),
    ):
        refuse(name, Pattern(1, 0, 0, [0], below + [(op, left, right), (NOT, 2, 0)]), 6, 3)
    deep = below + [(NOT, 0, 0), (OR, 2, 1), (AND, 3, 2), (OR, 0, 4), (NOT, 2, 0), (NOT, 5, 0)]
    refuse("through-many", Pattern(1, 0, 0, [0], deep), 6, 7)


def refused_twice(cases, wide):
    """Two faults at once: the first question that is asked decides."""
    latch = file_of(LATCH)
    cases.refused("before-21", edited(latch, {20: 9})[:500], 20, 500)
    cases.refused("before-22", edited(latch, {0: 1}), 21, 0)
    cases.refused("before-23", edited(latch, {0: 1, 2: 0}, 0), 22, 0)
    cases.refused("used-0-before-24", edited(latch, {2: 0, 507: 1}, 0), 23, 0)
    cases.refused("before-25", edited(latch, {4: 2, 507: 1}, 0), 24, 0)
    cases.refused("before-26", with_payload(LATCH, {0: 2, 1: 9}), 25)
    cases.refused("before-1", with_payload(LATCH, {1: 0}), 26)
    cases.refused("before-2", file_of(changed(LATCH, signals=17, start=9)), 1)
    cases.refused("before-3", file_of(changed(LATCH, start=9, roots=[9, 9])), 2)
    cases.refused("both-states", file_of(changed(LATCH, roots=[9, 9])), 3, 0)
    cases.refused("before-4", file_of(with_row(changed(LATCH, roots=[2, 9]), 0, (9, 0, 0))), 3, 1)
    cases.refused("before-5-in-the-row", file_of(with_row(LATCH, 1, (STATE, 9, 9))), 4, 1)
    cases.refused("row-0-before-4-in-row-1", file_of(with_row(with_row(LATCH, 0, (SIGNAL, 9, 0)), 1, (9, 0, 0))), 5, 0)
    rows = [(STATE, 0, 0), (NOT, 0, 0), (9, 0, 0)]
    cases.refused("row-1-before-4-in-row-2", file_of(Pattern(0, 0, 0, [1], rows)), 6, 1)
    rows = [(STATE, 0, 0), (NOT, 0, 1)]
    cases.refused("before-6-in-the-row", file_of(Pattern(0, 0, 0, [1], rows)), 4, 1)
    # the first block is asked everything before the second is asked anything
    both = edited(wide, {2: 0}, 0)
    cases.refused("block-0-before-21-in-block-1", edited(both, {600: both[600] ^ 1}), 23, 0)
    both = edited(wide, {BLOCK: 5}, 1)
    cases.refused("block-1-before-21-in-block-12", edited(both, {6655: 1}), 22, 1)


def all_cases():
    cases = Cases()
    worked_patterns(cases)
    sequences_of_each_length(cases)
    table_edges(cases)
    pattern_edges(cases)
    patterns_by_chance(cases)
    patterns_with_dropped_rows(cases)
    wide = read_file(cases.files["rows-1024-matches-1"])
    wide_file = file_of(wide)
    assert len(wide_file) == LONGEST
    refused_blocks(cases, wide_file)
    refused_records(cases)
    refused_patterns(cases, wide)
    refused_twice(cases, wide_file)
    return cases.files, cases.texts


def main():
    if len(sys.argv) > 1:
        for name in sys.argv[1:]:
            print(f"case {Path(name).name}\n{text_of(Path(name).read_bytes())}", end="")
        return
    files, texts = all_cases()
    for mistake in MISTAKES:
        noticed = next((name for name in files if text_of(files[name], mistake) != texts[name]), None)
        assert noticed is not None, mistake
        print(f"{mistake.__name__} is noticed at {noticed}", file=sys.stderr)
    data = HERE / "data"
    data.mkdir(exist_ok=True)
    for old in data.iterdir():
        old.unlink()
    for name, content in files.items():
        (data / name).write_bytes(content)
    (HERE / "args").write_text("".join(name + "\n" for name in files))
    (HERE / "stdout").write_text("".join(f"case {name}\n{texts[name]}" for name in files))
    print(f"{len(files)} files, {sum(map(len, files.values()))} bytes", file=sys.stderr)


if __name__ == "__main__":
    main()
