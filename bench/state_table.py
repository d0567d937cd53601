#!/usr/bin/env python3
"""Every row of document 01's state table, with the outcome that the paper prescribes.

    bench/state_table.py FOLDER      writes FOLDER/stdin (the rows) and FOLDER/stdout (the outcomes)

Written from document 01 alone, as tables: ALLOWED is the paper's 'Enlistments it may have',
EVENTS its 'The events' for an enlistment, ABORT, DECIDE and PHASE_ONE what follows from them.
A row is `TABLE | LENT | EVENT`, an outcome `STEP | TABLE | LOG`, where

    TABLE  capacity, used, then `T=STATE` for each transaction place and
           `KmS:N:R:H` for each enlistment place: kind P, V or D, mark y or n, state, number, RM, and its
           holder, which is the place of its transaction, counted from 1. An empty place is `0=0` or `-`;
           empty ones behind the last held place aren't written
    LENT   length of the lent log; before the step each of its bytes is EE
    EVENT  a line of the trace program
    STEP   what the trace program prints: refusal, used, count of signals, signals
    LOG    `same`, or `AT:` and the bytes from the first to the last changed one, in hex
"""
import itertools
import sys

FREED, DONE = "freed", 10

# What the table holds: for each transaction state the (kinds, states) it may have,
# and what must be among them.
ALLOWED = {
    1: [("PVD", 1)],
    2: [("P", 2), ("VD", 1)],
    3: [("VD", 3), ("VD", 4), ("D", 5)],
    4: [("VD", 6)],
    5: [("VD", 7), ("D", 8), ("VD", 10)],
    6: [("PVD", 9), ("PVD", 10)],
}
AT_LEAST_ONE_IN = {1: None, 2: [2], 3: [3], 4: [6], 5: [7, 8], 6: [9]}

# The events about an enlistment: (kinds, states named for it, what it becomes, what follows).
EVENTS = {
    "zdone": [("PVD", [2], FREED, "start phase one, if no P is left")],
    "vote prepared": [("PVD", [3], 4, "decide, if no Preparing is left")],
    "vote readonly": [("PVD", [3], FREED, "decide, if no Preparing is left")],
    "vote aborted": [("PVD", [3], DONE, "abort")],
    "sp committed": [("PVD", [6], FREED, "app-committed")],
    "sp aborted": [("PVD", [6], FREED, "app-aborted")],
    "sp indoubt": [("PVD", [6], FREED, "app-in-doubt")],
    "ack": [("PVD", [7, 9], DONE, "")],
    "lost": [
        ("PVD", [1, 2, 3], DONE, "abort"),
        ("V", [4], DONE, "abort"),
        ("D", [4], 5, ""),
        ("PVD", [6], FREED, "app-in-doubt"),
        ("V", [7], DONE, ""),
        ("D", [7], 8, ""),
        ("PVD", [9], DONE, ""),
    ],
}
# State: (what it becomes, signal to it).
ABORT = {1: (9, "abort"), 2: (9, "abort"), 3: (9, "abort"), 4: (9, "abort"), 5: (DONE, None), DONE: (DONE, None)}
DECIDE = {4: (7, "commit"), 5: (8, None)}
PHASE_ZERO_P = (2, "zero")
PHASE_ONE = {"one held, marked yes": (4, 6, "single"), "else": (3, 3, "prepare")}

# Transaction states in which an event about a transaction is done.
NAMED_FOR = {"enlist": [1, 2], "commit": [1], "rollback": [1, 2]}


class E:
    """A held enlistment place."""

    def __init__(self, kind, mark, state, number, rm, t):
        self.kind, self.mark, self.state, self.number, self.rm, self.t = kind, mark, state, number, rm, t

    def copy(self):
        return E(self.kind, self.mark, self.state, self.number, self.rm, self.t)

    def text(self, live):
        """A transaction that isn't live has no place: its number stands for an empty one."""
        holder = live.index(self.t) + 1 if self.t in live else self.t
        return f"{self.kind}{self.mark}{self.state}:{self.number}:{self.rm}:{holder}"


class Table:
    """Places are lists that end with the last held one: transactions (T, state), enlistments E or None."""

    def __init__(self, transactions, enlistments, capacity=300, used=60):
        self.transactions, self.enlistments = list(transactions), list(enlistments)
        self.capacity, self.used = capacity, used

    def copy(self):
        return Table(self.transactions, [e and e.copy() for e in self.enlistments], self.capacity, self.used)

    def __str__(self):
        transactions, enlistments = list(self.transactions), list(self.enlistments)
        while transactions and transactions[-1] == (0, 0):
            transactions.pop()
        while enlistments and enlistments[-1] is None:
            enlistments.pop()
        words = [str(self.capacity), str(self.used)]
        words += [f"{t}={state}" for t, state in transactions]
        live = [t for t, _ in transactions]
        words += [e.text(live) if e else "-" for e in enlistments]
        return " ".join(words)

    def state(self, t):
        return next((state for live, state in self.transactions if live == t and live != 0), None)

    def set_state(self, t, state):
        self.transactions = [(live, state if live == t else s) for live, s in self.transactions]

    def held(self, t=None):
        return [e for e in self.enlistments if e and (t is None or e.t == t)]

    def number(self, number):
        return next((e for e in self.held() if e.number == number), None)

    def free(self, e):
        self.enlistments = [None if place is e else place for place in self.enlistments]

    def is_open(self, t):
        return self.state(t) == 5 and any(e.kind == "D" for e in self.held(t))

    def open(self):
        return sum(self.is_open(t) for t, _ in self.transactions if t)


def is_sound(table):
    live = [t for t, state in table.transactions if (t, state) != (0, 0)]
    numbers = [e.number for e in table.held()]
    if 0 in live or 0 in numbers or len(set(live)) < len(live) or len(set(numbers)) < len(numbers):
        return False
    if any(state not in ALLOWED for t, state in table.transactions if t):
        return False
    for e in table.held():
        if e.rm == 0 or e.t not in live or (e.kind == "P" and e.mark != "n"):
            return False
    for t in live:
        held, state = table.held(t), table.state(t)
        if not all(any(e.kind in kinds and e.state == s for kinds, s in ALLOWED[state]) for e in held):
            return False
        needed = AT_LEAST_ONE_IN[state]
        if needed and not any(e.state in needed for e in held):
            return False
        if state == 4 and (len(held) != 1 or held[0].mark != "y"):
            return False
        managers = [e.rm for e in held if e.kind == "D"]
        if len(set(managers)) < len(managers) or len(held) > 16:
            return False
    return 8 <= table.used and table.used + 18 * table.open() <= table.capacity <= 65536


def identifier(last):
    return bytes(15) + bytes([last])


class Step:
    """One accepted event: the table as it becomes, signals by enlistment and of the application, bytes appended."""

    def __init__(self, table):
        self.table, self.signals, self.application, self.bytes = table, [], [], b""

    def signal(self, name, e):
        self.signals.append((e.number, name))

    def end(self, transactions):
        """These transactions end, by ascending identifier; an open one's forget record is appended."""
        for t in sorted(transactions):
            if self.table.is_open(t):
                self.bytes += b"\x02\x00" + identifier(t)
                self.table.used += 18
            for e in self.table.held(t):
                self.table.free(e)
            self.table.transactions = [(0, 0) if live == t else (live, s) for live, s in self.table.transactions]

    def end_if_done(self, transactions):
        """After a decision places stay held until all of the transaction's enlistments are Done."""
        decided = [t for t in transactions if self.table.state(t) in (5, 6)]
        self.end([t for t in decided if all(e.state == DONE for e in self.table.held(t))])

    def abort(self, t):
        for e in self.table.held(t):
            e.state, name = ABORT[e.state]
            if name:
                self.signal(name, e)
        self.application.append("app-aborted")
        self.table.set_state(t, 6)

    def decide(self, t):
        held = self.table.held(t)
        durable = sorted((e.number, e.rm) for e in held if e.kind == "D")
        n = len(durable)
        if not held:
            return self.app_ends(t, "app-committed")
        if n and self.table.capacity - self.table.used < 18 + 20 * n + 18 * (1 + self.table.open()):
            return self.abort(t)
        if n:
            self.bytes += b"\x01" + bytes([n]) + identifier(t)
            for number, rm in durable:
                self.bytes += identifier(rm) + number.to_bytes(4, "little")
            self.table.used += 18 + 20 * n
        for e in held:
            e.state, name = DECIDE[e.state]
            if name:
                self.signal(name, e)
        self.application.append("app-committed")
        self.table.set_state(t, 5)

    def start_phase_one(self, t):
        held = self.table.held(t)
        if not held:
            return self.app_ends(t, "app-committed")
        lone = len(held) == 1 and held[0].mark == "y"
        state, becomes, name = PHASE_ONE["one held, marked yes" if lone else "else"]
        self.table.set_state(t, state)
        for e in held:
            e.state = becomes
            self.signal(name, e)

    def app_ends(self, t, name):
        self.application.append(name)
        self.end([t])

    def follow(self, t, follows):
        held = self.table.held(t)
        if follows == "start phase one, if no P is left":
            if not any(e.kind == "P" for e in held):
                self.start_phase_one(t)
        elif follows == "decide, if no Preparing is left":
            if not any(e.state == 3 for e in held):
                self.decide(t)
        elif follows == "abort":
            self.abort(t)
        elif follows:
            self.app_ends(t, follows)
        self.end_if_done([t])


def reaction(e, event):
    for kinds, states, becomes, follows in EVENTS[event]:
        if e.kind in kinds and e.state in states:
            return becomes, follows
    return None


def waiting(table, rm):
    return [e for e in table.held() if e.kind == "D" and e.rm == rm and e.state != DONE]


def refusal(table, lent, words):
    """The refusal number by the paper's order, or 0."""
    if not is_sound(table):
        return 15
    if lent != table.capacity:
        return 12
    word = words[0]
    named = [int(w) for w in words[1:] if w.isdigit()]
    if 0 in named:
        return 1
    if word in ("enlist", "commit", "rollback") and table.state(named[0]) is None:
        return 2
    if word in ("zdone", "vote", "sp", "ack", "lost") and table.number(named[0]) is None:
        return 3
    if word == "begin" and table.state(named[0]) is not None:
        return 4
    if word in NAMED_FOR and table.state(named[0]) not in NAMED_FOR[word]:
        return 6
    if word in ("zdone", "vote", "sp", "ack", "lost"):
        return 0 if reaction(table.number(named[0]), event_of(words)) else 7
    if word == "enlist":
        t, number, rm = named
        held = table.held(t)
        if table.number(number) or (words[4] == "durable" and any(e.kind == "D" and e.rm == rm for e in held)):
            return 5
        if len(table.held()) == 128 or len(held) == 16:
            return 8
    if word == "begin" and sum(t != 0 for t, _ in table.transactions) == 32:
        return 8
    if word == "ask" and table.state(named[0]) in (1, 2, 3, 4, 5):
        if not any(e.t == named[0] for e in waiting(table, named[1])):
            return 9
    if word == "reenlisted" and any(e.state != 8 for e in waiting(table, named[0])):
        return 10
    return 0


def event_of(words):
    return " ".join([words[0]] + words[2:])


def accept(step, words):
    table, word = step.table, words[0]
    named = [int(w) for w in words[1:] if w.isdigit()]
    if word == "begin":
        places = table.transactions + [(0, 0)]
        places[places.index((0, 0))] = (named[0], 1)
        table.transactions = places
    elif word == "enlist":
        t, number, rm = named
        kind = {"zero": "P", "volatile": "V", "durable": "D"}[words[4]]
        mark = "n" if kind == "P" or words[5:] == ["twophase"] else "y"
        e = E(kind, mark, 1, number, rm, t)
        if kind == "P" and table.state(t) == 2:
            e.state, name = PHASE_ZERO_P
            step.signal(name, e)
        places = table.enlistments + [None]
        places[places.index(None)] = e
        table.enlistments = places
    elif word == "commit":
        t = named[0]
        first = [e for e in table.held(t) if e.kind == "P"]
        if not first:
            return step.start_phase_one(t)
        table.set_state(t, 2)
        for e in first:
            e.state, name = PHASE_ZERO_P
            step.signal(name, e)
    elif word == "rollback":
        step.follow(named[0], "abort")
    elif word == "ask":
        accept_ask(step, *named)
    elif word == "reenlisted":
        done = waiting(table, named[0])
        for e in done:
            e.state = DONE
        step.end_if_done({e.t for e in done})
    else:
        e = table.number(named[0])
        becomes, follows = reaction(e, event_of(words))
        if becomes == FREED and not follows.startswith("app-"):
            table.free(e)
        elif becomes != FREED:
            e.state = becomes
        step.follow(e.t, follows)


def accept_ask(step, t, rm):
    if step.table.state(t) in (None, 6):
        step.signals.append((0, "answer-aborted"))
        return
    e = next(e for e in waiting(step.table, rm) if e.t == t)
    if step.table.state(t) == 5:
        step.signal("answer-committed", e)
        e.state = 7
    else:
        step.signal("answer-not-yet", e)


def outcome(table, lent, event):
    words = event.split(" ")
    number = refusal(table, lent, words)
    step = Step(table.copy())
    if number == 0:
        accept(step, words)
        assert is_sound(step.table), (str(table), event, str(step.table))
    signals = [f"{name}:{n}" for n, name in sorted(step.signals)] + [f"{name}:0" for name in step.application]
    assert len(signals) <= 17
    line = " ".join([str(number), str(step.table.used), str(len(signals))] + signals)
    log = f"{table.used}:{step.bytes.hex()}" if step.bytes else "same"
    return f"{line} | {step.table} | {log}"


# ---- The rows ----

ROWS = []
SEEN = set()


def row(table, event, lent=None):
    lent = table.capacity if lent is None else lent
    text = f"{table} | {lent} | {event}"
    if text not in SEEN:
        SEEN.add(text)
        ROWS.append((text, outcome(table, lent, event)))


def places_of(state, marks="ny"):
    """Each (kind, mark, state) that a sound table may have in a transaction of this state."""
    out = []
    for kinds, s in ALLOWED[state]:
        for kind in kinds:
            for mark in marks if kind != "P" else "n":
                if state != 4 or mark == "y":
                    out.append((kind, mark, s))
    return out


NUMBERS, MANAGERS = (5, 3, 9), (21, 22, 23)


def table_of(state, places, **room):
    """Transaction 7 in this state with these places; numbers are not ascending by place."""
    held = [E(*place, NUMBERS[i], MANAGERS[i], 7) for i, place in enumerate(places)]
    return Table([(7, state)], held, **room)


def words_of(event, number):
    first, *rest = event.split(" ")
    return " ".join([first, str(number)] + rest)


def sound_tables(state):
    """One enlistment, and two: the one named and another that may keep the transaction from following."""
    companions = places_of(state, "ny" if state in (1, 2) else "n")
    for named in places_of(state):
        for others in [[]] + [[c] for c in companions]:
            table = table_of(state, [named] + others)
            if is_sound(table):
                yield table


def rows_of_enlistments():
    for state in ALLOWED:
        for table in sound_tables(state):
            for event in EVENTS:
                row(table, words_of(event, 5))


def rows_of_named_second():
    """The one named stands behind the other's place."""
    for state in ALLOWED:
        for table in sound_tables(state):
            if len(table.held()) == 2:
                for event in EVENTS:
                    if reaction(table.number(3), event):
                        row(table, words_of(event, 3))


def rows_of_three():
    """Two others: signals go by number, whatever the places."""
    for state in ALLOWED:
        places = places_of(state, "n")
        for named in places:
            for others in itertools.combinations_with_replacement(places, 2):
                table = table_of(state, [named, *others])
                for event in EVENTS:
                    if is_sound(table) and reaction(table.number(5), event):
                        row(table, words_of(event, 5))


def transaction_events():
    yield "begin 7"
    yield "begin 8"
    yield "commit 7"
    yield "rollback 7"
    for rm in (21, 22, 23):
        yield f"ask 7 {rm}"
        yield f"reenlisted {rm}"
    for kind in ("zero", "volatile", "durable"):
        yield f"enlist 7 4 23 {kind}"
    yield "enlist 7 4 21 durable twophase"


def rows_of_transactions():
    for state in ALLOWED:
        tables = list(sound_tables(state))
        if state == 1:
            tables.append(table_of(1, []))
        for table in tables:
            for event in transaction_events():
                row(table, event)


def rows_of_enlist():
    """Kinds, marks, the lowest empty place, and refusals in their order."""
    for state, first in ((1, ("P", "n", 1)), (2, ("P", "n", 2))):
        table = table_of(state, [first, ("V", "y", 1), ("D", "n", 1)])
        gap = table.copy()
        gap.enlistments[1] = None
        for t in (table, gap):
            for kind in ("zero", "volatile", "durable"):
                for mark in ("", " single", " twophase"):
                    row(t, f"enlist 7 4 24 {kind}{mark}")
                    row(t, f"enlist 7 4294967295 22 {kind}{mark}")
                row(t, f"enlist 7 9 24 {kind}")  # number held
                row(t, f"enlist 7 4 23 {kind}")  # the RM has a D
                row(t, f"enlist 7 9 23 {kind}")
        for event in ("enlist 0 4 24 zero", "enlist 7 0 24 zero", "enlist 7 4 0 zero", "enlist 8 0 24 zero"):
            row(table, event)
        row(table, "enlist 8 9 24 durable")
    # The same RM and a D of it in another transaction.
    two = Table([(7, 1), (8, 5)], [E("D", "n", 1, 1, 21, 7), E("D", "n", 7, 2, 22, 8)])
    for event in ("enlist 7 3 22 durable", "enlist 7 2 22 durable", "enlist 8 3 23 durable", "enlist 8 2 22 durable"):
        row(two, event)


def filled(state, count, t=7, first=1):
    """A transaction's enlistments, the first of them P where its state asks for one."""
    out = []
    for i in range(count):
        p = state == 2 and i == 0
        out.append(E("P" if p else "D", "n", 2 if p else 1, first + i, 100 + i, t))
    return out


def rows_of_full_tables():
    for state in (1, 2):
        for count in (15, 16):
            table = Table([(7, state)], filled(state, count))
            for event in ("enlist 7 40 40 durable", "enlist 7 40 40 zero", "enlist 7 2 40 volatile", "enlist 7 40 101 durable"):
                row(table, event)
    many = [e for i in range(8) for e in filled(1, 16, 1 + i, 1 + 16 * i)]
    for held in (many, many[:127], many[:60] + [None] + many[61:]):
        table = Table([(1 + i, 1) for i in range(9)], held)
        for event in ("enlist 9 200 40 durable", "enlist 9 1 40 volatile", "enlist 10 200 40 zero", "enlist 1 200 40 zero"):
            row(table, event)
    for live in (31, 32):
        table = Table([(1 + i, 1) for i in range(live)], [])
        for event in ("begin 40", "begin 1", "begin 0", "commit 5", "rollback 31"):
            row(table, event)
    gap = Table([(1, 1), (0, 0), (3, 1)], [None, E("V", "n", 1, 5, 21, 3)])
    for event in ("begin 2", "begin 3", "commit 1", "commit 3", "rollback 3", "lost 5", "enlist 1 6 22 zero"):
        row(gap, event)


def rows_of_sixteen():
    """The most signals and the longest record: sixteen D, one still Preparing, numbers descending."""
    held = [E("D", "n", 3 if i == 6 else 4, 40 - i, 100 + i, 7) for i in range(16)]
    need = 18 + 20 * 16 + 18
    for capacity in (60 + need, 60 + need - 1):
        for event in ("vote 34 prepared", "vote 34 readonly", "vote 34 aborted", "lost 34"):
            row(Table([(7, 3)], held, capacity=capacity), event)
    for state in (1, 2):
        row(Table([(7, state)], filled(state, 16)), "rollback 7")
        row(Table([(7, state)], filled(state, 16)), "commit 7")
        row(Table([(7, state)], filled(state, 16)), "zdone 1")
        row(Table([(7, state)], filled(state, 16)), "lost 3")


def open_one(t, number, rm=50):
    return [E("D", "n", 7, number, rm, t), E("V", "n", 10, number + 1, rm, t)]


def rows_of_log_room():
    """Decide with exactly enough room, and one byte less; other open transactions are owed their forget records."""
    for opened in (0, 1, 2):
        others = [e for i in range(opened) for e in open_one(1 + i, 60 + 2 * i)]
        # Committing without a D and Aborting aren't open.
        others += [E("V", "n", 7, 70, 50, 4), E("D", "n", 9, 71, 50, 5)]
        live = [(1 + i, 5) for i in range(opened)] + [(4, 5), (5, 6), (7, 3)]
        for named in ("V", "D"):
            for companions in ([], [("D", 4)], [("D", 5)], [("V", 4)], [("D", 4), ("D", 5)], [("D", 5), ("V", 4)], [("D", 5), ("D", 5)]):
                held = [(named, 3)] + companions
                mine = [E(k, "n", s, NUMBERS[i], MANAGERS[i], 7) for i, (k, s) in enumerate(held)]
                for vote in ("prepared", "readonly"):
                    counted = held if vote == "prepared" else companions
                    n = sum(kind == "D" for kind, _ in counted)
                    need = 18 + 20 * n + 18 * (1 + opened) if n else 18 * opened
                    for used in (8, 60):
                        for short in (0, 1) if n else (0,):
                            table = Table(live, others + mine, capacity=used + need - short, used=used)
                            row(table, f"vote 5 {vote}")
    row(Table([(7, 3)], [E("D", "n", 3, 5, 21, 7)], capacity=64, used=8), "vote 5 prepared")
    row(Table([(7, 3)], [E("D", "n", 3, 5, 21, 7)], capacity=63, used=8), "vote 5 prepared")


def rows_of_neighbours():
    """Another transaction's enlistments between the places stay as they are."""
    for state in ALLOWED:
        for table in sound_tables(state):
            between = []
            for i, e in enumerate(table.held()):
                between += [E("D", "n", 1, 31 + i, 21 + i, 3), e]
            crowd = Table([(3, 1), (7, state)], between)
            for event in EVENTS:
                if reaction(table.number(5), event) and all(e.mark == "n" or state == 4 for e in table.held()):
                    row(crowd, words_of(event, 5))
            if all(e.mark == "n" or state == 4 for e in table.held()):
                for event in ("commit 7", "rollback 7", "ask 7 21", "reenlisted 21", "ask 3 22", "commit 3"):
                    row(crowd, event)


def rows_of_ask():
    """Which enlistment is the RM's D: not its V or P, not one that is Done, not another transaction's."""
    v, d = ("V", 31, 21), ("D", 32, 21)
    for state, vs, ds in ((1, 1, 1), (2, 1, 1), (3, 3, 3), (3, 3, 4), (3, 3, 5), (5, 7, 7), (5, 7, 8), (5, 7, 10), (5, 10, 7), (5, 10, 8), (6, 9, 9), (6, 9, 10)):
        held = [E(v[0], "n", vs, v[1], v[2], 7), E(d[0], "n", ds, d[1], d[2], 7)]
        if state == 2:
            held.append(E("P", "n", 2, 33, 22, 7))
        for places in (held, held[:1] + held[2:], held[::-1]):
            for event in ("ask 7 21", "ask 7 22", "ask 8 21", "reenlisted 21"):
                table = Table([(7, state)], places)
                if is_sound(table):
                    row(table, event)


def rows_of_reenlisted():
    """Every D of the RM in two transactions, in each of their states; records by ascending identifier."""
    choices = [(t, s) for t in ALLOWED for kind, mark, s in places_of(t, "y" if t == 4 else "n") if kind == "D"]
    for a, b in itertools.product(choices, repeat=2):
        held, live = [], [(9, a[0]), (7, b[0])]
        for t, (state, s), first in ((9, a, 1), (7, b, 5)):
            held.append(E("D", "y" if state == 4 else "n", s, first, 21, t))
            if state == 2:
                held.append(E("P", "n", 2, first + 1, 22, t))
            elif state == 3 and s != 3:
                held.append(E("V", "n", 3, first + 1, 22, t))
            elif state in (5, 6) and s == DONE:
                held.append(E("V", "n", 7 if state == 5 else 9, first + 1, 22, t))
        row(Table(live, held), "reenlisted 21")
    # Three at once, one of them with another party still to be told.
    three = [E("D", "n", 8, 4, 21, 9), E("D", "n", 8, 2, 21, 7), E("D", "n", 7, 3, 22, 8), E("D", "n", 8, 1, 21, 8)]
    three += [E("D", "n", 10, 6, 22, 9), E("V", "n", 10, 7, 21, 7)]
    for rm in (21, 22, 23, 0):
        row(Table([(9, 5), (8, 5), (7, 5)], three), f"reenlisted {rm}")
    four = [E("D", "n", 8, 1 + i, 21, t) for i, t in enumerate((200, 3, 90, 14))]
    row(Table([(200, 5), (3, 5), (90, 5), (14, 5)], four), "reenlisted 21")
    # An owed record always has its room.
    row(Table([(200, 5), (3, 5), (90, 5), (14, 5)], four, capacity=60 + 72), "reenlisted 21")
    row(Table([(200, 5), (3, 5)], four[:2], capacity=60 + 36), "reenlisted 21")
    row(Table([(7, 5)], [E("D", "n", 7, 1, 21, 7)], capacity=60 + 18), "ack 1")
    row(Table([(7, 5)], [E("D", "n", 7, 1, 21, 7)], capacity=26, used=8), "ack 1")


def every_event():
    yield from ("begin {t}", "commit {t}", "rollback {t}", "enlist {t} 4 24 durable", "ask {t} 21", "reenlisted {t}")
    for event in EVENTS:
        yield words_of(event, "{n}")


def rows_of_names():
    """Not live, not held, zero: for every event, on an empty table and on one that has others."""
    for table in (Table([], []), table_of(1, [("D", "n", 1)]), table_of(5, [("D", "n", 8)])):
        for event in every_event():
            for t, n in ((8, 6), (0, 0), (255, 4294967295)):
                row(table, event.format(t=t, n=n))
    for event in ("ask 0 21", "ask 7 0", "ask 0 0", "ask 8 0", "reenlisted 0"):
        for table in (table_of(1, [("D", "n", 1)]), table_of(6, [("D", "n", 9)])):
            row(table, event)


def rows_of_lent_length():
    """12 before all but 15."""
    for state, places in ((1, [("D", "n", 1)]), (5, [("D", "n", 7)]), (6, [("V", "n", 9)])):
        table = table_of(state, places)
        for lent in (0, 8, 299, 301):
            for event in ("begin 8", "begin 0", "commit 8", "lost 6", "begin 7", "commit 7", "ack 5", "ask 7 22", "reenlisted 21"):
                row(table, event, lent)
    row(Table([], [], capacity=65536, used=8), "begin 7", 300)
    row(Table([], [], capacity=65537, used=8), "begin 7", 300)


def rows_of_soundness():
    """Each (transaction state, kind, mark, enlistment state), alone and beside each that may stand there."""
    for state in range(1, 7):
        for kind, mark, s in itertools.product("PVD", "ny", range(0, 12)):
            row(table_of(state, [(kind, mark, s)]), "begin 8")
            for other in places_of(state, "y" if state == 4 else "n"):
                if mark == "n":
                    row(table_of(state, [(kind, mark, s), other]), "begin 8")
        row(table_of(state, []), "begin 8")
    d = E("D", "n", 1, 5, 21, 7)
    for number, rm, t in ((0, 21, 7), (5, 0, 7), (5, 21, 0), (5, 21, 8), (5, 21, 32), (5, 21, 33), (5, 21, 255)):
        row(Table([(7, 1)], [E("D", "n", 1, number, rm, t)]), "begin 8")
    for live in ([(7, 0)], [(0, 1)], [(7, 1), (7, 1)], [(7, 1), (7, 6)], [(7, 7)], [(7, 1), (8, 9)], [(0, 0), (7, 1)]):
        row(Table(live, []), "begin 8")
        row(Table(live, [d]), "begin 8")
    for other in (E("V", "n", 1, 5, 22, 7), E("V", "n", 1, 5, 22, 8), E("D", "n", 1, 6, 21, 7), E("D", "n", 1, 6, 21, 8), E("V", "n", 1, 6, 21, 7), E("P", "n", 1, 6, 21, 7)):
        row(Table([(7, 1), (8, 1)], [d, other]), "begin 9")
        row(Table([(7, 1), (8, 1)], [d, None, other]), "begin 9")
    for count in (16, 17):
        row(Table([(7, 1)], filled(1, count)), "begin 8")
    for capacity, used in ((300, 7), (300, 8), (300, 300), (300, 301), (8, 8), (7, 7), (0, 0), (7, 8)):
        row(Table([(7, 1)], [d], capacity, used), "begin 8")
    for owed in (35, 36):
        two = [E("D", "n", 7, 1, 21, 7), E("D", "n", 10, 2, 22, 8), E("V", "n", 7, 3, 22, 8), E("V", "n", 7, 4, 22, 9), E("D", "n", 9, 5, 22, 10)]
        row(Table([(7, 5), (8, 5), (9, 5), (10, 6)], two, 60 + owed, 60), "begin 11")
    # An unsound table comes before every other refusal.
    for event in ("begin 0", "commit 8", "lost 6", "begin 7", "lost 5", "ack 5", "ask 7 23", "reenlisted 21"):
        row(table_of(3, [("D", "n", 4)]), event)
        row(table_of(3, [("D", "n", 4)]), event, 299)


def main():
    for rows in (
        rows_of_enlistments, rows_of_named_second, rows_of_three, rows_of_transactions, rows_of_enlist,
        rows_of_full_tables, rows_of_sixteen, rows_of_log_room, rows_of_neighbours, rows_of_ask,
        rows_of_reenlisted, rows_of_names, rows_of_lent_length, rows_of_soundness,
    ):
        before = len(ROWS)
        rows()
        print(f"{len(ROWS) - before:6} {rows.__name__}", file=sys.stderr)
    print(f"{len(ROWS):6} rows", file=sys.stderr)
    folder = sys.argv[1]
    with open(f"{folder}/stdin", "w") as rows, open(f"{folder}/stdout", "w") as outcomes:
        for text, result in ROWS:
            rows.write(text + "\n")
            outcomes.write(result + "\n")


if __name__ == "__main__":
    main()
