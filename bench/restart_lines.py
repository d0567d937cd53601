#!/usr/bin/env python3
"""The lines that crates/restart_main must print, as document 01 prescribes them.

    python3 bench/restart_lines.py | diff - crates/restart_main/stdout

There must be no difference. The cases are those of restart_main, by the same words: which logs are lent, how
much of them is stored, and how a line is spelt, come from its source. What a restart gives comes from
document 01 alone: 'The log', 'Listing', and of 'What the table holds' what makes a table sound. Nothing is
shared with the crates, with the peer or with state_table.py. A line is

    CASE: REFUSAL used USED of CAPACITY changed COUNT next NUMBER TRANSACTIONS; listing REFUSAL ROWS

    CASE          words and a number that tell the cases apart
    COUNT         of the lent log's bytes that restart changed
    NUMBER        the one that the dispenser gives first
    TRANSACTIONS  for each `; T in STATE`, then ` N/RM/KIND/MARK/STATE` for each of its enlistments
    ROWS          for each ` T/STATE/HELD/NOT DONE`

where of an identifier the last byte is written. The paper doesn't number kinds and marks: P, V and D are
1, 2 and 3, and yes and no 1 and 0.
"""
from collections import namedtuple

# ---- What the paper names ----

HEADER = b"RTL" + (1).to_bytes(2, "little") + bytes(3)
COMMIT, FORGET = 1, 2
RECORD, ENTRY = 18, 20
ZERO = bytes(16)
LARGEST_NUMBER = 4294967295
COMMITTING, TOLD_COMMIT, FAILED_TO_NOTIFY, DONE = 5, 7, 8, 10
VOLATILE, DURABLE, NO = 2, 3, 0
COMMITTING_MAY_HAVE = {VOLATILE: [TOLD_COMMIT, DONE], DURABLE: [TOLD_COMMIT, FAILED_TO_NOTIFY, DONE]}
DAMAGED_LOG, LOG_TOO_SHORT, TOO_FEW_ROWS, NOT_SOUND = 11, 13, 8, 15

Enlistment = namedtuple("Enlistment", "t number rm kind mark state")
Table = namedtuple("Table", "capacity used transactions enlistments")
ALL_ZERO = Table(0, 0, [], [])


def held(table, t):
    return [e for e in table.enlistments if e.t == t]


# ---- The log ----


class Damaged(Exception):
    pass


def damaged_if(breach):
    if breach:
        raise Damaged


def restart(log, stored):
    """The refusal and the table; the lent log is changed in place, and is so only where the header is written."""
    capacity = len(log)
    if capacity < 8 or capacity > 65536 or stored > capacity:
        return DAMAGED_LOG, ALL_ZERO
    if stored < 8:
        if log[:stored] != HEADER[:stored]:
            return DAMAGED_LOG, ALL_ZERO
        log[:8] = HEADER
        return 0, Table(capacity, 8, [], [])
    if log[:8] != HEADER:
        return DAMAGED_LOG, ALL_ZERO
    try:
        used, open_records = read_records(bytes(log[:stored]))
    except Damaged:
        return DAMAGED_LOG, ALL_ZERO
    if used + RECORD * len(open_records) > capacity:
        return LOG_TOO_SHORT, ALL_ZERO
    return 0, Table(
        capacity,
        used,
        [(t, COMMITTING) for t in open_records],
        [
            Enlistment(t, number, rm, DURABLE, NO, FAILED_TO_NOTIFY)
            for t, entries in open_records.items()
            for rm, number in entries
        ],
    )


def read_records(stored):
    """The used length, and each open T with its entries, by order of commit records."""
    used, open_records = 8, {}
    while used < len(stored):
        length = record_length(stored[used : used + 2])
        record = stored[used : used + length]
        if len(record) < length:  # torn
            break
        damaged_if(record[2:18] == ZERO)
        if record[0] == COMMIT:
            take_commit(record, open_records)
        else:
            take_forget(record, open_records)
        used += length
    return used, open_records


def record_length(beginning):
    """From its first two bytes; of a record with one byte stored no more is known than that it is torn."""
    first = beginning[0]
    damaged_if(first not in (COMMIT, FORGET))
    if len(beginning) < 2:
        return RECORD
    n = beginning[1]
    if first == FORGET:
        damaged_if(n != 0)
        return RECORD
    damaged_if(n < 1 or n > 16)
    return RECORD + ENTRY * n


def take_commit(record, open_records):
    t = record[2:18]
    entries = []
    for at in range(RECORD, len(record), ENTRY):
        entries.append((record[at : at + 16], int.from_bytes(record[at + 16 : at + 20], "little")))
    managers = [rm for rm, _ in entries]
    numbers = [number for _, number in entries]
    held_elsewhere = [number for others in open_records.values() for _, number in others]
    damaged_if(t in open_records)
    damaged_if(ZERO in managers or 0 in numbers)
    damaged_if(any(later <= earlier for earlier, later in zip(numbers, numbers[1:])))
    damaged_if(any(number in held_elsewhere for number in numbers))
    damaged_if(len(set(managers)) < len(managers))
    open_records[t] = entries
    damaged_if(len(open_records) > 32)
    damaged_if(len(held_elsewhere) + len(entries) > 128)


def take_forget(record, open_records):
    t = record[2:18]
    damaged_if(t not in open_records)
    del open_records[t]


def dispenser_gives(table):
    """The first number after restart."""
    largest = max([e.number for e in table.enlistments], default=0)
    return 0 if largest == LARGEST_NUMBER else largest + 1


# ---- Listing ----


def is_sound(table):
    """What the paper asks of a table whose transactions are all Committing: restart gives no other."""
    live = [t for t, _ in table.transactions]
    numbers = [e.number for e in table.enlistments]
    if ZERO in live or len(set(live)) < len(live) or len(live) > 32:
        return False
    if 0 in numbers or len(set(numbers)) < len(numbers) or len(numbers) > 128:
        return False
    if any(e.t not in live or e.rm == ZERO for e in table.enlistments):
        return False
    for t, state in table.transactions:
        mine = held(table, t)
        managers = [e.rm for e in mine if e.kind == DURABLE]
        if state != COMMITTING or any(e.state not in COMMITTING_MAY_HAVE.get(e.kind, []) for e in mine):
            return False
        if all(e.state == DONE for e in mine) or len(mine) > 16 or len(set(managers)) < len(managers):
            return False
    open_count = sum(any(e.kind == DURABLE for e in held(table, t)) for t in live)
    return 8 <= table.used and table.used + RECORD * open_count <= table.capacity <= 65536


def listing(table, rows):
    """The refusal, and a row for each live transaction by ascending identifier."""
    if not is_sound(table):
        return NOT_SOUND, []
    if rows < len(table.transactions):
        return TOO_FEW_ROWS, []
    filled = []
    for t, state in sorted(table.transactions):
        mine = held(table, t)
        filled.append((t, state, len(mine), sum(e.state != DONE for e in mine)))
    return 0, filled


# ---- A line ----


def line(case, bytes_of_log, capacity, stored):
    """The lent log has these bytes, then zeros, to its capacity."""
    before = (bytes_of_log + bytes(capacity))[:capacity]
    log = bytearray(before)
    refusal, table = restart(log, stored)
    changed = sum(a != b for a, b in zip(before, log))
    text = f"{case}: {refusal} used {table.used} of {table.capacity} changed {changed} next {dispenser_gives(table)}"
    for t, state in table.transactions:
        text += f"; {t[15]} in {state}"
        for e in held(table, t):
            text += f" {e.number}/{e.rm[15]}/{e.kind}/{e.mark}/{e.state}"
    refusal, rows = listing(table, 32)
    text += f"; listing {refusal}"
    for t, state, count, not_done in rows:
        text += f" {t[15]}/{state}/{count}/{not_done}"
    print(text)


# ---- The cases ----


def identifier(last):
    return bytes(15) + bytes([last])


def commit(t, n, number, rm):
    """A commit record; numbers and RMs go up by one from entry to entry."""
    record = bytes([COMMIT, n]) + identifier(t)
    for j in range(n):
        record += identifier(rm + j) + (number + j).to_bytes(4, "little")
    return record


def forget(t):
    return bytes([FORGET, 0]) + identifier(t)


def with_byte(log, at, byte):
    return log[:at] + bytes([byte]) + log[at + 1 :]


def whole(words, log):
    """Stored to its end."""
    line(f"{words} {len(log)}", log, 4096, len(log))


SEVEN = HEADER + commit(7, 2, 1, 21)


def headers():
    for n in range(9):
        line(f"header {n}", HEADER[:n] + b"\xee" * (8 - n), 64, n)
    for i in range(8):
        wrong = with_byte(HEADER, i, 9)
        line(f"wrong header byte {i}", wrong, 64, 8)
        line(f"wrong and short {i}", wrong, 64, i + 1)


def capacities():
    line("capacity 7", HEADER, 7, 0)
    line("capacity 8", HEADER, 8, 0)
    line("stored above 9", HEADER, 8, 9)
    line("capacity 65536", b"", 65536, 0)
    line("capacity 65537", b"", 65537, 0)


def beginnings():
    """The first two bytes behind the header, and how many bytes are stored there."""
    for first, second, n in [
        (0, 0, 1),
        (1, 0, 1),
        (2, 0, 1),
        (3, 0, 1),
        (255, 0, 1),
        (0, 1, 2),
        (1, 0, 2),
        (1, 1, 2),
        (1, 16, 2),
        (1, 17, 2),
        (2, 0, 2),
        (2, 1, 2),
        (3, 0, 2),
        (1, 16, 338),
    ]:
        line(f"first {first}", HEADER + bytes([first, second]), 400, 8 + n)


def whole_records():
    """In SEVEN the first RM ends at 41 and its number begins at 42; the second's are 61 and 62; a third RM would end
    at 81. Behind SEVEN a record's identifier begins at 68.
    """
    whole("fine", SEVEN)
    whole("zero transaction", HEADER + commit(0, 2, 1, 21))
    whole("zero manager", with_byte(SEVEN, 41, 0))
    whole("zero number", HEADER + commit(7, 2, 0, 21))
    whole("commit of an open one", SEVEN + commit(7, 2, 3, 21))
    whole("forget of one not open", SEVEN + forget(8))
    whole("forget of zero", SEVEN + forget(0))
    whole("forgotten twice", SEVEN + forget(7) + forget(7))
    whole("another with the same last byte", with_byte(SEVEN + commit(7, 2, 3, 21), 68, 1))
    whole("not ascending", with_byte(SEVEN, 42, 3))
    whole("the same number again", with_byte(SEVEN, 62, 1))
    whole("number of another open record", SEVEN + commit(8, 2, 2, 21))
    whole("a manager twice", with_byte(SEVEN, 61, 21))
    whole("the first manager again", with_byte(HEADER + commit(7, 3, 1, 21), 81, 21))


def torn():
    log = SEVEN + commit(8, 2, 3, 21) + forget(7)
    for stored in range(len(SEVEN), len(log) + 1):
        line(f"cut at {stored}", log, 4096, stored)


def full():
    log = SEVEN + forget(7)
    line("room for its forget record 84", log, 84, 66)
    line("one byte too few 83", log, 83, 66)
    line("no room at all 66", log, 66, 66)
    line("exactly full 84", log, 84, 84)
    line("torn and full 83", log, 83, 83)
    line("torn with room 84", log, 84, 83)
    line("damaged and full 67", SEVEN + bytes([3]), 67, 67)


def order():
    """The last record stored is the one that the words are about; the others stand behind it."""
    log = SEVEN + commit(5, 1, 3, 21) + forget(7)
    log += commit(6, 2, 1, 31) + commit(7, 1, 9, 21) + forget(6)
    log += commit(8, 1, LARGEST_NUMBER, 21) + forget(8)
    line("two are open 104", log, 4096, 104)
    line("one is left 122", log, 4096, 122)
    line("numbers again 180", log, 4096, 180)
    line("reopened 218", log, 4096, 218)
    line("the middle one ends 236", log, 4096, 236)
    line("largest number 274", log, 4096, 274)
    line("and forgotten 292", log, 4096, 292)


def opened(transactions, each):
    """A commit record for each of 1 to so many, with so many entries."""
    return HEADER + b"".join(commit(t + 1, each, 1 + each * t, 1) for t in range(transactions))


def four():
    whole("the first one ends", opened(4, 1) + forget(1))


def most_open():
    whole("open", opened(32, 1))
    whole("open", opened(33, 1))
    whole("open and the first ends", opened(33, 1) + forget(1))


def most_entries():
    whole("entries", opened(8, 16))
    more = opened(8, 16) + commit(200, 1, 129, 1)
    whole("entries", more)
    whole("entries and the first ends", more + forget(1))


def many():
    log = HEADER + 1161 * (commit(7, 1, 1, 21) + forget(7)) + commit(7, 16, 1, 21)
    line(f"many closed {len(log)}", log, 65536, len(log))


headers()
capacities()
beginnings()
whole_records()
torn()
full()
order()
four()
most_open()
most_entries()
many()
