"""Tables for the vectors: valid ones of many shapes, and every kind of damage."""

from dataclasses import replace

from tables import MILLION, Task, Use, table_bytes, task_record, use_record

TOP = 2**32 - 1
BASE = Task(10, 2, 3, 100, 50, 500, 900)
ROOMY = Task(10, 0, 0, MILLION, 0, MILLION, MILLION)
UNKNOWN_KINDS = [0, 4, 5, 127, 128, 254, 255]


# One of these, chosen evenly.
def pick(rng, choices):
    return choices[rng.randrange(len(choices))]


# A number from low to high, both included, often at one of the ends.
def between(rng, low, high):
    if rng.randrange(4) == 0:
        return pick(rng, [low, high])
    if rng.randrange(2) == 0:
        return low + rng.randrange(min(high - low, 99) + 1)
    return low + rng.randrange(high - low + 1)


# Some of 1 to `highest`, all different, rising.
def some_of(rng, highest, count):
    chosen = set()
    while len(chosen) < count:
        chosen.add(1 + rng.randrange(highest))
    return sorted(chosen)


# A task in range with this priority and a C of at least `least`.
def random_task(rng, priority, least=1):
    x = between(rng, 0, 64)
    c = between(rng, least, MILLION)
    d = between(rng, c, MILLION)
    s = 0 if x == 0 else between(rng, 0, MILLION)
    return Task(priority, between(rng, 0, priority - 1), x, c, s, d, between(rng, d, MILLION))


# Uses of one task whose sections fit in its C, sometimes exactly.
def random_uses(rng, task, count):
    uses = []
    left = task.c
    for number, resource in enumerate(some_of(rng, 16, count)):
        share = left - (count - number - 1)
        if share < 1:
            break
        n = between(rng, 1, min(255, share))
        most = share // n
        last = number == count - 1
        length = most if last and rng.randrange(2) == 0 else between(rng, 1, most)
        uses.append(Use(task.priority, resource, n, length))
        left -= n * length
    return uses


# A valid table with so many tasks and at most so many uses for each.
def random_table(rng, count, most_uses):
    priorities = reversed(some_of(rng, 255, count))
    tasks = [random_task(rng, priority) for priority in priorities]
    uses = []
    for task in tasks:
        uses += random_uses(rng, task, rng.randrange(most_uses + 1))
    return tasks, uses


# A valid table with all 32 tasks and all 512 uses.
def full_table(rng):
    priorities = reversed(some_of(rng, 255, 32))
    tasks = [random_task(rng, priority, 16) for priority in priorities]
    return tasks, [use for task in tasks for use in random_uses(rng, task, 16)]


# So many plain tasks with priorities falling from `top`.
def plain_tasks(count, top):
    return [Task(top - i, 0, 0, 50, 0, 60, 70) for i in range(count)]


# The tables that the scope document names, A to H.
def named_tables():
    a1, a2 = Task(2, 0, 0, 4, 0, 30, 30), Task(1, 0, 0, 5, 0, 40, 40)
    uses = [Use(3, 1, 1, 1), Use(1, 1, 2, 2)]
    return [
        ([Task(3, 0, 1, 2, 3, 20, 20), a1, a2], uses),
        ([Task(3, 1, 1, 2, 3, 20, 20), a1, a2], uses),
        ([Task(1, 0, 0, 5, 0, 5, 5)], []),
        ([Task(1, 0, 1, 5, 1, 5, 5)], []),
        ([Task(2, 0, 0, 3, 0, 5, 5), Task(1, 0, 0, 3, 0, 8, 8)], []),
        ([Task(2, 0, 0, 3, 0, 5, 5), Task(1, 0, 0, 3, 0, 9, 9)], []),
        ([Task(3, 1, 1, 2, 1, 50, 50), Task(2, 0, 0, 4, 0, 100, 100), Task(1, 0, 0, 5, 0, 100, 100)],
         [Use(3, 1, 1, 1), Use(2, 1, 1, 3), Use(1, 1, 1, 4)]),
        ([Task(2, 0, 1, 2, 1, 20, 20), Task(1, 0, 0, 3, 0, 20, 20)],
         [Use(2, 1, 1, 1), Use(1, 1, 1, 3)]),
    ]


# Single tasks with one field, or a bound pair, at an end of its range or just past it.
def edge_tasks():
    changes = []
    for priority in (0, 1, 2, 254, 255):
        for setting in (0, priority - 1, priority, priority + 1, 255):
            if 0 <= setting <= 255:
                changes.append(dict(priority=priority, setting=setting))
    for x in (0, 1, 63, 64, 65, 128, 255):
        changes += [dict(x=x, s=s) for s in (0, 1, MILLION - 1, MILLION, MILLION + 1, 2**24, TOP)]
    changes += [dict(c=c) for c in (0, 1, 2, 499, 500, 501, 256, 65536, 2**24 + 100, TOP)]
    changes += [dict(d=d) for d in (0, 1, 99, 100, 101, 899, 900, 901, 2**24 + 500, TOP)]
    changes += [dict(t=t) for t in (0, 1, 499, 500, 501, MILLION - 1, MILLION, MILLION + 1, 2**24 + 900, TOP)]
    for c in (1, MILLION - 1, MILLION, MILLION + 1):
        for d in (1, MILLION - 1, MILLION, MILLION + 1):
            changes += [dict(c=c, d=d, t=t) for t in (MILLION - 1, MILLION, MILLION + 1)]
    changes += [dict(c=v, d=v, t=v) for v in (0, 1, 2, 255, 256, 65535, 65536, TOP)]
    return [replace(BASE, **change) for change in changes]


# Single uses of task 10 with each field at an end of its range or just past it.
def edge_uses():
    uses = [Use(10, r, 1, 1) for r in (0, 1, 2, 15, 16, 17, 18, 128, 255)]
    uses += [Use(10, 1, n, l) for n in (0, 1, 2, 254, 255) for l in (0, 1, 3921, 3922)]
    uses += [Use(10, 1, 1, l) for l in (MILLION - 1, MILLION, MILLION + 1, 2**24 + 1, TOP)]
    uses += [Use(10, 1, n, MILLION) for n in (2, 255)]
    uses += [Use(p, 1, 1, 1) for p in (0, 9, 11, 255)]
    return uses


# A task each of whose fields stands near an end of its range.
def near_edge_task(rng):
    c = pick(rng, [0, 1, 2, 500, MILLION])
    return Task(pick(rng, [0, 1, 2, 3, 255]), pick(rng, [0, 0, 1, 2, 254]), pick(rng, [0, 1, 64, 65]),
                c, pick(rng, [0, 0, 1, MILLION]), pick(rng, [c, c + 1, MILLION]),
                pick(rng, [500, MILLION - 1, MILLION, MILLION, MILLION + 1]))


# A use each of whose fields stands near an end of its range.
def near_edge_use(rng, priority):
    return Use(priority, pick(rng, [0, 1, 2, 3, 16, 17]), pick(rng, [0, 1, 1, 2, 255]),
               pick(rng, [0, 1, 1, 2, 500, MILLION, MILLION + 1]))


# A run of records with fields near their ends, in an order that is mostly right.
def loose_records(rng):
    count = 1 + rng.randrange(4)
    tasks = [random_task(rng, p) for p in reversed(some_of(rng, 6, count))]
    records = [task_record(task) for task in tasks]
    if rng.randrange(3) == 0:
        records[rng.randrange(count)] = task_record(near_edge_task(rng))
    for priority in reversed(some_of(rng, 7, rng.randrange(4))):
        records += [use_record(near_edge_use(rng, priority)) for _ in range(1 + rng.randrange(2))]
    return records + [bytes([3])]


# The records of a table, one by one.
def records_of(tasks, uses):
    return [task_record(task) for task in tasks] + [use_record(use) for use in uses] + [bytes([3])]


# Every pair swapped, each record dropped, and each doubled at each place.
def rearranged(records):
    tables = []
    for i in range(len(records)):
        tables.append(records[:i] + records[i + 1:])
        for j in range(i + 1, len(records)):
            swapped = list(records)
            swapped[i], swapped[j] = records[j], records[i]
            tables.append(swapped)
        for j in range(len(records) + 1):
            tables.append(records[:j] + [records[i]] + records[j:])
    return [b"".join(table) for table in tables]


# Each record's kind byte changed, and an unknown record put before each.
def unknown_kinds(records):
    tables = []
    for i, record in enumerate(records):
        before, after = b"".join(records[:i]), b"".join(records[i + 1:])
        for kind in UNKNOWN_KINDS:
            tables.append(before + bytes([kind]) + record[1:] + after)
            tables.append(before + bytes([kind]) + record + after)
            tables.append(before + bytes([kind]))
    return tables


# Each byte of a table changed to several values.
def changed_bytes(data):
    tables = []
    for i, old in enumerate(data):
        values = [0, 1, 2, 3, 4, 64, 255, old ^ 128, (old + 1) % 256, (old + 255) % 256]
        for value in sorted(set(values) - {old}):
            tables.append(data[:i] + bytes([value]) + data[i + 1:])
    return tables


# A second use of every near priority and resource after a first one.
def second_uses():
    tasks = plain_tasks(3, 4)
    first = Use(3, 5, 1, 1)
    seconds = [Use(p, r, 1, 1) for p in (0, 1, 2, 3, 4, 5, 255) for r in (0, 1, 4, 5, 6, 16, 17, 255)]
    faulty = [Use(p, r, 0, 0) for p in (1, 2, 3, 4) for r in (1, 5, 6, 17)]
    faulty += [Use(p, r, 50, 1) for p in (1, 2, 3, 4) for r in (1, 5, 6, 17)]
    return [table_bytes(tasks, [first, second]) for second in seconds + faulty]


# Second tasks of equal, rising and falling priority, in range and not.
def second_tasks():
    tables = []
    for first in (1, 2, 10, 255):
        for second in sorted({0, 1, first - 1, first, min(first + 1, 255), 255}):
            for task in (Task(second, 0, 0, 1, 0, 1, 1), Task(second, 255, 65, 0, 0, 0, 0)):
                tables.append(table_bytes([Task(first, 0, 0, 1, 0, 1, 1), task], []))
    return tables


# Tables with a 33rd task: whole or cut, after tasks or after uses.
def thirty_three():
    tasks = plain_tasks(32, 100)
    start = table_bytes(tasks, [])[:-1]
    used = start + use_record(Use(100, 1, 1, 1)) + use_record(Use(69, 1, 1, 1))
    tables = [start, start + b"\3", used, used + b"\3", used + b"\3\3"]
    for extra in (Task(68, 0, 0, 1, 0, 1, 1), Task(69, 0, 0, 1, 0, 1, 1), Task(), Task(255)):
        tables += [begun + task_record(extra) + end for begun in (start, used) for end in (b"", b"\3")]
    for begun in (start, used):
        tables += [begun + task_record(tasks[0])[:cut] for cut in (1, 2, 10, 18, 19)]
        tables += [begun + bytes([kind]) for kind in (0, 2, 4, 255)]
    for at in (0, 15, 31):
        faulty = tasks[:at] + [replace(tasks[at], c=0)] + tasks[at + 1:]
        tables.append(table_bytes(faulty + [Task(1, 0, 0, 1, 0, 1, 1)], []))
    return tables


# Full tables followed by a 513th use, whole or cut, in order or not.
def five_hundred_thirteen(rng):
    tasks, uses = full_table(rng)
    start = table_bytes(tasks, uses)[:-1]
    low = tasks[-1].priority
    extras = [uses[-1], uses[0], Use(), Use(low, 17, 1, 1)]
    tables = [start + use_record(extra) + b"\3" for extra in extras]
    return tables + [start + use_record(uses[-1])[:7], start + task_record(tasks[0]) + b"\3"]


# Three uses of one task whose sum is at C, one below or one past it, passed at each use.
def sums():
    tables = []
    for owner in (12, 11, 10):
        tasks = [replace(BASE, priority=p, c=100) for p in (12, 11, 10)]
        around = [Use(p, 7, 4, 25) for p in (12, 11, 10)]
        for lengths in ((100, 1, 1), (101, 1, 1), (40, 60, 1), (40, 61, 1), (40, 30, 29), (40, 30, 30),
                        (40, 30, 31), (98, 1, 1), (98, 1, 2), (98, 2, 1), (99, 2, 1), (1, 1, 98), (1, 1, 99)):
            own = [Use(owner, 2 + i, 1, length) for i, length in enumerate(lengths)]
            uses = [u for u in around if u.priority > owner] + own + [u for u in around if u.priority < owner]
            tables.append(table_bytes(tasks, uses))
        for n, length in ((100, 1), (50, 2), (3, 33), (3, 34), (101, 1), (255, MILLION), (2, 50), (2, 51)):
            tables.append(table_bytes(tasks, [Use(owner, 1, n, length)]))
    return tables


# Big tables: full ones, almost full ones, and some that go on after the end.
def big_tables(rng):
    tables = [table_bytes(*full_table(rng)) for _ in range(6)]
    for drop in (1, 2, 16, 200):
        tasks, uses = full_table(rng)
        for _ in range(drop):
            uses.pop(rng.randrange(len(uses)))
        tables.append(table_bytes(tasks, uses))
    full = tables[0]
    tables += [full[:-1], full[:-2], full + b"\0", full + full[:3455], full + full[:3456], full + full[:600]]
    for _ in range(4):
        at = 640 + rng.randrange(len(full) - 641)
        tables.append(full[:at] + bytes([full[at] ^ (1 << rng.randrange(8))]) + full[at + 1:])
    return tables
