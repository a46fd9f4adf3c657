"""Held tables for the vectors: what the writer is asked to write, and into how much room."""

from dataclasses import dataclass, replace

from tables import MILLION, Task, Use
from table_cases import (BASE, ROOMY, edge_tasks, edge_uses, full_table, named_tables, near_edge_task,
                         near_edge_use, pick, plain_tasks, random_table)

MOST_COUNT = 2**64 - 1
SECOND = Task(9, 0, 0, 20, 0, 30, 40)


# One call of the writer; the entries past these images are 0.
@dataclass(frozen=True)
class WriteCase:
    task_count: int
    use_count: int
    room: int
    tasks: list
    uses: list


# The length of a table with so many tasks and uses.
def length_of(tasks, uses):
    return 20 * len(tasks) + 8 * len(uses) + 1


# A call with counts as the lists have them, and ample room unless it is given.
def plain_case(tasks, uses, room=None):
    return WriteCase(len(tasks), len(uses), length_of(tasks, uses) + 9 if room is None else room, tasks, uses)


# A valid table with exact, short, larger and no room.
def rooms(rng, tasks, uses):
    exact = length_of(tasks, uses)
    sizes = [exact, exact - 1, exact + 1 + rng.randrange(50), 0, rng.randrange(exact)]
    return [plain_case(tasks, uses, room) for room in sizes]


# Valid tables of many shapes, each with several rooms.
def valid_cases(rng):
    tables = named_tables()
    tables += [random_table(rng, 1 + rng.randrange(5), rng.randrange(4)) for _ in range(60)]
    tables += [random_table(rng, 6 + rng.randrange(27), 2) for _ in range(8)]
    return [case for tasks, uses in tables for case in rooms(rng, tasks, uses)]


# Every edge of every field, in a first or second task or a use.
def range_cases():
    cases = []
    for number, task in enumerate(edge_tasks()):
        if number % 2 == 0 or task.priority != 10:
            cases.append(plain_case([task], []))
        else:
            cases.append(plain_case([replace(BASE, priority=20), task], []))
    for use in edge_uses():
        cases.append(plain_case([ROOMY], [use]))
        cases.append(plain_case([ROOMY, SECOND], [Use(10, 1, 1, 5), use]))
    return cases


# Valid tables with entries past their counts that are not 0.
def ignored_cases(rng):
    cases = []
    for _ in range(60):
        tasks, uses = random_table(rng, 2 + rng.randrange(5), 3)
        more_tasks = [near_edge_task(rng) for _ in range(rng.randrange(3))]
        more_uses = [near_edge_use(rng, rng.randrange(256)) for _ in range(rng.randrange(4))]
        room = length_of(tasks, uses)
        cases.append(WriteCase(len(tasks), len(uses), room, tasks + more_tasks, uses + more_uses))
        fewer = rng.randrange(len(uses) + 1)
        cases.append(WriteCase(len(tasks), fewer, room, tasks + more_tasks, uses + more_uses))
        cases.append(WriteCase(rng.randrange(len(tasks)), fewer, room, tasks, uses))
    return cases


# Counts that reach past the images, so that entries of 0 are met.
def empty_entry_cases(rng):
    cases = []
    for _ in range(30):
        tasks, uses = random_table(rng, 1 + rng.randrange(4), 2)
        over = pick(rng, [1, 2, 32, 256, 2**16, 2**32, MOST_COUNT - 40])
        cases.append(WriteCase(len(tasks) + over, len(uses), 300, tasks, uses))
        cases.append(WriteCase(len(tasks), len(uses) + over, 300, tasks, uses))
        cases.append(WriteCase(len(tasks) + over, len(uses) + over, 300, tasks, uses))
    for count in (0, 1, 2, 32, 33, MOST_COUNT):
        for uses in (0, 1, 512, 513, MOST_COUNT):
            cases.append(WriteCase(count, uses, 10, [], []))
            cases.append(WriteCase(count, uses, 80, [BASE, SECOND], [Use(10, 1, 1, 1)]))
    return cases


# Task counts of 0, 32 and above with all 32 entries valid, or one of them not.
def many_task_cases():
    tasks = plain_tasks(32, 100)
    counts = (33, 34, 64, 256, 257, 2**16, 2**32, 2**32 + 1, 2**32 + 32, 2**63, MOST_COUNT)
    cases = [WriteCase(count, 0, 700, tasks, []) for count in (0, 1, 31, 32) + counts]
    cases += [WriteCase(32, 0, room, tasks, []) for room in (0, 640, 641, 642)]
    cases += [WriteCase(33, 0, room, tasks, []) for room in (0, 660, 661)]
    cases += [WriteCase(33, uses, 700, tasks, [Use()]) for uses in (1, 512, 513, MOST_COUNT)]
    for at in (0, 1, 16, 30, 31):
        faults = [replace(tasks[at], x=65), replace(tasks[at], priority=200 if at else 0)]
        for fault in faults:
            faulty = tasks[:at] + [fault] + tasks[at + 1:]
            cases += [WriteCase(count, 0, 700, faulty, []) for count in (32, 33, MOST_COUNT)]
    return cases


# Use counts about 512 with all 512 entries valid, or one of them not.
def many_use_cases(rng):
    tasks, uses = full_table(rng)
    cases = [WriteCase(32, 512, room, tasks, uses) for room in (4737, 4736, 4800, 0)]
    cases += [WriteCase(32, 511, room, tasks, uses) for room in (4729, 4728)]
    cases += [WriteCase(32, count, 4800, tasks, uses) for count in (513, 514, 2**16, 2**32 + 3, MOST_COUNT)]
    cases += [WriteCase(32, 513, 0, tasks, uses), WriteCase(33, 513, 4800, tasks, uses)]
    cases += [WriteCase(31, 513, 4800, tasks, uses), WriteCase(0, 513, 4800, tasks, uses)]
    for at, change in ((0, dict(resource=0)), (200, dict(n=0)), (511, dict(l=MILLION + 1)),
                       (511, dict(n=255, l=MILLION)), (16, dict(priority=0))):
        faulty = uses[:at] + [replace(uses[at], **change)] + uses[at + 1:]
        cases.append(WriteCase(32, 513, 4800, tasks, faulty))
    cases.append(WriteCase(32, 513, 4800, tasks, uses[:511]))
    cases.append(WriteCase(32, 513, 4800, tasks, uses[:20]))
    return cases


# A list with two entries swapped, one doubled, or one dropped.
def disturbed(rng, entries):
    entries = list(entries)
    if not entries:
        return entries
    i, j = rng.randrange(len(entries)), rng.randrange(len(entries))
    act = rng.randrange(3)
    if act == 0:
        entries[i], entries[j] = entries[j], entries[i]
    elif act == 1:
        entries.insert(i, entries[j])
    else:
        entries.pop(i)
    return entries


# Tables with entries out of place, and with entries near the ends of their ranges.
def disordered_cases(rng):
    cases = []
    for _ in range(120):
        tasks, uses = random_table(rng, 2 + rng.randrange(3), 3)
        cases.append(plain_case(disturbed(rng, tasks), uses, 200))
        cases.append(plain_case(tasks, disturbed(rng, uses), 200))
    for _ in range(120):
        tasks, uses = random_table(rng, 1 + rng.randrange(3), 2)
        at = rng.randrange(len(uses) + 1)
        use = near_edge_use(rng, pick(rng, tasks).priority)
        cases.append(plain_case(tasks, uses[:at] + [use] + uses[at:], 120))
    return cases


# Sums of sections at C and one past it, in the first, middle and last use.
def sum_cases():
    tasks = [replace(BASE, priority=p, c=100) for p in (12, 11, 10)]
    cases = []
    for owner in (12, 11, 10):
        for lengths in ((100,), (101,), (40, 60), (40, 61), (40, 30, 30), (40, 30, 31), (101, 1, 1), (40, 61, 1)):
            uses = [Use(owner, 1 + i, 1, length) for i, length in enumerate(lengths)]
            cases.append(plain_case(tasks, uses, 84))
        cases.append(plain_case(tasks, [Use(owner, 1, 255, MILLION)], 84))
    return cases


# All calls of the writer, in order.
def write_cases(rng):
    return (valid_cases(rng) + range_cases() + ignored_cases(rng) + empty_entry_cases(rng)
            + many_task_cases() + many_use_cases(rng) + disordered_cases(rng) + sum_cases())
