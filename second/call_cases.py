"""All call lists for the scheduler, in order, and the two files that they make."""

import random
from pathlib import Path

from analysis_cases import within
from call_files import case_bytes
from call_lists import add, arbitrary_call, begin, go_on, pressing_call, random_list, sleepers_table
from made_up import filled_anyhow, made_up_list
from scheduler import SERIALS, changed, fresh_state, set_up
from table_cases import full_table, named_tables, pick
from tables import Task, Use, table_bytes

SEED = 20250702
DATA = Path("crates/calls/data/calls")
LINES = Path("crates/calls/stdout")
# How many lists begin with a made-up state; each takes 1,349 bytes.
MADE_UP = 1_000
# How many lists have sleepers above holders.
SLEEPERS = 200

# The call lists K and L of the scope document, and the unlock in K under the number of a job that doesn't run.
K = [("r", 1), ("l", 1, 0, 1), ("r", 3), ("r", 2), ("u", 1, 0, 1), ("s", 3, 0), ("c", 2, 0), ("l", 1, 0, 1),
     ("w", 3, 0), ("u", 1, 0, 1)]
L = [("r", 1), ("l", 1, 0, 1), ("r", 3), ("u", 1, 0, 1), ("s", 3, 0), ("r", 2), ("c", 2, 0), ("w", 3, 0), ("c", 3, 0)]
BESIDE_K = ("u", 1, 0, 1)

# A sleeper of setting 1 above a holder for whose section a third task waits: the holder goes on through the sleep.
FAIR_TABLE = table_bytes([Task(3, 1, 1, 2, 1, 90, 90), Task(2, 0, 0, 2, 0, 90, 90), Task(1, 0, 0, 2, 0, 90, 90)],
                         [Use(2, 1, 1, 1), Use(1, 1, 1, 1)])
FAIR = [("r", 1), ("l", 1, 0, 1), ("r", 3), ("s", 3, 0), ("r", 2), ("u", 1, 0, 1), ("c", 2, 0), ("w", 3, 0),
        ("c", 3, 0), ("c", 1, 0)]
# Two holders not above the system priority: both sections are gone through, one after the other, while task 3 is ready.
TWO_HELD_TABLE = table_bytes([Task(4, 3, 1, 2, 1, 90, 90), Task(3, 0, 0, 2, 0, 90, 90), Task(2, 0, 0, 2, 0, 90, 90),
                              Task(1, 0, 0, 2, 0, 90, 90)], [Use(2, 2, 1, 1), Use(1, 1, 1, 1)])
TWO_HELD = [("r", 1), ("l", 1, 0, 1), ("r", 2), ("l", 2, 0, 2), ("r", 4), ("r", 3), ("s", 4, 0), ("u", 2, 0, 2),
            ("u", 1, 0, 1), ("w", 4, 0), ("c", 4, 0), ("c", 3, 0), ("c", 2, 0), ("c", 1, 0)]
# A job that is ready after its sleep, but not above the system priority of a second sleeper: the holder goes on.
AFTER_SLEEP_TABLE = table_bytes([Task(3, 2, 1, 2, 1, 90, 90), Task(2, 1, 1, 2, 1, 90, 90),
                                 Task(1, 0, 0, 2, 0, 90, 90)], [Use(1, 1, 1, 1)])
AFTER_SLEEP = [("r", 1), ("l", 1, 0, 1), ("r", 2), ("s", 2, 0), ("r", 3), ("w", 2, 0), ("s", 3, 0), ("u", 1, 0, 1),
               ("w", 3, 0), ("c", 3, 0), ("c", 2, 0), ("c", 1, 0)]

# A task that sleeps once and has one section, and one below it.
ONE_EACH = table_bytes([Task(5, 0, 1, 3, 1, 90, 90), Task(2, 0, 0, 2, 0, 90, 90)], [Use(5, 1, 1, 1), Use(2, 1, 1, 1)])


# The lists of the scope document, and those with a holder not above the system priority; the state after each call.
def named_lists():
    a, b = (table_bytes(*table) for table in named_tables()[:2])
    for table, calls in ((a, K + [BESIDE_K]), (b, L), (FAIR_TABLE, FAIR), (TWO_HELD_TABLE, TWO_HELD),
                         (AFTER_SLEEP_TABLE, AFTER_SLEEP)):
        run = begin("T", table)
        for call in calls:
            add(add(run, *call), "S")
        yield run


# A table for each refusal of the reader, by its number and once more.
def refused_tables():
    task, use = Task(9, 3, 2, 40, 7, 90, 300), Use(9, 2, 3, 4)
    good = table_bytes([task], [use])
    thirty_three = table_bytes([Task(99 - i, 0, 0, 1, 0, 1, 1) for i in range(33)], [])
    return [b"", good[:-1], b"\4", good[:-1] + b"\0", b"\3", table_bytes([task, task], []), thirty_three,
            good[:-1] + thirty_three, table_bytes([Task(9, 9, 2, 40, 7, 90, 300)], [use]),
            table_bytes([task], [Use(9, 17, 1, 1)]), table_bytes([task], [use, Use(9, 3, 1, 29)]),
            table_bytes([task], [Use(9, 2, 11, 4)]), good + b"\3", good + good]


# Lists of calls on the scheduler that a refused table leaves, before and after one on a good table.
def refused_lists(rng):
    for table in refused_tables():
        run = go_on(rng, begin("T", table), 12)
        go_on(rng, add(run, "T", ONE_EACH), 6)
        yield go_on(rng, add(run, "T", table), 6)


# One job of the running task with wrong serials tried before each of its calls: the last, the next, and the ends.
def tried_job(run, priority):
    serial = run["state"]["entries"][0]["next"]
    add(run, "r", priority)
    wrong = {(serial + step) % SERIALS for step in (1, 2, SERIALS - 1, SERIALS - 2)} | {0, 1, SERIALS - 1}
    for kind, *resource in ("l", 1), ("u", 1), ("s",), ("w",), ("c",):
        for other in sorted(wrong - {serial}):
            add(run, kind, priority, other, *resource)
        add(run, kind, priority, serial, *resource)
    return add(run, "S")


# Lists past the last serial: by a burst of more releases than there are serials, and from just below by hand.
def wrap_lists():
    run = begin("T", ONE_EACH)
    for count in (0, SERIALS + 4, 3):
        add(run, "B", 5, count)
        for _ in range(3):
            tried_job(run, 5)
    yield run
    run = begin("M", changed(set_up(ONE_EACH)[2], 0, next=SERIALS - 3))
    for _ in range(6):
        tried_job(run, 5)
    yield run


# A list in which section upon section is opened, up to all 16, then a job comes to wait for each, then random calls.
def tower_list(rng, height, length):
    tasks = [Task(p, 0, 2, 9, 2, 90, 90) for p in range(32, 0, -1)]
    run = begin("T", table_bytes(tasks, [Use(p, (p + 1) // 2, 2, 1) for p in range(32, 0, -1)]))
    for resource in range(1, height + 1):
        add(run, "r", 2 * resource - 1)
        add(run, "l", 2 * resource - 1, 0, resource)
    for resource in range(1, height + 1):
        add(run, "r", 2 * resource)
    return go_on(rng, run, length)


# A list in which sleepers stand above tasks with sections.
def sleepers_list(rng):
    table = sleepers_table(rng, within(rng, 1, 3), within(rng, 2, 6))
    return go_on(rng, begin("T", table), within(rng, 30, 90), pressing_call)


# Lists on made-up states without tasks, all places filled with what must not count.
def taskless_lists(rng):
    for at in range(12):
        state = filled_anyhow(rng, fresh_state([]))
        run = begin("M", {**state, "open": [(0, 1)] * (at // 8)})
        for _ in range(4):
            add(run, *arbitrary_call(rng, {**state, "count": 3}))
        yield add(run, "S")


# Lists on full tables: all tasks and all uses, so every section's ceiling is the highest priority.
def full_lists(rng):
    for _ in range(4):
        yield go_on(rng, begin("T", table_bytes(*full_table(rng))), 150)


# All lists, in order.
def all_lists(rng):
    yield from named_lists()
    yield from refused_lists(rng)
    for _ in range(SLEEPERS):
        yield sleepers_list(rng)
    for _ in range(700):
        yield random_list(rng, within(rng, 1, 6), pick(rng, [1, 2, 4]), within(rng, 8, 30))
    for _ in range(MADE_UP):
        yield made_up_list(rng)
    for _ in range(450):
        yield random_list(rng, within(rng, 2, 6), pick(rng, [1, 3, 5]), within(rng, 60, 140))
    for _ in range(60):
        yield random_list(rng, within(rng, 7, 16), 6, within(rng, 100, 200))
    for _ in range(40):
        yield random_list(rng, 32, pick(rng, [2, 4, 8]), within(rng, 200, 300))
    for _ in range(36):
        yield random_list(rng, within(rng, 2, 8), 4, 1000)
    for height in range(1, 17):
        yield tower_list(rng, height, 120)
    yield from taskless_lists(rng)
    yield from full_lists(rng)
    yield from wrap_lists()


# The two files that the seed gives.
def make_call_files():
    data, texts = [], []
    for run in all_lists(random.Random(SEED)):
        data += [case_bytes(case) for case in run["cases"]]
        texts += run["lines"]
    return {DATA: b"".join(data), LINES: "".join(texts).encode("ascii")}
