"""Accepted tables for the analysis: task sets as in experiments, edges, slow ones, and one for each slip."""

from table_cases import named_tables, pick, some_of
from tables import MILLION, Task, Use, table_bytes

# Tables in rows: priority, setting, X, C, S, D, T, then uses as resource, N, L.
TWO_USERS = [(2, 0, 0, 1, 0, 7, 7, (1, 1, 1)), (1, 0, 0, 1, 0, 4, 4, (1, 1, 1))]
FULL_PAIR = [(2, 0, 0, 1, 0, 4, 4), (1, 0, 0, 3, 0, 4, 4)]
CHARGED = [(2, 1, 1, 1, 1, 8, 8), (1, 0, 0, 1, 0, 8, 8)]
TIGHT_BAG = [(2, 0, 2, 1, 1, 6, 18, (1, 1, 1)), (1, 0, 0, 1, 0, 2, 2, (1, 1, 1))]
AT_SETTING = [(2, 1, 1, 1, 0, 16, 16, (1, 1, 1)), (1, 0, 0, 3, 0, 9, 16, (1, 2, 1))]
TWO_ROUNDS = [(2, 0, 2, 1, 0, 12, 12, (1, 1, 1)), (1, 0, 0, 2, 0, 10, 10, (1, 1, 2))]
# Here (4, 6) and (5, 8) both agree, and the larger is the answer.
TWO_AGREEING = [(2, 0, 2, 2, 1, 7, 8, (1, 1, 1)), (1, 0, 2, 3, 1, 10, 10, (1, 1, 1))]
# The table at which each slip of slips.py shows.
SHOWN_BY = {
    "SleepAndJitter": [(2, 1, 1, 1, 1, 3, 3), (1, 0, 0, 1, 0, 10, 10)],
    "NoJitter": [(2, 0, 2, 2, 2, 5, 5), (1, 0, 0, 3, 0, 16, 16)],
    "JitterFromDeadline": FULL_PAIR,
    "JitterWithoutC": FULL_PAIR,
    "JitterLessSleep": [(2, 0, 2, 2, 2, 5, 5), (1, 0, 0, 3, 0, 16, 16)],
    "AlwaysJitter": CHARGED,
    "AlwaysSleep": [(2, 0, 1, 1, 2, 6, 20), (1, 0, 0, 1, 0, 6, 6)],
    "StrictSetting": CHARGED,
    "NoSleepInCharge": CHARGED,
    "NoCeilings": [(2, 0, 0, 1, 0, 3, 3), (1, 0, 0, 1, 0, 3, 3, (1, 1, 1))],
    "StrictCeiling": TWO_USERS,
    "OwnResources": [(3, 0, 0, 2, 0, 8, 10, (1, 1, 1)), (2, 0, 0, 2, 0, 7, 7), (1, 0, 0, 2, 0, 15, 15, (1, 1, 1))],
    "Smallest": [(2, 0, 0, 5, 0, 25, 25, (1, 3, 1), (2, 1, 2)), (1, 0, 0, 3, 0, 11, 11, (1, 1, 1), (2, 1, 2))],
    "OnlyExtra": TWO_USERS,
    "ExtraManyTimes": [(2, 1, 1, 1, 0, 6, 6, (1, 1, 1)), (1, 0, 0, 2, 0, 11, 11, (1, 1, 1))],
    "OnlyExtraManyTimes": TWO_USERS,
    "NoExtra": [(2, 1, 0, 2, 0, 9, 10, (1, 1, 2)), (1, 0, 0, 1, 0, 5, 5, (1, 1, 1))],
    "AlwaysExtra": TWO_USERS,
    "ExtraAndOneMore": [(3, 1, 0, 1, 0, 14, 14, (1, 1, 1)), (2, 1, 0, 2, 0, 9, 19, (1, 1, 2)),
                        (1, 0, 0, 3, 0, 9, 9, (1, 1, 1))],
    "ExtraFromMiddle": TWO_ROUNDS,
    "MiddleWithSetting": AT_SETTING,
    "AllMiddle": AT_SETTING,
    "FloorInBag": TWO_USERS,
    "FloorAndOneInBag": [(2, 0, 2, 1, 4, 12, 12, (1, 1, 1)), (1, 0, 0, 4, 0, 13, 13, (1, 1, 2))],
    "NoValueInBag": TIGHT_BAG,
    "DeadlineInBag": TWO_ROUNDS,
    "FloorWithSleep": [(2, 1, 0, 1, 0, 7, 7), (1, 0, 0, 1, 0, 15, 15)],
    "FloorAndOneWithSleep": [(2, 1, 0, 3, 0, 6, 6), (1, 0, 0, 3, 0, 22, 24)],
    "FloorWithJitter": FULL_PAIR,
    "FloorAndOneWithJitter": FULL_PAIR,
    "NumberIgnored": [(2, 0, 1, 1, 0, 12, 12, (1, 1, 1)), (1, 0, 0, 3, 0, 15, 15, (1, 2, 1))],
    "JobsIgnored": TIGHT_BAG,
    "RepeatsInByte": [(2, 0, 64, 1, 0, 300, 300, (1, 1, 1)), (1, 0, 0, 128, 0, 130, 130, (1, 128, 1))],
    "RepeatsInTwoBytes": [(2, 0, 64, 65300, 0, 70000, 70000, (1, 1, 1)), (1, 0, 0, 128, 0, 128, 128, (1, 128, 1))],
    "RightSideInFourBytes": [(2, 1, 1, 1, 65535, 1, 1), (1, 0, 0, 65536, 0, MILLION, MILLION)],
    "OneRound": TWO_ROUNDS,
    "StopWhenBounded": TWO_ROUNDS,
    "ReplacedAfterRound": FULL_PAIR,
    "RisingPriority": FULL_PAIR,
    "FromPeriods": [(2, 0, 2, 5, 0, 12, 12, (1, 1, 5)), (1, 0, 0, 4, 0, 12, 25, (1, 1, 2))],
    "FromBelow": TWO_AGREEING,
    "FromOne": [(1, 0, 0, 2, 0, 2, 2)],
}

# Tables that need 4, 5, 7 and 12 rounds.
MANY_ROUNDS = [
    [(3, 0, 6, 46, 41, 273, 481, (1, 1, 23)), (2, 0, 2, 2, 75, 223, 360, (1, 1, 2)),
     (1, 0, 10, 105, 0, 491, 492, (1, 1, 50))],
    [(4, 0, 5, 14, 69, 179, 214, (1, 1, 13)), (3, 0, 6, 19, 1, 153, 355, (1, 1, 4)),
     (2, 0, 10, 23, 20, 123, 200, (1, 1, 17)), (1, 0, 8, 38, 9, 182, 218, (1, 1, 6))],
    [(8, 0, 5, 8, 8, 80, 90, (1, 1, 5)), (7, 0, 5, 1, 12, 65, 71, (1, 1, 1)), (6, 0, 5, 1, 3, 34, 99, (1, 1, 1)),
     (5, 0, 4, 2, 0, 97, 255), (4, 0, 3, 2, 10, 73, 97, (1, 1, 1)), (3, 0, 6, 9, 4, 46, 73, (1, 1, 2)),
     (2, 0, 6, 20, 7, 97, 110, (1, 1, 6)), (1, 0, 5, 11, 8, 113, 184, (1, 1, 4))],
    [(12, 1, 10, 6, 60, 201, 276, (1, 1, 5)), (11, 0, 6, 14, 32, 206, 214, (1, 1, 8)),
     (10, 0, 3, 7, 0, 88, 407, (1, 2, 1)), (9, 0, 7, 11, 1, 176, 240, (1, 1, 3)),
     (8, 0, 10, 25, 12, 193, 296, (1, 2, 10)), (7, 3, 4, 21, 0, 256, 268, (1, 1, 18)),
     (6, 0, 4, 1, 16, 154, 235, (1, 1, 1)), (5, 3, 10, 3, 14, 177, 256, (1, 1, 3)),
     (4, 0, 5, 11, 4, 156, 248, (1, 1, 6)), (3, 0, 5, 15, 2, 303, 377, (1, 1, 8)),
     (2, 0, 1, 46, 1, 416, 500, (1, 2, 2)), (1, 0, 10, 7, 6, 231, 237)],
]


# Tasks and uses from rows.
def from_rows(rows):
    return [Task(*row[:7]) for row in rows], [Use(row[0], *use) for row in rows for use in row[7:]]


# A number from low to high, both included.
def within(rng, low, high):
    return low + rng.randrange(high - low + 1)


# True once in so many times.
def one_in(rng, many):
    return rng.randrange(many) == 0


# A number with so many bits, so that each doubling is as likely as the next.
def log_uniform(rng, low_bits, high_bits):
    bits = within(rng, low_bits, high_bits)
    return 2**(bits - 1) + rng.getrandbits(bits) % 2**(bits - 1)


# A whole cut into so many parts at even random places, as UUniFast cuts a utilisation.
def cut(rng, whole, parts):
    places = [0] + sorted(rng.randrange(whole + 1) for _ in range(parts - 1)) + [whole]
    return [after - before for before, after in zip(places, places[1:])]


# Most sleeps: none, a few, or now and then many.
def sleeps(rng):
    if one_in(rng, 12):
        return pick(rng, [4, 8, 16, 63, 64])
    return rng.randrange(4)


# C, S, D, T and X of a task with this share of the processor in thousandths.
def shaped(rng, share, low_bits, high_bits):
    period = min(MILLION, log_uniform(rng, low_bits, high_bits))
    c = min(period, max(1, share * period // 1000))
    x = sleeps(rng)
    s = rng.randrange((period - c) // pick(rng, [3, 6, 12]) + 1) if x else 0
    d = period if one_in(rng, 3) else within(rng, c + s, period)
    return Task(0, 0, x, c, s, d, period)


# A system setting: 0, just below, that of a lower task, or any.
def a_setting(rng, priorities, priority):
    lower = [other for other in priorities if other < priority]
    return pick(rng, [0, priority - 1, pick(rng, lower) if lower else 0, rng.randrange(priority)])


# The tasks with priorities, the shortest deadline highest in most tables, and with settings.
def ranked(rng, tasks):
    count = len(tasks)
    if not one_in(rng, 8):
        tasks = sorted(tasks, key=lambda task: (task.d, task.t, task.c, task.s, task.x))
    priorities = some_of(rng, 255, count) if one_in(rng, 2) else list(range(1, count + 1))
    zero = one_in(rng, 3)
    return [Task(p, 0 if zero else a_setting(rng, priorities, p), task.x, task.c, task.s, task.d, task.t)
            for p, task in zip(reversed(priorities), tasks)]


# Short sections of these resources for some tasks; with `same`, all of that length.
def short_uses(rng, tasks, resources, same=None):
    uses = []
    for task in tasks:
        left = task.c
        for resource in resources:
            n = pick(rng, [1, 1, 2, 3, pick(rng, [5, 60, 255])])
            l = same or 1 + rng.randrange(max(1, task.c // pick(rng, [2, 6, 12])))
            if n * l <= left and one_in(rng, 2):
                uses.append(Use(task.priority, resource, n, l))
                left -= n * l
    return uses


# A task set in the style of schedulability experiments, its utilisation in thousandths up to `most`.
def experiment(rng, count, low_bits, high_bits, most_resources, most):
    shares = cut(rng, within(rng, 100, most), count)
    tasks = ranked(rng, [shaped(rng, share, low_bits, high_bits) for share in shares])
    resources = some_of(rng, 16, rng.randrange(most_resources + 1))
    return tasks, short_uses(rng, tasks, resources)


# A table of small numbers only.
def small_numbers(rng, most_tasks, top):
    tasks = []
    for _ in range(1 + rng.randrange(most_tasks)):
        x = rng.randrange(4) if one_in(rng, 2) else 0
        c = within(rng, 1, min(5, top))
        s = rng.randrange(5) if x else 0
        d = within(rng, min(c + s, top), top)
        tasks.append(Task(0, 0, x, c, s, d, d if one_in(rng, 2) else within(rng, d, top + 4)))
    tasks = ranked(rng, tasks)
    return tasks, short_uses(rng, tasks, some_of(rng, 3, rng.randrange(3)))


# Tasks of small numbers that sleep and share; about one table in a hundred has several vectors that agree.
def sharing(rng, count, top):
    tasks, uses = [], []
    for priority in range(count, 0, -1):
        c = within(rng, 1, 3)
        s = rng.randrange(3)
        d = min(top, c + s + rng.randrange(6))
        tasks.append(Task(priority, 0, within(rng, 1, 3), c, s, d, d + rng.randrange(3)))
        uses.append(Use(priority, 1, 1, within(rng, 1, c)))
    return tasks, uses


# Lower tasks with short periods and sections for a sleeping task above, inside its middle set and outside.
def blocked(rng):
    tasks = [Task(0, 0, 1 + rng.randrange(6), within(rng, 1, 5), rng.randrange(6), within(rng, 20, 99), 99)]
    for _ in range(2 + rng.randrange(4)):
        period = pick(rng, [8, 10, 12, within(rng, 8, 40), within(rng, 8, 40), within(rng, 20, 60)])
        tasks.append(Task(0, 0, rng.randrange(3), within(rng, 2, 8), 0, period, period))
    if one_in(rng, 2):
        tasks = tasks[1:] + tasks[:1]
    count = len(tasks)
    low = rng.randrange(count)
    tasks = [Task(count - i, min(low, count - i - 1), task.x, task.c, task.s, task.d, task.t)
             for i, task in enumerate(tasks)]
    return tasks, short_uses(rng, tasks, [1, 2, 3][:1 + rng.randrange(3)], pick(rng, [None, None, 2]))


# Tasks that all sleep often and share one resource, so that values fall for several rounds.
def entwined(rng):
    tasks = []
    for _ in range(3 + rng.randrange(6)):
        c = within(rng, 1, 16)
        s = rng.randrange(30)
        d = c + s + 30 + rng.randrange(150)
        tasks.append(Task(0, 0, within(rng, 2, 10), c, s, d, d + rng.randrange(60)))
    count = len(tasks)
    tasks = [Task(count - i, 0, task.x, task.c, task.s, task.d, task.t) for i, task in enumerate(tasks)]
    return tasks, [Use(task.priority, 1, 1, within(rng, 1, min(task.c, 8))) for task in tasks if not one_in(rng, 6)]


# A task each of whose fields stands near an end of its range.
def edge_task(rng):
    period = pick(rng, [1, 2, 255, 256, 65535, 65536, MILLION - 1, MILLION])
    c = pick(rng, [1, 1, (period + 3) // 4, period])
    d = pick(rng, [c, (c + period) // 2, period, period])
    x = pick(rng, [0, 1, 63, 64])
    s = pick(rng, [0, max(0, d - c), d - c + 1, 1, MILLION]) if x else 0
    return Task(0, 0, x, c, min(s, MILLION), d, period)


# A table of such tasks with sections of one length, or with all of C in one section.
def edges(rng):
    tasks = ranked(rng, [edge_task(rng) for _ in range(1 + rng.randrange(4))])
    if one_in(rng, 3):
        return tasks, [Use(task.priority, pick(rng, [1, 16]), 1, task.c) for task in tasks]
    return tasks, short_uses(rng, tasks, some_of(rng, 16, rng.randrange(3)), pick(rng, [None, 1, 2, 64]))


# Much sleeping: X of 64 and many equal or nearly equal sections below.
def many_sleeps(rng):
    low = within(rng, 1, 3)
    tasks = [Task(0, 0, 64, 9, pick(rng, [0, 1, 500]), 9000, 9000)]
    tasks += [Task(0, 0, pick(rng, [0, 64]), 300 * low, 0, 9000 + i, 20000) for i in range(low)]
    tasks = ranked(rng, tasks)
    uses = [Use(tasks[0].priority, 7, 1, 1)]
    return tasks, uses + [Use(task.priority, 7, pick(rng, [1, 32, 64, 65, 66, 255]), pick(rng, [1, low]))
                          for task in tasks[1:]]


# Tasks whose periods double and that leave one part in 2^steps for the lowest, which so needs very many steps.
def doubling(steps, c):
    tasks = [Task(steps + 1 - i, steps - i, 0, 1, 0, 2**(i + 1), 2**(i + 1)) for i in range(steps)]
    return tasks + [Task(1, 0, 0, c, 0, MILLION, MILLION)], []


# Tables whose evaluations are many, and some on each side of the allowance of 100,000.
def slow_tables():
    full = [(255, 0, 0, 1, 0, 1, 1)]
    pair = [(3, 0, 0, 1, 0, 2, 2), (2, 0, 0, 1, 0, 2, 2)]
    tables = [from_rows(full + [(1, 0, 0, 1, 0, d, d)]) for d in (1, 99_998, 99_999, 100_000, MILLION)]
    tables += [from_rows(pair + [(1, 0, 0, 1, 0, d, d)]) for d in (99_993, 99_994, 99_995, 99_996)]
    tables.append(from_rows(full + [(1, 0, 0, 1, 0, 60_000, MILLION)]))
    tables.append(from_rows(full + [(2, 0, 0, 7, 0, 350_000, MILLION), (1, 0, 1, 9, 1, 500_000, MILLION)]))
    tables.append(from_rows(full + [(2, 0, 0, 7, 0, 349_993, MILLION), (1, 0, 1, 9, 1, 500_000, MILLION)]))
    return tables + [doubling(8, 900), doubling(11, 100), doubling(13, 20)]


# Tables with all 32 tasks, or with all 16 resources, or both.
def big_tables(rng):
    tables = [experiment(rng, 32, 6, 20, most, 200) for most in (0, 1, 1, 2, 2, 3)]
    tables += [experiment(rng, count, 5, 14, 16, 600) for count in (2, 3, 4, 6, 8, 12, 16)]
    for _ in range(3):
        tasks = ranked(rng, [Task(0, 0, pick(rng, [0, 1, 64]), 20, 0, 5000 + 900 * i, MILLION) for i in range(32)])
        tables.append((tasks, [Use(task.priority, 1 + (task.priority + i) % 16, 1, within(rng, 1, 5))
                               for task in tasks for i in range(2) if i == 0 or (task.priority + 1) % 16]))
    tasks = ranked(rng, [Task(0, 0, 3, 400, 9, 60_000 + 9000 * i, MILLION) for i in range(32)])
    tables.append((tasks, [Use(task.priority, r, 1, within(rng, 1, 25)) for task in tasks for r in range(1, 17)]))
    return tables


# All the tables, in order.
def all_tables(rng):
    tables = named_tables() + [from_rows(rows) for rows in SHOWN_BY.values()] + slow_tables() + big_tables(rng)
    tables += [from_rows(rows) for rows in MANY_ROUNDS]
    tables += [small_numbers(rng, 4, 30) for _ in range(500)] + [small_numbers(rng, 3, 8) for _ in range(100)]
    tables += [experiment(rng, 2 + rng.randrange(5), 4, 10, 3, 900) for _ in range(600)]
    tables += [experiment(rng, 3 + rng.randrange(8), 8, 20, 5, 700) for _ in range(400)]
    tables += [edges(rng) for _ in range(300)] + [many_sleeps(rng) for _ in range(60)]
    tables += [blocked(rng) for _ in range(300)] + [entwined(rng) for _ in range(160)]
    return tables + [sharing(rng, 2 + rng.randrange(2), 12) for _ in range(200)]


# At least 2,000 accepted tables as bytes, each once.
def make_cases(rng):
    seen = set()
    for tasks, uses in all_tables(rng):
        data = table_bytes(tasks, uses)
        if data not in seen:
            seen.add(data)
            yield data
