"""Texts for pack: those of accepted tables, and every kind of damage."""

from dataclasses import replace

from notation import HEADING, TASK_COLUMNS, USE_COLUMNS, show
from notation_rows import (damage_column, loose, misspelt, mistyped, outside, plain, plain_text, rows_and_one, rows_of,
                           rows_of_any, small_table, spaced, used_table, with_zeros)
from table_cases import MILLION, between, full_table, named_tables, pick, plain_tasks, some_of
from tables import Task, Use, table_bytes

SEED = 20250612
STRANGE = [b"\n", b"#", b"\r", b" ", b"0", b"\x00", b"\x0b", b"\x0c", b"\xa0"]
COLUMNS = [(0, number, column) for number, column in enumerate(TASK_COLUMNS)]
COLUMNS += [(1, number, column) for number, column in enumerate(USE_COLUMNS)]
# A small table with a task that sleeps and one that does not; the uses of each leave room in its run.
PLAIN = ([Task(30, 4, 2, 40, 60, 250, 330), Task(20, 0, 0, 45, 0, 330, 500)],
         [Use(30, 1, 2, 4), Use(30, 3, 1, 9), Use(20, 1, 1, 6)])


# Texts of accepted tables.
def good_texts(rng):
    texts = [show(table_bytes(*table)) for table in named_tables()]
    texts += [show(table_bytes(*small_table(rng))) for _ in range(6)]
    texts += [loose(rng, rows_of(*table)) for table in named_tables() + [PLAIN]]
    texts += [loose(rng, rows_of(*small_table(rng))) for _ in range(40)]
    texts += [spaced(rng, with_zeros(rng, rows_of(*small_table(rng)))) for _ in range(15)]
    most = Task(255, 254, 64, MILLION, MILLION, MILLION, MILLION)
    for tasks, uses in (([most], [Use(255, 16, 1, MILLION)]), ([most], [Use(255, 1, 255, 3921)]),
                        ([Task(1, 0, 0, 1, 0, 1, 1)], [Use(1, 1, 1, 1)]), ([replace(most, x=1, s=0)], [])):
        texts.append(plain_text(tasks, uses))
    return texts


# Every column of either kind of line with every such damage.
def column_texts(rng):
    texts = []
    for kind, number, _ in COLUMNS:
        for way in range(7):
            rows, row = rows_and_one(rng, kind)
            damage_column(rng, row, number, way)
            texts.append(spaced(rng, [row for row in rows if row]))
    return texts


# Every column with values outside its range.
def range_texts(rng):
    texts = []
    for kind, number, column in COLUMNS:
        values = outside(column)
        for word in values[:5] + [pick(rng, values[5:])]:
            rows, row = rows_and_one(rng, kind)
            row[2 * number + 1] = word
            texts.append(spaced(rng, rows))
    return texts


# Lines that go on, or with two words swapped or wrong.
def word_texts(rng):
    texts = []
    for word in (b"9", b"task", b"use", b"period", b"0x", b"\xff\xfe", b"a" * 24, b"b" * 25, b".", b"1;"):
        rows, row = rows_and_one(rng, rng.randrange(2))
        row.append(word)
        texts.append(spaced(rng, rows))
    for _ in range(30):
        rows, row = rows_and_one(rng, rng.randrange(2))
        at, other = rng.randrange(len(row)), rng.randrange(len(row))
        way = rng.randrange(3)
        if way == 0:
            row[at], row[other] = row[other], row[at]
        elif way == 1:
            row[at], row[other] = mistyped(rng, row[at]), b"0"
        else:
            row[at], row[other] = b"1000001", misspelt(rng, row[other])
        texts.append(spaced(rng, rows))
    return texts


# A task whose own fields break a rule, or two, and some with a wrong word at the end of that line or of the last.
def field_texts(rng):
    changes = [lambda t: dict(setting=t.priority), lambda t: dict(setting=min(254, t.priority + rng.randrange(100))),
               lambda t: dict(x=0, s=1), lambda t: dict(x=0, s=between(rng, 1, MILLION)),
               lambda t: dict(c=min(MILLION, t.d + 1)), lambda t: dict(c=MILLION, d=t.c),
               lambda t: dict(t=max(1, t.d - 1)), lambda t: dict(d=MILLION, t=t.d)]
    texts = []
    for number in range(64):
        tasks, uses = small_table(rng)
        at = rng.randrange(len(tasks))
        change = changes[number % 8](tasks[at])
        if number >= 48:
            change |= changes[rng.randrange(8)](tasks[at])
        tasks[at] = replace(tasks[at], **change)
        rows = rows_of_any(tasks, uses)
        if number >= 56:
            rows[at if number < 60 else -1][-1:] = pick(rng, [[b"1", b"more"], [b"1o"], [b"0"], []])
        texts.append(spaced(rng, rows))
    return texts


# A task that breaks one, some or all of the rules on its own fields.
def broken_texts():
    changes = [dict(setting=30), dict(x=0), dict(c=251), dict(t=249)]
    texts = []
    for chosen in range(1, 16):
        change = {name: value for bit in range(4) if chosen >> bit & 1 for name, value in changes[bit].items()}
        texts.append(plain_text([replace(PLAIN[0][0], **change)], []))
    return texts


# Tasks that rise, stay or come after a use, some of them with fields that break a rule too.
def task_order_texts(rng):
    texts = []
    for number in range(24):
        tasks, uses = used_table(rng)
        before = pick(rng, tasks)
        rise = between(rng, 0, 255 - before.priority) if number % 2 else 0
        more = replace(before, priority=before.priority + rise, setting=pick(rng, [0, before.setting, 254]))
        texts.append(spaced(rng, rows_of_any(tasks[:tasks.index(before) + 1] + [more], uses)))
    for _ in range(16):
        tasks, uses = used_table(rng)
        rows = rows_of(tasks, uses)
        at = len(tasks) + 1 + rng.randrange(len(uses))
        low = max(1, tasks[-1].priority - 1)
        more = pick(rng, [replace(tasks[-1], priority=low, setting=0), tasks[-1], replace(tasks[0], setting=254)])
        texts.append(spaced(rng, rows[:at] + rows_of_any([more], []) + rows[at:]))
    return texts


# Uses of no task: of one that is not there, or that comes later.
def no_task_texts(rng):
    texts = []
    for _ in range(14):
        tasks, uses = used_table(rng)
        at = rng.randrange(len(uses))
        missing = pick(rng, [p for p in range(1, 256) if p not in [task.priority for task in tasks]])
        uses[at] = replace(uses[at], priority=pick(rng, [missing, missing, (missing + 1) % 255 + 1]))
        texts.append(spaced(rng, rows_of_any(tasks, uses)))
    for _ in range(6):
        tasks, uses = used_table(rng)
        texts.append(spaced(rng, rows_of_any([], uses) + rows_of_any(tasks, [])))
    return texts + [plain_text([], [Use(1, 1, 1, 1)]), plain_text([], [Use(255, 16, 255, MILLION)] * 2)]


# A use after another, of the same task or the one before or the next, with each near resource.
def use_order_texts():
    tasks = plain_tasks(3, 12)
    seconds = [Use(p, r, 1, 1) for p in (10, 11, 12) for r in (1, 4, 5, 6, 16)]
    seconds += [Use(11, 5, 99, 99), Use(12, 6, 51, 1)]
    return [plain_text(tasks, [Use(11, 5, 1, 1), second]) for second in seconds]


# Sections that add up to the run, to one more and to much more, at the first, the second or the third use.
def section_texts(rng):
    tasks = [replace(PLAIN[0][0], priority=p, c=100) for p in (62, 61, 60)]
    texts = []
    for lengths in ((100,), (101,), (40, 60), (40, 61), (40, 30, 30), (40, 30, 31), (99, 2, 1), (1, 1, 99), (MILLION,)):
        owner = pick(rng, [60, 61, 62])
        own = [Use(owner, 2 + i, 1, length) for i, length in enumerate(lengths)]
        around = [Use(p, 7, 4, 25) for p in (62, 61, 60)]
        uses = [u for u in around if u.priority > owner] + own + [u for u in around if u.priority < owner]
        texts.append(spaced(rng, rows_of_any(tasks, uses)))
    for n, length in ((100, 1), (3, 33), (3, 34), (101, 1), (255, MILLION), (255, 16843010)):
        texts.append(plain_text(tasks, [Use(61, 1, n, length)]))
    roomy = Task(9, 0, 0, MILLION, 0, MILLION, MILLION)
    return texts + [plain_text([roomy], [Use(9, r, 255, MILLION) for r in range(1, 17)]),
                    plain_text([roomy], [Use(9, 1, 255, 3921), Use(9, 2, 1, 145)]),
                    plain_text([roomy], [Use(9, 1, 255, 3921), Use(9, 2, 1, 146)])]


# Lines that break a rule among values and lines, with zeros before their numbers.
def zeros_texts(rng):
    tasks, uses = PLAIN
    tables = [([replace(tasks[0], **change)], []) for change in (dict(setting=30), dict(x=0), dict(c=251), dict(t=249))]
    tables += [(plain_tasks(33, 90), []), ([tasks[0], tasks[0]], []), (tasks, [Use(25, 1, 1, 1)]),
               (tasks, [uses[0], uses[0]]), (tasks, [Use(20, 1, 9, 9)])]
    rows = [rows_of_any(*table) for table in tables] + [rows_of_any(*PLAIN) + rows_of_any(tasks[1:], [])]
    return [plain(with_zeros(rng, lines)) for lines in rows]


# Lines swapped, dropped, doubled or moved.
def line_texts(rng):
    texts = []
    for _ in range(30):
        rows = rows_of(*used_table(rng))
        at, other = rng.randrange(len(rows)), rng.randrange(len(rows))
        way = rng.randrange(4)
        if way == 0:
            rows[at], rows[other] = rows[other], rows[at]
        elif way == 1:
            rows.pop(at)
        elif way == 2:
            rows.insert(other, rows[at])
        else:
            rows.insert(other, rows.pop(at))
        texts.append(spaced(rng, rows))
    return texts


# Texts with bytes deleted, put in or changed, and texts cut short or with a run of bytes cut out.
def byte_texts(rng):
    texts = []
    for number in range(90):
        text = spaced(rng, rows_of(*small_table(rng)))
        for _ in range(1 + rng.randrange(3)):
            at = rng.randrange(len(text) + 1)
            other = pick(rng, [bytes([rng.randrange(256)]), pick(rng, STRANGE)])
            ways = [text[:at] + text[at + 1:], text[:at] + other + text[at:], text[:at] + other + text[at + 1:],
                    text[:at], text[:at] + text[at + rng.randrange(30):]]
            text = ways[number % 5]
        texts.append(text)
    return texts


# Words and numbers that are long, or have bytes that are not printed.
def long_word_texts(rng):
    words = [b"w" * count for count in (23, 24, 25, 26, 300)]
    words += [bytes(range(start, start + 8)) for start in (1, 14, 120, 241)]
    words += [b"\x7f!~", b"\xc3\xa9t\xc3\xa9", b"task\x00", b"use\x0b", b"\x0ctask", b"\x85", b"...", b"task" * 7]
    texts = [word + b" 1\n" for word in words]
    texts += [b"\n# one\n" + word for word in words[::2]]
    numbers = [b"0" * 300, b"0" * 23, b"0" * 24, b"0" * 25, b"9" * 24, b"9" * 25, b"1" + b"0" * 400, b"0" * 40 + b"256",
               b"0" * 30 + b"1000001", b"9" * 24 + b"x", b"1" * 5000]
    for number in numbers:
        kind, at, _ = pick(rng, [column for column in COLUMNS if column[2].low == 1])
        rows, row = rows_and_one(rng, kind)
        row[2 * at + 1] = number
        texts.append(spaced(rng, rows))
    for width in (20, 30, 300):
        rows = [[word.zfill(width) if word.isdigit() else word for word in row] for row in rows_of(*PLAIN)]
        texts.append(plain(rows))
    return texts


# Texts with no line of a table, and bytes that are no text.
def odd_texts(rng):
    lines = plain(rows_of(*PLAIN))
    texts = [b"", b"\n", b"\n\n\n", b" ", b"\r", b"\t\n", b"\r\n\r\n", b"#", b"#\n", b"# a\n# b", b"# a\n\n # b\n"]
    texts += [table_bytes(*table) for table in named_tables()[:4]] + [table_bytes(*small_table(rng)) for _ in range(4)]
    texts += [show(data) for data in (b"", b"\3", b"\4", bytes(40))]
    texts += [b"task", b"use", b"task\n", b"task#", b"task #1", b"task 1#\n", b"use 1 resource", b"task task"]
    texts += [HEADING.encode("ascii"), b"#" + lines, lines.replace(b"\n", b"\r"), lines.replace(b" ", b"")]
    return texts + [bytes(rng.randrange(256) for _ in range(rng.randrange(60))) for _ in range(20)]


# A table of 32 tasks with so many uses.
def wide_table(rng, count):
    tasks, uses = full_table(rng)
    return tasks, [uses[number - 1] for number in some_of(rng, len(uses), count)]


# Texts with many tasks and uses, accepted and with a fault in one of the last lines.
def big_texts(rng):
    tasks, uses = wide_table(rng, 300)
    texts = [plain_text(tasks, uses), show(table_bytes(*wide_table(rng, 100))), plain_text(*full_table(rng))]
    texts.append(loose(rng, rows_of(*wide_table(rng, 120))))
    last = uses[-1]
    texts.append(plain_text(tasks, uses[-90:] + [replace(last, n=255, l=MILLION, resource=16)]))
    texts.append(plain_text(tasks, uses[-90:] + [uses[-90]]))
    texts.append(plain_text(tasks, uses[:90]) + plain_text(tasks[:1], []))
    texts.append(plain_text(tasks, uses[:100]).replace(b"length", b"lenght"))
    texts.append(plain_text(tasks, uses[:100]) + b"use " + b"8" * 30)
    for more in (Task(1, 0, 0, 1, 0, 1, 1), Task(255, 254, 0, 9, 9, 8, 7), replace(tasks[-1], setting=254), tasks[0]):
        texts.append(plain_text(plain_tasks(32, 100) + [more], uses[:3]))
    for count in (31, 32, 33, 40):
        texts.append(spaced(rng, rows_of_any(plain_tasks(count, 200), [])))
    texts.append(plain_text(plain_tasks(32, 200), [Use(200, 1, 1, 1)]) + plain_text([Task(1, 0, 0, 1, 0, 1, 1)], []))
    return texts


# All the texts, in order.
def make_texts(rng):
    return (good_texts(rng) + column_texts(rng) + range_texts(rng) + word_texts(rng) + field_texts(rng)
            + broken_texts() + task_order_texts(rng) + no_task_texts(rng) + use_order_texts() + section_texts(rng)
            + zeros_texts(rng) + line_texts(rng) + byte_texts(rng) + long_word_texts(rng) + odd_texts(rng)
            + big_texts(rng))
