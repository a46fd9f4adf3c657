"""The lines of tables as words: spaced and remarked in many ways, and with words that are wrong."""

from dataclasses import astuple

from notation import HEADING, TASK_COLUMNS, USE_COLUMNS, show
from table_cases import pick, random_table
from tables import table_bytes

BLANKS = [b" ", b" ", b"  ", b"\t", b" \t ", b"\r", b"   "]
REMARKS = [b"#", b"# a remark", b"#task 1", b"## use 9 resource 99", b"#\t\r#", b"# \x00\xff\x80 caf\xc3\xa9", b"#" * 9]
LETTERS = b"oOlxXe-+.,_:;'%/"


# The lines of a table as lists of words, as show prints them.
def rows_of(tasks, uses):
    return [line.split() for line in show(table_bytes(tasks, uses)).splitlines()[2:]]


# The names and values of a task or a use by turns.
def row_of(columns, entry):
    cells = [(column.name.encode(), str(value).encode()) for column, value in zip(columns, astuple(entry))]
    return [word for cell in cells for word in cell]


# The lines of tasks and uses that need not be a table.
def rows_of_any(tasks, uses):
    return [row_of(TASK_COLUMNS, task) for task in tasks] + [row_of(USE_COLUMNS, use) for use in uses]


# Lines with one space between words.
def plain(rows):
    return b"".join(b" ".join(row) + b"\n" for row in rows)


# The text of tasks and uses that need not be a table, one space between words.
def plain_text(tasks, uses):
    return plain(rows_of_any(tasks, uses))


# A row with blanks of all kinds, and now and then a remark.
def loose_row(rng, row):
    line = pick(rng, [b"", b"", b" ", b"\t\t"])
    for word in row:
        line += word + pick(rng, BLANKS)
    if rng.randrange(3) == 0:
        line = pick(rng, [line, line.rstrip()]) + pick(rng, REMARKS)
    return pick(rng, [line, line.rstrip()])


# Rows with blanks of all kinds, remarks, empty lines, either line end, and at times none after the last.
def loose(rng, rows):
    end = pick(rng, [b"\n", b"\n", b"\r\n"])
    lines = []
    for row in rows:
        while rng.randrange(5) == 0:
            lines.append(pick(rng, [b"", b" ", b"\t", b"\r\r"] + REMARKS))
        lines.append(loose_row(rng, row))
    return end.join(lines) + pick(rng, [end, end, end + end, b""])


# Rows with zeros before some numbers.
def with_zeros(rng, rows):
    return [[b"0" * rng.randrange(4) + word if word.isdigit() else word for word in row] for row in rows]


# Rows as text in one of several ways.
def spaced(rng, rows):
    way = rng.randrange(4)
    if way == 0:
        return loose(rng, rows)
    return HEADING.encode("ascii") + plain(rows) if way == 1 and len(rows) < 4 else plain(rows)


# A small accepted table.
def small_table(rng):
    return random_table(rng, 1 + rng.randrange(3), rng.randrange(3))


# A small accepted table with a use.
def used_table(rng):
    while True:
        tasks, uses = random_table(rng, 1 + rng.randrange(3), 3)
        if uses:
            return tasks, uses


# A name with a letter more, fewer, other or of the other case.
def misspelt(rng, name):
    at = rng.randrange(len(name))
    ways = [name[:at] + name[at + 1:], name[:at] + b"q" + name[at + 1:], name + b"s", name.upper(), name + b":",
            name[:at] + name[at:at + 1].upper() + name[at + 1:], name + b"\x00", name[:1] + name]
    return pick(rng, ways)


# A number with something in it that is no digit.
def mistyped(rng, number):
    at = rng.randrange(len(number) + 1)
    letter = LETTERS[rng.randrange(len(LETTERS))]
    return number[:at] + bytes([letter]) + number[at:]


# Values that a column can't have, the first ones just outside and the others such that some of their bytes would do.
def outside(column):
    values = [column.high + 1, 2**32 + 1, 2**64 + 1, 10**7 + 1, 10**19 + 1, 10**30 + 1]
    if column.high < 256:
        values += [2**8 + 1, 2**16 + 1]
    return [b"0", b"000"] * column.low + [str(value).encode() for value in values]


# The rows of a table with a use, and the one in it of a task or of a use.
def rows_and_one(rng, kind):
    tasks, uses = used_table(rng)
    rows = rows_of(tasks, uses)
    at = rng.randrange(len(tasks)) if kind == 0 else len(tasks) + rng.randrange(len(uses))
    return rows, rows[at]


# Damage a row at one column: its name or its number is another, or missing, or doubled, or the line ends before it.
def damage_column(rng, row, number, way):
    name, value = 2 * number, 2 * number + 1
    if way == 0:
        row[name] = misspelt(rng, row[name])
    elif way == 1:
        row[value] = mistyped(rng, row[value])
    elif way == 2:
        del row[name]
    elif way == 3:
        del row[value]
    elif way < 6:
        del row[name + way - 4:]
    else:
        at = name + rng.randrange(2)
        row.insert(at, row[at])
