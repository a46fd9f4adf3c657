"""Tables as text: what show prints of a table's bytes, and what pack makes of a text."""

from dataclasses import astuple, dataclass

from tables import MILLION, MOST_TASKS, Refused, Task, Use, read, table_bytes

MOST_BYTES = 262144
MOST_OF_A_WORD = 24
HEADING = ("# A task table: first the tasks, by falling priority, then their uses of resources, in the same order.\n"
           "# run, sleep, deadline, period and length are times, all in one unit; docs/NOTATION.md has the ranges.\n")
END_OF_LINE = "the end of the line"


# A column of a line: its name, the width of its value where show prints it, and the ends of its range.
@dataclass(frozen=True)
class Column:
    name: str
    width: int
    low: int
    high: int


# The columns in the order of the fields of Task and of Use. Where another value is an end of a range, the least or the
# most that an accepted table can have stands here; the rule on the two values is tried later.
TASK_COLUMNS = [Column("task", 3, 1, 255), Column("setting", 3, 0, 254), Column("sleeps", 2, 0, 64),
                Column("run", 7, 1, MILLION), Column("sleep", 7, 0, MILLION),
                Column("deadline", 7, 1, MILLION), Column("period", 7, 1, MILLION)]
USE_COLUMNS = [Column("use", 4, 1, 255), Column("resource", 2, 1, 16), Column("times", 3, 1, 255),
               Column("length", 7, 1, MILLION)]


# What pack gives for a text that is no table: the line that it prints.
@dataclass(frozen=True)
class Fault:
    line: bytes


# What is wrong in a line, in the words that follow its number.
class Mistake(Exception):
    pass


# The line of a task or a use.
def shown_line(columns, entry):
    cells = [f"{column.name} {value:>{column.width}}" for column, value in zip(columns, astuple(entry))]
    return "  ".join(cells) + "\n"


# The text of a table's bytes, or the line of its refusal.
def show(data):
    answer = read(data)
    if isinstance(answer, Refused):
        return f"refused {answer.number} at {answer.place}\n".encode("ascii")
    lines = [shown_line(TASK_COLUMNS, task) for task in answer.tasks]
    lines += [shown_line(USE_COLUMNS, use) for use in answer.uses]
    return (HEADING + "".join(lines)).encode("ascii")


# The words of a line: none of its comment, and apart at spaces, tabs and carriage returns.
def words_of(line):
    before = line.partition(b"#")[0]
    return [word for word in before.replace(b"\t", b" ").replace(b"\r", b" ").split(b" ") if word]


# A word as a fault shows it.
def quoted(word):
    start = "".join(chr(byte) if 33 <= byte <= 126 else "?" for byte in word[:MOST_OF_A_WORD])
    return start + "..." if len(word) > MOST_OF_A_WORD else start


# The word at this place as a fault shows it, or words for none.
def found(words, place):
    return quoted(words[place]) if place < len(words) else END_OF_LINE


# The value of a number; of more than ten digits that count, ten are kept, which is above every range too.
def value_of(word):
    return int(word.lstrip(b"0")[:10] or b"0")


# The value of a column whose name stands at this place.
def column_value(words, place, column):
    if words[place:place + 1] != [column.name.encode("ascii")]:
        raise Mistake(f"expected {column.name}, found {found(words, place)}")
    if not (place + 1 < len(words) and words[place + 1].isdigit()):
        raise Mistake(f"expected a number after {column.name}, found {found(words, place + 1)}")
    value = value_of(words[place + 1])
    if value < column.low:
        raise Mistake(f"{column.name} {quoted(words[place + 1])} is below {column.low}")
    if value > column.high:
        raise Mistake(f"{column.name} {quoted(words[place + 1])} is above {column.high}")
    return value


# The task or use that the words of a line stand for.
def entry_of(words):
    if words[0] not in (b"task", b"use"):
        raise Mistake(f"expected task or use, found {quoted(words[0])}")
    kind, columns = (Task, TASK_COLUMNS) if words[0] == b"task" else (Use, USE_COLUMNS)
    values = [column_value(words, 2 * number, column) for number, column in enumerate(columns)]
    if len(words) > 2 * len(columns):
        raise Mistake(f"expected {END_OF_LINE}, found {quoted(words[2 * len(columns)])}")
    return kind(*values)


# Try a task's place after these tasks and uses.
def try_place_of_task(tasks, uses, task):
    if len(tasks) >= MOST_TASKS:
        raise Mistake(f"task {task.priority} is one too many: a table has at most {MOST_TASKS}")
    if uses:
        raise Mistake(f"task {task.priority} comes after a use of task {uses[-1].priority}: all tasks come first")
    if tasks and task.priority >= tasks[-1].priority:
        raise Mistake(f"task {task.priority} is not below the task before it, {tasks[-1].priority}")


# Try a task's own fields.
def try_fields_of_task(task):
    if task.setting >= task.priority:
        raise Mistake(f"setting {task.setting} is not below the priority {task.priority}")
    if task.s > 0 and task.x == 0:
        raise Mistake(f"sleep {task.s} needs sleeps above 0")
    if task.c > task.d:
        raise Mistake(f"run {task.c} is above the deadline {task.d}")
    if task.d > task.t:
        raise Mistake(f"deadline {task.d} is above the period {task.t}")


# Try a use after these tasks and uses.
def try_use(tasks, uses, use):
    runs = {task.priority: task.c for task in tasks}
    if use.priority not in runs:
        raise Mistake(f"use {use.priority} is of no task: none before it has the priority {use.priority}")
    # Tasks fall, so a use comes later whose task is lower, or whose resource is higher in the same task.
    if uses and (-use.priority, use.resource) <= (-uses[-1].priority, uses[-1].resource):
        raise Mistake(f"resource {use.resource} of task {use.priority} is out of order: "
                      "uses follow the order of their tasks, and a task's resources rise")
    sections = sum(other.n * other.l for other in uses + [use] if other.priority == use.priority)
    if sections > runs[use.priority]:
        raise Mistake(f"the sections of task {use.priority} add up to more than its run {runs[use.priority]}")


# Put what a line stands for after these tasks and uses; a line without words stands for nothing.
def add_line(tasks, uses, line):
    words = words_of(line)
    if not words:
        return
    entry = entry_of(words)
    if isinstance(entry, Task):
        try_place_of_task(tasks, uses, entry)
        try_fields_of_task(entry)
        tasks.append(entry)
    else:
        try_use(tasks, uses, entry)
        uses.append(entry)


# The fault with these words in the line of this number.
def fault_at(number, words):
    return Fault(f"line {number}: {words}\n".encode("ascii"))


# The bytes of the table that a text stands for, or the fault in its first line at fault.
def pack(text):
    if len(text) > MOST_BYTES:
        return fault_at(1, f"the text is longer than {MOST_BYTES} bytes")
    tasks, uses = [], []
    lines = text.split(b"\n")
    for number, line in enumerate(lines, 1):
        try:
            add_line(tasks, uses, line)
        except Mistake as mistake:
            return fault_at(number, mistake)
    if not tasks:
        return fault_at(len(lines) + (lines[-1] != b""), "expected a task, found the end of the text")
    return table_bytes(tasks, uses)
