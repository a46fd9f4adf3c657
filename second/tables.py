"""Task tables: reading, loading, writing, and the record of one task."""

from dataclasses import dataclass, field

TASK = 1
USE = 2
END = 3
BODY_LENGTH = {TASK: 19, USE: 7, END: 0}

MOST_TASKS = 32
MOST_USES = 512
MILLION = 1_000_000


# One task of a table, its fields in the order of its record.
@dataclass(frozen=True)
class Task:
    priority: int = 0
    setting: int = 0
    x: int = 0
    c: int = 0
    s: int = 0
    d: int = 0
    t: int = 0


# One use of a resource by a task, its fields in the order of its record.
@dataclass(frozen=True)
class Use:
    priority: int = 0
    resource: int = 0
    n: int = 0
    l: int = 0


# The answer for a table that keeps every rule.
@dataclass(frozen=True)
class Accepted:
    tasks: list
    uses: list


# The answer for a table that breaks one, by number and place.
@dataclass(frozen=True)
class Refused:
    number: int
    place: int


# The writer's answer when all went well.
@dataclass(frozen=True)
class Written:
    length: int
    data: bytes


# A table held in memory: two free counts and a fixed number of entries.
@dataclass
class Held:
    task_count: int = 0
    use_count: int = 0
    tasks: list = field(default_factory=lambda: [Task()] * MOST_TASKS)
    uses: list = field(default_factory=lambda: [Use()] * MOST_USES)


# A held table from lists of entries; entries past the lists are 0.
def held_of(tasks, uses, task_count=None, use_count=None):
    return Held(
        len(tasks) if task_count is None else task_count,
        len(uses) if use_count is None else use_count,
        list(tasks) + [Task()] * (MOST_TASKS - len(tasks)),
        list(uses) + [Use()] * (MOST_USES - len(uses)),
    )


# A wide field: four bytes, low byte first.
def wide(body, at):
    return int.from_bytes(body[at:at + 4], "little")


# The four bytes of a wide field.
def wide_bytes(value):
    return value.to_bytes(4, "little")


# A task from the 19 bytes of its body.
def task_from(body):
    return Task(body[0], body[1], body[2],
                wide(body, 3), wide(body, 7), wide(body, 11), wide(body, 15))


# A use from the 7 bytes of its body.
def use_from(body):
    return Use(body[0], body[1], body[2], wide(body, 3))


# The 19 bytes of a task's body.
def task_body(task):
    return (bytes([task.priority, task.setting, task.x])
            + wide_bytes(task.c) + wide_bytes(task.s)
            + wide_bytes(task.d) + wide_bytes(task.t))


# The 7 bytes of a use's body.
def use_body(use):
    return bytes([use.priority, use.resource, use.n]) + wide_bytes(use.l)


# The 20 bytes of a task's record.
def task_record(task):
    return bytes([TASK]) + task_body(task)


# The 8 bytes of a use's record.
def use_record(use):
    return bytes([USE]) + use_body(use)


# The bytes of a whole table, end record included.
def table_bytes(tasks, uses):
    return (b"".join(task_record(task) for task in tasks)
            + b"".join(use_record(use) for use in uses)
            + bytes([END]))


# Whether every field of a task is in its range.
def task_in_range(task):
    return (1 <= task.priority <= 255
            and 0 <= task.setting <= task.priority - 1
            and 0 <= task.x <= 64
            and 1 <= task.c <= MILLION
            and 0 <= task.s <= MILLION
            and (task.x > 0 or task.s == 0)
            and task.c <= task.d <= task.t <= MILLION)


# Whether every field of a use is in its range.
def use_in_range(use):
    return (1 <= use.resource <= 16
            and 1 <= use.n <= 255
            and 1 <= use.l <= MILLION)


# The refusal of a record whose bytes are missing or of no known kind, or 0.
def shape_fault(data, place):
    if place >= len(data):
        return 1
    kind = data[place]
    if kind not in BODY_LENGTH:
        return 2
    if place + 1 + BODY_LENGTH[kind] > len(data):
        return 1
    return 0


# The refusal of a task that follows these tasks and uses, or 0.
def task_fault(tasks, uses, task):
    if len(tasks) == MOST_TASKS:
        return 4
    if uses:
        return 3
    if tasks and task.priority >= tasks[-1].priority:
        return 3
    if not task_in_range(task):
        return 5
    return 0


# Whether a use of a known task comes after the last use in table order.
def use_in_order(tasks, uses, use):
    if not uses:
        return True
    priorities = [task.priority for task in tasks]
    last = uses[-1]
    here = priorities.index(use.priority)
    before = priorities.index(last.priority)
    if here == before:
        return use.resource > last.resource
    return here > before


# The time a task's sections add up to so far.
def sections_of(uses, priority):
    return sum(use.n * use.l for use in uses if use.priority == priority)


# The refusal of a use that follows these tasks and uses, or 0.
def use_fault(tasks, uses, use):
    owners = [task for task in tasks if task.priority == use.priority]
    if not owners:
        return 3
    if not use_in_order(tasks, uses, use):
        return 3
    if not use_in_range(use):
        return 5
    if sections_of(uses, use.priority) + use.n * use.l > owners[0].c:
        return 6
    return 0


# The answer at an end record.
def finish(data, place, tasks, uses):
    if not tasks:
        return Refused(3, place)
    if place + 1 < len(data):
        return Refused(7, place + 1)
    return Accepted(tasks, uses)


# Read a table: accepted with its tasks and uses, or refused at the first record at fault.
def read(data):
    tasks = []
    uses = []
    place = 0
    while True:
        fault = shape_fault(data, place)
        if fault:
            return Refused(fault, place)
        kind = data[place]
        if kind == END:
            return finish(data, place, tasks, uses)
        body = data[place + 1:place + 1 + BODY_LENGTH[kind]]
        if kind == TASK:
            task = task_from(body)
            fault = task_fault(tasks, uses, task)
            tasks.append(task)
        else:
            use = use_from(body)
            fault = use_fault(tasks, uses, use)
            uses.append(use)
        if fault:
            return Refused(fault, place)
        place += 1 + BODY_LENGTH[kind]


# Load a table into a held one: all 0 after a refusal, and 0 past the counts.
def load(data):
    answer = read(data)
    if isinstance(answer, Refused):
        return Held()
    return held_of(answer.tasks, answer.uses)


# The bytes that a held table stands for; one entry of 0 stands for all that do not fit.
def bytes_of_held(held):
    tasks = held.tasks[:held.task_count]
    uses = held.uses[:held.use_count]
    if held.task_count > MOST_TASKS:
        tasks = tasks + [Task()]
    if held.use_count > MOST_USES:
        uses = uses + [Use()]
    return table_bytes(tasks, uses)


# Write a held table into a buffer of `room` bytes, checked as if its bytes were read.
def write(held, room):
    data = bytes_of_held(held)
    answer = read(data)
    if isinstance(answer, Refused):
        return answer
    if len(data) > room:
        return Refused(10, 0)
    return Written(len(data), data)


# The 20 bytes of a task's record, or none for an absent task or a refused table.
def record_of(data, priority):
    answer = read(data)
    if isinstance(answer, Refused):
        return b""
    for index, task in enumerate(answer.tasks):
        if task.priority == priority:
            return data[20 * index:20 * index + 20]
    return b""
