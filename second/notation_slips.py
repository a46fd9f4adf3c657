"""Parts of notation.py with one slip each: readings that must not pass for those of the document."""

from dataclasses import replace

import notation
from notation import TASK_COLUMNS, USE_COLUMNS, Fault

entry_of, try_use = notation.entry_of, notation.try_use
try_place, try_fields = notation.try_place_of_task, notation.try_fields_of_task


# The words of a line in which these bytes alone are blanks.
def apart_at(*blanks):
    def words(line):
        line = line.partition(b"#")[0]
        for blank in blanks:
            line = line.replace(blank, b" ")
        return [word for word in line.split(b" ") if word]
    return words


# A remark begins only where a word does.
def remark_as_word(line):
    words = apart_at(b"\t", b"\r")(line.replace(b"#", b"\xff"))
    marks = [place for place, word in enumerate(words) if word.startswith(b"\xff")]
    return words[:marks[0]] if marks else words


# A word is shown with so many bytes, these as they are, and dots where it is longer than that.
def quoted_so(most, low, high, dots):
    def shown(word):
        start = "".join(chr(byte) if low <= byte <= high else "?" for byte in word[:most])
        return start + "..." if len(word) > dots else start
    return shown


# Values are kept in so many bits.
def value_in(bits):
    return lambda word: int(word[-4000:]) % 2**bits


# More than so many digits are above every range, zeros or not.
def value_by_length(most):
    return lambda word: int(word) if len(word) <= most else 10**10


# More words may follow.
def words_may_follow(words):
    return entry_of(words[:14] if words[0] == b"task" else words[:8])


# Ranges come after all words of the line.
def ranges_after_words(words):
    entry_of([b"1" if place % 2 and word.isdigit() else word for place, word in enumerate(words)])
    return entry_of(words)


# The rules on a task's own fields come before the end of the line.
def rules_before_end(words):
    entry = words_may_follow(words)
    if isinstance(entry, notation.Task):
        try_fields(entry)
    return entry_of(words)


# A task after a use is told of the first use.
def first_use(tasks, uses, task):
    try_place(tasks, uses[:1], task)


# A task after a use comes before a 33rd task.
def use_before_count(tasks, uses, task):
    try_place([], uses, task)
    try_place(tasks, uses, task)


# A 33rd task comes after priorities that don't fall.
def count_after_order(tasks, uses, task):
    try_place(tasks[-1:], [], task)
    try_place(tasks, uses, task)


# Priorities that don't fall come before a task after a use.
def order_before_use(tasks, uses, task):
    try_place(tasks, [], task)
    try_place(tasks, uses, task)


# A task's own fields come before its place.
def fields_before_place(tasks, uses, task):
    try_fields(task)
    try_place(tasks, uses, task)


# Equal priorities fall.
def equal_tasks(tasks, uses, task):
    try_place([] if tasks and not uses and tasks[-1].priority == task.priority else tasks, uses, task)


# Sleep comes before the setting.
def sleep_before_setting(task):
    try_fields(replace(task, setting=0, c=1, d=1, t=1))
    try_fields(task)


# Run comes before sleep.
def run_before_sleep(task):
    try_fields(replace(task, s=0, t=task.d))
    try_fields(task)


# The deadline comes before the run.
def deadline_before_run(task):
    try_fields(replace(task, c=1))
    try_fields(task)


# The setting may be the priority.
def setting_at_priority(task):
    try_fields(replace(task, setting=0) if task.setting == task.priority else task)


# The run may be one above the deadline.
def run_one_above(task):
    try_fields(replace(task, c=task.d) if task.c == task.d + 1 else task)


# The deadline may be one above the period.
def deadline_one_above(task):
    try_fields(replace(task, d=task.t, c=min(task.c, task.t)) if task.d == task.t + 1 else task)


# A sleep of 1 needs no sleeps.
def sleep_of_one(task):
    try_fields(replace(task, s=0) if task.s == 1 else task)


# Sections come before the order.
def sections_before_order(tasks, uses, use):
    try_use(tasks, [], use)
    try_use(tasks, uses, use)


# Each use's sections are tried alone.
def sections_alone(tasks, uses, use):
    try_use(tasks, [replace(last, n=0) for last in uses[-1:]], use)


# Sections may add up to one more than the run.
def sections_one_above(tasks, uses, use):
    try_use([replace(task, c=task.c + 1) for task in tasks], uses, use)


# Sections must stay below the run.
def sections_below(tasks, uses, use):
    try_use([replace(task, c=task.c - 1) for task in tasks], uses, use)


# The sections of all tasks are added up.
def sections_of_all(tasks, uses, use):
    more = sum(other.n * other.l for other in uses if other.priority != use.priority)
    try_use([replace(task, c=task.c - more) for task in tasks], uses, use)


# A resource may come twice.
def equal_resources(tasks, uses, use):
    same = [last for last in uses[-1:] if (last.priority, last.resource) == (use.priority, use.resource)]
    try_use(tasks, [] if same else uses, use)


# Resources need not rise within a task.
def any_resource(tasks, uses, use):
    try_use(tasks, [last for last in uses if last.priority != use.priority], use)


# Resources rise through the whole table.
def resources_rise(tasks, uses, use):
    try_use(tasks, [replace(last, priority=use.priority, n=0) for last in uses[-1:]] if uses else uses, use)


# Lines are counted from 0.
def counted_from_0(number, words):
    return Fault(f"line {number - 1}: {words}\n".encode("ascii"))


# A text without a task is told of its last line only.
def last_line(number, words):
    at_the_end = "the end of the text" in str(words)
    return Fault(f"line {max(1, number - at_the_end)}: {words}\n".encode("ascii"))


# The columns with each end of each range one lower or one higher.
def range_slips():
    slips = []
    for name, columns in (("TASK_COLUMNS", TASK_COLUMNS), ("USE_COLUMNS", USE_COLUMNS)):
        for at, column in enumerate(columns):
            others = [replace(column, low=column.low + 1), replace(column, high=column.high - 1)]
            others += [replace(column, low=0)] * column.low + [replace(column, high=column.high + 1)]
            slips += [(name, columns[:at] + [other] + columns[at + 1:]) for other in others]
    return slips


# Each slip with the name of what it stands for.
SLIPS = [("words_of", apart_at(*blanks)) for blanks in ((b"\t",), (b"\r",), (b"\t", b"\r", b"\x0b"),
                                                         (b"\t", b"\r", b"\x0c"), (b"\t", b"\r", b"\0"))]
SLIPS += [("words_of", remark_as_word)]
SLIPS += [("quoted", quoted_so(*how)) for how in ((23, 33, 126, 23), (25, 33, 126, 25), (24, 33, 126, 23),
                                                  (24, 33, 126, 25), (24, 34, 126, 24), (24, 33, 127, 24),
                                                  (24, 33, 125, 24), (24, 0, 126, 24))]
SLIPS += [("value_of", value_in(bits)) for bits in (8, 16, 32, 64)]
SLIPS += [("value_of", value_by_length(most)) for most in (7, 10, 19, 20)]
SLIPS += [("entry_of", words_may_follow), ("entry_of", rules_before_end), ("entry_of", ranges_after_words)]
SLIPS += [("try_place_of_task", rule) for rule in (first_use, use_before_count, count_after_order, order_before_use,
                                                   fields_before_place, equal_tasks)]
SLIPS += [("try_fields_of_task", rule) for rule in (sleep_before_setting, run_before_sleep, deadline_before_run,
                                                    sleep_of_one, setting_at_priority, run_one_above,
                                                    deadline_one_above)]
SLIPS += [("try_use", rule) for rule in (sections_before_order, sections_alone, sections_one_above, sections_below,
                                         sections_of_all, equal_resources, any_resource, resources_rise)]
SLIPS += [("fault_at", counted_from_0), ("fault_at", last_line), ("MOST_TASKS", 31), ("MOST_TASKS", 33)] + range_slips()
