"""Tables and random call lists for the scheduler: most calls sensible, the rest arbitrary."""

from analysis_cases import a_setting, one_in, within
from call_files import perform
from scheduler import (ASLEEP, NO_JOB, PLACES, RESOURCES, SERIALS, SLOTS, job_number, places, running_place,
                       tasks_of)
from table_cases import pick, some_of
from tables import Task, Use, table_bytes


# A list begun with this case: its cases, their lines, and the scheduler as it stands.
def begin(*case):
    run = {"cases": [], "lines": [], "state": None}
    return add(run, *case)


# Add a case to a list.
def add(run, *case):
    text, run["state"] = perform(run["state"], case)
    run["cases"].append(case)
    run["lines"].append(text)
    return run


# A table for calls: so many tasks, up to so many resources, few sections and sleeps for each job.
def call_table(rng, count, most_resources):
    priorities = some_of(rng, 255, count) if one_in(rng, 4) else list(range(1, count + 1))
    resources = some_of(rng, 16, 0 if one_in(rng, 9) else within(rng, 1, most_resources))
    zero = one_in(rng, 3)
    tasks, uses = [], []
    for priority in reversed(priorities):
        own = [Use(priority, resource, pick(rng, [1, 1, 1, 2, 3]), 1) for resource in resources if not one_in(rng, 3)]
        x = rng.randrange(4)
        setting = 0 if zero or one_in(rng, 2) else a_setting(rng, priorities, priority)
        tasks.append(Task(priority, setting, x, 1 + sum(use.n for use in own), x, 90, 90))
        uses += own
    return table_bytes(tasks, uses)


# A table in which tasks that sleep, with settings that reach the lower ones, stand above tasks with sections.
def sleepers_table(rng, sleepers, holders):
    tasks, uses = [], []
    for priority in range(sleepers + holders, 0, -1):
        holder = priority <= holders
        own = [Use(priority, (priority + 1) // 2, within(rng, 1, 3), 1)] if holder else []
        own += [Use(priority, RESOURCES, 1, 1)] if one_in(rng, 4) else []
        setting = pick(rng, [0, 0, priority - 1] if holder else [holders, priority - 1, within(rng, 1, holders)])
        x = rng.randrange(2) if holder else within(rng, 1, 3)
        tasks.append(Task(priority, setting, x, 1 + sum(use.n for use in own), x, 90, 90))
        uses += own
    return table_bytes(tasks, uses)


# The sensible next calls of the running job at this place; the likelier ones stand twice.
def own_calls(state, place):
    task, entry = state["tasks"][place], state["entries"][place]
    number = job_number(state, place)
    if entry["held"]:
        return [("u", *number, entry["held"])]
    calls = [("l", *number, at + 1) for at, most in enumerate(task["n"]) if entry["opened"][at] < most]
    if entry["sleeps"] < task["x"]:
        calls.append(("s", *number))
    return 2 * calls + [("c", *number)]


# The calls by which a job can come or wake.
def arrivals(state):
    calls = []
    for place in places(state):
        status = state["entries"][place]["status"]
        if status == NO_JOB:
            calls.append(("r", state["tasks"][place]["priority"]))
        elif status == ASLEEP:
            calls.append(("w", *job_number(state, place)))
    return calls


# A sensible call: one of the running job's own, or one by which a job comes or wakes.
def sensible_call(rng, state):
    place = running_place(state)
    own = [] if place is None else own_calls(state, place)
    others = arrivals(state)
    if own and (not others or rng.randrange(9) < 5):
        return pick(rng, own)
    return pick(rng, others) if others else arbitrary_call(rng, state)


# A job number: often the running job's, else a task's current, last or next one, else any.
def some_number(rng, state):
    way = rng.randrange(9)
    place = running_place(state)
    if way == 8 or not places(state):
        return pick(rng, [0, 1, 7, 255, rng.randrange(256)]), pick(rng, [0, 1, SERIALS - 1, rng.randrange(SERIALS)])
    if way > 3 or place is None:
        place = pick(rng, places(state))
    priority, serial = job_number(state, place)
    if way in (6, 7):
        serial = (serial + pick(rng, [1, SERIALS - 1])) % SERIALS
    return priority, serial


# A resource: often one that the tasks of this priority use, else any, also of those that don't exist.
def some_resource(rng, state, priority):
    tasks = [task for task in tasks_of(state) if task["priority"] == priority]
    own = [at + 1 for task in tasks for at, most in enumerate(task["n"]) if most]
    return pick(rng, own) if own and one_in(rng, 2) else pick(rng, list(range(RESOURCES + 2)) + [255])


# A call of any kind, whether it is that call's turn or not; an unlock may be that of a holder that doesn't run.
def arbitrary_call(rng, state):
    kind = pick(rng, "rwllusc")
    priority, serial = some_number(rng, state)
    if kind == "r":
        return kind, pick(rng, [priority, priority, rng.randrange(256)])
    if kind == "u" and state["open"] and one_in(rng, 3):
        place, resource = pick(rng, state["open"][:SLOTS])
        return kind, *job_number(state, min(place, PLACES - 1)), resource
    if kind in "lu":
        return kind, priority, serial, some_resource(rng, state, priority)
    return kind, priority, serial


# A call of the running job under its right number, whether it may or not.
def bold_call(rng, state):
    place = running_place(state)
    if place is None:
        return arbitrary_call(rng, state)
    number = job_number(state, place)
    kind = pick(rng, "llusc")
    if kind == "u":
        return kind, *number, state["entries"][place]["held"]
    return (kind, *number, some_resource(rng, state, number[0])) if kind == "l" else (kind, *number)


# The next call of a list: arbitrary once in four times.
def next_call(rng, state):
    return arbitrary_call(rng, state) if one_in(rng, 4) else sensible_call(rng, state)


# A call for lists with holders: while the running job holds a section, high jobs come or wake; it is rarely arbitrary.
def pressing_call(rng, state):
    place = running_place(state)
    others = arrivals(state)
    if place is None or not others or one_in(rng, 8):
        return next_call(rng, state)
    held = state["entries"][place]["held"] != 0
    return pick(rng, others[:2]) if one_in(rng, 4) != held else pick(rng, own_calls(state, place))


# Add so many calls, with the state shown now and then and a short burst once in a while, and the state at the end.
def go_on(rng, run, length, choose=next_call):
    for _ in range(length):
        if one_in(rng, 40):
            add(run, "S")
        if one_in(rng, 300):
            add(run, "B", some_number(rng, run["state"])[0], within(rng, 1, 9))
        add(run, *choose(rng, run["state"]))
    return add(run, "S")


# A list of so many calls on a random table with so many tasks.
def random_list(rng, count, most_resources, length):
    return go_on(rng, begin("T", call_table(rng, count, most_resources)), length)
