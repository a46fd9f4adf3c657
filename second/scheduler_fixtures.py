"""What the tests of scheduler.py share: tables A and B, made-up states, following calls, and steps of random ones."""

from call_files import call
from scheduler import RESOURCES, changed, fresh_state, places, set_up, task_rules
from table_cases import named_tables
from tables import table_bytes

A, B = (table_bytes(*table) for table in named_tables()[:2])


# The scheduler set up on a table.
def fresh(data):
    return set_up(data)[2]


# The rules of a task with these uses, as resource and N.
def rules(priority, setting=0, x=0, **uses):
    return task_rules(priority, setting, x, [uses.get(f"r{resource}", 0) for resource in range(1, RESOURCES + 1)])


# A made-up state: rows of task rules and values for the entry, and open sections.
def made(*rows, sections=()):
    state = fresh_state([task for task, _ in rows])
    for place, (_, values) in enumerate(rows):
        state = changed(state, place, **values)
    return {**state, "open": list(sections)}


# Follow calls from a state: the refusals, the running jobs, and the last state.
def follow(state, calls):
    refusals, jobs = [], []
    for kind, *numbers in calls:
        refusal, job, state = call(state, kind, *numbers)
        refusals.append(refusal)
        jobs.append(job)
    return refusals, jobs, state


# So many steps of calls so chosen on a scheduler set up on a table: the state, the call, its answer and the next state.
def steps(rng, table, choose, length):
    state = fresh(table)
    for _ in range(length):
        step = choose(rng, state)
        refusal, job, after = call(state, *step)
        yield state, step, refusal, job, after
        state = after


# The statuses at the tasks' places.
def statuses(state):
    return [state["entries"][place]["status"] for place in places(state)]
