"""Made-up states: fit ones that no calls lead to, and unfit ones of every kind."""

from analysis_cases import one_in, within
from call_lists import add, begin, bold_call, call_table, next_call
from scheduler import (ASLEEP, PLACES, READY, RESOURCES, SERIALS, SLOTS, WAITING, changed, fresh_entry, places,
                       task_rules, tasks_of, used)
from table_cases import pick, some_of


# A like state with some values of one task's rules changed.
def with_task(state, place, **values):
    tasks = list(state["tasks"])
    tasks[place] = {**tasks[place], **values}
    return {**state, "tasks": tasks}


# A number near a limit, within a byte.
def around(rng, limit):
    return min(255, max(0, pick(rng, [0, 0, limit - 1, limit - 1, limit, limit + 1, 255])))


# A next serial, often near the wrap.
def a_serial(rng):
    return pick(rng, [0, 1, 2, SERIALS - 2, SERIALS - 1, rng.randrange(SERIALS)])


# A task's rules with a low priority, so that some are equal, and uses of some of these resources.
def loose_task(rng, resources):
    priority = pick(rng, [within(rng, 1, 6), within(rng, 1, 6), within(rng, 1, 255)])
    n = [pick(rng, [0, 1, 2, 3, 255]) if at + 1 in resources else 0 for at in range(RESOURCES)]
    setting = pick(rng, [0, 0, priority - 1, rng.randrange(priority)])
    return task_rules(priority, setting, pick(rng, [0, 1, 2, 3, 255]), n)


# A resource to hold: often none, else one that the task uses, else any number.
def a_held(rng, task):
    own = [at + 1 for at in range(RESOURCES) if task["n"][at]]
    return pick(rng, [0, 0, 0, pick(rng, own or [0]), pick(rng, own or [0]), pick(rng, list(range(18)) + [255])])


# An entry with marks that need not go together.
def loose_entry(rng, task):
    return {"status": rng.randrange(4), "started": one_in(rng, 3), "sleeps": around(rng, task["x"]),
            "opened": [around(rng, most) if most else 0 for most in task["n"]],
            "held": a_held(rng, task), "next": a_serial(rng)}


# All the sections that a state's tasks could have opened, used resources only.
def possible_sections(state):
    resources = [resource for resource in range(1, RESOURCES + 1) if used(state, resource)]
    return [(place, resource) for place in places(state) for resource in resources]


# So many open sections of the tasks, if any can be; one may stand twice.
def some_sections(rng, state, count):
    possible = possible_sections(state)
    return [pick(rng, possible) for _ in range(count)] if possible else []


# The sections that the marks of the entries speak of, in any order.
def marked_sections(rng, state):
    sections = [(place, state["entries"][place]["held"]) for place in places(state)]
    sections = [section for section in sections if used(state, section[1])][:SLOTS]
    return [sections.pop(rng.randrange(len(sections))) for _ in range(len(sections))]


# A state with so many tasks, all values free within what is fit; how many sections depends on `opened`.
def loose_state(rng, count, opened):
    resources = some_of(rng, RESOURCES, pick(rng, [0, 1, 1, 2, 3, 16]))
    tasks = [loose_task(rng, resources) for _ in range(count)]
    entries = [loose_entry(rng, task) for task in tasks]
    tasks += [task_rules() for _ in range(PLACES - count)]
    entries += [fresh_entry() for _ in range(PLACES - count)]
    state = {"count": count, "tasks": tasks, "entries": entries, "open": []}
    if opened is None:
        return {**state, "open": marked_sections(rng, state)}
    return {**state, "open": some_sections(rng, state, opened)}


# A state that calls on a table lead to.
def reached_state(rng):
    run = begin("T", call_table(rng, pick(rng, [1, 2, 3, 4, 5, 6, 6, 12]), 4))
    for _ in range(within(rng, 2, 25)):
        add(run, *next_call(rng, run["state"]))
    return run["state"]


# Another task gets the priority of the one at a place, and perhaps its next serial and status.
def paired(rng, state, place, other):
    task, entry = state["tasks"][place], state["entries"][place]
    setting = min(state["tasks"][other]["setting"], task["priority"] - 1)
    state = with_task(state, other, priority=task["priority"], setting=setting)
    if one_in(rng, 2):
        state = changed(state, other, next=entry["next"])
    return changed(state, other, status=entry["status"]) if one_in(rng, 2) else state


# One task gets the priority of another.
def twin(rng, state):
    return paired(rng, state, pick(rng, places(state)), pick(rng, places(state)))


# The job at a place is started and doesn't run, and its setting is a high system priority: the highest of all, or any.
def raised(rng, state, place):
    priorities = [task["priority"] for task in tasks_of(state)]
    setting = min(254, pick(rng, [max(priorities), pick(rng, priorities)]))
    state = with_task(state, place, priority=max(priorities[place], setting + 1), setting=setting)
    return changed(state, place, status=pick(rng, [ASLEEP, ASLEEP, WAITING]), started=True)


# Beside a job with a high setting another entry, often ready, gets a held mark, and perhaps a ready twin without one.
def frozen(rng, state):
    count, step = state["count"], pick(rng, [1, -1])
    place = pick(rng, places(state))
    other, third = (place + step) % count, (place + 2 * step) % count
    mark = pick(rng, [1, 17, 255, a_held(rng, state["tasks"][other])])
    state = changed(state, other, status=pick(rng, [READY, READY, READY, WAITING, ASLEEP]), held=mark)
    if third not in (place, other) and not one_in(rng, 3):
        state = changed(paired(rng, state, other, third), third, status=READY, held=0)
    return raised(rng, state, place)


# An entry gets another held mark.
def other_mark(rng, state):
    place = pick(rng, places(state))
    return changed(state, place, held=a_held(rng, state["tasks"][place]))


# An entry gets another status.
def other_status(rng, state):
    return changed(state, pick(rng, places(state)), status=rng.randrange(4))


# An entry's started mark turns.
def other_start(rng, state):
    place = pick(rng, places(state))
    return changed(state, place, started=not state["entries"][place]["started"])


# An entry's counts come near their limits, or pass them.
def other_counts(rng, state):
    place = pick(rng, places(state))
    task = state["tasks"][place]
    return changed(state, place, sleeps=around(rng, task["x"]), opened=[around(rng, most) for most in task["n"]])


# An entry gets another next serial.
def other_serial(rng, state):
    return changed(state, pick(rng, places(state)), next=a_serial(rng))


# A section is dropped, or some are put between the others.
def other_sections(rng, state):
    sections = list(state["open"])
    if sections and one_in(rng, 2):
        sections.pop(rng.randrange(len(sections)))
    else:
        for section in some_sections(rng, state, min(SLOTS - len(sections), pick(rng, [1, 1, 2, 16]))):
            sections.insert(rng.randrange(len(sections) + 1), section)
    return {**state, "open": sections}


# The tasks change places, so that priorities need not fall.
def other_order(rng, state):
    place, other = pick(rng, places(state)), pick(rng, places(state))
    first, second = state["tasks"][place], state["tasks"][other]
    return with_task(with_task(state, place, **second), other, **first)


# The places past the tasks are filled from a few tasks and entries.
def filled(rng, state, fillers):
    tasks = state["tasks"][:state["count"]]
    entries = state["entries"][:state["count"]]
    while len(tasks) < PLACES:
        task, entry = pick(rng, fillers)
        tasks.append(task)
        entries.append(entry)
    return {**state, "tasks": tasks, "entries": entries}


# The places past the tasks are filled, also with what would not be fit at a task's place.
def filled_anyhow(rng, state):
    fillers = []
    for _ in range(4):
        task = loose_task(rng, list(range(1, RESOURCES + 1)))
        entry = {**loose_entry(rng, task), "status": pick(rng, [READY, WAITING, ASLEEP])}
        fillers.append(({**task, "setting": pick(rng, [0, task["setting"], task["priority"], 255])}, entry))
    return filled(rng, state, fillers)


# Unfit: too many tasks; the low byte of the number may look good, and so may all the places.
def many_tasks(rng, state):
    if not one_in(rng, 4):
        fillers = [(task, fresh_entry()) for task in tasks_of(state)]
        state = filled(rng, state, fillers)
    return {**state, "count": pick(rng, [33, 33, 34, 64, 255, 256, 256 + state["count"], 288, 65_535])}


# Unfit: a setting that isn't below its priority.
def high_setting(rng, state):
    place = pick(rng, places(state))
    priority = pick(rng, [state["tasks"][place]["priority"], state["tasks"][place]["priority"], 0])
    return with_task(state, place, priority=priority, setting=pick(rng, [priority, min(255, priority + 1), 255]))


# Unfit: too many open sections.
def many_sections(rng, state):
    possible = possible_sections(state)
    if not possible:
        return many_tasks(rng, state)
    count = pick(rng, [17, 17, 18, 255, 256, 256 + len(state["open"]) % 17, 272, 65_535])
    slots = (state["open"] + [pick(rng, possible) for _ in range(SLOTS)])[:SLOTS]
    return {**state, "open": slots + [(0, 0)] * (count - SLOTS)}


# A state with one open section, at any of the slots that can be, replaced or added.
def with_section(rng, state, section):
    at = rng.randrange(min(len(state["open"]) + 1, SLOTS))
    return {**state, "open": state["open"][:at] + [section] + state["open"][at + 1:]}


# Unfit: a section of a place past the tasks.
def far_section(rng, state):
    possible = possible_sections(state)
    if not possible:
        return high_setting(rng, state)
    count = state["count"]
    return with_section(rng, state, (pick(rng, [count, count, within(rng, count, 255), 255]), pick(rng, possible)[1]))


# Unfit: a section of a resource that no task uses.
def unused_section(rng, state):
    unused = [resource for resource in range(1, RESOURCES + 1) if not used(state, resource)]
    return with_section(rng, state, (pick(rng, places(state)), pick(rng, [0, 17, 255, pick(rng, unused or [17])])))


CHANGES = [twin, twin, other_mark, other_mark, other_status, other_status, other_start, other_counts, other_serial,
           other_sections, other_sections, other_order]
FAULTS = [many_tasks, high_setting, many_sections, far_section, unused_section]


# A fit state of one of several shapes.
def fit_state(rng):
    way = rng.randrange(12)
    if way < 5:
        state = reached_state(rng)
        for _ in range(within(rng, 1, 4)):
            state = pick(rng, CHANGES)(rng, state)
    elif way < 9:
        state = loose_state(rng, within(rng, 1, 6), pick(rng, [None, None, 0, 1, 2, 3, within(rng, 4, 16)]))
    elif way < 11:
        state = loose_state(rng, within(rng, 1, 8), SLOTS)
    else:
        state = loose_state(rng, pick(rng, [31, 32, 32, 32]), pick(rng, [None, 0, 3, 16]))
    if one_in(rng, 2):
        state = twin(rng, state)
    if one_in(rng, 3):
        state = frozen(rng, state)
    return filled_anyhow(rng, state) if one_in(rng, 3) else state


# A state to begin with: fit two times in three, else with one fault or, now and then, two.
def made_up_state(rng):
    state = fit_state(rng)
    if one_in(rng, 3):
        state = pick(rng, FAULTS)(rng, state)
        if one_in(rng, 8) and state["count"] <= PLACES:
            state = pick(rng, FAULTS)(rng, state)
    return state


# A list on a made-up state: one to six calls, then the state.
def made_up_list(rng):
    run = begin("M", made_up_state(rng))
    for _ in range(within(rng, 1, 6)):
        choose = bold_call if one_in(rng, 3) else next_call
        add(run, *choose(rng, run["state"]))
    return add(run, "S")
