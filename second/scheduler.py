"""The lock scheduler: a state handed in and handed back, six calls, and their refusals."""

from tables import Refused, read

PLACES = 32
SLOTS = 16
RESOURCES = 16
SERIALS = 65_536

NO_JOB, READY, WAITING, ASLEEP = range(4)


# The rules of a task; n has, for resources 1 to 16, how many sections a job may open, 0 where the task has no use.
def task_rules(priority=0, setting=0, x=0, n=(0,) * RESOURCES):
    return {"priority": priority, "setting": setting, "x": x, "n": list(n)}


# The entry of a task that has no job yet.
def fresh_entry():
    return {"status": NO_JOB, "started": False, "sleeps": 0, "opened": [0] * RESOURCES, "held": 0, "next": 0}


# A scheduler with these tasks at its first places; places past them are 0, and no section is open.
def fresh_state(tasks):
    rest = [task_rules() for _ in range(PLACES - len(tasks))]
    return {"count": len(tasks), "tasks": tasks + rest, "entries": [fresh_entry() for _ in range(PLACES)], "open": []}


# The rules of a table's task with its uses.
def rules_from(task, uses):
    n = [0] * RESOURCES
    for use in uses:
        if use.priority == task.priority:
            n[use.resource - 1] = use.n
    return task_rules(task.priority, task.setting, task.x, n)


# Set up on a table: refusal, place, and the scheduler, which has no tasks after a refusal.
def set_up(data):
    table = read(data)
    if isinstance(table, Refused):
        return table.number, table.place, fresh_state([])
    return 0, 0, fresh_state([rules_from(task, table.uses) for task in table.tasks])


# The places at which tasks stand.
def places(state):
    return range(min(state["count"], PLACES))


# The rules of the tasks.
def tasks_of(state):
    return state["tasks"][:state["count"]]


# How many sections of a resource a job of this task may open; 0 for no use of it.
def allowed(task, resource):
    return task["n"][resource - 1] if 1 <= resource <= RESOURCES else 0


# Whether some task uses a resource.
def used(state, resource):
    return any(allowed(task, resource) > 0 for task in tasks_of(state))


# Whether there are at most 32 tasks.
def count_fits(state):
    return state["count"] <= PLACES


# Whether each setting is below its priority.
def settings_fit(state):
    return all(task["setting"] < task["priority"] for task in tasks_of(state))


# Whether there are at most 16 open sections.
def sections_fit(state):
    return len(state["open"]) <= SLOTS


# Whether every open section names a task's place.
def section_places_fit(state):
    return all(place < state["count"] for place, _ in state["open"][:SLOTS])


# Whether every open section names a resource that some task uses.
def section_resources_fit(state):
    return all(used(state, resource) for _, resource in state["open"][:SLOTS])


# Whether a state can be worked with.
def fit(state):
    return (count_fits(state) and settings_fit(state) and sections_fit(state)
            and section_places_fit(state) and section_resources_fit(state))


# The ceiling of a resource: the highest priority among tasks with a use of it.
def ceiling(state, resource):
    return max((task["priority"] for task in tasks_of(state) if allowed(task, resource) > 0), default=0)


# The system ceiling: that of the last opened section still open, else 0.
def system_ceiling(state):
    return ceiling(state, state["open"][-1][1]) if state["open"] else 0


# The system priority: the largest setting among started, unfinished jobs, sleeping ones included, else 0.
def system_priority(state):
    settings = [task["setting"] for task, entry in zip(tasks_of(state), state["entries"])
                if entry["started"] and entry["status"] != NO_JOB]
    return max(settings, default=0)


# Whether a job is eligible: above this system priority, or holding a section, as the held mark says.
def eligible(state, place, above):
    return state["tasks"][place]["priority"] > above or state["entries"][place]["held"] != 0


# The place of the running job: the first of highest priority among eligible ready jobs, or None.
def running_place(state):
    above = system_priority(state)
    best, highest = None, 0
    for place, task in enumerate(tasks_of(state)):
        ready = state["entries"][place]["status"] == READY
        if ready and task["priority"] > highest and eligible(state, place, above):
            best, highest = place, task["priority"]
    return best


# The number of the current job at a place: the priority, and the serial before the next one.
def job_number(state, place):
    return state["tasks"][place]["priority"], (state["entries"][place]["next"] - 1) % SERIALS


# The place of the running job if this is its number, else None.
def place_if_running(state, number):
    place = running_place(state)
    return None if place is None or job_number(state, place) != number else place


# A like state with some values of one entry changed.
def changed(state, place, **values):
    entries = list(state["entries"])
    entries[place] = {**entries[place], **values}
    return {**state, "entries": entries}


# The status of a job that comes or wakes: ready above the system ceiling, else waiting.
def arriving(state, priority):
    return READY if priority > system_ceiling(state) else WAITING


# A release: its refusal, or 0, and the next state.
def released(state, priority):
    priorities = [task["priority"] for task in tasks_of(state)]
    if priority not in priorities:
        return 11, state
    place = priorities.index(priority)
    entry = state["entries"][place]
    if entry["status"] != NO_JOB:
        return 12, state
    return 0, changed(state, place, status=arriving(state, priority), started=False, sleeps=0,
                      opened=[0] * RESOURCES, next=(entry["next"] + 1) % SERIALS)


# A resume: its refusal, or 0, and the next state.
def resumed(state, number):
    for place in places(state):
        if state["entries"][place]["status"] == ASLEEP and job_number(state, place) == number:
            return 0, changed(state, place, status=arriving(state, number[0]))
    return 20, state


# A lock: its refusal, or 0, and the next state.
def locked(state, number, resource):
    place = place_if_running(state, number)
    if place is None:
        return 13, state
    entry = state["entries"][place]
    most = allowed(state["tasks"][place], resource)
    if most == 0:
        return 14, state
    if entry["held"] != 0 or len(state["open"]) >= SLOTS:
        return 15, state
    if entry["opened"][resource - 1] >= most:
        return 16, state
    opened = list(entry["opened"])
    opened[resource - 1] += 1
    after = changed(state, place, opened=opened, held=resource)
    return 0, {**after, "open": state["open"] + [(place, resource)]}


# A like state without the first open section of this place and resource.
def closed(state, section):
    at = state["open"].index(section)
    return {**state, "open": state["open"][:at] + state["open"][at + 1:]}


# A like state in which every waiting job above the system ceiling is ready.
def woken(state):
    bound = system_ceiling(state)
    for place in places(state):
        if state["entries"][place]["status"] == WAITING and state["tasks"][place]["priority"] > bound:
            state = changed(state, place, status=READY)
    return state


# An unlock: its refusal, or 0, and the next state.
def unlocked(state, number, resource):
    place = place_if_running(state, number)
    if place is None:
        return 13, state
    if resource == 0 or state["entries"][place]["held"] != resource:
        return 17, state
    after = changed(state, place, held=0)
    if (place, resource) not in state["open"]:
        return 0, after
    return 0, woken(closed(after, (place, resource)))


# A suspend: its refusal, or 0, and the next state.
def suspended(state, number):
    place = place_if_running(state, number)
    if place is None:
        return 13, state
    entry = state["entries"][place]
    if entry["held"] != 0:
        return 18, state
    if entry["sleeps"] >= state["tasks"][place]["x"]:
        return 19, state
    return 0, changed(state, place, status=ASLEEP, sleeps=entry["sleeps"] + 1)


# A complete: its refusal, or 0, and the next state.
def completed(state, number):
    place = place_if_running(state, number)
    if place is None:
        return 13, state
    if state["entries"][place]["held"] != 0:
        return 18, state
    return 0, changed(state, place, status=NO_JOB)


# The answer of a call: refusal or 0, the running job's number or None, and the next state; who runs then is started.
def answer(rule, state, *numbers):
    if not fit(state):
        return 26, None, state
    refusal, after = rule(state, *numbers)
    place = running_place(after)
    if place is None:
        return refusal, None, after
    if refusal == 0:
        after = changed(after, place, started=True)
    return refusal, job_number(after, place), after


# A job of the task with this priority comes.
def release(state, priority):
    return answer(released, state, priority)


# A sleeping job wakes.
def resume(state, priority, serial):
    return answer(resumed, state, (priority, serial))


# The running job opens a section.
def lock(state, priority, serial, resource):
    return answer(locked, state, (priority, serial), resource)


# The running job closes its section.
def unlock(state, priority, serial, resource):
    return answer(unlocked, state, (priority, serial), resource)


# The running job goes to sleep.
def suspend(state, priority, serial):
    return answer(suspended, state, (priority, serial))


# The running job is done.
def complete(state, priority, serial):
    return answer(completed, state, (priority, serial))
