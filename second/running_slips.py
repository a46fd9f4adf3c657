"""Ways to find the running job with one slip each: rules that must not pass for those of the scope document."""

from scheduler import (ASLEEP, NO_JOB, READY, WAITING, allowed, ceiling, eligible, places, running_place,
                       system_priority, tasks_of)


# The priority of the task at a place.
def priority_at(state, place):
    return state["tasks"][place]["priority"]


# The held mark at a place.
def mark_at(state, place):
    return state["entries"][place]["held"]


# Whether some job has this status.
def any_job(state, status):
    return any(state["entries"][place]["status"] == status for place in places(state))


# The first of highest priority among these places.
def highest_of(state, found):
    return max(found, key=lambda place: priority_at(state, place), default=None)


# The places of eligible jobs with this status.
def candidates(state, status=READY):
    above = system_priority(state)
    return [place for place in places(state)
            if state["entries"][place]["status"] == status and eligible(state, place, above)]


# The system priority drops while its job sleeps.
def system_priority_awake(state):
    return max((task["setting"] for task, entry in zip(tasks_of(state), state["entries"])
                if entry["started"] and entry["status"] in (READY, WAITING)), default=0)


# The system priority counts jobs that have not started.
def system_priority_of_all(state):
    return max((task["setting"] for task, entry in zip(tasks_of(state), state["entries"])
                if entry["status"] != NO_JOB), default=0)


# The system priority counts jobs that are done.
def system_priority_after_all(state):
    return max((task["setting"] for task, entry in zip(tasks_of(state), state["entries"]) if entry["started"]),
               default=0)


# A holder that is not above the system priority stands still.
def eligible_above_only(state, place, above):
    return priority_at(state, place) > above


# Jobs at the system priority are eligible.
def eligible_at_priority(state, place, above):
    return priority_at(state, place) >= above or mark_at(state, place) != 0


# Every job is eligible while one holds a section.
def eligible_beside_holder(state, place, above):
    return priority_at(state, place) > above or any(mark_at(state, other) for other in places(state))


# The open sections tell who holds one, not the held mark.
def eligible_by_sections(state, place, above):
    return priority_at(state, place) > above or place in [opener for opener, _ in state["open"]]


# The held mark counts only with its open section.
def eligible_with_section(state, place, above):
    return priority_at(state, place) > above or (place, mark_at(state, place)) in state["open"]


# The held mark counts only where the task uses that resource.
def eligible_with_use(state, place, above):
    return priority_at(state, place) > above or allowed(state["tasks"][place], mark_at(state, place)) > 0


# Of the holders only the last opener is eligible.
def eligible_last_opener(state, place, above):
    last = state["open"][-1:] == [(place, mark_at(state, place))]
    return priority_at(state, place) > above or last


# A holder counts with the ceiling of its section.
def eligible_by_ceiling(state, place, above):
    return max(priority_at(state, place), ceiling(state, mark_at(state, place))) > above


# A holder that has not started stands still.
def eligible_when_started(state, place, above):
    return priority_at(state, place) > above or mark_at(state, place) != 0 and state["entries"][place]["started"]


# A holder is eligible only while a job waits.
def eligible_while_waiting(state, place, above):
    return priority_at(state, place) > above or mark_at(state, place) != 0 and any_job(state, WAITING)


# A holder is eligible only while a job sleeps.
def eligible_while_asleep(state, place, above):
    return priority_at(state, place) > above or mark_at(state, place) != 0 and any_job(state, ASLEEP)


# The highest ready job runs, whatever the system priority.
def running_place_ready(state):
    return highest_of(state, [place for place in places(state) if state["entries"][place]["status"] == READY])


# The highest ready job runs if it is eligible, else nobody.
def running_place_highest_alone(state):
    place = running_place_ready(state)
    return place if place in candidates(state) else None


# The highest of the eligible ready jobs and of the holders with this status.
def highest_with_holders(state, status):
    holders = [place for place in candidates(state, status) if mark_at(state, place)]
    return highest_of(state, sorted(candidates(state) + holders))


# A waiting holder runs.
def running_place_waiting_holder(state):
    return highest_with_holders(state, WAITING)


# A sleeping holder runs.
def running_place_sleeping_holder(state):
    return highest_with_holders(state, ASLEEP)


# A holder runs past a higher eligible job.
def running_place_holders_first(state):
    found = candidates(state)
    return highest_of(state, [place for place in found if mark_at(state, place)] or found)


# Of the eligible ready jobs the first runs, whatever the priorities.
def running_place_first(state):
    return min(candidates(state), default=None)


# The first of equal priorities decides, eligible or not.
def running_place_first_equal(state):
    found = running_place(state)
    ready = [place for place in places(state) if state["entries"][place]["status"] == READY]
    equal = [place for place in ready if found is not None and priority_at(state, place) == priority_at(state, found)]
    return found if found in equal[:1] else None


# The last of equal priorities runs.
def running_place_last(state):
    return highest_of(state, candidates(state)[::-1])


# The functions of scheduler.py that a slip here takes the place of; a slip's name begins with that of its function.
REPLACED = ["system_priority", "eligible", "running_place"]
# Each slip with the function that it takes the place of.
RUNNING_SLIPS = [(name, slip) for name in REPLACED for title, slip in list(globals().items())
                 if title.startswith(name + "_")]
