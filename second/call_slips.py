"""Schedulers with one slip each: rules that must not pass for those of the scope document."""

from running_slips import RUNNING_SLIPS
from scheduler import (ASLEEP, NO_JOB, PLACES, READY, RESOURCES, SERIALS, SLOTS, WAITING, allowed, answer, arriving,
                       ceiling, changed, closed, completed, fit, job_number, locked, place_if_running, places, released,
                       resumed, running_place, suspended, system_ceiling, system_priority, tasks_of, unlocked, woken)


# A right release, but with other values for the entry, made from the entry before.
def after_release(state, priority, values):
    refusal, after = released(state, priority)
    if refusal:
        return refusal, after
    place = [task["priority"] for task in tasks_of(state)].index(priority)
    return 0, changed(after, place, **values(state["entries"][place]))


# A job that comes is ready without the test.
def released_at_once(state, priority):
    return after_release(state, priority, lambda entry: {"status": READY})


# The serial is not advanced.
def released_with_old_serial(state, priority):
    return after_release(state, priority, lambda entry: {"next": entry["next"]})


# The serials stay at the last one.
def released_with_last_serial(state, priority):
    return after_release(state, priority, lambda entry: {"next": min(entry["next"] + 1, SERIALS - 1)})


# The counts of the job before go on.
def released_with_old_counts(state, priority):
    return after_release(state, priority, lambda entry: {"sleeps": entry["sleeps"], "opened": entry["opened"]})


# The sleeps of the job before go on.
def released_with_old_sleeps(state, priority):
    return after_release(state, priority, lambda entry: {"sleeps": entry["sleeps"]})


# The sections of the job before go on.
def released_with_old_sections(state, priority):
    return after_release(state, priority, lambda entry: {"opened": entry["opened"]})


# The started mark of the job before goes on.
def released_as_started(state, priority):
    return after_release(state, priority, lambda entry: {"started": entry["started"]})


# The held mark is taken away.
def released_without_mark(state, priority):
    return after_release(state, priority, lambda entry: {"held": 0})


# The first place of the priority that has no job takes the release.
def released_where_free(state, priority):
    for place in places(state):
        if state["tasks"][place]["priority"] == priority and state["entries"][place]["status"] == NO_JOB:
            return 0, changed(state, place, status=arriving(state, priority), started=False, sleeps=0,
                              opened=[0] * RESOURCES, next=(state["entries"][place]["next"] + 1) % SERIALS)
    return released(state, priority)


# A woken job is ready without the test.
def resumed_at_once(state, number):
    refusal, after = resumed(state, number)
    for place in places(state):
        if after["entries"][place] != state["entries"][place]:
            after = changed(after, place, status=READY)
    return refusal, after


# The first place with the number decides, asleep or not.
def resumed_at_first_number(state, number):
    found = [place for place in places(state) if job_number(state, place) == number]
    if not found or state["entries"][found[0]]["status"] != ASLEEP:
        return 20, state
    return resumed(state, number)


# The first sleeping place of the priority decides, whatever its serial.
def resumed_at_first_sleeper(state, number):
    for place in places(state):
        if state["entries"][place]["status"] == ASLEEP and state["tasks"][place]["priority"] == number[0]:
            return resumed(state, number) if job_number(state, place) == number else (20, state)
    return 20, state


# The system ceiling is the highest of all open sections.
def system_ceiling_highest(state):
    return max((ceiling(state, resource) for _, resource in state["open"]), default=0)


# Jobs at the ceiling come ready.
def arriving_at_ceiling(state, priority):
    return READY if priority >= system_ceiling(state) else WAITING


# Jobs at the ceiling are woken too.
def woken_at_ceiling(state):
    bound = system_ceiling(state)
    for place in places(state):
        if state["entries"][place]["status"] == WAITING and state["tasks"][place]["priority"] >= bound:
            state = changed(state, place, status=READY)
    return state


# Nobody is woken.
def woken_none(state):
    return state


# One job alone is woken, the first.
def woken_one(state):
    for place in places(state):
        after = woken(state)
        if after["entries"][place] != state["entries"][place]:
            return changed(state, place, status=READY)
    return state


# Entries past the tasks are woken too.
def woken_everywhere(state):
    bound = system_ceiling(state)
    for place in range(PLACES):
        if state["entries"][place]["status"] == WAITING and state["tasks"][place]["priority"] > bound:
            state = changed(state, place, status=READY)
    return state


# The last open section is closed, whoever's it is.
def closed_last(state, section):
    return {**state, "open": state["open"][:-1]}


# The last of equal sections is closed.
def closed_last_equal(state, section):
    return {**state, "open": closed({"open": state["open"][::-1]}, section)["open"][::-1]}


# Any open section of the resource will do, whoever's it is.
def closed_by_resource(state, section):
    at = [resource for _, resource in state["open"]].index(section[1])
    return {**state, "open": state["open"][:at] + state["open"][at + 1:]}


# Under any number the running job's section is closed.
def unlocked_under_any_number(state, number, resource):
    place = running_place(state)
    return (13, state) if place is None else unlocked(state, job_number(state, place), resource)


# The named job's section is closed, also when it doesn't run.
def unlocked_by_number(state, number, resource):
    for place in places(state):
        if job_number(state, place) == number and state["entries"][place]["held"] == resource != 0:
            after = changed(state, place, held=0)
            found = (place, resource) in state["open"]
            return 0, woken(closed(after, (place, resource))) if found else after
    return unlocked(state, number, resource)


# Jobs are woken also when there was no section to close.
def unlocked_and_woken(state, number, resource):
    refusal, after = unlocked(state, number, resource)
    return refusal, after if refusal else woken(after)


# An entry without a held mark may unlock resource 0.
def unlocked_of_none(state, number, resource):
    return (0, state) if resource == 0 and unlocked(state, number, 0)[0] == 17 else unlocked(state, number, resource)


# Whether the running job has this number and a use of the resource.
def may_open(state, number, resource):
    place = place_if_running(state, number)
    return place is not None and allowed(state["tasks"][place], resource) > 0


# The number of sections in the job is looked at before what it holds.
def locked_by_count_first(state, number, resource):
    place = place_if_running(state, number)
    if may_open(state, number, resource):
        if state["entries"][place]["opened"][resource - 1] >= allowed(state["tasks"][place], resource):
            return 16, state
    return locked(state, number, resource)


# Where 16 are open, the last makes room.
def locked_past_the_slots(state, number, resource):
    if len(state["open"]) == SLOTS:
        refusal, after = locked({**state, "open": state["open"][:-1]}, number, resource)
        return (refusal, state) if refusal else (0, after)
    return locked(state, number, resource)


# N is reached only when it is met exactly.
def locked_past_the_limit(state, number, resource):
    place = place_if_running(state, number)
    if may_open(state, number, resource):
        opened = state["entries"][place]["opened"]
        if opened[resource - 1] > allowed(state["tasks"][place], resource):
            after = locked(changed(state, place, opened=[0] * RESOURCES), number, resource)[1]
            return 0, changed(after, place, opened=opened)
    return locked(state, number, resource)


# A job may go to sleep inside a section.
def suspended_in_section(state, number):
    place = place_if_running(state, number)
    if place is None:
        return 13, state
    held = state["entries"][place]["held"]
    refusal, after = suspended(changed(state, place, held=0), number)
    return (refusal, state) if refusal else (0, changed(after, place, held=held))


# X is reached only when it is met exactly.
def suspended_past_the_limit(state, number):
    place = place_if_running(state, number)
    if place is not None and state["entries"][place]["held"] == 0:
        if state["entries"][place]["sleeps"] > state["tasks"][place]["x"]:
            return 0, changed(state, place, status=ASLEEP)
    return suspended(state, number)


# A job may finish inside a section.
def completed_in_section(state, number):
    place = place_if_running(state, number)
    return (13, state) if place is None else (0, changed(state, place, status=NO_JOB))


# A finished job's started mark is taken away.
def completed_and_unstarted(state, number):
    refusal, after = completed(state, number)
    return (refusal, after) if refusal else (0, changed(after, place_if_running(state, number), started=False))


# The serial is that of the next job.
def job_number_to_come(state, place):
    return state["tasks"][place]["priority"], state["entries"][place]["next"]


# Nobody is started.
def answer_without_start(rule, state, *numbers):
    if not fit(state):
        return 26, None, state
    refusal, after = rule(state, *numbers)
    place = running_place(after)
    return refusal, None if place is None else job_number(after, place), after


# A refusal starts the running job too.
def answer_with_start(rule, state, *numbers):
    refusal, job, after = answer(rule, state, *numbers)
    return refusal, job, after if job is None else changed(after, running_place(after), started=True)


# After an unlock that finds no such open section the same job runs.
def answer_after_freeing(rule, state, *numbers):
    refusal, job, after = answer(rule, state, *numbers)
    if refusal or rule is not unlocked or after["open"] != state["open"]:
        return refusal, job, after
    place = running_place(state)
    return 0, job_number(state, place), changed(rule(state, *numbers)[1], place, started=True)


# A job that is not above the system priority is not started.
def answer_starting_above(rule, state, *numbers):
    refusal, job, after = answer(rule, state, *numbers)
    if refusal or job is None:
        return refusal, job, after
    before = rule(state, *numbers)[1]
    return 0, job, after if job[0] > system_priority(before) else before


# An unfit state's running job is named.
def answer_of_unfit(rule, state, *numbers):
    refusal, job, after = answer(rule, state, *numbers)
    place = running_place(after)
    return refusal, None if place is None else job_number(after, place), after


# Any state will do, in one respect or in all.
def fitting(state):
    return True


# The functions of scheduler.py that a slip takes the place of; a slip's name begins with that of its function.
REPLACED = ["released", "resumed", "system_ceiling", "arriving", "woken", "closed", "unlocked", "locked", "suspended",
            "completed", "job_number", "answer"]
FITTING = ["fit", "count_fits", "settings_fit", "sections_fit", "section_places_fit", "section_resources_fit"]
# Each slip with the function that it takes the place of.
SLIPS = RUNNING_SLIPS + [(name, slip) for name in REPLACED for title, slip in list(globals().items())
                         if title.startswith(name + "_")]
SLIPS += [(name, fitting) for name in FITTING]
