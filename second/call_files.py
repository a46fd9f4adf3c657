"""Cases for the scheduler: their bytes, the lines they print, and reading them back."""

import scheduler
from scheduler import PLACES, RESOURCES, SLOTS
from checksums import checksum, low_first

# A case is a letter and what follows it: bytes for T, a state for M, numbers for the rest.
CALLS = {"r": "release", "w": "resume", "l": "lock", "u": "unlock", "s": "suspend", "c": "complete"}
WIDTHS = {"r": (1,), "w": (1, 2), "l": (1, 2, 1), "u": (1, 2, 1), "s": (1, 2), "c": (1, 2), "B": (1, 4), "S": ()}
RULES_SIZE = 3 + RESOURCES
ENTRY_SIZE = 6 + RESOURCES
STATE_SIZE = 4 + PLACES * (RULES_SIZE + ENTRY_SIZE) + 2 * SLOTS


# The numbers of a task's rules.
def rules_numbers(task):
    return [task["priority"], task["setting"], task["x"]] + task["n"]


# The numbers of an entry, the next serial last.
def entry_numbers(entry):
    return [entry["status"], int(entry["started"]), entry["sleeps"]] + entry["opened"] + [entry["held"], entry["next"]]


# The numbers of all slots of open sections, 0 past the open ones.
def slot_numbers(state):
    slots = (state["open"] + [(0, 0)] * SLOTS)[:SLOTS]
    return [number for slot in slots for number in slot]


# The numbers of a whole state, in the order of the checksum.
def state_numbers(state):
    numbers = [state["count"], len(state["open"])]
    for task in state["tasks"]:
        numbers += rules_numbers(task)
    for entry in state["entries"]:
        numbers += entry_numbers(entry)
    return numbers + slot_numbers(state)


# The bytes of an entry.
def entry_bytes(entry):
    numbers = entry_numbers(entry)
    return bytes(numbers[:-1]) + low_first(numbers[-1], 2)


# The bytes of a whole state.
def state_bytes(state):
    return (low_first(state["count"], 2) + low_first(len(state["open"]), 2)
            + b"".join(bytes(rules_numbers(task)) for task in state["tasks"])
            + b"".join(entry_bytes(entry) for entry in state["entries"]) + bytes(slot_numbers(state)))


# The bytes of a case.
def case_bytes(case):
    kind, rest = case[0], case[1:]
    if kind == "T":
        return b"T" + low_first(len(rest[0]), 2) + rest[0]
    if kind == "M":
        return b"M" + state_bytes(rest[0])
    return kind.encode("ascii") + b"".join(low_first(*pair) for pair in zip(rest, WIDTHS[kind]))


# A call by its letter.
def call(state, kind, *numbers):
    return getattr(scheduler, CALLS[kind])(state, *numbers)


# The numbers of an answer for the checksum of a burst.
def answer_numbers(refusal, job):
    return [refusal, 256, 0] if job is None else [refusal, *job]


# So many releases, each followed by a complete of the job that runs then: the numbers of all answers, and the state.
def burst(state, priority, count):
    numbers = []
    for _ in range(count):
        refusal, job, state = call(state, "r", priority)
        numbers += answer_numbers(refusal, job)
        named = (0, 0) if refusal or job is None else job
        refusal, job, state = call(state, "c", *named)
        numbers += answer_numbers(refusal, job)
    return numbers, state


# The line of a call's answer.
def answer_line(refusal, job):
    return f"{refusal} idle\n" if job is None else f"{refusal} {job[0]} {job[1]}\n"


# What a case prints, and the scheduler after it.
def perform(state, case):
    kind, rest = case[0], case[1:]
    if kind == "T":
        number, place, state = scheduler.set_up(rest[0])
        return f"set up {number} at {place}\n", state
    if kind == "M":
        return "", rest[0]
    if kind == "S":
        return f"state {checksum(state_numbers(state))}\n", state
    if kind == "B":
        numbers, state = burst(state, *rest)
        return f"burst {checksum(numbers)}\n", state
    refusal, job, state = call(state, kind, *rest)
    return answer_line(refusal, job), state


# The number of so many bytes at a place, low byte first.
def number_at(data, at, size):
    return int.from_bytes(data[at:at + size], "little")


# The rules of a task from their bytes.
def rules_from(data):
    return scheduler.task_rules(data[0], data[1], data[2], data[3:])


# An entry from its bytes.
def entry_from(data):
    return {"status": data[0], "started": bool(data[1]), "sleeps": data[2], "opened": list(data[3:3 + RESOURCES]),
            "held": data[3 + RESOURCES], "next": number_at(data, 4 + RESOURCES, 2)}


# A state from its bytes; sections past the slots are 0.
def state_from(data):
    entries = 4 + PLACES * RULES_SIZE
    slots = entries + PLACES * ENTRY_SIZE
    opened = number_at(data, 2, 2)
    sections = [(data[at], data[at + 1]) for at in range(slots, slots + 2 * SLOTS, 2)]
    return {"count": number_at(data, 0, 2),
            "tasks": [rules_from(data[at:at + RULES_SIZE]) for at in range(4, entries, RULES_SIZE)],
            "entries": [entry_from(data[at:at + ENTRY_SIZE]) for at in range(entries, slots, ENTRY_SIZE)],
            "open": (sections + [(0, 0)] * (opened - SLOTS))[:opened]}


# The cases that these bytes hold.
def cases_in(data):
    at = 0
    while at < len(data):
        kind = chr(data[at])
        at += 1
        if kind == "T":
            size = number_at(data, at, 2)
            yield kind, data[at + 2:at + 2 + size]
            at += 2 + size
        elif kind == "M":
            yield kind, state_from(data[at:at + STATE_SIZE])
            at += STATE_SIZE
        else:
            numbers = []
            for width in WIDTHS[kind]:
                numbers.append(number_at(data, at, width))
                at += width
            yield kind, *numbers


# The lines that these cases print, one by one.
def play(cases):
    state = scheduler.fresh_state([])
    for case in cases:
        text, state = perform(state, case)
        if text:
            yield text
