/* The lock scheduler in plain C: the state by pointer, the decoded table beside it. */
#include "plain.h"
#include <string.h>

enum { NOWHERE = MOST_TASKS };

/* Whether a state can be worked with. */
static bool fit(const struct scheduler *s) {
  const struct table *table = s->table;
  if (table->tasks > MOST_TASKS || s->open > MOST_OPEN) return false;
  for (unsigned i = 0; i < table->tasks; i++)
    if (table->task[i].setting >= table->task[i].priority) return false;
  for (unsigned k = 0; k < s->open; k++) {
    struct section section = s->section[k];
    if (section.place >= table->tasks || section.resource > RESOURCES) return false;
    if (table->ceiling[section.resource] == 0) return false;
  }
  return true;
}

/* The place of the running job: the highest ready one if it is above the system priority, else the highest ready holder. */
static unsigned running(const struct scheduler *s) {
  const struct table *table = s->table;
  unsigned system = 0, highest = 0, highest_held = 0, place = NOWHERE, holder = NOWHERE;
  for (unsigned i = 0; i < table->tasks; i++) {
    const struct task *task = &table->task[i];
    const struct entry *entry = &s->entry[i];
    if (entry->status == NO_JOB) continue;
    if (entry->started && task->setting > system) system = task->setting;
    if (entry->status != READY) continue;
    if (task->priority > highest) {
      highest = task->priority;
      place = i;
    }
    if (entry->held && task->priority > highest_held) {
      highest_held = task->priority;
      holder = i;
    }
  }
  return highest > system ? place : holder;
}

static uint16_t serial_at(const struct scheduler *s, unsigned place) { return s->entry[place].next - 1; }

static struct answer answer(const struct scheduler *s, uint8_t refusal, unsigned place) {
  if (place == NOWHERE) return (struct answer){refusal, true, {0, 0}};
  return (struct answer){refusal, false, {s->table->task[place].priority, serial_at(s, place)}};
}

/* An accepted call's answer: who runs at this place is started. */
static struct answer accepted(struct scheduler *s, unsigned place) {
  if (place != NOWHERE) s->entry[place].started = true;
  return answer(s, 0, place);
}

/* Whether the job at a place has this number. */
static bool is_job(const struct scheduler *s, unsigned place, struct job job) {
  return s->table->task[place].priority == job.priority && serial_at(s, place) == job.serial;
}

static uint8_t system_ceiling(const struct scheduler *s) {
  return s->open == 0 ? 0 : s->table->ceiling[s->section[s->open - 1].resource];
}

static uint8_t admitted(const struct scheduler *s, unsigned place) {
  return s->table->task[place].priority > system_ceiling(s) ? READY : WAITING;
}

/* Sets up on a table, which stays where it is; a refused one has no tasks. */
struct refusal set_up(struct scheduler *s, struct table *table, const uint8_t *bytes, size_t length) {
  struct refusal refusal = read_table(table, bytes, length);
  if (refusal.number) table->tasks = 0;
  memset(s, 0, sizeof *s);
  s->table = table;
  return refusal;
}

struct answer release(struct scheduler *s, uint8_t priority) {
  if (!fit(s)) return answer(s, 26, NOWHERE);
  unsigned place = 0;
  while (place < s->table->tasks && s->table->task[place].priority != priority) place++;
  if (place == s->table->tasks) return answer(s, 11, running(s));
  struct entry *entry = &s->entry[place];
  if (entry->status != NO_JOB) return answer(s, 12, running(s));
  entry->status = admitted(s, place);
  entry->started = false;
  entry->sleeps = 0;
  entry->next++;
  memset(entry->opened, 0, sizeof entry->opened);
  return accepted(s, running(s));
}

struct answer resume(struct scheduler *s, struct job job) {
  if (!fit(s)) return answer(s, 26, NOWHERE);
  unsigned place = 0;
  while (place < s->table->tasks && !(s->entry[place].status == ASLEEP && is_job(s, place, job))) place++;
  if (place == s->table->tasks) return answer(s, 20, running(s));
  s->entry[place].status = admitted(s, place);
  return accepted(s, running(s));
}

struct answer lock(struct scheduler *s, struct job job, uint8_t resource) {
  if (!fit(s)) return answer(s, 26, NOWHERE);
  unsigned place = running(s);
  if (place == NOWHERE || !is_job(s, place, job)) return answer(s, 13, place);
  struct entry *entry = &s->entry[place];
  uint8_t most = resource > RESOURCES ? 0 : s->table->task[place].most[resource];
  if (most == 0) return answer(s, 14, place);
  if (entry->held || s->open == MOST_OPEN) return answer(s, 15, place);
  if (entry->opened[resource] >= most) return answer(s, 16, place);
  entry->opened[resource]++;
  entry->held = resource;
  s->section[s->open++] = (struct section){place, resource};
  return accepted(s, place);
}

struct answer unlock(struct scheduler *s, struct job job, uint8_t resource) {
  if (!fit(s)) return answer(s, 26, NOWHERE);
  unsigned place = running(s);
  if (place == NOWHERE || !is_job(s, place, job)) return answer(s, 13, place);
  struct entry *entry = &s->entry[place];
  if (resource == 0 || entry->held != resource) return answer(s, 17, place);
  entry->held = 0;
  unsigned k = 0;
  while (k < s->open && (s->section[k].place != place || s->section[k].resource != resource)) k++;
  if (k == s->open) return accepted(s, running(s)); /* without its mark the job may not be eligible */
  s->open--;
  for (; k < s->open; k++) s->section[k] = s->section[k + 1];
  s->section[s->open] = (struct section){0, 0};
  uint8_t ceiling = system_ceiling(s);
  for (unsigned i = 0; i < s->table->tasks; i++)
    if (s->entry[i].status == WAITING && s->table->task[i].priority > ceiling) s->entry[i].status = READY;
  return accepted(s, running(s));
}

struct answer suspend(struct scheduler *s, struct job job) {
  if (!fit(s)) return answer(s, 26, NOWHERE);
  unsigned place = running(s);
  if (place == NOWHERE || !is_job(s, place, job)) return answer(s, 13, place);
  struct entry *entry = &s->entry[place];
  if (entry->held) return answer(s, 18, place);
  if (entry->sleeps >= s->table->task[place].sleeps) return answer(s, 19, place);
  entry->status = ASLEEP;
  entry->sleeps++;
  return accepted(s, running(s));
}

struct answer complete(struct scheduler *s, struct job job) {
  if (!fit(s)) return answer(s, 26, NOWHERE);
  unsigned place = running(s);
  if (place == NOWHERE || !is_job(s, place, job)) return answer(s, 13, place);
  struct entry *entry = &s->entry[place];
  if (entry->held) return answer(s, 18, place);
  entry->status = NO_JOB;
  return accepted(s, running(s));
}
