/* The reader, the analysis and the lock scheduler in plain C, to compare the proved ones with. */
#ifndef PLAIN_H
#define PLAIN_H
#include <stdbool.h>
#include <stddef.h>
#include <stdint.h>

enum { MOST_TASKS = 32, MOST_USES = 512, RESOURCES = 16, MOST_OPEN = 16, MOST_SLEEPS = 64 };

/* A refusal by number and place; number 0 is none. */
struct refusal {
  uint8_t number;
  size_t place;
};

/* A task; most has N for each resource by its number, 0 where there is no use. */
struct task {
  uint8_t priority, setting, sleeps;
  uint8_t most[RESOURCES + 1];
  uint32_t run, sleep, deadline, period;
};

/* A use by the place of its task. */
struct use {
  uint8_t task, resource, times;
  uint32_t length;
};

/* A table, decoded; ceiling is by resource, 0 where no task uses it. */
struct table {
  unsigned tasks, uses;
  struct task task[MOST_TASKS];
  struct use use[MOST_USES];
  uint8_t ceiling[RESOURCES + 1];
};

/* The answers of an analysis: value is a bound where bounded, and only on a condition where the verdict is no. */
struct analysis {
  struct refusal refusal;
  unsigned tasks;
  bool verdict;
  uint64_t evaluations;
  uint32_t value[MOST_TASKS];
  bool bounded[MOST_TASKS];
};

enum status { NO_JOB, READY, WAITING, ASLEEP };

/* A task's entry; next is the serial that its next release takes. */
struct entry {
  uint8_t status, started, sleeps, held;
  uint16_t next;
  uint8_t opened[RESOURCES + 1];
};

struct section {
  uint8_t place, resource;
};

struct scheduler {
  const struct table *table;
  unsigned open;
  struct section section[MOST_OPEN];
  struct entry entry[MOST_TASKS];
};

struct job {
  uint8_t priority;
  uint16_t serial;
};

/* What a call answers. */
struct answer {
  uint8_t refusal;
  bool idle;
  struct job job;
};

struct refusal read_table(struct table *table, const uint8_t *bytes, size_t length);
void analyse(struct analysis *out, const uint8_t *bytes, size_t length, uint64_t allowance);

struct refusal set_up(struct scheduler *s, struct table *table, const uint8_t *bytes, size_t length);
struct answer release(struct scheduler *s, uint8_t priority);
struct answer resume(struct scheduler *s, struct job job);
struct answer lock(struct scheduler *s, struct job job, uint8_t resource);
struct answer unlock(struct scheduler *s, struct job job, uint8_t resource);
struct answer suspend(struct scheduler *s, struct job job);
struct answer complete(struct scheduler *s, struct job job);

#endif
