/* Runs the plain or the proved code so many times and prints a checksum of what it answered; or tells how deep its stack goes. */
#include "plain.h"
#include <stdio.h>
#include <stdlib.h>
#include <string.h>
#include <ucontext.h>

/* the proved ones, of libmeasured.a: a slice is a pointer and a length */
uint64_t quasdrom_analyses(const uint8_t *bytes, size_t length, uint64_t allowance, uint64_t times);
uint64_t quasdrom_calls(const uint8_t *table, size_t table_length, const uint8_t *calls, size_t calls_length, uint64_t times);

static uint64_t mixed(uint64_t h, uint64_t x) {
  const uint64_t mask = ((uint64_t)1 << 40) - 1;
  return (h & mask) * 257 + (x & mask);
}

static uint64_t with_analysis(uint64_t sum, const struct analysis *analysis) {
  sum = mixed(sum, analysis->refusal.number);
  sum = mixed(sum, analysis->refusal.place);
  sum = mixed(sum, analysis->verdict);
  sum = mixed(sum, analysis->evaluations);
  for (unsigned i = 0; i < analysis->tasks; i++) {
    if (!analysis->bounded[i]) {
      sum = mixed(sum, 0);
      continue;
    }
    if (!analysis->verdict) sum = mixed(sum, 1);
    sum = mixed(sum, analysis->value[i]);
  }
  return sum;
}

static uint64_t plain_analyses(const uint8_t *bytes, size_t length, uint64_t allowance, uint64_t times) {
  uint64_t sum = 0;
  for (uint64_t i = 0; i < times; i++) {
    struct analysis analysis;
    analyse(&analysis, bytes, length, allowance + i);
    sum = with_analysis(sum, &analysis);
  }
  return sum;
}

static struct answer call(struct scheduler *s, uint8_t kind, struct job job, uint8_t resource) {
  switch (kind) {
  case 16: return release(s, job.priority);
  case 17: return resume(s, job);
  case 18: return lock(s, job, resource);
  case 19: return unlock(s, job, resource);
  case 20: return suspend(s, job);
  default: return complete(s, job);
  }
}

/* A call record is kind, priority, the serial's low and high byte, resource; the serial is one more in each pass. */
static uint64_t plain_calls(const uint8_t *bytes, size_t length, const uint8_t *calls, size_t calls_length, uint64_t times) {
  struct table table;
  struct scheduler s;
  uint64_t sum = mixed(0, set_up(&s, &table, bytes, length).number);
  for (uint64_t pass = 0; pass < times; pass++) {
    for (size_t at = 0; at < calls_length; at += 5) {
      const uint8_t *record = calls + at;
      uint8_t kind = record[0];
      struct job job = {record[1], record[2] + 256 * record[3] + pass};
      if (kind < 16 || kind > 21) continue;
      struct answer answer = call(&s, kind, job, record[4]);
      sum = mixed(sum, answer.refusal);
      sum = mixed(sum, answer.idle ? 1 << 24 : answer.job.priority << 16 | answer.job.serial);
    }
  }
  return sum;
}

struct file {
  uint8_t *bytes;
  size_t length;
};

static struct file read_file(const char *name) {
  enum { MOST = 1 << 20 };
  struct file file = {malloc(MOST), 0};
  FILE *in = fopen(name, "rb");
  if (in == NULL || file.bytes == NULL) {
    fprintf(stderr, "driver: cannot read %s\n", name);
    exit(2);
  }
  file.length = fread(file.bytes, 1, MOST, in);
  fclose(in);
  return file;
}

/* What is to be run, so that a run has one argument. */
struct work {
  bool proved, calls;
  struct file first, second;
  uint64_t allowance, times;
};

static __attribute__((noinline)) uint64_t run(const struct work *w) {
  if (w->calls)
    return (w->proved ? quasdrom_calls : plain_calls)(w->first.bytes, w->first.length, w->second.bytes, w->second.length, w->times);
  return (w->proved ? quasdrom_analyses : plain_analyses)(w->first.bytes, w->first.length, w->allowance, w->times);
}

enum { AREA = 1 << 20, PAINT = 0xa5 };
static ucontext_t caller, worker;
static const struct work *to_run;
static uint8_t *top;

/* Runs on the painted stack, from where it stands in this frame. */
static void on_stack(void) {
  top = __builtin_frame_address(0);
  run(to_run);
}

/* How many bytes of stack below its caller a run changes: it is given a painted stack of its own. */
static size_t depth(const struct work *w) {
  static uint8_t area[AREA];
  size_t clean = 0;
  memset(area, PAINT, AREA);
  getcontext(&worker);
  worker.uc_stack.ss_sp = area;
  worker.uc_stack.ss_size = AREA;
  worker.uc_link = &caller;
  to_run = w;
  makecontext(&worker, on_stack, 0);
  swapcontext(&caller, &worker);
  while (area + clean < top && area[clean] == PAINT) clean++;
  return top - (area + clean);
}

/* Prints a number by sixteen digits, at the same cost whatever it is. */
static void print(uint64_t number) {
  char text[17];
  for (int i = 0; i < 16; i++) text[i] = "0123456789abcdef"[number >> (60 - 4 * i) & 15];
  text[16] = '\n';
  fwrite(text, 1, sizeof text, stdout);
}

static int usage(void) {
  fputs("usage: driver plain|proved analyse TABLE ALLOWANCE TIMES\n"
        "       driver plain|proved calls TABLE LIST TIMES\n"
        "       driver plain|proved stack TABLE ALLOWANCE\n"
        "       driver plain|proved depth TABLE LIST\n", stderr);
  return 2;
}

int main(int argc, char **argv) {
  if (argc < 5) return usage();
  const char *what = argv[2];
  bool deep = !strcmp(what, "stack") || !strcmp(what, "depth");
  struct work w = {.proved = !strcmp(argv[1], "proved"), .calls = !strcmp(what, "calls") || !strcmp(what, "depth"), .times = 1};
  if (argc != (deep ? 5 : 6)) return usage();
  w.first = read_file(argv[3]);
  if (w.calls)
    w.second = read_file(argv[4]);
  else
    w.allowance = strtoull(argv[4], NULL, 10);
  if (!deep) w.times = strtoull(argv[5], NULL, 10);
  print(deep ? depth(&w) : run(&w));
  return 0;
}
