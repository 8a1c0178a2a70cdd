/* How much stack each call needs, for x86-64. A thread's stack is painted, the call is run in it, and what is no longer painted was used.
 * Each call is in a function of its own, so that frames do not add up, and is run over several sets at the limits: the greatest use is told.
 * Usage: stack [table]: bytes for each call; 'table' is the header's table, each number rounded up to the next 256. */
#define _GNU_SOURCE
#include <pthread.h>
#include <stdio.h>
#include <stdlib.h>
#include <string.h>
#include <sys/mman.h>
#include "tavitrozy.h"

enum { PAINT = 0xA5, STACK = 1 << 20, SLOTS = 2200000 };

/* ---- sets at the limits */

typedef struct { size_t starts, knots, blocks, samples; bool interpolate; } kind;
static const kind kinds[] = {
  {256, 512, 256, 4096, true}, {256, 512, 256, 4096, false}, {256, 0, 256, 4096, true}, {1, 512, 0, 4096, false},
  {2, 512, 256, 4096, true},   {256, 512, 256, 0, true},     {0, 512, 256, 4096, true},
};
enum { KINDS = sizeof kinds / sizeof *kinds };

static const kind *now;
static tavitrozy_resolver standing, other;
static tavitrozy_examined examined;
static double starts[256], numbers[256], xs[512], ys[512], blocks[256], times[4096], values[4096], shuffled[4096];
static uint8_t marks[4096], name[TAVITROZY_MAX_NAME_BYTES];
static uint64_t ends[256];
static double *out_times, *out_values;
static uint8_t *out_marks;
static volatile int refused;
/* A dispatcher with a set of the kind under each name, of which the last alone declares, and one with room for a set more; and what is lent to them. */
static tavitrozy_dispatcher sixteen, fifteen;
static const uint8_t names[] = "abcdefghijklmnop";
static uint8_t listed[255];
static uint64_t name_ends[255], counts[16], all_ends[16 * 256];
static double all_times[16 * 4096], all_values[16 * 4096];
static uint8_t all_marks[16 * 4096];
static tavitrozy_order order = {listed, 255, name_ends, 255};
static tavitrozy_set_samples all_samples = {counts, 16, all_ends, 16 * 256, all_times, 0, all_values, 0, all_marks, 0};

static const tavitrozy_default none = {TAVITROZY_NONE, 0.0};
static const tavitrozy_at_stage asked = {123.4};
static const tavitrozy_template_times stepping = {1, 254, 1, 0.5};

static void lists(void) {
  for (size_t i = 0; i < 256; i++) starts[i] = (double)(255 - i), numbers[i] = (double)i, blocks[i] = (double)i + (i % 2 ? 0.25 : 0.0);
  for (size_t i = 0; i < 512; i++) xs[i] = (double)(511 - i) * 0.5, ys[i] = i % 2 ? 0.1 : 60.0;
  for (size_t i = 0; i < 4096; i++) times[i] = (double)(i % 16), values[i] = (double)i, shuffled[i] = (double)((i * 1031) % 4096);
  for (size_t i = 0; i < 255; i++) listed[i] = i < 239 ? '?' : names[i - 239], name_ends[i] = i + 1; /* unknown names, then all sets */
  for (size_t i = 0; i < 16 * 4096; i++) all_times[i] = times[i % 4096], all_values[i] = values[i % 4096];
  out_times = malloc(SLOTS * sizeof *out_times), out_values = malloc(SLOTS * sizeof *out_values), out_marks = malloc(SLOTS);
  if (!out_times || !out_values || !out_marks) exit(2);
}

#define FIELDS 256, starts, now->starts, numbers, now->starts, xs, now->knots, ys, now->knots, blocks, now->blocks, none, now->interpolate
#define TEMPLATE_FIELDS (const uint8_t *)"f.###.usd", 9, stepping, true, blocks, 256, none, true

static void stand(const kind *k) {
  now = k;
  for (size_t i = 0; i < 256; i++) ends[i] = k->samples ? 16 * (i + 1) : 0;
  tavitrozy_fresh(&standing);
  examined = tavitrozy_examine(FIELDS);
  if (tavitrozy_accept(&standing, FIELDS) || examined.number) exit(2);
  tavitrozy_dispatcher_fresh(&sixteen);
  for (size_t i = 0; i < 16; i++) {
    memcpy(all_ends + 256 * i, ends, sizeof ends), counts[i] = k->samples;
    if (i == 15) fifteen = sixteen;
    if (tavitrozy_dispatcher_accept(&sixteen, &names[i], 1, i == 15, FIELDS)) exit(2);
  }
  all_samples.times_len = all_samples.values_len = all_samples.marks_len = 16 * k->samples;
}

/* ---- the calls, one in each function */

#define SAMPLES times, now->samples, values, now->samples, marks, now->samples, ends, 256
#define CALL __attribute__((noinline)) static void
CALL call_fresh(void) { tavitrozy_fresh(&other); }
CALL call_accept(void) { refused = tavitrozy_accept(&other, FIELDS); }
CALL call_accept_template(void) { refused = tavitrozy_accept_template(&other, TEMPLATE_FIELDS); }
CALL call_examine(void) { refused = tavitrozy_examine(FIELDS).number; }
CALL call_examine_template(void) { refused = tavitrozy_examine_template(TEMPLATE_FIELDS).number; }
CALL call_install(void) { tavitrozy_install(&other, &examined.set); }
CALL call_retime(void) { tavitrozy_layer_offset o = {1, -2}; refused = tavitrozy_retime(&other, o); }
CALL call_active_clip(void) { refused = tavitrozy_active_clip(&standing, asked).number; }
CALL call_clip_time(void) { refused = tavitrozy_clip_time(&standing, asked).number; }
CALL call_value(void) { refused = tavitrozy_value(&standing, SAMPLES, asked).number; }
CALL call_untimed(void) { refused = tavitrozy_untimed(&standing, SAMPLES).number; }
CALL call_stage_sample_count(void) { refused = tavitrozy_stage_sample_count(&standing, SAMPLES).number; }
CALL call_stage_sample_times(void) { refused = tavitrozy_stage_sample_times(&standing, SAMPLES, out_times, SLOTS).number; }
CALL call_stage_samples(void) { refused = tavitrozy_stage_samples(&standing, SAMPLES, out_times, SLOTS, out_marks, SLOTS).number; }
CALL call_change_count(void) { refused = tavitrozy_change_count(&standing, SAMPLES).number; }
CALL call_bake(void) { refused = tavitrozy_bake(&standing, SAMPLES, out_times, SLOTS, out_values, SLOTS, out_marks, SLOTS).number; }
CALL call_read(void) { tavitrozy_entry h = {0, 0}; refused = tavitrozy_read(h, times, 16, values, 16, marks, 16, asked).mark; }
CALL call_name(void) { tavitrozy_at_clip c = {0.125}; refused = tavitrozy_name((const uint8_t *)"f.###.######.usd", 16, c, name, sizeof name).number; }
CALL call_template_clip_times(void) { refused = tavitrozy_template_clip_times(stepping, true, out_times, 256).number; }
CALL call_normalize(void) {
  refused = tavitrozy_normalize(shuffled, 4096, values, 4096, marks, 4096, out_times, 4096, out_values, 4096, out_marks, 4096).number;
}
CALL call_total_key(void) { refused = tavitrozy_total_key(0) == 0; }
CALL call_dispatcher_fresh(void) { tavitrozy_dispatcher_fresh(&fifteen); }
CALL call_dispatcher_accept(void) { refused = tavitrozy_dispatcher_accept(&fifteen, &names[15], 1, true, FIELDS); }
CALL call_dispatcher_accept_template(void) { refused = tavitrozy_dispatcher_accept_template(&fifteen, &names[15], 1, true, TEMPLATE_FIELDS); }
CALL call_dispatcher_install(void) { refused = tavitrozy_dispatcher_install(&fifteen, &names[15], 1, true, &examined.set); }
CALL call_dispatcher_retime(void) { tavitrozy_layer_offset o = {1, -2}; refused = tavitrozy_dispatcher_retime(&fifteen, &names[14], 1, o); }
CALL call_dispatcher_value(void) { refused = tavitrozy_dispatcher_value(&sixteen, &order, &all_samples, asked).reply.number; }
CALL call_dispatcher_bake(void) {
  refused = tavitrozy_dispatcher_bake(&sixteen, &order, &all_samples, out_times, SLOTS, out_values, SLOTS, out_marks, SLOTS).reply.number;
}

typedef struct { const char *name; void (*call)(void); } row;
#define ROW(N) {#N, call_##N}
static const row rows[] = {
  ROW(fresh), ROW(accept), ROW(accept_template), ROW(examine), ROW(examine_template), ROW(install), ROW(retime), ROW(active_clip), ROW(clip_time), ROW(value),
  ROW(untimed), ROW(stage_sample_count), ROW(stage_sample_times), ROW(stage_samples), ROW(change_count), ROW(bake), ROW(read), ROW(name),
  ROW(template_clip_times), ROW(normalize), ROW(total_key), ROW(dispatcher_fresh), ROW(dispatcher_accept), ROW(dispatcher_accept_template),
  ROW(dispatcher_install), ROW(dispatcher_retime), ROW(dispatcher_value), ROW(dispatcher_bake),
};

/* ---- the measure */

typedef struct { unsigned char *stack; void (*call)(void); size_t used; } measure;

/* Paints all below its own frame, calls, and looks how far down the paint is gone. Volatile, and no call beside the one: nothing else uses that stack. */
static void *run(void *given) {
  measure *m = given;
  volatile unsigned char *here, *p;
  __asm__ volatile("mov %%rsp, %0" : "=r"(here));
  for (p = m->stack; p < here; p++) *p = PAINT;
  m->call();
  for (p = m->stack; p < here && *p == PAINT; p++) {}
  m->used = (size_t)(here - p);
  return NULL;
}

static size_t used_by(void (*call)(void)) {
  measure m = {mmap(NULL, STACK, PROT_READ | PROT_WRITE, MAP_PRIVATE | MAP_ANONYMOUS, -1, 0), call, 0};
  pthread_attr_t attributes;
  pthread_t thread;
  if (m.stack == MAP_FAILED) exit(2);
  if (pthread_attr_init(&attributes) || pthread_attr_setstack(&attributes, m.stack, STACK) || pthread_create(&thread, &attributes, run, &m)) exit(2);
  pthread_join(thread, NULL);
  munmap(m.stack, STACK);
  return m.used;
}

/* The greatest use over all kinds of sets. What a call changes is a copy, so each begins from the set as it was accepted. */
static size_t most_used(const row *r) {
  size_t most = 0;
  for (size_t i = 0; i < KINDS; i++) {
    refused = 0;
    stand(&kinds[i]);
    other = standing;
    size_t used = used_by(r->call);
    if (refused) printf("%s is refused with %d\n", r->name, refused), exit(2);
    if (used > most) most = used;
  }
  return most;
}

static void print_table(void) {
  for (size_t i = 0; i < sizeof rows / sizeof *rows; i++)
    printf("%s%s %zu", i % 5 ? "   " : i ? "\n *   " : " *   ", rows[i].name, (most_used(&rows[i]) / 256 + 1) * 256);
  printf("\n");
}

int main(int argc, char **argv) {
  lists();
  if (argc > 1 && !strcmp(argv[1], "table")) return print_table(), 0;
  for (size_t i = 0; i < sizeof rows / sizeof *rows; i++) printf("%s %zu\n", rows[i].name, most_used(&rows[i]));
  return 0;
}
