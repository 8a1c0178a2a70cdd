/* The library as a C program meets it: the worked figures, zeros, retimings in a row, every refusal number that is given, NULL and the limits, what a refused
 * call leaves, the samples that values were read from, sets that are examined and installed, several sets under their names, the odd readings, and the keys of
 * the total order.
 * It is built as C11 and as C++17, so it keeps to what both have. Prints what is not so; status 1 if anything is not. */
#include <fenv.h>
#include <math.h>
#include <stdio.h>
#include <stdlib.h>
#include <string.h>
#if defined(__x86_64__)
#include <xmmintrin.h>
#endif
#include "tavitrozy.h"

static int failures, checks;
#define CHECK(C) check((C), #C, __LINE__)
static void check(bool so, const char *what, int line) {
  checks++;
  if (so) return;
  failures++;
  printf("boundary.c:%d: not so: %s\n", line, what);
}

/* ---- what is lent */

typedef struct { double times[4200], values[4200]; uint8_t marks[4200]; uint64_t ends[300]; size_t len, clips; } samples;
#define LENT(S) (S)->times, (S)->len, (S)->values, (S)->len, (S)->marks, (S)->len, (S)->ends, (S)->clips
#define NO_SAMPLES NULL, 0, NULL, 0, NULL, 0, NULL, 0

typedef struct { double times[64], values[64]; uint8_t marks[64]; } track_lists;
#define OUT(T, N) (T)->times, N, (T)->values, N, (T)->marks, N

static const tavitrozy_default none = {TAVITROZY_NONE, 0.0};

static tavitrozy_at_stage at(double t) { tavitrozy_at_stage a; a.value = t; return a; }
static tavitrozy_at_clip in_clip(double t) { tavitrozy_at_clip a; a.value = t; return a; }
static tavitrozy_default value_default(double v) { tavitrozy_default d = {TAVITROZY_VALUE, 0.0}; d.value = v; return d; }
static tavitrozy_layer_offset moving(double offset, double scale) { tavitrozy_layer_offset o; o.offset = offset, o.scale = scale; return o; }
static tavitrozy_template_times stepping(double start, double end, double stride, double offset) {
  tavitrozy_template_times t;
  t.start = start, t.end = end, t.stride = stride, t.offset = offset;
  return t;
}

static void add(samples *s, double time, double value) {
  s->times[s->len] = time, s->values[s->len] = value, s->marks[s->len] = TAVITROZY_VALUE, s->len++;
}
static void end_clip(samples *s) { s->ends[s->clips++] = s->len; }

static uint8_t accept(tavitrozy_resolver *r, uint64_t clips, const double *starts, const double *numbers, size_t n, const double *xs, const double *ys, size_t k) {
  return tavitrozy_accept(r, clips, starts, n, numbers, n, xs, k, ys, k, NULL, 0, none, false);
}
static uint8_t template_of(tavitrozy_resolver *r, const char *pattern, tavitrozy_template_times t, bool has_offset) {
  return tavitrozy_accept_template(r, (const uint8_t *)pattern, strlen(pattern), t, has_offset, NULL, 0, none, false);
}

static bool same_bits(double a, double b) { return memcmp(&a, &b, sizeof a) == 0; }

/* ---- the worked figures */

static void active_clips(void) {
  const double starts[] = {0, 10}, numbers[] = {0, 1};
  tavitrozy_resolver r;
  tavitrozy_fresh(&r);
  CHECK(accept(&r, 2, starts, numbers, 2, NULL, NULL, 0) == 0);
  CHECK(tavitrozy_active_clip(&r, at(-5)).found && tavitrozy_active_clip(&r, at(-5)).clip == 0);
  CHECK(tavitrozy_active_clip(&r, at(9.5)).clip == 0);
  CHECK(tavitrozy_active_clip(&r, at(10)).clip == 1);
}

static void equal_entries(void) {
  const double zeros[] = {0.0, -0.0}, both[] = {0, 1}, start[] = {0}, half[] = {1.5}, clip[] = {0}, fives[] = {5, 5, 5}, ys[] = {1, 2, 3};
  tavitrozy_resolver r;
  tavitrozy_fresh(&r);
  CHECK(accept(&r, 2, zeros, both, 2, NULL, NULL, 0) == TAVITROZY_REFUSED_EQUAL_STARTS);
  CHECK(accept(&r, 2, start, half, 1, NULL, NULL, 0) == TAVITROZY_REFUSED_NO_CLIP_NUMBER);
  CHECK(accept(&r, 1, start, clip, 1, fives, ys, 3) == TAVITROZY_REFUSED_THREE_EQUAL_KNOTS);
  CHECK(accept(&r, 1, start, clip, 1, fives, ys, 2) == 0);
}

static void clip_times(void) {
  const double xs[] = {0, 10, 10, 20}, ys[] = {0, 10, 0, 10}, start[] = {0}, clip[] = {0};
  const double asked[] = {-1, 5, 10, 15, 25}, told[] = {0, 5, 0, 5, 10};
  tavitrozy_resolver r;
  tavitrozy_fresh(&r);
  CHECK(accept(&r, 1, start, clip, 1, xs, ys, 4) == 0);
  for (int i = 0; i < 5; i++) CHECK(tavitrozy_clip_time(&r, at(asked[i])).time.value == told[i]);
}

static bool named(const char *pattern, double time, const char *name) {
  uint8_t out[TAVITROZY_MAX_NAME_BYTES];
  tavitrozy_counted c = tavitrozy_name((const uint8_t *)pattern, strlen(pattern), in_clip(time), out, sizeof out);
  return c.number == 0 && c.count == strlen(name) && memcmp(out, name, c.count) == 0;
}

static void templates(void) {
  tavitrozy_resolver r;
  double times[3] = {0, 0, 0};
  tavitrozy_fresh(&r);
  CHECK(template_of(&r, "f.###.usd", stepping(1, 3, 1, NAN), false) == 0 && r.shape.clips == 3);
  CHECK(tavitrozy_template_clip_times(stepping(1, 3, 1, NAN), false, times, 3).count == 3);
  CHECK(named("f.###.usd", times[0], "f.001.usd") && named("f.###.usd", times[1], "f.002.usd") && named("f.###.usd", times[2], "f.003.usd"));
  /* an offset moves the starts, and not the clip times */
  CHECK(template_of(&r, "f.###.usd", stepping(101, 103, 1, 0.5), true) == 0 && r.starts[0] == 101.5);
  CHECK(tavitrozy_template_clip_times(stepping(101, 103, 1, 0.5), true, times, 3).count == 3 && times[0] == 101 && times[1] == 102 && times[2] == 103);
  CHECK(template_of(&r, "f.###.usd", stepping(1, 1, 1, 0), true) == TAVITROZY_REFUSED_THREE_EQUAL_KNOTS);
  CHECK(template_of(&r, "f.###.usd", stepping(1, 1, 1, 0), false) == 0);
  CHECK(named("f.###.usd", -5, "f.-05.usd") && named("f.##.##.usd", -0.5, "f.-00.50.usd"));
  CHECK(named("f.##.##.usd", 0.125, "f.00.12.usd") && named("f.##.##.usd", 0.375, "f.00.38.usd"));
}

/* The first clip runs backwards from 0 to 20, then comes the second. */
static void accept_backwards(tavitrozy_resolver *r, samples *s) {
  const double starts[] = {0, 20}, numbers[] = {0, 1}, xs[] = {0, 20}, ys[] = {10, 0};
  tavitrozy_fresh(r);
  add(s, 0, 1), add(s, 10, 2), end_clip(s), add(s, 0, 3), end_clip(s);
  CHECK(accept(r, 2, starts, numbers, 2, xs, ys, 2) == 0);
}

static void held(void) {
  static samples s;
  track_lists t;
  tavitrozy_resolver r;
  accept_backwards(&r, &s);
  tavitrozy_value_reply v = tavitrozy_value(&r, LENT(&s), at(5));
  CHECK(v.number == 0 && v.mark == TAVITROZY_VALUE && v.value == 2);
  tavitrozy_baked b = tavitrozy_bake(&r, LENT(&s), OUT(&t, 64));
  CHECK(b.number == 0 && b.mark == TAVITROZY_VALUE && b.value == 2 && b.count == 1);
  CHECK(t.times[0] == 20 && t.values[0] == 3 && t.marks[0] == TAVITROZY_VALUE);
  CHECK(tavitrozy_change_count(&r, LENT(&s)).count == 1);
}

static void missing(void) {
  const double starts[] = {0, 10, 20}, numbers[] = {0, 1, 2}, block[] = {0};
  static samples s;
  track_lists t;
  tavitrozy_resolver r;
  tavitrozy_fresh(&r);
  add(&s, 0, 1), end_clip(&s), end_clip(&s), add(&s, 20, 3), end_clip(&s);
  CHECK(tavitrozy_accept(&r, 3, starts, 3, numbers, 3, NULL, 0, NULL, 0, NULL, 0, none, false) == 0);
  tavitrozy_value_reply v = tavitrozy_value(&r, LENT(&s), at(15));
  CHECK(v.number == 0 && v.mark == TAVITROZY_BLOCK && same_bits(v.value, 0.0));
  CHECK(tavitrozy_accept(&r, 3, starts, 3, numbers, 3, NULL, 0, NULL, 0, NULL, 0, none, true) == 0);
  v = tavitrozy_value(&r, LENT(&s), at(15));
  CHECK(v.mark == TAVITROZY_VALUE && v.value == 1);
  CHECK(tavitrozy_accept(&r, 3, starts, 3, numbers, 3, NULL, 0, NULL, 0, block, 1, none, true) == 0);
  tavitrozy_baked b = tavitrozy_bake(&r, LENT(&s), OUT(&t, 64));
  CHECK(b.number == 0 && b.mark == TAVITROZY_VALUE && b.value == 3 && b.count == 0);
  CHECK(tavitrozy_accept(&r, 3, starts, 3, numbers, 3, NULL, 0, NULL, 0, NULL, 0, value_default(7), false) == 0);
  CHECK(tavitrozy_value(&r, LENT(&s), at(15)).value == 7);
}

static void falling(void) {
  const double start[] = {0}, clip[] = {0}, xs[] = {0, 10}, ys[] = {10, 0};
  static samples s;
  track_lists t;
  tavitrozy_resolver r;
  tavitrozy_fresh(&r);
  add(&s, 0, 1), add(&s, 5, 2), add(&s, 10, 3), end_clip(&s);
  CHECK(accept(&r, 1, start, clip, 1, xs, ys, 2) == 0);
  tavitrozy_baked b = tavitrozy_bake(&r, LENT(&s), OUT(&t, 64));
  CHECK(b.number == 0 && b.value == 3 && b.count == 2);
  CHECK(t.times[0] > 0 && t.times[0] < 1e-14 && t.values[0] == 2);
  CHECK(tavitrozy_value(&r, LENT(&s), at(nextafter(t.times[0], -1))).value == 3 && tavitrozy_clip_time(&r, at(nextafter(t.times[0], -1))).time.value == 10);
  CHECK(t.times[1] == nextafter(5.0, 6.0) && t.values[1] == 1);
  CHECK(tavitrozy_value(&r, LENT(&s), at(5)).value == 2);
}

/* ---- a track writes value zero as 0.0, and two zeros are no change; a value keeps its sign */

static void zero_head(void) {
  const double start[] = {0}, clip[] = {0};
  static samples s;
  tavitrozy_resolver r;
  tavitrozy_fresh(&r);
  add(&s, 0, -0.0), end_clip(&s);
  CHECK(accept(&r, 1, start, clip, 1, NULL, NULL, 0) == 0);
  tavitrozy_baked b = tavitrozy_bake(&r, LENT(&s), NULL, 0, NULL, 0, NULL, 0);
  CHECK(b.number == 0 && b.mark == TAVITROZY_VALUE && same_bits(b.value, 0.0) && b.count == 0);
  CHECK(same_bits(tavitrozy_value(&r, LENT(&s), at(-1)).value, -0.0) && same_bits(tavitrozy_value(&r, LENT(&s), at(1)).value, -0.0));
}

static void zero_changes(void) {
  const double starts[] = {0, 10}, numbers[] = {0, 1};
  static samples s, blocked, numbered;
  track_lists t;
  tavitrozy_resolver r;
  tavitrozy_fresh(&r);
  CHECK(accept(&r, 2, starts, numbers, 2, NULL, NULL, 0) == 0);
  add(&s, 0, -0.0), end_clip(&s), add(&s, 0, 0.0), end_clip(&s);
  tavitrozy_baked b = tavitrozy_bake(&r, LENT(&s), NULL, 0, NULL, 0, NULL, 0);
  CHECK(b.number == 0 && same_bits(b.value, 0.0) && b.count == 0 && tavitrozy_change_count(&r, LENT(&s)).count == 0);
  CHECK(same_bits(tavitrozy_value(&r, LENT(&s), at(5)).value, -0.0) && same_bits(tavitrozy_value(&r, LENT(&s), at(15)).value, 0.0));
  /* a block between them: the marks differ */
  add(&blocked, 0, -0.0), add(&blocked, 5, -0.0), end_clip(&blocked), add(&blocked, 0, -0.0), end_clip(&blocked);
  blocked.marks[1] = TAVITROZY_BLOCK;
  b = tavitrozy_bake(&r, LENT(&blocked), OUT(&t, 2));
  CHECK(b.number == 0 && b.mark == TAVITROZY_VALUE && same_bits(b.value, 0.0) && b.count == 2);
  CHECK(t.times[0] == 5 && t.marks[0] == TAVITROZY_BLOCK && same_bits(t.values[0], 0.0));
  CHECK(t.times[1] == 10 && t.marks[1] == TAVITROZY_VALUE && same_bits(t.values[1], 0.0));
  CHECK(tavitrozy_bake(&r, LENT(&blocked), OUT(&t, 1)).number == TAVITROZY_REFUSED_NO_ROOM);
  /* from 1 to -0.0 and on to 0.0: one change, one slot */
  add(&numbered, 0, 1), add(&numbered, 5, -0.0), end_clip(&numbered), add(&numbered, 0, 0.0), end_clip(&numbered);
  b = tavitrozy_bake(&r, LENT(&numbered), OUT(&t, 1));
  CHECK(b.number == 0 && b.value == 1 && b.count == 1 && t.times[0] == 5 && t.marks[0] == TAVITROZY_VALUE && same_bits(t.values[0], 0.0));
}

static void zero_default(void) {
  const double starts[] = {0, 10}, numbers[] = {0, 1};
  static samples s;
  tavitrozy_resolver r;
  tavitrozy_fresh(&r);
  add(&s, 0, 0.0), end_clip(&s), end_clip(&s);
  CHECK(tavitrozy_accept(&r, 2, starts, 2, numbers, 2, NULL, 0, NULL, 0, NULL, 0, value_default(-0.0), false) == 0);
  CHECK(same_bits(r.shape.manifest.fallback.value, -0.0) && same_bits(tavitrozy_value(&r, LENT(&s), at(15)).value, -0.0));
  CHECK(tavitrozy_change_count(&r, LENT(&s)).count == 0);
}

/* ---- retimings in a row */

/* Each moves what the one before left, with its own roundings: joined, the two would be (0, 1). */
static void retimed_again(void) {
  const double times[] = {0.7}, numbers[] = {0}, ys[] = {5};
  static samples s;
  tavitrozy_resolver r;
  tavitrozy_fresh(&r);
  add(&s, 0, 1), end_clip(&s);
  CHECK(tavitrozy_accept(&r, 1, times, 1, numbers, 1, times, 1, ys, 1, times, 1, none, true) == 0);
  CHECK(tavitrozy_retime(&r, moving(0, 3)) == 0 && r.starts[0] == 2.0999999999999996);
  CHECK(tavitrozy_retime(&r, moving(0, 0.3333333333333333)) == 0);
  CHECK(r.starts[0] == 0.6999999999999998 && r.xs[0] == 0.6999999999999998 && r.ys[0] == 5 && r.blocks[0] == 0.6999999999999998);
  /* the block lies at the start yet, by the very double */
  CHECK(tavitrozy_value(&r, LENT(&s), at(1)).mark == TAVITROZY_BLOCK);
  /* a set that is accepted begins from its own times */
  CHECK(accept(&r, 1, times, numbers, 1, NULL, NULL, 0) == 0 && r.starts[0] == 0.7);
  CHECK(tavitrozy_retime(&r, moving(1, 0)) == 0 && tavitrozy_retime(&r, moving(2, 0)) == 0 && r.starts[0] == 2);
}

/* The zero that a retiming turned round stays so. */
static void identity_again(void) {
  const double times[] = {0.0}, numbers[] = {0};
  tavitrozy_resolver r;
  tavitrozy_fresh(&r);
  CHECK(accept(&r, 1, times, numbers, 1, times, times, 1) == 0);
  CHECK(tavitrozy_retime(&r, moving(-0.0, -1)) == 0 && same_bits(r.starts[0], -0.0) && same_bits(r.xs[0], -0.0));
  CHECK(tavitrozy_retime(&r, moving(0.0, 1)) == 0 && same_bits(r.starts[0], -0.0) && same_bits(r.xs[0], -0.0));
  CHECK(tavitrozy_retime(&r, moving(-0.0, 1)) == 0 && same_bits(r.starts[0], -0.0) && same_bits(r.xs[0], -0.0));
  CHECK(tavitrozy_retime(&r, moving(0.0, 2)) == 0 && same_bits(r.starts[0], 0.0) && same_bits(r.xs[0], 0.0));
}

/* The track is that of the set after both. */
static void baked_after_two(void) {
  static samples s;
  tavitrozy_resolver r;
  track_lists t;
  accept_backwards(&r, &s);
  CHECK(tavitrozy_retime(&r, moving(100, 0.5)) == 0);
  tavitrozy_baked b = tavitrozy_bake(&r, LENT(&s), OUT(&t, 64));
  CHECK(b.number == 0 && b.value == 2 && b.count == 1 && t.times[0] == 110 && t.values[0] == 3);
  CHECK(tavitrozy_retime(&r, moving(0, -2)) == 0 && r.starts[0] == -220 && r.numbers[0] == 1 && r.starts[1] == -200 && r.numbers[1] == 0);
  b = tavitrozy_bake(&r, LENT(&s), OUT(&t, 64));
  CHECK(b.number == 0 && b.value == 3 && b.count == 1 && t.times[0] == -200 && t.values[0] == 2);
}

/* ---- the sample that a value was read from */

static bool read_from(tavitrozy_value_reply v, double value, uint64_t clip, uint64_t place) {
  return v.number == 0 && v.mark == TAVITROZY_VALUE && same_bits(v.value, value) && v.sampled && v.clip == clip && v.place == place;
}
static bool of_no_sample(tavitrozy_value_reply v, uint8_t mark, double value) {
  return v.number == 0 && v.mark == mark && same_bits(v.value, value) && !v.sampled && v.clip == 0 && v.place == 0;
}

/* A place counts from the clip's first sample, and a sample has its own where another says the same. */
static void places(void) {
  const double starts[] = {0, 10}, numbers[] = {0, 1};
  static samples s;
  tavitrozy_resolver r;
  tavitrozy_fresh(&r);
  add(&s, 0, 1), add(&s, 5, -0.0), end_clip(&s), add(&s, 10, 1), add(&s, 15, 1), end_clip(&s);
  CHECK(accept(&r, 2, starts, numbers, 2, NULL, NULL, 0) == 0 && s.ends[0] == 2 && s.ends[1] == 4);
  CHECK(read_from(tavitrozy_value(&r, LENT(&s), at(-1e300)), 1, 0, 0) && read_from(tavitrozy_value(&r, LENT(&s), at(0)), 1, 0, 0));
  CHECK(read_from(tavitrozy_value(&r, LENT(&s), at(5)), -0.0, 0, 1) && read_from(tavitrozy_value(&r, LENT(&s), at(9.5)), -0.0, 0, 1));
  CHECK(read_from(tavitrozy_value(&r, LENT(&s), at(10)), 1, 1, 0) && read_from(tavitrozy_value(&r, LENT(&s), at(14)), 1, 1, 0));
  CHECK(read_from(tavitrozy_value(&r, LENT(&s), at(15)), 1, 1, 1) && read_from(tavitrozy_value(&r, LENT(&s), at(1e300)), 1, 1, 1));
}

/* The clip is the clip's number, and no start's place. */
static void clip_and_not_start(void) {
  const double starts[] = {0, 10}, threes[] = {3, 3};
  static samples s;
  tavitrozy_resolver r;
  tavitrozy_fresh(&r);
  add(&s, 0, 7), end_clip(&s), end_clip(&s), add(&s, 0, 8), end_clip(&s), add(&s, 0, 1), add(&s, 12, 2), end_clip(&s);
  CHECK(accept(&r, 4, starts, threes, 2, NULL, NULL, 0) == 0);
  CHECK(read_from(tavitrozy_value(&r, LENT(&s), at(5)), 1, 3, 0) && read_from(tavitrozy_value(&r, LENT(&s), at(10)), 1, 3, 0));
  CHECK(read_from(tavitrozy_value(&r, LENT(&s), at(12)), 2, 3, 1));
}

/* Starts 0, 10 of clip 0; the second one is blocked by the manifest: clip 0 is read for the first. */
static void read_at_another_start(void) {
  const double starts[] = {0, 10}, numbers[] = {0, 0}, block[] = {10};
  static samples s;
  tavitrozy_resolver r;
  tavitrozy_fresh(&r);
  add(&s, 0, 1), add(&s, 12, 2), end_clip(&s);
  CHECK(tavitrozy_accept(&r, 1, starts, 2, numbers, 2, NULL, 0, NULL, 0, block, 1, none, true) == 0);
  CHECK(read_from(tavitrozy_value(&r, LENT(&s), at(13)), 1, 0, 0));
  CHECK(tavitrozy_accept(&r, 1, starts, 2, numbers, 2, NULL, 0, NULL, 0, block, 1, none, false) == 0);
  CHECK(read_from(tavitrozy_value(&r, LENT(&s), at(13)), 2, 0, 1));
}

/* The middle clip has no samples: the nearest start before, then the nearest after. */
static void read_for_a_missing_one(void) {
  const double starts[] = {0, 10, 20}, numbers[] = {0, 1, 2}, block[] = {0};
  static samples s;
  tavitrozy_resolver r;
  tavitrozy_fresh(&r);
  add(&s, 0, 1), end_clip(&s), end_clip(&s), add(&s, 20, 3), end_clip(&s);
  CHECK(tavitrozy_accept(&r, 3, starts, 3, numbers, 3, NULL, 0, NULL, 0, NULL, 0, none, true) == 0);
  CHECK(read_from(tavitrozy_value(&r, LENT(&s), at(15)), 1, 0, 0) && read_from(tavitrozy_value(&r, LENT(&s), at(20)), 3, 2, 0));
  CHECK(tavitrozy_accept(&r, 3, starts, 3, numbers, 3, NULL, 0, NULL, 0, block, 1, none, true) == 0);
  CHECK(read_from(tavitrozy_value(&r, LENT(&s), at(15)), 3, 2, 0) && read_from(tavitrozy_value(&r, LENT(&s), at(5)), 3, 2, 0));
}

/* Held from the lower neighbour, whose clip time is still below the second sample's by rounding; with one start it is read directly. */
static void read_where_it_is_held_from(void) {
  const double starts[] = {0, 1000}, numbers[] = {0, 0}, xs[] = {0, 3}, ys[] = {2, 10};
  static samples s;
  tavitrozy_resolver r;
  tavitrozy_fresh(&r);
  add(&s, 2, 1), add(&s, 7.6, 2), end_clip(&s);
  CHECK(accept(&r, 1, starts, numbers, 2, xs, ys, 2) == 0);
  CHECK(read_from(tavitrozy_value(&r, LENT(&s), at(2.5)), 1, 0, 0) && read_from(tavitrozy_value(&r, LENT(&s), at(3)), 2, 0, 1));
  CHECK(accept(&r, 1, starts, numbers, 1, xs, ys, 2) == 0);
  CHECK(read_from(tavitrozy_value(&r, LENT(&s), at(2.5)), 2, 0, 1));
}

/* Clip 0 has 7.0 and then a block, clip 1 nothing; the default is 7.0 or none. */
static void read_from_no_sample(void) {
  const double starts[] = {0, 10}, numbers[] = {0, 1}, block[] = {0};
  static samples s;
  tavitrozy_resolver r;
  tavitrozy_fresh(&r);
  add(&s, 0, 7), add(&s, 5, 7), end_clip(&s), end_clip(&s);
  s.marks[1] = TAVITROZY_BLOCK;
  CHECK(tavitrozy_accept(&r, 2, starts, 2, numbers, 2, NULL, 0, NULL, 0, NULL, 0, value_default(7), false) == 0);
  CHECK(read_from(tavitrozy_value(&r, LENT(&s), at(0)), 7, 0, 0)); /* the number is the default's, and was read */
  CHECK(of_no_sample(tavitrozy_value(&r, LENT(&s), at(5)), TAVITROZY_BLOCK, 0) && of_no_sample(tavitrozy_value(&r, LENT(&s), at(10)), TAVITROZY_VALUE, 7));
  CHECK(accept(&r, 2, starts, numbers, 2, NULL, NULL, 0) == 0); /* no default: blocked, and nothing was read */
  CHECK(of_no_sample(tavitrozy_value(&r, LENT(&s), at(10)), TAVITROZY_BLOCK, 0));
  /* looked for at the first start: its 7.0; a block there; nothing, where both have none */
  CHECK(tavitrozy_accept(&r, 2, starts, 2, numbers, 2, NULL, 0, NULL, 0, NULL, 0, none, true) == 0);
  CHECK(read_from(tavitrozy_value(&r, LENT(&s), at(10)), 7, 0, 0));
  s.marks[0] = TAVITROZY_BLOCK;
  CHECK(of_no_sample(tavitrozy_value(&r, LENT(&s), at(10)), TAVITROZY_BLOCK, 0));
  CHECK(tavitrozy_accept(&r, 2, starts, 2, numbers, 2, NULL, 0, NULL, 0, block, 1, none, true) == 0);
  CHECK(of_no_sample(tavitrozy_value(&r, LENT(&s), at(10)), TAVITROZY_BLOCK, 0) && of_no_sample(tavitrozy_value(&r, LENT(&s), at(0)), TAVITROZY_BLOCK, 0));
  CHECK(accept(&r, 2, NULL, NULL, 0, NULL, NULL, 0) == 0);
  CHECK(of_no_sample(tavitrozy_value(&r, LENT(&s), at(0)), TAVITROZY_NONE, 0));
}

static uint64_t begin_of(const samples *s, uint64_t clip) { return clip ? s->ends[clip - 1] : 0; }

/* The lent lists say at that place what was answered; and from a start up to the next every number is of one clip, or none is of a sample. */
static bool as_lent(const samples *s, tavitrozy_value_reply v, tavitrozy_value_reply *of_window) {
  if (v.number || v.mark != TAVITROZY_VALUE) return v.number == 0 && !v.sampled && v.clip == 0 && v.place == 0;
  if (of_window->mark != TAVITROZY_VALUE) *of_window = v;
  if (of_window->sampled != v.sampled || of_window->clip != v.clip) return false;
  if (!v.sampled) return v.clip == 0 && v.place == 0;
  const uint64_t place = begin_of(s, v.clip) + v.place;
  return v.clip < s->clips && place < s->ends[v.clip] && s->marks[place] == TAVITROZY_VALUE && same_bits(s->values[place], v.value);
}

/* Eight clips, each value once; every third clip has no samples, and every fifth sample is a block. */
static void eight_clips(samples *s) {
  for (size_t clip = 0; clip < 8; clip++) {
    for (size_t i = 0; clip % 3 != 1 && i < clip + 2; i++) {
      add(s, (double)(5 * i + clip), (double)s->len);
      if (s->len % 5 == 0) s->marks[s->len - 1] = TAVITROZY_BLOCK;
    }
    end_clip(s);
  }
}

static void as_the_lists_have_it(void) {
  const double starts[] = {0, 10, 20, 30, 40, 50, 60, 70, 80, 90}, numbers[] = {3, 0, 1, 2, 2, 7, 4, 5, 6, 1};
  const double xs[] = {-10, 15, 25, 25, 64, 95}, ys[] = {0, 40, 0, 30, 5, 33}, blocks[] = {20, 50, 0};
  static samples s;
  tavitrozy_resolver r;
  int sampled = 0;
  tavitrozy_fresh(&r), eight_clips(&s);
  for (unsigned i = 0; i < 8; i++) { /* with knots or without, interpolate on or off, a default or none */
    const size_t knots = i & 1 ? 6 : 0;
    CHECK(tavitrozy_accept(&r, 8, starts, 10, numbers, 10, xs, knots, ys, knots, blocks, 3, i & 4 ? value_default(3) : none, (i & 2) != 0) == 0);
    for (double start = 0; start < 100; start += 10) {
      tavitrozy_value_reply of_window = tavitrozy_value(&r, LENT(&s), at(start));
      for (double t = start > 0 ? start : -20; t < start + 10; t += 0.125) {
        tavitrozy_value_reply v = tavitrozy_value(&r, LENT(&s), at(t));
        sampled += v.sampled;
        if (!as_lent(&s, v, &of_window)) CHECK(as_lent(&s, v, &of_window));
      }
    }
  }
  CHECK(sampled > 1000);
}

/* ---- every refusal number that is given, and what it leaves: nothing is written */

/* A resolver and outputs whose bytes a refused call must leave. */
typedef struct { tavitrozy_resolver resolver; track_lists track; uint8_t name[300]; } desk;
static desk here, before;

/* Refused with this number, and every byte as it was. */
static bool refuses(uint8_t expected, uint8_t number) {
  bool kept = memcmp(&here, &before, sizeof here) == 0;
  memcpy(&here, &before, sizeof here);
  return expected == number && kept;
}

/* Starts 0, 10 for clips 0, 1, with a sample each. */
static void set_up(samples *s) {
  const double starts[] = {0, 10}, numbers[] = {0, 1};
  memset(&here, 0xA5, sizeof here);
  memset(s, 0, sizeof *s);
  tavitrozy_fresh(&here.resolver);
  add(s, 0, 1), end_clip(s), add(s, 0, 2), end_clip(s);
  CHECK(accept(&here.resolver, 2, starts, numbers, 2, NULL, NULL, 0) == 0);
  memcpy(&before, &here, sizeof here);
}

static void refused_acceptances(void) {
  static samples s;
  set_up(&s);
  tavitrozy_resolver *r = &here.resolver;
  const double three[] = {0, 1, 2}, nan_time[] = {NAN}, far_time[] = {1099511627777.0}, fives[] = {5, 5, 5}, equal[] = {3, 3}, clip[] = {0, 0}, beyond[] = {2};
  const tavitrozy_default bad_mark = {3, 0.0};
  CHECK(refuses(1, tavitrozy_accept(r, 3, three, 3, three, 2, NULL, 0, NULL, 0, NULL, 0, none, false)));
  CHECK(refuses(1, tavitrozy_accept(r, 257, NULL, 0, NULL, 0, NULL, 0, NULL, 0, NULL, 0, none, false)));
  CHECK(refuses(2, accept(r, 1, nan_time, clip, 1, NULL, NULL, 0)));
  CHECK(refuses(2, accept(r, 1, far_time, clip, 1, NULL, NULL, 0)));
  CHECK(refuses(2, tavitrozy_accept(r, 1, NULL, 0, NULL, 0, NULL, 0, NULL, 0, NULL, 0, value_default(NAN), false)));
  CHECK(refuses(3, accept(r, 2, three, beyond, 1, NULL, NULL, 0)));
  CHECK(refuses(4, accept(r, 2, equal, clip, 2, NULL, NULL, 0)));
  CHECK(refuses(5, accept(r, 1, three, clip, 1, fives, three, 3)));
  CHECK(refuses(9, tavitrozy_accept(r, 1, three, 1, clip, 1, NULL, 0, NULL, 0, NULL, 0, bad_mark, false)));
  CHECK(refuses(2, template_of(r, "f.#.usd", stepping(NAN, 3, 1, 0), false)));
  CHECK(refuses(7, template_of(r, "f.#.usd", stepping(1, 3, 0, 0), false)));
  CHECK(refuses(7, template_of(r, "f.#.usd", stepping(3, 1, 1, 0), false)));
  CHECK(refuses(7, template_of(r, "f.#.usd", stepping(1, 3, 1, 2), true)));
  CHECK(refuses(6, template_of(r, "f.usd", stepping(1, 3, 1, 0), false)));
  CHECK(refuses(8, template_of(r, "f.#.usd", stepping(1, 257, 1, 0), false)));
  CHECK(refuses(5, template_of(r, "f.#.usd", stepping(1, 1, 1, 0), true)));
}

static void refused_retimings(void) {
  static samples s;
  tavitrozy_resolver fresh;
  tavitrozy_fresh(&fresh);
  CHECK(tavitrozy_retime(&fresh, moving(0, 1)) == TAVITROZY_REFUSED_NO_SET);
  set_up(&s);
  tavitrozy_resolver *r = &here.resolver;
  CHECK(refuses(2, tavitrozy_retime(r, moving(NAN, 1))));
  CHECK(refuses(2, tavitrozy_retime(r, moving(0, 1e12))));
  CHECK(refuses(4, tavitrozy_retime(r, moving(0, 0))));
  CHECK(tavitrozy_retime(r, moving(5, -2)) == 0);
  CHECK(r->starts[0] == -15 && r->starts[1] == 5 && r->numbers[0] == 1 && r->numbers[1] == 0);
  /* a second one leaves what the first left */
  memcpy(&before, &here, sizeof here);
  CHECK(refuses(2, tavitrozy_retime(r, moving(0, NAN))));
  CHECK(refuses(2, tavitrozy_retime(r, moving(0, 1e300))));
  CHECK(refuses(4, tavitrozy_retime(r, moving(0, 0))));
  CHECK(tavitrozy_retime(r, moving(-5, 1)) == 0 && r->starts[0] == -20 && r->starts[1] == 0);
}

/* A number that is not finite is refused, and none of the processor's flags is raised. */
static void refused_without_a_flag(void) {
  const double odd[] = {INFINITY, -INFINITY, NAN};
  static samples s;
  set_up(&s);
  tavitrozy_resolver *r = &here.resolver;
  for (int i = 0; i < 3; i++) {
    feclearexcept(FE_ALL_EXCEPT);
    CHECK(refuses(10, tavitrozy_active_clip(r, at(odd[i])).number));
    CHECK(refuses(10, tavitrozy_clip_time(r, at(odd[i])).number));
    CHECK(refuses(10, tavitrozy_value(r, LENT(&s), at(odd[i])).number));
    CHECK(refuses(2, tavitrozy_retime(r, moving(odd[i], 1))));
    CHECK(refuses(2, tavitrozy_retime(r, moving(0, odd[i]))));
    CHECK(refuses(2, template_of(r, "f.#.usd", stepping(1, 3, odd[i], 0), false)));
    CHECK(refuses(2, template_of(r, "f.#.usd", stepping(1, 3, 1, odd[i]), true)));
    CHECK(fetestexcept(FE_ALL_EXCEPT) == 0);
  }
}

static void refused_without_set(void) {
  memset(&here, 0xA5, sizeof here);
  tavitrozy_fresh(&here.resolver);
  memcpy(&before, &here, sizeof here);
  const tavitrozy_resolver *r = &here.resolver;
  track_lists *t = &here.track;
  CHECK(refuses(20, tavitrozy_active_clip(r, at(NAN)).number));
  CHECK(refuses(20, tavitrozy_clip_time(r, at(0)).number));
  CHECK(refuses(20, tavitrozy_value(r, NO_SAMPLES, at(0)).number));
  CHECK(refuses(20, tavitrozy_untimed(r, NO_SAMPLES).number));
  CHECK(refuses(20, tavitrozy_stage_sample_count(r, NO_SAMPLES).number));
  CHECK(refuses(20, tavitrozy_stage_sample_times(r, NO_SAMPLES, t->times, 64).number));
  CHECK(refuses(20, tavitrozy_stage_samples(r, NO_SAMPLES, t->times, 64, t->marks, 64).number));
  CHECK(refuses(20, tavitrozy_change_count(r, NO_SAMPLES).number));
  CHECK(refuses(20, tavitrozy_bake(r, NO_SAMPLES, OUT(t, 64)).number));
}

static bool nothing_beside(uint8_t number, tavitrozy_value_reply v) {
  return v.number == number && v.mark == 0 && same_bits(v.value, 0.0) && !v.sampled && v.clip == 0 && v.place == 0;
}

/* Each question that takes samples, refused alike for them. */
static void refused_for_samples(uint8_t number, const samples *s) {
  const tavitrozy_resolver *r = &here.resolver;
  track_lists *t = &here.track;
  CHECK(refuses(number, tavitrozy_value(r, LENT(s), at(NAN)).number));
  CHECK(refuses(number, tavitrozy_untimed(r, LENT(s)).number));
  CHECK(refuses(number, tavitrozy_stage_sample_count(r, LENT(s)).number));
  CHECK(refuses(number, tavitrozy_stage_sample_times(r, LENT(s), t->times, 64).number));
  CHECK(refuses(number, tavitrozy_stage_samples(r, LENT(s), t->times, 64, t->marks, 64).number));
  CHECK(refuses(number, tavitrozy_change_count(r, LENT(s)).number));
  CHECK(refuses(number, tavitrozy_bake(r, LENT(s), OUT(t, 64)).number));
}

static void refused_samples(void) {
  static samples s;
  set_up(&s);
  s.clips = 1;
  refused_for_samples(1, &s);
  set_up(&s);
  s.times[0] = INFINITY;
  refused_for_samples(2, &s);
  set_up(&s);
  s.values[1] = NAN;
  refused_for_samples(2, &s);
  set_up(&s);
  s.marks[1] = 2;
  refused_for_samples(9, &s);
  set_up(&s);
  s.ends[0] = 2;
  refused_for_samples(9, &s);
  set_up(&s);
  s.ends[0] = s.len + 1;
  refused_for_samples(9, &s);
}

static void refused_for_room_or_time(void) {
  static samples s;
  set_up(&s);
  const tavitrozy_resolver *r = &here.resolver;
  track_lists *t = &here.track;
  CHECK(refuses(10, tavitrozy_active_clip(r, at(INFINITY)).number) && refuses(10, tavitrozy_clip_time(r, at(NAN)).number));
  CHECK(refuses(10, tavitrozy_value(r, LENT(&s), at(-INFINITY)).number));
  CHECK(tavitrozy_change_count(r, LENT(&s)).count == 1 && tavitrozy_stage_sample_count(r, LENT(&s)).count == 2);
  CHECK(refuses(22, tavitrozy_bake(r, LENT(&s), t->times, 64, t->values, 0, t->marks, 64).number));
  CHECK(refuses(22, tavitrozy_stage_sample_times(r, LENT(&s), t->times, 1).number));
  CHECK(refuses(22, tavitrozy_stage_samples(r, LENT(&s), t->times, 64, t->marks, 1).number));
  CHECK(refuses(22, tavitrozy_normalize(s.times, 2, s.values, 2, s.marks, 2, t->times, 64, t->values, 64, t->marks, 0).number));
  CHECK(refuses(2, tavitrozy_name((const uint8_t *)"#", 1, in_clip(NAN), here.name, 300).number));
  CHECK(refuses(6, tavitrozy_name((const uint8_t *)"a", 1, in_clip(1), here.name, 300).number));
  CHECK(refuses(22, tavitrozy_name((const uint8_t *)"###", 3, in_clip(1), here.name, 2).number));
  CHECK(refuses(2, tavitrozy_template_clip_times(stepping(1, 3, 1, INFINITY), true, t->times, 64).number));
  CHECK(refuses(7, tavitrozy_template_clip_times(stepping(1, 3, -1, 0), false, t->times, 64).number));
  CHECK(refuses(8, tavitrozy_template_clip_times(stepping(1, 257, 1, 0), false, t->times, 64).number));
  CHECK(refuses(22, tavitrozy_template_clip_times(stepping(1, 3, 1, 0), false, t->times, 2).number));
}

/* Each number of the value question, with a set that has a value there. */
static void refused_values(void) {
  static samples s;
  tavitrozy_resolver fresh;
  tavitrozy_fresh(&fresh), set_up(&s);
  const tavitrozy_resolver *r = &here.resolver;
  CHECK(read_from(tavitrozy_value(r, LENT(&s), at(10)), 2, 1, 0));
  CHECK(nothing_beside(20, tavitrozy_value(&fresh, LENT(&s), at(10))));
  CHECK(nothing_beside(10, tavitrozy_value(r, LENT(&s), at(NAN))) && nothing_beside(10, tavitrozy_value(r, LENT(&s), at(INFINITY))));
  s.clips = 1;
  CHECK(nothing_beside(1, tavitrozy_value(r, LENT(&s), at(10))));
  s.clips = 2, s.times[1] = NAN;
  CHECK(nothing_beside(2, tavitrozy_value(r, LENT(&s), at(10))));
  s.times[1] = 0, s.ends[0] = 2;
  CHECK(nothing_beside(9, tavitrozy_value(r, LENT(&s), at(10))));
}

/* The fields beside a number are 0. */
static void refused_fields(void) {
  tavitrozy_resolver r;
  tavitrozy_fresh(&r);
  tavitrozy_clip_reply c = tavitrozy_active_clip(&r, at(0));
  tavitrozy_value_reply v = tavitrozy_value(&r, NO_SAMPLES, at(0));
  tavitrozy_baked b = tavitrozy_bake(&r, NO_SAMPLES, NULL, 0, NULL, 0, NULL, 0);
  CHECK(!c.found && c.clip == 0 && same_bits(tavitrozy_clip_time(&r, at(0)).time.value, 0.0));
  CHECK(nothing_beside(TAVITROZY_REFUSED_NO_SET, v) && tavitrozy_untimed(&r, NO_SAMPLES).state == 0);
  CHECK(b.mark == 0 && same_bits(b.value, 0.0) && b.count == 0 && tavitrozy_change_count(&r, NO_SAMPLES).count == 0);
  CHECK(tavitrozy_name(NULL, 0, in_clip(0), NULL, 0).count == 0);
}

/* ---- NULL with length 0, and a set without starts */

static void nothing_lent(void) {
  tavitrozy_resolver r;
  double time = 0;
  uint8_t mark = 0;
  tavitrozy_fresh(&r);
  CHECK(tavitrozy_accept(&r, 0, NULL, 0, NULL, 0, NULL, 0, NULL, 0, NULL, 0, none, false) == 0);
  CHECK(!tavitrozy_active_clip(&r, at(3)).found && tavitrozy_clip_time(&r, at(3)).time.value == 3);
  CHECK(tavitrozy_value(&r, NO_SAMPLES, at(3)).number == 0 && tavitrozy_value(&r, NO_SAMPLES, at(3)).mark == TAVITROZY_NONE);
  CHECK(tavitrozy_untimed(&r, NO_SAMPLES).number == 0 && tavitrozy_untimed(&r, NO_SAMPLES).state == TAVITROZY_ABSENT);
  CHECK(tavitrozy_stage_sample_count(&r, NO_SAMPLES).number == 0 && tavitrozy_stage_sample_count(&r, NO_SAMPLES).count == 0);
  CHECK(tavitrozy_stage_sample_times(&r, NO_SAMPLES, NULL, 0).number == 0 && tavitrozy_stage_samples(&r, NO_SAMPLES, NULL, 0, NULL, 0).number == 0);
  CHECK(tavitrozy_change_count(&r, NO_SAMPLES).number == 0);
  tavitrozy_baked b = tavitrozy_bake(&r, NO_SAMPLES, NULL, 0, NULL, 0, NULL, 0);
  CHECK(b.number == 0 && b.mark == TAVITROZY_NONE && b.count == 0);
  CHECK(tavitrozy_retime(&r, moving(1, 2)) == 0);
  CHECK(tavitrozy_normalize(NULL, 0, NULL, 0, NULL, 0, NULL, 0, NULL, 0, NULL, 0).number == 0);
  CHECK(tavitrozy_normalize(&time, 1, &time, 1, &mark, 1, NULL, 0, NULL, 0, NULL, 0).number == TAVITROZY_REFUSED_NO_ROOM);
  CHECK(tavitrozy_name(NULL, 0, in_clip(0), NULL, 0).number == TAVITROZY_REFUSED_UNREADABLE_TEMPLATE);
  CHECK(tavitrozy_name((const uint8_t *)"#", 1, in_clip(0), NULL, 0).number == TAVITROZY_REFUSED_NO_ROOM);
  CHECK(tavitrozy_template_clip_times(stepping(1, 3, 1, 0), false, NULL, 0).number == TAVITROZY_REFUSED_NO_ROOM);
  CHECK(tavitrozy_accept_template(&r, NULL, 0, stepping(1, 3, 1, 0), false, NULL, 0, none, false) == TAVITROZY_REFUSED_UNREADABLE_TEMPLATE);
}

/* ---- the limits, and one over */

static double many[600], many_numbers[600], many_ys[600];
static void fill_many(void) {
  for (size_t i = 0; i < 600; i++) many[i] = (double)i, many_numbers[i] = (double)(i % 256), many_ys[i] = (double)(i % 7);
}

static void limits_of_sets(void) {
  tavitrozy_resolver r;
  tavitrozy_fresh(&r), fill_many();
  CHECK(tavitrozy_accept(&r, 256, many, 256, many_numbers, 256, many, 512, many_ys, 512, many, 256, none, true) == 0);
  CHECK(r.shape.counts.starts == 256 && r.shape.counts.knots == 512 && r.shape.counts.blocks == 256 && r.shape.clips == 256);
  CHECK(r.starts[255] == 255 && r.numbers[255] == 255 && r.xs[511] == 511 && r.ys[511] == (double)(511 % 7) && r.blocks[255] == 255);
  CHECK(tavitrozy_accept(&r, 257, NULL, 0, NULL, 0, NULL, 0, NULL, 0, NULL, 0, none, false) == 1);
  CHECK(tavitrozy_accept(&r, 256, many, 257, many_numbers, 257, NULL, 0, NULL, 0, NULL, 0, none, false) == 1);
  CHECK(tavitrozy_accept(&r, 256, NULL, 0, NULL, 0, many, 513, many_ys, 513, NULL, 0, none, false) == 1);
  CHECK(tavitrozy_accept(&r, 256, NULL, 0, NULL, 0, NULL, 0, NULL, 0, many, 257, none, false) == 1);
  const double edge[] = {-TAVITROZY_MAX_TIME, TAVITROZY_MAX_TIME}, clip[] = {0, 0};
  const double over[] = {nextafter(TAVITROZY_MAX_TIME, INFINITY)};
  CHECK(accept(&r, 1, edge, clip, 2, edge, edge, 2) == 0);
  CHECK(accept(&r, 1, over, clip, 1, NULL, NULL, 0) == 2);
}

static void limits_of_templates(void) {
  tavitrozy_resolver r;
  static char pattern[257];
  uint8_t name[TAVITROZY_MAX_NAME_BYTES];
  double times[TAVITROZY_MAX_CLIPS];
  tavitrozy_fresh(&r);
  memset(pattern, 'a', 256);
  pattern[254] = '#', pattern[255] = 0;
  CHECK(template_of(&r, pattern, stepping(1, 256, 1, 0), false) == 0 && r.shape.clips == 256);
  CHECK(tavitrozy_template_clip_times(stepping(1, 256, 1, 0), false, times, 256).count == 256 && times[255] == 256);
  /* the longest name: 254 bytes, and -2^40 in place of one # */
  CHECK(tavitrozy_name((const uint8_t *)pattern, 255, in_clip(-TAVITROZY_MAX_TIME), name, sizeof name).count == TAVITROZY_MAX_NAME_BYTES);
  CHECK(memcmp(name + 254, "-1099511627776", 14) == 0);
  CHECK(tavitrozy_name((const uint8_t *)pattern, 255, in_clip(-TAVITROZY_MAX_TIME), name, sizeof name - 1).number == 22);
  pattern[255] = 'a';
  CHECK(template_of(&r, pattern, stepping(1, 2, 1, 0), false) == 1);
  CHECK(tavitrozy_name((const uint8_t *)pattern, 256, in_clip(1), name, sizeof name).number == 1);
}

static void limits_of_samples(void) {
  const double start[] = {0}, clip[] = {0};
  static samples s;
  static double times[4097], values[4097];
  static uint8_t marks[4097];
  tavitrozy_resolver r;
  tavitrozy_fresh(&r);
  CHECK(accept(&r, 1, start, clip, 1, NULL, NULL, 0) == 0);
  for (int i = 0; i < 4096; i++) add(&s, i, i);
  end_clip(&s);
  tavitrozy_baked b = tavitrozy_bake(&r, LENT(&s), times, 4095, values, 4095, marks, 4095);
  CHECK(tavitrozy_change_count(&r, LENT(&s)).count == 4095 && b.number == 0 && b.count == 4095 && times[4094] == 4095 && values[4094] == 4095);
  CHECK(tavitrozy_normalize(s.times, 4096, s.values, 4096, s.marks, 4096, times, 4096, values, 4096, marks, 4096).count == 4096);
  add(&s, 4096, 0), s.ends[0] = 4097;
  CHECK(tavitrozy_bake(&r, LENT(&s), times, 4097, values, 4097, marks, 4097).number == 1);
  CHECK(tavitrozy_normalize(s.times, 4097, s.values, 4097, s.marks, 4097, times, 4097, values, 4097, marks, 4097).number == 1);
}

/* ---- what is written, and what is not */

static void outputs(void) {
  static samples s;
  set_up(&s);
  track_lists *t = &here.track;
  tavitrozy_baked b = tavitrozy_bake(&here.resolver, LENT(&s), OUT(t, 64));
  CHECK(b.number == 0 && b.count == 1 && b.value == 1 && t->times[0] == 10 && t->values[0] == 2 && t->marks[0] == 0);
  CHECK(memcmp(t->times + 1, before.track.times + 1, 63 * sizeof *t->times) == 0 && memcmp(t->values + 1, before.track.values + 1, 63 * sizeof *t->values) == 0);
  CHECK(memcmp(t->marks + 1, before.track.marks + 1, 63) == 0);
  CHECK(memcmp(&here.resolver, &before.resolver, sizeof here.resolver) == 0);
  tavitrozy_counted c = tavitrozy_stage_samples(&here.resolver, LENT(&s), t->times, 64, t->marks, 64);
  CHECK(c.number == 0 && c.count == 2 && t->times[0] == 0 && t->times[1] == 10 && t->marks[0] == TAVITROZY_VALUE && t->marks[1] == TAVITROZY_VALUE);
  CHECK(tavitrozy_stage_sample_times(&here.resolver, LENT(&s), t->values, 64).count == 2 && t->values[1] == 10);
  CHECK(tavitrozy_untimed(&here.resolver, LENT(&s)).state == TAVITROZY_PRESENT);
}

static void stands_as_sorted(void) {
  const double starts[] = {10, 0}, numbers[] = {1, 0}, xs[] = {20, 0, 10}, ys[] = {7, 8, 9}, blocks[] = {10, 0, 5};
  tavitrozy_resolver r;
  tavitrozy_fresh(&r);
  CHECK(!r.shape.stands);
  CHECK(tavitrozy_accept(&r, 2, starts, 2, numbers, 2, xs, 3, ys, 3, blocks, 3, value_default(4), true) == 0);
  CHECK(r.shape.stands && r.shape.clips == 2 && r.shape.manifest.interpolate && r.shape.manifest.fallback.value == 4);
  CHECK(r.shape.counts.starts == 2 && r.starts[0] == 0 && r.starts[1] == 10 && r.numbers[0] == 0 && r.numbers[1] == 1);
  CHECK(r.shape.counts.knots == 3 && r.xs[0] == 0 && r.ys[0] == 8 && r.xs[2] == 20 && r.ys[2] == 7);
  CHECK(r.shape.counts.blocks == 3 && r.blocks[0] == 10 && r.blocks[1] == 0 && r.blocks[2] == 5);
  /* a copy is a resolver of its own */
  tavitrozy_resolver copy = r;
  CHECK(tavitrozy_retime(&r, moving(1, 1)) == 0 && r.starts[0] == 1 && copy.starts[0] == 0 && tavitrozy_retime(&copy, moving(0, 1)) == 0);
  CHECK(r.blocks[0] == 11 && r.blocks[1] == 1);
}

static void normal_form(void) {
  const double times[] = {2, 1, 2}, values[] = {5, 6, 7};
  const uint8_t marks[] = {0, 0, 1};
  track_lists t;
  tavitrozy_counted c = tavitrozy_normalize(times, 3, values, 3, marks, 3, OUT(&t, 64));
  CHECK(c.number == 0 && c.count == 2 && t.times[0] == 1 && t.values[0] == 6 && t.times[1] == 2 && t.values[1] == 7 && t.marks[1] == TAVITROZY_BLOCK);
}

/* ---- look first, then install */

/* A set's fields, so that an acceptance and an examining are asked with the same. */
typedef struct {
  uint64_t clips;
  const double *starts, *numbers, *xs, *ys, *blocks;
  size_t starts_len, numbers_len, knots_len, blocks_len;
  tavitrozy_default fallback;
  bool interpolate;
} explicit_fields;
#define EXPLICIT(F) (F)->clips, (F)->starts, (F)->starts_len, (F)->numbers, (F)->numbers_len, (F)->xs, (F)->knots_len, (F)->ys, (F)->knots_len, \
  (F)->blocks, (F)->blocks_len, (F)->fallback, (F)->interpolate
typedef struct {
  const char *pattern;
  tavitrozy_template_times times;
  bool has_offset;
  const double *blocks;
  size_t blocks_len;
  tavitrozy_default fallback;
  bool interpolate;
} template_fields;
#define TEMPLATE(F) (const uint8_t *)(F)->pattern, strlen((F)->pattern), (F)->times, (F)->has_offset, \
  (F)->blocks, (F)->blocks_len, (F)->fallback, (F)->interpolate

/* In no order, with a negative zero, a jump, and blocks that lie together; the default counts. */
static explicit_fields good_explicit(void) {
  static const double starts[] = {10, -0.0, 5}, numbers[] = {1, 0, 2}, xs[] = {20, 10, 0, 10}, ys[] = {7, 9, 8, -0.0}, blocks[] = {10, 0, 10};
  explicit_fields f;
  f.clips = 3, f.starts = starts, f.numbers = numbers, f.xs = xs, f.ys = ys, f.blocks = blocks;
  f.starts_len = 3, f.numbers_len = 3, f.knots_len = 4, f.blocks_len = 3, f.fallback = value_default(-0.0), f.interpolate = true;
  return f;
}

static template_fields good_template(void) {
  static const double blocks[257] = {2, 1};
  template_fields f;
  f.pattern = "f.###.usd", f.times = stepping(1, 3, 1, 0.5), f.has_offset = true, f.blocks = blocks, f.blocks_len = 2;
  f.fallback = value_default(4), f.interpolate = false;
  return f;
}

/* What stands is the prepared set: all that counts of the two, to the bit. */
static bool stands_as(const tavitrozy_resolver *r, const tavitrozy_prepared *p) {
  const tavitrozy_shape *s = &r->shape;
  bool same = s->stands && s->clips == p->clips && s->manifest.interpolate == p->interpolate && s->manifest.fallback.mark == p->fallback.mark;
  same = same && s->counts.starts == p->active.count && s->counts.knots == p->knots.count && s->counts.blocks == p->blocks.count;
  same = same && (p->fallback.mark != TAVITROZY_VALUE || same_bits(s->manifest.fallback.value, p->fallback.value));
  for (size_t i = 0; same && i < p->active.count; i++) same = same_bits(r->starts[i], p->active.items[i].time) && r->numbers[i] == p->active.items[i].clip;
  for (size_t i = 0; same && i < p->knots.count; i++) same = same_bits(r->xs[i], p->knots.items[i].x) && same_bits(r->ys[i], p->knots.items[i].y);
  return same && memcmp(r->blocks, p->blocks.items, p->blocks.count * sizeof *r->blocks) == 0;
}

static bool is_empty(const tavitrozy_prepared *p) {
  return p->clips == 0 && p->active.count == 0 && p->knots.count == 0 && p->blocks.count == 0 && !p->interpolate
    && p->fallback.mark == TAVITROZY_NONE && same_bits(p->fallback.value, 0.0);
}

/* A set of which every field must give way. */
static void stand_before(tavitrozy_resolver *r) {
  const double starts[] = {-3, -2, -1, 0, 7}, numbers[] = {0, 1, 2, 3, 3}, xs[] = {1, 2, 3, 4, 5};
  tavitrozy_fresh(r);
  CHECK(tavitrozy_accept(r, 4, starts, 5, numbers, 5, xs, 5, xs, 5, xs, 5, value_default(8), true) == 0);
}

static tavitrozy_resolver accepted, installed, untouched;
static tavitrozy_examined looked;

/* The acceptance's number is the examining's; then both resolvers hold the set, or neither and the set is the empty one. */
static bool alike(uint8_t expected, uint8_t number) {
  if (number != expected || looked.number != expected) return false;
  if (number) return is_empty(&looked.set) && memcmp(&accepted, &untouched, sizeof accepted) == 0;
  tavitrozy_install(&installed, &looked.set);
  return stands_as(&accepted, &looked.set) && stands_as(&installed, &looked.set);
}
static void stand_thrice(void) {
  stand_before(&accepted);
  memcpy(&installed, &accepted, sizeof accepted), memcpy(&untouched, &accepted, sizeof accepted);
}
static bool both_ways(uint8_t expected, const explicit_fields *f) {
  stand_thrice(), looked = tavitrozy_examine(EXPLICIT(f));
  return alike(expected, tavitrozy_accept(&accepted, EXPLICIT(f)));
}
static bool both_ways_of_template(uint8_t expected, const template_fields *f) {
  stand_thrice(), looked = tavitrozy_examine_template(TEMPLATE(f));
  return alike(expected, tavitrozy_accept_template(&accepted, TEMPLATE(f)));
}

static void examined_sets(void) {
  explicit_fields f = good_explicit();
  CHECK(both_ways(0, &f));
  const tavitrozy_prepared *p = &looked.set;
  CHECK(p->clips == 3 && p->active.count == 3 && same_bits(p->active.items[0].time, -0.0) && p->active.items[1].clip == 2 && p->active.items[2].time == 10);
  CHECK(p->knots.count == 4 && p->knots.items[0].y == 8 && p->knots.items[1].y == 9 && same_bits(p->knots.items[2].y, -0.0) && p->knots.items[3].y == 7);
  CHECK(p->blocks.count == 3 && p->blocks.items[0] == 10 && p->blocks.items[1] == 0 && p->interpolate && same_bits(p->fallback.value, -0.0));
  f.fallback.mark = TAVITROZY_BLOCK, f.fallback.value = NAN, f.knots_len = 0;
  CHECK(both_ways(0, &f) && p->fallback.mark == TAVITROZY_BLOCK && p->knots.count == 0);
  f.starts_len = 0, f.numbers_len = 0, f.blocks_len = 0, f.fallback = none;
  CHECK(both_ways(0, &f) && p->active.count == 0 && p->clips == 3);
  template_fields g = good_template();
  CHECK(both_ways_of_template(0, &g) && p->clips == 3 && p->active.items[0].time == 1.5 && p->knots.count == 5 && p->blocks.items[0] == 2);
  g.has_offset = false, g.times.offset = NAN, g.blocks = NULL, g.blocks_len = 0, g.interpolate = true;
  CHECK(both_ways_of_template(0, &g) && p->active.items[0].time == 1 && p->knots.count == 3 && p->blocks.count == 0 && p->interpolate);
}

/* Each number alone, and any two faults at once: the first in the call's order is told. */
static const uint8_t explicit_order[] = {1, 2, 3, 4, 5, 9}, template_order[] = {1, 2, 7, 6, 8, 2, 4, 5, 9};

static void spoil(explicit_fields *f, int place) {
  static const double far_time[] = {10, TAVITROZY_MAX_TIME + 1, 10}, no_clip[] = {1, 0.5, 2}, equal[] = {10, 0, 10}, three[] = {10, 10, 0, 10};
  switch (place) {
    case 0: f->clips = 257; break;
    case 1: f->blocks = far_time; break;
    case 2: f->numbers = no_clip; break;
    case 3: f->starts = equal; break;
    case 4: f->xs = three; break;
    default: f->fallback.mark = 3; break;
  }
}

static bool spoils_times(int place) { return place == 2 || (place >= 4 && place <= 7); }
static void spoil_template(template_fields *f, int place) {
  static const double no_time[257] = {NAN};
  switch (place) {
    case 0: f->blocks_len = 257; break;
    case 1: f->blocks = no_time; break;
    case 2: f->times = stepping(3, 1, 1, 0); break;
    case 3: f->pattern = "f.usd"; break;
    case 4: f->times = stepping(1, 257, 1, 0); break;
    case 5: f->times = stepping(0, 0, 2199023255553.0, 2199023255552.0); break; /* the start is beyond 2^40 */
    case 6: f->times = stepping(900000000000.0, 900000000000.001, 0.0001, 0); break; /* starts fall together */
    case 7: f->times = stepping(1, 1, 1, 0); break;
    default: f->fallback.mark = 3; break;
  }
}

static void examined_with_faults(void) {
  for (int i = 0; i < 6; i++)
    for (int j = i; j < 6; j++) {
      explicit_fields f = good_explicit();
      spoil(&f, i), spoil(&f, j);
      CHECK(both_ways(explicit_order[i], &f));
    }
  for (int i = 0; i < 9; i++)
    for (int j = i; j < 9; j++) {
      if (i != j && spoils_times(i) && spoils_times(j)) continue;
      template_fields f = good_template();
      spoil_template(&f, i), spoil_template(&f, j);
      CHECK(both_ways_of_template(template_order[i], &f));
    }
  explicit_fields f = good_explicit();
  f.numbers_len = 2;
  CHECK(both_ways(1, &f));
}

/* A prepared set is a value: retimings do not reach it, it goes into several resolvers, and brings the set back as it was prepared. */
static void installed_again(void) {
  tavitrozy_resolver first, second;
  explicit_fields f = good_explicit();
  tavitrozy_examined kept = tavitrozy_examine(EXPLICIT(&f)), original;
  memcpy(&original, &kept, sizeof kept);
  tavitrozy_fresh(&first), stand_before(&second);
  tavitrozy_install(&first, &kept.set), tavitrozy_install(&second, &kept.set);
  CHECK(kept.number == 0 && stands_as(&first, &kept.set) && stands_as(&second, &kept.set));
  CHECK(tavitrozy_retime(&first, moving(100, -2)) == 0 && first.starts[0] == 80 && first.numbers[0] == 1 && first.blocks[0] == 80);
  CHECK(stands_as(&second, &kept.set) && !stands_as(&first, &kept.set));
  tavitrozy_install(&first, &kept.set);
  CHECK(stands_as(&first, &kept.set));
  CHECK(memcmp(&original, &kept, sizeof kept) == 0);
  /* a copy is a prepared set of its own, and what stands is no longer the one that it came from */
  tavitrozy_prepared copy = kept.set;
  memset(&kept, 0, sizeof kept);
  CHECK(stands_as(&first, &copy) && tavitrozy_retime(&second, moving(1, 1)) == 0);
  tavitrozy_install(&second, &copy);
  CHECK(stands_as(&second, &copy));
}

/* Nothing of what stood stays: no default, no knot, no block, no flag. */
static void nothing_stays(void) {
  const double start[] = {0}, clip[] = {0};
  static samples s;
  tavitrozy_resolver r;
  stand_before(&r);
  end_clip(&s), end_clip(&s), end_clip(&s), end_clip(&s);
  CHECK(tavitrozy_value(&r, LENT(&s), at(2)).value == 8);
  s.clips = 1;
  tavitrozy_examined e = tavitrozy_examine(1, start, 1, clip, 1, NULL, 0, NULL, 0, NULL, 0, none, false);
  CHECK(e.number == 0);
  tavitrozy_install(&r, &e.set);
  CHECK(tavitrozy_value(&r, LENT(&s), at(2)).number == 0 && tavitrozy_value(&r, LENT(&s), at(2)).mark == TAVITROZY_BLOCK);
  CHECK(tavitrozy_clip_time(&r, at(100)).time.value == 100 && r.shape.counts.blocks == 0 && !r.shape.manifest.interpolate);
}

/* A refused examining's set may be installed: nothing is there to be drawn. */
static void empty_set(void) {
  tavitrozy_resolver r;
  stand_before(&r);
  tavitrozy_examined e = tavitrozy_examine(257, NULL, 0, NULL, 0, NULL, 0, NULL, 0, NULL, 0, value_default(8), true);
  CHECK(e.number == TAVITROZY_REFUSED_MISSHAPEN && is_empty(&e.set));
  tavitrozy_install(&r, &e.set);
  CHECK(stands_as(&r, &e.set) && !tavitrozy_active_clip(&r, at(3)).found && tavitrozy_clip_time(&r, at(3)).time.value == 3);
  CHECK(tavitrozy_value(&r, NO_SAMPLES, at(3)).number == 0 && tavitrozy_value(&r, NO_SAMPLES, at(3)).mark == TAVITROZY_NONE);
  CHECK(tavitrozy_untimed(&r, NO_SAMPLES).state == TAVITROZY_ABSENT && tavitrozy_change_count(&r, NO_SAMPLES).count == 0);
  /* it is the set of no fields at all */
  e = tavitrozy_examine(0, NULL, 0, NULL, 0, NULL, 0, NULL, 0, NULL, 0, none, false);
  CHECK(e.number == 0 && is_empty(&e.set));
}

static void examined_at_the_limits(void) {
  explicit_fields f = good_explicit();
  fill_many();
  f.clips = 256, f.starts = many, f.numbers = many_numbers, f.xs = many, f.ys = many_ys, f.blocks = many;
  f.starts_len = 256, f.numbers_len = 256, f.knots_len = 512, f.blocks_len = 256;
  CHECK(both_ways(0, &f) && looked.set.active.items[255].clip == 255 && looked.set.knots.items[511].x == 511 && looked.set.blocks.items[255] == 255);
  f.knots_len = 513;
  CHECK(both_ways(1, &f));
  template_fields g = good_template();
  g.times = stepping(1, 256, 1, 0.5);
  CHECK(both_ways_of_template(0, &g) && looked.set.clips == 256 && looked.set.knots.count == 258);
  CHECK(sizeof(tavitrozy_prepared) == 14392); /* as the header says */
}

/* The desk stays as it was while the preview is asked; the track that was shown is the one that is drawn then. */
static void previewed(void) {
  const double starts[] = {0, 10}, numbers[] = {1, 0};
  static samples s;
  tavitrozy_resolver preview;
  track_lists shown, drawn;
  set_up(&s);
  tavitrozy_examined e = tavitrozy_examine(2, starts, 2, numbers, 2, NULL, 0, NULL, 0, NULL, 0, none, false);
  tavitrozy_fresh(&preview), tavitrozy_install(&preview, &e.set);
  tavitrozy_baked first = tavitrozy_bake(&preview, LENT(&s), OUT(&shown, 64));
  CHECK(memcmp(&here, &before, sizeof here) == 0 && tavitrozy_value(&here.resolver, LENT(&s), at(10)).value == 2);
  tavitrozy_install(&here.resolver, &e.set);
  tavitrozy_baked second = tavitrozy_bake(&here.resolver, LENT(&s), OUT(&drawn, 64));
  CHECK(first.number == 0 && first.value == 2 && first.count == 1 && shown.times[0] == 10 && shown.values[0] == 1);
  CHECK(second.number == 0 && second.value == 2 && second.count == 1 && drawn.times[0] == 10 && drawn.values[0] == 1);
}

/* ---- several sets on one part */

/* The samples of all sets, as they are lent. */
typedef struct {
  uint64_t counts[20], ends[4200];
  double times[66000], values[66000];
  uint8_t marks[66000];
  size_t sets, clips, len;
} all_samples;

static void add_set(all_samples *a, const samples *s) {
  a->counts[a->sets++] = s->len;
  memcpy(a->ends + a->clips, s->ends, s->clips * sizeof *s->ends), a->clips += s->clips;
  memcpy(a->times + a->len, s->times, s->len * sizeof *s->times), memcpy(a->values + a->len, s->values, s->len * sizeof *s->values);
  memcpy(a->marks + a->len, s->marks, s->len), a->len += s->len;
}
static tavitrozy_set_samples lent_sets(const all_samples *a) {
  tavitrozy_set_samples l;
  l.counts = a->counts, l.counts_len = a->sets, l.ends = a->ends, l.ends_len = a->clips;
  l.times = a->times, l.times_len = a->len, l.values = a->values, l.values_len = a->len, l.marks = a->marks, l.marks_len = a->len;
  return l;
}

/* Up to so many names, as they are lent. */
typedef struct { uint8_t names[66000]; uint64_t ends[300]; size_t len, count; } name_list;

static void add_name(name_list *l, const char *name, size_t len) {
  memcpy(l->names + l->len, name, len), l->len += len, l->ends[l->count++] = l->len;
}
static tavitrozy_order lent_names(const name_list *l) {
  tavitrozy_order o;
  o.names = l->names, o.names_len = l->len, o.ends = l->ends, o.ends_len = l->count;
  return o;
}
/* A list of words with a blank between them; the last word stays for the call. */
static const tavitrozy_order *listing(const char *words) {
  static name_list list;
  static tavitrozy_order order;
  list.len = 0, list.count = 0;
  for (const char *end; *words; words = *end ? end + 1 : end) end = words + strcspn(words, " "), add_name(&list, words, (size_t)(end - words));
  order = lent_names(&list);
  return &order;
}

#define NAME(TEXT) (const uint8_t *)(TEXT), strlen(TEXT)

/* What a call to the dispatcher must leave where it is refused: its bytes, the outputs and what is lent. */
typedef struct { tavitrozy_dispatcher sets; track_lists track; all_samples lent; } part;
static part here_part, before_part;

static bool part_refuses(uint8_t expected, uint8_t number) {
  bool kept = memcmp(&here_part, &before_part, sizeof here_part) == 0;
  memcpy(&here_part, &before_part, sizeof here_part);
  return expected == number && kept;
}

/* Fresh, nothing lent, outputs painted. */
static void clear_part(void) {
  memset(&here_part, 0xA5, sizeof here_part);
  memset(&here_part.lent, 0, sizeof here_part.lent);
  tavitrozy_dispatcher_fresh(&here_part.sets);
}

/* A set with a start 0 (or without: 'e') of one clip, which has the one value; it declares unless its kind is 'n'. */
static void put_set(const char *name, size_t len, char kind, double value) {
  const double start[] = {0}, clip[] = {0};
  static samples s;
  s.len = 0, s.clips = 0, add(&s, 0, value), end_clip(&s), add_set(&here_part.lent, &s);
  const size_t starts = kind == 'e' ? 0 : 1;
  const uint8_t number = tavitrozy_dispatcher_accept(&here_part.sets, (const uint8_t *)name, len, kind != 'n', 1, start, starts, clip, starts,
    NULL, 0, NULL, 0, NULL, 0, none, false);
  CHECK(number == 0);
}
/* Sets by kind and name, as "ycoarse nfine"; the i-th has the value i. */
static void put_sets(const char *words) {
  clear_part();
  for (const char *end; *words; words = *end ? end + 1 : end) {
    end = words + strcspn(words, " ");
    put_set(words + 1, (size_t)(end - words) - 1, *words, (double)here_part.lent.sets);
  }
  memcpy(&before_part, &here_part, sizeof here_part);
}

/* The set with this value answers, at this place; the track has it as its head and no change, and no slot is written. */
static bool answers(const tavitrozy_order *order, double value, uint64_t place) {
  const tavitrozy_set_samples lent = lent_sets(&here_part.lent);
  const tavitrozy_placed_value v = tavitrozy_dispatcher_value(&here_part.sets, order, &lent, at(5));
  const tavitrozy_placed_baked b = tavitrozy_dispatcher_bake(&here_part.sets, order, &lent, OUT(&here_part.track, 64));
  return read_from(v.reply, value, 0, 0) && v.placed && v.set == place
    && b.reply.number == 0 && b.reply.mark == TAVITROZY_VALUE && same_bits(b.reply.value, value) && b.reply.count == 0 && b.placed && b.set == place
    && memcmp(&here_part, &before_part, sizeof here_part) == 0;
}
/* No set answers: nothing is there, and no place. */
static bool nobody_answers(const tavitrozy_order *order) {
  const tavitrozy_set_samples lent = lent_sets(&here_part.lent);
  const tavitrozy_placed_value v = tavitrozy_dispatcher_value(&here_part.sets, order, &lent, at(5));
  const tavitrozy_placed_baked b = tavitrozy_dispatcher_bake(&here_part.sets, order, &lent, OUT(&here_part.track, 64));
  return of_no_sample(v.reply, TAVITROZY_NONE, 0.0) && !v.placed && v.set == 0
    && b.reply.number == 0 && b.reply.mark == TAVITROZY_NONE && same_bits(b.reply.value, 0.0) && b.reply.count == 0 && !b.placed && b.set == 0
    && memcmp(&here_part, &before_part, sizeof here_part) == 0;
}

static void ordered_by_list(void) {
  put_sets("yfine ycoarse");
  CHECK(answers(NULL, 1, 0) && answers(listing("fine coarse"), 0, 0) && answers(listing("coarse"), 1, 0) && answers(listing("fine"), 0, 0));
  CHECK(nobody_answers(listing("")) && nobody_answers(listing("Fine coars coarsee")));
  CHECK(answers(listing("x fine y coarse"), 0, 0)); /* unknown names are passed over */
  put_sets("ycoarse nfine");
  CHECK(answers(NULL, 0, 0) && answers(listing("fine coarse"), 0, 1) && answers(listing("coarse fine"), 0, 0) && nobody_answers(listing("fine")));
  /* unknown ones are not counted, a repeated one once, unfit ones are */
  put_sets("nA yB");
  CHECK(answers(listing("x A A B"), 1, 1) && answers(listing("x A x A A B B"), 1, 1) && answers(NULL, 1, 1) && answers(listing("B A"), 1, 0));
  /* a set without starts is as unfit as one that does not declare, and so is one that is both */
  put_sets("ea nb ec yd ye");
  CHECK(answers(NULL, 3, 3) && answers(listing("c b d"), 3, 2) && answers(listing("a e d"), 4, 1) && answers(listing("c a c b a e"), 4, 3));
  CHECK(nobody_answers(listing("a b c")) && nobody_answers(listing("c c c z")));
  put_sets("ea nb");
  CHECK(nobody_answers(NULL) && nobody_answers(listing("b a")));
  /* no set at all */
  put_sets("");
  CHECK(nobody_answers(NULL) && nobody_answers(listing("")) && nobody_answers(listing("a b")));
}

/* Bytes count as 0 to 255, and a name comes before the longer ones that begin with it; the empty one comes first. */
static void ordered_by_name(void) {
  const char ascending[][4] = {"", {0}, {0, 0}, "A", "a", {'a', 0}, {'a', 0, 'z'}, "aa", "ab", "b", "~", "\x7f", "\x80", "\x80" "a", "\xff", "\xff\xff"};
  const size_t lengths[] = {0, 1, 2, 1, 1, 2, 3, 2, 2, 1, 1, 1, 1, 2, 1, 2};
  for (size_t skipped = 0; skipped < 16; skipped++) { /* the first so many do not declare; accepted in an order of their own */
    clear_part();
    for (size_t i = 0; i < 16; i++) {
      const size_t k = (i * 7 + skipped) % 16;
      put_set(ascending[k], lengths[k], k < skipped ? 'n' : 'y', (double)k);
    }
    memcpy(&before_part, &here_part, sizeof here_part);
    CHECK(answers(NULL, (double)skipped, skipped));
    name_list l;
    l.len = 0, l.count = 0;
    for (size_t k = 16; k-- > 0;) add_name(&l, ascending[k], lengths[k]); /* and by a list, from the last on */
    const tavitrozy_order order = lent_names(&l);
    CHECK(answers(&order, 15, 0));
  }
}

/* ---- a set under a name is what it is on a desk */

/* Alike to the bit, in every field. */
static bool same_value(tavitrozy_value_reply a, tavitrozy_value_reply b) {
  return a.number == b.number && a.mark == b.mark && a.sampled == b.sampled && same_bits(a.value, b.value) && a.clip == b.clip && a.place == b.place;
}

/* The set at place k of the order answers as the resolver does: values at many times, the track, and 22 with a slot too few. */
static bool as_the_desk(const tavitrozy_resolver *r, const samples *s, const tavitrozy_order *order, uint64_t k) {
  static double times[8000], values[8000], own_times[8000], own_values[8000];
  static uint8_t marks[8000], own_marks[8000];
  const tavitrozy_set_samples lent = lent_sets(&here_part.lent);
  for (double t = -300; t < 300; t += 0.625) {
    const tavitrozy_placed_value v = tavitrozy_dispatcher_value(&here_part.sets, order, &lent, at(t));
    if (!v.placed || v.set != k || !same_value(v.reply, tavitrozy_value(r, LENT(s), at(t)))) return false;
  }
  const tavitrozy_baked own = tavitrozy_bake(r, LENT(s), own_times, 8000, own_values, 8000, own_marks, 8000);
  const tavitrozy_placed_baked b = tavitrozy_dispatcher_bake(&here_part.sets, order, &lent, times, 8000, values, 8000, marks, 8000);
  if (own.number || b.reply.number || !b.placed || b.set != k) return false;
  if (b.reply.mark != own.mark || !same_bits(b.reply.value, own.value) || b.reply.count != own.count) return false;
  if (memcmp(times, own_times, own.count * sizeof *times) || memcmp(values, own_values, own.count * sizeof *values)) return false;
  if (memcmp(marks, own_marks, own.count)) return false;
  if (own.count == 0) return true;
  const tavitrozy_placed_baked few = tavitrozy_dispatcher_bake(&here_part.sets, order, &lent, times, 8000, values, own.count - 1, marks, 8000);
  return few.reply.number == TAVITROZY_REFUSED_NO_ROOM && few.reply.mark == 0 && few.reply.count == 0 && !few.placed && few.set == 0;
}

/* Eight sets of eight clips, with knots or without, interpolate on or off, a default or none; each answers in turn, before and after retimings. */
static void as_on_a_desk(void) {
  const double starts[] = {0, 10, 20, 30, 40, 50, 60, 70, 80, 90}, numbers[] = {3, 0, 1, 2, 2, 7, 4, 5, 6, 1};
  const double xs[] = {-10, 15, 25, 25, 64, 95}, ys[] = {0, 40, 0, 30, 5, 33}, blocks[] = {20, 50, 0};
  static tavitrozy_resolver desks[9];
  static samples s[9];
  char name[] = "h0";
  clear_part();
  for (unsigned i = 0; i < 8; i++) {
    const size_t knots = i & 1 ? 6 : 0;
    const tavitrozy_default fallback = i & 4 ? value_default(3) : none;
    eight_clips(&s[i]), tavitrozy_fresh(&desks[i]);
    for (size_t j = 0; j < s[i].len; j++) s[i].values[j] += (double)i / 8; /* so that no set's samples are another's */
    name[1] = (char)('7' - i); /* the last in byte order comes first */
    const bool flag = (i & 2) != 0;
    CHECK(tavitrozy_accept(&desks[i], 8, starts, 10, numbers, 10, xs, knots, ys, knots, blocks, 3, fallback, flag) == 0);
    CHECK(tavitrozy_dispatcher_accept(&here_part.sets, NAME(name), true, 8, starts, 10, numbers, 10, xs, knots, ys, knots, blocks, 3, fallback, flag) == 0);
    add_set(&here_part.lent, &s[i]);
  }
  for (int i = 0; i < 24; i++) add(&s[8], i, i);
  for (int i = 1; i <= 3; i++) s[8].ends[s[8].clips++] = (uint64_t)(8 * i);
  for (size_t i = 0; i < 24; i++) s[8].times[i] = (double)(i % 8);
  tavitrozy_fresh(&desks[8]), add_set(&here_part.lent, &s[8]);
  CHECK(template_of(&desks[8], "f.#.usd", stepping(1, 3, 1, 0.5), true) == 0);
  CHECK(tavitrozy_dispatcher_accept_template(&here_part.sets, NAME("template"), true, NAME("f.#.usd"), stepping(1, 3, 1, 0.5), true, NULL, 0, none, false) == 0);
  CHECK(as_the_desk(&desks[7], &s[7], NULL, 0));
  for (int round = 0; round < 3; round++) {
    for (unsigned i = 0; i < 8; i++) {
      name[1] = (char)('7' - i);
      CHECK(as_the_desk(&desks[i], &s[i], listing(name), 0));
    }
    CHECK(as_the_desk(&desks[8], &s[8], listing("nobody template h3"), 0));
    /* every other set is moved, with roundings and back to front; the others stay */
    const tavitrozy_layer_offset o = moving(round ? -3 : 0.7, round ? 1.0 / 3 : -1.1);
    for (unsigned i = 0; i < 8; i += 2) {
      name[1] = (char)('7' - i);
      CHECK(tavitrozy_retime(&desks[i], o) == 0 && tavitrozy_dispatcher_retime(&here_part.sets, NAME(name), o) == 0);
    }
    CHECK(tavitrozy_retime(&desks[8], o) == 0 && tavitrozy_dispatcher_retime(&here_part.sets, NAME("template"), o) == 0);
  }
  CHECK(as_the_desk(&desks[8], &s[8], listing("template"), 0) && as_the_desk(&desks[0], &s[0], listing("h7 h6"), 0));
}

/* A prepared set goes under several names, and stays as it was prepared; an acceptance is the examining and the installing, to the byte. */
static void installed_under_names(void) {
  static tavitrozy_dispatcher first, second;
  const explicit_fields f = good_explicit();
  const template_fields g = good_template();
  const tavitrozy_examined e = tavitrozy_examine(EXPLICIT(&f)), t = tavitrozy_examine_template(TEMPLATE(&g)), empty = tavitrozy_examine(257, NULL, 0, NULL, 0,
    NULL, 0, NULL, 0, NULL, 0, none, false);
  tavitrozy_examined original;
  memcpy(&original, &e, sizeof e);
  tavitrozy_dispatcher_fresh(&first), tavitrozy_dispatcher_fresh(&second);
  CHECK(memcmp(&first, &second, sizeof first) == 0);
  CHECK(tavitrozy_dispatcher_accept(&first, NAME("one"), true, EXPLICIT(&f)) == 0 && tavitrozy_dispatcher_install(&second, NAME("one"), true, &e.set) == 0);
  CHECK(tavitrozy_dispatcher_accept_template(&first, NAME("other"), false, TEMPLATE(&g)) == 0);
  CHECK(tavitrozy_dispatcher_install(&second, NAME("other"), false, &t.set) == 0);
  CHECK(tavitrozy_dispatcher_retime(&first, NAME("one"), moving(100, -2)) == 0 && tavitrozy_dispatcher_retime(&second, NAME("one"), moving(100, -2)) == 0);
  CHECK(tavitrozy_dispatcher_accept(&first, NAME("again"), false, EXPLICIT(&f)) == 0 && tavitrozy_dispatcher_install(&second, NAME("again"), false, &e.set) == 0);
  CHECK(tavitrozy_dispatcher_install(&second, NAME("one"), true, &e.set) == 23 && memcmp(&original, &e, sizeof e) == 0);
  /* what counts of a set lies where the header says */
  for (int i = 0; i < 2; i++) {
    const tavitrozy_dispatcher *d = i ? &second : &first;
    CHECK(d->counts[4096] == 3 && d->bytes[0] == 3 && memcmp(d->bytes + 1, "one", 3) == 0 && d->bytes[256] == 5 && memcmp(d->bytes + 257, "other", 5) == 0);
    CHECK(d->bytes[4128] == 1 && d->bytes[4129] == 0 && d->bytes[4130] == 0 && d->bytes[4112] == 1 && d->bytes[4113] == 0 && d->bytes[4096] == TAVITROZY_VALUE);
    CHECK(d->counts[4097] == 3 && d->counts[4113] == 3 && d->counts[4129] == 4 && d->counts[4145] == 3 && d->counts[4098] == 3 && d->counts[4130] == 5);
    CHECK(d->numbers[0] == 80 && d->numbers[1] == 90 && d->numbers[2] == 100 && d->counts[0] == 1 && d->counts[1] == 2 && d->counts[2] == 0);
    CHECK(same_bits(d->numbers[512], -0.0) && d->numbers[513] == 5 && d->counts[513] == 2 && same_bits(d->numbers[24576], -0.0) && d->numbers[24577] == 4);
    CHECK(d->numbers[4096 + 1024] == 0 && d->numbers[4096 + 1027] == 20 && d->numbers[12288 + 1024] == 8);
    CHECK(d->numbers[20480] == 80 && d->numbers[20480 + 512] == 10 && d->numbers[20480 + 513] == 0);
    CHECK(d->counts[4161] == 2 && d->counts[4162] == 0 && d->counts[4163] == 1); /* again, one, other */
  }
  /* a refused examining's set may stand too: it has no starts */
  CHECK(empty.number == 1 && tavitrozy_dispatcher_install(&second, NAME("empty"), true, &empty.set) == 0 && second.counts[4096] == 4);
}

/* ---- the dispatcher's refusals */

static void spoil_name(const uint8_t **name, size_t *len, int kind) {
  static const uint8_t long_name[256] = {'x'};
  if (kind) *name = long_name, *len = 256; /* above the limit */
  else *name = (const uint8_t *)"fine", *len = 4; /* taken */
}

/* 23 before every number of the fields; then as examining tells it. */
static void refused_under_a_name(void) {
  put_sets("yfine ycoarse");
  tavitrozy_dispatcher *d = &here_part.sets;
  const tavitrozy_examined good = tavitrozy_examine(0, NULL, 0, NULL, 0, NULL, 0, NULL, 0, NULL, 0, none, false);
  for (int kind = 0; kind < 3; kind++) { /* a name that is taken, one that is too long, a good one */
    const uint8_t *name = (const uint8_t *)"new";
    size_t len = 3;
    if (kind < 2) spoil_name(&name, &len, kind);
    const bool named = kind == 2;
    for (int i = 0; i < 6; i++)
      for (int j = i; j < 6; j++) {
        explicit_fields f = good_explicit();
        spoil(&f, i), spoil(&f, j);
        CHECK(part_refuses(named ? explicit_order[i] : 23, tavitrozy_dispatcher_accept(d, name, len, true, EXPLICIT(&f))));
      }
    for (int i = 0; i < 9; i++)
      for (int j = i; j < 9; j++) {
        if (i != j && spoils_times(i) && spoils_times(j)) continue;
        template_fields f = good_template();
        spoil_template(&f, i), spoil_template(&f, j);
        CHECK(part_refuses(named ? template_order[i] : 23, tavitrozy_dispatcher_accept_template(d, name, len, true, TEMPLATE(&f))));
      }
    if (named) continue;
    const explicit_fields f = good_explicit();
    const template_fields g = good_template();
    CHECK(part_refuses(23, tavitrozy_dispatcher_accept(d, name, len, true, EXPLICIT(&f))));
    CHECK(part_refuses(23, tavitrozy_dispatcher_accept_template(d, name, len, false, TEMPLATE(&g))));
    CHECK(part_refuses(23, tavitrozy_dispatcher_install(d, name, len, true, &good.set)));
  }
  /* a refused one takes no place */
  CHECK(tavitrozy_dispatcher_install(d, NAME("new"), false, &good.set) == 0 && d->counts[4096] == 3);
}

static uint8_t retime_set(const char *name, double offset, double scale) {
  return tavitrozy_dispatcher_retime(&here_part.sets, NAME(name), moving(offset, scale));
}
static uint8_t value_number(const tavitrozy_order *order, const tavitrozy_set_samples *lent, double time) {
  return tavitrozy_dispatcher_value(&here_part.sets, order, lent, at(time)).reply.number;
}
static uint8_t bake_number(const tavitrozy_order *order, const tavitrozy_set_samples *lent, size_t slots) {
  return tavitrozy_dispatcher_bake(&here_part.sets, order, lent, OUT(&here_part.track, slots)).reply.number;
}

static void refused_retimings_of_names(void) {
  const double starts[] = {0, 10}, numbers[] = {0, 0}, xs[] = {0, 1, 2, 3}, ys[] = {0, 1, 2, 3};
  static const uint8_t long_name[300] = {'x'};
  put_sets("yfine ycoarse");
  tavitrozy_dispatcher *d = &here_part.sets;
  CHECK(part_refuses(20, retime_set("fin", 0, 1)) && part_refuses(20, retime_set("finer", NAN, 1)) && part_refuses(20, retime_set("", 0, 1)));
  CHECK(part_refuses(20, tavitrozy_dispatcher_retime(d, long_name, 300, moving(NAN, NAN))));
  CHECK(part_refuses(20, tavitrozy_dispatcher_retime(d, NULL, 0, moving(0, 1))));
  CHECK(part_refuses(2, retime_set("fine", NAN, 1)) && part_refuses(2, retime_set("coarse", 0, INFINITY)));
  CHECK(tavitrozy_dispatcher_accept(d, NAME("knots"), true, 1, starts, 1, numbers, 1, xs, 4, ys, 4, NULL, 0, none, false) == 0);
  CHECK(tavitrozy_dispatcher_accept(d, NAME("starts"), true, 1, starts, 2, numbers, 2, xs, 4, ys, 4, NULL, 0, none, false) == 0);
  memcpy(&before_part, &here_part, sizeof here_part);
  CHECK(part_refuses(5, retime_set("knots", 0, 0)) && part_refuses(2, retime_set("knots", 2e12, 0)));
  CHECK(part_refuses(4, retime_set("starts", 0, 0)) && part_refuses(2, retime_set("starts", 0, 1e12)));
  /* the identity changes nothing; another leaves the other sets, and a refused second one what the first left */
  CHECK(retime_set("starts", 0, 1) == 0 && memcmp(&here_part, &before_part, sizeof here_part) == 0);
  CHECK(retime_set("starts", 5, -2) == 0 && d->numbers[768] == -15 && d->numbers[769] == 5 && d->numbers[512] == 0);
  memcpy(&before_part, &here_part, sizeof here_part);
  CHECK(part_refuses(4, retime_set("starts", 0, 0)));
}

/* A question with its faults: 23, 1, 2, 9, and then 10 of the value and 22 of the bake. */
typedef struct { name_list names; bool given; tavitrozy_set_samples lent; double time; size_t slots; } question;
enum { NO_FAULT, BAD_ORDER, BAD_SHAPE, BAD_NUMBER, BAD_CLIPS, BAD_LAST, FAULTS };
static const uint8_t value_order[] = {0, 23, 1, 2, 9, 10}, bake_order[] = {0, 23, 1, 2, 9, 22};

/* Three sets, the middle one answers: its track has one change. The last one does not qualify, and its samples are judged all the same. */
static void put_three(void) {
  const double start[] = {0}, clip[] = {0};
  static samples s;
  put_sets("nfirst");
  s.len = 0, s.clips = 0, add(&s, 0, 7), add(&s, 3, 8), end_clip(&s), add_set(&here_part.lent, &s);
  s.len = 0, s.clips = 0, add(&s, 0, 1), add(&s, 1, 2), end_clip(&s), end_clip(&s), add(&s, 5, 3), end_clip(&s), add_set(&here_part.lent, &s);
  CHECK(tavitrozy_dispatcher_accept(&here_part.sets, NAME("middle"), true, 1, start, 1, clip, 1, NULL, 0, NULL, 0, NULL, 0, none, false) == 0);
  CHECK(tavitrozy_dispatcher_accept(&here_part.sets, NAME("zlast"), false, 3, start, 1, clip, 1, NULL, 0, NULL, 0, NULL, 0, none, false) == 0);
  memcpy(&before_part, &here_part, sizeof here_part);
}

static question good_question(void) {
  question q;
  q.names.len = 0, q.names.count = 0, q.given = true, q.lent = lent_sets(&here_part.lent), q.time = 5, q.slots = 1;
  add_name(&q.names, "zlast", 5), add_name(&q.names, "", 0), add_name(&q.names, "middle", 6);
  return q;
}

/* The kinds of each fault; each in lists of its own, so that what is lent stays as it was. */
static all_samples spoiled;
static bool spoil_question(question *q, int fault, int kind) {
  all_samples *a = &spoiled;
  const size_t n = a->len;
  switch (fault) {
    case BAD_ORDER:
      if (kind == 0) q->names.ends[1] = 4; /* it falls */
      else if (kind == 1) q->names.ends[2]++; /* it is not the list's end */
      else if (kind == 2) q->names.ends[0] = UINT64_MAX;
      else if (kind == 3) q->names.count = 0; /* bytes without a name */
      else if (kind == 4) q->names.len--;
      else return false;
      return true;
    case BAD_SHAPE:
      if (kind == 0) a->counts[0]++; /* they do not add up */
      else if (kind == 1) q->lent.counts_len--;
      else if (kind == 2) q->lent.counts_len++;
      else if (kind == 3) q->lent.ends_len--;
      else if (kind == 4) q->lent.ends_len++;
      else if (kind == 5) q->lent.values_len--;
      else if (kind == 6) q->lent.marks_len++;
      else if (kind == 7) q->lent.times_len--;
      else if (kind == 8) a->counts[2] = UINT64_MAX;
      else if (kind == 9) a->counts[0] = UINT64_MAX, a->counts[1] = 4; /* the sum comes round to the right number */
      else return false;
      return true;
    case BAD_NUMBER:
      if (kind == 0) a->times[n - 1] = NAN; /* of the last set */
      else if (kind == 1) a->values[0] = NAN; /* of the first one */
      else if (kind == 2) a->times[n - 2] = TAVITROZY_MAX_TIME + 1;
      else return false;
      return true;
    case BAD_CLIPS:
      if (kind == 0) a->marks[n - 2] = 2;
      else if (kind == 1) a->ends[2] = 1, a->ends[3] = 0; /* of the last set, it falls */
      else if (kind == 2) a->ends[1] = 3; /* counted from the first set's first sample, and not from its own */
      else if (kind == 3) a->times[2] = 0, a->times[1] = 0; /* two equal ones of the middle set */
      else if (kind == 4) a->ends[0] = 0;
      else return false;
      return true;
    case BAD_LAST:
      if (kind > 2) return false;
      q->time = kind == 0 ? NAN : kind == 1 ? INFINITY : -INFINITY, q->slots = 0;
      return true;
    default: return kind == 0;
  }
}

static bool refused_value(uint8_t number, const tavitrozy_placed_value *v) { return nothing_beside(number, v->reply) && !v->placed && v->set == 0; }
static bool refused_bake(uint8_t number, const tavitrozy_placed_baked *b) {
  return b->reply.number == number && b->reply.mark == 0 && same_bits(b->reply.value, 0.0) && b->reply.count == 0 && !b->placed && b->set == 0;
}

/* Each kind of each fault alone, and any two faults at once; nothing is written. */
static void refused_questions(void) {
  put_three();
  int asked = 0;
  for (int first = NO_FAULT; first < FAULTS; first++)
    for (int second = first; second < FAULTS; second++)
      for (int kinds = 0; kinds < 100; kinds++) {
        memcpy(&spoiled, &here_part.lent, sizeof spoiled);
        question q = good_question();
        q.lent = lent_sets(&spoiled);
        if (!spoil_question(&q, first, kinds / 10) || (first != second && !spoil_question(&q, second, kinds % 10))) continue;
        if (first == second && kinds % 10) continue;
        const int told = first == NO_FAULT ? second : first;
        const tavitrozy_order order = lent_names(&q.names);
        const tavitrozy_placed_value v = tavitrozy_dispatcher_value(&here_part.sets, &order, &q.lent, at(q.time));
        const tavitrozy_placed_baked b = tavitrozy_dispatcher_bake(&here_part.sets, &order, &q.lent, OUT(&here_part.track, q.slots));
        asked++;
        if (told) {
          CHECK(refused_value(value_order[told], &v) && part_refuses(bake_order[told], b.reply.number) && refused_bake(bake_order[told], &b));
          continue;
        }
        CHECK(read_from(v.reply, 8, 0, 1) && v.placed && v.set == 1 && b.reply.number == 0 && b.reply.value == 7 && b.reply.count == 1 && b.placed && b.set == 1);
        CHECK(here_part.track.times[0] == 3 && here_part.track.values[0] == 8 && here_part.track.marks[0] == 0);
        memcpy(&here_part, &before_part, sizeof here_part);
      }
  CHECK(asked > 150);
}

/* Without a set: what is lent is still judged. */
static void refused_without_sets(void) {
  put_sets("");
  const double t[] = {0};
  const uint8_t m[] = {0};
  const uint64_t one[] = {1};
  tavitrozy_set_samples lent = lent_sets(&here_part.lent);
  const tavitrozy_dispatcher *d = &here_part.sets;
  tavitrozy_order order = *listing("a b");
  CHECK(part_refuses(10, value_number(NULL, &lent, NAN)) && part_refuses(10, value_number(&order, &lent, INFINITY)));
  lent.times = t, lent.values = t, lent.marks = m, lent.times_len = 1, lent.values_len = 1, lent.marks_len = 1;
  CHECK(part_refuses(1, value_number(&order, &lent, NAN)) && part_refuses(1, bake_number(NULL, &lent, 0)));
  lent = lent_sets(&here_part.lent), lent.counts = one, lent.counts_len = 1;
  CHECK(part_refuses(1, value_number(NULL, &lent, 0)));
  order.ends_len = 1;
  CHECK(part_refuses(23, value_number(&order, &lent, 0)) && part_refuses(23, bake_number(&order, &lent, 0)));
  /* NULL throughout */
  tavitrozy_set_samples nothing;
  tavitrozy_order no_names;
  memset(&nothing, 0, sizeof nothing), memset(&no_names, 0, sizeof no_names);
  CHECK(tavitrozy_dispatcher_value(d, NULL, &nothing, at(0)).reply.mark == TAVITROZY_NONE && value_number(&no_names, &nothing, 0) == 0);
  CHECK(tavitrozy_dispatcher_bake(d, NULL, &nothing, NULL, 0, NULL, 0, NULL, 0).reply.mark == TAVITROZY_NONE);
  /* a set without clips, with a sample: 9, as of a desk */
  CHECK(tavitrozy_dispatcher_accept(&here_part.sets, NULL, 0, true, 0, NULL, 0, NULL, 0, NULL, 0, NULL, 0, NULL, 0, none, false) == 0);
  lent.times = t, lent.values = t, lent.marks = m, lent.times_len = 1, lent.values_len = 1, lent.marks_len = 1;
  CHECK(value_number(NULL, &lent, 0) == 9);
  CHECK(tavitrozy_dispatcher_retime(&here_part.sets, NULL, 0, moving(1, 2)) == 0); /* the empty name is a name */
}

/* ---- the dispatcher's limits, and one over */

static void limits_of_names(void) {
  static char name[300];
  memset(name, 'n', sizeof name);
  clear_part();
  put_set(name, 255, 'y', 4), put_set(name, 254, 'n', 5);
  name[254] = 'm', put_set(name, 255, 'y', 6), name[254] = 'n';
  memcpy(&before_part, &here_part, sizeof here_part);
  const double start[] = {0};
  tavitrozy_dispatcher *d = &here_part.sets;
  CHECK(part_refuses(23, tavitrozy_dispatcher_accept(d, (const uint8_t *)name, 256, true, 1, start, 1, start, 1, NULL, 0, NULL, 0, NULL, 0, none, false)));
  CHECK(part_refuses(20, tavitrozy_dispatcher_retime(d, (const uint8_t *)name, 256, moving(0, 1))));
  CHECK(answers(NULL, 6, 1)); /* behind the shorter one, and m before n */
  static name_list l;
  const tavitrozy_set_samples lent = lent_sets(&here_part.lent);
  for (size_t len = 254; len <= 256; len++) {
    l.len = 0, l.count = 0, add_name(&l, "x", 1), add_name(&l, name, len), add_name(&l, name, 255);
    const tavitrozy_order order = lent_names(&l);
    if (len < 256) CHECK(answers(&order, 4, len == 254 ? 1 : 0));
    else CHECK(part_refuses(23, value_number(&order, &lent, 0)));
  }
}

static void limits_of_order_lists(void) {
  static name_list l;
  put_sets("yfine ycoarse");
  const tavitrozy_set_samples lent = lent_sets(&here_part.lent);
  for (int repeated = 0; repeated < 2; repeated++) { /* unknown and repeated names count */
    l.len = 0, l.count = 0;
    for (int i = 0; i < 254; i++) add_name(&l, repeated ? "coarse" : "unknown", repeated ? 6 : 7);
    add_name(&l, "fine", 4);
    const tavitrozy_order order = lent_names(&l);
    CHECK(order.ends_len == 255 && answers(&order, repeated ? 1 : 0, 0));
    add_name(&l, "", 0);
    const tavitrozy_order longer = lent_names(&l);
    CHECK(part_refuses(23, value_number(&longer, &lent, 0)) && part_refuses(23, bake_number(&longer, &lent, 64)));
  }
  /* 255 names of 255 bytes */
  static char name[256];
  memset(name, 'n', sizeof name), l.len = 0, l.count = 0;
  for (int i = 0; i < 255; i++) add_name(&l, name, 255);
  const tavitrozy_order order = lent_names(&l);
  CHECK(order.names_len == 65025 && nobody_answers(&order));
}

/* Sixteen sets at the limits, with 4,096 samples each; the last one answers as a desk does. */
static void limits_of_dispatchers(void) {
  static samples s;
  static tavitrozy_resolver r;
  char name[] = "a";
  fill_many(), clear_part(), tavitrozy_fresh(&r);
  for (size_t clip = 0; clip < 256; clip++) {
    for (int i = 0; i < 16; i++) add(&s, i * 17, (double)(s.len % 97));
    end_clip(&s);
  }
  CHECK(tavitrozy_accept(&r, 256, many, 256, many_numbers, 256, many, 512, many_ys, 512, many, 256, none, true) == 0);
  for (int i = 0; i < 16; i++) {
    name[0] = (char)('a' + i);
    CHECK(tavitrozy_dispatcher_accept(&here_part.sets, NAME(name), true, 256, many, 256, many_numbers, 256, many, 512, many_ys, 512, many, 256, none, true) == 0);
    for (size_t j = 0; j < s.len; j++) s.values[j] += 1;
    add_set(&here_part.lent, &s);
  }
  memcpy(&before_part, &here_part, sizeof here_part);
  CHECK(here_part.lent.len == 65536 && here_part.lent.clips == 4096 && as_the_desk(&r, &s, listing("p"), 0) && as_the_desk(&r, &s, listing("17th p o"), 0));
  tavitrozy_dispatcher *d = &here_part.sets;
  CHECK(part_refuses(23, tavitrozy_dispatcher_accept(d, NAME("17th"), true, 0, NULL, 0, NULL, 0, NULL, 0, NULL, 0, NULL, 0, none, false)));
  CHECK(part_refuses(23, tavitrozy_dispatcher_accept_template(d, NAME("17th"), true, NAME("f"), stepping(NAN, 0, 0, 0), false, NULL, 0, none, false)));
  CHECK(part_refuses(23, tavitrozy_dispatcher_install(d, NAME("17th"), true, &looked.set)) && part_refuses(20, retime_set("17th", 0, 1)));
  /* a 4,097th sample of one set, and a sample less of another */
  here_part.lent.counts[15]++, here_part.lent.counts[14]--;
  const tavitrozy_set_samples lent = lent_sets(&here_part.lent);
  CHECK(value_number(NULL, &lent, 0) == 1);
  CHECK(TAVITROZY_MAX_SETS == 16 && TAVITROZY_MAX_SET_NAME_BYTES == 255 && TAVITROZY_MAX_LISTED_NAMES == 255);
}

/* It is one plain struct: a copy answers the same, and is a dispatcher of its own; no desk is touched. */
static void copied_dispatchers(void) {
  static tavitrozy_dispatcher assigned, moved;
  static samples s;
  put_three(), set_up(&s);
  memcpy(&moved, &here_part.sets, sizeof moved);
  assigned = moved;
  const tavitrozy_set_samples lent = lent_sets(&here_part.lent);
  CHECK(tavitrozy_dispatcher_retime(&here_part.sets, NAME("middle"), moving(100, 1)) == 0);
  const tavitrozy_dispatcher *const copies[] = {&assigned, &moved};
  for (int i = 0; i < 2; i++) {
    const tavitrozy_placed_value v = tavitrozy_dispatcher_value(copies[i], NULL, &lent, at(4));
    const tavitrozy_placed_baked b = tavitrozy_dispatcher_bake(copies[i], NULL, &lent, OUT(&here_part.track, 1));
    CHECK(read_from(v.reply, 8, 0, 1) && v.set == 1 && b.reply.number == 0 && b.reply.count == 1 && here_part.track.times[0] == 3 && b.set == 1);
    CHECK(memcmp(copies[i], &before_part.sets, sizeof moved) == 0);
  }
  CHECK(here_part.sets.numbers[256] == 100 && memcmp(&here, &before, sizeof here) == 0);
  CHECK(tavitrozy_retime(&here.resolver, moving(1, 1)) == 0 && memcmp(&assigned, &moved, sizeof moved) == 0);
  CHECK(sizeof(tavitrozy_dispatcher) == 234296 && sizeof(tavitrozy_placed_value) == 48 && sizeof(tavitrozy_placed_baked) == 40);
}

/* ---- odd readings of a track */

static void readings(void) {
  const double times[] = {0, 10, 20}, values[] = {1, NAN, -0.0};
  const uint8_t marks[] = {0, 200, 1};
  const tavitrozy_entry head = {-7.0, 99};
#define READ(T) tavitrozy_read(head, times, 3, values, 3, marks, 3, at(T))
  CHECK(READ(-1).mark == 99 && READ(-1).value == -7 && READ(0).value == 1 && READ(9.999).mark == 0);
  CHECK(READ(10).mark == 200 && isnan(READ(10).value) && READ(25).mark == 1 && same_bits(READ(25).value, -0.0));
  CHECK(READ(NAN).mark == 99 && READ(-INFINITY).mark == 99 && READ(INFINITY).mark == 1 && READ(-0.0).value == 1);
  CHECK(tavitrozy_read(head, NULL, 0, NULL, 0, NULL, 0, at(5)).mark == 99);
  /* as many changes as the shortest list has */
  CHECK(tavitrozy_read(head, times, 3, values, 1, marks, 3, at(25)).value == 1 && tavitrozy_read(head, times, 3, values, 3, NULL, 0, at(25)).mark == 99);
}

/* Times that do not ascend, or are no numbers: some change of the lists, or the head. */
static void readings_out_of_order(void) {
  static double times[1000], values[1000];
  static uint8_t marks[1000];
  const tavitrozy_entry head = {-1.0, 0};
  srand(1);
  for (int round = 0; round < 2000; round++) {
    size_t n = (size_t)(rand() % 1000);
    for (size_t i = 0; i < n; i++) times[i] = rand() % 9 ? (double)(rand() % 100) : NAN, values[i] = (double)i, marks[i] = (uint8_t)(i % 251);
    tavitrozy_entry e = tavitrozy_read(head, times, n, values, n, marks, n, at(rand() % 110));
    bool listed = e.value >= 0 && e.value < (double)n && e.mark == (uint8_t)((size_t)e.value % 251);
    if (!listed && e.value != -1.0) CHECK(listed);
  }
}

/* ---- the keys of the total order */

static void total_keys(void) {
  /* from before to after: NaNs by their payload, -infinity, .., -0.0, 0.0, .., infinity, NaNs */
  const uint64_t ascending[] = {
    UINT64_C(0xffffffffffffffff), UINT64_C(0xfff8000000000001), UINT64_C(0xfff8000000000000), UINT64_C(0xfff0000000000001), UINT64_C(0xfff0000000000000),
    UINT64_C(0xffefffffffffffff), UINT64_C(0xc000000000000000), UINT64_C(0xbff0000000000000), UINT64_C(0x8000000000000001), UINT64_C(0x8000000000000000),
    UINT64_C(0x0000000000000000), UINT64_C(0x0000000000000001), UINT64_C(0x3ff0000000000000), UINT64_C(0x4000000000000000), UINT64_C(0x7fefffffffffffff),
    UINT64_C(0x7ff0000000000000), UINT64_C(0x7ff0000000000001), UINT64_C(0x7ff8000000000000), UINT64_C(0x7ff8000000000001), UINT64_C(0x7fffffffffffffff),
  };
  const size_t last = sizeof ascending / sizeof *ascending - 1;
  for (size_t i = 0; i < last; i++) CHECK(tavitrozy_total_key(ascending[i]) < tavitrozy_total_key(ascending[i + 1]));
  CHECK(tavitrozy_total_key(ascending[0]) == 0 && tavitrozy_total_key(ascending[last]) == UINT64_MAX);
  CHECK(tavitrozy_total_key(UINT64_C(1) << 63) == UINT64_MAX >> 1 && tavitrozy_total_key(0) == UINT64_C(1) << 63);
  const double minus_two = -2.0;
  uint64_t bits;
  memcpy(&bits, &minus_two, sizeof bits);
  CHECK(tavitrozy_total_key(bits) == UINT64_C(0x3fffffffffffffff));
}

/* ---- the floating-point environment */

static void environment(void) {
  CHECK(tavitrozy_environment_is_exact());
  const int roundings[] = {FE_UPWARD, FE_DOWNWARD, FE_TOWARDZERO};
  for (int i = 0; i < 3; i++) {
    fesetround(roundings[i]);
    bool exact = tavitrozy_environment_is_exact();
    fesetround(FE_TONEAREST);
    CHECK(!exact);
  }
#if defined(__x86_64__)
  const unsigned bits[] = {0x8000u /* FTZ */, 0x0040u /* DAZ */, 0x8040u};
  for (int i = 0; i < 3; i++) {
    unsigned usual = _mm_getcsr();
    _mm_setcsr(usual | bits[i]);
    bool exact = tavitrozy_environment_is_exact();
    _mm_setcsr(usual);
    CHECK(!exact);
  }
#endif
  CHECK(tavitrozy_environment_is_exact());
}

static void version(void) {
  char text[32];
  snprintf(text, sizeof text, "%d.%d.%d", TAVITROZY_VERSION_MAJOR, TAVITROZY_VERSION_MINOR, TAVITROZY_VERSION_PATCH);
  CHECK(strcmp(text, TAVITROZY_VERSION) == 0);
}

int main(void) {
  active_clips(), equal_entries(), clip_times(), templates(), held(), missing(), falling(), zero_head(), zero_changes(), zero_default();
  retimed_again(), identity_again(), baked_after_two();
  places(), clip_and_not_start(), read_at_another_start(), read_for_a_missing_one(), read_where_it_is_held_from(), read_from_no_sample(), as_the_lists_have_it();
  refused_acceptances(), refused_retimings(), refused_without_a_flag(), refused_without_set(), refused_samples(), refused_for_room_or_time(), refused_values(), refused_fields();
  nothing_lent(), limits_of_sets(), limits_of_templates(), limits_of_samples();
  examined_sets(), examined_with_faults(), installed_again(), nothing_stays(), empty_set(), examined_at_the_limits(), previewed();
  ordered_by_list(), ordered_by_name(), as_on_a_desk(), installed_under_names();
  refused_under_a_name(), refused_retimings_of_names(), refused_questions(), refused_without_sets();
  limits_of_names(), limits_of_order_lists(), limits_of_dispatchers(), copied_dispatchers();
  outputs(), stands_as_sorted(), normal_form(), readings(), readings_out_of_order(), total_keys(), environment(), version();
  printf("boundary: %d checks, %d not so\n", checks, failures);
  return failures != 0;
}
