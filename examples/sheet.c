/* A sheet program: it bakes a clip set into a track, and then asks where a part is at stage times 24, 25, .. from the track alone.
 * Starts 20 and 28, knots (20,10) (28,0) (36,8): the first clip runs backward. Prints the set, and what is drawn at each frame. */
#include <stdio.h>
#include <stdlib.h>
#include "tavitrozy.h"

/* ---- the set, as the resolver has it, and its clips' samples */

typedef struct { const double *times, *values; const uint8_t *marks; size_t count; const uint64_t *ends; size_t clips; } clip_samples;
#define LENT(S) (S).times, (S).count, (S).values, (S).count, (S).marks, (S).count, (S).ends, (S).clips

static void print_set(const tavitrozy_resolver *set) {
  printf("set: %llu clips, starts", (unsigned long long)set->shape.clips);
  for (size_t i = 0; i < set->shape.counts.starts; i++) printf(" %g (clip %llu)", set->starts[i], (unsigned long long)set->numbers[i]);
  printf(", knots");
  for (size_t i = 0; i < set->shape.counts.knots; i++) printf(" %g->%g", set->xs[i], set->ys[i]);
  printf("\n");
}

static void print_clips(clip_samples s) {
  size_t at = 0;
  for (size_t clip = 0; clip < s.clips; clip++) {
    printf("clip %zu:", clip);
    for (; at < s.ends[clip]; at++) {
      if (s.marks[at] == TAVITROZY_VALUE) printf(" %g->%g", s.times[at], s.values[at]);
      else printf(" %g->block", s.times[at]);
    }
    printf("\n");
  }
}

/* ---- the track */

typedef struct { tavitrozy_entry head; double *times, *values; uint8_t *marks; size_t count; } track;

/* The count first, then as many slots. */
static uint8_t bake(const tavitrozy_resolver *set, clip_samples s, track *t) {
  tavitrozy_counted changes = tavitrozy_change_count(set, LENT(s));
  if (changes.number) return changes.number;
  const size_t slots = changes.count;
  t->times = calloc(slots + 1, sizeof *t->times), t->values = calloc(slots + 1, sizeof *t->values), t->marks = calloc(slots + 1, sizeof *t->marks);
  if (!t->times || !t->values || !t->marks) abort();
  tavitrozy_baked baked = tavitrozy_bake(set, LENT(s), t->times, slots, t->values, slots, t->marks, slots);
  t->head.mark = baked.mark, t->head.value = baked.value, t->count = baked.count;
  return baked.number;
}

/* No clip, no knot and no sample is needed from here on. */
static void draw(const track *t) {
  printf("%zu changes\n", t->count);
  for (int frame = 24; frame <= 32; frame++) {
    const tavitrozy_at_stage at = {frame};
    tavitrozy_entry e = tavitrozy_read(t->head, t->times, t->count, t->values, t->count, t->marks, t->count, at);
    if (e.mark == TAVITROZY_VALUE) printf("%d: drawn at %g\n", frame, e.value);
    else printf("%d: not drawn\n", frame);
  }
}

static int refused(const char *what, uint8_t number) {
  fprintf(stderr, "%s is refused with %d\n", what, number);
  return 1;
}

int main(void) {
  const double starts[] = {20, 28}, numbers[] = {0, 1}, xs[] = {20, 28, 36}, ys[] = {10, 0, 8};
  const double times[] = {0, 10, 0, 2}, values[] = {1, 2, 3, 0};
  const uint8_t marks[] = {TAVITROZY_VALUE, TAVITROZY_VALUE, TAVITROZY_VALUE, TAVITROZY_BLOCK};
  const uint64_t ends[] = {2, 4};
  const clip_samples samples = {times, values, marks, 4, ends, 2};
  const tavitrozy_default none = {TAVITROZY_NONE, 0};
  tavitrozy_resolver set;
  track t = {0};

  if (!tavitrozy_environment_is_exact()) return fprintf(stderr, "doubles are not computed as the library needs it\n"), 1;
  tavitrozy_fresh(&set);
  uint8_t number = tavitrozy_accept(&set, 2, starts, 2, numbers, 2, xs, 3, ys, 3, NULL, 0, none, false);
  if (number) return refused("the set", number);
  print_set(&set);
  print_clips(samples);
  if ((number = bake(&set, samples, &t))) return refused("the bake", number);
  draw(&t);
  free(t.times), free(t.values), free(t.marks);
  return 0;
}
