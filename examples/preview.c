/* Look first, then install: a client's set is shown in a preview before it takes the place of the one on the desk.
 * The client's first set is refused. The second is examined, asked about in a resolver of its own, and then installed on the desk; until then the desk stays
 * as it was. */
#include <stdio.h>
#include "tavitrozy.h"

/* A set of two clips, each with its start. */
static const double clips[] = {0, 1};
static const tavitrozy_default none = {TAVITROZY_NONE, 0};
#define SET(STARTS) 2, STARTS, 2, clips, 2, NULL, 0, NULL, 0, NULL, 0, none, false

/* The first clip is drawn at 1; the second at 2, and from its clip time 24 on it is not drawn. */
static const double times[] = {0, 0, 24}, values[] = {1, 2, 0};
static const uint8_t marks[] = {TAVITROZY_VALUE, TAVITROZY_VALUE, TAVITROZY_BLOCK};
static const uint64_t ends[] = {1, 3};
#define SAMPLES times, 3, values, 3, marks, 3, ends, 2

static void print_drawn(uint8_t mark, double value) {
  if (mark == TAVITROZY_VALUE) printf("drawn at %g\n", value);
  else printf("not drawn\n");
}

/* The whole track: what holds first, and each change. Of these samples a set of two starts has at most four. */
static uint8_t print_track(const tavitrozy_resolver *desk) {
  double at[4], drawn[4];
  uint8_t mark[4];
  tavitrozy_baked track = tavitrozy_bake(desk, SAMPLES, at, 4, drawn, 4, mark, 4);
  if (track.number) return track.number;
  printf("  at first: "), print_drawn(track.mark, track.value);
  for (size_t i = 0; i < track.count; i++) printf("  from %g on: ", at[i]), print_drawn(mark[i], drawn[i]);
  return 0;
}

static int refused(const char *what, uint8_t number) {
  fprintf(stderr, "%s is refused with %d\n", what, number);
  return 1;
}

int main(void) {
  const double standing[] = {0, 12}, twice_six[] = {6, 6}, earlier[] = {0, 6};
  tavitrozy_resolver desk, preview;
  uint8_t number;
  if (!tavitrozy_environment_is_exact()) return fprintf(stderr, "doubles are not computed as the library needs it\n"), 1;
  tavitrozy_fresh(&desk);
  if ((number = tavitrozy_accept(&desk, SET(standing)))) return refused("the desk's set", number);
  printf("the desk:\n");
  if ((number = print_track(&desk))) return refused("the bake", number);

  printf("the client's first set is refused with %d\n", tavitrozy_examine(SET(twice_six)).number);
  const tavitrozy_examined examined = tavitrozy_examine(SET(earlier));
  if (examined.number) return refused("the client's second set", examined.number);
  tavitrozy_fresh(&preview);
  tavitrozy_install(&preview, &examined.set);
  printf("the client's second set, in the preview:\n");
  for (int frame = 4; frame <= 8; frame++) {
    const tavitrozy_at_stage time = {frame};
    tavitrozy_value_reply reply = tavitrozy_value(&preview, SAMPLES, time);
    if (reply.number) return refused("the frame", reply.number);
    printf("  frame %d: ", frame), print_drawn(reply.mark, reply.value);
  }
  printf("the desk, as it was:\n");
  if ((number = print_track(&desk))) return refused("the bake", number);

  tavitrozy_install(&desk, &examined.set);
  printf("the desk, with the client's second set:\n");
  if ((number = print_track(&desk))) return refused("the bake", number);
  return 0;
}
