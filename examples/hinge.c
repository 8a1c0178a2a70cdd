/* Several sets on one part: a hinge carries a coarse set and a fine one. Without an order list the coarse set answers, since its name comes first; with the
 * list "fine, coarse" the fine one does. The pin's radius is not declared by the fine set's manifest: there the coarse set answers, at place 1 of that list. */
#include <stdio.h>
#include "tavitrozy.h"

/* Each set has one clip, which is active from frame 0 on. */
static const double start[] = {0}, clip[] = {0};
static const tavitrozy_default none = {TAVITROZY_NONE, 0};
#define SET 1, start, 1, clip, 1, NULL, 0, NULL, 0, NULL, 0, none, false

#define NAME(N) (const uint8_t *)(N), sizeof(N) - 1

/* The list "fine, coarse": the names one after the other, and where each ends. */
static const uint64_t name_ends[] = {4, 10};
static const tavitrozy_order fine_first = {NAME("finecoarse"), name_ends, 2};
static const char *const by_name[] = {"coarse", "fine"}, *const as_listed[] = {"fine", "coarse"};

/* The angle: the coarse set has three samples, the fine one five. */
static const double angle_times[] = {0, 12, 24, 0, 6, 12, 18, 24}, angles[] = {0, 45, 90, 0, 20, 45, 71, 90};
static const uint8_t angle_marks[8] = {TAVITROZY_VALUE};
static const uint64_t angle_counts[] = {3, 5}, angle_ends[] = {3, 5};
static const tavitrozy_set_samples angle_samples = {angle_counts, 2, angle_ends, 2, angle_times, 8, angles, 8, angle_marks, 8};

/* The pin's radius: the coarse set has two samples, and from frame 24 on the pin is not drawn; the fine set has none. */
static const double pin_times[] = {0, 24}, radii[] = {1.5, 0};
static const uint8_t pin_marks[] = {TAVITROZY_VALUE, TAVITROZY_BLOCK};
static const uint64_t pin_counts[] = {2, 0}, pin_ends[] = {2, 0};
static const tavitrozy_set_samples pin_samples = {pin_counts, 2, pin_ends, 2, pin_times, 2, radii, 2, pin_marks, 2};

/* A dispatcher is of one attribute, and has 234 KB. */
static tavitrozy_dispatcher angle, pin;

static void print_drawn(uint8_t mark, double value) {
  if (mark == TAVITROZY_VALUE) printf("%g\n", value);
  else printf("not drawn\n");
}

/* Which set answers, the value at frame 9, and the whole track: what holds first, and each change. */
static uint8_t print_answers(const tavitrozy_dispatcher *part, const tavitrozy_order *order, const tavitrozy_set_samples *samples) {
  const tavitrozy_at_stage nine = {9};
  double at[8], drawn[8];
  uint8_t mark[8];
  const tavitrozy_placed_value value = tavitrozy_dispatcher_value(part, order, samples, nine);
  if (value.reply.number) return value.reply.number;
  const tavitrozy_placed_baked track = tavitrozy_dispatcher_bake(part, order, samples, at, 8, drawn, 8, mark, 8);
  if (track.reply.number) return track.reply.number;
  if (!track.placed) printf("  no set answers\n");
  else printf("  the %s set answers, at place %d\n", (order ? as_listed : by_name)[track.set], (int)track.set);
  printf("  frame 9: "), print_drawn(value.reply.mark, value.reply.value);
  printf("  at first: "), print_drawn(track.reply.mark, track.reply.value);
  for (size_t i = 0; i < track.reply.count; i++) printf("  from %g on: ", at[i]), print_drawn(mark[i], drawn[i]);
  return 0;
}

static int refused(const char *what, uint8_t number) {
  fprintf(stderr, "%s is refused with %d\n", what, number);
  return 1;
}

int main(void) {
  uint8_t number;
  if (!tavitrozy_environment_is_exact()) return fprintf(stderr, "doubles are not computed as the library needs it\n"), 1;
  tavitrozy_dispatcher_fresh(&angle);
  if ((number = tavitrozy_dispatcher_accept(&angle, NAME("coarse"), true, SET))) return refused("the coarse set", number);
  if ((number = tavitrozy_dispatcher_accept(&angle, NAME("fine"), true, SET))) return refused("the fine set", number);
  printf("the angle, without an order list:\n");
  if ((number = print_answers(&angle, NULL, &angle_samples))) return refused("the angle", number);
  printf("the angle, fine before coarse:\n");
  if ((number = print_answers(&angle, &fine_first, &angle_samples))) return refused("the angle", number);

  tavitrozy_dispatcher_fresh(&pin);
  if ((number = tavitrozy_dispatcher_accept(&pin, NAME("coarse"), true, SET))) return refused("the coarse set", number);
  if ((number = tavitrozy_dispatcher_accept(&pin, NAME("fine"), false, SET))) return refused("the fine set", number);
  printf("the pin's radius, fine before coarse:\n");
  if ((number = print_answers(&pin, &fine_first, &pin_samples))) return refused("the pin's radius", number);

  number = tavitrozy_dispatcher_accept(&pin, NAME("fine"), true, SET);
  printf("a second set of the name fine is refused with %d\n", number);
  return 0;
}
