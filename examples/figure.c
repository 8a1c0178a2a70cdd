/* Draws a clip set and its track as an SVG. Above, values over stage time: the track as thick steps, each piece in the colour of the clip that it was read from,
 * blocks as hatched gaps, the samples of the active clip as faint dots. Below, clip time over stage time: the knots as a thin line, and a tick at each start.
 * Usage: figure held|falling|blocked, the figures of docs/READING-A-TRACK.md. */
#include <math.h>
#include <stdio.h>
#include <stdlib.h>
#include <string.h>
#include "tavitrozy.h"

enum { SLOTS = 16, STARTS = 4 };

typedef struct {
  const char *name, *title;
  size_t starts; double start[STARTS], number[STARTS];
  size_t knots; double x[4], y[4];
  size_t samples; double time[8], value[8]; uint8_t mark[8];
  size_t clips; uint64_t end[4];
  double from, to, lowest_clip_time, highest_clip_time, step, clip_step;
} figure;

static const figure figures[] = {
  {"held", "starts 0, 20; knots (0,10) (20,0) (30,10); clip 0: 0 to 1.0, 10 to 2.0; clip 1: 0 to 3.0, 5 to a block",
   2, {0, 20}, {0, 1}, 3, {0, 20, 30}, {10, 0, 10}, 4, {0, 10, 0, 5}, {1, 2, 3, 0}, {0, 0, 0, 1}, 2, {2, 4}, -5, 35, 0, 10, 5, 5},
  {"falling", "one start 0; knots (0,10) (10,0); clip 0: 0 to 1.0, 5 to 2.0, 10 to 3.0",
   1, {0}, {0}, 2, {0, 10}, {10, 0}, 3, {0, 5, 10}, {1, 2, 3}, {0, 0, 0}, 1, {3}, -5, 15, 0, 10, 5, 5},
  {"blocked", "starts 0, 10, 20; no knots; clip 0: 0 to 1.0; clip 1 has no samples; clip 2: 20 to 3.0; no default, interpolate off",
   3, {0, 10, 20}, {0, 1, 2}, 0, {0}, {0}, 2, {0, 20}, {1, 3}, {0, 0}, 3, {1, 1, 2}, -5, 30, 0, 30, 5, 10},
};

#define SAMPLES(F) (F)->time, (F)->samples, (F)->value, (F)->samples, (F)->mark, (F)->samples, (F)->end, (F)->clips

typedef struct { tavitrozy_entry head; double times[SLOTS], values[SLOTS]; uint8_t marks[SLOTS]; size_t count; } track;
/* A piece of the track's line: of one step (0 is the head, i the i-th change) and read from one clip, or from none. */
typedef struct { double from, to; size_t step; tavitrozy_value_reply read; } piece;
typedef struct { piece items[SLOTS + STARTS + 1]; size_t count; } pieces;

/* ---- where things lie */

static const double left = 70, right = 700, top = 78, bottom = 238, clip_top = 268, clip_bottom = 368;
static const double highest_value = 3.6, character = 6.4;
static const char ink[] = "#444", faint[] = "#9a9a9a", grid[] = "#e4e4e4", neutral[] = "#6b6b6b";
static const char *const palette[] = {"#1b4f9c", "#c2410c", "#0f7b4f", "#8b3fa0"};

static double across(const figure *f, double t) { return left + (t - f->from) / (f->to - f->from) * (right - left); }
static double up(double value) { return bottom - value / highest_value * (bottom - top); }
static double clip_up(const figure *f, double c) {
  return clip_bottom - (c - f->lowest_clip_time) / (f->highest_clip_time - f->lowest_clip_time) * (clip_bottom - clip_top);
}

/* ---- pieces of SVG */

static void line(double x1, double y1, double x2, double y2, const char *colour, const char *more) {
  printf("<path d=\"M%.1f %.1fL%.1f %.1f\" stroke=\"%s\"%s/>\n", x1, y1, x2, y2, colour, more);
}
static void dot(double x, double y, double radius, const char *colour) {
  printf("<circle cx=\"%.1f\" cy=\"%.1f\" r=\"%.1f\" fill=\"%s\"/>\n", x, y, radius, colour);
}
static void text(double x, double y, const char *colour, const char *more, const char *words) {
  printf("<text x=\"%.1f\" y=\"%.1f\" fill=\"%s\"%s>%s</text>\n", x, y, colour, more, words);
}

/* A double as short as it can be told: six digits if they read back as it, else as many as tell it apart. */
static const char *digits(double d) {
  static char words[32];
  snprintf(words, sizeof words, "%.6g", d);
  if (strtod(words, NULL) != d) snprintf(words, sizeof words, "%.17g", d);
  return words;
}

/* ---- the axes */

static void frame(const figure *f) {
  printf("<svg xmlns=\"http://www.w3.org/2000/svg\" width=\"720\" height=\"420\" viewBox=\"0 0 720 420\" font-family=\"sans-serif\" font-size=\"11\">\n");
  printf("<title>%s</title>\n<rect width=\"720\" height=\"420\" fill=\"white\"/>\n", f->title);
  printf("<defs><pattern id=\"hatch\" width=\"8\" height=\"8\" patternUnits=\"userSpaceOnUse\" patternTransform=\"rotate(45)\">"
    "<path d=\"M0 0V8\" stroke=\"#d0d0d0\" stroke-width=\"3\"/></pattern></defs>\n");
  text(left, 18, "#222", "", f->title);
}

static void axes(const figure *f) {
  for (double t = f->from; t <= f->to; t += f->step) {
    line(across(f, t), top, across(f, t), bottom, grid, "");
    line(across(f, t), clip_top, across(f, t), clip_bottom + 4, grid, "");
    text(across(f, t), clip_bottom + 17, "#222", " text-anchor=\"middle\"", digits(t));
  }
  for (int v = 0; v <= 3; v++) {
    line(left - 4, up(v), right, up(v), grid, "");
    text(left - 8, up(v) + 4, "#222", " text-anchor=\"end\"", digits(v));
  }
  for (double c = f->lowest_clip_time; c <= f->highest_clip_time; c += f->clip_step) {
    line(left - 4, clip_up(f, c), right, clip_up(f, c), grid, "");
    text(left - 8, clip_up(f, c) + 4, "#222", " text-anchor=\"end\"", digits(c));
  }
  line(left, top, left, bottom, "#222", "");
  line(left, bottom, right, bottom, "#222", "");
  line(left, clip_top, left, clip_bottom, "#222", "");
  line(left, clip_bottom, right, clip_bottom, "#222", "");
  text((left + right) / 2, clip_bottom + 36, "#222", " text-anchor=\"middle\"", "stage time");
  printf("<text transform=\"translate(30 %.1f) rotate(-90)\" text-anchor=\"middle\" fill=\"#222\">value</text>\n", (top + bottom) / 2);
  printf("<text transform=\"translate(30 %.1f) rotate(-90)\" text-anchor=\"middle\" fill=\"#222\">clip time</text>\n", (clip_top + clip_bottom) / 2);
}

/* ---- the set, faint */

/* Clip time over stage time, as the library answers it at the knots and at both ends. */
static void draw_knots(const figure *f, const tavitrozy_resolver *set) {
  printf("<path fill=\"none\" stroke=\"%s\" stroke-width=\"1.5\" d=\"M", faint);
  const double first = set->shape.counts.knots ? f->from : f->lowest_clip_time, last = set->shape.counts.knots ? f->to : f->highest_clip_time;
  const tavitrozy_at_stage begin = {first}, end = {last};
  printf("%.1f %.1f", across(f, first), clip_up(f, tavitrozy_clip_time(set, begin).time.value));
  for (size_t i = 0; i < set->shape.counts.knots; i++) printf("L%.1f %.1f", across(f, set->xs[i]), clip_up(f, set->ys[i]));
  printf("L%.1f %.1f\"/>\n", across(f, last), clip_up(f, tavitrozy_clip_time(set, end).time.value));
  for (size_t i = 0; i < set->shape.counts.knots; i++) dot(across(f, set->xs[i]), clip_up(f, set->ys[i]), 2.5, faint);
}

static void draw_starts(const figure *f, const tavitrozy_resolver *set) {
  char words[32];
  for (size_t i = 0; i < set->shape.counts.starts; i++) {
    const double x = across(f, set->starts[i]);
    line(x, clip_top - 14, x, clip_bottom + 6, faint, " stroke-width=\"1.5\"");
    snprintf(words, sizeof words, "from here clip %llu", (unsigned long long)set->numbers[i]);
    text(x + 4, clip_top - 5, "#666", "", words);
  }
}

/* A sample that lies at stage time x, if it does so where its clip is active and within the picture. */
static void draw_sample(const figure *f, const tavitrozy_resolver *set, uint64_t clip, double x, size_t sample) {
  const tavitrozy_at_stage at = {x};
  if (x < f->from || x > f->to || tavitrozy_active_clip(set, at).clip != clip) return;
  dot(across(f, x), clip_up(f, f->time[sample]), 3.5, "#c2c2c2");
  if (f->mark[sample] == TAVITROZY_VALUE) dot(across(f, x), up(f->value[sample]), 6, "#c2c2c2");
}

/* The stage times of a sample: by each pair of knots that its clip time lies between, or itself where there are none. */
static void draw_sample_everywhere(const figure *f, const tavitrozy_resolver *set, uint64_t clip, size_t sample) {
  const double c = f->time[sample];
  if (set->shape.counts.knots == 0) draw_sample(f, set, clip, c, sample);
  for (size_t k = 0; k + 1 < set->shape.counts.knots; k++) {
    const double xa = set->xs[k], xb = set->xs[k + 1], ca = set->ys[k], cb = set->ys[k + 1];
    if (ca != cb && fmin(ca, cb) <= c && c <= fmax(ca, cb)) draw_sample(f, set, clip, xa + (c - ca) / (cb - ca) * (xb - xa), sample);
  }
}

static void draw_samples(const figure *f, const tavitrozy_resolver *set) {
  size_t sample = 0;
  for (uint64_t clip = 0; clip < f->clips; clip++)
    for (; sample < f->end[clip]; sample++) draw_sample_everywhere(f, set, clip, sample);
}

/* ---- the track cut into pieces, each read from one clip */

static tavitrozy_value_reply value_at(const figure *f, const tavitrozy_resolver *set, double t) {
  const tavitrozy_at_stage at = {t};
  return tavitrozy_value(set, SAMPLES(f), at);
}

/* A piece that goes on where the last one ends, on the same step and from the same clip, makes that one longer. */
static void add_piece(pieces *all, piece p) {
  piece *last = all->count ? &all->items[all->count - 1] : NULL;
  if (last && last->step == p.step && last->read.sampled == p.read.sampled && last->read.clip == p.read.clip) last->to = p.to;
  else all->items[all->count++] = p;
}

/* From a start up to the next a number is read from one clip only; but where two clips have alike values the track has no change between them. So it is cut
 * at the changes and at the starts, and what was read is asked for where each piece begins. */
static void cut(const figure *f, const tavitrozy_resolver *set, const track *t, pieces *all) {
  double from = f->from, to;
  for (size_t change = 0, start = 0; from < f->to; from = to) {
    const double next_change = change < t->count ? t->times[change] : f->to;
    const double next_start = start < set->shape.counts.starts ? set->starts[start] : f->to;
    to = fmin(next_change, next_start);
    add_piece(all, (piece){from, to, change, value_at(f, set, from)});
    change += next_change == to, start += next_start == to;
  }
}

/* ---- the track, in front */

static tavitrozy_entry entry_of(const track *t, size_t step) {
  return step ? (tavitrozy_entry){t->values[step - 1], t->marks[step - 1]} : t->head;
}

/* By the clip's number; the default is no clip's. */
static const char *colour_of(const piece *p) { return p->read.sampled ? palette[p->read.clip % (sizeof palette / sizeof *palette)] : neutral; }

static void draw_label(const figure *f, const piece *p, double value) {
  const char *head = p->from == f->from ? "head: " : "";
  char words[64];
  if (p->read.sampled) snprintf(words, sizeof words, "%s%s, clip %llu", head, digits(value), (unsigned long long)p->read.clip);
  else snprintf(words, sizeof words, "%s%s, default", head, digits(value));
  text(across(f, p->from) + 8, up(value) - 8, colour_of(p), " font-weight=\"bold\"", words);
}

static void draw_value(const figure *f, const track *t, const piece *p, double value) {
  const double from = across(f, p->from), to = across(f, p->to);
  line(from, up(value), to, up(value), colour_of(p), " stroke-width=\"4\"");
  if (p->step && p->from == t->times[p->step - 1]) dot(from, up(value), 4, colour_of(p));
  draw_label(f, p, value);
}

static void draw_block(const figure *f, const piece *p) {
  const double from = across(f, p->from), to = across(f, p->to);
  printf("<rect x=\"%.1f\" y=\"%.1f\" width=\"%.1f\" height=\"%.1f\" fill=\"url(#hatch)\"/>\n", from, top, to - from, bottom - top);
  printf("<rect x=\"%.1f\" y=\"%.1f\" width=\"92\" height=\"18\" fill=\"white\"/>\n", (from + to) / 2 - 46, bottom - 26);
  text((from + to) / 2, bottom - 13, ink, " font-weight=\"bold\" text-anchor=\"middle\"", "block: no value");
}

static void draw_piece(const figure *f, const track *t, const piece *p) {
  const tavitrozy_entry entry = entry_of(t, p->step);
  if (entry.mark == TAVITROZY_VALUE) draw_value(f, t, p, entry.value);
  else draw_block(f, p);
}

/* The time of each change above its line, in a second row where it would run into the one before. */
static void draw_change_times(const figure *f, const track *t) {
  double free_from[2] = {0, 0};
  for (size_t i = 0; i < t->count; i++) {
    const char *words = digits(t->times[i]);
    const double x = across(f, t->times[i]), width = (double)strlen(words) * character + 10;
    const double begin = x + width > right ? x - width + 6 : x - 4;
    const size_t row = begin < free_from[0] ? 1 : 0;
    free_from[row] = begin + width;
    line(x, row ? top - 20 : top - 8, x, bottom, ink, " stroke-dasharray=\"3 3\"");
    text(begin, row ? top - 24 : top - 11, ink, "", words);
  }
}

static void legend(void) {
  const double y = 34;
  line(left, y, left + 12, y, palette[0], " stroke-width=\"4\"");
  line(left + 12, y, left + 24, y, palette[1], " stroke-width=\"4\"");
  text(left + 30, y + 4, "#222", "", "track, coloured by the clip that was read");
  line(left + 268, y, left + 292, y, ink, " stroke-dasharray=\"3 3\"");
  text(left + 298, y + 4, "#222", "", "change");
  dot(left + 358, y, 6, "#c2c2c2");
  text(left + 368, y + 4, "#222", "", "sample of the active clip");
  line(left + 522, y, left + 546, y, faint, " stroke-width=\"1.5\"");
  text(left + 552, y + 4, "#222", "", "clip time");
}

/* ---- */

static uint8_t bake(const figure *f, tavitrozy_resolver *set, track *t) {
  const tavitrozy_default none = {TAVITROZY_NONE, 0};
  tavitrozy_fresh(set);
  uint8_t number = tavitrozy_accept(set, f->clips, f->start, f->starts, f->number, f->starts, f->x, f->knots, f->y, f->knots, NULL, 0, none, false);
  if (number) return number;
  tavitrozy_baked b = tavitrozy_bake(set, SAMPLES(f), t->times, SLOTS, t->values, SLOTS, t->marks, SLOTS);
  t->head.mark = b.mark, t->head.value = b.value, t->count = b.count;
  return b.number;
}

int main(int argc, char **argv) {
  static tavitrozy_resolver set;
  static track t;
  static pieces all;
  const figure *f = NULL;
  for (size_t i = 0; i < sizeof figures / sizeof *figures; i++)
    if (argc == 2 && !strcmp(argv[1], figures[i].name)) f = &figures[i];
  if (!f) return fprintf(stderr, "usage: figure held|falling|blocked\n"), 2;
  uint8_t number = bake(f, &set, &t);
  if (number) return fprintf(stderr, "refused with %d\n", number), 1;
  frame(f), legend(), axes(f);
  draw_knots(f, &set), draw_starts(f, &set), draw_samples(f, &set);
  cut(f, &set, &t, &all);
  for (size_t i = 0; i < all.count; i++) draw_piece(f, &t, &all.items[i]);
  draw_change_times(f, &t);
  printf("</svg>\n");
  return 0;
}
