/* Tavitrozy: OpenUSD value clips resolved and baked, exactly. Version 0.7.0, for x86-64 Linux.
 *
 * A resolver holds one clip set, or none. It answers what an attribute is at a stage time, and bakes the whole answer into a track: a head, and every
 * change at the very double where the value changes. A dispatcher holds up to 16 sets, each under its name, and takes value and track from one of them.
 * docs/VALUE-CLIPS.md (share/doc/tavitrozy where installed) says what every call answers. Words used here:
 *
 *   start   an entry of `active`: from this stage time on that clip is active       block   no value: nothing is drawn
 *   knot    an entry of `times`: at stage time x the clip time is y                 head    what holds before a track's first change
 *
 * USE
 *   tavitrozy_resolver resolver;
 *   tavitrozy_fresh(&resolver);
 *   number = tavitrozy_accept(&resolver, ..);                    0, or why it is refused
 *   count  = tavitrozy_change_count(&resolver, ..).count;        ask for the count,
 *   track  = tavitrozy_bake(&resolver, .., slots);               then lend that many slots, and bake
 *   entry  = tavitrozy_read(head, .., stage time);               the track alone is enough to draw from
 * To look at a set before it takes the place of the one that stands:
 *   examined = tavitrozy_examine(..);                            examined.number: 0, or why it is refused; examined.set: the prepared set
 *   tavitrozy_install(&preview, &examined.set);                  first in a resolver of its own, to be asked about there; then in the one that counts
 * Where one part carries several sets, a coarse and a fine one:
 *   static tavitrozy_dispatcher dispatcher;                      234 KB
 *   tavitrozy_dispatcher_fresh(&dispatcher);
 *   number = tavitrozy_dispatcher_accept(&dispatcher, name, ..); set by set, each under its name
 *   value  = tavitrozy_dispatcher_value(&dispatcher, &order, &samples, stage time);   value.set: the place in the order of the set that answers
 *
 * REFUSALS. A call is accepted (number 0) or refused with one of the numbers below. A refused call writes to no list and the set that stood still stands;
 * the other fields of its reply are 0, false and 0.0, and mean nothing: look at the number first. (A refused examining hands back the empty set instead.)
 *
 * LISTS. Nothing is allocated and nothing is kept: every list is the caller's, lent as a pointer and a length for the length of the call.
 *   - NULL is fine where the length is 0.
 *   - What a call writes must not overlap anything else that it is lent. Outputs lie apart from each other, from the inputs and from the resolver or
 *     dispatcher; and since an acceptance writes the resolver or dispatcher, its inputs are not lists of it. The library is proved on this premise: a bake into
 *     its own samples reads what it has just written and may write behind its lists, and normalising in place loses a sample. Lists that are only read may
 *     overlap.
 *   - A list's length may be any, and its numbers too: what is wrong is refused, NaNs and infinities included. A pointer must be good for its length.
 *
 * THE RESOLVER, THE DISPATCHER and A PREPARED SET may be read, and copied whole by assignment or memcpy (each is one plain struct), but their fields are
 * written by these calls alone: all rests on that. Each may be static, on the heap or on the stack; a dispatcher needs a stack that has room for its 234 KB.
 * The first call for a resolver is tavitrozy_fresh, for a dispatcher tavitrozy_dispatcher_fresh; the two stand beside each other, and no call of the one
 * touches the other.
 *
 * THREADS. There is no global state. Any threads may call at once, as long as none writes a resolver, a dispatcher or a list that another is using.
 *
 * FLOATING POINT. Calls need the environment that a C program begins with: round to nearest, no flush to zero (FTZ), no denormals-are-zero (DAZ).
 * Animation hosts and -ffast-math often set FTZ and DAZ; many tracks are then wrong. tavitrozy_environment_is_exact() tells, for the calling thread.
 *
 * STACK. Bytes of stack that a call needs at most, as tests/stack.c measures it with sets at the limits (make test holds the two together):
 *   fresh 256   accept 88064   accept_template 92160   examine 108288   examine_template 112384
 *   install 23040   retime 77824   active_clip 256   clip_time 256   value 1280
 *   untimed 512   stage_sample_count 5120   stage_sample_times 5120   stage_samples 5120   change_count 10496
 *   bake 11520   read 256   name 256   template_clip_times 6400   normalize 58368
 *   total_key 256   dispatcher_fresh 256   dispatcher_accept 79616   dispatcher_accept_template 83712   dispatcher_install 33280
 *   dispatcher_retime 77568   dispatcher_value 1280   dispatcher_bake 11776
 */
#ifndef TAVITROZY_H
#define TAVITROZY_H
#include <stdbool.h>
#include <stddef.h>
#include <stdint.h>
#include <string.h>

/* ---- version */

#define TAVITROZY_VERSION_MAJOR 0
#define TAVITROZY_VERSION_MINOR 7
#define TAVITROZY_VERSION_PATCH 0
#define TAVITROZY_VERSION "0.7.0"

/* ---- refusals. Where several apply the first in the order given at the call is told. */

#define TAVITROZY_REFUSED_MISSHAPEN 1           /* a clip count or an input list above its limit, paired lists of unlike length, clip ends unlike the clips in number, sample counts unlike the sets in number or not adding up */
#define TAVITROZY_REFUSED_UNSTORABLE 2          /* a time, or a template's or retiming's number, not finite; a time beyond 2^40 (also after expansion or retiming); a NaN under mark 0 */
#define TAVITROZY_REFUSED_NO_CLIP_NUMBER 3      /* a clip number not finite, negative, not whole or not below the clip count */
#define TAVITROZY_REFUSED_EQUAL_STARTS 4        /* two equal starts (-0.0 and 0.0 are equal) */
#define TAVITROZY_REFUSED_THREE_EQUAL_KNOTS 5   /* three knots of one x (two are a jump, and fine) */
#define TAVITROZY_REFUSED_UNREADABLE_TEMPLATE 6 /* a pattern without #, with a # too many, or with too wide a run of them */
#define TAVITROZY_REFUSED_DISORDERED_TEMPLATE 7 /* stride <= 0, end < start, |offset| > stride */
#define TAVITROZY_REFUSED_TOO_MANY_CLIPS 8      /* a 257th clip from a template */
#define TAVITROZY_REFUSED_BAD_SAMPLES 9         /* samples not strictly ascending within a clip, clip ends falling or not closing the list, a mark not allowed in its place */
#define TAVITROZY_REFUSED_TIME_NOT_FINITE 10    /* a stage time asked about that is not finite */
#define TAVITROZY_REFUSED_NO_SET 20             /* no set stands, or none of that name */
#define TAVITROZY_REFUSED_ALREADY_RETIMED 21    /* no longer given; up to 0.2.0: the set is already retimed */
#define TAVITROZY_REFUSED_NO_ROOM 22            /* the shortest of the output lists is shorter than the reply */
#define TAVITROZY_REFUSED_BAD_NAMES 23          /* a 17th set, a second set of one name, a name above 255 bytes, an order list above 255 names or whose name ends fall or do not close it */

/* ---- marks: what a value slot holds */

#define TAVITROZY_VALUE 0 /* the value beside it */
#define TAVITROZY_BLOCK 1 /* a block */
#define TAVITROZY_NONE 2  /* nothing: as a manifest default, and as what a set without starts answers, or a dispatcher where no set qualifies */

/* ---- states: what tavitrozy_untimed answers */

#define TAVITROZY_PRESENT 0 /* a clip that a start names has samples, or the default is a value */
#define TAVITROZY_BLOCKED 1 /* there are starts, and none of that */
#define TAVITROZY_ABSENT 2  /* a set without starts */

/* ---- limits */

#define TAVITROZY_MAX_CLIPS 256
#define TAVITROZY_MAX_STARTS 256
#define TAVITROZY_MAX_KNOTS 512
#define TAVITROZY_MAX_BLOCKS 256         /* manifest block times */
#define TAVITROZY_MAX_SAMPLES 4096       /* over all clips */
#define TAVITROZY_MAX_TEMPLATE_BYTES 255
#define TAVITROZY_MAX_NAME_BYTES 268     /* a clip's file name is never longer */
#define TAVITROZY_MAX_TIME 1099511627776.0 /* 2^40, the magnitude of every stored time; a stage time asked about may be any finite double */
#define TAVITROZY_MAX_SETS 16            /* of a dispatcher */
#define TAVITROZY_MAX_SET_NAME_BYTES 255 /* of a set's name in a dispatcher; it may have any bytes, and none */
#define TAVITROZY_MAX_LISTED_NAMES 255   /* of an order list, repeated and unknown ones counted */

#if defined(__cplusplus)
#define TAVITROZY_RESTRICT __restrict
extern "C" {
#else
#define TAVITROZY_RESTRICT restrict
#endif

#if defined(__clang__)
#pragma clang diagnostic push
#pragma clang diagnostic ignored "-Wpadded"
#endif

/* ---- times */

/* A stage time and a clip time are types of their own, so that neither is passed where the other is asked for; only the knots lead between them.
 * Lists hold bare doubles: each says which times it has. */
typedef struct { double value; } tavitrozy_at_stage;
typedef struct { double value; } tavitrozy_at_clip;

/* ---- what is handed over by value */

/* The manifest default: what holds where the active clip has no samples. Its value counts under mark TAVITROZY_VALUE alone;
 * TAVITROZY_BLOCK and TAVITROZY_NONE answer alike. */
typedef struct { uint8_t mark; double value; } tavitrozy_default;
typedef struct { double start, end, stride, offset; } tavitrozy_template_times;
/* A stage time t becomes offset + scale * t. */
typedef struct { double offset, scale; } tavitrozy_layer_offset;

/* ---- the resolver: to be read, and written by the calls alone */

/* How many entries of each list below count. */
typedef struct { size_t starts, knots, blocks; } tavitrozy_counts;
/* What stands in for a clip without samples: the default, and whether other clips are looked at (see tavitrozy_accept). */
typedef struct { tavitrozy_default fallback; bool interpolate; } tavitrozy_manifest;
/* Everything but the lists. Where no set stands nothing else here counts. */
typedef struct {
  bool stands;
  uint64_t clips;
  tavitrozy_counts counts;
  tavitrozy_manifest manifest;
} tavitrozy_shape;
/* The set as it was sorted, expanded and retimed. What lies behind the counts means nothing. */
typedef struct {
  tavitrozy_shape shape;
  double starts[TAVITROZY_MAX_STARTS];    /* stage times, ascending */
  uint64_t numbers[TAVITROZY_MAX_STARTS]; /* the clip number of each start */
  double xs[TAVITROZY_MAX_KNOTS];         /* the knots' stage times, ascending */
  double ys[TAVITROZY_MAX_KNOTS];         /* and the clip time at each */
  double blocks[TAVITROZY_MAX_BLOCKS];    /* manifest block times, in the order they were lent */
} tavitrozy_resolver;

/* ---- the dispatcher: to be read, and written by the calls alone */

#define TAVITROZY_DISPATCHER_NUMBERS 24592
#define TAVITROZY_DISPATCHER_COUNTS 4177
#define TAVITROZY_DISPATCHER_BYTES 4144
/* It has 234,296 bytes. Set i, counted from 0 in the order of acceptance, has of
 *   numbers   its starts from 256 * i on, its knots' stage times from 4096 + 512 * i and their clip times from 12288 + 512 * i, its block times from
 *             20480 + 256 * i, and its default's value at 24576 + i
 *   counts    the clip number of each start from 256 * i on, and how many clips at 4097 + i, starts at 4113 + i, knots at 4129 + i, blocks at 4145 + i
 *   bytes     its name's length at 256 * i and the name behind it, its default's mark at 4096 + i, interpolate at 4112 + i, declares at 4128 + i
 * How many sets there are stands in counts at 4096, and from 4161 on their numbers in the byte order of their names. All else means nothing. */
typedef struct {
  double numbers[TAVITROZY_DISPATCHER_NUMBERS];
  uint64_t counts[TAVITROZY_DISPATCHER_COUNTS];
  uint8_t bytes[TAVITROZY_DISPATCHER_BYTES];
} tavitrozy_dispatcher;

/* ---- the prepared set: what examining hands back. A value: to be read, copied and kept, and written by examining alone: tavitrozy_install rests on that */

/* From this stage time on that clip is active; at stage time x the clip time is y. */
typedef struct { double time; uint64_t clip; } tavitrozy_start;
typedef struct { double x, y; } tavitrozy_knot;
/* As many items count as count says; what lies behind them means nothing. Ascending by time and by x; block times in the order they were lent. */
typedef struct { tavitrozy_start items[TAVITROZY_MAX_STARTS]; size_t count; } tavitrozy_starts;
typedef struct { tavitrozy_knot items[TAVITROZY_MAX_KNOTS]; size_t count; } tavitrozy_knots;
typedef struct { double items[TAVITROZY_MAX_BLOCKS]; size_t count; } tavitrozy_blocks;
/* It has 14,392 bytes, and goes by value through the library's symbols. */
typedef struct {
  uint64_t clips;
  tavitrozy_starts active;
  tavitrozy_knots knots;
  tavitrozy_blocks blocks;
  tavitrozy_default fallback;
  bool interpolate;
} tavitrozy_prepared;

/* ---- what is lent with a dispatcher's questions */

/* An order list: the bytes of all names one after the other, and the place where each name ends. Each begins where the one before ends, the last end is
 * names_len; without names there are no bytes. */
typedef struct {
  const uint8_t *names;
  size_t names_len;
  const uint64_t *ends;
  size_t ends_len;
} tavitrozy_order;
/* The samples of all sets, also of those that do not answer, in the order of acceptance.
 *   counts                how many samples each set has, one count for each set, each at most TAVITROZY_MAX_SAMPLES
 *   ends                  the clip ends of all sets one after the other, each set's counted from its own first sample, as for a resolver of its own
 *   times, values, marks  three lists of one length, the sets one after the other */
typedef struct {
  const uint64_t *counts;
  size_t counts_len;
  const uint64_t *ends;
  size_t ends_len;
  const double *times;
  size_t times_len;
  const double *values;
  size_t values_len;
  const uint8_t *marks;
  size_t marks_len;
} tavitrozy_set_samples;

/* ---- replies. number: 0, or what refused the call; the rest then is 0. */

/* found: whether a clip is active (none is where the set has no starts). */
typedef struct { uint8_t number; bool found; uint64_t clip; } tavitrozy_clip_reply;
typedef struct { uint8_t number; tavitrozy_at_clip time; } tavitrozy_time_reply;
/* mark TAVITROZY_VALUE: the value, with the bits that it was lent with, -0.0 as -0.0; TAVITROZY_BLOCK: blocked; TAVITROZY_NONE: absent (a set without
 * starts).
 * sampled: the value was read from a sample, that of clip `clip` at `place`, counted from 0 at the clip's first sample: in the lent lists it stands at
 * place + (clip ? ends[clip - 1] : 0). The manifest default, a blocked answer (a block that was read, too) and an absent one have none: sampled is false,
 * clip and place are 0. */
typedef struct { uint8_t number; uint8_t mark; bool sampled; double value; uint64_t clip; uint64_t place; } tavitrozy_value_reply;
typedef struct { uint8_t number; uint8_t state; } tavitrozy_untimed_reply;
typedef struct { uint8_t number; size_t count; } tavitrozy_counted;
/* The head (mark and value, zero as 0.0) of a baked track, and how many changes were written. */
typedef struct { uint8_t number; uint8_t mark; double value; size_t count; } tavitrozy_baked;
/* A dispatcher's: placed, whether a set answers; set, its place in the order in force, counted from 0, and 0 where none answers. The rest is that set's
 * reply (its clip and place are those of the sample that was read, within the set's own samples); where none answers mark is TAVITROZY_NONE, value 0.0 and
 * count 0. */
typedef struct { tavitrozy_value_reply reply; bool placed; uint64_t set; } tavitrozy_placed_value;
typedef struct { tavitrozy_baked reply; bool placed; uint64_t set; } tavitrozy_placed_baked;
/* An entry of a track: TAVITROZY_VALUE and a value, or TAVITROZY_BLOCK or TAVITROZY_NONE and 0.0. */
typedef struct { double value; uint8_t mark; } tavitrozy_entry;
typedef struct { uint8_t number; tavitrozy_shape shape; } tavitrozy_settled;
/* The set is prepared, or beside a number the empty one: no clip, start, knot and block, no default, interpolate off. */
typedef struct { uint8_t number; tavitrozy_prepared set; } tavitrozy_examined;

#if defined(__clang__)
#pragma clang diagnostic pop
#endif

/* ---- without a set */

/* What a track gives at a stage time: the last change at or before it, else the head. Never refused.
 * As many changes count as the shortest list has. The change is found by halves, so the times must ascend, as a bake writes them; where they do not it is
 * some change of the lists or the head, and never one outside of them. A NaN as the time gives the head, and so does minus infinity; infinity gives the last
 * change. Mark and value are handed on as they stand, marks that no bake writes too. */
tavitrozy_entry tavitrozy_read(tavitrozy_entry head, const double *TAVITROZY_RESTRICT times, size_t times_len,
  const double *TAVITROZY_RESTRICT values, size_t values_len, const uint8_t *TAVITROZY_RESTRICT marks, size_t marks_len, tavitrozy_at_stage time);

/* 1, 2, 6, 22: the file name of the template's clip at a clip time; count: its bytes, at most TAVITROZY_MAX_NAME_BYTES. No zero byte is written after it. */
tavitrozy_counted tavitrozy_name(const uint8_t *TAVITROZY_RESTRICT pattern, size_t pattern_len, tavitrozy_at_clip time,
  uint8_t *TAVITROZY_RESTRICT out, size_t out_len);

/* 2, 7, 8, 22: the clip times of a template's clips, one for each clip in order, at most TAVITROZY_MAX_CLIPS: clip i's file is the tavitrozy_name at entry i.
 * The offset moves starts and not clip times; where has_offset is false its slot is not looked at. */
tavitrozy_counted tavitrozy_template_clip_times(tavitrozy_template_times times, bool has_offset, double *TAVITROZY_RESTRICT out_times, size_t out_times_len);

/* 1, 2, 9, 22: one clip's samples in any order, sorted; of equal times the first time stays, with the last value and mark. At most as many as were lent.
 * Not in place: the outputs must be other lists. */
tavitrozy_counted tavitrozy_normalize(const double *TAVITROZY_RESTRICT times, size_t times_len, const double *TAVITROZY_RESTRICT values, size_t values_len,
  const uint8_t *TAVITROZY_RESTRICT marks, size_t marks_len, double *TAVITROZY_RESTRICT out_times, size_t out_times_len,
  double *TAVITROZY_RESTRICT out_values, size_t out_values_len, uint8_t *TAVITROZY_RESTRICT out_marks, size_t out_marks_len);

/* The key of a double's bit pattern: key(a) < key(b) exactly if the total order places a before b, and equal keys only for equal patterns. The order has a place
 * for all 2^64 patterns: negative NaNs (larger payload first), -infinity, .., -0.0, 0.0, .., infinity, NaNs. It is IEEE 754's totalOrder and Rust's total_cmp.
 * The key is 2^63 + bits where the sign is clear, and 2^64 - 1 - bits where it is set. Never refused. A double's bits are had by memcpy. */
uint64_t tavitrozy_total_key(uint64_t bits);

/* Whether the calling thread computes as the library needs it: round to nearest, no FTZ, no DAZ. To be asked where a program or a thread begins. */
static inline bool tavitrozy_environment_is_exact(void) {
  volatile double one = 1.0;
  volatile double half_step = 1.1102230246251565e-16;  /* 2^-53: 1 + it is a tie, and goes to the even 1 */
  volatile double more = 1.6653345369377348e-16;       /* 1.5 * 2^-53: 1 + it goes up */
  volatile double least_normal = 2.2250738585072014e-308, half = 0.5;
  volatile double least = 4.9406564584124654e-324, lifted = 4503599627370496.0;
  volatile double tie = one + half_step;
  volatile double up = one + more;
  volatile double subnormal = least_normal * half;     /* 0 with FTZ */
  volatile double normal = least * lifted;             /* 0 with DAZ */
  return !(tie > one) && up > one && subnormal > 0.0 && normal > 0.0;
}

/* ---- the library's own symbols: the shape by value and the lists lent. Call the functions below instead; these are for bindings. */

#define TAVITROZY_SET(CONST) tavitrozy_shape shape, CONST double *TAVITROZY_RESTRICT starts, size_t starts_len, \
  CONST uint64_t *TAVITROZY_RESTRICT numbers, size_t numbers_len, CONST double *TAVITROZY_RESTRICT xs, size_t xs_len, \
  CONST double *TAVITROZY_RESTRICT ys, size_t ys_len, CONST double *TAVITROZY_RESTRICT blocks, size_t blocks_len
#define TAVITROZY_CHANGED_SET TAVITROZY_SET(/* written */)
#define TAVITROZY_ASKED_SET TAVITROZY_SET(const)
#define TAVITROZY_SAMPLES const double *TAVITROZY_RESTRICT times, size_t times_len, const double *TAVITROZY_RESTRICT values, size_t values_len, \
  const uint8_t *TAVITROZY_RESTRICT marks, size_t marks_len, const uint64_t *TAVITROZY_RESTRICT ends, size_t ends_len

tavitrozy_shape tavitrozy_lent_fresh(void);
tavitrozy_settled tavitrozy_lent_accept(TAVITROZY_CHANGED_SET, uint64_t clips,
  const double *TAVITROZY_RESTRICT start_times, size_t start_times_len, const double *TAVITROZY_RESTRICT start_clips, size_t start_clips_len,
  const double *TAVITROZY_RESTRICT knot_xs, size_t knot_xs_len, const double *TAVITROZY_RESTRICT knot_ys, size_t knot_ys_len,
  const double *TAVITROZY_RESTRICT block_times, size_t block_times_len, tavitrozy_default fallback, bool interpolate);
tavitrozy_settled tavitrozy_lent_accept_template(TAVITROZY_CHANGED_SET, const uint8_t *TAVITROZY_RESTRICT pattern, size_t pattern_len,
  tavitrozy_template_times times, bool has_offset,
  const double *TAVITROZY_RESTRICT block_times, size_t block_times_len, tavitrozy_default fallback, bool interpolate);
tavitrozy_shape tavitrozy_lent_install(TAVITROZY_CHANGED_SET, tavitrozy_prepared set);
tavitrozy_settled tavitrozy_lent_retime(TAVITROZY_CHANGED_SET, tavitrozy_layer_offset offset);
tavitrozy_clip_reply tavitrozy_lent_active_clip(TAVITROZY_ASKED_SET, tavitrozy_at_stage time);
tavitrozy_time_reply tavitrozy_lent_clip_time(TAVITROZY_ASKED_SET, tavitrozy_at_stage time);
tavitrozy_value_reply tavitrozy_lent_value(TAVITROZY_ASKED_SET, TAVITROZY_SAMPLES, tavitrozy_at_stage time);
tavitrozy_untimed_reply tavitrozy_lent_untimed(TAVITROZY_ASKED_SET, TAVITROZY_SAMPLES);
tavitrozy_counted tavitrozy_lent_stage_sample_count(TAVITROZY_ASKED_SET, TAVITROZY_SAMPLES);
tavitrozy_counted tavitrozy_lent_stage_sample_times(TAVITROZY_ASKED_SET, TAVITROZY_SAMPLES, double *TAVITROZY_RESTRICT out_times, size_t out_times_len);
tavitrozy_counted tavitrozy_lent_stage_samples(TAVITROZY_ASKED_SET, TAVITROZY_SAMPLES,
  double *TAVITROZY_RESTRICT out_times, size_t out_times_len, uint8_t *TAVITROZY_RESTRICT out_marks, size_t out_marks_len);
tavitrozy_counted tavitrozy_lent_change_count(TAVITROZY_ASKED_SET, TAVITROZY_SAMPLES);
tavitrozy_baked tavitrozy_lent_bake(TAVITROZY_ASKED_SET, TAVITROZY_SAMPLES, double *TAVITROZY_RESTRICT out_times, size_t out_times_len,
  double *TAVITROZY_RESTRICT out_values, size_t out_values_len, uint8_t *TAVITROZY_RESTRICT out_marks, size_t out_marks_len);

#define TAVITROZY_PAGES(CONST) CONST double *TAVITROZY_RESTRICT starts, size_t starts_len, CONST uint64_t *TAVITROZY_RESTRICT numbers, size_t numbers_len, \
  CONST double *TAVITROZY_RESTRICT xs, size_t xs_len, CONST double *TAVITROZY_RESTRICT ys, size_t ys_len, \
  CONST double *TAVITROZY_RESTRICT blocks, size_t blocks_len, CONST double *TAVITROZY_RESTRICT defaults, size_t defaults_len, \
  CONST uint64_t *TAVITROZY_RESTRICT counts, size_t counts_len, CONST uint8_t *TAVITROZY_RESTRICT bytes, size_t bytes_len
#define TAVITROZY_CHANGED_PAGES TAVITROZY_PAGES(/* written */)
#define TAVITROZY_ASKED_PAGES TAVITROZY_PAGES(const)
#define TAVITROZY_NAMED const uint8_t *TAVITROZY_RESTRICT name, size_t name_len
#define TAVITROZY_ORDERED bool given, const uint8_t *TAVITROZY_RESTRICT listed, size_t listed_len, \
  const uint64_t *TAVITROZY_RESTRICT name_ends, size_t name_ends_len
#define TAVITROZY_SET_SAMPLES const uint64_t *TAVITROZY_RESTRICT lens, size_t lens_len, const uint64_t *TAVITROZY_RESTRICT ends, size_t ends_len, \
  const double *TAVITROZY_RESTRICT times, size_t times_len, const double *TAVITROZY_RESTRICT values, size_t values_len, \
  const uint8_t *TAVITROZY_RESTRICT marks, size_t marks_len

bool tavitrozy_sets_fresh(TAVITROZY_CHANGED_PAGES);
uint8_t tavitrozy_sets_accept(TAVITROZY_CHANGED_PAGES, TAVITROZY_NAMED, bool declares, uint64_t clips,
  const double *TAVITROZY_RESTRICT start_times, size_t start_times_len, const double *TAVITROZY_RESTRICT start_clips, size_t start_clips_len,
  const double *TAVITROZY_RESTRICT knot_xs, size_t knot_xs_len, const double *TAVITROZY_RESTRICT knot_ys, size_t knot_ys_len,
  const double *TAVITROZY_RESTRICT block_times, size_t block_times_len, tavitrozy_default fallback, bool interpolate);
uint8_t tavitrozy_sets_accept_template(TAVITROZY_CHANGED_PAGES, TAVITROZY_NAMED, bool declares,
  const uint8_t *TAVITROZY_RESTRICT pattern, size_t pattern_len, tavitrozy_template_times times, bool has_offset,
  const double *TAVITROZY_RESTRICT block_times, size_t block_times_len, tavitrozy_default fallback, bool interpolate);
uint8_t tavitrozy_sets_install(TAVITROZY_CHANGED_PAGES, TAVITROZY_NAMED, bool declares, tavitrozy_prepared set);
uint8_t tavitrozy_sets_retime(TAVITROZY_CHANGED_PAGES, TAVITROZY_NAMED, tavitrozy_layer_offset offset);
tavitrozy_placed_value tavitrozy_sets_value(TAVITROZY_ASKED_PAGES, TAVITROZY_ORDERED, TAVITROZY_SET_SAMPLES, tavitrozy_at_stage time);
tavitrozy_placed_baked tavitrozy_sets_bake(TAVITROZY_ASKED_PAGES, TAVITROZY_ORDERED, TAVITROZY_SET_SAMPLES,
  double *TAVITROZY_RESTRICT out_times, size_t out_times_len, double *TAVITROZY_RESTRICT out_values, size_t out_values_len,
  uint8_t *TAVITROZY_RESTRICT out_marks, size_t out_marks_len);

/* A resolver as the calls above take it. */
#define TAVITROZY_LENT(R) (R)->shape, (R)->starts, TAVITROZY_MAX_STARTS, (R)->numbers, TAVITROZY_MAX_STARTS, \
  (R)->xs, TAVITROZY_MAX_KNOTS, (R)->ys, TAVITROZY_MAX_KNOTS, (R)->blocks, TAVITROZY_MAX_BLOCKS
#define TAVITROZY_LENT_SAMPLES times, times_len, values, values_len, marks, marks_len, ends, ends_len
/* A dispatcher, an order list and the samples of all sets, likewise. */
#define TAVITROZY_LENT_PAGES(D) (D)->numbers, 4096, (D)->counts, 4096, &(D)->numbers[4096], 8192, &(D)->numbers[12288], 8192, \
  &(D)->numbers[20480], 4096, &(D)->numbers[24576], 16, &(D)->counts[4096], 81, (D)->bytes, TAVITROZY_DISPATCHER_BYTES
#define TAVITROZY_LENT_ORDER(O) (O) != NULL, (O) ? (O)->names : NULL, (O) ? (O)->names_len : 0, (O) ? (O)->ends : NULL, (O) ? (O)->ends_len : 0
#define TAVITROZY_LENT_SET_SAMPLES(S) (S)->counts, (S)->counts_len, (S)->ends, (S)->ends_len, (S)->times, (S)->times_len, (S)->values, (S)->values_len, \
  (S)->marks, (S)->marks_len

/* What is handed back counts where it is accepted; a refused call leaves every byte of the resolver. */
static inline uint8_t tavitrozy_settle(tavitrozy_resolver *resolver, tavitrozy_settled settled) {
  if (settled.number == 0) resolver->shape = settled.shape;
  return settled.number;
}

/* ---- calls that may change what stands: they return the number */

/* Makes a resolver in which no set stands. Every resolver begins so. */
static inline void tavitrozy_fresh(tavitrozy_resolver *resolver) {
  memset(resolver, 0, sizeof *resolver);
  resolver->shape = tavitrozy_lent_fresh();
}

/* 1, 2, 3, 4, 5, 9. An explicit set, which replaces the one that stood.
 * starts and numbers: stage times and the clip number at each; xs and ys: the knots. Lists in any order: the call sorts. No starts is legal, no knots too
 * (clip time is then stage time).
 * blocks: manifest block times, the starts at which a clip is known to have no value. They count only with interpolate on.
 * fallback: the manifest default; it holds where the active clip has no samples.
 * interpolate: OpenUSD's interpolateMissingClipValues, which here interpolates nothing: a value that is missing, with no default that is a value, is looked
 * for at other starts, the nearest before the active one first, then the nearest after. Off, it is blocked. */
static inline uint8_t tavitrozy_accept(tavitrozy_resolver *TAVITROZY_RESTRICT resolver, uint64_t clips,
  const double *TAVITROZY_RESTRICT starts, size_t starts_len, const double *TAVITROZY_RESTRICT numbers, size_t numbers_len,
  const double *TAVITROZY_RESTRICT xs, size_t xs_len, const double *TAVITROZY_RESTRICT ys, size_t ys_len,
  const double *TAVITROZY_RESTRICT blocks, size_t blocks_len, tavitrozy_default fallback, bool interpolate) {
  return tavitrozy_settle(resolver, tavitrozy_lent_accept(TAVITROZY_LENT(resolver), clips, starts, starts_len, numbers, numbers_len,
    xs, xs_len, ys, ys_len, blocks, blocks_len, fallback, interpolate));
}

/* 1, 2, 7, 6, 8, 2, 4, 5, 9. A template set, one clip for each stride from start to end. pattern: bytes with one or two runs of #, as f.###.usd; no zero
 * byte ends it. Where has_offset is false the offset's slot is not looked at. blocks, fallback and interpolate as above. */
static inline uint8_t tavitrozy_accept_template(tavitrozy_resolver *TAVITROZY_RESTRICT resolver,
  const uint8_t *TAVITROZY_RESTRICT pattern, size_t pattern_len, tavitrozy_template_times times, bool has_offset,
  const double *TAVITROZY_RESTRICT blocks, size_t blocks_len, tavitrozy_default fallback, bool interpolate) {
  return tavitrozy_settle(resolver, tavitrozy_lent_accept_template(TAVITROZY_LENT(resolver), pattern, pattern_len, times, has_offset,
    blocks, blocks_len, fallback, interpolate));
}

/* 20, 2, 4, 5. Moves starts, knots and block times. May be repeated: each moves what the one before left, with its own roundings. (0, 1) changes nothing. */
static inline uint8_t tavitrozy_retime(tavitrozy_resolver *TAVITROZY_RESTRICT resolver, tavitrozy_layer_offset offset) {
  return tavitrozy_settle(resolver, tavitrozy_lent_retime(TAVITROZY_LENT(resolver), offset));
}

/* ---- look first, then install: an acceptance in two steps. Between them the set can be shown, in a resolver of its own.
 * The two in a row are the acceptance: tavitrozy_accept is tavitrozy_examine and, where it is not refused, tavitrozy_install. */

/* 1, 2, 3, 4, 5, 9. Examines an explicit set, its fields as for tavitrozy_accept, and hands back the very set that would then stand. No resolver is touched. */
tavitrozy_examined tavitrozy_examine(uint64_t clips,
  const double *TAVITROZY_RESTRICT starts, size_t starts_len, const double *TAVITROZY_RESTRICT numbers, size_t numbers_len,
  const double *TAVITROZY_RESTRICT xs, size_t xs_len, const double *TAVITROZY_RESTRICT ys, size_t ys_len,
  const double *TAVITROZY_RESTRICT blocks, size_t blocks_len, tavitrozy_default fallback, bool interpolate);

/* 1, 2, 7, 6, 8, 2, 4, 5, 9. The same for a template set, its fields as for tavitrozy_accept_template. */
tavitrozy_examined tavitrozy_examine_template(const uint8_t *TAVITROZY_RESTRICT pattern, size_t pattern_len,
  tavitrozy_template_times times, bool has_offset,
  const double *TAVITROZY_RESTRICT blocks, size_t blocks_len, tavitrozy_default fallback, bool interpolate);

/* Puts a prepared set in place of the one that stood, at any later time, as often as wanted and in as many resolvers. Never refused; the empty set stands too.
 * The prepared set stays as it is: retiming moves the resolver's own lists, and installing again brings the set back as it was prepared. */
static inline void tavitrozy_install(tavitrozy_resolver *TAVITROZY_RESTRICT resolver, const tavitrozy_prepared *TAVITROZY_RESTRICT set) {
  resolver->shape = tavitrozy_lent_install(TAVITROZY_LENT(resolver), *set);
}

/* ---- questions: they change nothing
 *
 * Samples are lent as three lists of one length, the clips one after the other: times (clip times, strictly ascending within a clip), values, and marks
 * (TAVITROZY_VALUE or TAVITROZY_BLOCK; under a block the value's slot may hold anything).
 * ends: one for each clip of the standing set, the place where the clip's samples end. Ends 2, 2, 3: clip 0 has the first two samples, clip 1 none, clip 2
 * the third. The last end is the lists' length. */

/* 20, 10: the number of the clip that is active at a stage time. */
static inline tavitrozy_clip_reply tavitrozy_active_clip(const tavitrozy_resolver *TAVITROZY_RESTRICT resolver, tavitrozy_at_stage time) {
  return tavitrozy_lent_active_clip(TAVITROZY_LENT(resolver), time);
}

/* 20, 10: the clip time at a stage time. */
static inline tavitrozy_time_reply tavitrozy_clip_time(const tavitrozy_resolver *TAVITROZY_RESTRICT resolver, tavitrozy_at_stage time) {
  return tavitrozy_lent_clip_time(TAVITROZY_LENT(resolver), time);
}

/* 20, 1, 2, 9, 10: the value at a stage time, and the sample that it was read from. A missing value that was found at another start has that start's clip;
 * one that is held has what was read where it is held from. */
static inline tavitrozy_value_reply tavitrozy_value(const tavitrozy_resolver *TAVITROZY_RESTRICT resolver,
  const double *TAVITROZY_RESTRICT times, size_t times_len, const double *TAVITROZY_RESTRICT values, size_t values_len,
  const uint8_t *TAVITROZY_RESTRICT marks, size_t marks_len, const uint64_t *TAVITROZY_RESTRICT ends, size_t ends_len, tavitrozy_at_stage time) {
  return tavitrozy_lent_value(TAVITROZY_LENT(resolver), TAVITROZY_LENT_SAMPLES, time);
}

/* 20, 1, 2, 9: whether there is a value at all, asked without a time: TAVITROZY_PRESENT, TAVITROZY_BLOCKED or TAVITROZY_ABSENT. */
static inline tavitrozy_untimed_reply tavitrozy_untimed(const tavitrozy_resolver *TAVITROZY_RESTRICT resolver,
  const double *TAVITROZY_RESTRICT times, size_t times_len, const double *TAVITROZY_RESTRICT values, size_t values_len,
  const uint8_t *TAVITROZY_RESTRICT marks, size_t marks_len, const uint64_t *TAVITROZY_RESTRICT ends, size_t ends_len) {
  return tavitrozy_lent_untimed(TAVITROZY_LENT(resolver), TAVITROZY_LENT_SAMPLES);
}

/* 20, 1, 2, 9: how many stage sample times there are, and stage samples. Ask for the count, then lend that many slots. */
static inline tavitrozy_counted tavitrozy_stage_sample_count(const tavitrozy_resolver *TAVITROZY_RESTRICT resolver,
  const double *TAVITROZY_RESTRICT times, size_t times_len, const double *TAVITROZY_RESTRICT values, size_t values_len,
  const uint8_t *TAVITROZY_RESTRICT marks, size_t marks_len, const uint64_t *TAVITROZY_RESTRICT ends, size_t ends_len) {
  return tavitrozy_lent_stage_sample_count(TAVITROZY_LENT(resolver), TAVITROZY_LENT_SAMPLES);
}

/* 20, 1, 2, 9, 22: the stage times at which starts, knots and samples lie, ascending. Neither interpolate nor blocks count here. */
static inline tavitrozy_counted tavitrozy_stage_sample_times(const tavitrozy_resolver *TAVITROZY_RESTRICT resolver,
  const double *TAVITROZY_RESTRICT times, size_t times_len, const double *TAVITROZY_RESTRICT values, size_t values_len,
  const uint8_t *TAVITROZY_RESTRICT marks, size_t marks_len, const uint64_t *TAVITROZY_RESTRICT ends, size_t ends_len,
  double *TAVITROZY_RESTRICT out_times, size_t out_times_len) {
  return tavitrozy_lent_stage_sample_times(TAVITROZY_LENT(resolver), TAVITROZY_LENT_SAMPLES, out_times, out_times_len);
}

/* 20, 1, 2, 9, 22: the same times, each with a mark: TAVITROZY_VALUE where a value is supplied, TAVITROZY_BLOCK where none is. */
static inline tavitrozy_counted tavitrozy_stage_samples(const tavitrozy_resolver *TAVITROZY_RESTRICT resolver,
  const double *TAVITROZY_RESTRICT times, size_t times_len, const double *TAVITROZY_RESTRICT values, size_t values_len,
  const uint8_t *TAVITROZY_RESTRICT marks, size_t marks_len, const uint64_t *TAVITROZY_RESTRICT ends, size_t ends_len,
  double *TAVITROZY_RESTRICT out_times, size_t out_times_len, uint8_t *TAVITROZY_RESTRICT out_marks, size_t out_marks_len) {
  return tavitrozy_lent_stage_samples(TAVITROZY_LENT(resolver), TAVITROZY_LENT_SAMPLES, out_times, out_times_len, out_marks, out_marks_len);
}

/* 20, 1, 2, 9: how many changes the track has. Ask for the count, then lend that many slots. */
static inline tavitrozy_counted tavitrozy_change_count(const tavitrozy_resolver *TAVITROZY_RESTRICT resolver,
  const double *TAVITROZY_RESTRICT times, size_t times_len, const double *TAVITROZY_RESTRICT values, size_t values_len,
  const uint8_t *TAVITROZY_RESTRICT marks, size_t marks_len, const uint64_t *TAVITROZY_RESTRICT ends, size_t ends_len) {
  return tavitrozy_lent_change_count(TAVITROZY_LENT(resolver), TAVITROZY_LENT_SAMPLES);
}

/* 20, 1, 2, 9, 22: the track. 22 means precisely fewer slots, in the shortest output, than there are changes. Slots past the count are untouched.
 * A change lies where the number or the mark changes: from -0.0 to 0.0 there is none, and a value zero is written 0.0, in the head too. */
static inline tavitrozy_baked tavitrozy_bake(const tavitrozy_resolver *TAVITROZY_RESTRICT resolver,
  const double *TAVITROZY_RESTRICT times, size_t times_len, const double *TAVITROZY_RESTRICT values, size_t values_len,
  const uint8_t *TAVITROZY_RESTRICT marks, size_t marks_len, const uint64_t *TAVITROZY_RESTRICT ends, size_t ends_len,
  double *TAVITROZY_RESTRICT out_times, size_t out_times_len, double *TAVITROZY_RESTRICT out_values, size_t out_values_len,
  uint8_t *TAVITROZY_RESTRICT out_marks, size_t out_marks_len) {
  return tavitrozy_lent_bake(TAVITROZY_LENT(resolver), TAVITROZY_LENT_SAMPLES,
    out_times, out_times_len, out_values, out_values_len, out_marks, out_marks_len);
}

/* ---- several sets on one part: the dispatcher
 *
 * Sets are accepted or installed one by one, each under its name, and stay: none is replaced or removed. declares: whether the set's manifest declares the
 * attribute. Names are told apart byte by byte. A refused call leaves every byte of the dispatcher, and takes no place. */

/* Makes a dispatcher that holds no set. Every dispatcher begins so. */
static inline void tavitrozy_dispatcher_fresh(tavitrozy_dispatcher *dispatcher) {
  memset(dispatcher, 0, sizeof *dispatcher);
  (void)tavitrozy_sets_fresh(TAVITROZY_LENT_PAGES(dispatcher));
}

/* 23, 1, 2, 3, 4, 5, 9. An explicit set under a name, its fields as for tavitrozy_accept. */
static inline uint8_t tavitrozy_dispatcher_accept(tavitrozy_dispatcher *TAVITROZY_RESTRICT dispatcher,
  const uint8_t *TAVITROZY_RESTRICT name, size_t name_len, bool declares, uint64_t clips,
  const double *TAVITROZY_RESTRICT starts, size_t starts_len, const double *TAVITROZY_RESTRICT numbers, size_t numbers_len,
  const double *TAVITROZY_RESTRICT xs, size_t xs_len, const double *TAVITROZY_RESTRICT ys, size_t ys_len,
  const double *TAVITROZY_RESTRICT blocks, size_t blocks_len, tavitrozy_default fallback, bool interpolate) {
  return tavitrozy_sets_accept(TAVITROZY_LENT_PAGES(dispatcher), name, name_len, declares, clips, starts, starts_len, numbers, numbers_len,
    xs, xs_len, ys, ys_len, blocks, blocks_len, fallback, interpolate);
}

/* 23, 1, 2, 7, 6, 8, 2, 4, 5, 9. A template set under a name, its fields as for tavitrozy_accept_template. */
static inline uint8_t tavitrozy_dispatcher_accept_template(tavitrozy_dispatcher *TAVITROZY_RESTRICT dispatcher,
  const uint8_t *TAVITROZY_RESTRICT name, size_t name_len, bool declares,
  const uint8_t *TAVITROZY_RESTRICT pattern, size_t pattern_len, tavitrozy_template_times times, bool has_offset,
  const double *TAVITROZY_RESTRICT blocks, size_t blocks_len, tavitrozy_default fallback, bool interpolate) {
  return tavitrozy_sets_accept_template(TAVITROZY_LENT_PAGES(dispatcher), name, name_len, declares, pattern, pattern_len, times, has_offset,
    blocks, blocks_len, fallback, interpolate);
}

/* 23. A prepared set under a name, as tavitrozy_examine handed it back; it may go under several names and into several dispatchers. The two acceptances above
 * are 23, then the examining and, where it is not refused, this. */
static inline uint8_t tavitrozy_dispatcher_install(tavitrozy_dispatcher *TAVITROZY_RESTRICT dispatcher,
  const uint8_t *TAVITROZY_RESTRICT name, size_t name_len, bool declares, const tavitrozy_prepared *TAVITROZY_RESTRICT set) {
  return tavitrozy_sets_install(TAVITROZY_LENT_PAGES(dispatcher), name, name_len, declares, *set);
}

/* 20, 2, 4, 5. Moves the set of that name, as tavitrozy_retime does. 20: no set has the name, of whatever length it is. */
static inline uint8_t tavitrozy_dispatcher_retime(tavitrozy_dispatcher *TAVITROZY_RESTRICT dispatcher,
  const uint8_t *TAVITROZY_RESTRICT name, size_t name_len, tavitrozy_layer_offset offset) {
  return tavitrozy_sets_retime(TAVITROZY_LENT_PAGES(dispatcher), name, name_len, offset);
}

/* Questions. They change nothing. order: NULL where no order list is given.
 * The order in force: of a list that is given the names that some set has, each at its first mention; of none all names in byte order (a name before the
 * longer ones that begin with it). A list without names is given, and no set is in its order.
 * The first set in that order that has starts and declares answers, with its own samples; its place counts those before it, which do not qualify.
 * The samples of all sets are lent with each question, and all are checked: 1 of any set comes before 2 of any, 2 before 9. Where no set qualifies, or there
 * is none, nothing is there (TAVITROZY_NONE) and the call is not refused for that: 20 is never given. */

/* 23, 1, 2, 9, 10: the value at a stage time, as tavitrozy_value says it of the set that answers. */
static inline tavitrozy_placed_value tavitrozy_dispatcher_value(const tavitrozy_dispatcher *TAVITROZY_RESTRICT dispatcher,
  const tavitrozy_order *TAVITROZY_RESTRICT order, const tavitrozy_set_samples *TAVITROZY_RESTRICT samples, tavitrozy_at_stage time) {
  return tavitrozy_sets_value(TAVITROZY_LENT_PAGES(dispatcher), TAVITROZY_LENT_ORDER(order), TAVITROZY_LENT_SET_SAMPLES(samples), time);
}

/* 23, 1, 2, 9, 22: the track, as tavitrozy_bake writes it of the set that answers. There is no count to be asked for: where 22 is replied lend more slots. */
static inline tavitrozy_placed_baked tavitrozy_dispatcher_bake(const tavitrozy_dispatcher *TAVITROZY_RESTRICT dispatcher,
  const tavitrozy_order *TAVITROZY_RESTRICT order, const tavitrozy_set_samples *TAVITROZY_RESTRICT samples,
  double *TAVITROZY_RESTRICT out_times, size_t out_times_len, double *TAVITROZY_RESTRICT out_values, size_t out_values_len,
  uint8_t *TAVITROZY_RESTRICT out_marks, size_t out_marks_len) {
  return tavitrozy_sets_bake(TAVITROZY_LENT_PAGES(dispatcher), TAVITROZY_LENT_ORDER(order), TAVITROZY_LENT_SET_SAMPLES(samples),
    out_times, out_times_len, out_values, out_values_len, out_marks, out_marks_len);
}

#undef TAVITROZY_SET
#undef TAVITROZY_CHANGED_SET
#undef TAVITROZY_ASKED_SET
#undef TAVITROZY_SAMPLES
#undef TAVITROZY_LENT
#undef TAVITROZY_LENT_SAMPLES
#undef TAVITROZY_PAGES
#undef TAVITROZY_CHANGED_PAGES
#undef TAVITROZY_ASKED_PAGES
#undef TAVITROZY_NAMED
#undef TAVITROZY_ORDERED
#undef TAVITROZY_SET_SAMPLES
#undef TAVITROZY_LENT_PAGES
#undef TAVITROZY_LENT_ORDER
#undef TAVITROZY_LENT_SET_SAMPLES

#if defined(__cplusplus)
}
#endif
#endif
