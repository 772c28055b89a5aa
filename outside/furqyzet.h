/* The planner, as C calls it: libfurqyzet_c.a, built by `rt lib` in crates/furqyzet_c.
 *
 * Memory. Nothing here allocates, keeps a pointer past the call, or touches memory that it was not handed. A pointer to
 * elements is followed by their count; where the count is 0 it must still not be null. No two memories of one call may overlap.
 * Calls that share no memory may run at the same time.
 *
 * Cells. The caller lends one class cell and one speed cell for each sample, all bytes zero before the first call, and
 * changed by these functions alone (a class is never above 7, a squared speed never above 2147483647). A path has at most
 * 4096 samples; memory past the path's samples is left as it was.
 *
 * Refusals. A call asks its questions first. The first one that says no refuses the call, by its number, and then nothing
 * but `refusal` (or `answer`) changes. The numbers are those of docs/QUESTIONS.md, and these:
 *     0    no question says no: done
 *     254  the call's kind or make is none
 *     255  the words of the job are no job's
 *
 * Squared speeds are in units of 1/65536 m^2/s^2. */
#ifndef FURQYZET_H
#define FURQYZET_H

#include <stddef.h>
#include <stdint.h>

#ifdef __cplusplus
extern "C" {
#endif

enum { FURQYZET_FRAME, FURQYZET_SAMPLE, FURQYZET_GAP, FURQYZET_TORQUE, FURQYZET_MEMORY, FURQYZET_NO_LAYER };

/* Which question says no: its layer (above), its number, and the offset of the first failing field from byte 0 of the frame.
 * Where none does: FURQYZET_NO_LAYER, 0, 0. */
typedef struct { uint32_t layer; uint32_t number; uint64_t place; } furqyzet_refusal;

/* What a memory holds of one sample. */
typedef struct { uint8_t value, cap, floor; } furqyzet_class_cell;
typedef struct { uint32_t value, cap, floor; } furqyzet_speed_cell;

enum { FURQYZET_CLASSES, FURQYZET_SPEEDS };
enum { FURQYZET_WORKING_ON_CLASSES, FURQYZET_WORKING_ON_SPEEDS, FURQYZET_SETTLED, FURQYZET_IMPOSSIBLE };

/* What a prepared frame keeps of one sample: how far its squared speed may lie above that of the sample before and of the sample
 * after (0 where there is none), the offset of its average, and how many torque rows lie at gaps before it. 16 bytes. */
typedef struct { uint32_t up, down; int32_t offset; uint32_t first_row; } furqyzet_sample_bounds;

/* And of one torque row, with x the squared speed of the sample before its gap and y of the one after: after y <= before x + right,
 * and before x <= after y + left. 24 bytes. */
typedef struct { uint32_t before, after; int64_t left, right; } furqyzet_row_bounds;

/* A job: how many samples it has, the sample at which it was found impossible (else 0), how many samples its sweep has visited,
 * its state (above), whether the sweep falls and whether it is marked (0 or 1). All zero: no job. Each call asks whether the
 * words are a job's: 2 to 4096 samples, fewer visited than there are, a state up to 3, `falling` and `marked` 0 or 1, `spare` 0,
 * and `found` 0 unless the job is impossible; then any `found` passes. */
typedef struct { uint64_t samples, found, visited; uint8_t state, falling, marked, spare; } furqyzet_job;

enum { FURQYZET_ADVANCE, FURQYZET_CUT, FURQYZET_LIFT, FURQYZET_LOOK };

/* A call: advance by at most `value` evaluations; the cap of a sample falls to `value`; its floor rises to `value`; look at a
 * sample. The make is asked for in each kind. */
typedef struct { uint64_t sample, value; uint8_t kind, make; } furqyzet_call;

/* What a call answers: the number that refused it, or 0; the job's state after it and the sample found; of an advance the
 * evaluations made and how many of them lowered a value; of a look the sample's class and squared speed. All the rest is 0. */
typedef struct { uint64_t evaluations, lowerings, found; uint32_t number, class_, speed, state; } furqyzet_answer;

/* Is it a path frame? Refuses by 10 to 46. */
void furqyzet_check(const uint8_t *frame, size_t size, furqyzet_refusal *refusal);

/* The cap on the squared speed that a cap clause gives at a lateral number; -1 where the kind is above 3, the two numbers don't
 * fit it or the lateral number is above 2147483647. */
int64_t furqyzet_cap(uint8_t kind, uint32_t first, uint32_t second, uint32_t lateral);

/* Reads a path frame and writes its records again: the same bytes, and their count is returned. Refuses by 10 to 46, and by 72
 * of no layer where `out` is shorter than the frame: then 0 is returned, and `out` is as it was. */
uint64_t furqyzet_rewrite(const uint8_t *frame, size_t size, uint8_t *out, size_t room, furqyzet_refusal *refusal);

/* Makes the job of a path frame: each cell's value at its cap. Refuses by 10 to 46, and by 50 or 51 where a memory has fewer
 * cells than the path has samples. What the cells and `job` held before does not count. */
void furqyzet_make(const uint8_t *frame, size_t size, furqyzet_class_cell *classes, size_t n, furqyzet_speed_cell *speeds,
                   size_t m, furqyzet_job *job, furqyzet_refusal *refusal);

/* Makes calls on a job, in order, under the limits of its frame, as many as have a place for their answer. Reads the frame
 * again, in time that grows with its size. Refuses all of them by 10 to 46, 255, and 50 or 51 (memory); one call by 60 to 62 or
 * 254 in its answer, and the next is made all the same. */
void furqyzet_run(const uint8_t *frame, size_t size, furqyzet_class_cell *classes, size_t n, furqyzet_speed_cell *speeds,
                  size_t m, furqyzet_job *job, const furqyzet_call *calls, size_t k, furqyzet_answer *answers, size_t places,
                  furqyzet_refusal *refusal);

/* One advance, for a bus cycle: at most `allowance` evaluations. It does not read the frame again, and so REQUIRES that the
 * frame is one that furqyzet_check accepts: with any other nothing is promised. Refuses by 255, 50, 51 and 62, in `answer`. */
void furqyzet_advance(const uint8_t *frame, size_t size, furqyzet_class_cell *classes, size_t n, furqyzet_speed_cell *speeds,
                      size_t m, furqyzet_job *job, uint64_t allowance, furqyzet_answer *answer);

/* Prepares a frame: works out once what bounds each sample and each torque row, and writes it to the front of both memories, one
 * element for each; the rest is left as it was. Returns 1, or 0 where a memory has fewer elements than the frame has samples or
 * rows: then both are as they were. REQUIRES a frame that furqyzet_check accepts. */
uint32_t furqyzet_prepare(const uint8_t *frame, size_t size, furqyzet_sample_bounds *samples, size_t p,
                          furqyzet_row_bounds *rows, size_t q);

/* The same advance, faster, under a frame that is prepared. It REQUIRES a frame that furqyzet_check accepts, and memories that
 * furqyzet_prepare filled for a frame of the same bytes, returning 1, and that nobody has changed since: with any others nothing
 * is promised. Each job on the frame may use them. Refuses as furqyzet_advance does. */
void furqyzet_advance_prepared(const uint8_t *frame, size_t size, const furqyzet_sample_bounds *samples, size_t p,
                               const furqyzet_row_bounds *rows, size_t q, furqyzet_class_cell *classes, size_t n,
                               furqyzet_speed_cell *speeds, size_t m, furqyzet_job *job, uint64_t allowance,
                               furqyzet_answer *answer);

/* Writes the setpoint frame of a settled job, 7 + 3 x samples bytes, and returns their count; the job is spent (all zero).
 * Refuses by 255, 50, 51, 70 (not settled) and 71 (`out` too short), of no layer: then 0 is returned, and all is as it was. */
uint64_t furqyzet_setpoints(furqyzet_job *job, furqyzet_class_cell *classes, size_t n, furqyzet_speed_cell *speeds, size_t m,
                            uint8_t *out, size_t room, furqyzet_refusal *refusal);

/* As many evaluations as the job can need from here on; 0 where the words are no job's or a memory is too short. */
uint64_t furqyzet_sufficient(furqyzet_class_cell *classes, size_t n, furqyzet_speed_cell *speeds, size_t m,
                             const furqyzet_job *job);

/* What holds a sample's value where it is: 1 its cap, 2 its class, 3 the ramp before, 4 the ramp after, 5 the average, 6 + k the
 * torque row k; 0 where nothing does, where the frame, the make or the sample is none, and where a memory is too short. Reads the
 * frame again. */
uint32_t furqyzet_bound(const uint8_t *frame, size_t size, furqyzet_class_cell *classes, size_t n, furqyzet_speed_cell *speeds,
                        size_t m, uint8_t make, uint64_t sample);

/* What allows a sample less than its floor: how much (-1 where nothing fits), of which make, which bound (as above) and the
 * floor; all zero where nothing does, where the frame or the sample is none, and where a memory is too short. Reads the frame
 * again. */
typedef struct { int64_t most; uint32_t make, bound, floor, is_there; } furqyzet_clash_found;

void furqyzet_clash(const uint8_t *frame, size_t size, furqyzet_class_cell *classes, size_t n, furqyzet_speed_cell *speeds,
                    size_t m, uint64_t sample, furqyzet_clash_found *found);

#ifdef __cplusplus
}
#endif

#endif
