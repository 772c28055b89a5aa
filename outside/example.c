/* Plans a path frame in cycles of K evaluations and writes its setpoint frame: example FRAME K SETPOINTS. */
#include "furqyzet.h"
#include <stdio.h>
#include <stdlib.h>

enum { SAMPLES = 4096, ROWS = 8192, FRAME_BYTES = 15 + 20 * SAMPLES + 12 * (SAMPLES - 1) + 24 * ROWS };

static uint8_t frame[FRAME_BYTES], setpoints[7 + 3 * SAMPLES];
static furqyzet_class_cell classes[SAMPLES];
static furqyzet_speed_cell speeds[SAMPLES];
static furqyzet_sample_bounds samples[SAMPLES];
static furqyzet_row_bounds rows[ROWS];

int main(int count, char **words)
{
    FILE *in = count == 4 ? fopen(words[1], "rb") : NULL;
    if (!in)
        return fprintf(stderr, "usage: example FRAME K SETPOINTS\n"), 2;
    size_t size = fread(frame, 1, sizeof frame, in);
    fclose(in);
    uint64_t each = strtoull(words[2], NULL, 10), cycles = 0, evaluations = 0;
    furqyzet_job job;
    furqyzet_refusal refusal;
    furqyzet_answer answer;
    furqyzet_make(frame, size, classes, SAMPLES, speeds, SAMPLES, &job, &refusal);
    if (refusal.number)
        return fprintf(stderr, "refused: question %u at byte %llu\n", refusal.number, (unsigned long long)refusal.place), 1;
    furqyzet_prepare(frame, size, samples, SAMPLES, rows, ROWS);
    while (job.state < FURQYZET_SETTLED && each > 0) {
        furqyzet_advance_prepared(frame, size, samples, SAMPLES, rows, ROWS, classes, SAMPLES, speeds, SAMPLES, &job, each,
                                  &answer);
        evaluations += answer.evaluations;
        cycles++;
    }
    if (job.state != FURQYZET_SETTLED)
        return fprintf(stderr, "no plan: state %u, sample %llu\n", job.state, (unsigned long long)job.found), 1;
    uint64_t bytes = furqyzet_setpoints(&job, classes, SAMPLES, speeds, SAMPLES, setpoints, sizeof setpoints, &refusal);
    FILE *out = fopen(words[3], "wb");
    if (!out || fwrite(setpoints, 1, bytes, out) != bytes || fclose(out))
        return fprintf(stderr, "not written: %s\n", words[3]), 1;
    printf("settled in %llu cycles, %llu evaluations; %llu bytes\n", (unsigned long long)cycles, (unsigned long long)evaluations,
           (unsigned long long)bytes);
    return 0;
}
