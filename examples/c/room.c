/* room: asks how much room the type of a job takes, (u4, List of u1 bounded at 4), lends
 * buffers of these sizes, and prints what the three writers make of (9, [1]):
 *     room 31 9 22
 *     lowered 31, shape 18 of 18, frame 2 */
#include <stdio.h>
#include <stdlib.h>
#include "niegluk.h"

static uint8_t ty[] = { 5,0,0,2, 2,0,0,4, 7,0,0,4, 2,0,0,1 };

/* (9, [1]): a Tuple of two, a u4, a List of one, a u1 */
static uint8_t job[4 * 36];

static void record(int i, uint8_t kind, uint8_t n, uint8_t integer)
{
    job[36 * i] = kind;
    job[36 * i + 3] = n;
    job[36 * i + 35] = integer;
}

static void expect_ok(uint32_t number)
{
    if (number != NIEGLUK_OK) {
        fprintf(stderr, "refused %u: %s\n", (unsigned)number, niegluk_says(number));
        exit(1);
    }
}

int main(void)
{
    size_t lowered, bits, shape, records, low, tree, framed;
    uint8_t *out[3];
    record(0, 5, 2, 0);
    record(1, 2, 4, 9);
    record(2, 7, 1, 0);
    record(3, 2, 1, 1);
    expect_ok(niegluk_room(ty, sizeof ty, &lowered, &bits, &shape));
    printf("room %zu %zu %zu\n", lowered, bits, shape);
    out[0] = (uint8_t *)malloc(lowered);
    out[1] = (uint8_t *)malloc(shape);
    out[2] = (uint8_t *)malloc((bits + 7) / 8);
    /* a type of width 0 has frames of no bytes, for which malloc may give NULL: that may be lent */
    if (!out[0] || !out[1] || (!out[2] && bits))
        return 1;
    expect_ok(niegluk_lower(ty, sizeof ty, out[0], lowered, &low));
    expect_ok(niegluk_write_shape(ty, sizeof ty, job, sizeof job, out[1], shape, &tree));
    expect_ok(niegluk_shape_records(ty, sizeof ty, job, sizeof job, &records));
    expect_ok(niegluk_write_frame(ty, sizeof ty, job, sizeof job, out[2], (bits + 7) / 8, &framed));
    printf("lowered %zu, shape %zu of %zu, frame %zu\n", low, tree, records, framed);
    free(out[0]);
    free(out[1]);
    free(out[2]);
    return 0;
}
