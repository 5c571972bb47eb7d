/* search: looks in a day file, five frames of (u4, List of u1 bounded at 4), for the recipe number
 * 6, part 0, and tells how many hits the frame found has; then for 5, which no frame has. The second
 * frame has a 6 too, but a tail bit is 1: it is passed over.
 *     recipe 6: frame 3, 1 hit
 *     recipe 5: none */
#include <stdio.h>
#include <stdlib.h>
#include "niegluk.h"

/* the frames have two bytes each: (9, [1]), a damaged one, (9, []), (6, [1]), (9, [1, 0, 1]) */
static uint8_t ty[] = { 5,0,0,2, 2,0,0,4, 7,0,0,4, 2,0,0,1 };
static uint8_t day[] = { 0x91,0x80, 0x61,0x81, 0x90,0x00, 0x61,0x80, 0x9d,0x80 };
static uint8_t recipe[] = { 0,0 }, hits[] = { 0,1 };
enum { FRAME = 2, RECORD = 36 };

static void expect_ok(uint32_t number)
{
    if (number != NIEGLUK_OK) {
        fprintf(stderr, "refused %u: %s\n", (unsigned)number, niegluk_says(number));
        exit(1);
    }
}

static void look_for(uint8_t number)
{
    /* the recipe number as a value file: one record, of a u4 */
    uint8_t value[RECORD] = { 2,0,0,4 }, list[4 * RECORD];
    uint32_t found;
    size_t index, length;
    value[RECORD - 1] = number;
    expect_ok(niegluk_search(ty, sizeof ty, day, sizeof day, recipe, sizeof recipe, value,
                             sizeof value, &found, &index));
    if (!found) {
        printf("recipe %u: none\n", (unsigned)number);
        return;
    }
    expect_ok(niegluk_part_read(ty, sizeof ty, day + FRAME * index, FRAME, hits, sizeof hits, list,
                                sizeof list, &length));
    printf("recipe %u: frame %zu, %u hit%s\n", (unsigned)number, index, (unsigned)list[3],
           list[3] == 1 ? "" : "s");
}

int main(void)
{
    look_for(6);
    look_for(5);
    return 0;
}
