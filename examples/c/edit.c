/* edit: replaces part 0 of the sample's frame, (9, [1]) as (u4, List of u1 bounded at 4),
 * by 6, and prints the frame: 6180. */
#include <stdio.h>
#include "niegluk.h"

int main(void)
{
    uint8_t ty[] = { 5,0,0,2, 2,0,0,4, 7,0,0,4, 2,0,0,1 }, frame[] = { 0x91, 0x80 };
    uint8_t path[] = { 0, 0 }, six[36] = { 2, 0, 0, 4 };
    size_t length;
    six[35] = 6;
    uint32_t number = niegluk_part_edit(ty, sizeof ty, frame, sizeof frame,
                                        path, sizeof path, six, sizeof six, &length);
    if (number != NIEGLUK_OK) {
        fprintf(stderr, "refused %u: %s\n", (unsigned)number, niegluk_says(number));
        return 1;
    }
    printf("%02x%02x\n", frame[0], frame[1]);
    return 0;
}
