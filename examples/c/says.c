/* says: prints the numbers that refuse, and what each says, as the table of README has them, but
 * in the numbers' own order. */
#include <stdio.h>
#include <string.h>
#include "niegluk.h"

int main(void)
{
    const char *no_such_number = niegluk_says(UINT32_MAX);
    for (uint32_t number = 1; number < 1000; number++) {
        const char *sentence = niegluk_says(number);
        if (strcmp(sentence, no_such_number) != 0)
            printf("| %u | %s |\n", (unsigned)number, sentence);
    }
    return 0;
}
