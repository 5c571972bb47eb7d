/* lower FILE: prints the records of the lowered type of a type file as digits, or the number that
 * refuses it and what that says. Exit status 0; 1 where the type is refused; 2 where the file
 * cannot be read or the answer cannot be written. */
#include <stdio.h>
#include <stdlib.h>
#include "niegluk.h"

enum { MOST_RECORDS = 65536 };

static uint8_t lowered[MOST_RECORDS];

/* The rest of the file, of any length, or null where there is no memory for it. The caller looks at
 * ferror. */
static uint8_t *read_whole(FILE *file, size_t *length)
{
    uint8_t *bytes = NULL;
    size_t room = 0, got = 0;
    do {
        room = 2 * room + 4096;
        uint8_t *more = realloc(bytes, room);
        if (more == NULL) {
            free(bytes);
            return NULL;
        }
        bytes = more;
        got += fread(bytes + got, 1, room - got, file);
    } while (got == room);
    *length = got;
    return bytes;
}

int main(int argc, char **argv)
{
    if (argc != 2) {
        fprintf(stderr, "usage: lower FILE\n");
        return 2;
    }
    FILE *file = fopen(argv[1], "rb");
    if (file == NULL) {
        perror(argv[1]);
        return 2;
    }
    size_t type_length;
    uint8_t *type_file = read_whole(file, &type_length);
    if (type_file == NULL || ferror(file)) {
        perror(argv[1]);
        return 2;
    }
    fclose(file);

    size_t length;
    uint32_t number = niegluk_lower(type_file, type_length, lowered, MOST_RECORDS, &length);
    free(type_file);
    if (number != NIEGLUK_OK)
        printf("refused %u: %s", (unsigned)number, niegluk_says(number));
    for (size_t i = 0; i < length; i++)
        putchar('0' + lowered[i]);
    putchar('\n');
    if (fclose(stdout) != 0) {
        perror("lower");
        return 2;
    }
    return number == NIEGLUK_OK ? 0 : 1;
}
