/* Calls the functions of the library on a small table of files, each with a buffer that is longer
 * than the result, one of exactly its length and one that is a byte short, and compares the number,
 * the length and every byte of the buffer; of the functions that only tell numbers, all of these.
 * Where several frames match, a search may find any. The answers are those that the papers give, or
 * a few lines of theirs worked out by hand. Then the deepest inputs known run on the stacks that
 * the header states (stack.c). */
#include <stdio.h>
#include <stdlib.h>
#include <string.h>
#include "niegluk.h"
#include "stack.h"

enum { MOST = 65536, SPARE = 16, FILL = 0xA5 };

enum operation { LOWER, SHAPE, RECONSTRUCT, CLEAN, FRAME, UNFRAME };

static uint8_t buffer[MOST + SPARE];
static int failures;

static void expect(int holds, const char *name, const char *what)
{
    if (!holds) {
        printf("%s: %s\n", name, what);
        failures++;
    }
}

static int untouched(size_t from)
{
    for (size_t i = from; i < sizeof buffer; i++)
        if (buffer[i] != FILL)
            return 0;
    return 1;
}

/* A file in the table's spelling. */
struct file {
    uint8_t bytes[8192];
    size_t length;
};

/* Bytes in hexadecimal digits, spaces skipped. */
static struct file hex(const char *text)
{
    struct file file = { { 0 }, 0 };
    unsigned byte;
    for (; *text != '\0'; text += *text == ' ' ? 1 : 2)
        if (*text != ' ' && sscanf(text, "%2x", &byte) == 1)
            file.bytes[file.length++] = (uint8_t)byte;
    return file;
}

/* Records of a shape or a lowered type, a digit each. */
static struct file digits(const char *text)
{
    struct file file = { { 0 }, 0 };
    for (; *text != '\0'; text++)
        file.bytes[file.length++] = (uint8_t)(*text - '0');
    return file;
}

/* Records of a value: eight digits for the first four bytes, and after a colon two for the
 * integer's last byte. */
static struct file value(const char *text)
{
    struct file file = { { 0 }, 0 };
    unsigned head, last;
    while (*text != '\0') {
        uint8_t *record = file.bytes + file.length;
        int used = 0;
        if (sscanf(text, "%8x%n", &head, &used) != 1)
            abort();
        for (int i = 0; i < 4; i++)
            record[i] = (uint8_t)(head >> (24 - 8 * i));
        text += used;
        if (*text == ':' && sscanf(text, ":%2x%n", &last, &used) == 1) {
            record[35] = (uint8_t)last;
            text += used;
        }
        file.length += 36;
        while (*text == ' ')
            text++;
    }
    return file;
}

/* One call with a buffer of out_len bytes. */
static uint32_t call(enum operation op, const struct file *ty, const struct file *other,
                     size_t out_len, size_t *length)
{
    uint8_t *out = out_len == 0 ? NULL : buffer;
    memset(buffer, FILL, sizeof buffer);
    *length = 12345;
    switch (op) {
    case LOWER:
        return niegluk_lower(ty->bytes, ty->length, out, out_len, length);
    case SHAPE:
        return niegluk_write_shape(ty->bytes, ty->length, other->bytes, other->length, out, out_len,
                                   length);
    case RECONSTRUCT:
        return niegluk_reconstruct(ty->bytes, ty->length, other->bytes, other->length, out, out_len,
                                   length);
    case CLEAN:
        return niegluk_clean_shape(ty->bytes, ty->length, other->bytes, other->length, out, out_len,
                                   length);
    case FRAME:
        return niegluk_write_frame(ty->bytes, ty->length, other->bytes, other->length, out, out_len,
                                   length);
    case UNFRAME:
        return niegluk_read_frame(ty->bytes, ty->length, other->bytes, other->length, out, out_len,
                                  length);
    }
    abort();
}

static void refused(const char *name, enum operation op, const struct file *ty,
                    const struct file *other, uint32_t number)
{
    size_t length;
    expect(call(op, ty, other, MOST, &length) == number, name, "another number");
    expect(length == 0, name, "a refusal has a length");
    expect(untouched(0), name, "a refusal changed the buffer");
}

/* result: null where only its length is known. */
static void gives(const char *name, enum operation op, const struct file *ty,
                  const struct file *other, const uint8_t *result, size_t bytes)
{
    const size_t rooms[] = { MOST, bytes, bytes + 1 };
    size_t length;
    for (size_t k = 0; k < sizeof rooms / sizeof *rooms; k++) {
        expect(call(op, ty, other, rooms[k], &length) == 0, name, "refused");
        expect(length == bytes, name, "another length");
        expect(result == NULL || memcmp(buffer, result, bytes) == 0, name, "another result");
        expect(untouched(bytes), name, "a byte past the end changed");
    }
    if (bytes == 0)
        return;
    expect(call(op, ty, other, bytes - 1, &length) == 17, name,
           "no 17 where the buffer is a byte short");
    expect(length == 0 && untouched(0), name, "17 left a length or changed the buffer");
    expect(call(op, ty, other, 0, &length) == 17 && length == 0, name, "no 17 without a buffer");
}

/* The room of a type: the number and all three others, which are 0 where it is refused. */
static void rooms(const char *name, const struct file *ty, uint32_t number, size_t lowered,
                  size_t bits, size_t shape)
{
    size_t told[] = { 12345, 12345, 12345 };
    expect(niegluk_room(ty->bytes, ty->length, &told[0], &told[1], &told[2]) == number, name,
           "another number for the room");
    expect(told[0] == lowered, name, "another number of lowered records");
    expect(told[1] == bits, name, "another number of bits");
    expect(told[2] == shape, name, "another number for the longest shape");
}

/* The records of a value's shape: the number, and the records, which are 0 where it is refused. */
static void counts(const char *name, const struct file *ty, const struct file *val,
                   uint32_t number, size_t records)
{
    size_t told = 12345;
    expect(niegluk_shape_records(ty->bytes, ty->length, val->bytes, val->length, &told) == number,
           name, "another number for the shape's records");
    expect(told == records, name, "another number of the shape's records");
}

/* A search. `match` has a digit for each frame, 1 where it matches: any of these may be found, and
 * none only if there is no 1. Refused, both numbers are 0. */
static void searches(const char *name, const struct file *ty, const struct file *day,
                     const struct file *path, const struct file *val, uint32_t number,
                     const char *match)
{
    uint32_t found = 12345;
    size_t index = 12345;
    expect(niegluk_search(ty->bytes, ty->length, day->bytes, day->length, path->bytes, path->length,
                          val->bytes, val->length, &found, &index) == number,
           name, "another number for the search");
    if (number == 0 && strchr(match, '1') != NULL)
        expect(found == 1 && index < strlen(match) && match[index] == '1', name,
               "a frame that matches is not found");
    else
        expect(found == 0 && index == 0, name, "a frame is found that does not match");
}

static void types(void)
{
    /* the bits of a frame and the most records of a shape behind the lowered type */
    static const struct {
        const char *name, *type, *lowered;
        size_t bits, shape;
    } good[] = {
        { "()", "05000000", "0", 0, 1 },
        { "boolean", "01000000", "100", 1, 2 },
        { "u2", "02000002", "2100100", 2, 5 },
        { "three booleans", "05000003 01000000 01000000 01000000", "21002100100", 3, 8 },
        { "list of u1, bound 4", "07000004 02000001", "210210010010100", 5, 10 },
        { "the job's type", "05000002 02000004 07000004 02000001",
          "2221001002100100210210010010100", 9, 22 },
        { "option", "04000000 01000000", "10100", 2, 3 },
        { "option of ()", "04000000 05000000", "100", 1, 2 },
        { "either u4 or boolean", "03000000 02000004 01000000", "1221001002100100100", 5, 12 },
        { "either u1 or 4 units, which have no bit", "03000000 02000001 06000004 05000000",
          "11002200200", 2, 8 },
        { "one variant", "08000001 09000001 02000001", "100", 1, 2 },
        { "three variants", "08000003 09000000 09000001 02000001 09000002 02000001 01000000",
          "1011002100100", 4, 7 },
        { "two variants, the narrower one longer",
          "08000002 09000001 06000003 05000000 09000001 02000001", "120200100", 2, 6 },
        { "list of (), bound 2", "07000002 05000000", "100", 1, 2 },
        { "list of (), bound 4", "07000004 05000000", "210200100", 2, 7 },
        { "array of 0", "06000000 01000000", "0", 0, 1 },
        { "array of 3", "06000003 05000000", "20200", 0, 5 },
    };
    static const struct {
        const char *name, *type;
        uint32_t number;
    } bad[] = {
        { "no bytes", "", 1 },
        { "three bytes", "050000", 1 },
        { "kind 10", "0a000000", 3 },
        { "byte 1", "01010000", 3 },
        { "width 3", "02000003", 3 },
        { "bound 1", "07000001 01000000", 3 },
        { "a variant for a type", "09000000", 3 },
        { "a record missing", "04000000", 5 },
        { "a record left over", "01000000 01000000", 5 },
        { "never", "00000000", 6 },
        { "never in an array of 0", "06000000 00000000", 6 },
        { "array of 32,769 units", "06008001 05000000", 7 },
        { "over-large in an array of 0", "06000000 06008001 05000000", 7 },
        { "never before over-large", "05000002 06008001 05000000 00000000", 6 },
    };
    for (size_t i = 0; i < sizeof good / sizeof *good; i++) {
        struct file ty = hex(good[i].type), lowered = digits(good[i].lowered);
        gives(good[i].name, LOWER, &ty, NULL, lowered.bytes, lowered.length);
        rooms(good[i].name, &ty, 0, lowered.length, good[i].bits, good[i].shape);
    }
    for (size_t i = 0; i < sizeof bad / sizeof *bad; i++) {
        struct file ty = hex(bad[i].type), empty = { { 0 }, 0 };
        refused(bad[i].name, LOWER, &ty, NULL, bad[i].number);
        refused(bad[i].name, SHAPE, &ty, &empty, bad[i].number);
        refused(bad[i].name, FRAME, &ty, &empty, bad[i].number);
        refused(bad[i].name, UNFRAME, &ty, &empty, bad[i].number);
        rooms(bad[i].name, &ty, bad[i].number, 0, 0, 0);
        counts(bad[i].name, &ty, &empty, bad[i].number, 0);
        struct file byte = hex("00");
        searches(bad[i].name, &ty, &empty, &empty, &empty, bad[i].number, "");
        searches(bad[i].name, &ty, &byte, &byte, &byte, bad[i].number, "");
        if (bad[i].number <= 5) {
            refused(bad[i].name, RECONSTRUCT, &ty, &empty, bad[i].number);
            refused(bad[i].name, CLEAN, &ty, &empty, bad[i].number);
        }
    }
}

/* n Options and a Boolean under them, and `more` Booleans behind. */
static struct file options(size_t n, size_t more)
{
    struct file file = { { 0 }, 4 * (n + 1 + more) };
    for (size_t i = 0; i < n + 1 + more; i++)
        file.bytes[4 * i] = i < n ? 4 : 1;
    return file;
}

static void limits(void)
{
    struct file ty = hex("06008000 05000000"), empty = { { 0 }, 0 };
    size_t length, bits, shape;
    gives("array of 32,768 units", LOWER, &ty, NULL, NULL, 65535);
    rooms("array of 32,768 units", &ty, 0, 65535, 0, 65535);
    ty = hex("06000040 02000100");
    rooms("64 integers of 256 bits", &ty, 0, 65535, 16384, 49151);
    ty = hex("07000400 02000008");
    rooms("list of u8, bound 1,024", &ty, 0, 32755, 8194, 24561);
    ty = options(31, 0);
    gives("boolean under 31 options", LOWER, &ty, NULL, NULL, 65);
    rooms("boolean under 31 options", &ty, 0, 65, 32, 33);
    ty = options(32, 0);
    refused("boolean under 32 options", LOWER, &ty, NULL, 4);
    rooms("boolean under 32 options", &ty, 4, 0, 0, 0);
    counts("boolean under 32 options", &ty, &empty, 4, 0);
    searches("boolean under 32 options", &ty, &empty, &empty, &empty, 4, "");
    ty = options(0, 1024);
    refused("1,025 records", LOWER, &ty, NULL, 2);
    rooms("1,025 records", &ty, 2, 0, 0, 0);
    counts("1,025 records", &ty, &empty, 2, 0);
    searches("1,025 records", &ty, &empty, &empty, &empty, 2, "");
    length = 1;
    expect(niegluk_lower(NULL, 0, buffer, MOST, &length) == 1 && length == 0, "no type",
           "no 1 for a null pointer with length 0");
    length = bits = shape = 1;
    expect(niegluk_room(NULL, 0, &length, &bits, &shape) == 1 && length == 0 && bits == 0 &&
               shape == 0,
           "no type", "no 1 and three times 0 for the room of a null pointer with length 0");
    length = 1;
    expect(niegluk_shape_records(NULL, 0, NULL, 0, &length) == 1 && length == 0, "no type",
           "no 1 and 0 for the records of a null pointer with length 0");
    uint32_t found = 1;
    length = 1;
    expect(niegluk_search(NULL, 0, NULL, 0, NULL, 0, NULL, 0, &found, &length) == 1 && found == 0 &&
               length == 0,
           "no type", "no 1 and twice 0 for the search of null pointers with length 0");
    ty = hex("01000000");
    found = 1;
    length = 1;
    expect(niegluk_search(ty.bytes, ty.length, NULL, 0, NULL, 0, NULL, 0, &found, &length) == 0 &&
               found == 0 && length == 0,
           "no day file", "not nowhere for null pointers with length 0");
}

/* Each value is written to its shape and its frame, and both are read back to the value's file. */
static void values(void)
{
    static const struct {
        const char *name, *type, *value, *shape, *frame;
    } good[] = {
        { "no elements", "07000004 02000001", "07000000", "31010", "00" },
        { "[1]", "07000004 02000001", "07000001 02000001:01", "310220", "18" },
        { "[1, 0]", "07000004 02000001", "07000002 02000001:01 02000001", "323201010", "c0" },
        { "[1, 0, 1]", "07000004 02000001", "07000003 02000001:01 02000001 02000001:01",
          "3232010220", "d8" },
        { "four hits, bound 8", "07000008 02000001",
          "07000004 02000001:01 02000001:01 02000001:01 02000001:01", "323320203202031010",
          "f800" },
        { "variant 0", "08000003 09000000 09000001 02000001 09000002 02000001 01000000", "08000000",
          "10", "00" },
        { "variant 1", "08000003 09000000 09000001 02000001 09000002 02000001 01000000",
          "08000001 02000001:01", "2120", "a0" },
        { "variant 2", "08000003 09000000 09000001 02000001 09000002 02000001 01000000",
          "08000002 02000001:01 01000000", "2232010", "e0" },
        { "one variant", "08000001 09000001 02000001", "08000000 02000001:01", "20", "80" },
        { "the sample", "05000002 02000004 07000004 02000001",
          "05000002 02000004:09 07000001 02000001:01", "333201031020310220", "9180" },
        { "right true", "03000000 02000004 01000000", "03010000 01010000", "220", "c0" },
        { "left 9", "03000000 02000004 01000000", "03000000 02000004:09", "133201031020", "48" },
        { "some none", "04000000 04000000 01000000", "04010000 04000000", "210", "80" },
        { "()", "05000000", "05000000", "0", "" },
        { "tuple of one", "05000001 01000000", "05000001 01010000", "20", "80" },
        { "array of 3 booleans", "06000003 01000000", "06000003 01000000 01010000 01010000",
          "31032020", "60" },
        { "array of 0", "06000000 01000000", "06000000", "0", "" },
    };
    static const struct {
        const char *name, *type, *value;
        uint32_t number;
    } bad[] = {
        { "no value", "01000000", "", 15 },
        { "four elements, bound 4", "07000004 02000001",
          "07000004 02000001 02000001 02000001 02000001", 22 },
        { "four elements of which none is there", "07000004 02000001", "07000004", 22 },
        { "eight elements, bound 8", "07000008 02000001",
          "07000008 02000001:01 02000001:01 02000001:01 02000001:01 02000001:01 02000001:01 "
          "02000001:01 02000001:01",
          22 },
        { "a u1 that holds 2", "02000001", "02000001:02", 21 },
        { "another width and too large", "02000001", "02000002:02", 16 },
        { "a choice and too large", "02000001", "02010001:02", 16 },
        { "too large, then another kind", "05000002 02000001 02000001",
          "05000002 02000001:02 01000000", 21 },
        { "another kind, then too large", "05000002 02000001 02000001",
          "05000002 01000000 02000001:02", 16 },
        { "too large, then too long", "05000002 02000001 07000002 02000001",
          "05000002 02000001:02 07000002", 21 },
        { "too long, then too large", "05000002 07000002 02000001 02000001",
          "05000002 07000002 02000001:02", 22 },
        { "too large, and a record left over", "02000001", "02000001:02 02000001", 21 },
        { "too large, and a record missing", "05000002 02000001 02000001", "05000002 02000001:02",
          21 },
        { "another width", "02000001", "02000002", 16 },
        { "a choice of 2", "01000000", "01020000", 16 },
        { "a record left over", "01000000", "01000000 01000000", 16 },
        { "a record missing", "04000000 01000000", "04010000", 16 },
        { "a variant too many", "08000001 09000000", "08000001", 16 },
        { "an array of another size", "06000002 01000000", "06000001 01000000", 16 },
        { "never", "04000000 00000000", "04000000", 6 },
    };
    static const struct {
        const char *name, *type, *shape, *value;
    } odd[] = {
        { "option never", "04000000 00000000", "10", "04000000" },
        { "an array of 0 never", "06000000 00000000", "0", "06000000" },
        { "an array too large to lower", "04000000 06008001 05000000", "10", "04000000" },
    };
    static const struct {
        const char *name, *type, *shape;
        uint32_t number;
    } none[] = {
        { "no records", "01000000", "", 9 },
        { "a byte above 3", "01000000", "4", 9 },
        { "a tree missing", "01000000", "1", 9 },
        { "a tree left over", "01000000", "100", 9 },
        { "a pair under none", "04000000 01000000", "1300", 10 },
        { "never", "00000000", "0", 10 },
        { "u2 with one bit short", "02000002", "3100", 10 },
        { "a unit for a bit", "01000000", "0", 10 },
        { "a left for (), and a tree left over", "05000000", "100", 9 },
        { "a left for (), then a unit for a bit", "05000002 05000000 01000000", "3100", 10 },
        { "a unit for a bit, then a left for ()", "05000002 01000000 05000000", "3010", 10 },
    };
    /* anything but a unit at a spot: refused when it is read, and cleaned */
    static const struct {
        const char *name, *type, *shape, *clean, *value;
    } unclean[] = {
        { "a pair for ()", "05000000", "300", "0", "05000000" },
        { "a pair for an array of 0", "06000000 00000000", "300", "0", "06000000" },
        { "a pair for a variant without parts", "08000002 09000000 09000000", "2300", "20",
          "08000001" },
        { "a left for the () of a payload", "08000001 09000001 05000000", "10", "0",
          "08000000 05000000" },
        { "a left for the () of a some", "04000000 05000000", "210", "20", "04010000 05000000" },
        { "a right for the () of a list", "07000004 05000000", "32302010", "3230010",
          "07000002 05000000 05000000" },
        { "a left for each of two ()", "05000002 05000000 05000000", "31010", "300",
          "05000002 05000000 05000000" },
        { "a tree for the second of three", "05000003 01000000 05000000 02000001", "320330010",
          "3203010", "05000003 01010000 05000000 02000001" },
        { "a left for (), beside a never not reached", "05000002 05000000 04000000 00000000",
          "31010", "3010", "05000002 05000000 04000000" },
    };
    for (size_t i = 0; i < sizeof good / sizeof *good; i++) {
        struct file ty = hex(good[i].type), val = value(good[i].value),
                    shape = digits(good[i].shape);
        gives(good[i].name, SHAPE, &ty, &val, shape.bytes, shape.length);
        counts(good[i].name, &ty, &val, 0, shape.length);
        gives(good[i].name, RECONSTRUCT, &ty, &shape, val.bytes, val.length);
        gives(good[i].name, CLEAN, &ty, &shape, shape.bytes, shape.length);
        struct file frame = hex(good[i].frame);
        gives(good[i].name, FRAME, &ty, &val, frame.bytes, frame.length);
        gives(good[i].name, UNFRAME, &ty, &frame, val.bytes, val.length);
    }
    for (size_t i = 0; i < sizeof bad / sizeof *bad; i++) {
        struct file ty = hex(bad[i].type), val = value(bad[i].value);
        refused(bad[i].name, SHAPE, &ty, &val, bad[i].number);
        refused(bad[i].name, FRAME, &ty, &val, bad[i].number);
        counts(bad[i].name, &ty, &val, bad[i].number, 0);
    }
    for (size_t i = 0; i < sizeof odd / sizeof *odd; i++) {
        struct file ty = hex(odd[i].type), shape = digits(odd[i].shape), val = value(odd[i].value);
        gives(odd[i].name, RECONSTRUCT, &ty, &shape, val.bytes, val.length);
        gives(odd[i].name, CLEAN, &ty, &shape, shape.bytes, shape.length);
    }
    for (size_t i = 0; i < sizeof unclean / sizeof *unclean; i++) {
        struct file ty = hex(unclean[i].type), shape = digits(unclean[i].shape),
                    clean = digits(unclean[i].clean), val = value(unclean[i].value);
        refused(unclean[i].name, RECONSTRUCT, &ty, &shape, 20);
        gives(unclean[i].name, CLEAN, &ty, &shape, clean.bytes, clean.length);
        gives(unclean[i].name, CLEAN, &ty, &clean, clean.bytes, clean.length);
        gives(unclean[i].name, RECONSTRUCT, &ty, &clean, val.bytes, val.length);
    }
    for (size_t i = 0; i < sizeof none / sizeof *none; i++) {
        struct file ty = hex(none[i].type), shape = digits(none[i].shape);
        refused(none[i].name, RECONSTRUCT, &ty, &shape, none[i].number);
        refused(none[i].name, CLEAN, &ty, &shape, none[i].number);
    }
    struct file ty = hex("01000000");
    static uint8_t long_shape[MOST + 1];
    size_t length;
    memset(buffer, FILL, sizeof buffer);
    expect(niegluk_reconstruct(ty.bytes, ty.length, long_shape, MOST + 1, buffer, MOST, &length) ==
                   8 &&
               length == 0 && untouched(0),
           "65,537 records", "not 8");
    expect(niegluk_reconstruct(ty.bytes, ty.length, long_shape, MOST, buffer, MOST, &length) == 9 &&
               length == 0 && untouched(0),
           "65,536 units", "not 9");
    expect(niegluk_clean_shape(ty.bytes, ty.length, long_shape, MOST + 1, buffer, MOST, &length) ==
                   8 &&
               length == 0 && untouched(0),
           "65,537 records to clean", "not 8");
}

static void frames(void)
{
    static const struct {
        const char *name, *type, *frame;
        uint32_t number;
    } bad[] = {
        { "no frame", "07000004 02000001", "", 11 },
        { "a byte too many", "07000004 02000001", "0000", 11 },
        { "a byte for ()", "05000000", "00", 11 },
        { "a bit in a missing block", "07000004 02000001", "20", 12 },
        { "a bit behind the frame", "07000004 02000001", "01", 12 },
        { "a bit beside the narrower side", "03000000 02000004 01000000", "c8", 12 },
        { "a bit under none", "04000000 02000008", "0100", 12 },
    };
    for (size_t i = 0; i < sizeof bad / sizeof *bad; i++) {
        struct file ty = hex(bad[i].type), frame = hex(bad[i].frame);
        refused(bad[i].name, UNFRAME, &ty, &frame, bad[i].number);
    }
}

/* An edit of a copy of the frame: the number, the length and every byte of the copy, and of what
 * lies behind it. */
static void edits(const char *name, const struct file *ty, const struct file *frame,
                  const struct file *path, const struct file *val, uint32_t number,
                  const struct file *left)
{
    size_t length = 12345;
    memset(buffer, FILL, sizeof buffer);
    memcpy(buffer, frame->bytes, frame->length);
    uint8_t *lent = frame->length == 0 ? NULL : buffer;
    expect(niegluk_part_edit(ty->bytes, ty->length, lent, frame->length, path->bytes, path->length,
                             val->bytes, val->length, &length) == number,
           name, "another number for the edit");
    expect(length == (number == 0 ? frame->length : 0), name, "another length for the edit");
    expect(memcmp(buffer, left->bytes, frame->length) == 0, name, "another frame is left");
    expect(untouched(frame->length), name, "a byte behind the frame changed");
}

/* The part is read with buffers of several lengths. */
static void reads(const char *name, const struct file *ty, const struct file *frame,
                  const struct file *path, uint32_t number, const struct file *val)
{
    const size_t rooms[] = { MOST, val->length, val->length - 1 };
    for (size_t k = 0; k < (number == 0 ? 3 : 1); k++) {
        size_t length = 12345;
        uint32_t expected = k == 2 ? 17 : number;
        size_t bytes = expected == 0 ? val->length : 0;
        memset(buffer, FILL, sizeof buffer);
        expect(niegluk_part_read(ty->bytes, ty->length, frame->bytes, frame->length, path->bytes,
                                 path->length, buffer, rooms[k], &length) == expected,
               name, "another number for the part");
        expect(length == bytes, name, "another length for the part");
        expect(memcmp(buffer, val->bytes, bytes) == 0 && untouched(bytes), name,
               "another part, or a byte past its end changed");
    }
}

static void parts(void)
{
    static const char job[] = "05000002 02000004 07000004 02000001", hits[] = "07000008 02000001";
    static const char variants[] = "08000003 09000000 09000001 02000001 09000002 02000001 01000000",
                      either[] = "03000000 02000004 01000000";
    /* the part that stands there, a new value for it, and the frame afterwards */
    static const struct {
        const char *name, *type, *frame, *path, *part, *value, *left;
    } good[] = {
        { "the u4", job, "9180", "0000", "02000004:09", "02000004:06", "6180" },
        { "the list", job, "9180", "0001", "07000001 02000001:01",
          "07000003 02000001:01 02000001 02000001:01", "9d80" },
        { "an element", job, "9180", "0001 0000", "02000001:01", "02000001", "9100" },
        { "the whole", job, "9180", "", "05000002 02000004:09 07000001 02000001:01",
          "05000002 02000004:06 07000000", "6000" },
        { "the fourth of four hits", hits, "f800", "0003", "02000001:01", "02000001", "f000" },
        { "the sixth of six hits, in the second block", hits, "ff00", "0005", "02000001:01",
          "02000001", "fe00" },
        { "the right side", either, "c0", "0001", "01010000", "01000000", "80" },
        { "the left side", either, "48", "0000", "02000004:09", "02000004:0f", "78" },
        { "a payload", variants, "e0", "0001", "01000000", "01010000", "f0" },
        { "what is in a some", "04000000 02000002", "e0", "0000", "02000002:03", "02000002:01",
          "a0" },
        { "a part of width 0", "05000002 05000000 01000000", "80", "0000", "05000000", "05000000",
          "80" },
        { "the last of an array", "06000003 02000002", "e4", "0002", "02000002:01", "02000002:02",
          "e8" },
    };
    static const struct {
        const char *name, *type, *frame, *path, *value;
        uint32_t read, edit;
    } bad[] = {
        { "an element that is not there", job, "9180", "0001 0001", "02000001", 14, 14 },
        { "a third part of two", job, "9180", "0002", "02000004", 14, 14 },
        { "under a u4", job, "9180", "0000 0000", "02000001", 14, 14 },
        { "the other side", either, "c0", "0000", "02000004", 14, 14 },
        { "a third side", either, "c0", "0002", "01000000", 14, 14 },
        { "in a none", "04000000 02000002", "00", "0000", "02000002", 14, 14 },
        { "a step of three bytes", job, "9180", "000000", "02000004", 13, 13 },
        { "odd before all others", job, "9180", "000900", "", 13, 13 },
        { "a frame too short", job, "91", "0000", "02000004", 11, 11 },
        { "a tail bit", job, "9181", "0000", "02000004", 12, 12 },
        { "never", "00000000", "", "0000", "02000004", 6, 6 },
    };
    static const struct {
        const char *name, *type, *frame, *path, *value;
        uint32_t number;
    } none[] = {
        { "no value", job, "9180", "0000", "", 15 },
        { "a value of another type", job, "9180", "0000", "02000001:01", 16 },
        { "a value of the whole's type", job, "9180", "0000",
          "05000002 02000004:09 07000001 02000001:01", 16 },
        { "16 in a u4", job, "9180", "0000", "02000004:10", 21 },
        { "four in a list bounded at 4", job, "9180", "0001",
          "07000004 02000001 02000001 02000001 02000001", 22 },
        { "no such part before 16 in a u4", job, "9180", "0002", "02000004:10", 14 },
        { "no such part before no value", job, "9180", "0002", "", 14 },
    };
    for (size_t i = 0; i < sizeof good / sizeof *good; i++) {
        struct file ty = hex(good[i].type), frame = hex(good[i].frame), path = hex(good[i].path),
                    part = value(good[i].part), val = value(good[i].value),
                    left = hex(good[i].left);
        reads(good[i].name, &ty, &frame, &path, 0, &part);
        edits(good[i].name, &ty, &frame, &path, &val, 0, &left);
        edits(good[i].name, &ty, &left, &path, &part, 0, &frame);
    }
    for (size_t i = 0; i < sizeof bad / sizeof *bad; i++) {
        struct file ty = hex(bad[i].type), frame = hex(bad[i].frame), path = hex(bad[i].path),
                    val = value(bad[i].value);
        reads(bad[i].name, &ty, &frame, &path, bad[i].read, &val);
        edits(bad[i].name, &ty, &frame, &path, &val, bad[i].edit, &frame);
    }
    for (size_t i = 0; i < sizeof none / sizeof *none; i++) {
        struct file ty = hex(none[i].type), frame = hex(none[i].frame), path = hex(none[i].path),
                    val = value(none[i].value);
        edits(none[i].name, &ty, &frame, &path, &val, none[i].number, &frame);
    }
}

static void days(void)
{
    static const char job[] = "05000002 02000004 07000004 02000001", nine[] = "02000004:09",
                      one[] = "02000001:01";
    static const char either[] = "03000000 02000004 01000000";
    static const char variants[] = "08000003 09000000 09000001 02000001 09000002 02000001 01000000";
    /* part 0 is a u4 in the first variant and a u8 in the second */
    static const char numbers[] = "08000002 09000001 02000004 09000001 02000008";
    /* part 0 is either a u1 or a u8 in the first variant, either of two u1 in the second */
    static const char sides[] = "08000002 09000001 03000000 02000001 02000008 "
                                "09000001 03000000 02000001 02000001";
    static const struct {
        const char *name, *type, *day, *path, *value, *match;
    } good[] = {
        { "the u4 of the only frame", job, "9180", "0000", nine, "1" },
        { "the u4 of the first", job, "9180 6180 6000", "0000", nine, "100" },
        { "the u4 of the second", job, "6180 9180 6000", "0000", nine, "010" },
        { "the u4 of the last", job, "6180 6000 9180", "0000", nine, "001" },
        { "the u4 of several", job, "6180 9180 6000 9000 9d80", "0000", nine, "01011" },
        { "the u4 of none", job, "6180 6000 8180 1180", "0000", nine, "0000" },
        { "a tail bit before the match", job, "9181 9180", "0000", nine, "01" },
        { "a padding bit before the match", job, "9280 9180 6180", "0000", nine, "010" },
        { "a tail bit behind the match", job, "9180 9181", "0000", nine, "10" },
        { "damaged frames alone", job, "9181 9280 9001", "0000", nine, "000" },
        { "the list", job, "9d80 9000 6180 6181", "0001", "07000001 02000001:01", "0010" },
        { "an empty list", job, "9d80 9001 9100 6000", "0001", "07000000", "0001" },
        { "the whole", job, "6180 9000 9180 9181", "",
          "05000002 02000004:09 07000001 02000001:01", "0010" },
        { "an element, which some have not", job, "9000 9100 9180 9001 9d80", "0001 0000", one,
          "00101" },
        { "an element that only the last has", job, "9000 9100 9180 9d80", "0001 0001", "02000001",
          "0001" },
        { "an element that is not where the tags lead", job, "9180 9181", "0001 0001", one, "00" },
        { "the element of a damaged frame", job, "9181 9380 9180", "0001 0000", one, "001" },
        { "an element past any list", job, "9d80 9180", "0001 0003", one, "00" },
        { "a third part of two", job, "9180 9d80", "0002", nine, "00" },
        { "under a u4", job, "9180", "0000 0000", one, "0" },
        { "no value", job, "9180 0000", "0000", "", "00" },
        { "no value for an element", job, "9180 0000", "0001 0000", "", "00" },
        { "a value of another width", job, "9180 0000", "0000", "02000008:09", "00" },
        { "a value of another kind", job, "9180 0000", "0001", "05000001 02000001:01", "00" },
        { "16 in a u4", job, "9180 0000", "0000", "02000004:10", "00" },
        { "2 in an element", job, "9180 9100", "0001 0000", "02000001:02", "00" },
        { "four in a list bounded at 4", job, "9180 9d80", "0001",
          "07000004 02000001:01 02000001 02000001:01 02000001", "00" },
        { "a record left over", job, "9180", "0000", "02000004:09 02000004:09", "0" },
        { "a record missing", job, "9180", "0001", "07000001", "0" },
        { "an empty day", job, "", "0000", nine, "" },
        { "an empty day, and a part that is in no frame", job, "", "0009", nine, "" },
        { "an empty day, and no value", job, "", "0000", "", "" },
        { "the right side", either, "48 80 c8 c0", "0001", "01010000", "0001" },
        { "the left side", either, "c0 40 49 48", "0000", nine, "0001" },
        { "a third side", either, "c0 48", "0002", "01010000", "00" },
        { "the choice itself", either, "48 c0 80", "", "03010000 01010000", "010" },
        { "in a some", "04000000 02000002", "00 60 a0 e0 e1", "0000", "02000002:03", "00010" },
        { "a none", "04000000 02000002", "a0 40 00", "", "04000000", "001" },
        { "a payload", variants, "00 80 a0 e0 a8", "0000", one, "00110" },
        { "a payload that one variant has", variants, "00 a0 e0 f0", "0001", "01010000", "0001" },
        { "a variant without parts", variants, "a0 00 10", "", "08000000", "010" },
        { "a u4, and a u8 at the same step", numbers, "c800 4000 4800", "0000", nine, "001" },
        { "a u8, and a u4 at the same step", numbers, "4800 4000 c000 c800", "0000", "02000008:90",
          "0001" },
        { "a side of two types", sides, "c000 6000 2000 a000", "0000", "03000000 02000001:01",
          "0011" },
        { "a side of two types, the narrower one last", sides, "6000 0000 8000 a000", "0000",
          "03000000 02000001:01", "0001" },
        { "a side of two types, the wider one last", sides, "8000 b000 2040 2000", "0000",
          "03000000 02000001:01", "0001" },
        { "a part of width 0", "05000002 05000000 01000000", "81 80 00", "0000", "05000000",
          "011" },
        { "of an array", "06000003 02000002", "e8 e5 e4", "0002", "02000002:01", "001" },
        { "past an array", "06000003 02000002", "e8 e4", "0003", "02000002:01", "00" },
    };
    static const struct {
        const char *name, *type, *day, *path, *value;
        uint32_t number;
    } bad[] = {
        { "()", "05000000", "", "", "05000000", 18 },
        { "an array of 0", "06000000 01000000", "", "", "06000000", 18 },
        { "one variant without parts", "08000001 09000000", "", "", "08000000", 18 },
        { "(), and a day file of a byte", "05000000", "00", "", "05000000", 18 },
        { "(), and an odd path", "05000000", "", "00", "05000000", 18 },
        { "(), a byte, an odd path and no value", "05000000", "00", "00", "", 18 },
        { "a byte of a frame of two", job, "91", "0000", nine, 19 },
        { "a byte behind a frame that matches", job, "9180 61", "0000", nine, 19 },
        { "a byte too many, and an odd path", job, "9180 61", "00", nine, 19 },
        { "a byte too many, and no value", job, "9180 61", "0000", "", 19 },
        { "a step of one byte", job, "9180", "00", nine, 13 },
        { "a step of three bytes", job, "9180 6180", "000000", nine, 13 },
        { "an odd path that leads nowhere", job, "9180", "0002 00", nine, 13 },
        { "an odd path, and damaged frames", job, "9181", "00", nine, 13 },
        { "an odd path, and no value", job, "9180", "00", "", 13 },
        { "an odd path, and an empty day", job, "", "00", nine, 13 },
    };
    for (size_t i = 0; i < sizeof good / sizeof *good; i++) {
        struct file ty = hex(good[i].type), day = hex(good[i].day), path = hex(good[i].path),
                    val = value(good[i].value);
        searches(good[i].name, &ty, &day, &path, &val, 0, good[i].match);
    }
    for (size_t i = 0; i < sizeof bad / sizeof *bad; i++) {
        struct file ty = hex(bad[i].type), day = hex(bad[i].day), path = hex(bad[i].path),
                    val = value(bad[i].value);
        searches(bad[i].name, &ty, &day, &path, &val, bad[i].number, "");
    }
    /* 4,096 frames: the one that matches is the last, then there is none */
    struct file ty = hex(job), day = { { 0 }, 8192 }, path = hex("0000"), val = value(nine);
    char match[4097] = { 0 };
    memset(match, '0', 4096);
    match[4095] = '1';
    day.bytes[8190] = 0x90;
    searches("the last of 4,096", &ty, &day, &path, &val, 0, match);
    day.bytes[8191] = 1;
    searches("the last of 4,096, damaged", &ty, &day, &path, &val, 0, "");
    /* a value file of the length of a part, with a byte where none may be */
    ty = hex("02000008");
    day = hex("09");
    path = hex("");
    val = value("02000008:09");
    searches("the whole of a byte", &ty, &day, &path, &val, 0, "1");
    val.bytes[4] = 1;
    searches("a byte set among unused ones", &ty, &day, &path, &val, 0, "0");
    val.length = 35;
    searches("a value file of 35 bytes", &ty, &day, &path, &val, 0, "0");
}

/* --measure: tells how much stack the deepest inputs take. */
int main(int words, char **word)
{
    types();
    limits();
    values();
    frames();
    parts();
    days();
    failures += stacks(words == 2 && strcmp(word[1], "--measure") == 0);
    if (failures != 0)
        return 1;
    printf("niegluk: all as expected\n");
    return 0;
}
