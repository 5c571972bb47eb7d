/* niegluk: files of types, values, shapes, frames and days, and paths into frames.
 *
 * Every function takes whole files as bytes (docs/FORMATS.md says what stands in
 * them), writes its result to the front of a buffer that the caller lends (an edit:
 * to the frame's own bytes), and answers a number: 0 where the operation is
 * accepted, else the first of the numbers below, downward, that refuses it.
 *
 * The length of the result goes to *length: 0 where the operation is refused. A
 * buffer of exactly that length is enough. An accepted result leaves every byte of
 * the buffer past its end as it was; a refusal leaves all of them.
 *
 * Three functions tell numbers and write no file: niegluk_room how much room a type
 * takes, niegluk_shape_records how long a shape would be, niegluk_search which frame
 * of a day file has a certain part. They are lent no buffer. Each number goes behind
 * a pointer of its own: 0 where the operation is refused.
 *
 * A List bounded at b holds at most b - 1 elements: a value with b elements is
 * refused, with number 22.
 *
 * The caller sees to it that
 * - each pointer points to as many bytes as the length after it says (a null
 *   pointer may stand only where that length is 0), and `length` and each number
 *   that is told to a size_t (`found` to a uint32_t), and that no one else writes
 *   them while the function runs;
 * - what is written (`out`, the frame of an edit, `length`, a number that is told)
 *   overlaps nothing else that is passed. What is only read may overlap;
 * - the thread has the stack that the call takes (NIEGLUK_STACK_.. below).
 * Nothing else is asked: any bytes may stand in the files, of any length.
 *
 * The functions take no memory but the stack and keep nothing between calls: they
 * are reentrant, and may be called from any number of threads at once.
 *
 * The library, libniegluk.a, is for x86-64: one ELF object, for any such processor,
 * with the System V calling convention. It has no data and no bss, defines no global
 * symbol but the eleven functions, and is position independent, so that a shared
 * object can have it too. It wants only `memset` from outside: a program without a C
 * library brings its own. niegluk_says is not in it, but in niegluk_says.c.
 */
#ifndef NIEGLUK_H
#define NIEGLUK_H

#include <stddef.h>
#include <stdint.h>

#ifdef __cplusplus
extern "C" {
#endif

/* What a function answers: one of these, and nothing else. 16, 21 and 22 are of one
 * place: of the value file's faults the one at its earliest record decides, and at
 * one record 16 comes before 21 and 22. */
enum niegluk_number {
    /* the operation is accepted */
    NIEGLUK_OK = 0,
    /* the type file is empty, or its length is no multiple of 4 */
    NIEGLUK_TYPE_LENGTH = 1,
    /* the type file has over 1,024 records */
    NIEGLUK_TYPE_TOO_LONG = 2,
    /* a record of the type has a bad kind, byte 1 or n, or a Variant stands where a
     * type belongs, or the reverse */
    NIEGLUK_BAD_RECORD = 3,
    /* a record of the type is deeper than 32, the root being 1 */
    NIEGLUK_TOO_DEEP = 4,
    /* a record of the type is missing, or some are left over */
    NIEGLUK_NOT_ONE_TYPE = 5,
    /* the type has a Never in it, so it does not lower */
    NIEGLUK_NEVER_STANDS = 6,
    /* the type, a type in it or a payload type lowers to over 65,536 records */
    NIEGLUK_TOO_LARGE = 7,
    /* the shape has over 65,536 records */
    NIEGLUK_SHAPE_TOO_LONG = 8,
    /* the shape has a byte above 3, or is not exactly one tree */
    NIEGLUK_NOT_ONE_TREE = 9,
    /* the shape does not read as a value of the type */
    NIEGLUK_NOT_RECONSTRUCTED = 10,
    /* something other than a unit stands where the shape is read as an empty tuple, an
     * array of 0 or a variant without parts (niegluk_clean_shape puts one there) */
    NIEGLUK_NO_UNIT = 20,
    /* the frame has another length than the type's frames */
    NIEGLUK_FRAME_LENGTH = 11,
    /* a padding or tail bit of the frame is 1 */
    NIEGLUK_STRAY_BIT = 12,
    /* in the place of 11, for a search: a frame of the type has no bytes */
    NIEGLUK_NO_BYTES = 18,
    /* in the place of 12, for a search: the day file's length is no multiple of a
     * frame's */
    NIEGLUK_DAY_LENGTH = 19,
    /* the path's length is odd */
    NIEGLUK_PATH_ODD = 13,
    /* the path leads to no part of the frame's value */
    NIEGLUK_NO_SUCH_PART = 14,
    /* the value file is empty, or its length is no multiple of 36 */
    NIEGLUK_VALUE_LENGTH = 15,
    /* the value file is not one value of the type; for an edit, of the part's type */
    NIEGLUK_NOT_ONE_VALUE = 16,
    /* in the place of 16, an integer in the value file is too large for its width */
    NIEGLUK_INTEGER_TOO_LARGE = 21,
    /* in the place of 16, a list in the value file is as long as its bound, or longer */
    NIEGLUK_LIST_TOO_LONG = 22,
    /* the result needs more bytes than the buffer has */
    NIEGLUK_NO_ROOM = 17
};

/* What a number says, as a sentence in English; of a number that is not above, that
 * it is none. It is defined in niegluk_says.c, beside this file: compile that too. */
const char *niegluk_says(uint32_t number);

/* The most bytes of stack, below the caller's own, that a call can take. They are
 * computed from the machine code by tools/stack, and rounded up, with a memset that
 * takes 8 bytes, as glibc's does (some hundred make no difference). What the thread
 * itself takes, and what a signal's handler does, comes on top; and a larger memset:
 * under ASan lend 8 KiB more. A call touches its stack page by page, so a thread
 * with too little ends at its guard page. */
#define NIEGLUK_STACK_LOWER 103424
#define NIEGLUK_STACK_ROOM 71680
#define NIEGLUK_STACK_WRITE_SHAPE 106496
#define NIEGLUK_STACK_SHAPE_RECORDS 45056
#define NIEGLUK_STACK_RECONSTRUCT 175104
#define NIEGLUK_STACK_CLEAN_SHAPE 183296
#define NIEGLUK_STACK_WRITE_FRAME 62464
#define NIEGLUK_STACK_READ_FRAME 67584
#define NIEGLUK_STACK_PART_READ 67584
#define NIEGLUK_STACK_PART_EDIT 67584
#define NIEGLUK_STACK_SEARCH 71680

/* Lowers a type: writes the lowered type's records, one byte each (0 a unit, 1 a
 * sum, 2 a product), parent first.
 * At most 65,536 bytes. Numbers 1 to 7 and 17. */
uint32_t niegluk_lower(const uint8_t *ty, size_t ty_len,
                       uint8_t *out, size_t out_len, size_t *length);

/* Tells the room that a type takes: to *lowered the records of its lowered type, one
 * byte each in what niegluk_lower writes; to *bits the bits of a frame, which has
 * (bits + 7) / 8 bytes; to *shape the most records that a shape of it has, one byte
 * each in what niegluk_write_shape writes: some value's shape has as many, and none
 * has more.
 * At most 65,536, 32,768 and 65,536. Numbers 1 to 7. */
uint32_t niegluk_room(const uint8_t *ty, size_t ty_len,
                      size_t *lowered, size_t *bits, size_t *shape);

/* Writes the shape of a value: its records, one byte each (0 a unit, 1 a left, 2 a
 * right, 3 a pair), parent first.
 * At most 65,536 bytes. Numbers 1 to 7, 15, 16, 21, 22 and 17. */
uint32_t niegluk_write_shape(const uint8_t *ty, size_t ty_len,
                             const uint8_t *value, size_t value_len,
                             uint8_t *out, size_t out_len, size_t *length);

/* Tells how many records the shape of a value has: to *records the length of what
 * niegluk_write_shape would write. It needs no buffer for them.
 * At most 65,536. Numbers 1 to 7, 15, 16, 21 and 22. */
uint32_t niegluk_shape_records(const uint8_t *ty, size_t ty_len,
                               const uint8_t *value, size_t value_len,
                               size_t *records);

/* Reads a shape as a value of a type, and writes its value file, 36 bytes a record.
 * The type need not lower: a Never is refused only where the shape reaches it. Where
 * an empty tuple, an array of 0 or a variant without parts is read, only a unit may
 * stand. For a type that lowers, what is accepted are the shapes that belong to it,
 * those that niegluk_write_shape writes.
 * At most 77,856,768 bytes. Numbers 1 to 5, 8, 9, 10, 20 and 17. */
uint32_t niegluk_reconstruct(const uint8_t *ty, size_t ty_len,
                             const uint8_t *shape, size_t shape_len,
                             uint8_t *out, size_t out_len, size_t *length);

/* Cleans a shape: writes it with a unit wherever an empty tuple, an array of 0 or a
 * variant without parts is read, and all else as it is. It takes the shapes that
 * niegluk_reconstruct takes and those that it refuses with 20, of any type, be it
 * one that lowers or not. niegluk_reconstruct accepts the result; for a type that
 * lowers it is what niegluk_write_shape makes of that value. A shape that
 * niegluk_reconstruct accepts comes back equal.
 * Never longer than the shape, so at most 65,536 bytes: a buffer as long as the
 * shape is enough. Numbers 1 to 5, 8, 9, 10 and 17. */
uint32_t niegluk_clean_shape(const uint8_t *ty, size_t ty_len,
                             const uint8_t *shape, size_t shape_len,
                             uint8_t *out, size_t out_len, size_t *length);

/* Writes the frame of a value: its bits, the first the highest of byte 0, and zeros
 * to the end of the last byte.
 * At most 4,096 bytes, none for a type of width 0. Numbers 1 to 7, 15, 16, 21, 22
 * and 17. */
uint32_t niegluk_write_frame(const uint8_t *ty, size_t ty_len,
                             const uint8_t *value, size_t value_len,
                             uint8_t *out, size_t out_len, size_t *length);

/* Reads a frame of a type, and writes its value file, 36 bytes a record. A frame is
 * accepted if its length is the type's and no padding or tail bit is 1.
 * At most 77,856,768 bytes. Numbers 1 to 7, 11, 12 and 17. */
uint32_t niegluk_read_frame(const uint8_t *ty, size_t ty_len,
                            const uint8_t *frame, size_t frame_len,
                            uint8_t *out, size_t out_len, size_t *length);

/* Reads a part of a frame, and writes its value file, 36 bytes a record. A path is
 * two-byte steps, high byte first, of any number. Tuple, Array, List: index.
 * Either: 0 or 1, the side taken. Option: 0, if some. Enum: index in the payload of
 * the variant present. The empty path is the whole.
 * At most 77,856,768 bytes. Numbers 1 to 7, 11 to 14 and 17. */
uint32_t niegluk_part_read(const uint8_t *ty, size_t ty_len,
                           const uint8_t *frame, size_t frame_len,
                           const uint8_t *path, size_t path_len,
                           uint8_t *out, size_t out_len, size_t *length);

/* Replaces a part of a frame by a value of the part's type, in the frame's own
 * bytes: the part's bits, its inner padding included, are those of the new value's
 * frame, and no other bit changes. *length is frame_len where accepted. Refused, no
 * bit of the frame changes. Numbers 1 to 7, 11 to 16, 21 and 22. */
uint32_t niegluk_part_edit(const uint8_t *ty, size_t ty_len,
                           uint8_t *frame, size_t frame_len,
                           const uint8_t *path, size_t path_len,
                           const uint8_t *value, size_t value_len, size_t *length);

/* Searches a day file: frames of one type end to end, each of the type's frame
 * length, no header. A frame matches if it is accepted and niegluk_part_read, with
 * room enough, would write exactly this value file for it. Where one matches, *found
 * is 1 and *index its index, from 0: any one, if there are several. *found is 0, and
 * *index too, only if none matches. A frame with a stray bit and one in which the
 * path leads to no part are passed over, and the value file is not checked: one that
 * is no value matches nothing. A day file of no bytes has no frame.
 * Numbers 1 to 7, 18, 19 and 13. */
uint32_t niegluk_search(const uint8_t *ty, size_t ty_len,
                        const uint8_t *day, size_t day_len,
                        const uint8_t *path, size_t path_len,
                        const uint8_t *value, size_t value_len,
                        uint32_t *found, size_t *index);

#ifdef __cplusplus
}
#endif

#endif
