/* Runs inputs that nest deep, each in a thread that has the stack that niegluk.h states for the
 * function.
 *
 * A thread's stack is memory of our own, with inaccessible pages right below it. How much of it the
 * thread itself and the caller take (thread-local data, the thread's start, the caller's frame and
 * the arguments that it pushes) is found by calling a probe of the same type in the function's
 * place, from the same code: it tells where the caller's stack pointer stands at the call. The
 * stack is then made so long that from there down to the inaccessible pages there are as many bytes
 * as NIEGLUK_STACK_.. says, and fewer than 64 more, since a thread's own part is aligned; that none
 * of these was used is looked at afterwards. Each input runs in a process of its own, so that one
 * that needs more is told by name. */
#define _DEFAULT_SOURCE
#include <errno.h>
#include <pthread.h>
#include <stdio.h>
#include <stdlib.h>
#include <string.h>
#include <sys/mman.h>
#include <sys/wait.h>
#include <unistd.h>
#include "niegluk.h"
#include "stack.h"

/* The memory for stacks: inaccessible pages, then as much as the largest stack and a thread's own
 * part may need. */
enum { GUARD = 65536, STACKS = 1 << 20, THREAD = 65536, ALIGNED = 64, UNTOUCHED = 0x5A };

/* The bytes of a record of a value file, of which the table spells the first four. */
enum { RECORD = 36, HEAD = 4 };

/* The functions, by their parameters. */
typedef uint32_t lowering(const uint8_t *, size_t, uint8_t *, size_t, size_t *);
typedef uint32_t measuring(const uint8_t *, size_t, size_t *, size_t *, size_t *);
typedef uint32_t counting(const uint8_t *, size_t, const uint8_t *, size_t, size_t *);
typedef uint32_t turning(const uint8_t *, size_t, const uint8_t *, size_t, uint8_t *, size_t,
                         size_t *);
typedef uint32_t reading(const uint8_t *, size_t, const uint8_t *, size_t, const uint8_t *, size_t,
                         uint8_t *, size_t, size_t *);
typedef uint32_t editing(const uint8_t *, size_t, uint8_t *, size_t, const uint8_t *, size_t,
                         const uint8_t *, size_t, size_t *);
typedef uint32_t searching(const uint8_t *, size_t, const uint8_t *, size_t, const uint8_t *,
                           size_t, const uint8_t *, size_t, uint32_t *, size_t *);

enum operation {
    LOWER,
    ROOM,
    WRITE_SHAPE,
    SHAPE_RECORDS,
    RECONSTRUCT,
    CLEAN_SHAPE,
    WRITE_FRAME,
    READ_FRAME,
    PART_READ,
    PART_EDIT,
    SEARCH
};

/* A function, one of the seven pointers, and the stack that it is lent. */
struct entry {
    const char *name;
    size_t stack;
    lowering *lower;
    measuring *measure;
    counting *count;
    turning *turn;
    reading *read;
    editing *edit;
    searching *search;
};

static const struct entry entries[] = {
    [LOWER] = { "lower", NIEGLUK_STACK_LOWER, .lower = niegluk_lower },
    [ROOM] = { "room", NIEGLUK_STACK_ROOM, .measure = niegluk_room },
    [WRITE_SHAPE] = { "write_shape", NIEGLUK_STACK_WRITE_SHAPE, .turn = niegluk_write_shape },
    [SHAPE_RECORDS] = { "shape_records", NIEGLUK_STACK_SHAPE_RECORDS,
                        .count = niegluk_shape_records },
    [RECONSTRUCT] = { "reconstruct", NIEGLUK_STACK_RECONSTRUCT, .turn = niegluk_reconstruct },
    [CLEAN_SHAPE] = { "clean_shape", NIEGLUK_STACK_CLEAN_SHAPE, .turn = niegluk_clean_shape },
    [WRITE_FRAME] = { "write_frame", NIEGLUK_STACK_WRITE_FRAME, .turn = niegluk_write_frame },
    [READ_FRAME] = { "read_frame", NIEGLUK_STACK_READ_FRAME, .turn = niegluk_read_frame },
    [PART_READ] = { "part_read", NIEGLUK_STACK_PART_READ, .read = niegluk_part_read },
    [PART_EDIT] = { "part_edit", NIEGLUK_STACK_PART_EDIT, .edit = niegluk_part_edit },
    [SEARCH] = { "search", NIEGLUK_STACK_SEARCH, .search = niegluk_search },
};

/* The files of one call, and its answer: the number, and the length; in its place the most records
 * of a shape for `room`, the records for `shape_records`, and the index for `search`. */
struct file {
    uint8_t bytes[65536];
    size_t length;
};

struct call {
    struct entry entry;
    struct file ty, other, path, value, out;
    uint32_t number, found;
    size_t length, lowered, bits;
};

/* Where stacks begin, and where a probe found the caller's stack pointer. */
static uint8_t *memory, *top;

/* The caller's stack pointer at the call: above the return address, and the frame pointer that is
 * saved below it. */
#define CALLER ((uint8_t *)__builtin_frame_address(0) + 2 * sizeof(void *))

static uint32_t probe_lower(const uint8_t *ty, size_t ty_len, uint8_t *out, size_t out_len,
                            size_t *length)
{
    (void)ty, (void)ty_len, (void)out, (void)out_len, (void)length;
    top = CALLER;
    return 0;
}

static uint32_t probe_measure(const uint8_t *ty, size_t ty_len, size_t *lowered, size_t *bits,
                              size_t *shape)
{
    (void)ty, (void)ty_len, (void)lowered, (void)bits, (void)shape;
    top = CALLER;
    return 0;
}

static uint32_t probe_count(const uint8_t *ty, size_t ty_len, const uint8_t *value,
                            size_t value_len, size_t *records)
{
    (void)ty, (void)ty_len, (void)value, (void)value_len, (void)records;
    top = CALLER;
    return 0;
}

static uint32_t probe_turn(const uint8_t *ty, size_t ty_len, const uint8_t *in, size_t in_len,
                           uint8_t *out, size_t out_len, size_t *length)
{
    (void)ty, (void)ty_len, (void)in, (void)in_len, (void)out, (void)out_len, (void)length;
    top = CALLER;
    return 0;
}

static uint32_t probe_read(const uint8_t *ty, size_t ty_len, const uint8_t *frame, size_t frame_len,
                           const uint8_t *path, size_t path_len, uint8_t *out, size_t out_len,
                           size_t *length)
{
    (void)ty, (void)ty_len, (void)frame, (void)frame_len, (void)path, (void)path_len;
    (void)out, (void)out_len, (void)length;
    top = CALLER;
    return 0;
}

static uint32_t probe_edit(const uint8_t *ty, size_t ty_len, uint8_t *frame, size_t frame_len,
                           const uint8_t *path, size_t path_len, const uint8_t *value,
                           size_t value_len, size_t *length)
{
    (void)ty, (void)ty_len, (void)frame, (void)frame_len, (void)path, (void)path_len;
    (void)value, (void)value_len, (void)length;
    top = CALLER;
    return 0;
}

static uint32_t probe_search(const uint8_t *ty, size_t ty_len, const uint8_t *day, size_t day_len,
                             const uint8_t *path, size_t path_len, const uint8_t *value,
                             size_t value_len, uint32_t *found, size_t *index)
{
    (void)ty, (void)ty_len, (void)day, (void)day_len, (void)path, (void)path_len;
    (void)value, (void)value_len, (void)found, (void)index;
    top = CALLER;
    return 0;
}

/* The thread: one call. */
static void *ask(void *given)
{
    struct call *c = given;
    const struct entry *e = &c->entry;
    const struct file *ty = &c->ty, *other = &c->other, *path = &c->path, *value = &c->value;
    uint8_t *out = c->out.bytes;
    size_t room = sizeof c->out.bytes, *length = &c->length;
    if (e->lower != NULL)
        c->number = e->lower(ty->bytes, ty->length, out, room, length);
    else if (e->measure != NULL)
        c->number = e->measure(ty->bytes, ty->length, &c->lowered, &c->bits, length);
    else if (e->count != NULL)
        c->number = e->count(ty->bytes, ty->length, other->bytes, other->length, length);
    else if (e->turn != NULL)
        c->number = e->turn(ty->bytes, ty->length, other->bytes, other->length, out, room, length);
    else if (e->read != NULL)
        c->number = e->read(ty->bytes, ty->length, other->bytes, other->length, path->bytes,
                            path->length, out, room, length);
    else if (e->edit != NULL)
        c->number = e->edit(ty->bytes, ty->length, c->other.bytes, other->length, path->bytes,
                            path->length, value->bytes, value->length, length);
    else
        c->number = e->search(ty->bytes, ty->length, other->bytes, other->length, path->bytes,
                              path->length, value->bytes, value->length, &c->found, length);
    return NULL;
}

static void must(int holds, const char *what)
{
    if (!holds) {
        perror(what);
        exit(2);
    }
}

/* One call in a thread whose stack is the first `size` bytes of the memory. */
static void ask_within(struct call *c, size_t size)
{
    pthread_t thread;
    pthread_attr_t with;
    must((errno = pthread_attr_init(&with)) == 0, "attributes");
    must((errno = pthread_attr_setstack(&with, memory, size)) == 0, "a thread's stack");
    must((errno = pthread_create(&thread, &with, ask, c)) == 0, "a thread");
    must((errno = pthread_join(thread, NULL)) == 0, "a thread's end");
    must((errno = pthread_attr_destroy(&with)) == 0, "attributes");
}

/* The bytes below the caller in a stack of this size. */
static size_t below(const struct call *c, size_t size)
{
    static struct call probe;
    probe = *c;
    probe.entry.lower = c->entry.lower == NULL ? NULL : probe_lower;
    probe.entry.measure = c->entry.measure == NULL ? NULL : probe_measure;
    probe.entry.count = c->entry.count == NULL ? NULL : probe_count;
    probe.entry.turn = c->entry.turn == NULL ? NULL : probe_turn;
    probe.entry.read = c->entry.read == NULL ? NULL : probe_read;
    probe.entry.edit = c->entry.edit == NULL ? NULL : probe_edit;
    probe.entry.search = c->entry.search == NULL ? NULL : probe_search;
    ask_within(&probe, size);
    return (size_t)(top - memory);
}

/* The call in a thread with this stack below the caller; answers how much of it was changed. */
static size_t ask_on(struct call *c, size_t stack)
{
    size_t most = stack + THREAD, spare = below(c, most) - stack;
    size_t size = most - spare / ALIGNED * ALIGNED, left = below(c, size), first = 0;
    if (left < stack || stack + ALIGNED <= left) {
        fprintf(stderr, "a stack of %zu bytes for %zu\n", left, stack);
        exit(2);
    }
    memset(memory, UNTOUCHED, left);
    ask_within(c, size);
    while (first < left && memory[first] == UNTOUCHED)
        first++;
    return left - first;
}

/* Appends the bytes that the text spells, two hexadecimal digits each: `(..)` is a group, and `*n`
 * behind a group or a word writes it n times. Answers where the text or the group ends. */
static const char *spell(struct file *file, const char *text)
{
    size_t start = file->length;
    unsigned byte;
    int used;
    while (*text != '\0' && *text != ')') {
        if (*text == ' ') {
            text++;
            start = file->length;
        } else if (*text == '(') {
            start = file->length;
            text = spell(file, text + 1) + 1;
        } else if (*text == '*') {
            char *end;
            size_t one = file->length - start, times = strtoul(text + 1, &end, 10);
            text = end;
            must(file->length + one * times <= sizeof file->bytes, "a file too long");
            for (size_t k = 1; k < times; k++)
                memcpy(file->bytes + start + k * one, file->bytes + start, one);
            file->length = start + times * one;
        } else {
            must(sscanf(text, "%2x%n", &byte, &used) == 1 && used == 2, "a byte");
            file->bytes[file->length++] = (uint8_t)byte;
            text += used;
        }
    }
    return text;
}

static struct file file(const char *text)
{
    static struct file made;
    memset(&made, 0, sizeof made);
    spell(&made, text);
    return made;
}

/* A value file: the first four bytes of each record are spelled. */
static struct file values(const char *text)
{
    static struct file made, heads;
    memset(&made, 0, sizeof made);
    heads = file(text);
    for (size_t k = 0; k < heads.length; k += HEAD, made.length += RECORD) {
        must(made.length + RECORD <= sizeof made.bytes, "a file too long");
        memcpy(made.bytes + made.length, heads.bytes + k, HEAD);
    }
    return made;
}

/* Shapes: the integer 0 of 256 bits; an empty list bounded by 32,768; one with one element, which
 * comes next; a tuple of 33 up to its last part, the others being units, in which 2, 4, 8 and 16
 * units stand for halves. */
#define ZERO "(03 (03 (03 (03 (03 (03 (03 (03 (01 00)*2)*2)*2)*2)*2)*2)*2)*2)"
#define EMPTY "(03 01 00)*14 01 00"
#define LAST "(03 01 00)*14 02"
#define TWO "(03 00*2)"
#define FOUR "(03 " TWO "*2)"
#define EIGHT "(03 " FOUR "*2)"
#define SIXTEEN "(03 " EIGHT "*2)"
#define SPINE "03 00 03 " SIXTEEN " 03 " EIGHT " 03 " FOUR " 03 " TWO " 03 00"

/* Tuples of 33 and one of 65, each the last part of the one before, with room for one more record
 * below; 15 Enums of 65, each in the last Variant of the one before, and a List there, a frame of
 * it, its value and that of its one part, and a day file with another frame before it; 30 Options
 * over a List, a value, and a day file with it behind another; 33 Options. */
#define TUPLES "(05000021 05000000*32)*29 05000041 05000000*64 "
#define ENUMS "(08000041 09000000*64 09000001)*15 07004000 05000000"
#define CHOICES "ffffffffffffffffffffffffff8002"
#define CHOSEN "08000040*15 07000001 05000000"
#define INSIDE "08000040*14 07000001 05000000"
#define CHOICE_DAY "00*15 " CHOICES
#define SOMES "04000000*30 07004000 05000000"
#define TAKEN "04010000*30 07000001 05000000"
#define SOME_DAY "00*6 fffffffc0010"
#define OPTIONS "04000000*33 01000000"

/* Number and length of the answer; type; shape, value, frame or day file; for an edit the new
 * value, for a search the one that is sought; the path. First the inputs known that take the most
 * of each function, then a type that is refused at its deepest record. */
static const struct question {
    const char *name;
    enum operation op;
    uint32_t number;
    size_t length;
    const char *type, *other, *value, *path;
} questions[] = {
    { "tuples of 33 over an array", LOWER, 0, 34753, TUPLES "06004001 05000000", "", "", "" },
    { "tuples of 33 over an array", ROOM, 0, 34753, TUPLES "06004001 05000000", "", "", "" },
    { "enums of 65 over a list", ROOM, 0, 32884, ENUMS, "", "", "" },
    { "tuples of 33 over a list", WRITE_SHAPE, 0, 2025, TUPLES "07004000 05000000",
      TUPLES "07000001 05000000", "", "" },
    { "tuples of 33 over a list", SHAPE_RECORDS, 0, 2025, TUPLES "07004000 05000000",
      TUPLES "07000001 05000000", "", "" },
    { "enums of 65 over a list", SHAPE_RECORDS, 0, 146, ENUMS, CHOSEN, "", "" },
    { "arrays and lists in turn", RECONSTRUCT, 10, 0, "(0600ffff 07008000)*15 0600ffff 02000100",
      "(03*15 " EMPTY " 03 03 02 03*14)*15 03*15 " ZERO " 03 " ZERO " 00*465", "", "" },
    { "arrays of 65,535", RECONSTRUCT, 10, 0, "0600ffff*31 01000000", "03*496 00*497", "", "" },
    { "arrays of 65,535 over an integer", RECONSTRUCT, 10, 0, "0600ffff*31 02000100",
      "03*496 00*497", "", "" },
    { "lists of a list", RECONSTRUCT, 0, 1152, "07008000*31 01000000", "(" LAST ")*31 02 00", "",
      "" },
    { "lists of a list over an integer", RECONSTRUCT, 0, 1152, "07008000*31 02000100",
      "(" LAST ")*31 " ZERO, "", "" },
    { "tuples of 33 over an integer", RECONSTRUCT, 0, 36864, "(05000021 05000000*32)*31 02000100",
      "(" SPINE ")*31 " ZERO, "", "" },
    { "arrays and lists in turn", CLEAN_SHAPE, 10, 0, "(0600ffff 07008000)*15 0600ffff 02000100",
      "(03*15 " EMPTY " 03 03 02 03*14)*15 03*15 " ZERO " 03 " ZERO " 00*465", "", "" },
    { "lists of a list", CLEAN_SHAPE, 0, 1335, "07008000*31 01000000", "(" LAST ")*31 02 00", "",
      "" },
    { "lists of a list over an integer", CLEAN_SHAPE, 0, 2100, "07008000*31 02000100",
      "(" LAST ")*31 " ZERO, "", "" },
    { "tuples of 33 over an integer", CLEAN_SHAPE, 0, 2751, "(05000021 05000000*32)*31 02000100",
      "(" SPINE ")*31 " ZERO, "", "" },
    { "options over a list", WRITE_FRAME, 0, 6, SOMES, TAKEN, "", "" },
    { "enums of 65 over a list", READ_FRAME, 0, 612, ENUMS, CHOICES, "", "" },
    { "enums of 65 over a list", PART_READ, 0, 612, ENUMS, CHOICES, "", "" },
    { "enums of 65 over a list", PART_EDIT, 0, 15, ENUMS, CHOICES, CHOSEN, "" },
    { "enums of 65 over a list", SEARCH, 0, 1, ENUMS, CHOICE_DAY, CHOSEN, "" },
    { "a part of enums of 65", SEARCH, 0, 1, ENUMS, CHOICE_DAY, INSIDE, "0000" },
    { "options over a list", SEARCH, 0, 1, SOMES, SOME_DAY, TAKEN, "" },
    { "33 options", LOWER, 4, 0, OPTIONS, "", "", "" },
    { "33 options", ROOM, 4, 0, OPTIONS, "", "", "" },
    { "33 options", WRITE_SHAPE, 4, 0, OPTIONS, "", "", "" },
    { "33 options", SHAPE_RECORDS, 4, 0, OPTIONS, "", "", "" },
    { "33 options", RECONSTRUCT, 4, 0, OPTIONS, "", "", "" },
    { "33 options", CLEAN_SHAPE, 4, 0, OPTIONS, "", "", "" },
    { "33 options", WRITE_FRAME, 4, 0, OPTIONS, "", "", "" },
    { "33 options", READ_FRAME, 4, 0, OPTIONS, "", "", "" },
    { "33 options", PART_READ, 4, 0, OPTIONS, "", "", "" },
    { "33 options", PART_EDIT, 4, 0, OPTIONS, "", "", "" },
    { "33 options", SEARCH, 4, 0, OPTIONS, "", "", "" },
};

static void prepare(struct call *c, const struct question *q)
{
    memset(c, 0, sizeof *c);
    c->length = 12345;
    c->entry = entries[q->op];
    c->ty = file(q->type);
    int with_value = q->op == WRITE_SHAPE || q->op == SHAPE_RECORDS || q->op == WRITE_FRAME;
    c->other = with_value ? values(q->other) : file(q->other);
    c->value = values(q->value);
    c->path = file(q->path);
}

/* In a process of its own: does the question end within the stack stated, with its number and
 * length? */
static int answers(const struct question *q, int measure)
{
    static struct call c;
    prepare(&c, q);
    size_t used = ask_on(&c, c.entry.stack);
    if (measure)
        printf("%-13s %7zu of %7zu bytes  %s\n", c.entry.name, used, c.entry.stack, q->name);
    if (c.number != q->number || c.length != q->length)
        printf("%s, %s: the number is %u, the length %zu\n", c.entry.name, q->name,
               (unsigned)c.number, c.length);
    if (used > c.entry.stack)
        printf("%s, %s: took %zu bytes of stack\n", c.entry.name, q->name, used);
    fflush(stdout);
    return c.number == q->number && c.length == q->length && used <= c.entry.stack;
}

int stacks(int measure)
{
    int failed = 0, status;
    memory = mmap(NULL, GUARD + STACKS, PROT_READ | PROT_WRITE, MAP_PRIVATE | MAP_ANONYMOUS, -1, 0);
    must(memory != MAP_FAILED && mprotect(memory, GUARD, PROT_NONE) == 0, "memory for a stack");
    memory += GUARD;
    for (size_t k = 0; k < sizeof questions / sizeof *questions; k++) {
        const struct question *q = &questions[k];
        fflush(stdout);
        pid_t child = fork();
        must(child != -1, "a process");
        if (child == 0)
            _exit(answers(q, measure) ? 0 : 1);
        must(waitpid(child, &status, 0) == child, "a process's end");
        if (WIFSIGNALED(status))
            printf("%s, %s: needs more than the %zu bytes of stack stated\n", entries[q->op].name,
                   q->name, entries[q->op].stack);
        failed += status != 0;
    }
    munmap(memory - GUARD, GUARD + STACKS);
    return failed;
}
