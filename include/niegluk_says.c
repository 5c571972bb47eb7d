/* niegluk_says: what each number of niegluk.h says. */
#include "niegluk.h"

const char *niegluk_says(uint32_t number)
{
    switch (number) {
    case NIEGLUK_OK:
        return "The operation is accepted.";
    case NIEGLUK_TYPE_LENGTH:
        return "The type file is empty, or its length is no multiple of 4.";
    case NIEGLUK_TYPE_TOO_LONG:
        return "The type file has over 1,024 records.";
    case NIEGLUK_BAD_RECORD:
        return "A record of the type has a bad kind, byte 1 or n, or a Variant stands "
               "where a type belongs, or the reverse.";
    case NIEGLUK_TOO_DEEP:
        return "A record of the type is deeper than 32, the root being 1.";
    case NIEGLUK_NOT_ONE_TYPE:
        return "A record of the type is missing, or some are left over.";
    case NIEGLUK_NEVER_STANDS:
        return "The type has a Never in it, so it does not lower.";
    case NIEGLUK_TOO_LARGE:
        return "The type, a type in it or a payload type lowers to over 65,536 "
               "records.";
    case NIEGLUK_SHAPE_TOO_LONG:
        return "The shape has over 65,536 records.";
    case NIEGLUK_NOT_ONE_TREE:
        return "The shape has a byte above 3, or is not exactly one tree.";
    case NIEGLUK_NOT_RECONSTRUCTED:
        return "The shape does not read as a value of the type.";
    case NIEGLUK_NO_UNIT:
        return "Something other than a unit stands where the shape is read as an empty "
               "tuple, an array of 0 or a variant without parts.";
    case NIEGLUK_FRAME_LENGTH:
        return "The frame has another length than the type's frames.";
    case NIEGLUK_STRAY_BIT:
        return "A padding or tail bit of the frame is 1.";
    case NIEGLUK_NO_BYTES:
        return "A frame of the type has no bytes.";
    case NIEGLUK_DAY_LENGTH:
        return "The day file's length is no multiple of a frame's.";
    case NIEGLUK_PATH_ODD:
        return "The path's length is odd.";
    case NIEGLUK_NO_SUCH_PART:
        return "The path leads to no part of the frame's value.";
    case NIEGLUK_VALUE_LENGTH:
        return "The value file is empty, or its length is no multiple of 36.";
    case NIEGLUK_NOT_ONE_VALUE:
        return "The value file is not one value of the type; for an edit, of the "
               "part's type.";
    case NIEGLUK_INTEGER_TOO_LARGE:
        return "An integer in the value file is too large for its width.";
    case NIEGLUK_LIST_TOO_LONG:
        return "A list in the value file is as long as its bound, or longer.";
    case NIEGLUK_NO_ROOM:
        return "The result needs more bytes than the buffer has.";
    default:
        return "The library answers no such number.";
    }
}
