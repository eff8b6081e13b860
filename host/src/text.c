/*
 * The two entries of mishkeldur.h that answer text. They stand apart from the proved code, since it has no strings to hand out,
 * and call nothing: each answer is a static string.
 */
#include "mishkeldur.h"

const char *mk_refusal_text(uint8_t status)
{
    switch (status) {
    case MK_OK: return "0: done";
    case MK_BAD_LIMIT: return "1: bad limit";
    case MK_TOO_LARGE: return "2: too large";
    case MK_OUT_OF_SYNC: return "3: out of sync";
    case MK_BAD_FRAME_HEADER: return "4: bad frame header";
    case MK_PACKED: return "5: packed";
    case MK_NO_ROOM: return "6: no room";
    case MK_CLOSED: return "7: closed";
    case MK_SHORT: return "8: short";
    case MK_BAD_LEAD: return "9: bad lead";
    case MK_BAD_TYPE: return "10: bad type";
    case MK_OUT_OF_RANGE: return "11: out of range";
    case MK_BAD_ROW: return "12: bad row";
    case MK_BAD_COLUMNS: return "13: bad columns";
    case MK_BAD_PACKET: return "14: bad packet";
    case MK_BAD_LITERAL: return "15: bad literal";
    case MK_ROW_TOO_LONG: return "16: row too long";
    case MK_TOO_MANY_ROWS: return "17: too many rows";
    case MK_NEED_MORE: return "255: need more";
    default: return "unknown status";
    }
}

const char *mk_version(void)
{
    return MK_VERSION;
}
