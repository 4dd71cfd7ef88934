/* SPDX-License-Identifier: Apache-2.0
 *
 * The texts of the library: its version, and what its refusal numbers mean. They are C, and tested and not proved: a proved
 * function has no C string to answer. Nothing is computed here. */
#include "sjurnabel.h"

const char *sjurnabel_version(void) { return SJURNABEL_VERSION; }

const char *sjurnabel_refusal_text(int n) {
    /* no default: the compiler then asks for each number of the enum */
    switch ((enum sjurnabel_refusal)n) {
    case SJURNABEL_ACCEPTED: return "accepted";
    case SJURNABEL_OUT_OF_REACH: return "a number out of reach";
    case SJURNABEL_BAD_POINT: return "not a valid point";
    case SJURNABEL_BAD_MARGIN: return "a margin, size, error or angle out of range";
    case SJURNABEL_BAD_LIST: return "too many records, or one cut short";
    case SJURNABEL_NO_ROOM: return "too little room for the answer";
    case SJURNABEL_BAD_RECORD: return "not a stream of whole records";
    case SJURNABEL_BAD_TEXT: return "not a bbox array";
    case SJURNABEL_BAD_BOX: return "a box out of range, or not as reading gives it";
    case SJURNABEL_BAD_LATITUDE: return "a latitude beyond a pole";
    case SJURNABEL_BAD_CIRCLE: return "not a valid interval of longitudes";
    case SJURNABEL_HALF_EMPTY: return "latitudes or longitudes empty, but not both";
    }
    return "not a refusal number";
}
