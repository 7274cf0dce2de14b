/* Nibgravel: wire drawings of battery enclosures to every solid that they allow, an exact volume, and a verdict on a face list.
 *
 * Every function here is proved to give the answer of the customer's document for EVERY input: nothing has to be checked before a call.
 *
 * HOW THINGS ARE LENT. A list is lent as its address and its number of entries, in two arguments next to each other. The caller owns all
 * memory; nothing is kept after the return and nothing is allocated. What has to be true of a lent list is what C itself asks: `len`
 * entries can be read there (and written, where the pointer is not to const), the address is aligned for its type, and the list takes less
 * than 2^63 bytes. An empty list may be lent with any address that is aligned and not NULL. A list that can be written must not overlap
 * any other list of the same call; lists that are only read may overlap each other.
 *
 * WHAT COMES BACK. The number of the document's table is returned, 0 where nothing is refused. The list `said` gets the same number, then
 * the place, then the values that the function names, as far as `said` reaches: entries past the last value keep their contents, and a
 * caller who needs the number only may lend an empty list. NIBGRAVEL_SAID entries are always enough. Apart from `said`, a call with a
 * number above 0 leaves every lent list as it was.
 *
 * THREADS AND STACK. There are no globals: any number of threads may call at once, on lists of their own. As measured under an earlier
 * toolchain, a conversion takes 12 to 15 KB of stack from two lists and 14 to 16 KB from a sheet, a reading and a check of a sheet 15 to
 * 17 KB; by the deepest nesting some 27 KB are the most (docs/MEASURES.md, computed).
 * Nothing is allocated, and every call ends: the work limit is what bounds its time.
 *
 * Link target/staticlib/libexport.a, which `tools/archive export` writes, for x86-64 Linux. */
#ifndef NIBGRAVEL_H
#define NIBGRAVEL_H

#include <stddef.h>
#include <stdint.h>

#ifdef __cplusplus
extern "C" {
#endif

/* Sizes: the rooms of a report, what `said` holds at the most, and the largest drawing, sheet and face list. */
#define NIBGRAVEL_FACE_ROOM 832     /* bytes: 13 for each of 64 candidates */
#define NIBGRAVEL_SOLID_ROOM 24     /* words: 3 for each of 8 solids */
#define NIBGRAVEL_SAID 7            /* words: number, place, and up to five values */
#define NIBGRAVEL_COORDINATES 96    /* 3 for each of 32 vertices */
#define NIBGRAVEL_ENDS 128          /* 2 for each of 64 edges */
#define NIBGRAVEL_SHEET_BYTES 215   /* the longest sheet */
#define NIBGRAVEL_LIST_BYTES 338    /* the longest face list: 42 faces of 12 corners */
#define NIBGRAVEL_MOST_WORK 1000000 /* the highest work limit */

/* The numbers of the table, with what the place is. */
enum nibgravel_number {
    NIBGRAVEL_FINE = 0,
    NIBGRAVEL_NO_ROOM = 1,          /* a lent room is too short: 0 the first of the call, 1 the second */
    NIBGRAVEL_BAD_LIMIT = 2,        /* 0 */
    NIBGRAVEL_SHEET_SHORT = 3,      /* 0 */
    NIBGRAVEL_SHEET_EDITION = 4,    /* 0 */
    NIBGRAVEL_BAD_COUNT = 5,        /* 0 vertices, 1 edges */
    NIBGRAVEL_SHEET_LENGTH = 6,     /* 0 */
    NIBGRAVEL_SHEET_PAD = 7,        /* 0 */
    NIBGRAVEL_BAD_COORDINATE = 8,   /* place in the coordinate list */
    NIBGRAVEL_BAD_EDGE = 9,         /* edge */
    NIBGRAVEL_EDGE_ORDER = 10,      /* edge */
    NIBGRAVEL_SAME_PLACE = 11,      /* vertex */
    NIBGRAVEL_LOOSE_VERTEX = 12,    /* vertex */
    NIBGRAVEL_EDGE_MEETS = 13,      /* edge */
    NIBGRAVEL_APART = 14,           /* vertex */
    NIBGRAVEL_MANY_LOOPS = 15,      /* 0 */
    NIBGRAVEL_MANY_CANDIDATES = 16, /* 0 */
    NIBGRAVEL_NO_SOLID = 17,        /* the work */
    NIBGRAVEL_MANY = 18,            /* the work */
    NIBGRAVEL_TOO_LONG = 19,        /* the work */
    NIBGRAVEL_SHELL_SHAPE = 20,     /* 0 */
    NIBGRAVEL_NOT_CANDIDATE = 21,   /* face */
    NIBGRAVEL_FACE_TWICE = 22,      /* face */
    NIBGRAVEL_EDGE_COUNT = 23,      /* edge */
    NIBGRAVEL_DIRECTION = 24,       /* edge */
    NIBGRAVEL_PIECES = 25,          /* face */
    NIBGRAVEL_INWARD = 26,          /* 0 */
    NIBGRAVEL_CLASH = 27,           /* face */
    NIBGRAVEL_AMBIGUOUS = 30        /* of a reading: two to eight solids, equal volumes included */
};

/* Reads a sheet: 3 to 10, then 1 where a list is too short (place 0 coordinates, 1 ends). Writes three coordinates for each vertex to the
 * start of `xyz` and two vertex numbers for each edge to the start of `ends`. Values: vertices, edges. */
uint64_t nibgravel_read_sheet(const uint8_t *sheet, size_t sheet_len, int64_t *xyz, size_t xyz_len, uint8_t *ends, size_t ends_len,
                              uint64_t *said, size_t said_len);

/* Writes a drawing's sheet to the start of `room`: 5, 8, 9, 10, then 1. Value: the length of the sheet. */
uint64_t nibgravel_write_sheet(const int64_t *xyz, size_t xyz_len, const uint8_t *ends, size_t ends_len, uint8_t *room, size_t room_len,
                               uint64_t *said, size_t said_len);

/* Converts a drawing with a work limit of 0 to NIBGRAVEL_MOST_WORK: 1, 2, 5, 8 to 19. A report (number 0) writes 13 bytes for each candidate
 * to the start of `faces`: the number of corners, the corners in normal form, 255 as fill; and three words for each solid to the start of
 * `solids`: a bit for each face taken (candidate 0 lowest), a bit for each face run against its normal form, and six times the volume in
 * cubic centimetres. Values of a report: loops, candidates, work, solids and, where there is one solid, its six volumes; of 17 to 19: loops,
 * candidates. */
uint64_t nibgravel_convert(const int64_t *xyz, size_t xyz_len, const uint8_t *ends, size_t ends_len, uint64_t limit, uint8_t *faces,
                           size_t faces_len, uint64_t *solids, size_t solids_len, uint64_t *said, size_t said_len);

/* The same of a sheet: 1 to 19. */
uint64_t nibgravel_convert_sheet(const uint8_t *sheet, size_t sheet_len, uint64_t limit, uint8_t *faces, size_t faces_len,
                                 uint64_t *solids, size_t solids_len, uint64_t *said, size_t said_len);

/* What a premium may be set from. Returns 0 where the drawing allows exactly one solid, and then writes its volume in cubic metres to
 * volume[0], if one is lent; otherwise returns why nothing was assessed (2 to 19, or 30) and writes nothing. Only the number says whether
 * there is a volume. */
uint64_t nibgravel_assess(const int64_t *xyz, size_t xyz_len, const uint8_t *ends, size_t ends_len, uint64_t limit, double *volume,
                          size_t volume_len);
uint64_t nibgravel_assess_sheet(const uint8_t *sheet, size_t sheet_len, uint64_t limit, double *volume, size_t volume_len);

/* Writes a reported solid as a face list to the start of `room`, from the rows of the report and the solid's words (words that aren't lent
 * are 0), for a drawing of so many vertices and edges: 20 where they make no list, then 1. Value: the length of the list. */
uint64_t nibgravel_write_faces(const uint8_t *rows, size_t rows_len, const uint64_t *solid, size_t solid_len, size_t vertices,
                               size_t edges, uint8_t *room, size_t room_len, uint64_t *said, size_t said_len);

/* Checks a face list against a drawing: 5, 8 to 16, then 20 to 27. Number 0 is "accepted": the list names one of the drawing's solids with
 * its directions. No values. */
uint64_t nibgravel_check(const int64_t *xyz, size_t xyz_len, const uint8_t *ends, size_t ends_len, const uint8_t *list, size_t list_len,
                         uint64_t *said, size_t said_len);

/* The same of a sheet: 3 to 16, then 20 to 27. */
uint64_t nibgravel_check_sheet(const uint8_t *sheet, size_t sheet_len, const uint8_t *list, size_t list_len, uint64_t *said, size_t said_len);

#ifdef __cplusplus
}
#endif
#endif
