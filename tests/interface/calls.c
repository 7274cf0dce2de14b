/* Puts the calls that `reference calls` or `reference moves` wrote to the archive: standard input has the calls, in the form of
 * reference/src/calls/stream.rs. Compares what each returns and leaves in the lists that were lent, and has each reported solid sent and
 * checked. Prints how often each function gave each number, and the places that the check named. */
#include <stdio.h>
#include <stdlib.h>
#include <string.h>

#include "nibgravel.h"

enum function { READ_SHEET, WRITE_SHEET, CONVERT, CONVERT_SHEET, ASSESS, ASSESS_SHEET, WRITE_FACES, CHECK, CHECK_SHEET, FUNCTIONS };

static const char *const names[FUNCTIONS] = {"read_sheet", "write_sheet",  "convert",     "convert_sheet", "assess",
                                             "assess_sheet", "write_faces", "check", "check_sheet"};

/* ---- the stream */

static const uint8_t *at, *end;

static uint64_t taken_number(size_t width) {
    uint64_t number = 0;
    if ((size_t)(end - at) < width) {
        printf("the stream ends within a call\n");
        exit(1);
    }
    for (size_t k = 0; k < width; k++)
        number |= (uint64_t)at[k] << 8 * k;
    at += width;
    return number;
}

/* Entries of `width` bytes in memory of their own, as long as the list and no longer. */
struct list {
    uint8_t *entries;
    size_t length, width;
};

/* A list that the call may write: what it holds before, and what it must begin with afterwards. */
struct room {
    struct list list;
    uint8_t seed;
    struct list begins;
};

/* An empty list is lent with the address of this. */
static uint64_t nowhere;

static struct list new_list(size_t length, size_t width) {
    struct list l = {(uint8_t *)&nowhere, length, width};
    if (length > 0)
        l.entries = malloc(length * width);
    return l;
}

static void drop_list(struct list l) {
    if (l.length > 0)
        free(l.entries);
}

static struct list taken_list(size_t width) {
    struct list l = new_list(taken_number(2), width);
    for (size_t k = 0; k < l.length; k++) {
        uint64_t entry = taken_number(width);
        memcpy(l.entries + k * width, &entry, width);
    }
    return l;
}

/* Entry k before the call, in each of its bytes. */
static uint8_t before(const struct room *r, size_t k) { return (uint8_t)(r->seed + 37 * k); }

static struct room taken_room(size_t width) {
    struct room r;
    size_t length = taken_number(2);
    r.list = new_list(length, width);
    r.seed = (uint8_t)taken_number(1);
    r.begins = taken_list(width);
    for (size_t k = 0; k < length; k++)
        memset(r.list.entries + k * width, before(&r, k), width);
    return r;
}

/* Whether the room holds what it must; it is given back. */
static int room_holds(struct room r) {
    int good = memcmp(r.list.entries, r.begins.entries, r.begins.length * r.list.width) == 0;
    for (size_t k = r.begins.length * r.list.width; k < r.list.length * r.list.width; k++)
        good &= r.list.entries[k] == before(&r, k / r.list.width);
    drop_list(r.begins);
    drop_list(r.list);
    return good;
}

/* A drawing on a sheet, or lent as two lists; the others are empty. */
struct drawing {
    struct list sheet, xyz, ends;
};

static struct drawing taken_drawing(int on_sheet) {
    struct drawing d = {0};
    if (on_sheet) {
        d.sheet = taken_list(1);
    } else {
        d.xyz = taken_list(8);
        d.ends = taken_list(1);
    }
    return d;
}

static void drop_drawing(struct drawing d) {
    drop_list(d.sheet);
    drop_list(d.xyz);
    drop_list(d.ends);
}

/* the counts that stand in a sheet */
static uint64_t sheet_vertices(struct drawing d) { return (d.sheet.entries[0] & 15u) << 2 | d.sheet.entries[1] >> 6; }

static uint64_t sheet_edges(struct drawing d) { return (d.sheet.entries[1] & 63u) << 1 | d.sheet.entries[2] >> 7; }

#define BYTES(l) (l).entries, (l).length
#define NUMBERS(l) (int64_t *)(l).entries, (l).length
#define WORDS(l) (uint64_t *)(l).entries, (l).length
#define DOUBLES(l) (double *)(l).entries, (l).length

/* ---- each solid of a report, sent as a face list and checked: the drawing is converted once more, with room for all that is said */

static unsigned long sent, accepted;

static void send_solids(struct drawing d, int on_sheet, uint64_t limit) {
    uint8_t faces[NIBGRAVEL_FACE_ROOM], list[NIBGRAVEL_LIST_BYTES];
    uint64_t solids[NIBGRAVEL_SOLID_ROOM], said[NIBGRAVEL_SAID], words[NIBGRAVEL_SAID];
    if (on_sheet)
        nibgravel_convert_sheet(BYTES(d.sheet), limit, faces, sizeof faces, solids, NIBGRAVEL_SOLID_ROOM, said, NIBGRAVEL_SAID);
    else
        nibgravel_convert(NUMBERS(d.xyz), BYTES(d.ends), limit, faces, sizeof faces, solids, NIBGRAVEL_SOLID_ROOM, said, NIBGRAVEL_SAID);
    uint64_t vertices = on_sheet ? sheet_vertices(d) : d.xyz.length / 3, edges = on_sheet ? sheet_edges(d) : d.ends.length / 2;
    for (uint64_t k = 0; k < said[5]; k++) {
        uint64_t number = nibgravel_write_faces(faces, 13 * said[3], solids + 3 * k, 3, vertices, edges, list, sizeof list, words,
                                                NIBGRAVEL_SAID);
        if (number == 0)
            number = on_sheet ? nibgravel_check_sheet(BYTES(d.sheet), list, words[2], words, 0)
                              : nibgravel_check(NUMBERS(d.xyz), BYTES(d.ends), list, words[2], words, 0);
        sent += 1;
        accepted += number == 0;
    }
}

/* ---- what was met */

static unsigned long met[FUNCTIONS][31];

static void note(enum function f, uint64_t number) {
    if (number > 30) {
        printf("%s returned %llu\n", names[f], (unsigned long long)number);
        exit(1);
    }
    met[f][number] += 1;
}

/* Of 21 to 27 but 26, whose place is 0: the lowest place of all, and the least distance of a place from the list's last face or the drawing's last edge. */
static uint64_t lowest[31], from_last[31];

static void note_place(uint64_t number, uint64_t place, uint64_t faces, uint64_t edges) {
    uint64_t last = (number == NIBGRAVEL_EDGE_COUNT || number == NIBGRAVEL_DIRECTION ? edges : faces) - 1;
    int first = met[CHECK][number] + met[CHECK_SHEET][number] == 1;
    if (first || place < lowest[number])
        lowest[number] = place;
    if (first || last - place < from_last[number])
        from_last[number] = last - place;
}

/* ---- the calls: 1 where what came back is not what must */

static int converted(enum function f) {
    int on_sheet = f == CONVERT_SHEET;
    struct drawing d = taken_drawing(on_sheet);
    uint64_t limit = taken_number(8);
    struct room faces = taken_room(1), solids = taken_room(8), said = taken_room(8);
    uint64_t want = taken_number(8);
    uint64_t number = on_sheet ? nibgravel_convert_sheet(BYTES(d.sheet), limit, BYTES(faces.list), WORDS(solids.list), WORDS(said.list))
                               : nibgravel_convert(NUMBERS(d.xyz), BYTES(d.ends), limit, BYTES(faces.list), WORDS(solids.list),
                                                   WORDS(said.list));
    note(f, number);
    if (number == 0)
        send_solids(d, on_sheet, limit);
    drop_drawing(d);
    return !(room_holds(faces) & room_holds(solids) & room_holds(said) & (number == want));
}

static int assessed(enum function f) {
    int on_sheet = f == ASSESS_SHEET;
    struct drawing d = taken_drawing(on_sheet);
    uint64_t limit = taken_number(8);
    struct room volume = taken_room(8);
    uint64_t want = taken_number(8);
    uint64_t number = on_sheet ? nibgravel_assess_sheet(BYTES(d.sheet), limit, DOUBLES(volume.list))
                               : nibgravel_assess(NUMBERS(d.xyz), BYTES(d.ends), limit, DOUBLES(volume.list));
    note(f, number);
    drop_drawing(d);
    return !(room_holds(volume) & (number == want));
}

static int checked(enum function f) {
    int on_sheet = f == CHECK_SHEET;
    struct drawing d = taken_drawing(on_sheet);
    struct list list = taken_list(1);
    struct room said = taken_room(8);
    uint64_t want = taken_number(8), words[NIBGRAVEL_SAID];
    uint64_t number = on_sheet ? nibgravel_check_sheet(BYTES(d.sheet), BYTES(list), WORDS(said.list))
                               : nibgravel_check(NUMBERS(d.xyz), BYTES(d.ends), BYTES(list), WORDS(said.list));
    note(f, number);
    /* once more, with room for the place */
    uint64_t again = on_sheet ? nibgravel_check_sheet(BYTES(d.sheet), BYTES(list), words, NIBGRAVEL_SAID)
                              : nibgravel_check(NUMBERS(d.xyz), BYTES(d.ends), BYTES(list), words, NIBGRAVEL_SAID);
    if (number > NIBGRAVEL_SHELL_SHAPE)
        note_place(number, words[1], (list.entries[0] & 15u) << 2 | list.entries[1] >> 6,
                   on_sheet ? sheet_edges(d) : d.ends.length / 2);
    drop_drawing(d);
    drop_list(list);
    return !(room_holds(said) & (number == want) & (again == want));
}

static int read_or_written(enum function f) {
    uint64_t number, want;
    int good = 1;
    struct list first = taken_list(f == WRITE_SHEET ? 8 : 1);
    if (f == READ_SHEET) {
        struct room xyz = taken_room(8), ends = taken_room(1), said = taken_room(8);
        number = nibgravel_read_sheet(BYTES(first), NUMBERS(xyz.list), BYTES(ends.list), WORDS(said.list));
        good = room_holds(xyz) & room_holds(ends) & room_holds(said);
    } else if (f == WRITE_SHEET) {
        struct list ends = taken_list(1);
        struct room room = taken_room(1), said = taken_room(8);
        number = nibgravel_write_sheet(NUMBERS(first), BYTES(ends), BYTES(room.list), WORDS(said.list));
        good = room_holds(room) & room_holds(said);
        drop_list(ends);
    } else {
        struct list solid = taken_list(8);
        uint64_t vertices = taken_number(8), edges = taken_number(8);
        struct room room = taken_room(1), said = taken_room(8);
        number = nibgravel_write_faces(BYTES(first), WORDS(solid), vertices, edges, BYTES(room.list), WORDS(said.list));
        good = room_holds(room) & room_holds(said);
        drop_list(solid);
    }
    want = taken_number(8);
    drop_list(first);
    note(f, number);
    return !(good & (number == want));
}

static int called(enum function f) {
    switch (f) {
    case CONVERT:
    case CONVERT_SHEET:
        return converted(f);
    case ASSESS:
    case ASSESS_SHEET:
        return assessed(f);
    case CHECK:
    case CHECK_SHEET:
        return checked(f);
    default:
        return read_or_written(f);
    }
}

static void read_all(void) {
    size_t room = 1 << 20, length = 0, got;
    uint8_t *bytes = malloc(room);
    while ((got = fread(bytes + length, 1, room - length, stdin)) > 0) {
        length += got;
        if (length == room)
            bytes = realloc(bytes, room *= 2);
    }
    at = bytes;
    end = bytes + length;
}

int main(void) {
    unsigned long calls = 0, differences = 0;
    read_all();
    for (; at < end; calls++) {
        enum function f = (enum function)taken_number(1);
        if (f >= FUNCTIONS) {
            printf("no function %d\n", (int)f);
            return 1;
        }
        if (called(f)) {
            differences += 1;
            printf("call %lu of %s differs\n", calls, names[f]);
        }
    }
    for (int f = 0; f < FUNCTIONS; f++) {
        printf("%s", names[f]);
        for (int number = 0; number <= 30; number++)
            if (met[f][number] > 0)
                printf(" %d:%lu", number, met[f][number]);
        printf("\n");
    }
    for (int number = 21; number <= 27; number++)
        if (number != NIBGRAVEL_INWARD)
            printf("%d at places from %llu to %llu before the last\n", number, (unsigned long long)lowest[number],
                   (unsigned long long)from_last[number]);
    printf("solids sent %lu accepted %lu\n", sent, accepted);
    printf("calls %lu differences %lu\n", calls, differences);
    return differences > 0 || accepted < sent;
}
