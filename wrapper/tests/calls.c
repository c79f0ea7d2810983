/* Every call on a state from C, on document 01's case C, with each answer printed: a ring of eight voxels around an empty one, and one
 * opening allowed. Then marks, a coarse start, many grids at once, removal lists, faces, a file out and in, patches to it, layers of both widths,
 * practice grids, and what the header says of null pointers, padding and numbers. The status is 0 where all of that holds. */
#include <stdio.h>
#include <string.h>

#include "wattlerugby.h"

enum { A = 5, B = 5, C = 3, N = A * B * C, ALLOWED = 1 };

/* Marks for any grid here: none is larger than that of the faces. */
enum { LARGEST = 125 };
static const uint8_t unmarked[LARGEST] = {WATTLERUGBY_UNMARKED};

static void print_record(wattlerugby_record r)
{
    printf("  openings %u of %u, removals %u, examinations %u, Euler number %d, %s\n", (unsigned)r.openings, (unsigned)r.allowed,
           (unsigned)r.removals, (unsigned)r.examinations, (int)r.euler, r.finished ? "finished" : "not finished");
}

static wattlerugby_record carve(wattlerugby_record record, const int32_t *dist, uint8_t *status, uint32_t limit)
{
    wattlerugby_carve_answer r = wattlerugby_carve(record, dist, N, unmarked, N, status, N, limit);
    if (r.refusal != 0)
        printf("carve: refused %u, face %u\n", r.refusal, (unsigned)r.face);
    else
        printf("carve: examined %u, removed %u, %s, face %u\n", (unsigned)r.examined, (unsigned)r.removed,
               r.pending ? "some pending" : "nothing pending", (unsigned)r.face);
    print_record(r.next);
    return r.next;
}

static wattlerugby_record take(wattlerugby_record record, const int32_t *dist, uint8_t *status, size_t index)
{
    wattlerugby_take_answer r = wattlerugby_take(record, dist, N, unmarked, N, status, N, index);
    if (r.refusal != 0)
        printf("take %u: refused %u, face %u\n", (unsigned)index, r.refusal, (unsigned)r.face);
    else
        printf("take %u: gone, k %u, m %u, face %u\n", (unsigned)index, (unsigned)r.k, (unsigned)r.m, (unsigned)r.face);
    return r.next;
}

static wattlerugby_record open_body(wattlerugby_record record, const int32_t *dist, uint8_t *status)
{
    wattlerugby_open_answer r = wattlerugby_open(record, dist, N, unmarked, N, status, N);
    if (r.refusal != 0)
        printf("open: refused %u, face %u\n", r.refusal, (unsigned)r.face);
    else
        printf("open: voxel %u, k %u, m %u, face %u\n", (unsigned)r.index, (unsigned)r.k, (unsigned)r.m, (unsigned)r.face);
    print_record(r.next);
    return r.next;
}

static wattlerugby_record finish(wattlerugby_record record, int32_t *dist, const uint8_t *status)
{
    wattlerugby_finish_answer r = wattlerugby_finish(record, dist, N, status, N);
    if (r.refusal != 0)
        printf("finish: refused %u\n", r.refusal);
    else
        printf("finish: done\n");
    print_record(r.next);
    return r.next;
}

static void crossing(wattlerugby_record record, const int32_t *dist, const uint8_t *status, size_t index, uint32_t axis)
{
    wattlerugby_crossing_answer r = wattlerugby_crossing(record, dist, N, status, N, index, axis);
    printf("crossing %u along axis %u: ", (unsigned)index, (unsigned)axis);
    if (r.refusal != 0)
        printf("refused %u\n", r.refusal);
    else if (r.crosses)
        printf("at (%g, %g, %g)\n", r.point.x, r.point.y, r.point.z);
    else
        printf("none\n");
}

static void points(wattlerugby_record record, const int32_t *dist, const uint8_t *status, size_t position, size_t room)
{
    double out[9];
    size_t i;
    wattlerugby_points_answer r = wattlerugby_points(record, dist, N, status, N, position, out, room);
    printf("points from %u, room for %u doubles: ", (unsigned)position, (unsigned)room);
    if (r.refusal != 0)
        printf("refused %u\n", r.refusal);
    else
        printf("%u, next %u\n", (unsigned)r.count, (unsigned)r.next);
    for (i = 0; i < r.count; i++)
        printf("  (%g, %g, %g)\n", out[3 * i], out[3 * i + 1], out[3 * i + 2]);
}

static int ring(void)
{
    int32_t values[N];
    int32_t dist[N];
    uint8_t status[N];
    wattlerugby_sides sides = {A, B, C};
    wattlerugby_begin_answer begun;
    wattlerugby_record record;
    int x, y;

    for (x = 0; x < N; x++)
        values[x] = 4;
    for (y = 1; y <= 3; y++)
        for (x = 1; x <= 3; x++)
            if (x != 2 || y != 2)
                values[x + A * (y + B)] = -4;

    begun = wattlerugby_begin(sides, ALLOWED, values, N, unmarked, N, dist, N, status, N);
    if (begun.refusal != 0)
        return 1;
    printf("begin: done\n");
    print_record(begun.next);

    record = carve(begun.next, dist, status, WATTLERUGBY_NO_LIMIT);
    record = take(record, dist, status, 37);
    record = take(record, dist, status, 36);
    record = open_body(record, dist, status);
    record = carve(record, dist, status, WATTLERUGBY_NO_LIMIT);
    record = open_body(record, dist, status);
    record = finish(record, dist, status);
    crossing(record, dist, status, 36, 0);
    crossing(record, dist, status, 37, 0);
    crossing(record, dist, status, 36, 1);
    crossing(record, dist, status, 37, 3);
    points(record, dist, status, 0, 9);
    points(record, dist, status, 3 * 36, 4);
    points(record, dist, status, 3 * 36 + 1, 2);
    points(record, dist, status, 3 * 43 + 1, 9);
    points(record, dist, status, 3 * N, 9);
    points(record, dist, status, 3 * N + 1, 9);
    record = carve(record, dist, status, 1);

    printf("the middle layer:\n");
    for (y = 0; y < B; y++) {
        for (x = 0; x < A; x++)
            putchar(status[x + A * (y + B)] == WATTLERUGBY_GONE ? '.' : '#');
        putchar('\n');
    }
    return record.euler == 0 ? 0 : 1;
}

/* ---- marks, on document 01's case D: voxels 21 and 26 are inside, 22 and 25 fill the box around them. Voxel 22 comes before 25. */

enum { OF_D = 48, GUARD = 0xEE };

typedef struct grid_d {
    int32_t values[OF_D];
    int32_t dist[OF_D];
    /* the marks stand between bytes that no mark may have: a call that looked there would answer 29 */
    uint8_t marks[OF_D + 2];
    uint8_t status[OF_D];
    wattlerugby_record record;
} grid_d;

static const wattlerugby_sides sides_d = {4, 4, 3};

static uint8_t begin_d(grid_d *g, size_t marks_len)
{
    wattlerugby_begin_answer r = wattlerugby_begin(sides_d, 1, g->values, OF_D, g->marks + 1, marks_len, g->dist, OF_D, g->status, OF_D);
    g->record = r.next;
    return r.refusal;
}

static void set_marks(grid_d *g, uint8_t of_22, uint8_t of_25)
{
    memset(g->marks, 0, sizeof g->marks);
    g->marks[0] = GUARD;
    g->marks[OF_D + 1] = GUARD;
    g->marks[1 + 22] = of_22;
    g->marks[1 + 25] = of_25;
}

static grid_d begun_d(uint8_t of_22, uint8_t of_25)
{
    grid_d g;
    int i;
    for (i = 0; i < OF_D; i++)
        g.values[i] = i == 21 || i == 26 ? -6 : 6;
    set_marks(&g, of_22, of_25);
    if (begin_d(&g, OF_D) != 0)
        printf("begin with marks: WRONG\n");
    return g;
}

static uint8_t carve_d(grid_d *g, size_t marks_len, uint32_t limit)
{
    wattlerugby_carve_answer r = wattlerugby_carve(g->record, g->dist, OF_D, g->marks + 1, marks_len, g->status, OF_D, limit);
    g->record = r.next;
    return r.refusal;
}

static uint8_t take_d(grid_d *g, size_t marks_len, size_t index)
{
    wattlerugby_take_answer r = wattlerugby_take(g->record, g->dist, OF_D, g->marks + 1, marks_len, g->status, OF_D, index);
    g->record = r.next;
    return r.refusal;
}

static uint8_t open_d(grid_d *g, size_t marks_len)
{
    wattlerugby_open_answer r = wattlerugby_open(g->record, g->dist, OF_D, g->marks + 1, marks_len, g->status, OF_D);
    g->record = r.next;
    return r.refusal;
}

/* Whether each of the four calls refuses with this number, or with begin's own, and writes nothing. */
static int all_refuse(const grid_d *given, size_t marks_len, uint8_t of_begin, uint8_t of_others)
{
    grid_d g = *given;
    int wrong = carve_d(&g, marks_len, 1) != of_others;
    wrong += take_d(&g, marks_len, 22) != of_others;
    wrong += open_d(&g, marks_len) != of_others;
    wrong += begin_d(&g, marks_len) != of_begin;
    g.record = given->record;
    return wrong + (memcmp(g.dist, given->dist, sizeof g.dist) != 0) + (memcmp(g.status, given->status, sizeof g.status) != 0);
}

/* Every place of the buffer is read, and no other; its length is checked; and the order of 2, 7, 29, 8 and of begin's 28, 29, 3, 4. */
static int marks_are_read(void)
{
    grid_d g = begun_d(0, 0), other;
    int i, wrong = 0;
    wrong += all_refuse(&g, OF_D - 1, WATTLERUGBY_LENGTH, WATTLERUGBY_LENGTH);
    wrong += all_refuse(&g, OF_D + 1, WATTLERUGBY_LENGTH, WATTLERUGBY_LENGTH);
    for (i = 1; i <= OF_D; i++) {
        g.marks[i] = i % 2 == 0 ? 4 : 255;
        wrong += all_refuse(&g, OF_D, WATTLERUGBY_MARK_BYTE, WATTLERUGBY_MARK_BYTE);
        g.marks[i] = 0;
    }
    memset(g.marks + 1, WATTLERUGBY_PINNED_AND_HURRIED, OF_D);
    other = g;
    wrong += begin_d(&other, OF_D) != 0 || carve_d(&other, OF_D, 9) != 0 || take_d(&other, OF_D, 22) != WATTLERUGBY_PINNED_VOXEL;
    wrong += open_d(&other, OF_D) != WATTLERUGBY_NOTHING_TO_OPEN || other.record.examinations != 0 || other.record.removals != 0;
    /* a bad mark beside something else that is wrong */
    g.marks[1] = 4;
    other = g;
    other.record.euler = 1000;
    other.values[47] = WATTLERUGBY_MISSING + 1;
    wrong += all_refuse(&other, OF_D - 1, WATTLERUGBY_LENGTH, WATTLERUGBY_LENGTH);
    wrong += all_refuse(&other, OF_D, WATTLERUGBY_VALUE, WATTLERUGBY_UNFIT);
    other = g;
    other.record.finished = 1;
    other.values[47] = -6;
    wrong += all_refuse(&other, OF_D, WATTLERUGBY_MARK_BYTE, WATTLERUGBY_MARK_BYTE);
    memset(other.values, 0, sizeof other.values);
    wrong += all_refuse(&other, OF_D, WATTLERUGBY_MARK_BYTE, WATTLERUGBY_MARK_BYTE);
    return wrong;
}

static void print_d(const char *what, const grid_d *g)
{
    printf("  %s: 22 is %u, 25 is %u; examinations %u, removals %u\n", what, g->status[22], g->status[25],
           (unsigned)g->record.examinations, (unsigned)g->record.removals);
}

static int marks(void)
{
    grid_d g = begun_d(0, 0);
    int wrong = marks_are_read();
    printf("marks:\n");
    wrong += carve_d(&g, OF_D, 1) != 0;
    print_d("unmarked, one examination", &g);
    g = begun_d(0, WATTLERUGBY_HURRIED);
    wrong += carve_d(&g, OF_D, 1) != 0;
    print_d("25 hurried, one examination", &g);
    g = begun_d(WATTLERUGBY_PINNED, 0);
    print_d("22 pinned, begun", &g);
    wrong += carve_d(&g, OF_D, WATTLERUGBY_NO_LIMIT) != 0 || take_d(&g, OF_D, 22) != WATTLERUGBY_PINNED_VOXEL;
    wrong += take_d(&g, OF_D, 25) != WATTLERUGBY_GONE_ALREADY || open_d(&g, OF_D) != WATTLERUGBY_NOTHING_TO_OPEN;
    print_d("22 pinned, carved to the end", &g);
    set_marks(&g, 0, WATTLERUGBY_PINNED);
    g.marks[1 + 21] = WATTLERUGBY_PINNED;
    /* a pin taken off wakes nothing; 10 and 11 come before 30 */
    wrong += carve_d(&g, OF_D, WATTLERUGBY_NO_LIMIT) != 0 || g.record.examinations != 1;
    wrong += take_d(&g, OF_D, 25) != WATTLERUGBY_GONE_ALREADY || take_d(&g, OF_D, 21) != WATTLERUGBY_INSIDE;
    wrong += take_d(&g, OF_D, 22) != 0;
    print_d("the pin taken off, 22 taken", &g);
    g = begun_d(WATTLERUGBY_PINNED_AND_HURRIED, 0);
    print_d("22 pinned and hurried, begun", &g);
    wrong += carve_d(&g, OF_D, WATTLERUGBY_NO_LIMIT) != 0 || take_d(&g, OF_D, 22) != WATTLERUGBY_PINNED_VOXEL;
    wrong += open_d(&g, OF_D) != WATTLERUGBY_NOTHING_TO_OPEN;
    print_d("22 pinned and hurried, carved to the end", &g);
    g = begun_d(0, 0);
    set_marks(&g, 0, WATTLERUGBY_PINNED_AND_HURRIED);
    wrong += carve_d(&g, OF_D, 1) != 0;
    print_d("25 pinned and hurried when it is pending, one examination", &g);
    wrong += carve_d(&g, OF_D, 1) != 0;
    print_d("and another", &g);
    g = begun_d(0, 0);
    set_marks(&g, WATTLERUGBY_PINNED, WATTLERUGBY_PINNED);
    wrong += carve_d(&g, OF_D, 1) != 0;
    print_d("both pinned when they are pending, one examination", &g);
    printf("marks: %s\n", wrong ? "WRONG" : "each is read where it stands, and counts for its call");
    return wrong;
}

/* ---- a coarse start, in 8 x 8 x 8: voxels (3, 3, 3) and (4, 4, 4) touch in a corner, and each has a block of its own */

enum { OF_COARSE = 512, BLOCKS = 64 };

typedef struct grid_coarse {
    wattlerugby_sides sides;
    int32_t values[OF_COARSE];
    int32_t dist[OF_COARSE];
    uint8_t marks[OF_COARSE];
    uint8_t status[OF_COARSE];
    int32_t block_dist[BLOCKS];
    uint8_t block_status[BLOCKS];
    wattlerugby_record record;
} grid_coarse;

/* Two voxels are inside, the buffers that begin fills are all 7, and T is 9. */
static grid_coarse two_inside(size_t first, size_t second)
{
    static const wattlerugby_sides sides = {8, 8, 8};
    grid_coarse g;
    size_t i;
    memset(&g, 0, sizeof g);
    memset(g.dist, 7, sizeof g.dist);
    memset(g.status, 7, sizeof g.status);
    memset(g.block_dist, 7, sizeof g.block_dist);
    memset(g.block_status, 7, sizeof g.block_status);
    g.sides = sides;
    for (i = 0; i < OF_COARSE; i++)
        g.values[i] = i == first || i == second ? -5 : 5;
    return g;
}

static wattlerugby_begin_coarse_answer begin_coarse(grid_coarse *g, size_t dist_len, size_t status_len)
{
    size_t n = wattlerugby_voxels(g->sides);
    wattlerugby_begin_coarse_answer r = wattlerugby_begin_coarse(g->sides, 9, g->values, n, g->marks, n, g->dist, n, g->status, n,
                                                                 g->block_dist, dist_len, g->block_status, status_len);
    g->record = r.next;
    return r;
}

static unsigned count(const uint8_t *bytes, size_t length, uint8_t least)
{
    unsigned found = 0;
    while (length-- > 0)
        found += bytes[length] >= least;
    return found;
}

static void print_coarse(const char *what, const grid_coarse *g)
{
    printf("  %s: %u voxels kept, %u of them pending\n", what, count(g->status, OF_COARSE, WATTLERUGBY_KEPT),
           count(g->status, OF_COARSE, WATTLERUGBY_PENDING));
}

/* The number that ends the standard loop. */
static uint8_t carve_coarse(grid_coarse *g)
{
    wattlerugby_open_answer opened;
    do {
        g->record = wattlerugby_carve(g->record, g->dist, OF_COARSE, g->marks, OF_COARSE, g->status, OF_COARSE, WATTLERUGBY_NO_LIMIT).next;
        opened = wattlerugby_open(g->record, g->dist, OF_COARSE, g->marks, OF_COARSE, g->status, OF_COARSE);
        g->record = opened.next;
    } while (opened.refusal == 0);
    return opened.refusal;
}

/* Whether a coarse start refuses with this number, answers nothing else and writes nothing. */
static int refuses_coarse(const grid_coarse *given, size_t dist_len, size_t status_len, uint8_t due)
{
    grid_coarse g = *given;
    wattlerugby_begin_coarse_answer r = begin_coarse(&g, dist_len, status_len);
    int same = memcmp(g.dist, given->dist, sizeof g.dist) == 0 && memcmp(g.status, given->status, sizeof g.status) == 0 &&
               memcmp(g.block_dist, given->block_dist, sizeof g.block_dist) == 0 &&
               memcmp(g.block_status, given->block_status, sizeof g.block_status) == 0;
    if (r.refusal != due)
        printf("  refused %u in place of %u\n", r.refusal, due);
    return same && r.refusal == due && r.examined == 0 && r.next.sides.a == 0 && r.next.euler == 0;
}

/* 2, 28, 29, 3, 4 and 31, each before what is wrong besides. */
static int coarse_numbers(void)
{
    grid_coarse g = two_inside(219, 292);
    int wrong = 0;
    g.values[1 + 8 * (3 + 8 * 3)] = -5;
    wrong += !refuses_coarse(&g, BLOCKS, BLOCKS, WATTLERUGBY_COARSE);
    memset(g.values, 0, sizeof g.values);
    wrong += !refuses_coarse(&g, BLOCKS, BLOCKS, WATTLERUGBY_NO_NEGATIVE);
    /* a side of 7, whose blocks are n / 8 rounded down */
    g.sides.c = 7;
    wrong += !refuses_coarse(&g, 56, 56, WATTLERUGBY_NO_NEGATIVE);
    g.values[219] = -5;
    wrong += !refuses_coarse(&g, 56, 56, WATTLERUGBY_COARSE);
    g.values[0] = -5;
    wrong += !refuses_coarse(&g, 56, 56, WATTLERUGBY_BORDER_NEGATIVE);
    g.marks[5] = 4;
    wrong += !refuses_coarse(&g, 56, 56, WATTLERUGBY_MARK_BYTE);
    g.values[1] = WATTLERUGBY_GREATEST_VALUE + 1;
    wrong += !refuses_coarse(&g, 56, 56, WATTLERUGBY_VALUE);
    wrong += !refuses_coarse(&g, 57, 56, WATTLERUGBY_LENGTH) + !refuses_coarse(&g, 56, 55, WATTLERUGBY_LENGTH);
    g.sides.a = 65;
    return wrong + !refuses_coarse(&g, 56, 56, WATTLERUGBY_SIDE);
}

static int coarse(void)
{
    grid_coarse g = two_inside(219, 292);
    wattlerugby_begin_coarse_answer r = begin_coarse(&g, wattlerugby_blocks(g.sides), wattlerugby_blocks(g.sides));
    int wrong = r.refusal != 0;
    printf("coarse:\n  %u blocks examined, %u of %u kept; the blocks of the two have %d and %d\n", (unsigned)r.examined,
           count(g.block_status, BLOCKS, WATTLERUGBY_KEPT), (unsigned)BLOCKS, (int)g.block_dist[21], (int)g.block_dist[42]);
    print_record(g.record);
    print_coarse("begun", &g);
    wrong += carve_coarse(&g) != WATTLERUGBY_NOTHING_TO_OPEN;
    print_coarse("carved to the end", &g);
    print_record(g.record);
    /* (2, 2, 2) lies in the block of (3, 3, 3), and not in the box around that voxel and (4, 3, 3) */
    g = two_inside(219, 220);
    g.marks[146] = WATTLERUGBY_PINNED;
    g.record = wattlerugby_begin(g.sides, 9, g.values, OF_COARSE, g.marks, OF_COARSE, g.dist, OF_COARSE, g.status, OF_COARSE).next;
    wrong += carve_coarse(&g) != WATTLERUGBY_NOTHING_TO_OPEN;
    print_coarse("one pinned, a plain start carved to the end", &g);
    wrong += begin_coarse(&g, BLOCKS, BLOCKS).refusal != 0 || carve_coarse(&g) != WATTLERUGBY_NOTHING_TO_OPEN;
    print_coarse("one pinned, a coarse start carved to the end", &g);
    wrong += coarse_numbers();
    printf("coarse: %s\n", wrong ? "WRONG" : "blocks are carved first, and a refusal writes nothing");
    return wrong;
}

/* ---- many grids at once: case D three times, of which place 1 has 22 pinned, and place 2 is carved already; then case D and the ring */

typedef struct office_d {
    wattlerugby_grids grids;
    wattlerugby_order order;
    int32_t dist[3 * OF_D];
    uint8_t status[3 * OF_D];
    uint8_t marks[3 * OF_D];
} office_d;

static office_d office(void)
{
    office_d o;
    size_t place;
    memset(&o, 0, sizeof o);
    o.grids.count = 3;
    for (place = 0; place < 3; place++) {
        grid_d g = begun_d(place == 1 ? WATTLERUGBY_PINNED : 0, 0);
        if (place == 2)
            carve_d(&g, OF_D, WATTLERUGBY_NO_LIMIT);
        o.grids.records[place] = g.record;
        memcpy(o.dist + OF_D * place, g.dist, sizeof g.dist);
        memcpy(o.status + OF_D * place, g.status, sizeof g.status);
        memcpy(o.marks + OF_D * place, g.marks + 1, OF_D);
    }
    return o;
}

/* Prints the answer. What is kept between calls is what the call left; after a refusal that is what it was. */
static int serve_d(office_d *o, uint32_t limit)
{
    office_d before = *o;
    wattlerugby_serve_answer r =
        wattlerugby_serve(o->grids, o->order, o->dist, 3 * OF_D, o->marks, 3 * OF_D, o->status, 3 * OF_D, limit);
    size_t i;
    int wrong = memcmp(o->dist, before.dist, sizeof o->dist) != 0 || memcmp(o->marks, before.marks, sizeof o->marks) != 0;
    o->order = r.order;
    if (r.refusal != 0) {
        printf("  limit %u: refused %u\n", (unsigned)limit, r.refusal);
        wrong += r.place != 0 || r.examined != 0 || r.removed != 0 || r.pending || r.face != 0 || r.next.sides.a != 0;
        return wrong + (r.order.len != before.order.len) + (memcmp(r.order.places, before.order.places, 16) != 0) +
               (memcmp(o->status, before.status, sizeof o->status) != 0);
    }
    o->grids.records[r.place] = r.next;
    printf("  limit %u: place %u, examined %u, removed %u, %s, face %u, order", (unsigned)limit, r.place, (unsigned)r.examined,
           (unsigned)r.removed, r.pending ? "some pending" : "nothing pending", (unsigned)r.face);
    for (i = 0; i < r.order.len; i++)
        printf(" %u", r.order.places[i]);
    printf("\n");
    for (i = r.order.len; i < WATTLERUGBY_MOST_GRIDS; i++)
        wrong += r.order.places[i] != 0;
    return wrong;
}

static int serving(void)
{
    office_d o = office(), spoilt;
    size_t i;
    int wrong = 0;
    printf("serve:\n");
    for (i = 0; i < 4; i++)
        wrong += serve_d(&o, 1);
    wrong += serve_d(&o, 1) + serve_d(&o, 0) + serve_d(&o, 1001);
    o = office();
    wrong += serve_d(&o, 1000);
    /* bytes of the order record past its length, and records past the count, are not looked at */
    memset(o.order.places + o.order.len, GUARD, sizeof o.order.places - o.order.len);
    memset(o.grids.records + 3, GUARD, 13 * sizeof o.grids.records[0]);
    wrong += serve_d(&o, 1000);
    spoilt = office();
    spoilt.order.len = 2;
    wrong += serve_d(&spoilt, 1);
    spoilt.order.len = 1;
    spoilt.order.places[0] = 3;
    wrong += serve_d(&spoilt, 1);
    spoilt.order.len = SIZE_MAX;
    wrong += serve_d(&spoilt, 1);
    spoilt = office();
    spoilt.order.len = 1;
    spoilt.marks[3 * OF_D - 1] = 4;
    wrong += serve_d(&spoilt, 1);
    spoilt.status[OF_D] = 1;
    wrong += serve_d(&spoilt, 1);
    spoilt.grids.records[2].sides.c = 2;
    wrong += serve_d(&spoilt, 1);
    spoilt = office();
    spoilt.grids.records[2].finished = 7;
    wrong += serve_d(&spoilt, 1);
    spoilt.grids.count = 2;
    wrong += serve_d(&spoilt, 1);
    spoilt.grids.count = 17;
    wrong += serve_d(&spoilt, 1);
    spoilt.grids.count = 0;
    wrong += serve_d(&spoilt, 1);
    printf("serve: %s\n", wrong ? "WRONG" : "as the header says, and a refusal leaves everything");
    return wrong;
}

/* ---- removal lists, on case D: 22 and 25 pass, 21 and 26 are inside, and one opening is allowed */

/* The list of these voxels, each an opening where its sign is negative. */
static size_t list_of(const int *voxels, size_t count, uint8_t *list)
{
    size_t i;
    for (i = 0; i < count; i++)
        wattlerugby_entry((uint32_t)(voxels[i] < 0 ? -voxels[i] : voxels[i]), voxels[i] < 0, list + WATTLERUGBY_ENTRY_LENGTH * i);
    return WATTLERUGBY_ENTRY_LENGTH * count;
}

/* Judges, and prints the answer; both buffers are to end as they began. The list stands alone in its memory, which a checker of addresses sees. */
static int judge_d(const char *what, const grid_d *given, size_t dist_len, size_t status_len, const uint8_t *list, size_t list_len)
{
    grid_d g = *given;
    wattlerugby_judge_answer r = wattlerugby_judge(g.record, g.dist, dist_len, g.status, status_len, list, list_len);
    printf("  %s: refused %u, removals %u, openings %u, Euler number %d\n", what, r.refusal, (unsigned)r.removals, (unsigned)r.openings,
           (int)r.euler);
    return memcmp(g.dist, given->dist, sizeof g.dist) != 0 || memcmp(g.status, given->status, sizeof g.status) != 0;
}

static int lists(void)
{
    static const struct {
        const char *what;
        int voxels[2];
        size_t count, more; /* entries, and how many of its bytes a further one keeps */
    } some[] = {
        {"both", {22, 25}, 2, 0},          {"the other way round", {25, 22}, 2, 0}, {"one", {22}, 1, 0},
        {"none", {0}, 0, 0},               {"one twice", {25, 25}, 2, 0},           {"inside", {22, 21}, 2, 0},
        {"an opening that passes", {-22, 25}, 2, 0}, {"beyond the grid", {48, 21}, 2, 0}, {"inside before beyond", {21, 48}, 2, 0},
        {"both, and a byte", {22, 25}, 2, 1}, {"both, and five bytes", {22, 25}, 2, 5},
    };
    uint8_t list[3 * WATTLERUGBY_ENTRY_LENGTH];
    grid_d g = begun_d(0, 0), other = g;
    size_t i, length;
    int wrong = 0;
    printf("lists:\n");
    for (i = 0; i < sizeof some / sizeof some[0]; i++) {
        length = list_of(some[i].voxels, some[i].count, list);
        wattlerugby_entry(22, false, list + length);
        wrong += judge_d(some[i].what, &g, OF_D, OF_D, list, length + some[i].more);
    }
    length = list_of(some[0].voxels, 2, list);
    list[7] = 0x50;
    wrong += judge_d("another mark", &g, OF_D, OF_D, list, length);
    /* 1, 2, 7 and 8 come before the first entry, and of a fit record the counts are not read */
    list[0] = 0;
    other.record.sides.c = 65;
    wrong += judge_d("an unfit side", &other, OF_D, OF_D, list, length);
    wrong += judge_d("a distance too few", &g, OF_D - 1, OF_D, list, length) + judge_d("a status too few", &g, OF_D, OF_D - 1, list, length);
    other = g;
    other.record.finished = 1;
    wrong += judge_d("a finished grid", &other, OF_D, OF_D, list, length);
    other.record.openings = 2;
    wrong += judge_d("and an unfit record", &other, OF_D, OF_D, list, length);
    other = g;
    other.record.openings = 1;
    other.record.removals = 40;
    other.record.euler = -7;
    length = list_of(some[1].voxels, 2, list);
    wrong += judge_d("other counts before", &other, OF_D, OF_D, list, length);
    printf("lists: %s\n", wrong ? "WRONG" : "both buffers end as they began");
    return wrong;
}

/* ---- faces: a block of 3 x 3 x 3 voxels, of which the middle one of each side in turn is outside. It comes out by that side, whichever call
 * removes it. */

static wattlerugby_record begin_block(size_t outside, const uint8_t *lent, int32_t *dist, uint8_t *status)
{
    const wattlerugby_sides sides = {5, 5, 5};
    int32_t values[LARGEST];
    size_t i;
    for (i = 0; i < LARGEST; i++) {
        int inner = i % 5 % 4 != 0 && i / 5 % 5 % 4 != 0 && i / 25 % 4 != 0;
        values[i] = inner && i != outside ? -7 : 7;
    }
    return wattlerugby_begin(sides, 1, values, LARGEST, lent, LARGEST, dist, LARGEST, status, LARGEST).next;
}

static int comes_out_by(uint32_t face)
{
    static const int across[6] = {-1, 1, -5, 5, -25, 25};
    const size_t outside = (size_t)(62 + across[face]);
    int32_t dist[LARGEST];
    uint8_t status[LARGEST], pins[LARGEST] = {0};
    wattlerugby_record record = begin_block(outside, unmarked, dist, status);
    const wattlerugby_carve_answer none = wattlerugby_carve(record, dist, LARGEST, unmarked, LARGEST, status, LARGEST, 0);
    const wattlerugby_carve_answer carved = wattlerugby_carve(record, dist, LARGEST, unmarked, LARGEST, status, LARGEST, 1);
    wattlerugby_take_answer taken;
    wattlerugby_open_answer opened;
    record = begin_block(outside, unmarked, dist, status);
    taken = wattlerugby_take(record, dist, LARGEST, unmarked, LARGEST, status, LARGEST, outside);
    /* pinned when the grid begins, so that it is not pending and open does not refuse */
    pins[outside] = WATTLERUGBY_PINNED;
    record = begin_block(outside, pins, dist, status);
    opened = wattlerugby_open(record, dist, LARGEST, unmarked, LARGEST, status, LARGEST);
    printf("  voxel %u: carve %u, take %u, open %u\n", (unsigned)outside, (unsigned)carved.face, (unsigned)taken.face, (unsigned)opened.face);
    return none.face == WATTLERUGBY_NO_FACE && none.refusal + carved.refusal + taken.refusal + opened.refusal == 0 &&
           carved.face == face && taken.face == face && opened.face == face;
}

/* All neighbours across lower numbered faces are kept, for each face, and all six. */
static int faces(void)
{
    static const uint32_t across[7] = {12, 14, 10, 16, 4, 22, 13};
    uint32_t face, kept = 0;
    int wrong = 0;
    printf("faces:\n");
    for (face = WATTLERUGBY_LOW_X; face < WATTLERUGBY_NO_FACE; face++)
        wrong += !comes_out_by(face);
    for (face = WATTLERUGBY_LOW_X; face <= WATTLERUGBY_NO_FACE; face++) {
        wrong += wattlerugby_local_test(kept).face != face;
        kept |= (uint32_t)1 << across[face];
    }
    printf("faces: %s\n", wrong ? "WRONG" : "a voxel comes out by the lowest that is bare");
    return wrong;
}

/* ---- a file out, and in again */

static wattlerugby_write_answer write_file(wattlerugby_sides sides, const int32_t *values, size_t count, uint8_t *file, size_t room)
{
    wattlerugby_write_answer r = wattlerugby_write(sides, 0xABCD, values, count, file, room);
    printf("write %u values, room for %u bytes: ", (unsigned)count, (unsigned)room);
    if (r.refusal != 0)
        printf("refused %u\n", r.refusal);
    else
        printf("length %u\n", (unsigned)r.length);
    return r;
}

static int files(void)
{
    enum { VALUES = 60, LENGTH = 142, ROOM = LENGTH + 3 };
    const wattlerugby_sides sides = {3, 4, 5}, unfit = {2, 4, 5};
    int32_t values[VALUES], again[VALUES];
    uint8_t file[ROOM], untouched[ROOM];
    wattlerugby_read_answer back;
    int i, wrong = 0;
    for (i = 0; i < VALUES; i++)
        values[i] = i == 0 ? WATTLERUGBY_MISSING : 1000 * (i - 30);
    memset(file, 0xEE, ROOM);
    memset(untouched, 0xEE, ROOM);
    wrong += write_file(unfit, values, VALUES, file, ROOM).refusal != WATTLERUGBY_SIDE;
    wrong += write_file(sides, values, VALUES - 1, file, ROOM).refusal != WATTLERUGBY_LENGTH;
    wrong += write_file(sides, values, VALUES, file, LENGTH - 1).refusal != WATTLERUGBY_ROOM;
    wrong += memcmp(file, untouched, ROOM) != 0;
    wrong += write_file(sides, values, VALUES, file, ROOM).length != wattlerugby_written_length(sides, WATTLERUGBY_NARROW);
    wrong += memcmp(file + LENGTH, untouched, ROOM - LENGTH) != 0;
    for (i = 0; i < 14; i++)
        printf("%s%02X", i == 0 ? "  " : " ", file[i]);
    back = wattlerugby_read(file, LENGTH, again, VALUES);
    wrong += back.refusal != 0 || back.allowed != 0xABCD || memcmp(&back.sides, &sides, sizeof sides) != 0;
    wrong += memcmp(values, again, sizeof values) != 0;
    printf(" ..\n  %s\n", wrong ? "WRONG" : "reads as what was written");
    return wrong;
}

/* ---- patches: each read of the file is told by its answer and the value of voxel 21 */

enum { LAYERS = 142, VOXELS = 60 };

static int32_t read_patched(const uint8_t *file, size_t length, uint8_t due)
{
    int32_t values[VOXELS];
    wattlerugby_read_answer r;
    int i, wrong = 0;
    for (i = 0; i < VOXELS; i++)
        values[i] = 77;
    r = wattlerugby_read(file, length, values, VOXELS);
    for (i = 0; i < VOXELS; i++)
        wrong += r.refusal == 0 ? i != 21 && values[i] != i : values[i] != 77;
    wrong += r.refusal != due;
    printf("read %u bytes: ", (unsigned)length);
    if (r.refusal != 0)
        printf("refused %u, %s\n", r.refusal, wattlerugby_reason(r.refusal));
    else
        printf("voxel 21 is %d\n", (int)values[21]);
    return wrong ? 0 : values[21];
}

static int patches(void)
{
    static const uint8_t behind[] = {
        0x56, 0x50, 21, 0, 0, 0, 0xFE, 0xFF, /* voxel 21 is -2 */
        0x56, 0x50, 21, 0, 0, 0, 0x00, 0x80, /* it is missing */
        0x56, 0x50, 60, 0, 0, 0, 0x01, 0x00  /* there is no voxel 60 */
    };
    const wattlerugby_sides sides = {3, 4, 5};
    int32_t values[VOXELS];
    uint8_t file[LAYERS + sizeof behind], again[LAYERS];
    int i, wrong = 0;
    for (i = 0; i < VOXELS; i++)
        values[i] = i;
    wrong += wattlerugby_write(sides, 0, values, VOXELS, file, LAYERS).length != LAYERS;
    memcpy(file + LAYERS, behind, sizeof behind);
    wrong += read_patched(file, LAYERS, 0) != 21;
    wrong += read_patched(file, LAYERS + 1, WATTLERUGBY_SHORT) != 77;
    wrong += read_patched(file, LAYERS + 8, 0) != -2;
    wrong += read_patched(file, LAYERS + 15, WATTLERUGBY_SHORT) != 77;
    wrong += read_patched(file, LAYERS + 16, 0) != WATTLERUGBY_MISSING;
    wrong += read_patched(file, LAYERS + 24, WATTLERUGBY_INDEX) != 77;
    file[LAYERS + 17] = 0x4C;
    wrong += read_patched(file, LAYERS + 24, WATTLERUGBY_MARK) != 77;
    /* what was read is written without patches */
    wrong += wattlerugby_read(file, LAYERS + 8, values, VOXELS).refusal != 0;
    wrong += wattlerugby_write(sides, 0, values, VOXELS, again, LAYERS).length != LAYERS;
    wrong += read_patched(again, LAYERS, 0) != -2;
    printf("patches: %s\n", wrong ? "WRONG" : "the later stands, and a refused file writes nothing");
    return wrong;
}

/* ---- layers out of order: read refuses the file, and each layer is found by itself */

static int order(void)
{
    const wattlerugby_sides sides = {3, 4, 5};
    int32_t values[VOXELS];
    uint8_t file[LAYERS];
    size_t record = 3 + 2 * 3 * 4;
    int z, wrong = 0;
    for (z = 0; z < VOXELS; z++)
        values[z] = z;
    wrong += wattlerugby_write(sides, 0, values, VOXELS, file, LAYERS).length != LAYERS;
    for (z = 0; z < 5; z++) {
        wattlerugby_read_layer_answer r;
        file[7 + (size_t)z * record + 2] = (uint8_t)(4 - z);
        r = wattlerugby_read_layer(sides, file, LAYERS, 7 + (size_t)z * record);
        wrong += r.refusal != 0 || r.z != 4 - z || r.width != WATTLERUGBY_NARROW || r.to - r.from != 2 * 3 * 4;
    }
    wrong += read_patched(file, LAYERS, WATTLERUGBY_LAYER_ORDER) != 77;
    file[7 + 2] = 0;
    file[7 + record + 2] = 0;
    wrong += read_patched(file, LAYERS, WATTLERUGBY_LAYER_TWICE) != 77;
    printf("layers: %s\n", wrong ? "WRONG" : "in rising z, or the file is refused and writes nothing");
    return wrong;
}

/* ---- both widths: a grid that needs four bytes a value goes out wide and comes in again; a narrow layer may stand among them */

#if WATTLERUGBY_MISSING >= WATTLERUGBY_LEAST_VALUE || WATTLERUGBY_VALUE_BITS != 32
#error "the missing mark lies below the measured values"
#endif

enum { WIDE_LAYERS = 262 };

static void print_layers(wattlerugby_sides sides, const uint8_t *file, size_t length)
{
    size_t start = 7;
    wattlerugby_read_layer_answer r;
    for (r = wattlerugby_read_layer(sides, file, length, start); r.refusal == 0; r = wattlerugby_read_layer(sides, file, length, start)) {
        printf("  layer %u: %u bytes a value, from %u to %u\n", r.z, r.width, (unsigned)r.from, (unsigned)r.to);
        start = r.to;
    }
    printf("  then refused %u, of width %u\n", r.refusal, r.width);
}

/* Takes the place of the first layer, which is wide, by a narrow one of the same values: two bytes each are left out. */
static size_t narrow_first_layer(uint8_t *file, const int32_t *values)
{
    size_t i;
    file[8] = 0x4C;
    for (i = 0; i < 12; i++) {
        int32_t v = values[i] == WATTLERUGBY_MISSING ? WATTLERUGBY_NARROW_MISSING : values[i];
        file[10 + 2 * i] = (uint8_t)((uint32_t)v & 255);
        file[11 + 2 * i] = (uint8_t)((uint32_t)v >> 8 & 255);
    }
    memmove(file + 10 + 2 * 12, file + 10 + 4 * 12, WIDE_LAYERS - 10 - 4 * 12);
    return WIDE_LAYERS - 2 * 12;
}

static int widths(void)
{
    const wattlerugby_sides sides = {3, 4, 5};
    int32_t values[VOXELS], again[VOXELS], dist[VOXELS];
    uint8_t file[WIDE_LAYERS], status[VOXELS];
    size_t length;
    int i, wrong = 0;
    for (i = 0; i < VOXELS; i++)
        values[i] = i < 12 ? 100 * (i - 6) : 20000000 * (i - 12);
    values[0] = WATTLERUGBY_MISSING;
    values[13] = WATTLERUGBY_GREATEST_VALUE;
    values[14] = WATTLERUGBY_LEAST_VALUE;
    values[15] = WATTLERUGBY_MISSING;
    values[16] = WATTLERUGBY_NARROW_MISSING;
    wrong += wattlerugby_written_length(sides, wattlerugby_written_width(values, VOXELS)) != WIDE_LAYERS;
    wrong += wattlerugby_written_length(sides, 3) != 0;
    wrong += write_file(sides, values, VOXELS, file, WIDE_LAYERS - 1).refusal != WATTLERUGBY_ROOM;
    wrong += write_file(sides, values, VOXELS, file, WIDE_LAYERS).length != WIDE_LAYERS;
    print_layers(sides, file, WIDE_LAYERS);
    wrong += wattlerugby_read(file, WIDE_LAYERS, again, VOXELS).refusal != 0 || memcmp(values, again, sizeof values) != 0;
    length = narrow_first_layer(file, values);
    memset(again, 0, sizeof again);
    print_layers(sides, file, length);
    wrong += wattlerugby_read(file, length, again, VOXELS).refusal != 0 || memcmp(values, again, sizeof values) != 0;
    /* a value out of range: in a file, lent to write, and lent to begin */
    memset(file + 10 + 2 * 12 + 3, 0x7F, 4);
    wrong += wattlerugby_read(file, length, again, VOXELS).refusal != WATTLERUGBY_VALUE || memcmp(values, again, sizeof values) != 0;
    values[59] = WATTLERUGBY_GREATEST_VALUE + 1;
    wrong += write_file(sides, values, VOXELS, file, 0).refusal != WATTLERUGBY_VALUE;
    wrong += wattlerugby_begin(sides, 0, values, VOXELS, unmarked, VOXELS, dist, VOXELS, status, VOXELS).refusal != WATTLERUGBY_VALUE;
    values[59] = WATTLERUGBY_LEAST_VALUE - 1;
    wrong += wattlerugby_begin(sides, 0, values, VOXELS, unmarked, VOXELS, dist, VOXELS, status, VOXELS).refusal != WATTLERUGBY_VALUE;
    printf("widths: %s\n", wrong ? "WRONG" : "both read as what was written, and a value out of range is refused");
    return wrong;
}

/* ---- practice grids: 5 x 4 x 3 voxels, beside the header's rule in C, with one element behind them */

enum { OF_P = 60 };

static int practice_one(wattlerugby_sides sides, uint32_t seed, size_t lent)
{
    int32_t values[OF_P + 1];
    uint32_t s = seed;
    size_t i;
    int wrong = 0;
    wattlerugby_practice_answer r;
    for (i = 0; i <= OF_P; i++)
        values[i] = 7;
    r = wattlerugby_practice(sides, seed, values, lent);
    printf("practice %u: refused %u, voxels 25 to 29 are", (unsigned)seed, r.refusal);
    for (i = 25; i < 30; i++)
        printf(" %d", (int)values[i]);
    printf("\n");
    for (i = 0; i < OF_P && r.refusal == 0; i++) {
        const size_t x = i % 5, y = i / 5 % 4, z = i / 20;
        s += 0x9E3779B9u;
        if (x == 0 || x == 4 || y == 0 || y == 3 || z == 0 || z == 2)
            wrong += values[i] != 1000;
        else
            wrong += values[i] != (int32_t)((s ^ (s >> 16)) % 2001) - 1000;
    }
    for (i = r.refusal == 0 ? OF_P : 0; i <= OF_P; i++)
        wrong += values[i] != 7;
    return wrong;
}

static int practice(void)
{
    static const uint32_t seeds[] = {0, 1, 2026, 0x7FFFFFFF, 0x80000000, UINT32_MAX};
    const wattlerugby_sides sides = {5, 4, 3}, unfit = {5, 4, 2};
    size_t i;
    int wrong = 0;
    for (i = 0; i < sizeof seeds / sizeof seeds[0]; i++)
        wrong += practice_one(sides, seeds[i], OF_P);
    wrong += practice_one(unfit, 1, OF_P) + practice_one(sides, 1, OF_P - 1) + practice_one(sides, 1, OF_P + 1);
    printf("practice: %s\n", wrong ? "WRONG" : "as the header says, and a refusal writes nothing");
    return wrong;
}

/* ---- null pointers with length 0 */

static int nulls(void)
{
    const wattlerugby_sides fit = {3, 3, 3}, unfit = {3, 3, 65};
    const uint8_t header[7] = {0x56, 0x48, 3, 3, 3, 0, 0};
    const int32_t values[27] = {0};
    const int32_t dist[27] = {0};
    int32_t written[27] = {0};
    uint8_t status[27] = {0};
    wattlerugby_points_answer filled;
    wattlerugby_grids grids;
    wattlerugby_order order;
    wattlerugby_record r;
    int wrong = 0;
    memset(&r, 0, sizeof r);
    r.sides = fit;
    wrong += wattlerugby_begin(fit, 0, NULL, 0, NULL, 0, NULL, 0, NULL, 0).refusal != WATTLERUGBY_LENGTH;
    wrong += wattlerugby_begin(unfit, 0, NULL, 0, NULL, 0, NULL, 0, NULL, 0).refusal != WATTLERUGBY_SIDE;
    wrong += wattlerugby_begin_coarse(fit, 0, NULL, 0, NULL, 0, NULL, 0, NULL, 0, NULL, 0, NULL, 0).refusal != WATTLERUGBY_LENGTH;
    wrong += wattlerugby_begin_coarse(unfit, 0, NULL, 0, NULL, 0, NULL, 0, NULL, 0, NULL, 0, NULL, 0).refusal != WATTLERUGBY_SIDE;
    wrong += wattlerugby_begin_coarse(fit, 0, values, 27, unmarked, 27, written, 27, status, 27, NULL, 0, NULL, 0).refusal !=
             WATTLERUGBY_LENGTH;
    wrong += wattlerugby_carve(r, NULL, 0, NULL, 0, NULL, 0, 1).refusal != WATTLERUGBY_LENGTH;
    wrong += wattlerugby_take(r, NULL, 0, NULL, 0, NULL, 0, 13).refusal != WATTLERUGBY_LENGTH;
    wrong += wattlerugby_open(r, NULL, 0, NULL, 0, NULL, 0).refusal != WATTLERUGBY_LENGTH;
    memset(&grids, 0, sizeof grids);
    memset(&order, 0, sizeof order);
    wrong += wattlerugby_serve(grids, order, NULL, 0, NULL, 0, NULL, 0, 1).refusal != WATTLERUGBY_OFFICE;
    grids.count = 1;
    wrong += wattlerugby_serve(grids, order, NULL, 0, NULL, 0, NULL, 0, 1).refusal != WATTLERUGBY_SIDE;
    grids.records[0] = r;
    wrong += wattlerugby_serve(grids, order, NULL, 0, NULL, 0, NULL, 0, 1).refusal != WATTLERUGBY_LENGTH;
    wrong += wattlerugby_serve(grids, order, dist, 27, NULL, 0, status, 27, 1).refusal != WATTLERUGBY_LENGTH;
    wrong += wattlerugby_serve(grids, order, dist, 27, unmarked, 27, status, 27, 1).refusal != WATTLERUGBY_NOTHING_PENDING;
    /* the marks alone: there is no leaving them out */
    wrong += wattlerugby_begin(fit, 0, values, 27, NULL, 0, written, 27, status, 27).refusal != WATTLERUGBY_LENGTH;
    wrong += wattlerugby_carve(r, dist, 27, NULL, 0, status, 27, 1).refusal != WATTLERUGBY_LENGTH;
    wrong += wattlerugby_take(r, dist, 27, NULL, 0, status, 27, 13).refusal != WATTLERUGBY_LENGTH;
    wrong += wattlerugby_open(r, dist, 27, NULL, 0, status, 27).refusal != WATTLERUGBY_LENGTH;
    wrong += wattlerugby_judge(r, NULL, 0, NULL, 0, NULL, 0).refusal != WATTLERUGBY_LENGTH;
    /* a list without entries, on a grid of which nothing is kept */
    wrong += wattlerugby_judge(r, dist, 27, status, 27, NULL, 0).refusal != 0;
    wrong += wattlerugby_finish(r, NULL, 0, NULL, 0).refusal != WATTLERUGBY_LENGTH;
    wrong += wattlerugby_crossing(r, NULL, 0, NULL, 0, 13, 0).refusal != WATTLERUGBY_LENGTH;
    wrong += wattlerugby_points(r, NULL, 0, NULL, 0, 0, NULL, 0).refusal != WATTLERUGBY_LENGTH;
    wrong += wattlerugby_read(NULL, 0, NULL, 0).refusal != WATTLERUGBY_SHORT;
    wrong += wattlerugby_read(header, 7, NULL, 0).refusal != WATTLERUGBY_LENGTH;
    wrong += wattlerugby_read_layer(fit, NULL, 0, 7).refusal != WATTLERUGBY_SHORT;
    wrong += wattlerugby_write(unfit, 0, NULL, 0, NULL, 0).refusal != WATTLERUGBY_SIDE;
    wrong += wattlerugby_write(fit, 0, NULL, 0, NULL, 0).refusal != WATTLERUGBY_LENGTH;
    wrong += wattlerugby_write(fit, 0, values, 27, NULL, 0).refusal != WATTLERUGBY_ROOM;
    wrong += wattlerugby_practice(unfit, 1, NULL, 0).refusal != WATTLERUGBY_SIDE;
    wrong += wattlerugby_practice(fit, 1, NULL, 0).refusal != WATTLERUGBY_LENGTH;
    r.finished = 1;
    filled = wattlerugby_points(r, dist, 27, status, 27, 5, NULL, 0);
    wrong += filled.refusal != 0 || filled.count != 0 || filled.next != 5;
    printf("null pointers: %s\n", wrong ? "WRONG" : "as with any other of length 0");
    return wrong;
}

/* ---- padding: the same fields between bytes of every value */

static wattlerugby_record padded(wattlerugby_record r, int byte)
{
    wattlerugby_record p;
    memset(&p, byte, sizeof p);
    p.sides.a = r.sides.a;
    p.sides.b = r.sides.b;
    p.sides.c = r.sides.c;
    p.allowed = r.allowed;
    p.openings = r.openings;
    p.removals = r.removals;
    p.examinations = r.examinations;
    p.euler = r.euler;
    p.finished = r.finished;
    return p;
}

static int padding(void)
{
    int32_t values[27];
    int32_t dist[27];
    uint8_t status[27];
    double out[18];
    const wattlerugby_sides sides = {3, 3, 3};
    wattlerugby_grids grids;
    wattlerugby_order order;
    int i, byte, wrong = 0;
    for (i = 0; i < 27; i++)
        values[i] = i == 13 ? -5 : 5;
    for (byte = 0; byte < 256; byte++) {
        wattlerugby_record r = padded(wattlerugby_begin(sides, 0, values, 27, unmarked, 27, dist, 27, status, 27).next, byte);
        wrong += wattlerugby_carve(r, dist, 27, unmarked, 27, status, 27, WATTLERUGBY_NO_LIMIT).refusal != 0;
        wrong += wattlerugby_take(r, dist, 27, unmarked, 27, status, 27, 13).refusal != WATTLERUGBY_INSIDE;
        wrong += wattlerugby_open(r, dist, 27, unmarked, 27, status, 27).refusal != WATTLERUGBY_NO_OPENING_LEFT;
        wrong += wattlerugby_judge(r, dist, 27, status, 27, NULL, 0).refusal != 0;
        memset(&grids, byte, sizeof grids);
        grids.count = 1;
        grids.records[0] = r;
        memset(&order, byte, sizeof order);
        order.len = 0;
        wrong += wattlerugby_serve(grids, order, dist, 27, unmarked, 27, status, 27, 1).refusal != WATTLERUGBY_NOTHING_PENDING;
        r = padded(wattlerugby_finish(r, dist, 27, status, 27).next, byte);
        wrong += wattlerugby_crossing(r, dist, 27, status, 27, 13, 0).point.x != 1.5;
        wrong += wattlerugby_points(r, dist, 27, status, 27, 0, out, 18).count != 6 || out[9] != 1.5;
    }
    printf("padding: %s\n", wrong ? "WRONG" : "not looked at");
    return wrong;
}

/* ---- finished: any value but 0, handed back as it was given where a call refuses */

static int finished_bytes(void)
{
    const wattlerugby_sides sides = {3, 3, 3};
    int32_t dist[27] = {0};
    uint8_t status[27] = {0};
    wattlerugby_grids grids;
    wattlerugby_order order;
    wattlerugby_record r;
    int byte, wrong = 0;
    memset(&r, 0, sizeof r);
    memset(&grids, 0, sizeof grids);
    memset(&order, 0, sizeof order);
    r.sides = sides;
    wrong += wattlerugby_carve(r, dist, 27, unmarked, 27, status, 27, 1).refusal != 0;
    for (byte = 1; byte < 256; byte++) {
        wattlerugby_carve_answer carved;
        wattlerugby_take_answer taken;
        wattlerugby_open_answer opened;
        wattlerugby_finish_answer closed;
        r.finished = (uint8_t)byte;
        carved = wattlerugby_carve(r, dist, 27, unmarked, 27, status, 27, 1);
        taken = wattlerugby_take(r, dist, 27, unmarked, 27, status, 27, 13);
        opened = wattlerugby_open(r, dist, 27, unmarked, 27, status, 27);
        closed = wattlerugby_finish(r, dist, 27, status, 27);
        wrong += carved.refusal != WATTLERUGBY_FINISHED || carved.next.finished != byte;
        wrong += taken.refusal != WATTLERUGBY_FINISHED || taken.next.finished != byte;
        wrong += opened.refusal != WATTLERUGBY_FINISHED || opened.next.finished != byte;
        wrong += closed.refusal != WATTLERUGBY_FINISHED || closed.next.finished != byte;
        wrong += wattlerugby_judge(r, dist, 27, status, 27, NULL, 0).refusal != WATTLERUGBY_FINISHED;
        grids.count = 1;
        grids.records[0] = r;
        wrong += wattlerugby_serve(grids, order, dist, 27, unmarked, 27, status, 27, 1).refusal != WATTLERUGBY_FINISHED;
        wrong += wattlerugby_crossing(r, dist, 27, status, 27, 13, 0).refusal != 0;
        wrong += wattlerugby_points(r, dist, 27, status, 27, 0, NULL, 0).refusal != 0;
    }
    printf("finished: %s\n", wrong ? "WRONG" : "any value but 0");
    return wrong;
}

/* ---- numbers: each name with its number and text, then what any other number says */

#if WATTLERUGBY_VERSION_NUMBER < 7000
#error "the version is a number that the preprocessor compares"
#endif

#define NUMBER(name) printf("%s %u %s\n", #name, (unsigned)WATTLERUGBY_##name, wattlerugby_reason(WATTLERUGBY_##name))

static void print_face(const char *name, int face)
{
    printf("%s %d axis %d %s\n", name, face, face / 2, face % 2 ? "true" : "false");
}

static void numbers(void)
{
    printf("version %s, %u, of the archive %u\n", wattlerugby_version(), (unsigned)WATTLERUGBY_VERSION_NUMBER,
           (unsigned)wattlerugby_version_number());
    NUMBER(SIDE);
    NUMBER(LENGTH);
    NUMBER(BORDER_NEGATIVE);
    NUMBER(NO_NEGATIVE);
    NUMBER(INDEX);
    NUMBER(AXIS);
    NUMBER(UNFIT);
    NUMBER(FINISHED);
    NUMBER(NOT_FINISHED);
    NUMBER(GONE_ALREADY);
    NUMBER(INSIDE);
    NUMBER(NOT_PASSED);
    NUMBER(STILL_PENDING);
    NUMBER(NO_OPENING_LEFT);
    NUMBER(NOTHING_TO_OPEN);
    NUMBER(SHORT);
    NUMBER(MARK);
    NUMBER(LAYER);
    NUMBER(LAYER_TWICE);
    NUMBER(BYTES_LEFT);
    NUMBER(ROOM);
    NUMBER(LAYER_ORDER);
    NUMBER(VALUE);
    NUMBER(MARK_BYTE);
    NUMBER(PINNED_VOXEL);
    NUMBER(COARSE);
    NUMBER(BREAKS_RULES);
    NUMBER(STILL_PASSES);
    NUMBER(OFFICE);
    NUMBER(NOTHING_PENDING);
    printf("255 %s\n", wattlerugby_reason(255));
    printf("most grids %u, most examinations %u\n", (unsigned)WATTLERUGBY_MOST_GRIDS, (unsigned)WATTLERUGBY_MOST_EXAMINATIONS);
    printf("longest file %u\n", (unsigned)WATTLERUGBY_LONGEST_FILE);
    printf("values of %d bits, %d to %d, missing %d\n", WATTLERUGBY_VALUE_BITS, WATTLERUGBY_LEAST_VALUE, WATTLERUGBY_GREATEST_VALUE,
           WATTLERUGBY_MISSING);
    printf("layers of %d bytes a value, missing %d, and of %d\n", WATTLERUGBY_NARROW, WATTLERUGBY_NARROW_MISSING, WATTLERUGBY_WIDE);
    printf("status %d %d %d\n", WATTLERUGBY_GONE, WATTLERUGBY_KEPT, WATTLERUGBY_PENDING);
    printf("marks %d %d %d %d\n", WATTLERUGBY_UNMARKED, WATTLERUGBY_PINNED, WATTLERUGBY_HURRIED, WATTLERUGBY_PINNED_AND_HURRIED);
    print_face("low x", WATTLERUGBY_LOW_X);
    print_face("high x", WATTLERUGBY_HIGH_X);
    print_face("low y", WATTLERUGBY_LOW_Y);
    print_face("high y", WATTLERUGBY_HIGH_Y);
    print_face("low z", WATTLERUGBY_LOW_Z);
    print_face("high z", WATTLERUGBY_HIGH_Z);
    printf("no face %d\n", WATTLERUGBY_NO_FACE);
}

/* ---- lengths: a line `A B C VOXELS BLOCKS NARROW WIDE`, with the length of either width, for each side from 2 to 65 along each axis, beside
 * some along the others; then for sides whose product is too large for a size_t */

static void length(size_t a, size_t b, size_t c)
{
    const wattlerugby_sides sides = {a, b, c};
    printf("%zu %zu %zu %zu %zu %zu %zu\n", a, b, c, wattlerugby_voxels(sides), wattlerugby_blocks(sides),
           wattlerugby_written_length(sides, WATTLERUGBY_NARROW), wattlerugby_written_length(sides, WATTLERUGBY_WIDE));
}

static void lengths(void)
{
    static const size_t some[] = {2, 3, 5, 64, 65}, large[] = {0, 3, (size_t)1 << 32, (size_t)1 << 63, SIZE_MAX};
    size_t side, i, j, k;
    for (i = 0; i < 5; i++)
        for (j = 0; j < 5; j++) {
            for (side = 2; side <= 65; side++) {
                length(side, some[i], some[j]);
                length(some[i], side, some[j]);
                length(some[i], some[j], side);
            }
            for (k = 0; k < 5; k++)
                length(large[i], large[j], large[k]);
        }
}

/* ---- widths: a line `WIDTH V V V` for some values, each at an end of its range */

static void print_widths(void)
{
    static const int32_t some[][3] = {
        {0, 0, 0},
        {-32767, 0, 32767},
        {WATTLERUGBY_MISSING, 1, 2},
        {WATTLERUGBY_MISSING, WATTLERUGBY_MISSING, WATTLERUGBY_MISSING},
        {32768, 0, 0},
        {0, -32768, 0},
        {0, WATTLERUGBY_MISSING, 65536},
        {WATTLERUGBY_LEAST_VALUE, 0, 0},
        {0, 0, WATTLERUGBY_GREATEST_VALUE},
        {WATTLERUGBY_NARROW_MISSING, WATTLERUGBY_NARROW_MISSING, WATTLERUGBY_NARROW_MISSING}
    };
    size_t i;
    for (i = 0; i < sizeof some / sizeof some[0]; i++)
        printf("%d %d %d %d\n", (int)wattlerugby_written_width(some[i], 3), (int)some[i][0], (int)some[i][1], (int)some[i][2]);
}

static void print_hex(const uint8_t *bytes, size_t length)
{
    size_t i;
    for (i = 0; i < length; i++)
        printf("%02x", bytes[i]);
    printf("\n");
}

/* ---- headers: a line `REFUSAL A B C T HEX` for the first bytes of some files: each length up to 8, each mark a bit wrong, and each side at
 * the ends of what is taken and of a byte */

static void print_header(const uint8_t *file, size_t length)
{
    const wattlerugby_read_answer r = wattlerugby_read_header(file, length);
    printf("%u %zu %zu %zu %u ", r.refusal, r.sides.a, r.sides.b, r.sides.c, (unsigned)r.allowed);
    print_hex(file, length);
}

static void print_headers(void)
{
    static const uint8_t good[8] = {0x56, 0x48, 3, 64, 5, 0xFE, 0x80, 0x56}, ends[] = {0, 2, 3, 64, 65, 255};
    uint8_t file[8];
    size_t i, j;
    for (i = 0; i <= 8; i++)
        print_header(good, i);
    for (i = 0; i < 16; i++) {
        memcpy(file, good, 8);
        file[i / 8] ^= (uint8_t)(1 << i % 8);
        print_header(file, 7);
        print_header(file, 6);
    }
    for (i = 2; i < 5; i++)
        for (j = 0; j < sizeof ends; j++) {
            memcpy(file, good, 8);
            file[i] = ends[j];
            print_header(file, 7);
            file[0] = 0x48;
            print_header(file, 7);
        }
}

/* ---- patches: a line `INDEX VALUE LENGTH HEX` for some voxels and values, with the 8 bytes as they then are; before each they are all EE */

static void print_patches(void)
{
    static const uint32_t voxels[] = {0, 13, 0x01020304, UINT32_MAX};
    static const int32_t some[] = {0, 1, -1, 258, 32767, -32767, WATTLERUGBY_MISSING, 32768, -32768, 65536, -65537, WATTLERUGBY_LEAST_VALUE,
                                   WATTLERUGBY_GREATEST_VALUE, INT32_MAX};
    uint8_t record[WATTLERUGBY_PATCH_LENGTH];
    size_t i, j;
    for (i = 0; i < sizeof voxels / sizeof voxels[0]; i++)
        for (j = 0; j < sizeof some / sizeof some[0]; j++) {
            memset(record, 0xEE, sizeof record);
            printf("%u %d %zu ", (unsigned)voxels[i], (int)some[j], wattlerugby_patch(voxels[i], some[j], record));
            print_hex(record, sizeof record);
        }
}

/* ---- entries: a line `INDEX OPENING HEX` for some voxels */

static void print_entries(void)
{
    static const uint32_t voxels[] = {0, 13, 262143, 0x01020304, UINT32_MAX};
    uint8_t entry[WATTLERUGBY_ENTRY_LENGTH];
    size_t i;
    int opening;
    for (i = 0; i < sizeof voxels / sizeof voxels[0]; i++)
        for (opening = 0; opening < 2; opening++) {
            wattlerugby_entry(voxels[i], opening != 0, entry);
            printf("%u %d ", (unsigned)voxels[i], opening);
            print_hex(entry, sizeof entry);
        }
}

int main(int argc, char **argv)
{
    if (argc > 1 && strcmp(argv[1], "entries") == 0) {
        print_entries();
        return 0;
    }
    if (argc > 1 && strcmp(argv[1], "headers") == 0) {
        print_headers();
        return 0;
    }
    if (argc > 1 && strcmp(argv[1], "patches") == 0) {
        print_patches();
        return 0;
    }
    if (argc > 1 && strcmp(argv[1], "widths") == 0) {
        print_widths();
        return 0;
    }
    if (argc > 1 && strcmp(argv[1], "numbers") == 0) {
        numbers();
        return 0;
    }
    if (argc > 1 && strcmp(argv[1], "lengths") == 0) {
        lengths();
        return 0;
    }
    return ring() + marks() + coarse() + serving() + lists() + faces() + files() + patches() + order() + widths() + practice() + nulls() +
           padding() + finished_bytes();
}
