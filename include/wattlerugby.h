/* Wattlerugby for C and C++: carve a solid box down to a scanned body, and tell whether the body is closed.
 *
 * Link with libwattlerugby.a, as packaging/install puts it beside this header (`pkg-config --cflags --libs wattlerugby`, or
 * find_package(wattlerugby) in CMake). In the repository it is target/staticlib/libcapi.a, which `packaging/build` writes. It is for
 * x86-64 Linux. Of other libraries it needs one function, memset. It allocates nothing, and keeps nothing between calls. The pages and
 * examples that are named here lie in share/doc/wattlerugby where packaging/install put them; a release, and the repository, have them at the
 * top.
 *
 * IN SHORT
 *
 *     wattlerugby_begin     values in, worked distances and status bytes out
 *     wattlerugby_begin_coarse   the same, with blocks of 2 x 2 x 2 voxels carved first: for large grids with much air around the body
 *     wattlerugby_carve     examines pending voxels and removes those that may go
 *     wattlerugby_take      removes one voxel of your choice, if it may go
 *     wattlerugby_open      opens the body at the farthest voxel, where nothing may go any more
 *     wattlerugby_finish    closes the list of calls: what is kept is the body
 *     wattlerugby_crossing  a point of the body's surface between two voxels
 *     wattlerugby_points    all points of the surface, as many at a time as you have room for
 *     wattlerugby_serve     one of up to 16 grids that are carved by turns: which one it is, and carve on it
 *     wattlerugby_judge     whether a list of removals, another supplier's or your own, keeps the rules on a begun grid
 *     wattlerugby_entry     one removal, as bytes to append to such a list
 *     wattlerugby_read, wattlerugby_read_layer   a grid file, whole or a layer at a time
 *     wattlerugby_read_header, wattlerugby_voxels   the sides that a file has, and how many voxels these are: so much to lend
 *     wattlerugby_write     values out as a grid file; wattlerugby_written_width and wattlerugby_written_length say how long it is
 *     wattlerugby_patch     a single corrected voxel, as bytes to append to a grid file
 *     wattlerugby_practice  values for a training course, the same from a seed on every instrument
 *     wattlerugby_local_test   the test by which a voxel may go, on its own
 *     wattlerugby_reason    a refusal number as text
 *     wattlerugby_version_number   the version of the archive that is linked; WATTLERUGBY_VERSION_NUMBER is the header's
 *
 * THE STANDARD LOOP
 *
 * After begin or begin_coarse: carve until nothing is pending, open, and again, until open refuses; then finish. In slices of 1000
 * examinations:
 *
 *     wattlerugby_record record = begun.next;
 *     wattlerugby_carve_answer carved;
 *     wattlerugby_open_answer opened;
 *     do {
 *         do {
 *             carved = wattlerugby_carve(record, dist, n, marks, n, status, n, 1000);
 *             record = carved.next;
 *         } while (carved.pending);
 *         opened = wattlerugby_open(record, dist, n, marks, n, status, n);
 *         record = opened.next;
 *     } while (opened.refusal == 0);
 *     record = wattlerugby_finish(record, dist, n, status, n).next;
 *
 * It ends: a refused carve has `pending` false, and each opening removes a voxel. On a grid that begin started, opened.refusal is then 14
 * or 15. With 15 all that could be opened was; with 14 as many openings as you allowed were made, and what is still kept outside the
 * body, if anything, is filled. docs/RESULT.md says what to conclude. examples/carve_grid.c is a whole program. `marks` is n zeros where
 * no voxel is marked.
 *
 * THE GRID
 *
 * Sides a, b, c are 3 to 64 each, and n = a * b * c. Voxel (x, y, z) has index x + a * (y + b * z).
 *
 * BUFFERS
 *
 * Every buffer is yours. A call is lent it for as long as the call runs, keeps no pointer to it, and returns none. A buffer is a pointer
 * and a length, and a length counts elements, not bytes. The pointer is aligned for its element, and has as many elements behind it as
 * the length says, also where a call is going to refuse the length. With length 0 it may be null (tested, not proved). The buffers of one
 * call do not overlap.
 *
 * A grid in work is three things that belong together: a record, a buffer of n worked distances, and a buffer of n status bytes. They
 * stay with you between calls; lend the same two buffers, unchanged, with the record that the last call answered. Marks are lent beside
 * them. No call writes them, and you may change them between calls.
 *
 * MEMORY
 *
 *     bytes a voxel        64 x 64 x 64   needed
 *     the file             1,048,775      by read; so long without patches, each of which is 8 bytes more
 *     values   4           1,048,576      by read, write, practice and begin
 *     dist     4           1,048,576      from begin to the last point
 *     status   1             262,144      from begin to the last point
 *     marks    1             262,144      by begin, carve, take, open and serve
 *     blocks   5/8           163,840      by begin_coarse alone: a distance and a status byte for each 8 voxels
 *
 * So 10 bytes a voxel and the file, and 6 a voxel once begin has answered: then `values` may be given back, unless you want to tell the
 * missing points that count as inside (see begin). A coarse start needs 10 5/8 a voxel, and no later call reads its blocks. Points need 24
 * bytes for each that you have room for. A removal list has 6 bytes for each voxel that it removes, and judge needs no room beside it. For serve
 * the buffers of all grids are one behind the other, with 6 bytes a voxel in all. On the stack serve uses under 19 KB, begin_coarse and carve under
 * 15 KB, begin under 5 KB, and every other call under 1 KB (docs/PERFORMANCE.md).
 *
 * MARKS
 *
 * An operator may hold a voxel, or want it gone early. So begin, begin_coarse, carve, take and open are lent a mark byte for each
 * voxel: 0, or WATTLERUGBY_PINNED, WATTLERUGBY_HURRIED, or both, where the pin alone counts. With n zeros they do what they did before version
 * 0.8, when there were no marks. The marks that count are those of the call itself: neither record nor status remembers any.
 *
 * A pin holds a voxel. No call that is lent it removes the voxel, open passes it over, and no removal beside it makes it pending. So a kept
 * voxel that every call pins is kept at the end, whatever the calls are; those that refuse do nothing, and need not pin it. More is not
 * promised. A pin brings nothing back: a voxel that is gone, or that begin does not keep since it lies outside the box around the inside, is
 * not held. The inside is kept anyway. And a pin holds that voxel alone, not what joins it to the rest: after openings it may hang free, as
 * a piece of its own. As long as it is kept it is part of the body: the Euler number counts it, finish takes it in, and points lie around it.
 *
 * A hurry changes the order. A hurried voxel is pending from begin on if it is kept and not inside, however deep it lies, and carve examines
 * hurried pending voxels before all others. It goes if it passes the local test, as any other, and otherwise stays. Open takes no notice.
 *
 * Where a voxel is both, the pin comes first and alone: WATTLERUGBY_PINNED_AND_HURRIED, 3, means what WATTLERUGBY_PINNED means, in every
 * call. So a voxel is pinned where its mark is 1 or 3, and hurried where it is 2. Before version 0.10 one with mark 3 was hurried too, so that
 * where a mark is 3, and only there, status bytes after begin, counts of examinations, what a limited carve reaches and answers about pending,
 * 13 among them, may be others now; with no mark changed from begin on, a carve run straight from begin to its end keeps the same voxels.
 *
 * Marks may change between calls. A voxel that is pending when you pin it, with 1 or 3, stays pending until carve examines it in its turn:
 * that counts, and it stays. A hurry that is new, or a pin that is taken off, makes no voxel pending; only a removal beside it does. So after
 * such a change voxels that could go may be kept and not pending, and open may take one of them, with k and m both 1. Marks of voxels that
 * are inside, gone or on the border have no effect; but each byte of the buffer must be 3 or less, or the call refuses with 29.
 *
 * A COARSE START
 *
 * Large grids with much air in the box around the body, such as stockpiles, carve slowly. begin_coarse starts them in place of begin: it carves
 * blocks of 2 x 2 x 2 voxels to their end, without an opening, and hands out the voxels of the blocks that are left. From there on all is as
 * after begin: the record, the two buffers, the calls, and what is promised after every list of them. The inside is kept, there is no hollow,
 * and the Euler number is right. Examinations are at most the voxels that were handed out, in place of those of the box, and 26 times the
 * removals; those of blocks are answered beside the record, which does not count them.
 *
 * It saves time where most of the box is air, since an examination of a block stands for those of up to eight voxels. It costs time where the
 * inside fills its box, or where noise leaves no block free: then the run on blocks removes little, and comes on top. Neither is promised;
 * docs/PERFORMANCE.md has both starts on the same grids.
 *
 * Its body need not be that of a plain start. Where open ends by 15 from both, and nothing is pinned, the same voxels are kept, which is
 * proved. Otherwise they may be others: with `allowed` 0, or after 14, the skin that closes a hole may lie elsewhere. And pins hold more: any
 * of its eight voxels pins a block, also one that lies outside the box of voxels around the inside, and that voxel is then kept, where begin
 * does not keep it. So a result is handed on with its start, as with T and the marks, and two suppliers compare results of the same start.
 *
 * MANY SCANS AT ONCE
 *
 * An office server carves up to 16 grids by turns, so that no display waits for another's grid to end. wattlerugby_serve is lent the buffers of all of
 * them, one grid behind the other from place 0 on, and serves one: it examines as many of its pending voxels as the limit says, 1000 at most, and
 * answers its place and what carve answers. Of the grids with something pending it takes the lowest place that was never served, and if all of these
 * were served, the one served longest ago. The order record says which were: the places served so far, the one last served longest ago first.
 *
 * What you keep between calls is yours, as with every other call:
 *
 *     wattlerugby_grids grids      how many there are, and the record of each: put `next` of an answer at records[place]
 *     wattlerugby_order order      empty before the first call, {0, {0}}; then `order` of the last answer, refused or not
 *     dist, status, marks          the grids' buffers end to end, each as long as the sum of their n; marks may change between calls
 *
 *     served = wattlerugby_serve(grids, order, dist, total, marks, total, status, total, 100);
 *     order = served.order;
 *     if (served.refusal == 0)
 *         grids.records[served.place] = served.next;
 *
 * Begin each grid in its own part of the buffers, by begin or begin_coarse. Between two calls of serve every other call may be made on the part of a
 * single grid. A finished one stops all with 8, so take it out first: move what lies behind it up in every buffer and in `records`, take its place out
 * of the order record, and count the places past it one down. A grid that is added goes behind the others, and was never served.
 * examples/serve_scans.c is a whole program.
 *
 * Over every list of such calls on the same freshly begun grids, from an empty order record on, with limits and marks of their own, a grid with
 * something pending is served within as many calls that are not refused as there are grids. Its record, status and answers are those of the same carves
 * made on it alone, and all that is promised of these is promised of it. Both are proved. With 1 to 16 such grids, a limit of 1 to 1000, and marks of
 * which none is over 3, nothing but 35 is answered, and only where nothing is pending anywhere.
 *
 * Each call checks every grid, as one bad byte anywhere makes the answer 7. So it takes time in proportion to all voxels, whatever the limit: choose the
 * largest limit that keeps your rhythm. Where nobody watches the grids meanwhile, threads that carve a grid each are quicker (docs/PERFORMANCE.md).
 *
 * REMOVAL LISTS
 *
 * Two firms that carve the same grid hand each other the list of their removals, and each judges the other's without running the other's program.
 * A list is a row of entries, nothing before or between them and nothing after the last, each of 6 bytes:
 *
 *     ordinary   hex 56 52, and the voxel's index in four bytes, low byte first
 *     opening    hex 56 4F, and the same
 *
 * wattlerugby_judge is given the grid as begin or begin_coarse left it, and the list. It removes the voxels in the list's order, each by the rules
 * and none by its distance, and puts everything back. A list is accepted where each removal is allowed at its turn, and at its end no voxel is left
 * that passes. It need not be in the order in which carve and open remove, nor leave the same body.
 *
 * What is then promised, whoever made the list, is what our own calls promise, and it is proved. The inside is kept. What is not kept hangs together
 * by faces and with the border, so there is no hollow. The Euler number is that of the body that the list leaves. Where the list has no opening, the
 * body is in one piece and the number is 1. And where the list leaves no bare voxel outside that is kept, as where open would answer 15, the body is
 * the one that our own calls come to by 15 with nothing pinned: two such lists leave the same voxels.
 *
 * Our own list is accepted, with the counts of our own record, where nothing was pinned and nothing is pending at its end; so are lists with takes
 * and with hurries. Marks are not lent to judge, which knows no pins: a list that spares a pinned voxel which passes is refused with 33.
 *
 * PRACTICE GRIDS
 *
 * A training course wants the same grids on every instrument, without a file. wattlerugby_practice fills n values from a seed of 32 bits, by rule
 * alone: the same sides and seed give the same values everywhere, and every instrument that carves them by the rules comes to the same record, body
 * and points. So a trainer names sides, T and a seed, and tells by the line of the result whether an instrument is right. docs/COURSE.md has three
 * such grids, with their lines, pictures and removal lists.
 *
 * The rule, for who makes the values without this library. Keep s, a number of 32 bits, which starts as the seed. For each index from 0 to n - 1 add
 * hex 9E3779B9 to s, without what goes over 32 bits; border voxels are no exception. The value of a border voxel is 1000. Of any other it is
 * (s ^ (s >> 16)) % 2001 - 1000, all of it without a sign up to the subtraction.
 *
 * So a value is never missing, lies in -1000 to 1000, and is 1000 on the border. Begin answers a record or, where no value is negative, 4; that is
 * proved. About half of the voxels within the border are negative. So a small grid may have no body, and a larger one is a sponge with many tunnels:
 * with `allowed` 0 it is filled until none is left, and openings let them be seen one by one.
 *
 * FACES
 *
 * A display may draw each removed voxel sliding away. So take and open answer which side their voxel came out by, and carve of the last voxel
 * that it removed: `face`, 0 to 5 for low x, high x, low y, high y, low z, high z. It is the lowest numbered bare face. Just before the
 * removal the voxel across it was not kept, so that nothing was in the way, and the voxels across all lower numbered faces were kept. Take and
 * open always have one. Carve answers WATTLERUGBY_NO_FACE, 6, exactly where it removed nothing. To draw every removal, carve with limit 1: at
 * most one status byte becomes WATTLERUGBY_GONE, and `face` is that voxel's.
 *
 * ANSWERS
 *
 * Each answer is a struct, by value. Its first field, `refusal`, is 0 when the call did what it is for. Otherwise it is one of the
 * numbers below, nothing was written to any buffer, or by judge nothing that it has not put back, and every other number in the answer is 0:
 * `face` too, which then stands for no face. A record in `next` is the one for the next call on the same buffers: after a refusal that is the
 * record you gave, each field as it was. So a caller that always goes on with it is always right. Serve is given many records: after a refusal `next` is
 * none of them but all zeros, as after a refused begin, and `order` is the order record that you gave, each byte as it was.
 *
 * Checks are made in the order that stands with each call, and the first that fails gives the number. Any input at all gets an answer:
 * there is no record, buffer content, index or file that a call may not be given. What you owe is C's own: pointers as above.
 *
 * THREADS
 *
 * Threads may call at the same time on buffers of their own. They may also share a finished grid, since crossing and points only read it:
 * any number of threads may be inside them on the same record, distances and status bytes, each with a buffer of its own for the points. A
 * grid in work is for one thread at a time, also while it is judged: judge works in the status bytes before it puts them back.
 *
 * STORING A RECORD
 *
 * A record is plain numbers without pointers: copy it, keep it, store it with its two buffers, and with the marks where they are to hold,
 * and go on later. Store and compare its fields, not its bytes: between the fields is padding, which holds anything. No call looks at
 * padding, so a record that you build yourself needs no memset. A stored grid that was damaged is answered like any other input, mostly
 * with 7.
 *
 * ROUNDING
 *
 * Crossing and points divide and add doubles. The processor must round to nearest, as it does unless you changed it (fesetround).
 */
#ifndef WATTLERUGBY_H
#define WATTLERUGBY_H

#if !defined(__x86_64__) || defined(__ILP32__) || !defined(__linux__)
#error "libwattlerugby is built for x86-64 Linux with 64-bit pointers alone"
#endif

#include <stdbool.h>
#include <stddef.h>
#include <stdint.h>

/* ---- version */

#define WATTLERUGBY_VERSION_MAJOR 1
#define WATTLERUGBY_VERSION_MINOR 0
#define WATTLERUGBY_VERSION_PATCH 0
#define WATTLERUGBY_VERSION "1.0.0"

/* The version as one number, 1000000 for 1.0.0: the later of two versions has the greater one. It may stand in an #if, where it is 0 with
 * a header that does not have it yet. */
#define WATTLERUGBY_VERSION_NUMBER \
    (WATTLERUGBY_VERSION_MAJOR * 1000000u + WATTLERUGBY_VERSION_MINOR * 1000u + WATTLERUGBY_VERSION_PATCH)

/* ---- symbols
 *
 * A call that takes or answers something else than it first did has a symbol of its own, which ends in the second number of the version
 * below 1.0 that changed it last. Since 1.0 a step of the first number alone changes a call. So where a program makes a call that its header and the archive have in different forms, the linker refuses it and
 * names that symbol; otherwise the call would run, and read past a buffer. Write the plain names: these lines map them. */
#define wattlerugby_begin wattlerugby_begin_8
#define wattlerugby_carve wattlerugby_carve_9
#define wattlerugby_take wattlerugby_take_9
#define wattlerugby_open wattlerugby_open_9
#define wattlerugby_read wattlerugby_read_6
#define wattlerugby_read_layer wattlerugby_read_layer_6
#define wattlerugby_write wattlerugby_write_6
#define wattlerugby_local_test wattlerugby_local_test_9

#ifdef __cplusplus
extern "C" {
#endif

/* The version of this header as text. */
static inline const char *wattlerugby_version(void)
{
    return WATTLERUGBY_VERSION;
}

/* The version of the archive that is linked, where WATTLERUGBY_VERSION_NUMBER is the header's. The two may differ where every call that the
 * program makes has the same form in both. Such a call may still decide otherwise, as begin does on gaps since 0.7, and begin and carve on a
 * mark of 3 since 0.10: a program that relies on the one asks for 7000 or more, on the other for 10000 or more. Never refused. */
uint32_t wattlerugby_version_number(void);

/* ---- numbers */

/* What `refusal` may be, besides 0. */
enum {
    WATTLERUGBY_DONE = 0,

    /* the input */
    WATTLERUGBY_SIDE = 1,              /* a side is outside 3 to 64 */
    WATTLERUGBY_LENGTH = 2,            /* a lent value, mark, distance or status buffer is not n long, in serve the sum of n, or of blocks not n / 8 */
    WATTLERUGBY_BORDER_NEGATIVE = 3,   /* a border voxel is measured negative: the body reaches the edge of the grid */
    WATTLERUGBY_NO_NEGATIVE = 4,       /* no voxel is measured negative: there is no body */
    WATTLERUGBY_INDEX = 5,             /* the index, in read a patch's, in judge an entry's, is n or more; points: the position is over 3 n */
    WATTLERUGBY_AXIS = 6,              /* the axis is over 2, or the next voxel lies beyond the grid */

    /* the state */
    WATTLERUGBY_UNFIT = 7,             /* the record or a buffer cannot be what a call left; see wattlerugby_record, and wattlerugby_order */
    WATTLERUGBY_FINISHED = 8,          /* finish was called already */
    WATTLERUGBY_NOT_FINISHED = 9,      /* crossing and points need a finished grid */
    WATTLERUGBY_GONE_ALREADY = 10,     /* take: the voxel is not kept */
    WATTLERUGBY_INSIDE = 11,           /* take: the voxel's worked distance is negative */
    WATTLERUGBY_NOT_PASSED = 12,       /* take: the voxel does not pass the local test */
    WATTLERUGBY_STILL_PENDING = 13,    /* open, finish: a voxel is pending; carve first */
    WATTLERUGBY_NO_OPENING_LEFT = 14,  /* open: as many openings as were allowed have been made */
    WATTLERUGBY_NOTHING_TO_OPEN = 15,  /* open: no kept voxel outside the body lies bare, but for pinned ones */

    /* the grid file, and the removal list */
    WATTLERUGBY_SHORT = 21,            /* fewer bytes are left than the header, the layer or patch record, or the entry now due is long */
    WATTLERUGBY_MARK = 22,             /* wrong mark */
    WATTLERUGBY_LAYER = 23,            /* a layer's z is c or more */
    WATTLERUGBY_LAYER_TWICE = 24,      /* a layer's z came before */
    WATTLERUGBY_BYTES_LEFT = 25,       /* no call answers it any more: the program carve alone prints it, for input over 65,536 bytes */
    WATTLERUGBY_ROOM = 26,             /* write: the buffer is shorter than the written file */
    WATTLERUGBY_LAYER_ORDER = 27,      /* a layer's z did not come before, and is not the next: layers go from 0 up, none skipped */

    /* the values, lent or in a file */
    WATTLERUGBY_VALUE = 28,            /* begin, begin_coarse, write, read: a value is neither in the range of measured values nor the missing mark */

    /* the marks */
    WATTLERUGBY_MARK_BYTE = 29,        /* begin, begin_coarse, carve, take, open, serve: a lent mark byte is over 3 */
    WATTLERUGBY_PINNED_VOXEL = 30,     /* take: the voxel is pinned */

    /* the coarse start */
    WATTLERUGBY_COARSE = 31,           /* begin_coarse: a side is odd or under 6, or a measured negative voxel lies within 2 of the edge */

    /* the removal list */
    WATTLERUGBY_BREAKS_RULES = 32,     /* judge: a removal that the rules do not allow at its turn */
    WATTLERUGBY_STILL_PASSES = 33,     /* judge: at the list's end a kept voxel outside passes the local test */

    /* many scans at once */
    WATTLERUGBY_OFFICE = 34,           /* serve: the limit is not 1 to 1000, or the number of grids not 1 to 16 */
    WATTLERUGBY_NOTHING_PENDING = 35   /* serve: nothing is pending in any grid */
};

/* What a refusal number says, in English, without a full stop. Any number gets a text. */
static inline const char *wattlerugby_reason(uint8_t refusal)
{
    switch (refusal) {
    case WATTLERUGBY_DONE: return "not refused";
    case WATTLERUGBY_SIDE: return "a side is outside 3 to 64";
    case WATTLERUGBY_LENGTH: return "a lent buffer's length is not the number of voxels";
    case WATTLERUGBY_BORDER_NEGATIVE: return "a border voxel is measured negative";
    case WATTLERUGBY_NO_NEGATIVE: return "no voxel is measured negative";
    case WATTLERUGBY_INDEX: return "the index, a patch's or an entry's among them, is beyond the grid";
    case WATTLERUGBY_AXIS: return "the axis is over 2, or the next voxel lies beyond the grid";
    case WATTLERUGBY_UNFIT: return "the record does not fit its buffers";
    case WATTLERUGBY_FINISHED: return "the grid is finished";
    case WATTLERUGBY_NOT_FINISHED: return "the grid is not finished";
    case WATTLERUGBY_GONE_ALREADY: return "the voxel is gone already";
    case WATTLERUGBY_INSIDE: return "the voxel's worked distance is negative";
    case WATTLERUGBY_NOT_PASSED: return "the voxel does not pass the local test";
    case WATTLERUGBY_STILL_PENDING: return "a voxel is pending";
    case WATTLERUGBY_NO_OPENING_LEFT: return "as many openings as were allowed have been made";
    case WATTLERUGBY_NOTHING_TO_OPEN: return "there is no voxel to open";
    case WATTLERUGBY_SHORT: return "the file or the list ends where more bytes are due";
    case WATTLERUGBY_MARK: return "a mark in the file or the list is wrong";
    case WATTLERUGBY_LAYER: return "a layer's z is beyond the grid";
    case WATTLERUGBY_LAYER_TWICE: return "a layer's z came before";
    case WATTLERUGBY_BYTES_LEFT: return "the input is over 65,536 bytes";
    case WATTLERUGBY_ROOM: return "the lent buffer is shorter than the file";
    case WATTLERUGBY_LAYER_ORDER: return "a layer's z is not the next";
    case WATTLERUGBY_VALUE: return "a value is neither in range nor the missing mark";
    case WATTLERUGBY_MARK_BYTE: return "a mark byte is over 3";
    case WATTLERUGBY_PINNED_VOXEL: return "the voxel is pinned";
    case WATTLERUGBY_COARSE: return "the grid is not fit for a coarse start";
    case WATTLERUGBY_BREAKS_RULES: return "a removal of the list breaks the rules";
    case WATTLERUGBY_STILL_PASSES: return "a voxel still passes the local test at the list's end";
    case WATTLERUGBY_OFFICE: return "the limit is not 1 to 1,000, or the grids are not 1 to 16";
    case WATTLERUGBY_NOTHING_PENDING: return "nothing is pending in any grid";
    default: return "no number of this library";
    }
}

/* What a status byte holds. */
enum {
    WATTLERUGBY_GONE = 0,     /* not kept */
    WATTLERUGBY_KEPT = 1,     /* kept */
    WATTLERUGBY_PENDING = 3   /* kept, and to be examined */
};

/* What a mark byte holds: see MARKS above. */
enum {
    WATTLERUGBY_UNMARKED = 0,
    WATTLERUGBY_PINNED = 1,              /* no call removes it */
    WATTLERUGBY_HURRIED = 2,             /* pending from begin on, and examined before all others */
    WATTLERUGBY_PINNED_AND_HURRIED = 3   /* what WATTLERUGBY_PINNED means: the pin alone counts */
};

/* What `face` is in an answer: see FACES above. The axis is face / 2, and face % 2 is 1 on the side where that coordinate is higher. */
enum {
    WATTLERUGBY_LOW_X = 0,
    WATTLERUGBY_HIGH_X = 1,
    WATTLERUGBY_LOW_Y = 2,
    WATTLERUGBY_HIGH_Y = 3,
    WATTLERUGBY_LOW_Z = 4,
    WATTLERUGBY_HIGH_Z = 5,
    WATTLERUGBY_NO_FACE = 6   /* local test: no face is bare; carve: nothing was removed */
};

/* ---- values
 *
 * A value is measured, WATTLERUGBY_LEAST_VALUE to WATTLERUGBY_GREATEST_VALUE, or the mark of a missing range point. Negative is inside the
 * body. A missing point counts as outside, but in a gap behind the face as inside: see wattlerugby_begin. Any other number is refused with
 * 28. All three are constants of type int32_t, in C and in C++, and may stand in an #if. */
#define WATTLERUGBY_LEAST_VALUE (-1000000000)
#define WATTLERUGBY_GREATEST_VALUE 1000000000
#define WATTLERUGBY_MISSING (-2147483647 - 1)

/* The bits of a value in the buffers of begin, read and write. Before version 0.6 this macro was not there, and they had 16: the missing
 * mark was then -32768, which is a measured value now. So a program for both says
 *
 *     #ifdef WATTLERUGBY_VALUE_BITS
 *     typedef int32_t value;
 *     #else
 *     typedef int16_t value;
 *     #endif
 */
#define WATTLERUGBY_VALUE_BITS 32

/* The missing mark where a value has two bytes: in narrow layers and in patches. */
#define WATTLERUGBY_NARROW_MISSING (-32768)

/* A limit that no carve reaches. */
#define WATTLERUGBY_NO_LIMIT UINT32_MAX

/* ---- what crosses */

/* The grid's sides, in voxels along x, y and z. */
typedef struct wattlerugby_sides {
    size_t a;
    size_t b;
    size_t c;
} wattlerugby_sides;

/* n, how many voxels a grid with these sides has: so many elements each buffer has. 0 where a side is outside 3 to 64, which every call
 * refuses with 1. */
static inline size_t wattlerugby_voxels(wattlerugby_sides sides)
{
    if (sides.a < 3 || sides.a > 64 || sides.b < 3 || sides.b > 64 || sides.c < 3 || sides.c > 64)
        return 0;
    return sides.a * sides.b * sides.c;
}

/* What begin and begin_coarse make, and every later call is given and answers anew. Read it freely; do not change it.
 *
 * A record is unfit, refusal 7, where openings > allowed, removals > n, examinations > 27 n, euler > 8 n or euler < -8 n; and with its
 * buffers where a status is not 0, 1 or 3, a border voxel's status is not 0, or a voxel of negative worked distance has a status other
 * than 1. A call may itself carry a count past its limit; only the next call then refuses. */
typedef struct wattlerugby_record {
    wattlerugby_sides sides;
    uint16_t allowed;        /* T, how many openings are allowed */
    uint32_t openings;       /* made so far */
    uint64_t removals;       /* made so far, by carve, take and open */
    uint64_t examinations;   /* made so far, by carve */
    int32_t euler;           /* the Euler number of the kept voxels, 1 at first: pieces less tunnels, since there is never a hollow */
    uint8_t finished;        /* whether finish was called: answered as 0 or 1, and any value but 0 is taken as finished */
} wattlerugby_record;

/* A place in the grid, in voxels: the centre of voxel (x, y, z) is the point (x, y, z). */
typedef struct wattlerugby_point {
    double x;
    double y;
    double z;
} wattlerugby_point;

/* ---- begin */

typedef struct wattlerugby_begin_answer {
    uint8_t refusal;
    wattlerugby_record next;   /* after a refusal all zeros: every call given it refuses with 1 */
} wattlerugby_begin_answer;

/* Starts a grid from n measured values and n marks. Fills both other buffers, whatever they held.
 *
 * No shot reaches the middle of a thick wall, so missing points are looked at first. A gap is a group of them joined by faces, with all that
 * are joined to it. Where none of it lies on the grid's border, and every other voxel that shares a face with it is measured negative, it is
 * a gap behind the face, and counts as measured with value -1. Gaps are looked for in the values as you lend them, and `values` is not
 * written. Before version 0.7 every missing point counted as outside.
 *
 * The inside is the largest group of negative voxels that touch, gaps behind the face included; other negative voxels are discarded as
 * noise, and with them the gaps that they close in. `dist` gets each voxel's worked distance, negative exactly inside. `status` gets the
 * smallest box that holds the inside as kept, and all else as gone. Of the box those voxels that are neither inside nor pinned are pending
 * which lie bare or are hurried. Marks change nothing else: neither the box nor a distance.
 *
 * So a missing point that counts as inside has the worked distance -1, and as all of the inside it is never lost, whatever calls follow. It
 * is told by its value: before finish, the voxels of negative distance whose value is WATTLERUGBY_MISSING are these.
 *
 * `allowed` is how many openings you allow: 0 for a body without handles. Any number is taken.
 *
 * Checks: 1, 2 (any of the four buffers), 28, 29, 3, 4. */
wattlerugby_begin_answer wattlerugby_begin(
    wattlerugby_sides sides, uint16_t allowed,
    const int32_t *values, size_t values_len,
    const uint8_t *marks, size_t marks_len,
    int32_t *dist, size_t dist_len,
    uint8_t *status, size_t status_len);

/* ---- begin coarse */

/* How many elements each of the two further buffers of wattlerugby_begin_coarse has, one for each block of 2 x 2 x 2 voxels: n / 8 rounded
 * down, also where a side is odd. 0 where wattlerugby_voxels is 0. */
static inline size_t wattlerugby_blocks(wattlerugby_sides sides)
{
    return wattlerugby_voxels(sides) / 8;
}

typedef struct wattlerugby_begin_coarse_answer {
    uint8_t refusal;
    uint32_t examined;         /* blocks examined by the coarse run, which the record's examinations do not count */
    wattlerugby_record next;   /* after a refusal all zeros: every call given it refuses with 1 */
} wattlerugby_begin_coarse_answer;

/* Starts a grid as wattlerugby_begin does, with blocks of 2 x 2 x 2 voxels carved first: see A COARSE START above. Fills all four other buffers,
 * whatever they held. Gaps, the inside and `dist` are as begin has them.
 *
 * Block (x, y, z) has the voxels whose coordinates, halved and rounded down, are x, y and z; its index is x + a / 2 (y + b / 2 z). Its distance
 * is the least of its eight voxels' worked distances, so negative where one of them is inside. It is pinned where one of them is, in the box of
 * voxels or not. Hurries wait. The run on blocks goes by the rules of begin and carve: kept is the smallest box of blocks that holds the
 * negative ones; of it those are pending that lie bare and are neither negative nor pinned; and it is carved until none is. A pin on a block
 * beyond that box holds nothing.
 *
 * `block_dist` and `block_status` are left as that run leaves them: the distance of each block, and WATTLERUGBY_GONE or WATTLERUGBY_KEPT. No
 * later call is lent them. `status` gets the voxels of the kept blocks as kept, and all else as gone. Of them those that are neither inside
 * nor pinned are pending which lie bare or are hurried, as after begin. The record has counts of 0 and the Euler number 1.
 *
 * A grid is not fit for this, number 31, where a side is odd or under 6, or where a voxel measured negative, be it discarded, has a coordinate
 * below 2 or above that side less 3. So leave a border of two voxels around all that is negative, and make the sides even: voxels measured
 * outside, or missing, will do. wattlerugby_begin takes the same values as they are.
 *
 * Checks: 1, 2 (`values`, `marks`, `dist` or `status` has not n elements, `block_dist` or `block_status` not n / 8 rounded down, also where a
 * side is odd), 28, 29, 3, 4, 31. */
wattlerugby_begin_coarse_answer wattlerugby_begin_coarse(
    wattlerugby_sides sides, uint16_t allowed,
    const int32_t *values, size_t values_len,
    const uint8_t *marks, size_t marks_len,
    int32_t *dist, size_t dist_len,
    uint8_t *status, size_t status_len,
    int32_t *block_dist, size_t block_dist_len,
    uint8_t *block_status, size_t block_status_len);

/* ---- carve */

typedef struct wattlerugby_carve_answer {
    uint8_t refusal;
    uint32_t examined;   /* voxels examined by this call */
    uint32_t removed;    /* voxels removed by this call */
    bool pending;        /* whether any voxel is still pending */
    uint32_t face;       /* which side the last removed voxel came out by; WATTLERUGBY_NO_FACE exactly where `removed` is 0 */
    wattlerugby_record next;
} wattlerugby_carve_answer;

/* Examines pending voxels, `limit` of them at most: hurried ones before all others, and of either each time the one with the greatest
 * worked distance, of equals the one with the smallest index. A voxel that passes the local test and is not pinned is gone, and the kept
 * voxels around it that are neither inside nor pinned become pending. Writes status bytes alone.
 *
 * Call it with a limit for work in slices: many small calls leave what one large call leaves, if all are lent the same marks. Whatever its
 * limit, a call first checks the whole grid and finds the pending voxels in it, in time proportional to n. So a small limit saves little,
 * and carving in many small slices takes longer in all: choose the largest limit that keeps your rhythm. docs/PERFORMANCE.md has both
 * times, that of a call whatever its limit and that of an examination.
 *
 * Checks: 1, 2, 7, 29, 8. A limit of 0 examines nothing and is not refused. */
wattlerugby_carve_answer wattlerugby_carve(
    wattlerugby_record given,
    const int32_t *dist, size_t dist_len,
    const uint8_t *marks, size_t marks_len,
    uint8_t *status, size_t status_len,
    uint32_t limit);

/* ---- take */

typedef struct wattlerugby_take_answer {
    uint8_t refusal;
    uint32_t k;      /* what the local test found: both are 1 where the voxel is gone */
    uint32_t m;
    uint32_t face;   /* which side the voxel came out by: never WATTLERUGBY_NO_FACE */
    wattlerugby_record next;
} wattlerugby_take_answer;

/* Removes the voxel of that index, pending or not, if it is kept, outside, not pinned, and passes the local test. Counts a removal and no
 * examination; the voxels around it become pending as in carve. Writes status bytes alone.
 *
 * Checks: 1, 2, 7, 29, 8, 5, 10, 11, 30, 12. */
wattlerugby_take_answer wattlerugby_take(
    wattlerugby_record given,
    const int32_t *dist, size_t dist_len,
    const uint8_t *marks, size_t marks_len,
    uint8_t *status, size_t status_len,
    size_t index);

/* ---- open */

typedef struct wattlerugby_open_answer {
    uint8_t refusal;
    size_t index;    /* the voxel that was removed */
    uint32_t k;      /* what the local test found there: k - m was added to the Euler number */
    uint32_t m;
    uint32_t face;   /* which side the voxel came out by: never WATTLERUGBY_NO_FACE */
    wattlerugby_record next;
} wattlerugby_open_answer;

/* Removes a voxel that does not pass, so that carving can go on: of the kept voxels outside that are not pinned and have a face neighbour
 * which is not kept, the one with the greatest worked distance, of equals the one with the smallest index. Counts an opening and a removal;
 * the voxels around it become pending as in carve. Hurries have no say in it. Writes status bytes alone.
 *
 * Checks: 1, 2, 7, 29, 8, 13, 14, 15. */
wattlerugby_open_answer wattlerugby_open(
    wattlerugby_record given,
    const int32_t *dist, size_t dist_len,
    const uint8_t *marks, size_t marks_len,
    uint8_t *status, size_t status_len);

/* ---- serve */

/* The most grids that serve takes, and the greatest limit. */
#define WATTLERUGBY_MOST_GRIDS 16
#define WATTLERUGBY_MOST_EXAMINATIONS 1000

/* The records of the grids, at places from 0. Those from `count` on are not looked at. */
typedef struct wattlerugby_grids {
    size_t count;
    wattlerugby_record records[WATTLERUGBY_MOST_GRIDS];
} wattlerugby_grids;

/* The order record: the places served so far, the one last served longest ago first. Bytes from `len` on are not looked at, and answered as 0 where a
 * grid was served. It is unfit, refusal 7, where `len` is over the number of grids, or one of its places stands twice or is that number or more. */
typedef struct wattlerugby_order {
    size_t len;
    uint8_t places[WATTLERUGBY_MOST_GRIDS];
} wattlerugby_order;

typedef struct wattlerugby_serve_answer {
    uint8_t refusal;
    uint8_t place;             /* of the grid that was served */
    uint32_t examined;         /* what carve answers for it */
    uint32_t removed;
    bool pending;
    uint32_t face;
    wattlerugby_record next;   /* its record for the next call; after a refusal all zeros */
    wattlerugby_order order;   /* the order record for the next call; after a refusal the one that you gave */
} wattlerugby_serve_answer;

/* Serves one of up to 16 grids that lie end to end in the buffers, with `limit` examinations at most: see MANY SCANS AT ONCE above. It is carved as by
 * wattlerugby_carve, with its own part of the marks. Writes status bytes of that grid alone.
 *
 * Checks: 34, and then, each on all grids before the next, 1, 2 (`dist`, `status` or `marks` is not as long as the sum of n), 7 (a record with its part of
 * the buffers, or the order record), 29, 8; last 35. */
wattlerugby_serve_answer wattlerugby_serve(
    wattlerugby_grids grids, wattlerugby_order order,
    const int32_t *dist, size_t dist_len,
    const uint8_t *marks, size_t marks_len,
    uint8_t *status, size_t status_len,
    uint32_t limit);

/* ---- judge */

/* The bytes of an entry of a removal list: see REMOVAL LISTS above. */
#define WATTLERUGBY_ENTRY_LENGTH 6

/* Writes the entry of one removal into 6 bytes of yours, an opening's or an ordinary one's: append them to a list. The index is not looked at,
 * since an entry does not know its grid: judge refuses one of n or more with 5. */
static inline void wattlerugby_entry(uint32_t index, bool opening, uint8_t *entry)
{
    size_t i;
    entry[0] = 0x56;
    entry[1] = opening ? 0x4F : 0x52;
    for (i = 0; i < 4; i++)
        entry[2 + i] = (uint8_t)(index >> 8 * i);
}

typedef struct wattlerugby_judge_answer {
    uint8_t refusal;
    uint64_t removals;   /* entries, openings among them */
    uint32_t openings;
    int32_t euler;       /* the Euler number of what the list leaves: 1, and k - m more for each opening */
} wattlerugby_judge_answer;

/* Judges a removal list on a grid, from the kept voxels of `status` on, with counts of 0 and the Euler number 1. Of the record only the sides and
 * `allowed` count once it is found fit: its own removals, openings and Euler number do not, nor does it matter which voxels are pending. Lend the
 * buffers that begin or begin_coarse filled, not yet carved, with that record.
 *
 * The list is accepted exactly where each entry's voxel is kept and outside at its turn; an ordinary one passes the local test then; an opening has
 * a face neighbour that is not kept, and comes when no kept voxel outside passes, so that it does not pass itself; there are at most `allowed`
 * openings; and at the end no kept voxel outside passes. The order of distances is free, of openings too. A list without entries is accepted where no
 * kept voxel outside passes. Marks are not lent: judge knows no pins.
 *
 * `status` is worked in while the call runs. On every way out, accepted or refused, both buffers hold what they held before. The answer has no record:
 * go on with the one that you gave. The time is in proportion to n and to the entries, however many of them are openings (docs/PERFORMANCE.md).
 *
 * Checks: 1, 2 (`dist` and `status`), 7, 8; of each entry in turn, before the next is looked at, 21 (fewer than 6 bytes are left), 22, 5 (the index is
 * n or more), 32 (a rule above is broken, an opening over `allowed` too); at the end 33. */
wattlerugby_judge_answer wattlerugby_judge(
    wattlerugby_record given,
    const int32_t *dist, size_t dist_len,
    uint8_t *status, size_t status_len,
    const uint8_t *list, size_t list_len);

/* ---- finish */

typedef struct wattlerugby_finish_answer {
    uint8_t refusal;
    wattlerugby_record next;
} wattlerugby_finish_answer;

/* Makes every kept voxel part of the body: a worked distance w of 0 or more becomes -w, or -1 where w is 0. Writes distances alone.
 * From then on only crossing and points are answered.
 *
 * Checks: 1, 2, 7, 8, 13. */
wattlerugby_finish_answer wattlerugby_finish(
    wattlerugby_record given,
    int32_t *dist, size_t dist_len,
    const uint8_t *status, size_t status_len);

/* ---- crossing */

typedef struct wattlerugby_crossing_answer {
    uint8_t refusal;
    bool crosses;              /* false: no surface between the two voxels, and the point is all zeros */
    wattlerugby_point point;
} wattlerugby_crossing_answer;

/* Where the surface of a finished body crosses the line from the voxel of that index to the next along an axis (0, 1, 2 for x, y, z),
 * the one whose coordinate there is one higher. It crosses where exactly one of the two worked distances is negative. The point lies
 * p / (p + q) of the way from the negative voxel to the other, p and q being the sizes of their distances; that coordinate is within
 * 2^-47 of the exact one, and the other two are whole. Writes nothing.
 *
 * The last plane of voxels along an axis has no next: x = a - 1 with axis 0, y = b - 1 with 1, z = c - 1 with 2 are refused with 6. So run
 * x from 0 up to, and without, a - 1 where the axis is 0, and so on. No point is missed: border voxels are never kept.
 *
 * Each call checks the whole grid. To list all points, call wattlerugby_points.
 *
 * Checks: 1, 2, 7, 9, 5, 6. */
wattlerugby_crossing_answer wattlerugby_crossing(
    wattlerugby_record given,
    const int32_t *dist, size_t dist_len,
    const uint8_t *status, size_t status_len,
    size_t index, uint32_t axis);

/* ---- points */

typedef struct wattlerugby_points_answer {
    uint8_t refusal;
    size_t count;   /* points written: the doubles out[0] up to, and without, out[3 * count] */
    size_t next;    /* the position to go on from: 3 n when all were looked at */
} wattlerugby_points_answer;

/* All points of a finished body's surface from a position on. Position 3 * index + axis stands for the crossing from the voxel of that
 * index along that axis. The points of all crossings go into `out` in rising order of position, three doubles each, x, y and z, until there
 * is no room for one more or the positions end at 3 n. Each is the point that wattlerugby_crossing answers; a position without a next voxel,
 * or without a crossing, gives none. `out` may have any length, and what is left of it stays as it was. With fewer than 3 doubles nothing is
 * written, and `next` is `position`.
 *
 * To write out all points, in a buffer of 3000 doubles:
 *
 *     size_t position = 0;
 *     wattlerugby_points_answer r;
 *     do {
 *         r = wattlerugby_points(record, dist, n, status, n, position, out, 3000);
 *         write_out(out, r.count);
 *         position = r.next;
 *     } while (r.refusal == 0 && position < 3 * n);
 *
 * Each call checks the whole grid once, so lend a buffer for many points. This call is ours: document 01 has crossing alone.
 *
 * Checks: 1, 2 (`dist` and `status`), 7, 9, 5 (the position is over 3 n). */
wattlerugby_points_answer wattlerugby_points(
    wattlerugby_record given,
    const int32_t *dist, size_t dist_len,
    const uint8_t *status, size_t status_len,
    size_t position,
    double *out, size_t out_len);

/* ---- the grid file
 *
 * Low byte first, and two's complement. A header of 7 bytes: hex 56 48, a, b, c in a byte each, T in two bytes. Then c layer records:
 *
 *     narrow   hex 56 4C, z in a byte, and a * b values of two bytes, in index order: 3 + 2 a b bytes
 *     wide     hex 56 57, z in a byte, and a * b values of four bytes: 3 + 4 a b bytes
 *
 * A file may have both. Then any number of patch records, none at all included, each of 8 bytes: hex 56 50, a voxel's index in four bytes,
 * and its value of two bytes.
 *
 * A value of two bytes stands for the same number of 32 bits; but -32768 is the old missing mark there, and stands for
 * WATTLERUGBY_MISSING. Of four bytes, -32768 is a measured value.
 *
 * Layers come from the bottom up: z is 0 in the first record and one more in each that follows. So a display that is sent a file has layer
 * z before layer z + 1. Where all layers have the same width, 2 or 4, layer z begins at byte 7 + z (3 + width a b). Otherwise each begins
 * where the one before it ends, as wattlerugby_read_layer tells, and patches begin where the last one ends.
 *
 * A patch is a single voxel measured again. Its value stands in place of the layer's, and of two patches to a voxel the later one stands.
 * So to correct a file, append to it. A value that two bytes do not hold cannot be patched in: write the file anew. */

/* Bytes a value of a layer. */
enum {
    WATTLERUGBY_NARROW = 2,
    WATTLERUGBY_WIDE = 4
};

typedef struct wattlerugby_read_answer {
    uint8_t refusal;
    wattlerugby_sides sides;
    uint16_t allowed;
} wattlerugby_read_answer;

/* Sides and T of a file by its first 7 bytes, as wattlerugby_read answers them; the rest of it is not looked at. So it tells how many values
 * read is to be lent, wattlerugby_voxels(header.sides): after a refusal 0, and read then refuses with the same number.
 *
 * Checks: 21 (fewer than 7 bytes), 22, 1. */
static inline wattlerugby_read_answer wattlerugby_read_header(const uint8_t *file, size_t file_len)
{
    wattlerugby_read_answer header = {WATTLERUGBY_DONE, {0, 0, 0}, 0};
    wattlerugby_sides sides;
    if (file_len < 7) {
        header.refusal = WATTLERUGBY_SHORT;
        return header;
    }
    if (file[0] != 0x56 || file[1] != 0x48) {
        header.refusal = WATTLERUGBY_MARK;
        return header;
    }
    sides.a = file[2];
    sides.b = file[3];
    sides.c = file[4];
    if (wattlerugby_voxels(sides) == 0) {
        header.refusal = WATTLERUGBY_SIDE;
        return header;
    }
    header.sides = sides;
    header.allowed = (uint16_t)(file[5] | file[6] << 8);
    return header;
}

/* Reads a whole file into n values, for begin: the layers, with the patches applied in the order of the file. wattlerugby_read_header tells
 * how many values to lend. Every check is made before the first value is written: nothing is, where the file is refused, be it for its last
 * patch.
 *
 * All bytes after the last layer are taken as patch records. There is no limit to their number, so none to the file's length, and the time
 * is in proportion to that length. Any value of two bytes may be patched in, WATTLERUGBY_NARROW_MISSING too.
 *
 * Only a wide record can have a value that is refused with 28. It is refused in its turn, before the next record is looked at, so no patch
 * mends it.
 *
 * A file with its layers in another order is refused, with 24 for a z that came before and with 27 for one that skips the next. To put an
 * old file right, find its records by wattlerugby_read_layer and write them in rising z; `wattle rewrite --sort` does so.
 *
 * Checks: of the header 21 (fewer than 7 bytes), 22, 1, 2; of each layer record in turn 21 (fewer bytes are left than a wide record has,
 * where the first two are 56 57, otherwise than a narrow one has), 22, 23, 24, 27, 28; of each patch record in turn 21 (fewer than 8 bytes
 * are left), 22, 5 (the index is n or more). */
wattlerugby_read_answer wattlerugby_read(
    const uint8_t *file, size_t file_len,
    int32_t *values, size_t values_len);

typedef struct wattlerugby_read_layer_answer {
    uint8_t refusal;
    uint8_t z;
    uint8_t width;   /* bytes a value: WATTLERUGBY_NARROW or WATTLERUGBY_WIDE */
    size_t from;     /* the layer's values are the bytes file[from] up to, and without, file[to] */
    size_t to;
} wattlerugby_read_layer_answer;

/* Finds the values of the layer record that begins at byte `start`, without copying: they stay where they are in your file. The first
 * record begins at byte 7, and the next one at the byte `to` of the one before it. `start` may be any number. What the other records are is
 * not looked at, so a layer is found whatever the order of the file. Nor are patches: who reads by layers applies them, from the byte `to`
 * of the last layer on. Nor are the values themselves, so there is no 28: who reads a wide layer looks whether they are in range.
 *
 * Checks: 1, 21 (measured as in read), 22, 23. */
wattlerugby_read_layer_answer wattlerugby_read_layer(
    wattlerugby_sides sides,
    const uint8_t *file, size_t file_len,
    size_t start);

/* The bytes of a patch record. */
#define WATTLERUGBY_PATCH_LENGTH 8

/* Writes the patch record that gives the voxel of that index a value, into 8 bytes of yours: append them to a file. The value is one as read
 * gives it, WATTLERUGBY_MISSING or -32767 to 32767. Answers how many bytes were written: 8, or 0 for any other value, which two bytes do not
 * hold. The index is not looked at, since a patch does not know its file: read refuses one of n or more with 5. */
static inline size_t wattlerugby_patch(uint32_t index, int32_t value, uint8_t *patch)
{
    uint16_t narrow = (uint16_t)(value == WATTLERUGBY_MISSING ? WATTLERUGBY_NARROW_MISSING : value);
    size_t i;
    if (value != WATTLERUGBY_MISSING && (value < -32767 || value > 32767))
        return 0;
    patch[0] = 0x56;
    patch[1] = 0x50;
    for (i = 0; i < 4; i++)
        patch[2 + i] = (uint8_t)(index >> 8 * i);
    patch[6] = (uint8_t)narrow;
    patch[7] = (uint8_t)(narrow >> 8);
    return WATTLERUGBY_PATCH_LENGTH;
}

/* The bytes of the longest file that write makes, that of 64 x 64 x 64 voxels with wide layers: room for any of them. A file with patches
 * may be longer. */
#define WATTLERUGBY_LONGEST_FILE 1048775

/* The width of the layers that write makes of these values: WATTLERUGBY_NARROW where each measured one is -32767 to 32767, a grid of missing
 * points alone included, otherwise WATTLERUGBY_WIDE. */
static inline uint8_t wattlerugby_written_width(const int32_t *values, size_t values_len)
{
    size_t i;
    for (i = 0; i < values_len; i++)
        if (values[i] != WATTLERUGBY_MISSING && (values[i] < -32767 || values[i] > 32767))
            return WATTLERUGBY_WIDE;
    return WATTLERUGBY_NARROW;
}

/* How many bytes header and layers of a grid with these sides have where all layers are of this width: that is the whole file that write
 * makes of values that need it. Its room is known beforehand, by
 *
 *     wattlerugby_written_length(sides, wattlerugby_written_width(values, n))
 *
 * or, where the values are not looked at, with WATTLERUGBY_WIDE, which is room for either. 0 where a side is outside 3 to 64, which write
 * refuses with 1, or where the width is neither 2 nor 4: there is no such file. */
static inline size_t wattlerugby_written_length(wattlerugby_sides sides, uint8_t width)
{
    if (wattlerugby_voxels(sides) == 0 || (width != WATTLERUGBY_NARROW && width != WATTLERUGBY_WIDE))
        return 0;
    return 7 + sides.c * (3 + width * sides.a * sides.b);
}

typedef struct wattlerugby_write_answer {
    uint8_t refusal;
    size_t length;   /* bytes written: file[0] up to, and without, file[length] */
} wattlerugby_write_answer;

/* Writes n values with their sides and T as a grid file, the layers in rising z and no patches. Read takes these bytes and gives the same
 * sides, T and values. Nothing in them is left to choice: a grid has one written form, the same on every instrument. What was read from a
 * file with patches is written with their values in the layers.
 *
 * The layers are narrow where every measured value lies in -32767 to 32767, otherwise all of them are wide, whatever the width was in a file
 * that the values were read from. A missing point is written as the mark of that width, also where begin counts it as inside, and a grid
 * that begin would refuse with 3 or 4 is written like any other. `file` may be longer than wattlerugby_written_length; its bytes past that
 * stay as they were.
 *
 * Checks: 1, 2 (`values`), 28, 26. */
wattlerugby_write_answer wattlerugby_write(
    wattlerugby_sides sides, uint16_t allowed,
    const int32_t *values, size_t values_len,
    uint8_t *file, size_t file_len);

/* ---- practice */

typedef struct wattlerugby_practice_answer {
    uint8_t refusal;
} wattlerugby_practice_answer;

/* Fills n values with the practice grid of a seed, whatever they held: see PRACTICE GRIDS above. Any seed is taken. The values are for begin, and for
 * write, which makes the same file of them on every instrument. Writes `values` alone.
 *
 * Checks: 1, 2 (`values`). */
wattlerugby_practice_answer wattlerugby_practice(
    wattlerugby_sides sides, uint32_t seed,
    int32_t *values, size_t values_len);

/* ---- the local test */

typedef struct wattlerugby_local_answer {
    uint32_t k;         /* groups of touched cells */
    uint32_t m;         /* groups of bare cells */
    uint32_t corners;   /* touched corners, edges and faces */
    uint32_t edges;
    uint32_t faces;
    uint32_t face;      /* the lowest numbered bare face; WATTLERUGBY_NO_FACE exactly where all six are touched */
} wattlerugby_local_answer;

/* The test of a block of three by three by three voxels. Bit (dx + 1) + 3 (dy + 1) + 9 (dz + 1) of `kept` says whether the voxel at
 * (dx, dy, dz) from the middle is kept; the middle's own, bit 13, and bits 27 to 31 are not regarded. The middle voxel's surface has 26
 * cells: 8 corners, 12 edges, 6 faces. A cell is touched if a kept voxel other than the middle contains it, otherwise bare. The middle
 * voxel may go, without changing how the body hangs together, exactly when k and m are both 1. For every block
 * m = k + 1 - corners + edges - faces. A face is touched exactly where the voxel across it is kept. Never refused. */
wattlerugby_local_answer wattlerugby_local_test(uint32_t kept);

#ifdef __cplusplus
}
#endif

#endif
