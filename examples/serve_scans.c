/* Reads up to 16 grid files, and carves them by turns, 100 examinations at a time: each display is drawn after its grid's turn, and none waits for another
 * grid to end.
 *
 *     packaging/build
 *     cc -std=c99 -Iinclude examples/serve_scans.c target/staticlib/libcapi.a -o serve_scans
 *     ./serve_scans samples/torus-1.grid samples/ball.grid samples/sphere.grid
 *
 * The status is 0 where all went well, 1 where a call is refused that is not to be, 2 where a file could not be read. */
#include <stdio.h>

#include "wattlerugby.h"

/* The largest grid, and as many of them as there may be: the buffers of all grids lie end to end, in each the next grid behind the last. */
enum { MOST_SIDE = 64, MOST = MOST_SIDE * MOST_SIDE * MOST_SIDE, LIMIT = 100 };

static uint8_t file[WATTLERUGBY_LONGEST_FILE];
static int32_t values[MOST];
static int32_t dist[WATTLERUGBY_MOST_GRIDS * MOST];
static uint8_t status[WATTLERUGBY_MOST_GRIDS * MOST];
static uint8_t marks[WATTLERUGBY_MOST_GRIDS * MOST]; /* all 0 */

/* What is kept between calls, and where each grid's part of the buffers begins: the last one is their length. */
static wattlerugby_grids grids;
static wattlerugby_order order; /* empty: no grid was served yet */
static size_t start[WATTLERUGBY_MOST_GRIDS + 1];

static int refused(const char *call, uint8_t number)
{
    printf("%s: refused %u, %s\n", call, number, wattlerugby_reason(number));
    return 1;
}

/* Reads a file and begins its grid behind those that are there. */
static int add(const char *name)
{
    size_t length, n, at = start[grids.count];
    wattlerugby_read_answer header;
    wattlerugby_begin_answer begun;
    FILE *in = fopen(name, "rb");
    if (in == NULL) {
        fprintf(stderr, "serve_scans: %s cannot be read\n", name);
        return 2;
    }
    length = fread(file, 1, sizeof file, in);
    fclose(in);
    n = wattlerugby_voxels(wattlerugby_read_header(file, length).sides);
    header = wattlerugby_read(file, length, values, n);
    if (header.refusal != 0)
        return refused("read", header.refusal);
    begun = wattlerugby_begin(header.sides, header.allowed, values, n, marks + at, n, dist + at, n, status + at, n);
    if (begun.refusal != 0)
        return refused("begin", begun.refusal);
    grids.records[grids.count++] = begun.next;
    start[grids.count] = at + n;
    return 0;
}

/* One turn. The answer is the refusal: 35 once nothing is pending anywhere. */
static uint8_t serve(void)
{
    size_t n = start[grids.count];
    wattlerugby_serve_answer served = wattlerugby_serve(grids, order, dist, n, marks, n, status, n, LIMIT);
    order = served.order;
    if (served.refusal == 0) {
        grids.records[served.place] = served.next;
        printf("place %u: examined %u, removed %u%s\n", served.place, (unsigned)served.examined, (unsigned)served.removed,
               served.pending ? "" : ", nothing pending");
    }
    return served.refusal;
}

int main(int argc, char **argv)
{
    size_t place;
    int wrong;
    uint8_t ended;
    if (argc < 2 || argc > 1 + WATTLERUGBY_MOST_GRIDS) {
        fprintf(stderr, "usage: serve_scans GRID .. (16 at most)\n");
        return 2;
    }
    for (place = 1; place < (size_t)argc; place++)
        if ((wrong = add(argv[place])) != 0)
            return wrong;
    while ((ended = serve()) == 0)
        ;
    if (ended != WATTLERUGBY_NOTHING_PENDING)
        return refused("serve", ended);
    /* now each grid is opened, carved on or finished by itself, in its own part of the buffers */
    for (place = 0; place < grids.count; place++) {
        size_t at = start[place], n = start[place + 1] - at;
        wattlerugby_finish_answer closed = wattlerugby_finish(grids.records[place], dist + at, n, status + at, n);
        if (closed.refusal != 0)
            return refused("finish", closed.refusal);
        printf("place %u: removals %u, examinations %u\n", (unsigned)place, (unsigned)closed.next.removals, (unsigned)closed.next.examinations);
    }
    return 0;
}
