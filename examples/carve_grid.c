/* Reads a grid file, carves it in slices, and writes the points of the body's surface, a line "x y z" for each.
 *
 *     packaging/build
 *     cc -std=c99 -Iinclude examples/carve_grid.c target/staticlib/libcapi.a -o carve_grid
 *     ./carve_grid samples/torus-1.grid points.xyz
 *
 * or, installed, with `pkg-config --cflags --libs wattlerugby` for the header and the archive. The status is 0 where the points were
 * written, 1 where a call refused, 2 where a file could not be read or written. */
#include <stdio.h>

#include "wattlerugby.h"

/* The largest grid. */
enum { MOST_SIDE = 64, MOST = MOST_SIDE * MOST_SIDE * MOST_SIDE };

/* Examinations in one slice: between two slices a display can be drawn, or the work given up. */
enum { SLICE = 250 };

/* Points in one call: each call checks the whole grid once, so not too few. */
enum { MOST_POINTS = 500 };

/* Patches in a file that this program has room for: read itself takes any number. */
enum { MOST_PATCHES = MOST };

/* One byte more than there is room for shows whether a file is longer. */
static uint8_t file[WATTLERUGBY_LONGEST_FILE + 8 * MOST_PATCHES + 1];
static int32_t values[MOST];
/* all 0, since no voxel is marked: here an operator's pins and hurries would stand */
static uint8_t marks[MOST];
static int32_t dist[MOST];
static uint8_t status[MOST];
static double points[3 * MOST_POINTS];

static int refused(const char *call, uint8_t number)
{
    printf("%s: refused %u, %s\n", call, number, wattlerugby_reason(number));
    return 1;
}

/* The standard loop. Gives the record after it; the number that ended it is the last open's. */
static wattlerugby_record carve_to_the_end(wattlerugby_record record, size_t n, uint8_t *ended_by)
{
    wattlerugby_carve_answer carved;
    wattlerugby_open_answer opened;
    do {
        do {
            carved = wattlerugby_carve(record, dist, n, marks, n, status, n, SLICE);
            record = carved.next;
            printf("carve: examined %u, removed %u, %s\n", (unsigned)carved.examined, (unsigned)carved.removed,
                   carved.pending ? "some pending" : "nothing pending");
        } while (carved.pending);
        opened = wattlerugby_open(record, dist, n, marks, n, status, n);
        record = opened.next;
        if (opened.refusal == 0)
            printf("open: voxel %u, k %u, m %u, face %u\n", (unsigned)opened.index, (unsigned)opened.k, (unsigned)opened.m,
                   (unsigned)opened.face);
    } while (opened.refusal == 0);
    *ended_by = opened.refusal;
    return record;
}

/* All points of the surface, as many at a time as the buffer holds. Gives how many, or -1 where they could not be written. */
static long write_points(FILE *out, wattlerugby_record record, size_t n)
{
    wattlerugby_points_answer r;
    size_t position = 0, i;
    long count = 0;
    do {
        r = wattlerugby_points(record, dist, n, status, n, position, points, 3 * MOST_POINTS);
        if (r.refusal != 0)
            return -1;
        for (i = 0; i < r.count; i++)
            if (fprintf(out, "%.17g %.17g %.17g\n", points[3 * i], points[3 * i + 1], points[3 * i + 2]) < 0)
                return -1;
        count += (long)r.count;
        position = r.next;
    } while (position < 3 * n);
    return count;
}

static int write_all_points(const char *name, wattlerugby_record record, size_t n)
{
    FILE *out = fopen(name, "w");
    long count = out == NULL ? -1 : write_points(out, record, n);
    if (out != NULL && fclose(out) != 0)
        count = -1;
    if (count < 0) {
        fprintf(stderr, "carve_grid: %s cannot be written\n", name);
        return 2;
    }
    printf("points: %ld\n", count);
    return 0;
}

/* Reads the file's bytes; 0 where it cannot be read, or is empty. */
static size_t bytes_of(const char *name)
{
    FILE *in = fopen(name, "rb");
    size_t length = 0;
    if (in == NULL)
        return 0;
    length = fread(file, 1, sizeof file, in);
    fclose(in);
    return length;
}

static size_t count_filled(size_t n)
{
    size_t i, filled = 0;
    for (i = 0; i < n; i++)
        filled += status[i] != WATTLERUGBY_GONE && dist[i] >= 0;
    return filled;
}

int main(int argc, char **argv)
{
    size_t length, n;
    wattlerugby_read_answer header;
    wattlerugby_begin_answer begun;
    wattlerugby_finish_answer finished;
    wattlerugby_record record;
    uint8_t ended_by;

    if (argc != 3) {
        fprintf(stderr, "usage: carve_grid GRID POINTS\n");
        return 2;
    }
    length = bytes_of(argv[1]);
    if (length == 0 || length == sizeof file) {
        fprintf(stderr, "carve_grid: %s %s\n", argv[1], length == 0 ? "cannot be read" : "is longer than there is room for");
        return 2;
    }
    /* of a header that read is going to refuse, n is 0 */
    n = wattlerugby_voxels(wattlerugby_read_header(file, length).sides);
    header = wattlerugby_read(file, length, values, n);
    if (header.refusal != 0)
        return refused("read", header.refusal);
    begun = wattlerugby_begin(header.sides, header.allowed, values, n, marks, n, dist, n, status, n);
    if (begun.refusal != 0)
        return refused("begin", begun.refusal);

    record = carve_to_the_end(begun.next, n, &ended_by);
    /* after finish the filled voxels are negative like the inside, so they are counted before */
    printf("ended by %u, %s\nfilled: %u\n", ended_by, wattlerugby_reason(ended_by), (unsigned)count_filled(n));
    finished = wattlerugby_finish(record, dist, n, status, n);
    if (finished.refusal != 0)
        return refused("finish", finished.refusal);
    record = finished.next;
    printf("openings %u of %u, removals %u, examinations %u, Euler number %d\n", (unsigned)record.openings, (unsigned)record.allowed,
           (unsigned)record.removals, (unsigned)record.examinations, (int)record.euler);
    return write_all_points(argv[2], record, n);
}
