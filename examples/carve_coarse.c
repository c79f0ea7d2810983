/* Reads a grid file and carves it, from a coarse start where the grid is fit for one, otherwise from a plain one, and says what it took.
 *
 *     packaging/build
 *     cc -std=c99 -Iinclude examples/carve_coarse.c target/staticlib/libcapi.a -o carve_coarse
 *     ./carve_coarse samples/stockpile.grid
 *
 * The status is 0 where the grid was carved, 1 where a call refused, 2 where the file could not be read. examples/carve_grid.c has slices, the
 * surface's points, and room for any file. */
#include <stdio.h>

#include "wattlerugby.h"

/* The largest grid. Its blocks of 2 x 2 x 2 voxels are an eighth of its voxels. */
enum { MOST_SIDE = 64, MOST = MOST_SIDE * MOST_SIDE * MOST_SIDE, MOST_BLOCKS = MOST / 8 };

static uint8_t file[WATTLERUGBY_LONGEST_FILE];
static int32_t values[MOST];
static uint8_t marks[MOST]; /* all 0, since no voxel is marked */
static int32_t dist[MOST];
static uint8_t status[MOST];
/* needed by begin_coarse alone: afterwards this room may serve for something else */
static int32_t block_dist[MOST_BLOCKS];
static uint8_t block_status[MOST_BLOCKS];

static int refused(const char *call, uint8_t number)
{
    printf("%s: refused %u, %s\n", call, number, wattlerugby_reason(number));
    return 1;
}

static size_t count_kept(size_t n)
{
    size_t i, kept = 0;
    for (i = 0; i < n; i++)
        kept += status[i] != WATTLERUGBY_GONE;
    return kept;
}

/* Starts coarse, and plainly where number 31 says that the grid is not fit for it: a file of another maker need not have a border of two voxels.
 * The answer is begin's. */
static wattlerugby_begin_answer begin(wattlerugby_sides sides, uint16_t allowed, size_t n)
{
    const size_t blocks = wattlerugby_blocks(sides);
    const wattlerugby_begin_coarse_answer coarse = wattlerugby_begin_coarse(sides, allowed, values, n, marks, n, dist, n, status, n,
                                                                            block_dist, blocks, block_status, blocks);
    wattlerugby_begin_answer begun;
    begun.refusal = coarse.refusal;
    begun.next = coarse.next;
    if (coarse.refusal == 0)
        printf("begin_coarse: %u blocks examined, %u voxels to carve\n", (unsigned)coarse.examined, (unsigned)count_kept(n));
    if (coarse.refusal != WATTLERUGBY_COARSE)
        return begun;
    refused("begin_coarse", coarse.refusal);
    begun = wattlerugby_begin(sides, allowed, values, n, marks, n, dist, n, status, n);
    printf("begin: %u voxels to carve\n", (unsigned)count_kept(n));
    return begun;
}

int main(int argc, char **argv)
{
    FILE *in = argc == 2 ? fopen(argv[1], "rb") : NULL;
    size_t length, n;
    wattlerugby_read_answer header;
    wattlerugby_begin_answer begun;
    wattlerugby_open_answer opened;
    wattlerugby_record record;

    if (in == NULL) {
        fprintf(stderr, argc == 2 ? "carve_coarse: the file cannot be read\n" : "usage: carve_coarse GRID\n");
        return 2;
    }
    length = fread(file, 1, sizeof file, in);
    fclose(in);
    n = wattlerugby_voxels(wattlerugby_read_header(file, length).sides);
    header = wattlerugby_read(file, length, values, n);
    if (header.refusal != 0)
        return refused("read", header.refusal);
    begun = begin(header.sides, header.allowed, n);
    if (begun.refusal != 0)
        return refused("begin", begun.refusal);

    /* from here on nothing tells the two starts apart */
    record = begun.next;
    do {
        record = wattlerugby_carve(record, dist, n, marks, n, status, n, WATTLERUGBY_NO_LIMIT).next;
        opened = wattlerugby_open(record, dist, n, marks, n, status, n);
        record = opened.next;
    } while (opened.refusal == 0);
    printf("ended by %u, %s\n", opened.refusal, wattlerugby_reason(opened.refusal));
    printf("kept %u, removals %u, openings %u, examinations %u, Euler number %d\n", (unsigned)count_kept(n), (unsigned)record.removals,
           (unsigned)record.openings, (unsigned)record.examinations, (int)record.euler);
    return 0;
}
