/* Reads a grid file, and judges a removal list on it: another firm's, or else the one that our own calls make.
 *
 *     packaging/build
 *     cc -std=c99 -Iinclude examples/judge_list.c target/staticlib/libcapi.a -o judge_list
 *     ./judge_list samples/torus-1.grid
 *     ./judge_list samples/torus-1.grid their.list
 *
 * The status is 0 where the list is accepted, 1 where it is refused or a call is, 2 where a file could not be read. `wattle judge` says more of a
 * list that is refused: which of its entries breaks which rule. */
#include <stdio.h>

#include "wattlerugby.h"

/* The largest grid. An accepted list has no more entries than the grid has voxels; with room for one more, a longer list is refused as it would be
 * whole. */
enum { MOST_SIDE = 64, MOST = MOST_SIDE * MOST_SIDE * MOST_SIDE };

static uint8_t file[WATTLERUGBY_LONGEST_FILE];
static int32_t values[MOST];
static uint8_t marks[MOST]; /* all 0: judge knows no pins, so our list is made without */
static int32_t dist[MOST];
static uint8_t status[MOST];
static uint8_t work[MOST]; /* a copy of the status bytes, which is carved for our own list */
static uint8_t listed[MOST]; /* 1 where a voxel is on our list already */
static uint8_t list[(MOST + 1) * WATTLERUGBY_ENTRY_LENGTH];

static int refused(const char *call, uint8_t number)
{
    printf("%s: refused %u, %s\n", call, number, wattlerugby_reason(number));
    return 1;
}

/* Reads as many bytes as there is room for. The answer is 0 where the file cannot be read. */
static int read_bytes(const char *name, uint8_t *bytes, size_t room, size_t *length)
{
    FILE *in = fopen(name, "rb");
    if (in == NULL) {
        fprintf(stderr, "judge_list: %s cannot be read\n", name);
        return 0;
    }
    *length = fread(bytes, 1, room, in);
    fclose(in);
    return 1;
}

static size_t append(size_t length, size_t voxel, bool opening)
{
    listed[voxel] = 1;
    wattlerugby_entry((uint32_t)voxel, opening, list + length);
    return length + WATTLERUGBY_ENTRY_LENGTH;
}

/* Our own list: carve with limit 1 removes one voxel at most, the kept one whose status byte is gone then. Each such call checks the whole grid, so
 * for large grids `wattle removals` is the faster way. */
static size_t own_list(wattlerugby_record record, size_t n)
{
    size_t i, length = 0;
    wattlerugby_open_answer opened;
    for (i = 0; i < n; i++)
        work[i] = status[i];
    do {
        wattlerugby_carve_answer step;
        do {
            step = wattlerugby_carve(record, dist, n, marks, n, work, n, 1);
            record = step.next;
            for (i = 0; step.removed == 1 && i < n; i++)
                if (work[i] == WATTLERUGBY_GONE && status[i] != WATTLERUGBY_GONE && !listed[i])
                    length = append(length, i, false);
        } while (step.pending);
        opened = wattlerugby_open(record, dist, n, marks, n, work, n);
        record = opened.next;
        if (opened.refusal == 0)
            length = append(length, opened.index, true);
    } while (opened.refusal == 0);
    return length;
}

int main(int argc, char **argv)
{
    size_t length, n;
    wattlerugby_read_answer header;
    wattlerugby_begin_answer begun;
    wattlerugby_judge_answer judged;

    if (argc != 2 && argc != 3) {
        fprintf(stderr, "usage: judge_list GRID [LIST]\n");
        return 2;
    }
    if (!read_bytes(argv[1], file, sizeof file, &length))
        return 2;
    n = wattlerugby_voxels(wattlerugby_read_header(file, length).sides);
    header = wattlerugby_read(file, length, values, n);
    if (header.refusal != 0)
        return refused("read", header.refusal);
    begun = wattlerugby_begin(header.sides, header.allowed, values, n, marks, n, dist, n, status, n);
    if (begun.refusal != 0)
        return refused("begin", begun.refusal);

    if (argc == 2)
        length = own_list(begun.next, n);
    else if (!read_bytes(argv[2], list, sizeof list, &length))
        return 2;
    /* the buffers as begin left them, and its record: judge puts back what it changes */
    judged = wattlerugby_judge(begun.next, dist, n, status, n, list, length);
    if (judged.refusal != 0)
        return refused("judge", judged.refusal);
    printf("accepted: removals %u, openings %u, Euler number %d\n", (unsigned)judged.removals, (unsigned)judged.openings, (int)judged.euler);
    return 0;
}
