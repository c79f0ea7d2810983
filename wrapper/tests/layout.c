/* Prints the size of every struct of the header, and the offset and size of every field: `STRUCT SIZE` and `STRUCT.FIELD OFFSET SIZE`. */
#include <stdio.h>

#include "wattlerugby.h"

#define STRUCT(s) printf("%s %u\n", #s, (unsigned)sizeof(wattlerugby_##s))
#define FIELD(s, f) printf("%s.%s %u %u\n", #s, #f, (unsigned)offsetof(wattlerugby_##s, f), (unsigned)sizeof(((wattlerugby_##s *)0)->f))

int main(void)
{
    STRUCT(sides);
    FIELD(sides, a);
    FIELD(sides, b);
    FIELD(sides, c);
    STRUCT(record);
    FIELD(record, sides);
    FIELD(record, allowed);
    FIELD(record, openings);
    FIELD(record, removals);
    FIELD(record, examinations);
    FIELD(record, euler);
    FIELD(record, finished);
    STRUCT(point);
    FIELD(point, x);
    FIELD(point, y);
    FIELD(point, z);
    STRUCT(begin_answer);
    FIELD(begin_answer, refusal);
    FIELD(begin_answer, next);
    STRUCT(begin_coarse_answer);
    FIELD(begin_coarse_answer, refusal);
    FIELD(begin_coarse_answer, examined);
    FIELD(begin_coarse_answer, next);
    STRUCT(carve_answer);
    FIELD(carve_answer, refusal);
    FIELD(carve_answer, examined);
    FIELD(carve_answer, removed);
    FIELD(carve_answer, pending);
    FIELD(carve_answer, face);
    FIELD(carve_answer, next);
    STRUCT(take_answer);
    FIELD(take_answer, refusal);
    FIELD(take_answer, k);
    FIELD(take_answer, m);
    FIELD(take_answer, face);
    FIELD(take_answer, next);
    STRUCT(open_answer);
    FIELD(open_answer, refusal);
    FIELD(open_answer, index);
    FIELD(open_answer, k);
    FIELD(open_answer, m);
    FIELD(open_answer, face);
    FIELD(open_answer, next);
    STRUCT(grids);
    FIELD(grids, count);
    FIELD(grids, records);
    STRUCT(order);
    FIELD(order, len);
    FIELD(order, places);
    STRUCT(serve_answer);
    FIELD(serve_answer, refusal);
    FIELD(serve_answer, place);
    FIELD(serve_answer, examined);
    FIELD(serve_answer, removed);
    FIELD(serve_answer, pending);
    FIELD(serve_answer, face);
    FIELD(serve_answer, next);
    FIELD(serve_answer, order);
    STRUCT(judge_answer);
    FIELD(judge_answer, refusal);
    FIELD(judge_answer, removals);
    FIELD(judge_answer, openings);
    FIELD(judge_answer, euler);
    STRUCT(finish_answer);
    FIELD(finish_answer, refusal);
    FIELD(finish_answer, next);
    STRUCT(crossing_answer);
    FIELD(crossing_answer, refusal);
    FIELD(crossing_answer, crosses);
    FIELD(crossing_answer, point);
    STRUCT(points_answer);
    FIELD(points_answer, refusal);
    FIELD(points_answer, count);
    FIELD(points_answer, next);
    STRUCT(read_answer);
    FIELD(read_answer, refusal);
    FIELD(read_answer, sides);
    FIELD(read_answer, allowed);
    STRUCT(read_layer_answer);
    FIELD(read_layer_answer, refusal);
    FIELD(read_layer_answer, z);
    FIELD(read_layer_answer, width);
    FIELD(read_layer_answer, from);
    FIELD(read_layer_answer, to);
    STRUCT(write_answer);
    FIELD(write_answer, refusal);
    FIELD(write_answer, length);
    STRUCT(practice_answer);
    FIELD(practice_answer, refusal);
    STRUCT(local_answer);
    FIELD(local_answer, k);
    FIELD(local_answer, m);
    FIELD(local_answer, corners);
    FIELD(local_answer, edges);
    FIELD(local_answer, faces);
    FIELD(local_answer, face);
    return 0;
}
