/* Each call that was changed, as the header declared it before its last change, with the symbol that it had then: what a program that was
 * compiled then asks for. wrapper/tests/pairs.rs says where one is missing. */
#include <stdbool.h>
#include <stddef.h>
#include <stdint.h>

typedef struct wattlerugby_sides {
    size_t a, b, c;
} wattlerugby_sides;

typedef struct wattlerugby_record {
    wattlerugby_sides sides;
    uint16_t allowed;
    uint32_t openings;
    uint64_t removals, examinations;
    int32_t euler;
    uint8_t finished;
} wattlerugby_record;

/* ---- 0.8: no face */

typedef struct wattlerugby_carve_answer {
    uint8_t refusal;
    uint32_t examined, removed;
    bool pending;
    wattlerugby_record next;
} wattlerugby_carve_answer;

#define wattlerugby_carve wattlerugby_carve_8
wattlerugby_carve_answer wattlerugby_carve(
    wattlerugby_record given,
    const int32_t *dist, size_t dist_len,
    const uint8_t *marks, size_t marks_len,
    uint8_t *status, size_t status_len,
    uint32_t limit);

typedef struct wattlerugby_take_answer {
    uint8_t refusal;
    uint32_t k, m;
    wattlerugby_record next;
} wattlerugby_take_answer;

#define wattlerugby_take wattlerugby_take_8
wattlerugby_take_answer wattlerugby_take(
    wattlerugby_record given,
    const int32_t *dist, size_t dist_len,
    const uint8_t *marks, size_t marks_len,
    uint8_t *status, size_t status_len,
    size_t index);

typedef struct wattlerugby_open_answer {
    uint8_t refusal;
    size_t index;
    uint32_t k, m;
    wattlerugby_record next;
} wattlerugby_open_answer;

#define wattlerugby_open wattlerugby_open_8
wattlerugby_open_answer wattlerugby_open(
    wattlerugby_record given,
    const int32_t *dist, size_t dist_len,
    const uint8_t *marks, size_t marks_len,
    uint8_t *status, size_t status_len);

typedef struct wattlerugby_local_answer {
    uint32_t k, m, corners, edges, faces;
} wattlerugby_local_answer;

wattlerugby_local_answer wattlerugby_local_test(uint32_t kept);

/* ---- 0.7: no marks */

typedef struct wattlerugby_begin_answer {
    uint8_t refusal;
    wattlerugby_record next;
} wattlerugby_begin_answer;

#define wattlerugby_begin wattlerugby_begin_6
wattlerugby_begin_answer wattlerugby_begin(
    wattlerugby_sides sides, uint16_t allowed,
    const int32_t *values, size_t values_len,
    int32_t *dist, size_t dist_len,
    uint8_t *status, size_t status_len);

/* ---- 0.5: values of 16 bits, and no width of a layer */

typedef struct wattlerugby_read_answer {
    uint8_t refusal;
    wattlerugby_sides sides;
    uint16_t allowed;
} wattlerugby_read_answer;

wattlerugby_read_answer wattlerugby_read(
    const uint8_t *file, size_t file_len,
    int16_t *values, size_t values_len);

typedef struct wattlerugby_read_layer_answer {
    uint8_t refusal, z;
    size_t from, to;
} wattlerugby_read_layer_answer;

wattlerugby_read_layer_answer wattlerugby_read_layer(
    wattlerugby_sides sides,
    const uint8_t *file, size_t file_len,
    size_t start);

typedef struct wattlerugby_write_answer {
    uint8_t refusal;
    size_t length;
} wattlerugby_write_answer;

wattlerugby_write_answer wattlerugby_write(
    wattlerugby_sides sides, uint16_t allowed,
    const int16_t *values, size_t values_len,
    uint8_t *file, size_t file_len);
