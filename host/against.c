/* Reads, writes and converts each line of standard input by two libraries of the port in turn, and prints the fewest ticks of the processor's clock that
 * each needs: against ROUNDS. A line is its kind, which ends with its form, P or T, a tab and the note. For each kind and each work there is a line: kind,
 * work, and the sums of both libraries, with tabs between them. host/against.py builds it, with the calls of the one library named `earlier_`. */
#include <inttypes.h>
#include <stdio.h>
#include <stdlib.h>
#include <string.h>
#include <x86intrin.h>

#include "ighdelmur.h"

extern __typeof__(ighdelmur_read) earlier_read;
extern __typeof__(ighdelmur_write) earlier_write;
extern __typeof__(ighdelmur_convert) earlier_convert;

enum { LONGEST = 4096, ROOM = IGHDELMUR_ROOM, CELLS = IGHDELMUR_CELLS, OUTPUT = 65536 };
enum work { READ, WRITE, CONVERT, WORKS };
static const char *const works[WORKS] = {"read", "write", "read then write, one call"};

static uint8_t text[ROOM], types[ROOM], boundaries[ROOM], tag_bytes[ROOM], out[OUTPUT];
static uint16_t char_pos[ROOM], byte_pos[ROOM], cell_starts[CELLS], cell_lengths[CELLS];
static uint64_t numbers[5];

static const struct {
    __typeof__(ighdelmur_read) *read;
    __typeof__(ighdelmur_write) *write;
    __typeof__(ighdelmur_convert) *convert;
} sides[2] = {{earlier_read, earlier_write, earlier_convert}, {ighdelmur_read, ighdelmur_write, ighdelmur_convert}};

static uint64_t answer(int side, enum work work, uint32_t form, const uint8_t *line, size_t length) {
    switch (work) {
    case READ:
        return sides[side].read(form, line, length, text, ROOM, types, ROOM, boundaries, ROOM, char_pos, ROOM, byte_pos, ROOM, cell_starts, CELLS,
                                cell_lengths, CELLS, tag_bytes, ROOM, numbers, 5);
    case WRITE:
        return sides[side].write(form, numbers[0], numbers[1], numbers[2], numbers[3], numbers[4], text, ROOM, types, ROOM, boundaries, ROOM, char_pos,
                                 ROOM, byte_pos, ROOM, cell_starts, CELLS, cell_lengths, CELLS, tag_bytes, ROOM, out, OUTPUT);
    default: return sides[side].convert(form, form, line, length, out, OUTPUT, 0);
    }
}

/* The ticks of one call, which must not be refused. */
static uint64_t ticks(int side, enum work work, uint32_t form, const uint8_t *line, size_t length) {
    unsigned processor;
    uint64_t before = __rdtscp(&processor), a = answer(side, work, form, line, length), after = __rdtscp(&processor);
    if (ighdelmur_refused(a)) {
        fprintf(stderr, "refused, %u at %" PRIu64 ": %s", ighdelmur_number(a), ighdelmur_place(a), line);
        exit(1);
    }
    return after - before;
}

int main(int argc, char **argv) {
    static char line[LONGEST + 64], kind[64];
    static uint64_t sums[WORKS][2];
    long rounds = argc == 2 ? strtol(argv[1], NULL, 10) : 0;
    int more = fgets(line, sizeof line, stdin) != NULL;
    if (rounds <= 0 || !more) {
        fputs("usage: against ROUNDS < LINES\n", stderr);
        return 2;
    }
    while (more) {
        size_t front = strcspn(line, "\t");
        if (front == 0 || front >= sizeof kind || line[front] == 0) {
            fprintf(stderr, "no kind and note: %s", line);
            return 2;
        }
        memcpy(kind, line, front);
        kind[front] = 0;
        uint32_t form = kind[front - 1] == 'P' ? IGHDELMUR_PARTIAL : IGHDELMUR_TOKENIZED;
        const uint8_t *note = (const uint8_t *)line + front + 1;
        size_t length = strcspn(line + front + 1, "\n");
        for (enum work work = READ; work < WORKS; work++) {
            uint64_t best[2] = {UINT64_MAX, UINT64_MAX};
            for (long i = 0; i < 2 * rounds; i++) {
                int side = (i / 2 + i) % 2;
                uint64_t t = ticks(side, work, form, note, length);
                best[side] = t < best[side] ? t : best[side];
            }
            sums[work][0] += best[0];
            sums[work][1] += best[1];
        }
        more = fgets(line, sizeof line, stdin) != NULL;
        if (!more || strncmp(line, kind, front) != 0 || line[front] != '\t') {
            for (enum work work = READ; work < WORKS; work++) {
                printf("%s\t%s\t%" PRIu64 "\t%" PRIu64 "\n", kind, works[work], sums[work][0], sums[work][1]);
            }
            memset(sums, 0, sizeof sums);
        }
    }
    return 0;
}
