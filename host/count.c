/* Makes one call of the port for each line of standard input, and prints what it answers: counted CALL FORM [ROOM]..
 * CALL is one of `calls` below, FORM the lines' form, P or T. Each ROOM is the output's room for a line; where none is given, room is ample.
 * Status 0: all are answered; 1: a line is refused, or written other than it was read; 2: the words are others; 3: the library has no such call.
 * host/count.sh counts the instructions inside the call. What else is called to make ready is another call. */
#include <inttypes.h>
#include <stdio.h>
#include <stdlib.h>
#include <string.h>

#include "ighdelmur.h"

/* A library of an earlier state may lack one. */
#pragma weak ighdelmur_get_type
#pragma weak ighdelmur_read
#pragma weak ighdelmur_write
#pragma weak ighdelmur_withhold
#pragma weak ighdelmur_key
#pragma weak ighdelmur_convert

enum { LONGEST = 4096, ROOM = IGHDELMUR_ROOM, CELLS = IGHDELMUR_CELLS, OUTPUT = 65536 };

static uint8_t text[ROOM], types[ROOM], boundaries[ROOM], tag_bytes[ROOM], out[OUTPUT];
static uint16_t char_pos[ROOM], byte_pos[ROOM], cell_starts[CELLS], cell_lengths[CELLS];
static uint64_t numbers[5];

static uint64_t read_line(uint32_t form, const uint8_t *line, size_t length) {
    return ighdelmur_read(form, line, length, text, ROOM, types, ROOM, boundaries, ROOM, char_pos, ROOM, byte_pos, ROOM, cell_starts, CELLS,
                          cell_lengths, CELLS, tag_bytes, ROOM, numbers, 5);
}

static uint64_t write_line(uint32_t form, size_t room) {
    return ighdelmur_write(form, numbers[0], numbers[1], numbers[2], numbers[3], numbers[4], text, ROOM, types, ROOM, boundaries, ROOM,
                           char_pos, ROOM, byte_pos, ROOM, cell_starts, CELLS, cell_lengths, CELLS, tag_bytes, ROOM, out, room);
}

static uint64_t withhold(size_t start, size_t end, size_t room) {
    return ighdelmur_withhold(numbers[0], numbers[1], numbers[2], numbers[3], numbers[4], text, ROOM, types, ROOM, boundaries, ROOM,
                              char_pos, ROOM, byte_pos, ROOM, cell_starts, CELLS, cell_lengths, CELLS, tag_bytes, ROOM, start, end, out, room);
}

static uint64_t write_key(size_t room) {
    return ighdelmur_key(numbers[0], numbers[1], numbers[2], numbers[3], numbers[4], text, ROOM, types, ROOM, boundaries, ROOM,
                         char_pos, ROOM, byte_pos, ROOM, cell_starts, CELLS, cell_lengths, CELLS, tag_bytes, ROOM, out, room);
}

/* Asks for the type of each character of the text that was read, and answers how many are other than the reader's. */
static uint64_t type_line(void) {
    uint64_t others = 0;
    for (size_t i = 0; i < numbers[0]; i++) {
        const uint8_t *at = text + char_pos[i];
        size_t width = (size_t)char_pos[i + 1] - char_pos[i];
        uint32_t c = width == 1 ? at[0] : at[0] & (0x7f >> width);
        for (size_t j = 1; j < width; j++) {
            c = c << 6 | (at[j] & 0x3f);
        }
        others += ighdelmur_get_type(c) != types[i];
    }
    return others;
}

enum call { TYPES, READ, PARTIAL, TOKENIZED, THIRD, NOTHING, KEY, CONVERT, CALLS };
static const char *const calls[CALLS] = {"types", "read", "partial", "tokenized", "third", "nothing", "key", "convert"};

static int is_there(enum call call) {
    switch (call) {
    case CONVERT: return ighdelmur_convert != NULL;
    case TYPES: return ighdelmur_read != NULL && ighdelmur_get_type != NULL;
    case READ: return ighdelmur_read != NULL;
    case THIRD:
    case NOTHING: return ighdelmur_read != NULL && ighdelmur_withhold != NULL;
    case KEY: return ighdelmur_read != NULL && ighdelmur_key != NULL;
    default: return ighdelmur_read != NULL && ighdelmur_write != NULL;
    }
}

/* The form that a call writes; RAW where it writes none, or another line. */
static uint32_t written(enum call call, uint32_t form) {
    switch (call) {
    case CONVERT: return form;
    case TOKENIZED: return IGHDELMUR_TOKENIZED;
    case PARTIAL:
    case NOTHING:
    case KEY: return IGHDELMUR_PARTIAL;
    default: return IGHDELMUR_RAW;
    }
}

static uint64_t answer(enum call call, uint32_t form, const uint8_t *line, size_t length, size_t room) {
    uint64_t read = call == CONVERT ? 0 : read_line(form, line, length);
    size_t n = numbers[0];
    if (call == READ || ighdelmur_refused(read)) {
        return read;
    }
    switch (call) {
    case TYPES: return type_line() == 0 ? n : UINT64_MAX;
    case CONVERT: return ighdelmur_convert(form, form, line, length, out, room, 0);
    case THIRD: return withhold(n / 3, n - n / 3, room);
    case NOTHING: return withhold(0, 0, room);
    case KEY: return write_key(room);
    default: return write_line(written(call, form), room);
    }
}

int main(int argc, char **argv) {
    /* Frames below this one stand at the same places in a page, however long the words and the environment are. */
    _Alignas(4096) char line[LONGEST + 2];
    enum call call = TYPES;
    while (argc > 2 && call < CALLS && strcmp(argv[1], calls[call]) != 0) {
        call++;
    }
    if (argc < 3 || call == CALLS || (strcmp(argv[2], "P") != 0 && strcmp(argv[2], "T") != 0)) {
        fputs("usage: counted types|read|partial|tokenized|third|nothing|key|convert P|T [ROOM]..\n", stderr);
        return 2;
    }
    if (!is_there(call)) {
        return 3;
    }
    uint32_t form = argv[2][0] == 'P' ? IGHDELMUR_PARTIAL : IGHDELMUR_TOKENIZED;
    for (int i = 3; fgets(line, sizeof line, stdin) != NULL; i++) {
        size_t length = strcspn(line, "\n"), room = i < argc ? strtoul(argv[i], NULL, 10) : OUTPUT;
        uint64_t a = answer(call, form, (const uint8_t *)line, length, room < OUTPUT ? room : OUTPUT);
        if (ighdelmur_refused(a)) {
            fprintf(stderr, "refused, %u at %" PRIu64 ": %s", ighdelmur_number(a), ighdelmur_place(a), line);
            return 1;
        }
        if (written(call, form) == form && (a != length || memcmp(out, line, length) != 0)) {
            fprintf(stderr, "written as another: %s", line);
            return 1;
        }
        printf("%" PRIu64 "\n", a);
    }
    return 0;
}
