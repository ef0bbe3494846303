/* Reads each argument, or 'a//x b/y' where there is none, as a tokenized note and prints its table of tags: a row for each character, which is printed
 * first, and in it a cell for each column, behind a tab: where it starts among the tag bytes, '+', its length, a blank, and its tag, or '-' where the
 * tag is absent. For a note that is refused it prints the number and the place of its refusal. */
#include <inttypes.h>
#include <stdio.h>
#include <string.h>

#include "ighdelmur.h"

/* Room for every note. */
static uint8_t text[IGHDELMUR_ROOM], types[IGHDELMUR_ROOM], boundaries[IGHDELMUR_ROOM], tag_bytes[IGHDELMUR_ROOM];
static uint16_t char_pos[IGHDELMUR_ROOM], byte_pos[IGHDELMUR_ROOM], cell_starts[IGHDELMUR_CELLS], cell_lengths[IGHDELMUR_CELLS];

static uint64_t read_note(const char *note, uint64_t numbers[5]) {
    return ighdelmur_read(IGHDELMUR_TOKENIZED, (const uint8_t *)note, strlen(note), text, IGHDELMUR_ROOM, types, IGHDELMUR_ROOM,
                          boundaries, IGHDELMUR_ROOM, char_pos, IGHDELMUR_ROOM, byte_pos, IGHDELMUR_ROOM, cell_starts, IGHDELMUR_CELLS,
                          cell_lengths, IGHDELMUR_CELLS, tag_bytes, IGHDELMUR_ROOM, numbers, 5);
}

static void print_table(const char *note) {
    uint64_t numbers[5], answer = read_note(note, numbers);
    if (ighdelmur_refused(answer)) {
        printf("refused: %u at %" PRIu64 "\n", ighdelmur_number(answer), ighdelmur_place(answer));
        return;
    }
    size_t n = numbers[0], columns = numbers[2];
    for (size_t i = 0; i < n; i++) {
        fwrite(text + char_pos[i], 1, (size_t)(char_pos[i + 1] - char_pos[i]), stdout);
        for (size_t j = 0; j < columns; j++) {
            size_t start = cell_starts[i * columns + j], length = cell_lengths[i * columns + j];
            printf("\t%zu+%zu ", start, length);
            if (length == 0) {
                putchar('-');
            } else {
                fwrite(tag_bytes + start, 1, length, stdout);
            }
        }
        putchar('\n');
    }
}

int main(int argc, char **argv) {
    if (argc < 2) {
        print_table("a//x b/y");
    }
    for (int i = 1; i < argc; i++) {
        print_table(argv[i]);
    }
    return 0;
}
