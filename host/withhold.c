/* Answers questions on the withheld copy and on the key, one to a line: 'copy' or 'key', a line's form by its number, the line in hex or a dot for an
 * empty one, a range's start and end, which the key does without, the room of the output, and how many characters the sheet is said to have more than
 * it has. Prints the length of the copy or the key and its hex, or '!' with the refusal's number and its place; 'output' or 'sheet' behind it tells that
 * a byte was changed there that must stay. */
#include <inttypes.h>
#include <stdio.h>
#include <string.h>

#include "ighdelmur.h"

enum { LONGEST = 8192, ROOM = IGHDELMUR_ROOM, CELLS = IGHDELMUR_CELLS, OUTPUT = 1 << 22, MARGIN = 64, UNTOUCHED = 0xa5 };

/* A sheet with room for every line that is read. */
struct sheet {
    uint8_t text[ROOM], types[ROOM], boundaries[ROOM], tag_bytes[ROOM];
    uint16_t char_pos[ROOM], byte_pos[ROOM];
    uint64_t numbers[5];
    uint16_t cell_starts[CELLS], cell_lengths[CELLS];
};

/* What is asked of a sheet. */
struct question {
    char call[5];
    uint32_t form;
    size_t start, end, room, more;
};

static struct sheet sheet, before;
static uint8_t out[OUTPUT + MARGIN];

static uint64_t read_line(uint32_t form, const uint8_t *line, size_t length, struct sheet *s) {
    return ighdelmur_read(form, line, length, s->text, ROOM, s->types, ROOM, s->boundaries, ROOM, s->char_pos, ROOM,
                          s->byte_pos, ROOM, s->cell_starts, CELLS, s->cell_lengths, CELLS, s->tag_bytes, ROOM, s->numbers, 5);
}

static uint64_t withhold(const struct sheet *s, const struct question *q) {
    const uint64_t *n = s->numbers;
    return ighdelmur_withhold(n[0] + q->more, n[1], n[2], n[3], n[4], s->text, ROOM, s->types, ROOM, s->boundaries, ROOM, s->char_pos, ROOM,
                              s->byte_pos, ROOM, s->cell_starts, CELLS, s->cell_lengths, CELLS, s->tag_bytes, ROOM, q->start, q->end, out, q->room);
}

static uint64_t write_key(const struct sheet *s, const struct question *q) {
    const uint64_t *n = s->numbers;
    return ighdelmur_key(n[0] + q->more, n[1], n[2], n[3], n[4], s->text, ROOM, s->types, ROOM, s->boundaries, ROOM, s->char_pos, ROOM,
                         s->byte_pos, ROOM, s->cell_starts, CELLS, s->cell_lengths, CELLS, s->tag_bytes, ROOM, out, q->room);
}

/* How many of the cells are looked at: those of the sentence, and some behind them. */
static size_t looked_at(const struct sheet *s) { return s->numbers[3] + MARGIN < CELLS ? s->numbers[3] + MARGIN : CELLS; }

/* Keeps what a sheet holds. */
static void keep(struct sheet *kept, const struct sheet *s) {
    size_t cells = looked_at(s) * sizeof s->cell_starts[0];
    memcpy(kept, s, offsetof(struct sheet, cell_starts));
    memcpy(kept->cell_starts, s->cell_starts, cells);
    memcpy(kept->cell_lengths, s->cell_lengths, cells);
}

/* Whether a sheet holds what was kept of it. */
static int is_kept(const struct sheet *kept, const struct sheet *s) {
    size_t cells = looked_at(kept) * sizeof s->cell_starts[0];
    return memcmp(kept, s, offsetof(struct sheet, cell_starts)) == 0 && memcmp(kept->cell_starts, s->cell_starts, cells) == 0 &&
           memcmp(kept->cell_lengths, s->cell_lengths, cells) == 0;
}

/* Whether the output is as it was lent from a byte on, up to its room and a little further. */
static int is_left(size_t from, size_t room) {
    for (size_t i = from; i < room + MARGIN; i++) {
        if (out[i] != UNTOUCHED) {
            return 0;
        }
    }
    return 1;
}

/* Prints an answer: a refusal, or the line at the front of the output. */
static void tell(uint64_t answer, size_t room) {
    static const char digits[] = "0123456789abcdef";
    if (ighdelmur_refused(answer)) {
        printf("!%u %" PRIu64, ighdelmur_number(answer), ighdelmur_place(answer));
        return;
    }
    printf("%" PRIu64 " ", answer);
    for (size_t i = 0; i < answer && i < room; i++) {
        putchar(digits[out[i] >> 4]);
        putchar(digits[out[i] & 15]);
    }
}

static void ask(const uint8_t *line, size_t length, const struct question *q) {
    uint64_t answer = read_line(q->form, line, length, &sheet);
    if (!ighdelmur_refused(answer)) {
        memset(out, UNTOUCHED, q->room + MARGIN);
        keep(&before, &sheet);
        answer = strcmp(q->call, "key") == 0 ? write_key(&sheet, q) : withhold(&sheet, q);
        tell(answer, q->room);
        if (!is_left(ighdelmur_refused(answer) ? 0 : answer, q->room)) {
            printf(" output");
        }
        if (!is_kept(&before, &sheet)) {
            printf(" sheet");
        }
    } else {
        tell(answer, q->room);
    }
    putchar('\n');
}

static uint8_t digit(char c) { return (uint8_t)(c <= '9' ? c - '0' : c - 'a' + 10); }

int main(void) {
    static char hex[2 * LONGEST + 1];
    static uint8_t line[LONGEST];
    struct question q;
    while (scanf("%4s %" SCNu32 " %16384s %zu %zu %zu %zu", q.call, &q.form, hex, &q.start, &q.end, &q.room, &q.more) == 7) {
        size_t length = strlen(hex) / 2;
        for (size_t i = 0; i < length; i++) {
            line[i] = (uint8_t)(digit(hex[2 * i]) << 4 | digit(hex[2 * i + 1]));
        }
        if (q.room > OUTPUT) {
            fprintf(stderr, "there is no room of %zu bytes\n", q.room);
            return 1;
        }
        ask(line, length, &q);
    }
    return 0;
}
