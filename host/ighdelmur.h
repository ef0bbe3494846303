/* The port for a host in C on x86-64: all calls of the one static library to link, target/staticlib/libexports.a, which `host/library.sh` makes.
 * sides/port.rs declares the same for Rust.
 *
 * A slice is a pointer and a length in elements. A pointer is never null, also where its length is 0, and a slice that a call writes into
 * overlaps no other. Any bytes and any numbers may be given. A refused call alters none of the memory that it is lent.
 *
 * An answer of 2^63 or more is a refusal: 2^63 plus 256 times its place plus its number. README.md lists the numbers. */
#ifndef IGHDELMUR_H
#define IGHDELMUR_H

#include <stddef.h>
#include <stdint.h>

#ifdef __cplusplus
extern "C" {
#endif

/* The forms by number; the writers have no raw form. */
enum { IGHDELMUR_RAW = 0, IGHDELMUR_TOKENIZED = 1, IGHDELMUR_PARTIAL = 2 };

/* Whether an answer is a refusal, the refusal's number, and its place. */
static inline int ighdelmur_refused(uint64_t answer) { return (int)(answer >> 63); }
static inline unsigned ighdelmur_number(uint64_t answer) { return (unsigned)(answer & 255); }
static inline uint64_t ighdelmur_place(uint64_t answer) { return (answer & (UINT64_MAX >> 1)) >> 8; }

/* The types of characters. */
enum {
    IGHDELMUR_DIGIT = 1,
    IGHDELMUR_ROMAN = 2,
    IGHDELMUR_HIRAGANA = 3,
    IGHDELMUR_KATAKANA = 4,
    IGHDELMUR_KANJI = 5,
    IGHDELMUR_OTHER = 6
};

/* The type of any number: 6 where it is no character. It refuses nothing. Each call lays its table anew; for the types of a whole text read the text. */
uint64_t ighdelmur_get_type(uint32_t c);

/* A sentence has N characters, B bytes of text, a number of columns, and a cell for each character and column: N times columns. Row after row, the
 * cell of character i and column j stands at i * columns + j. Its tag is the cell_lengths[..] bytes of tag_bytes from cell_starts[..] on; a length of 0
 * is an absent tag. A cell starts where the one before it ends, also where it is absent. G is the number of tag bytes.
 *
 * Room for the sentence of every line, which has at most 4,096 bytes: of the two buffers of cells, and of each other one. */
enum { IGHDELMUR_CELLS = 2048 * 2048, IGHDELMUR_ROOM = 4096 + 1 };

/* The same for a line of so many bytes. N and columns together are at most its length, so cells are at most a quarter of its square; of each other
 * buffer the length plus 1 is enough. A caller may lend less: a sentence that needs more is refused by 11, and may be read again with more. */
static inline size_t ighdelmur_most_cells(size_t length) { return (length / 2) * (length - length / 2); }

/* Reads `line` in the form `reader` and writes it in the form `writer` into `out`, behind the bytes before `at`: answers where the written line ends.
 * Refuses: 16 an unknown form, 14 `room` over 1,048,576 or `at` past it (both at 0), 1 to 10 what the reader refuses, 11 a sentence with over 2,048
 * cells (at 0), 12 too little room (the place is the written line's length). A sentence with more cells is read and written by the calls below. */
uint64_t ighdelmur_convert(uint32_t reader, uint32_t writer, const uint8_t *line, size_t length, uint8_t *out, size_t room, size_t at);

/* Reads `line` in a form into eight buffers: answers 0, with N, B, columns, cells and G as the first five of `numbers`. Room needed: text B, types N,
 * boundaries N-1, char_pos N+1, byte_pos B+1, cell_starts and cell_lengths N times columns, tag_bytes G.
 * Refuses: 16 an unknown form, 14 fewer than five `numbers` (both at 0), 1 to 10 what the reader refuses, 11 a buffer without the room (at 0). */
uint64_t ighdelmur_read(uint32_t form, const uint8_t *line, size_t length,
                        uint8_t *text, size_t text_room, uint8_t *types, size_t types_room,
                        uint8_t *boundaries, size_t boundaries_room, uint16_t *char_pos, size_t char_pos_room,
                        uint16_t *byte_pos, size_t byte_pos_room, uint16_t *cell_starts, size_t cell_starts_room,
                        uint16_t *cell_lengths, size_t cell_lengths_room, uint8_t *tag_bytes, size_t tag_bytes_room,
                        uint64_t *numbers, size_t numbers_room);

/* Writes the sentence of the buffers, whose five numbers are given, into `out`: answers the written line's length.
 * Refuses: 16 an unknown form, 13 numbers and buffers that are no sentence (both at 0), 12 too little room (the place is the line's length). */
uint64_t ighdelmur_write(uint32_t form, size_t n, size_t b, size_t columns, size_t cells, size_t g,
                         const uint8_t *text, size_t text_room, const uint8_t *types, size_t types_room,
                         const uint8_t *boundaries, size_t boundaries_room, const uint16_t *char_pos, size_t char_pos_room,
                         const uint16_t *byte_pos, size_t byte_pos_room, const uint16_t *cell_starts, size_t cell_starts_room,
                         const uint16_t *cell_lengths, size_t cell_lengths_room, const uint8_t *tag_bytes, size_t tag_bytes_room,
                         uint8_t *out, size_t room);

/* Writes the partial line of the sentence of the buffers, with the labels of the characters from `start` up to `end` withheld, into `out`: answers
 * the line's length. A boundary beside such a character is unknown, its tags are absent, and columns end at the last that has a tag elsewhere.
 * Refuses: 13 numbers and buffers that are no sentence (at 0), 14 `start` past `end` or `end` past N (the place is `start`, and 4,294,967,295 for
 * every `start` from there on), 12 too little room (the place is the line's length). */
uint64_t ighdelmur_withhold(size_t n, size_t b, size_t columns, size_t cells, size_t g,
                            const uint8_t *text, size_t text_room, const uint8_t *types, size_t types_room,
                            const uint8_t *boundaries, size_t boundaries_room, const uint16_t *char_pos, size_t char_pos_room,
                            const uint16_t *byte_pos, size_t byte_pos_room, const uint16_t *cell_starts, size_t cell_starts_room,
                            const uint16_t *cell_lengths, size_t cell_lengths_room, const uint8_t *tag_bytes, size_t tag_bytes_room,
                            size_t start, size_t end, uint8_t *out, size_t room);

/* Writes the key of the sentence of the buffers into `out`: answers the key's length. The key is the partial line without the columns behind the last
 * that has a tag. Two sentences have equal keys exactly when text, boundaries and present tags with their columns agree.
 * Refuses: 13 numbers and buffers that are no sentence (at 0), 12 too little room (the place is the key's length). */
uint64_t ighdelmur_key(size_t n, size_t b, size_t columns, size_t cells, size_t g,
                       const uint8_t *text, size_t text_room, const uint8_t *types, size_t types_room,
                       const uint8_t *boundaries, size_t boundaries_room, const uint16_t *char_pos, size_t char_pos_room,
                       const uint16_t *byte_pos, size_t byte_pos_room, const uint16_t *cell_starts, size_t cell_starts_room,
                       const uint16_t *cell_lengths, size_t cell_lengths_room, const uint8_t *tag_bytes, size_t tag_bytes_room,
                       uint8_t *out, size_t room);

/* The token that is the first from character `p` on: answers 1 with its start and end in `span`, where its end is the next `p`; or 0, where no
 * token is left, with the cursor's place as the first of `span`.
 * Refuses: 13 numbers and buffers that are no sentence, 14 fewer than two numbers in `span` (both at 0). */
uint64_t ighdelmur_next_token(size_t n, size_t b, size_t columns, size_t cells, size_t g,
                              const uint8_t *text, size_t text_room, const uint8_t *types, size_t types_room,
                              const uint8_t *boundaries, size_t boundaries_room, const uint16_t *char_pos, size_t char_pos_room,
                              const uint16_t *byte_pos, size_t byte_pos_room, const uint16_t *cell_starts, size_t cell_starts_room,
                              const uint16_t *cell_lengths, size_t cell_lengths_room, const uint8_t *tag_bytes, size_t tag_bytes_room,
                              size_t p, uint64_t *span, size_t span_room);

#ifdef __cplusplus
}
#endif

#endif
