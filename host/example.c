/* Reads each argument as a tokenized note and prints it in the partial form, or the number and the place of its refusal. */
#include <inttypes.h>
#include <stdio.h>
#include <string.h>

#include "ighdelmur.h"

int main(int argc, char **argv) {
    static uint8_t out[8192];
    for (int i = 1; i < argc; i++) {
        const uint8_t *line = (const uint8_t *)argv[i];
        uint64_t end = ighdelmur_convert(IGHDELMUR_TOKENIZED, IGHDELMUR_PARTIAL, line, strlen(argv[i]), out, sizeof out, 0);
        if (ighdelmur_refused(end)) {
            printf("refused: %u at %" PRIu64 "\n", ighdelmur_number(end), ighdelmur_place(end));
        } else {
            fwrite(out, 1, (size_t)end, stdout);
            putchar('\n');
        }
    }
    return 0;
}
