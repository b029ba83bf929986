/* Finds the first least tree of a sheet and prints its leaves: bar, place and length in units, n (4 is a rest), and the pitches placed
   there. */
#include <inttypes.h>
#include <stdio.h>
#include <stdlib.h>
#include <string.h>
#include "rhythm.h"

static uint8_t text[RHYTHM_TEXT_MOST + 1], score[RHYTHM_SCORE_MOST + 1]; /* one byte more shows a longer text, and ends the string */

static int fail(const char *why) { return fprintf(stderr, "leaves: %s\n", why), 2; }

int main(int argc, char **argv)
{
    FILE *sheet = argc == 2 ? fopen(argv[1], "rb") : NULL;
    if (!sheet) return fail("usage: leaves SHEET, a file that can be read");
    size_t length = fread(text, 1, sizeof text, sheet);
    if (ferror(sheet)) return fail("the sheet cannot be read to its end");
    fclose(sheet);

    size_t bytes = rhythm_tree_bytes(text, length), cells = rhythm_work_cells(text, length); /* 0 if refused, and finding says why */
    uint8_t *tree = malloc(bytes + 1);
    uint64_t *work = malloc((cells + 1) * sizeof *work), found[6], written[3];
    if (!tree || !work) return fail("no memory");
    rhythm_find(text, length, tree, bytes, work, cells, found);
    if (found[0]) return printf("refusal %" PRIu64 ", line %" PRIu64 "\n", found[0], found[1]), 1;
    rhythm_write(text, length, tree, found[2], score, RHYTHM_SCORE_MOST, written);
    if (written[0]) return fail("the score was refused");

    printf("total %" PRIu64 ", R %" PRIu64 ", D %" PRIu64 "\n", found[5], found[3], found[4]);
    strtok((char *)score, "\n"); /* the line 54 */
    for (char *line; (line = strtok(NULL, "\n"));) {
        unsigned left, units, n, placed, pitch;
        if (sscanf(line, "53%8x%4x%2x%2x", &left, &units, &n, &placed) != 4) return fail("a line that is no leaf");
        printf("bar %u, unit %u, length %u, n %u:", left / 20160 + 1, left % 20160, units, n);
        for (unsigned i = 0; i < placed && sscanf(line + 18 + 2 * i, "%2x", &pitch) == 1; i++) printf(" %u", pitch);
        putchar('\n');
    }
    free(tree), free(work);
    return fflush(stdout) ? fail("the leaves cannot be written") : 0;
}
