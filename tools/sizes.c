/* What a text takes as rolls, with either width: the figures of docs/BOX.md, and those of a text of your own.
 *
 *   gcc -I include -o sizes tools/sizes.c target/staticlib/libmonterculo.a && python3 tools/members.py 1000 | ./sizes
 *
 * Each roll takes whole lines until one more does not fit into 1,048,576 symbols under the table chosen for just these.
 * The symbols are those of packing: the total that choosing answers may be more. A file is what examples/members.c
 * saves: 24 bytes, the characters of the table, the packed bytes and the directory. Frames are the text that sends a roll. */
#include <stdio.h>

#include "monterculo.h"

enum { LINES = 1 << 19 };

static uint8_t text[1 << 24], buf[MONTERCULO_BYTES(MONTERCULO_SYMBOLS, 4)];
static size_t ends[LINES + 1];

/* The roll of a part of the text, under the table chosen for it; number 4 if the part does not fit into one. */
static struct monterculo_rolled pack(uint8_t k, size_t start, size_t end)
{
    uint32_t counts[256];
    struct monterculo_chosen chosen;
    struct monterculo_rolled rolled = {0};
    rolled.answer = monterculo_count(text + start, end - start, counts, 256);
    if (rolled.answer.number != 0)
        return rolled;
    chosen = monterculo_choose(k, counts, 256);
    return monterculo_pack(chosen.table, text + start, end - start, buf, MONTERCULO_BYTES(MONTERCULO_SYMBOLS, k));
}

int main(void)
{
    size_t length = fread(text, 1, sizeof text, stdin), lines = 0, i;
    int k;
    for (i = 0; i < length && lines < LINES; i++)
        if (text[i] == '\n' || i + 1 == length)
            ends[++lines] = i + 1;
    printf("%zu lines, %zu bytes\n", lines, length);
    if (length == sizeof text || ends[lines] != length)
        return 1;
    for (k = 2; k <= 4; k += 2) {
        size_t from = 0, first = 0, rolls = 0, symbols = 0, bytes = 0, entries = 0, file = 0, frames = 0;
        while (from < lines) {
            size_t fits = from, over = lines + 1;
            struct monterculo_roll roll;
            while (over - fits > 1) {
                size_t middle = fits + (over - fits) / 2;
                if (pack((uint8_t)k, ends[from], ends[middle]).answer.number == 0)
                    fits = middle;
                else
                    over = middle;
            }
            if (fits == from) {
                printf("k %d: line %zu does not fit into a roll\n", k, from + 1);
                return 1;
            }
            roll = pack((uint8_t)k, ends[from], ends[fits]).roll;
            symbols += roll.h;
            bytes += MONTERCULO_BYTES(roll.h, k);
            entries += MONTERCULO_ENTRIES(roll.n);
            file += 24 + roll.table.sigma;
            frames += MONTERCULO_FRAME_TEXT(roll.table.sigma, roll.h, k);
            printf("k %d: roll %zu has %zu lines; %d characters in the table, %d stoppers\n", k, ++rolls, fits - from,
                   roll.table.sigma, roll.table.s);
            if (from == 0)
                first = fits;
            from = fits;
        }
        file += bytes + 4 * entries;
        printf("k %d: %zu roll%s, %zu lines in the first; %zu symbols, %zu bytes packed, %zu of directory, %zu in files, "
               "%zu as frames\n", k, rolls, rolls == 1 ? "" : "s", first, symbols, bytes, 4 * entries, file, frames);
    }
    return 0;
}
