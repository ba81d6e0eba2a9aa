/* An earlier archive and this one by turns, in one run: choosing, the codeword of a character, packing a short text.
 *
 *   rust/run turns EARLIER.a
 *
 * renames the earlier archive's functions from monterculo_ to earlier_, and runs this on the texts of the bench's short
 * rolls. Nanoseconds of a call: medians of ROUNDS rounds of CALLS calls each, after a round that is not measured. No call
 * may be refused, and both must answer alike as far as is looked: s and the total, a codeword's length and first symbol, h
 * and the first byte. Codewords are asked of the table's characters in turn; a table is chosen for all of a text, and its
 * beginning packed. */
#define _POSIX_C_SOURCE 199309L
#include <stdio.h>
#include <stdlib.h>
#include <string.h>
#include <time.h>

#include "monterculo.h"

enum { ROUNDS = 201, CALLS = 256, SHORT = 32, MOST = 65536 };

struct archive {
    struct monterculo_chosen (*choose)(uint8_t k, const uint32_t *counts, size_t counts_len);
    struct monterculo_coded (*codeword_of)(struct monterculo_table table, uint8_t character);
    struct monterculo_rolled (*pack)(struct monterculo_table table, const uint8_t *text, size_t text_len, uint8_t *buf,
                                     size_t buf_len);
};

struct monterculo_chosen earlier_choose(uint8_t k, const uint32_t *counts, size_t counts_len);
struct monterculo_coded earlier_codeword_of(struct monterculo_table table, uint8_t character);
struct monterculo_rolled earlier_pack(struct monterculo_table table, const uint8_t *text, size_t text_len, uint8_t *buf,
                                      size_t buf_len);

static const struct archive archives[2] = {
    {earlier_choose, earlier_codeword_of, earlier_pack},
    {monterculo_choose, monterculo_codeword_of, monterculo_pack},
};

static uint8_t text[MOST], buf[256], k;
static size_t length;
static uint32_t counts[256];
static struct monterculo_table table;

static void accepted(struct monterculo_answer answer)
{
    if (answer.number != 0) {
        fprintf(stderr, "turns: a call was refused %u\n", (unsigned)answer.number);
        exit(1);
    }
}

/* Each answers a number made of what the call answered. */
static uint64_t choose(const struct archive *a, size_t i)
{
    (void)i;
    struct monterculo_chosen chosen = a->choose(k, counts, 256);
    accepted(chosen.answer);
    return chosen.answer.value * 16 + chosen.table.s;
}

static uint64_t codeword_of(const struct archive *a, size_t i)
{
    struct monterculo_coded coded = a->codeword_of(table, table.places[i % table.sigma]);
    accepted(coded.answer);
    return coded.word.length * 16 + coded.word.symbols[0];
}

static uint64_t pack(const struct archive *a, size_t i)
{
    (void)i;
    struct monterculo_rolled rolled = a->pack(table, text, SHORT, buf, sizeof buf);
    accepted(rolled.answer);
    return rolled.roll.h * 256 + buf[0];
}

static double now(void)
{
    struct timespec t;
    clock_gettime(CLOCK_MONOTONIC, &t);
    return (double)t.tv_sec * 1e9 + (double)t.tv_nsec;
}

static int ascending(const void *a, const void *b)
{
    double x = *(const double *)a, y = *(const double *)b;
    return (x > y) - (x < y);
}

static void by_turns(const char *name, uint64_t (*call)(const struct archive *, size_t))
{
    static double times[2][ROUNDS];
    size_t round, turn, i;
    for (round = 0; round <= ROUNDS; round++) {
        uint64_t answers[2] = {0, 0};
        for (turn = 0; turn < 2; turn++) {
            size_t which = (round + turn) % 2;
            double start = now();
            for (i = 0; i < CALLS; i++)
                answers[which] = answers[which] * 31 + call(&archives[which], i);
            if (round > 0)
                times[which][round - 1] = (now() - start) / CALLS;
        }
        if (answers[0] != answers[1]) {
            fprintf(stderr, "turns: %s: the answers differ\n", name);
            exit(1);
        }
    }
    for (turn = 0; turn < 2; turn++)
        qsort(times[turn], ROUNDS, sizeof(double), ascending);
    printf("| %s | %.0f | %.0f | %.2f |\n", name, times[0][ROUNDS / 2], times[1][ROUNDS / 2],
           times[1][ROUNDS / 2] / times[0][ROUNDS / 2]);
}

static void case_of(const char *title)
{
    for (k = 2; k <= 4; k += 2) {
        char name[300];
        table = monterculo_choose(k, counts, 256).table;
        snprintf(name, sizeof name, "choose, %s, k %d (%d characters)", title, k, table.sigma);
        by_turns(name, choose);
        snprintf(name, sizeof name, "codeword of a character, %s, k %d", title, k);
        by_turns(name, codeword_of);
        snprintf(name, sizeof name, "pack %d characters, %s, k %d", SHORT, title, k);
        by_turns(name, pack);
    }
}

/* An earlier archive that raises nothing answers alike for counts that need no raising. */
static void raise_the_twelve(void)
{
    const char *c;
    for (c = "\n+0123456789"; *c != 0; c++)
        if (counts[(uint8_t)*c] == 0)
            counts[(uint8_t)*c] = 1;
}

int main(int argc, char **argv)
{
    int i;
    printf("| ns | before | now | ratio |\n|---|--:|--:|--:|\n");
    for (i = 1; i < argc; i++) {
        FILE *file = fopen(argv[i], "rb");
        if (file == NULL || (length = fread(text, 1, sizeof text, file)) < SHORT) {
            fprintf(stderr, "turns: %s: not a text of %d characters\n", argv[i], SHORT);
            return 2;
        }
        fclose(file);
        monterculo_count(text, length, counts, 256);
        raise_the_twelve();
        case_of(strrchr(argv[i], '/') ? strrchr(argv[i], '/') + 1 : argv[i]);
    }
    for (i = 0; i < 256; i++) {
        counts[i] = 1;
        text[i] = (uint8_t)i;
    }
    case_of("256 equal counts");
    return 0;
}
