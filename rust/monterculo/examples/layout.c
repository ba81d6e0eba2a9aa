/* The size of each struct of include/monterculo.h, and the offset and size of each of its fields. */
#include <stdio.h>

#include "monterculo.h"

#define SIZE(type) printf(#type " %zu\n", sizeof(struct monterculo_##type))
#define FIELD(type, field) \
    printf(#type "." #field " %zu %zu\n", offsetof(struct monterculo_##type, field), \
           sizeof(((struct monterculo_##type *)0)->field))

int main(void)
{
    SIZE(table);
    FIELD(table, k);
    FIELD(table, s);
    FIELD(table, sigma);
    FIELD(table, places);
    SIZE(roll);
    FIELD(roll, table);
    FIELD(roll, n);
    FIELD(roll, h);
    SIZE(codeword);
    FIELD(codeword, length);
    FIELD(codeword, symbols);
    SIZE(answer);
    FIELD(answer, number);
    FIELD(answer, value);
    SIZE(chosen);
    FIELD(chosen, answer);
    FIELD(chosen, table);
    SIZE(coded);
    FIELD(coded, answer);
    FIELD(coded, word);
    SIZE(rolled);
    FIELD(rolled, answer);
    FIELD(rolled, roll);
    SIZE(progress);
    FIELD(progress, read);
    FIELD(progress, count);
    FIELD(progress, first);
    FIELD(progress, past);
    FIELD(progress, place);
    FIELD(progress, shorter);
    FIELD(progress, rows);
    FIELD(progress, value);
    FIELD(progress, bad);
    FIELD(progress, stained);
    SIZE(judge);
    FIELD(judge, roll);
    FIELD(judge, progress);
    SIZE(searcher);
    FIELD(searcher, judge);
    FIELD(searcher, pattern);
    FIELD(searcher, length);
    FIELD(searcher, ends);
    SIZE(started);
    FIELD(started, answer);
    FIELD(started, searcher);
    SIZE(fed);
    FIELD(fed, answer);
    FIELD(fed, hits);
    FIELD(fed, searcher);
    return 0;
}
