/* A notice box. The office packs a small members' file and sends it. The box names the members' lines while the roll is
 * still coming in, finds a pan where the roll lies, reads that member's line, corrects the telephone number in it, saves
 * the roll and sends it on as lines of text. Everything lies in fixed buffers, and every answer is looked at. */
#include <inttypes.h>
#include <stdio.h>
#include <stdlib.h>
#include <string.h>

#include "monterculo.h"

#define ROOM(array) (sizeof(array) / sizeof((array)[0]))

/* Pan number, name and telephone number, a line for each member. Digits, + and byte 10 are in any chosen table. */
static const uint8_t members[] = "pan 7 Oda 5550143\n"
                                 "pan 12 Jory 5550128\n"
                                 "pan 112 Maren 5550167\n"
                                 "pan 21 Tavo 5550190\n";
/* Each line begins so. */
static const uint8_t each[] = "pan ";
/* With the word before it and the blank behind it, pan 12 is not found in pan 112 or in a pan 120. */
static const uint8_t pan[] = "pan 12 ";
static const uint8_t foreign[] = "+44-5550186";
static const uint8_t corrected[] = "+445550186";

/* What the office sends by radio: first the record, and then the packed bytes, so many at a time. Here each border
 * between two pieces cuts a codeword. */
enum { WIDTH = 2, PIECE = 13 };
static uint8_t sent[128];

/* The box: the record of the roll, its symbols and its directory, with room for longer numbers. */
static struct monterculo_roll roll;
static uint8_t buf[128];
static uint32_t dir[4];

/* Looks at an answer's number, which must be the one expected, and gives its value. */
static uint64_t expect(uint32_t expected, struct monterculo_answer answer, const char *step)
{
    if (answer.number != expected) {
        printf("%s: answered %" PRIu32 " (%s) with value %" PRIu64 "\n", step, answer.number,
               monterculo_text(answer.number), answer.value);
        exit(EXIT_FAILURE);
    }
    return answer.value;
}

static void print_range(size_t start, size_t end)
{
    uint8_t out[128];
    expect(0, monterculo_unpack(roll, buf, sizeof buf, start, end, out, sizeof out), "unpack");
    fwrite(out, 1, end - start, stdout);
}

static void print_roll(void)
{
    size_t i;
    printf("the roll: %" PRIu32 " characters in %" PRIu32 " symbols, %zu bytes; its directory:", roll.n, roll.h,
           MONTERCULO_BYTES(roll.h, roll.table.k));
    for (i = 0; i < MONTERCULO_ENTRIES(roll.n); i++)
        printf(" %" PRIu32, dir[i]);
    printf("\n");
    print_range(0, roll.n);
}

/* Receives the roll whose record came: each piece is kept, and searched as it comes. */
static void receive(void)
{
    struct monterculo_searcher searcher;
    uint32_t found[MONTERCULO_HITS(PIECE, WIDTH)];
    size_t bytes = MONTERCULO_BYTES(roll.h, roll.table.k), at, length, hits, i;

    expect(0, monterculo_start_into(&searcher, roll, each, sizeof each - 1), "start");
    for (at = 0; at < bytes; at += length) {
        length = bytes - at < PIECE ? bytes - at : PIECE;
        memcpy(buf + at, sent + at, length);
        expect(0, monterculo_feed_into(&searcher, buf + at, length, found, ROOM(found), &hits), "feed");
        printf("bytes %zu..%zu come in: '%s' at", at, at + length, (const char *)each);
        for (i = 0; i < hits; i++)
            printf(" %" PRIu32, found[i]);
        if (hits == 0)
            printf(" none");
        if (at + length < bytes)
            printf("; symbol %" PRIu64 " begins a codeword that is not finished\n",
                   expect(MONTERCULO_BAD_CODEWORD, monterculo_finish(searcher), "finish"));
    }
    /* What was named is to be believed from here on. */
    expect(0, monterculo_finish(searcher), "finish");
    printf("; the roll is whole and sound\n");
}

/* The character at a place, by the directory. */
static uint64_t character(size_t place)
{
    return expect(0, monterculo_read_one(roll, buf, sizeof buf, dir, ROOM(dir), place), "read one");
}

/* A checksum over a part of what is saved (FNV-1a), as the check finds no fault that leaves the form whole. */
static uint32_t sum(uint32_t sum, const void *part, size_t length)
{
    const uint8_t *byte = (const uint8_t *)part;
    size_t i;
    for (i = 0; i < length; i++)
        sum = (sum ^ byte[i]) * 16777619;
    return sum;
}

static uint32_t sum_of_box(void)
{
    return sum(sum(sum(2166136261u, &roll, sizeof roll), buf, sizeof buf), dir, sizeof dir);
}

/* Record, buffer, directory and their checksum, saved together; and read back. */
static void save(FILE *file)
{
    uint32_t kept = sum_of_box();
    if (fwrite(&roll, sizeof roll, 1, file) + fwrite(buf, sizeof buf, 1, file) + fwrite(dir, sizeof dir, 1, file) +
            fwrite(&kept, sizeof kept, 1, file) != 4)
        exit(EXIT_FAILURE);
}

static int load(FILE *file)
{
    uint32_t kept;
    return fread(&roll, sizeof roll, 1, file) + fread(buf, sizeof buf, 1, file) + fread(dir, sizeof dir, 1, file) +
            fread(&kept, sizeof kept, 1, file) == 4 && kept == sum_of_box();
}

/* The next box: what came on the line, and the buffer for the roll in it. */
static uint8_t frames[MONTERCULO_FRAME_TEXT(MONTERCULO_PLACES, sizeof buf * 8 / WIDTH, WIDTH)], next[sizeof buf];

/* Writes the roll as a frame text, which the next box reads; at first its last line has lost its end. */
static void send_on(void)
{
    struct monterculo_rolled came;
    size_t length = expect(0, monterculo_write_frames(roll, buf, sizeof buf, frames, sizeof frames), "write frames");

    fwrite(frames, 1, length, stdout);
    came = monterculo_read_frames(frames, length - 1, next, sizeof next);
    printf("without its last byte line %" PRIu64 " is refused, %s\n",
           expect(MONTERCULO_BAD_LINE, came.answer, "read frames"), monterculo_text(came.answer.number));
    came = monterculo_read_frames(frames, length, next, sizeof next);
    expect(0, came.answer, "read frames");
    if (came.roll.h != roll.h || memcmp(next, buf, MONTERCULO_BYTES(roll.h, roll.table.k)) != 0)
        exit(EXIT_FAILURE);
    printf("whole, its %zu bytes are the same roll in the next box\n", length);
}

int main(void)
{
    static uint32_t counts[256];
    struct monterculo_chosen chosen;
    struct monterculo_rolled rolled;
    uint32_t hits[1], jumping[1];
    uint64_t total;
    size_t start, end;
    FILE *file = tmpfile();

    expect(0, monterculo_count(members, sizeof members - 1, counts, ROOM(counts)), "count");
    chosen = monterculo_choose(WIDTH, counts, ROOM(counts));
    expect(0, chosen.answer, "choose");
    rolled = monterculo_pack(chosen.table, members, sizeof members - 1, sent, sizeof sent);
    expect(0, rolled.answer, "pack");
    roll = rolled.roll;
    /* The total that choosing answers is more: no + stands in the text, and it has a codeword all the same. */
    printf("the table: %d stoppers, %d characters; the text takes %" PRIu32 " symbols\n", roll.table.s,
           roll.table.sigma, roll.h);
    receive();
    expect(0, monterculo_make_directory(roll, buf, sizeof buf, dir, ROOM(dir)), "make a directory");
    print_roll();

    total = expect(0, monterculo_search(roll, buf, sizeof buf, pan, sizeof pan - 1, hits, ROOM(hits)), "search");
    printf("'%s' stands %" PRIu64 " time(s)\n", (const char *)pan, total);
    if (total != 1)
        return EXIT_FAILURE;
    /* The search that jumps has the same answers; in a long roll it is the faster one. */
    if (expect(0, monterculo_search_jumping(roll, buf, sizeof buf, pan, sizeof pan - 1, jumping, ROOM(jumping)),
               "search by jumping") != total || jumping[0] != hits[0])
        return EXIT_FAILURE;
    /* The telephone number runs from behind the line's last blank to the line's end. */
    start = hits[0];
    for (end = hits[0]; character(end) != '\n'; end++)
        if (character(end) == ' ')
            start = end + 1;
    printf("its line starts at %" PRIu32 ", its number is %zu..%zu: ", hits[0], start, end);
    print_range(start, end);
    printf("\n");

    rolled = monterculo_edit(roll, buf, sizeof buf, dir, ROOM(dir), start, end, foreign, sizeof foreign - 1);
    printf("%s is refused, %s: its character %" PRIu64 "\n", (const char *)foreign,
           monterculo_text(rolled.answer.number), expect(MONTERCULO_NOT_IN_TABLE, rolled.answer, "edit"));
    rolled = monterculo_edit(roll, buf, sizeof buf, dir, ROOM(dir), start, end, corrected, sizeof corrected - 1);
    expect(0, rolled.answer, "edit");
    roll = rolled.roll;
    printf("%s is put in its place\n", (const char *)corrected);
    end = start + sizeof corrected - 1;

    printf("the line is now: ");
    print_range(hits[0], end);
    printf("\nthe last digit of its number: %c\n", (int)character(end - 1));

    if (file == NULL)
        return EXIT_FAILURE;
    save(file);
    rewind(file);
    if (!load(file))
        return EXIT_FAILURE;
    fclose(file);
    expect(0, monterculo_check(roll, buf, sizeof buf), "check");
    printf("saved and read back, its checksum and its check right\n");
    print_roll();
    send_on();
    return EXIT_SUCCESS;
}
