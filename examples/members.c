/* A roll of members on disk. docs/BOX.md tells its story, and has all of this file behind this comment.
 *
 *   members pack TEXT ROLL             packs the lines of TEXT and saves them as ROLL
 *   members find ROLL PAN              writes the line of pan PAN
 *   members correct ROLL PAN NUMBER    puts NUMBER in the place of that line's telephone number, and saves
 *   members text ROLL                  writes all lines
 *
 * A line is the word pan, a pan number, a name and a telephone number, with blanks between them. */

#define _POSIX_C_SOURCE 200809L
#include <errno.h>
#include <fcntl.h>
#include <inttypes.h>
#include <stdio.h>
#include <string.h>
#include <unistd.h>

#include "monterculo.h"

#define ROOM(array) (sizeof(array) / sizeof((array)[0]))

/* The symbols that this box has memory for; the longest roll there is has MONTERCULO_SYMBOLS. */
enum { WIDTH = 4, SYMBOLS = 65536 };

/* The box: the record of the roll, its packed bytes and its directory. */
static struct monterculo_roll roll;
static uint8_t buf[MONTERCULO_BYTES(SYMBOLS, WIDTH)];
static uint32_t dir[MONTERCULO_ENTRIES(SYMBOLS)];

/* A plain text: what is packed, or what was unpacked. No roll has more characters than symbols. */
static uint8_t plain[SYMBOLS];

/* These tell what went wrong. Here and below, 1 is for what went wrong and 0 for what went well. */
static int told(const char *what, const char *why)
{
    fprintf(stderr, "%s: %s\n", what, why);
    return 1;
}

static int refused(const char *what, struct monterculo_answer answer)
{
    if (answer.number == MONTERCULO_ACCEPTED)
        return 0;
    fprintf(stderr, "refusal %" PRIu32 ", value %" PRIu64 "; ", answer.number, answer.value);
    return told(what, monterculo_text(answer.number));
}

/* Characters that a correction may bring, whether the text has them today or not. Digits and + any chosen table has. */
static const uint8_t to_come[] = "-";

/* Makes the roll of a text. If that is refused, the roll that was there is still there. */
static int make(const uint8_t *text, size_t length)
{
    uint32_t counts[256];
    struct monterculo_chosen chosen;
    struct monterculo_rolled packed;
    size_t i, bytes, entries;

    if (refused("count", monterculo_count(text, length, counts, ROOM(counts))))
        return 1;
    for (i = 0; i < sizeof to_come - 1; i++)
        if (counts[to_come[i]] == 0)
            counts[to_come[i]] = 1;
    chosen = monterculo_choose(WIDTH, counts, ROOM(counts));
    if (refused("choose", chosen.answer))
        return 1;
    packed = monterculo_pack(chosen.table, text, length, buf, sizeof buf);
    if (refused("pack", packed.answer))
        return 1;
    roll = packed.roll;
    if (refused("make a directory", monterculo_make_directory(roll, buf, sizeof buf, dir, ROOM(dir))))
        return 1;
    /* Packing leaves what lies behind the roll, and a longer one may have been here. */
    bytes = MONTERCULO_BYTES(roll.h, roll.table.k);
    entries = MONTERCULO_ENTRIES(roll.n);
    memset(buf + bytes, 0, sizeof buf - bytes);
    memset(dir + entries, 0, sizeof dir - entries * sizeof dir[0]);
    return 0;
}

/* The character at a place, or -1. */
static int character(size_t place)
{
    struct monterculo_answer answer = monterculo_read_one(roll, buf, sizeof buf, dir, ROOM(dir), place);
    return refused("read one", answer) ? -1 : (int)answer.value;
}

/* The line of a pan is start..end, and its telephone number is number..end. */
struct line {
    size_t start, number, end;
};

static int find(const char *pan, struct line *line)
{
    char pattern[65];
    uint32_t hits[16];
    size_t i, lines = 0;
    struct monterculo_answer total;
    int c, length = snprintf(pattern, sizeof pattern, "pan %s ", pan);

    if (length < 0 || (size_t)length >= sizeof pattern)
        return told(pan, "too long for a pan");
    total = monterculo_search(roll, buf, sizeof buf, (const uint8_t *)pattern, (size_t)length, hits, ROOM(hits));
    if (refused("search", total))
        return 1;
    /* All hits are counted, and the list has as many of them as it can hold. */
    if (total.value > ROOM(hits))
        return told(pan, "stands too often");
    for (i = 0; i < total.value; i++)
        if (hits[i] == 0 || character(hits[i] - 1) == '\n') {
            line->start = hits[i];
            lines++;
        }
    if (lines != 1)
        return told(pan, lines == 0 ? "no line has this pan" : "several lines have this pan");
    /* The number runs from behind the line's last blank to the line's end. */
    line->number = line->start;
    for (line->end = line->start; line->end < roll.n; line->end++) {
        c = character(line->end);
        if (c < 0)
            return 1;
        if (c == '\n')
            break;
        if (c == ' ')
            line->number = line->end + 1;
    }
    return 0;
}

static int print(size_t start, size_t end)
{
    if (refused("unpack", monterculo_unpack(roll, buf, sizeof buf, start, end, plain, sizeof plain)))
        return 1;
    return fwrite(plain, 1, end - start, stdout) != end - start && told("standard output", strerror(errno));
}

/* The way out of refusal 3: the text itself is edited, and packed under a table of its own. */
static int make_anew(size_t start, size_t end, const uint8_t *text, size_t length)
{
    size_t kept = roll.n - (end - start);
    if (length > sizeof plain - kept)
        return told("the roll is full", "divide it");
    if (refused("unpack", monterculo_unpack(roll, buf, sizeof buf, 0, roll.n, plain, sizeof plain)))
        return 1;
    memmove(plain + start + length, plain + end, roll.n - end);
    memcpy(plain + start, text, length);
    return make(plain, kept + length);
}

/* Puts a text in the place of the characters start..end. */
static int correct(size_t start, size_t end, const uint8_t *text, size_t length)
{
    struct monterculo_rolled edited =
        monterculo_edit(roll, buf, sizeof buf, dir, ROOM(dir), start, end, text, length);
    switch (edited.answer.number) {
    case MONTERCULO_ACCEPTED:
        roll = edited.roll; /* the old record is worthless now */
        return 0;
    case MONTERCULO_NOT_IN_TABLE:
        return make_anew(start, end, text, length);
    case MONTERCULO_NO_ROOM:
    case MONTERCULO_SHORT_DIRECTORY:
        return told("the roll is full", "divide it");
    default:
        return refused("edit", edited.answer);
    }
}

/* A saved roll as it lies in its file. */
enum { HEAD = 20, TAIL = 4 };
static uint8_t image[HEAD + MONTERCULO_PLACES + sizeof buf + sizeof dir + TAIL];

static void put32(uint8_t *at, uint32_t value)
{
    int i;
    for (i = 0; i < 4; i++)
        at[i] = (uint8_t)(value >> 8 * i);
}

static uint32_t crc32(const uint8_t *bytes, size_t length)
{
    uint32_t crc = 0xFFFFFFFF;
    int bit;
    while (length-- > 0)
        for (crc ^= *bytes++, bit = 0; bit < 8; bit++)
            crc = crc >> 1 ^ (crc & 1 ? 0xEDB88320 : 0);
    return ~crc;
}

/* Lays the roll out in the image, and answers how long it is. */
static size_t lay_out(void)
{
    size_t i, bytes = MONTERCULO_BYTES(roll.h, roll.table.k), length = HEAD;
    memcpy(image, "MROL\1", 5);
    image[5] = roll.table.k;
    image[6] = roll.table.s;
    image[7] = 0;
    put32(image + 8, roll.table.sigma);
    put32(image + 12, roll.n);
    put32(image + 16, roll.h);
    memcpy(image + length, roll.table.places, roll.table.sigma);
    length += roll.table.sigma;
    memcpy(image + length, buf, bytes);
    length += bytes;
    for (i = 0; i < MONTERCULO_ENTRIES(roll.n); i++, length += 4)
        put32(image + length, dir[i]);
    put32(image + length, crc32(image, length));
    return length + TAIL;
}

/* Makes it lasting that a name in this file's folder has changed. */
static int sync_folder(const char *path)
{
    char folder[4096] = ".";
    const char *slash = strrchr(path, '/');
    int fd, bad;
    if (slash != NULL)
        snprintf(folder, sizeof folder, "%.*s", slash == path ? 1 : (int)(slash - path), path);
    fd = open(folder, O_RDONLY);
    if (fd < 0)
        return told(folder, strerror(errno));
    bad = fsync(fd) != 0 && told(folder, strerror(errno));
    close(fd);
    return bad;
}

/* A new file beside the old one, made lasting and then put in its place: if the current fails, there is the old roll or
 * the new one, and either is whole. */
static int save(const char *path)
{
    char fresh[4096];
    size_t length = lay_out();
    int good, chars = snprintf(fresh, sizeof fresh, "%s.new", path);
    FILE *file;
    if (chars < 0 || (size_t)chars >= sizeof fresh)
        return told(path, "too long a path");
    file = fopen(fresh, "wb");
    if (file == NULL)
        return told(fresh, strerror(errno));
    good = fwrite(image, 1, length, file) == length && fflush(file) == 0 && fsync(fileno(file)) == 0;
    good = fclose(file) == 0 && good;
    if (!good || rename(fresh, path) != 0) {
        told(fresh, strerror(errno));
        remove(fresh);
        return 1;
    }
    return sync_folder(path);
}

/* Reads a whole file. */
static int read_file(const char *path, uint8_t *into, size_t room, size_t *length)
{
    FILE *file = fopen(path, "rb");
    int bad;
    if (file == NULL)
        return told(path, strerror(errno));
    *length = fread(into, 1, room, file);
    bad = ferror(file) ? told(path, strerror(errno)) : fgetc(file) != EOF && told(path, "too long for this box");
    fclose(file);
    return bad;
}

static uint32_t get32(const uint8_t *at)
{
    return at[0] | (uint32_t)at[1] << 8 | (uint32_t)at[2] << 16 | (uint32_t)at[3] << 24;
}

/* Nothing in a file is believed before its checksum, and no number in it leads out of the buffers after that. */
static int load(const char *path)
{
    struct monterculo_roll r = {0};
    size_t length, i, sigma, bytes, entries;
    const uint8_t *at = image + HEAD;

    if (read_file(path, image, sizeof image, &length))
        return 1;
    if (length < HEAD + TAIL || memcmp(image, "MROL\1", 5) != 0)
        return told(path, "not a roll");
    if (get32(image + length - TAIL) != crc32(image, length - TAIL))
        return told(path, "damaged");
    r.table.k = image[5];
    r.table.s = image[6];
    sigma = get32(image + 8);
    r.n = get32(image + 12);
    r.h = get32(image + 16);
    bytes = MONTERCULO_BYTES(r.h, r.table.k);
    entries = MONTERCULO_ENTRIES(r.n);
    if (sigma > MONTERCULO_PLACES || bytes > sizeof buf || entries > ROOM(dir) ||
        length != HEAD + sigma + bytes + 4 * entries + TAIL)
        return told(path, "does not fit in this box");
    r.table.sigma = (uint16_t)sigma;
    memcpy(r.table.places, at, sigma);
    at += sigma;
    memset(buf, 0, sizeof buf);
    memcpy(buf, at, bytes);
    at += bytes;
    memset(dir, 0, sizeof dir);
    for (i = 0; i < entries; i++, at += 4)
        dir[i] = get32(at);
    roll = r;
    /* An edit of nothing by nothing: it checks the roll and the directory, and changes neither. */
    return refused(path, monterculo_edit(roll, buf, sizeof buf, dir, ROOM(dir), 0, 0, image, 0).answer);
}

static int print_size(void)
{
    printf("%" PRIu32 " characters in %" PRIu32 " symbols: %zu bytes, and %zu for the directory\n", roll.n, roll.h,
           MONTERCULO_BYTES(roll.h, roll.table.k), 4 * MONTERCULO_ENTRIES(roll.n));
    return 0;
}

int main(int argc, char **argv)
{
    const char *command = argc > 1 ? argv[1] : "";
    struct line line;
    size_t length;
    int bad;
    if (argc == 4 && strcmp(command, "pack") == 0)
        bad = read_file(argv[2], plain, sizeof plain, &length) || make(plain, length) || save(argv[3]) || print_size();
    else if (argc == 4 && strcmp(command, "find") == 0)
        bad = load(argv[2]) || find(argv[3], &line) || print(line.start, line.end) || puts("") == EOF;
    else if (argc == 5 && strcmp(command, "correct") == 0 && strpbrk(argv[4], " \n") == NULL)
        bad = load(argv[2]) || find(argv[3], &line) ||
              correct(line.number, line.end, (const uint8_t *)argv[4], strlen(argv[4])) || save(argv[2]) || print_size();
    else if (argc == 3 && strcmp(command, "text") == 0)
        bad = load(argv[2]) || print(0, roll.n);
    else
        bad = told("usage", "members pack TEXT ROLL | find ROLL PAN | correct ROLL PAN NUMBER | text ROLL");
    return fflush(stdout) != 0 || bad;
}
