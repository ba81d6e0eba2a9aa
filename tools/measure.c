/* Two figures of include/monterculo.h, measured on the archive: the stack that each function takes, and how many
 * single-bit faults of a roll pass its check.
 *
 *   gcc -O1 -I include -o measure tools/measure.c target/staticlib/libmonterculo.a && ./measure
 *
 * Stack: each call runs on a painted stack of its own, under the table whose longest codeword has 86 symbols (k 2, s 3,
 * sigma 256), and on a text that has it; counted is what lies below the caller's frame and was written, arguments too.
 * For two rolls: of the table's 256 characters once, and of these as often as fits into MONTERCULO_SYMBOLS and leaves room
 * for the edit. Both have the 2,048 symbols from which on a roll is read by bytes.
 * Faults: a made roll of member lines; each bit of its packed bytes is turned over in its turn. */
#define _GNU_SOURCE
#include <stdio.h>
#include <string.h>
#include <ucontext.h>

#include "monterculo.h"

#define ROOM(array) (sizeof(array) / sizeof((array)[0]))

/* The edit takes more symbols than it replaces, and fewer than GROWTH. */
enum { STACK = 1 << 18, PAINT = 0xA5, GROWTH = 80 * 86 };

static uint8_t stack[STACK], text[MONTERCULO_SYMBOLS], buf[MONTERCULO_BYTES(MONTERCULO_SYMBOLS, 2)], next[sizeof buf];
static uint8_t frames[MONTERCULO_FRAME_TEXT(256, MONTERCULO_SYMBOLS, 2)], out[MONTERCULO_SYMBOLS];
static uint32_t counts[256], dir[MONTERCULO_ENTRIES(MONTERCULO_SYMBOLS)], hits[MONTERCULO_SYMBOLS];
static struct monterculo_table table;
static struct monterculo_roll roll;
static struct monterculo_codeword word;
static struct monterculo_searcher fresh, whole;
static size_t length, framed;
static ucontext_t back, there;
static uint8_t *top;

#define CALL(name, call)                                \
    static void name(void)                              \
    {                                                   \
        top = (uint8_t *)__builtin_frame_address(0);    \
        if (call.number != 0)                           \
            printf(#name " was refused\n");             \
    }

CALL(count, monterculo_count(text, length, counts, 256))
CALL(choose, monterculo_choose(2, counts, 256).answer)
CALL(codeword_of, monterculo_codeword_of(table, 255).answer)
CALL(character_of, monterculo_character_of(table, word))
CALL(pack, monterculo_pack(table, text, length, buf, sizeof buf).answer)
CALL(check, monterculo_check(roll, buf, sizeof buf))
CALL(unpack, monterculo_unpack(roll, buf, sizeof buf, 0, length, out, sizeof out))
CALL(make_directory, monterculo_make_directory(roll, buf, sizeof buf, dir, ROOM(dir)))
CALL(read_one, monterculo_read_one(roll, buf, sizeof buf, dir, ROOM(dir), length - 1))
CALL(search, monterculo_search(roll, buf, sizeof buf, text + length - 64, 64, hits, ROOM(hits)))
CALL(search_jumping, monterculo_search_jumping(roll, buf, sizeof buf, text + length - 64, 64, hits, ROOM(hits)))
CALL(start, monterculo_start(roll, text + length - 64, 64).answer)
CALL(feed, monterculo_feed(fresh, buf, MONTERCULO_BYTES(roll.h, 2), hits, ROOM(hits)).answer)
CALL(finish, monterculo_finish(whole))
CALL(write_frames, monterculo_write_frames(roll, buf, sizeof buf, frames, sizeof frames))
CALL(read_frames, monterculo_read_frames(frames, framed, next, sizeof next).answer)
CALL(read_first, monterculo_read_first(frames, MONTERCULO_FRAME_TEXT(256, 0, 2)).answer)
CALL(read_frame, monterculo_read_frame(frames + MONTERCULO_FRAME_TEXT(256, 0, 2), 67, out, sizeof out))
CALL(edit, monterculo_edit(roll, buf, sizeof buf, dir, ROOM(dir), 3, 60, text + length - 80, 80).answer)

#define MEASURED(name) {#name, name}
static const struct {
    const char *name;
    void (*call)(void);
} calls[] = {
    MEASURED(count),
    MEASURED(choose),
    MEASURED(codeword_of),
    MEASURED(character_of),
    MEASURED(pack),
    MEASURED(check),
    MEASURED(unpack),
    MEASURED(make_directory),
    MEASURED(read_one),
    MEASURED(search),
    MEASURED(search_jumping),
    MEASURED(start),
    MEASURED(feed),
    MEASURED(finish),
    MEASURED(write_frames),
    MEASURED(read_frames),
    MEASURED(read_first),
    MEASURED(read_frame),
    MEASURED(edit)
};

static long taken(void (*call)(void))
{
    static size_t lowest;
    lowest = 0;
    memset(stack, PAINT, sizeof stack);
    getcontext(&there);
    there.uc_stack.ss_sp = stack;
    there.uc_stack.ss_size = sizeof stack;
    there.uc_link = &back;
    makecontext(&there, call, 0);
    swapcontext(&back, &there);
    while (stack[lowest] == PAINT)
        lowest++;
    return (long)(top - &stack[lowest]);
}

/* The roll of so many times the table's characters, and all that is made of it. */
static void prepare(size_t times)
{
    size_t i;
    length = 256 * times;
    for (i = 0; i < length; i++)
        text[i] = table.places[i % 256];
    roll = monterculo_pack(table, text, length, buf, sizeof buf).roll;
    fresh = monterculo_start(roll, text + length - 64, 64).searcher;
    whole = monterculo_feed(fresh, buf, MONTERCULO_BYTES(roll.h, 2), hits, ROOM(hits)).searcher;
    framed = (size_t)monterculo_write_frames(roll, buf, sizeof buf, frames, sizeof frames).value;
}

static void stacks(void)
{
    static long bytes[2][ROOM(calls)];
    uint32_t symbols[2];
    size_t i, size, differ = 0;
    for (size = 0; size < 2; size++) {
        prepare(size == 0 ? 1 : (MONTERCULO_SYMBOLS - GROWTH) / symbols[0]);
        symbols[size] = roll.h;
        for (i = 0; i < ROOM(calls); i++)
            bytes[size][i] = taken(calls[i].call);
    }
    printf("%-16s %10lu %10lu symbols\n", "", (unsigned long)symbols[0], (unsigned long)symbols[1]);
    for (i = 0; i < ROOM(calls); i++)
        printf("%-16s %10ld %10ld bytes\n", calls[i].name, bytes[0][i], bytes[1][i]);
    for (i = 0; i < ROOM(calls); i++)
        if (bytes[0][i] != bytes[1][i])
            printf("%s%s", differ++ == 0 ? "not the same for both: " : ", ", calls[i].name);
    printf("%s\n", differ == 0 ? "the same for both, to the byte" : "");
}

static void faults(uint8_t k)
{
    struct monterculo_rolled packed;
    size_t i, bits, passed = 0, changed = 0;
    length = 0;
    for (i = 0; i < 400; i++)
        length += (size_t)sprintf((char *)text + length, "pan %d %s 555%04d\n", (int)i,
                                  i % 3 ? "Maren Oda" : "Jory Tavo", (int)(i * 7919 % 10000));
    monterculo_count(text, length, counts, 256);
    packed = monterculo_pack(monterculo_choose(k, counts, 256).table, text, length, buf, sizeof buf);
    bits = MONTERCULO_BYTES(packed.roll.h, k) * 8;
    for (i = 0; i < bits; i++) {
        buf[i / 8] ^= (uint8_t)(1 << i % 8);
        if (monterculo_check(packed.roll, buf, sizeof buf).number == 0) {
            passed++;
            monterculo_unpack(packed.roll, buf, sizeof buf, 0, length, out, sizeof out);
            changed += memcmp(out, text, length) != 0;
        }
        buf[i / 8] ^= (uint8_t)(1 << i % 8);
    }
    printf("k %d: %zu characters, %d stoppers; of %zu single-bit faults %zu pass the check (%.1f %%), and %zu of these "
           "change the text\n", k, length, packed.roll.table.s, bits, passed, 100.0 * (double)passed / (double)bits,
           changed);
}

int main(void)
{
    size_t i;
    table.k = 2;
    table.s = 3;
    table.sigma = 256;
    for (i = 0; i < 256; i++)
        table.places[i] = (uint8_t)i;
    word = monterculo_codeword_of(table, 255).word;
    stacks();
    faults(2);
    faults(4);
    return 0;
}
