/* Monterculo: a text packed in a stopper code, searched and edited where it lies, searched while it still comes in, and
 * sent as lines of text.
 * For C99 and C++ on x86-64; a program links libmonterculo.a, which needs the C library and nothing else.
 *
 * A text is bytes; one byte is one character. A roll is a text packed as base symbols of k bits, k = 2 or 4.
 *
 * Tables, codewords, rolls and searchers are structs, taken and answered by value. A roll's symbols lie in a lent buffer
 * beside it.
 * Whatever the numbers and bytes of a struct are, a call finishes and answers by the rules below. Places count from 0; a
 * range runs from its start up to, and not including, its end.
 *
 * Every function answers a number and a value. Number 0 is accepted; any other is a refusal, of those in enum
 * monterculo_number, with the refusal's value (in brackets below). Of accepted work the value is what the function's
 * comment names, and 0 where none is named. The refusals of a function are given in their order: the first that applies
 * is answered. A refused call writes nothing, but for the hits that monterculo_feed delivers with a bad codeword.
 *
 * What a maker trips over:
 * - Pointers. Each must be valid for its length, for writing too unless it is const, and aligned for its type. None may
 *   be null, not even with a length of 0: lend the address of some object then. What a call may write must not overlap
 *   anything else lent to that call. Slices only read may overlap.
 * - The answered roll is the new record: keep it, and with it the buffer that the call wrote. An accepted edit makes the
 *   record before it worthless.
 * - A buffer of exactly MONTERCULO_BYTES(h, k) leaves no room: an edit that takes more symbols than what it replaces is
 *   refused 4 then, but for the unused symbols of the last byte. Lend what the longest text to come needs, and so for
 *   the directory.
 * - Only characters in the table can be put in by an edit. The ten digits, + and byte 10 are in every chosen table.
 *   Before choosing, count once more others that may come, such as all letters.
 * - A pattern is of one line. What was read as a line or pasted may end with byte 10, and is refused 11 then: cut it off.
 *   A byte 13 before it is a character as any other, and the pattern stands only where the text has it.
 * - check finds what breaks the form, and not what changes the text. Of all single-bit faults of a made roll of member
 *   lines 47 % passed it with k = 2, and 79 % with k = 4, each with another text. An old record beside a newer buffer
 *   may pass as well, as where an edit put characters behind the last and the old symbols filled whole bytes. Keep a
 *   checksum of your own, and save record, buffer and directory together.
 * - The answered searcher is the one to go on with: keep it in place of the one that was handed in. A hit that feed names
 *   is one of the text read so far; whether the roll is sound is known once monterculo_finish accepts, and not before.
 * - The stack, in bytes and with the arguments: edit 30,700, pack 26,800, search_jumping 21,000, unpack 13,900, search
 *   12,200, feed 7,400, write_frames and make_directory 6,900, check 6,300, choose 2,300, read_frames 2,200, finish and
 *   read_first 1,500, start, read_one, character_of and codeword_of 1,400, count and read_frame 100. No call takes
 *   memory from elsewhere. These figures and those of the faults were measured on the archive by tools/measure.c.
 *
 * Sizes to lend.
 *   counts                256 entries of 32 bits
 *   a directory           n/32 entries of 32 bits, rounded up: MONTERCULO_ENTRIES(n)
 *   a buffer              h*k/8 bytes, rounded up, for h symbols: MONTERCULO_BYTES(h, k)
 *   hits of a piece       8/k entries of 32 bits for each of its bytes: MONTERCULO_HITS(piece_len, k)
 *   a frame text          27 + 2*sigma + 2*b + 3*f bytes for b packed bytes in b/32 frames, rounded up, which are f:
 *                         MONTERCULO_FRAME_TEXT(sigma, h, k), at most 1,098,267
 *   a frame's bytes       32 packed ones at most: MONTERCULO_FRAME
 * No roll has more than 1,048,576 symbols, so no buffer needs more than 262,144 bytes with k = 2, or 524,288 with k = 4.
 * The room of a buffer is the smaller of 1,048,576 and its bytes times 8/k, in symbols. For an edit, lend what the roll
 * needs before it and what it needs after it, whichever is more. */
#ifndef MONTERCULO_H
#define MONTERCULO_H

#include <stddef.h>
#include <stdint.h>

#ifdef __cplusplus
extern "C" {
#endif

/* Of this header: the first number changes where the form of a struct or a function does, the second where one is added
 * or answers otherwise.
 * Otherwise than in 1.5, a roll may have 1,048,576 symbols and a text to be counted as many characters, where it was
 * 65,536; what counting answers with 4 is the new limit. Sizes of fixed memory that were taken from MONTERCULO_SYMBOLS
 * grow with it.
 * Otherwise than in 1.4, a pattern with byte 10 is refused 11 by search, search_jumping and start, and a searcher that
 * holds one by feed and finish. */
#define MONTERCULO_VERSION_MAJOR 1
#define MONTERCULO_VERSION_MINOR 6
#define MONTERCULO_VERSION "1.6"

#define MONTERCULO_PLACES 256
#define MONTERCULO_CODEWORD 86
#define MONTERCULO_PATTERN 64
#define MONTERCULO_SEARCHER 384 /* sizeof(struct monterculo_searcher) */
#define MONTERCULO_SYMBOLS 1048576
#define MONTERCULO_FRAME 32
#define MONTERCULO_ENTRIES(n) ((size_t)(n) / 32 + ((n) % 32 != 0))
#define MONTERCULO_BYTES(h, k) (((size_t)(h) * (k) + 7) / 8)
#define MONTERCULO_HITS(piece_len, k) ((size_t)(piece_len) * ((k) == 4 ? 2 : 4))
#define MONTERCULO_FRAME_TEXT(sigma, h, k) \
    (27 + 2 * (size_t)(sigma) + 2 * MONTERCULO_BYTES(h, k) + \
     3 * ((MONTERCULO_BYTES(h, k) + MONTERCULO_FRAME - 1) / MONTERCULO_FRAME))

enum monterculo_number {
    MONTERCULO_ACCEPTED = 0,
    /* k not 2 or 4; s below 1 or above 2^k - 1; sigma > 256; a character twice among the first sigma; a searcher's number
     * out of its bounds. Value 0. */
    MONTERCULO_BAD_TABLE = 1,
    /* Counts slice not 256 long. Value: its length. */
    MONTERCULO_BAD_COUNTS = 2,
    /* A text character not in the table. Value: place of the first. */
    MONTERCULO_NOT_IN_TABLE = 3,
    /* The packed result exceeds the room, or a text to be counted is over 1,048,576 characters. Value: number of the first
     * character whose codeword does not fit (for an edit, in the edited text); counting: 1,048,576. */
    MONTERCULO_NO_ROOM = 4,
    /* h exceeds the room, or where there is no buffer 1,048,576; or a piece reaches past the byte that holds symbol h - 1.
     * Value: h. */
    MONTERCULO_BAD_SYMBOL_COUNT = 5,
    /* Reading meets a codeword unfinished at h, or of rank sigma or more. Value: its first symbol's number. For finish also
     * bytes that have not come. Value: the open codeword's first symbol, or the symbols read if none is open. */
    MONTERCULO_BAD_CODEWORD = 6,
    /* Codewords read are not n. Value: codewords read. */
    MONTERCULO_BAD_CHARACTER_COUNT = 7,
    /* An unused symbol of the last byte is not 0. Value 0. */
    MONTERCULO_BAD_UNUSED = 8,
    /* A directory entry missing or wrong. Value: number of the first such. */
    MONTERCULO_BAD_ENTRY = 9,
    /* Range start > end, or end > n; for one character, place >= n. Value 0. */
    MONTERCULO_BAD_RANGE = 10,
    /* Pattern empty, over 64, or with byte 10. Value 0. */
    MONTERCULO_BAD_PATTERN = 11,
    /* Directory shorter than the result needs. Value: entries needed. */
    MONTERCULO_SHORT_DIRECTORY = 12,
    /* Output shorter than the range, the frame text or the frame's bytes. Value: bytes needed. */
    MONTERCULO_SHORT_OUTPUT = 13,
    /* Hit slice shorter than 8/k entries for each byte of the piece. Value: entries needed. */
    MONTERCULO_SHORT_HITS = 14,
    /* A line of a frame text wrong, missing or too many. Value: its number, from 0. */
    MONTERCULO_BAD_LINE = 15
};

/* The words for an answer's number. */
static inline const char *monterculo_text(uint32_t number)
{
    switch (number) {
    case MONTERCULO_ACCEPTED: return "accepted";
    case MONTERCULO_BAD_TABLE: return "bad table: k, s, sigma, or a character twice; or a searcher out of its bounds";
    case MONTERCULO_BAD_COUNTS: return "counts slice not 256 long";
    case MONTERCULO_NOT_IN_TABLE: return "a text character not in the table";
    case MONTERCULO_NO_ROOM: return "the packed result exceeds the room, or the text to be counted 1,048,576 characters";
    case MONTERCULO_BAD_SYMBOL_COUNT: return "h exceeds the room, or a piece reaches past the roll's last byte";
    case MONTERCULO_BAD_CODEWORD: return "a codeword unfinished at h, or of rank sigma or more; or bytes not come";
    case MONTERCULO_BAD_CHARACTER_COUNT: return "codewords read are not n";
    case MONTERCULO_BAD_UNUSED: return "an unused symbol of the last byte is not 0";
    case MONTERCULO_BAD_ENTRY: return "a directory entry missing or wrong";
    case MONTERCULO_BAD_RANGE: return "a range or a place that the text does not have";
    case MONTERCULO_BAD_PATTERN: return "pattern empty, over 64, or with a newline";
    case MONTERCULO_SHORT_DIRECTORY: return "directory shorter than the result needs";
    case MONTERCULO_SHORT_OUTPUT: return "output shorter than the range, the frame text or the frame's bytes";
    case MONTERCULO_SHORT_HITS: return "the hit slice has fewer entries than the piece has symbols";
    case MONTERCULO_BAD_LINE: return "a line of a frame text wrong, missing or too many";
    default: return "no number of this library";
    }
}

/* A table: base symbols of k bits, those below s being stoppers. The first sigma places hold the characters in rank
 * order; those past them are not looked at. */
struct monterculo_table {
    uint8_t k, s;
    uint16_t sigma;
    uint8_t places[MONTERCULO_PLACES];
};

/* The record of a roll: n characters in h symbols. */
struct monterculo_roll {
    struct monterculo_table table;
    uint32_t n, h;
};

/* A codeword, one symbol a byte; those past the length are answered 0, and not looked at. */
struct monterculo_codeword {
    size_t length;
    uint8_t symbols[MONTERCULO_CODEWORD];
};

struct monterculo_answer {
    uint32_t number;
    uint64_t value;
};

struct monterculo_chosen {
    struct monterculo_answer answer;
    struct monterculo_table table;
};

struct monterculo_coded {
    struct monterculo_answer answer;
    struct monterculo_codeword word;
};

struct monterculo_rolled {
    struct monterculo_answer answer;
    struct monterculo_roll roll;
};

/* How far a roll that comes in was read: symbols and codewords; the first symbol of the codeword that is open, or of the
 * bad one, or of the next where none is; the reading state of the open one; 1 where a codeword was bad; 1 where an unused symbol was not 0. */
struct monterculo_progress {
    uint32_t read, count, first, past, place, shorter, rows, value, bad, stained;
};

/* The record of a roll that comes in, and how far it was read. */
struct monterculo_judge {
    struct monterculo_roll roll;
    struct monterculo_progress progress;
};

/* A roll that comes in, and what is sought in it: the pattern, 0 past its length, and which of its beginnings end at the
 * last character read. Its fields are the library's own: it is copied whole, and may be saved and loaded whole. */
struct monterculo_searcher {
    struct monterculo_judge judge;
    uint8_t pattern[MONTERCULO_PATTERN];
    uint32_t length;
    uint64_t ends;
};

struct monterculo_started {
    struct monterculo_answer answer;
    struct monterculo_searcher searcher;
};

/* hits is how many entries of the slice were written, with a 6 too. */
struct monterculo_fed {
    struct monterculo_answer answer;
    size_t hits;
    struct monterculo_searcher searcher;
};

/* The code alone. */

/* Counts the characters of a text.
 * Refused: 2 (counts_len), 4 (1,048,576).
 * Writes: each of the 256 counts becomes that byte's count. */
struct monterculo_answer monterculo_count(const uint8_t *text, size_t text_len, uint32_t *counts, size_t counts_len);

/* Chooses the table of width k with the fewest symbols for these counts; its places past sigma are 0. Any counts may
 * come. The ten digits, + and byte 10 count as at least 1 here, so that the table always has them; the lent counts stay
 * as they are.
 * Refused: 1 (0; the width only), 2 (counts_len); the table is then k, s 0, sigma 0, all places 0.
 * Value: the total of symbols; a buffer of MONTERCULO_BYTES(total, k) bytes has room for the counted text, if the total
 * is not over 1,048,576. It may have more than needed: the total is the symbols of the text, and a codeword of each of the
 * twelve that the text does not hold and of each other character counted in beside it. So a text may be packed though
 * its total is somewhat over 1,048,576. */
struct monterculo_chosen monterculo_choose(uint8_t k, const uint32_t *counts, size_t counts_len);

/* The codeword of a character.
 * Refused: 1 (0), 3 (0); the codeword is then empty. */
struct monterculo_coded monterculo_codeword_of(struct monterculo_table table, uint8_t character);

/* The character of a codeword.
 * Refused: 1 (0), 6 (0; the symbols up to the length are not exactly one codeword of rank below sigma).
 * Value: the character. */
struct monterculo_answer monterculo_character_of(struct monterculo_table table, struct monterculo_codeword word);

/* The roll. */

/* Packs a text.
 * Refused: 1 (0), 3 (place of the first), 4 (number of the first character that does not fit); the roll is then the
 * table with n 0 and h 0.
 * Writes: the packed bytes, later bytes unchanged. */
struct monterculo_rolled monterculo_pack(struct monterculo_table table, const uint8_t *text, size_t text_len,
                                         uint8_t *buf, size_t buf_len);

/* Checks that a roll is sound.
 * Refused: 1 (0), 5 (h), 6 (the bad codeword's first symbol), 7 (codewords read), 8 (0). */
struct monterculo_answer monterculo_check(struct monterculo_roll roll, const uint8_t *buf, size_t buf_len);

/* Unpacks the characters start up to, and not including, end.
 * Refused: check's 1, 5, 6, 7, 8, then 10 (0), 13 (range length).
 * Writes: the range, from the first byte of out on; later bytes unchanged. */
struct monterculo_answer monterculo_unpack(struct monterculo_roll roll, const uint8_t *buf, size_t buf_len,
                                           size_t start, size_t end, uint8_t *out, size_t out_len);

/* Makes the directory: for each of characters 0, 32, 64, ... below n the number of its first symbol.
 * Refused: check's 1, 5, 6, 7, 8, then 12 (entries needed).
 * Writes: the entries; later ones unchanged. */
struct monterculo_answer monterculo_make_directory(struct monterculo_roll roll, const uint8_t *buf, size_t buf_len,
                                                   uint32_t *dir, size_t dir_len);

/* Reads the character at a place from the directory's entry place/32 on. It does not check the whole roll: with a
 * sound roll and a right directory the answer is the character of the unpacked text.
 * Refused: 1 (0), 5 (h), 10 (0), 9 (place/32; that entry is missing or not below h), 6 (the first symbol of the bad
 * codeword on the way; h where one would start at h).
 * Value: the character. */
struct monterculo_answer monterculo_read_one(struct monterculo_roll roll, const uint8_t *buf, size_t buf_len,
                                             const uint32_t *dir, size_t dir_len, size_t place);

/* Searches for all places where a pattern of 1 to 64 characters without byte 10 stands, overlapping ones too.
 * Refused: check's 1, 5, 6, 7, 8, then 11 (0).
 * Writes: the first hits, ascending, as many as the slice holds; later entries unchanged.
 * Value: the total of all hits, which may be more than hits_len; 0 if a character of the pattern is not in the table. */
struct monterculo_answer monterculo_search(struct monterculo_roll roll, const uint8_t *buf, size_t buf_len,
                                           const uint8_t *pattern, size_t pattern_len, uint32_t *hits,
                                           size_t hits_len);

/* The same search by another way: on every input, refused ones too, it answers and writes what monterculo_search does.
 * It jumps over most of the bytes. Take it for long rolls and patterns of four characters or more. Take the plain one
 * where stack is scarce: this one takes nearly twice as much. For a pattern of too few symbols to jump by (fewer than 4
 * with k = 2, one with k = 4) the plain one serves inside.
 * Refused: check's 1, 5, 6, 7, 8, then 11 (0).
 * Writes, and value: as monterculo_search. */
struct monterculo_answer monterculo_search_jumping(struct monterculo_roll roll, const uint8_t *buf, size_t buf_len,
                                                   const uint8_t *pattern, size_t pattern_len, uint32_t *hits,
                                                   size_t hits_len);

/* Replaces the characters start up to, and not including, end by a text of any length; the directory is kept right.
 * Refused: check's 1, 5, 6, 7, 8, then 9 (the first missing or wrong entry), 10 (0), 3 (place in the text put in), 4
 * (number, in the edited text, of the first character that does not fit), 12 (entries needed); the roll is then the one
 * that came in.
 * Writes: the packed bytes and the directory of the edited text; bytes and entries used before and no longer become 0,
 * the rest is unchanged. */
struct monterculo_rolled monterculo_edit(struct monterculo_roll roll, uint8_t *buf, size_t buf_len, uint32_t *dir,
                                         size_t dir_len, size_t start, size_t end, const uint8_t *text,
                                         size_t text_len);

/* A roll searched while it still comes in. Its record is known beforehand; its packed bytes come in pieces of any size,
 * empty ones too, and however they are cut, where none is refused 5 or 14 the hits are the same and so is the searcher at
 * the end. Nothing is kept of a piece: a box that wants the roll keeps its bytes itself. */

/* The searcher of a roll and a pattern of 1 to 64 characters without byte 10, before the first piece. It does not look at
 * n. A pattern with a character that is not in the table has no hits.
 * Refused: 1 (0), 5 (h; h over 1,048,576), 11 (0); the searcher is then that of the roll with an empty pattern, which feed
 * and finish refuse in their turn. */
struct monterculo_started monterculo_start(struct monterculo_roll roll, const uint8_t *pattern, size_t pattern_len);

/* Reads the next piece and names the hits whose last symbol it brings.
 * Refused: 1 (0), 5 (h) and 11 (0) as start, of what the searcher holds; 1 (0; its other numbers are out of their
 * bounds); 6 (the bad codeword's first symbol; an earlier piece brought it), 5 (h; the piece reaches past the roll's last
 * byte), 14 (entries needed: MONTERCULO_HITS(piece_len, k)). These name no hit, and the searcher is the one that came in.
 * Then 6 (the bad codeword's first symbol), if one ends in this piece or is still open at h: the hits before it are
 * written, what follows it is not read, and every later feeding and finish answer that 6.
 * Writes: the hits, ascending, from the first entry on; later entries unchanged.
 * Value: the hits written. With a 6 it is the symbol, and hits beside it says how many were written. */
struct monterculo_fed monterculo_feed(struct monterculo_searcher searcher, const uint8_t *piece, size_t piece_len,
                                      uint32_t *slice, size_t slice_len);

/* What check says of the roll, once all its bytes came. It may be asked at any time, and again.
 * Refused: 1, 5, 11, 1 as feed; then check's 6 (the bad codeword's first symbol; where bytes are still to come, that of
 * the unfinished codeword, or the symbols read if none is open), 7 (codewords read), 8 (0). */
struct monterculo_answer monterculo_finish(struct monterculo_searcher searcher);

/* Start and feed for a caller that keeps one searcher in its place and lends it: the searcher that is answered is stored
 * there, with a refusal too. */
static inline struct monterculo_answer monterculo_start_into(struct monterculo_searcher *searcher,
                                                             struct monterculo_roll roll, const uint8_t *pattern,
                                                             size_t pattern_len)
{
    struct monterculo_started started = monterculo_start(roll, pattern, pattern_len);
    *searcher = started.searcher;
    return started.answer;
}

/* hits becomes how many entries of the slice were written. */
static inline struct monterculo_answer monterculo_feed_into(struct monterculo_searcher *searcher, const uint8_t *piece,
                                                            size_t piece_len, uint32_t *slice, size_t slice_len,
                                                            size_t *hits)
{
    struct monterculo_fed fed = monterculo_feed(*searcher, piece, piece_len, slice, slice_len);
    *searcher = fed.searcher;
    *hits = fed.hits;
    return fed.answer;
}

/* A roll as a frame text: lines of lower-case hexadecimal digits, one frame a line, each ended by byte 10. Each frame is
 * bytes, two digits a byte. The first: 1, k, s, sigma (2 bytes), n (4), h (4), the high byte first, and the sigma
 * characters. Each later one: 2 and up to 32 packed bytes; all but the last have 32, and with h 0 there is none.
 * A line runs up to its byte 10, which belongs to it. Capitals, blanks, byte 13, an odd number of digits, an empty line and
 * a line without byte 10 are wrong. A first line has 27 + 2*sigma bytes, a later one at most 67. */

/* Writes a roll as a frame text.
 * Refused: check's 1, 5, 6, 7, 8, then 13 (bytes of the frame text, bytes 10 counted).
 * Writes: the text, from the first byte of out on; later bytes unchanged.
 * Value: the bytes written: MONTERCULO_FRAME_TEXT(sigma, h, k). */
struct monterculo_answer monterculo_write_frames(struct monterculo_roll roll, const uint8_t *buf, size_t buf_len,
                                                 uint8_t *out, size_t out_len);

/* Reads a frame text, and checks the roll. What was said of faults that pass check holds of changed digits too.
 * Refused: 15 (0; the first line), 1 (0; the width only), 15 (number of the first line that is wrong, missing or too many;
 * any byte behind the last line is a line too many), then check's: 1 (0), 5 (h; of the room of buf), 6 (the bad codeword's
 * first symbol), 7 (codewords read), 8 (0); the roll is then all 0.
 * Writes: the packed bytes, later bytes unchanged. The answered roll's places past sigma are 0. */
struct monterculo_rolled monterculo_read_frames(const uint8_t *text, size_t text_len, uint8_t *buf, size_t buf_len);

/* Reads the first line of a frame text, its byte 10 included, for a box that searches or keeps the roll while it comes in.
 * Of the table the width alone is asked here. With sigma over 256 the first 256 characters are kept, and whoever is given
 * the roll refuses its table.
 * Refused: 15 (0), 1 (0; the width only); the roll is then all 0.
 * The answered roll's places past sigma are 0. */
struct monterculo_rolled monterculo_read_first(const uint8_t *line, size_t line_len);

/* Reads a later line of a frame text, its byte 10 included: the next piece of the roll, of 1 to 32 bytes. Whether all came,
 * and in their order, it does not say.
 * Refused: 15 (0), 13 (packed bytes of the line).
 * Writes: the packed bytes, from the first byte of out on; later bytes unchanged.
 * Value: how many they are. */
struct monterculo_answer monterculo_read_frame(const uint8_t *line, size_t line_len, uint8_t *out, size_t out_len);

#ifdef __cplusplus
}
#endif

#endif
