#!/usr/bin/env python3
"""Writes stdin, the cases, and stdout, what they should print, of crates/vectors, crates/vectors_radio and crates/vectors_frames.

What should be printed is worked out here from the paper alone: codewords are listed in rank order by the paper's rule, a roll is read by
looking each codeword up in that list, and every refusal is asked in the paper's order. Of a roll that comes in, all bytes that came are read
anew after each piece, and texts are compared. Nothing is taken from src/ or specs/, but for what a searcher says of an open codeword and the
bounds of its numbers: these are the library's own choice, and stand in docs/PAPER.md as they are here.
"""
import itertools
import pathlib

LIMIT = 1048576
PART = 262144  # as each of them reads its cases
CRATES = pathlib.Path(__file__).resolve().parent.parent / "crates"


# ---- the paper

def codewords(k, s, many=256):
    """The first codewords in rank order: shorter ones first; within a length the stopper is q mod s, the continuers the digits of
    q div s in base c, most significant first, each plus s."""
    c = 2 ** k - s
    out, length = [], 1
    while len(out) < many:
        for q in range(s * c ** (length - 1)):
            x, digits = q // s, []
            for _ in range(length - 1):
                digits.append(s + x % c)
                x //= c
            out.append(tuple(reversed(digits)) + (q % s,))
            if len(out) == many:
                break
        length += 1
    return out


def symbols(k, buf):
    return [b >> (8 - k * (i + 1)) & (2 ** k - 1) for b in buf for i in range(8 // k)]


def room(k, buf):
    return min(LIMIT, len(buf) * 8 // k)


def good_table(t):
    k, s, sigma, places = t
    return k in (2, 4) and 1 <= s <= 2 ** k - 1 and sigma <= 256 and len(set(places[:sigma])) == sigma


def read(t, row):
    """The ranks read, and the first symbol of the first bad codeword or None."""
    k, s, sigma, _ = t
    rank = {w: r for r, w in enumerate(codewords(k, s)[:sigma])}
    ranks, first = [], 0
    while first < len(row):
        end = first
        while end < len(row) and row[end] >= s:
            end += 1
        if end == len(row):
            return ranks, first
        r = rank.get(tuple(row[first:end + 1])) if end - first < 86 else None
        if r is None:
            return ranks, first
        ranks.append(r)
        first = end + 1
    return ranks, None


def check(t, n, h, buf):
    if not good_table(t):
        return (1, 0)
    k = t[0]
    if h > room(k, buf):
        return (5, h)
    row = symbols(k, buf)
    ranks, bad = read(t, row[:h])
    if bad is not None:
        return (6, bad)
    if len(ranks) != n:
        return (7, len(ranks))
    per = 8 // k
    if any(row[h:-(-h // per) * per]):
        return (8, 0)
    return None


def unpack(t, n, h, buf, start, end, out):
    refusal = check(t, n, h, buf)
    if refusal:
        return refusal, out
    if start > end or end > n:
        return (10, 0), out
    if len(out) < end - start:
        return (13, end - start), out
    text = [t[3][r] for r in read(t, symbols(t[0], buf)[:h])[0]]
    return None, text[start:end] + out[end - start:]


def pack(t, text, buf):
    """The refusal or None, n, h, the buffer afterwards."""
    if not good_table(t):
        return (1, 0), 0, 0, buf
    k, s, sigma, places = t
    rank = {b: r for r, b in enumerate(places[:sigma])}
    for i, b in enumerate(text):
        if b not in rank:
            return (3, i), 0, 0, buf
    words, row = codewords(k, s), []
    for i, b in enumerate(text):
        row += words[rank[b]]
        if len(row) > room(k, buf):
            return (4, i), 0, 0, buf
    per = 8 // k
    padded = row + [0] * (-len(row) % per)
    packed = [sum(y << (8 - k * (i + 1)) for i, y in enumerate(padded[j:j + per])) for j in range(0, len(padded), per)]
    return None, len(text), len(row), packed + buf[len(packed):]


def entries_for(lengths):
    """The first symbol of each 32nd codeword, of codewords of these lengths."""
    return list(itertools.accumulate(lengths, initial=0))[:-1][::32]


def make_directory(t, n, h, buf, entries):
    refusal = check(t, n, h, buf)
    if refusal:
        return refusal, entries
    needed = -(-n // 32)
    if len(entries) < needed:
        return (12, needed), entries
    words = codewords(t[0], t[1])
    return None, entries_for(len(words[r]) for r in read(t, symbols(t[0], buf)[:h])[0]) + entries[needed:]


def read_one(t, n, h, buf, entries, place):
    """The refusal, or None and the character."""
    if not good_table(t):
        return (1, 0), None
    if h > room(t[0], buf):
        return (5, h), None
    if place >= n:
        return (10, 0), None
    e = place // 32
    if e >= len(entries) or entries[e] >= h:
        return (9, e), None
    row, first = symbols(t[0], buf)[:h], entries[e]
    for _ in range(place % 32):
        # one codeword, which must be whole and of rank below sigma
        end = first
        while end < h and row[end] >= t[1]:
            end += 1
        ranks, bad = read(t, row[first:end + 1])
        if end == h or bad is not None:
            return (6, first), None
        first = end + 1
    end = first
    while end < h and row[end] >= t[1]:
        end += 1
    ranks, bad = read(t, row[first:end + 1])
    if first == h or bad is not None:
        return (6, first), None
    return None, t[3][ranks[0]]


def good_pattern(places, length):
    """1 to 64 characters, and none of them is byte 10. What stands in places past the length is no matter."""
    return 1 <= length <= 64 and 10 not in places[:length]


def search(t, n, h, buf, pattern, hits):
    """The refusal, or None and the total; the hit list afterwards."""
    refusal = check(t, n, h, buf)
    if refusal:
        return refusal, None, hits
    if not good_pattern(pattern, len(pattern)):
        return (11, 0), None, hits
    text = [t[3][r] for r in read(t, symbols(t[0], buf)[:h])[0]]
    found = [i for i in range(len(text)) if text[i:i + len(pattern)] == pattern]
    return None, len(found), found[:len(hits)] + hits[len(found):]


def edit(t, n, h, buf, entries, start, end, text):
    """The refusal or None, n, h, the buffer and the directory afterwards: the edited text packed afresh."""
    refusal = check(t, n, h, buf)
    if refusal:
        return refusal, n, h, buf, entries
    k, s, sigma, places = t
    words, old = codewords(k, s), [places[r] for r in read(t, symbols(k, buf)[:h])[0]]
    lengths = {b: len(words[r]) for r, b in enumerate(places[:sigma])}
    wanted = entries_for(lengths[b] for b in old)
    for i, x in enumerate(wanted):
        if entries[i:i + 1] != [x]:
            return (9, i), n, h, buf, entries
    if start > end or end > n:
        return (10, 0), n, h, buf, entries
    for i, b in enumerate(text):
        if b not in places[:sigma]:
            return (3, i), n, h, buf, entries
    new = old[:start] + text + old[end:]
    refusal, n2, h2, after = pack(t, new, buf)
    if refusal:
        return refusal, n, h, buf, entries
    behind = entries_for(lengths[b] for b in new)
    if len(entries) < len(behind):
        return (12, len(behind)), n, h, buf, entries
    for i in range(-(-h2 * k // 8), -(-h * k // 8)):
        after[i] = 0
    return None, n2, h2, after, behind + [0] * (len(wanted) - len(behind)) + entries[max(len(wanted), len(behind)):]


def count(text, counts):
    if len(counts) != 256:
        return (2, len(counts)), counts
    if len(text) > LIMIT:
        return (4, LIMIT), counts
    return None, counts_of(text)


def counts_of(text):
    text = bytes(text)
    return [text.count(b) for b in range(256)]


TWELVE = b"\n+0123456789"


def choose(k, counts, twelve=TWELVE):
    """The refusal or None, the total, the table: each of the twelve counts as at least 1; s with the fewest symbols, of equals the smallest;
    ranks by greater count, of equal counts the smaller byte."""
    if k not in (2, 4):
        return (1, 0), 0, (k, 0, 0, [0] * 256)
    if len(counts) != 256:
        return (2, len(counts)), 0, (k, 0, 0, [0] * 256)
    counts = [max(1, n) if b in twelve else n for b, n in enumerate(counts)]
    ranked = sorted((b for b in range(256) if counts[b]), key=lambda b: (-counts[b], b))
    totals = [(sum(counts[b] * len(w) for b, w in zip(ranked, codewords(k, s))), s) for s in range(1, 2 ** k)]
    total, s = min(totals)
    return None, total, (k, s, len(ranked), ranked + [0] * (256 - len(ranked)))


def codeword_of(t, character):
    if not good_table(t):
        return (1, 0), []
    if character not in t[3][:t[2]]:
        return (3, 0), []
    return None, list(codewords(t[0], t[1])[t[3].index(character)])


def character_of(t, length, row):
    """The refusal, or None and the character."""
    if not good_table(t):
        return (1, 0), None
    if length > 86 or tuple(row[:length]) not in codewords(t[0], t[1])[:t[2]]:
        return (6, 0), None
    return None, t[3][codewords(t[0], t[1]).index(tuple(row[:length]))]


def report(data):
    """What the program writes."""
    pattern, text = (data.split(b"\n", 1) + [b""])[:2]
    if not good_pattern(pattern, len(pattern)):
        return b"refused 11 0\n"
    if len(text) > 16384:
        return b"refused 4 16384\n"
    _, _, t = choose(2, counts_of(text))
    r, n, h, buf = pack(t, list(text), [0] * 16384)
    if r:
        return b"refused %d %d\n" % r
    packed_bytes = bytes(buf[:-(-h // 4)])
    lines = [b"best %d symbols %d" % (t[1], h)]
    lines += [packed_bytes[i:i + 32].hex().encode() for i in range(0, len(packed_bytes), 32)]
    hits = [i for i in range(len(text)) if text[i:i + len(pattern)] == pattern]
    return b"\n".join(lines + [b"%d" % i for i in hits] + [b"hits %d" % len(hits)]) + b"\n"


# A roll that comes in. A searcher is here what it holds and, beside that, all bytes that came (None where only the numbers are known) and the
# text read of them.

def start_refusal(t, h, places, length):
    """What start asks of a roll and of a pattern, the first so many of these places."""
    if not good_table(t):
        return (1, 0)
    if h > LIMIT:
        return (5, h)
    if not good_pattern(places, length):
        return (11, 0)
    return None


def heard(t, h, came):
    """Of the bytes that came: the text; how many symbols were read; the first symbol of the open codeword (as many as were read if none is
    open) or of the bad one; the continuers of one that is open; whether one is bad; whether an unused symbol is not 0."""
    row = symbols(t[0], came)
    used = row[:h]
    ranks, first = read(t, used)
    text = [t[3][r] for r in ranks]
    if first is None:
        return text, len(used), len(used), [], False, any(row[h:])
    stop = [i for i in range(first, len(used)) if used[i] < t[1]][:1]
    if stop:
        return text, stop[0] + 1, first, [], True, False
    return text, len(used), first, used[first:], len(used) == h, False


def reading_state(t, continuers):
    """Past, place, shorter, rows and value of a codeword that begins so: place counts its continuers as far as 2, shorter the codewords that
    are shorter than it will be at least, rows the rows of as many continuers, and value is its own among them. Once shorter and value reach
    sigma it is past, and only its place counts."""
    k, s, sigma, _ = t
    c = 2 ** k - s
    shorter, rows, value = 0, 1, 0
    for y in continuers:
        shorter, rows, value = shorter + rows * s, rows * c, value * c + y - s
        if shorter + value >= sigma:
            return [1, min(len(continuers), 2), 0, 1, 0]
    return [0, min(len(continuers), 2), shorter, rows, value]


def searcher(t, n, h, pattern, came):
    text, done, first, continuers, bad, stained = heard(t, h, came)
    ends = sum(2 ** j for j in range(len(pattern) - 1) if text[-j - 1:] == pattern[:j + 1])
    numbers = [done, len(text), first] + reading_state(t, continuers) + [int(bad), int(stained)]
    return dict(t=t, n=n, h=h, progress=numbers, pattern=pattern + [0] * (64 - len(pattern)), length=len(pattern), ends=ends, came=came, text=text)


def started(t, n, h, pattern):
    """The refusal or None, the searcher: of an empty pattern beside a refusal."""
    refusal = start_refusal(t, h, pattern, len(pattern))
    if refusal:
        return refusal, dict(t=t, n=n, h=h, progress=[0] * 6 + [1] + [0] * 3, pattern=[0] * 64, length=0, ends=0, came=[])
    return None, searcher(t, n, h, pattern, [])


def kept(s):
    """What is asked first of any searcher: what start asks, and that its numbers are within their bounds."""
    refusal = start_refusal(s["t"], s["h"], s["pattern"], s["length"])
    if refusal:
        return refusal
    done, count, first, past, place, shorter, rows, value, bad, stained = s["progress"]
    within = (max(past, bad, stained) <= 1 and place <= 2 and max(shorter, value) <= 256 and rows <= 4096
              and count <= first <= done <= s["h"]
              and (bad == 1 or done == s["h"] or done % (8 // s["t"][0]) == 0)
              and s["ends"] < 2 ** count and s["ends"] < 2 ** (s["length"] - 1))
    return None if within else (1, 0)


def feed(s, piece, room):
    """The refusal or None, the hits written, the searcher afterwards."""
    refusal = kept(s)
    if refusal:
        return refusal, [], s
    t, n, h, pattern = s["t"], s["n"], s["h"], s["pattern"][:s["length"]]
    done, count, first = s["progress"][:3]
    k = t[0]
    if s["progress"][8]:
        return (6, first), [], s
    if -(-done * k // 8) + len(piece) > -(-h * k // 8):
        return (5, h), [], s
    if room < len(piece) * 8 // k:
        return (14, len(piece) * 8 // k), [], s
    if not piece:
        return None, [], s
    after = dict(searcher(t, n, h, pattern, s["came"] + piece), pattern=s["pattern"])
    text = after["text"]
    # those of the text so far that end behind what was read before
    hits = [i for i in range(max(0, count - len(pattern)), len(text)) if text[i:i + len(pattern)] == pattern and i + len(pattern) > count]
    return ((6, after["progress"][2]) if after["progress"][8] else None), hits, after


def finish(s):
    refusal = kept(s)
    if refusal:
        return refusal
    if s["progress"][8] or s["progress"][0] < s["h"]:
        return (6, s["progress"][2])
    if s["progress"][1] != s["n"]:
        return (7, s["progress"][1])
    if s["progress"][9]:
        return (8, 0)
    return None


# Frames. A record is a table, n and h.

NOTHING = (0, 0, 0, [0] * 256), 0, 0


def line_of(frame):
    return list(bytes(frame).hex().encode()) + [10]


def frame_text(t, n, h, buf):
    k, s, sigma, places = t
    used = buf[:-(-h * k // 8)]
    first = [1, k, s, *sigma.to_bytes(2, "big"), *n.to_bytes(4, "big"), *h.to_bytes(4, "big")] + places[:sigma]
    return line_of(first) + [c for i in range(0, len(used), 32) for c in line_of([2] + used[i:i + 32])]


def lines_of(text):
    """The lines, each with its byte 10; the last may have none."""
    lines = [[]]
    for c in text:
        lines[-1].append(c)
        if c == 10:
            lines.append([])
    return lines if lines[-1] else lines[:-1]


def frame_in(line):
    """The bytes on a line, or None."""
    digits = bytes(line[:-1])
    if line[-1:] != [10] or not digits or len(digits) % 2 or any(c not in b"0123456789abcdef" for c in digits):
        return None
    return [int(digits[i:i + 2], 16) for i in range(0, len(digits), 2)]


def write_frames(t, n, h, buf, out):
    """The refusal, or None and the bytes written; the output afterwards."""
    refusal = check(t, n, h, buf)
    if refusal:
        return refusal, None, out
    text = frame_text(t, n, h, buf)
    if len(out) < len(text):
        return (13, len(text)), None, out
    return None, len(text), text + out[len(text):]


def read_first(line):
    """The refusal or None, the record."""
    frame = frame_in(line)
    if frame is None or frame[0] != 1 or len(frame) < 13:
        return (15, 0), NOTHING
    k, s, sigma, characters = frame[1], frame[2], 256 * frame[3] + frame[4], frame[13:]
    if len(characters) != sigma:
        return (15, 0), NOTHING
    if k not in (2, 4):
        return (1, 0), NOTHING
    places = (characters + [0] * 256)[:256]
    return None, ((k, s, sigma, places), int.from_bytes(bytes(frame[5:9]), "big"), int.from_bytes(bytes(frame[9:13]), "big"))


def read_frame(line, out):
    """The refusal, or None and how many packed bytes; the output afterwards."""
    frame = frame_in(line)
    if frame is None or frame[0] != 2 or not 2 <= len(frame) <= 33:
        return (15, 0), None, out
    came = frame[1:]
    if len(out) < len(came):
        return (13, len(came)), None, out
    return None, len(came), came + out[len(came):]


def read_frames(text, buf):
    """The refusal or None, the record, the buffer afterwards."""
    lines = lines_of(text)
    refusal, (t, n, h) = read_first(lines[0] if lines else [])
    if refusal:
        return refusal, NOTHING, buf
    left, came, number = -(-h * t[0] // 8), [], 1
    while left > 0 or number < len(lines):
        frame = frame_in(lines[number]) if number < len(lines) else None
        if left == 0 or frame is None or frame[0] != 2 or len(frame) != 1 + min(32, left):
            return (15, number), NOTHING, buf
        came += frame[1:]
        left -= len(frame) - 1
        number += 1
    if not good_table(t):
        return (1, 0), NOTHING, buf
    if h > room(t[0], buf):
        return (5, h), NOTHING, buf
    refusal = check(t, n, h, came)
    if refusal:
        return refusal, NOTHING, buf
    return None, (t, n, h), came + buf[len(came):]


# ---- the cases

given, said = [], []


def write(crate, most=1):
    """The cases so far are this crate's, in at most so many parts: a case that would go over the end of a part begins the next one."""
    given.append("0")
    parts, case = [""], ""
    for line in given:
        case += line + "\n"
        if not line.startswith("#"):
            if most > 1 and len(parts[-1]) + len(case) > PART:
                parts[-1] = parts[-1].ljust(PART - 1, "#").ljust(PART, "\n")
                parts.append("")
            parts[-1] += case
            case = ""
    assert len(parts) <= most and all(len(part) <= PART for part in parts)
    (CRATES / crate / "stdin").write_text("".join(parts))
    (CRATES / crate / "stdout").write_text("\n".join(said) + "\n")
    print(f"{crate}: {len(said)} cases, {(CRATES / crate / 'stdin').stat().st_size} bytes of input")
    given.clear()
    said.clear()


def runs(row):
    out = []
    for b in row:
        if out and out[-1][1] == b:
            out[-1][0] += 1
        else:
            out.append([1, b])
    return out


def row_in(row):
    """Runs of equal or evenly rising bytes: how many, the first, the step."""
    out, i = [], 0
    while i < len(row):
        step = (row[i + 1] - row[i]) % 256 if i + 1 < len(row) else 0
        j = i + 1
        while j < len(row) and (row[j] - row[j - 1]) % 256 == step:
            j += 1
        if j - i == 2 and step:
            j, step = i + 1, 0
        out.append(f"{j - i} {row[i]} {step}")
        i = j
    return " ".join([str(len(out))] + out)


def row_out(row):
    return " |" + "".join(f" {n}x{b}" for n, b in runs(row))


def table_in(t):
    return f"{t[0]} {t[1]} {t[2]} {row_in(t[3])}"


def answer(refusal):
    return f" refused {refusal[0]} {refusal[1]}" if refusal else " yes"


def note(words):
    given.append("# " + words)


def count_case(words, text, counts, expect=...):
    r, after = count(text, counts)
    assert expect is ... or r == expect, (words, r, expect)
    note(words)
    given.append(f"9 {row_in(list(text))} {numbers_in(counts)}")
    said.append("count" + answer(r) + numbers_out(after))


def choose_case(words, k, counts, expect=...):
    r, total, t = choose(k, counts)
    assert expect is ... or r == expect, (words, r, expect)
    note(words)
    given.append(f"10 {k} {numbers_in(counts)}")
    said.append("choose" + answer(r) + f" total {total} k {t[0]} s {t[1]} sigma {t[2]}" + row_out(t[3]))


def codeword_case(words, t, character, expect=...):
    r, word = codeword_of(t, character)
    assert expect is ... or r == expect, (words, r, expect)
    note(words)
    given.append(f"11 {table_in(t)} {character}")
    said.append("codeword" + answer(r) + f" length {len(word)}" + row_out(word + [0] * (86 - len(word))))


def character_case(words, t, length, row, expect=...):
    r, b = character_of(t, length, row)
    assert expect is ... or r == expect, (words, r, expect)
    note(words)
    given.append(f"12 {table_in(t)} {length} {row_in(row)}")
    said.append("character" + (answer(r) if r else f" {b}"))


def check_case(words, t, n, h, buf, expect=...):
    r = check(t, n, h, buf)
    assert expect is ... or r == expect, (words, r, expect)
    note(words)
    given.append(f"1 {table_in(t)} {n} {h} {row_in(buf)}")
    said.append("check" + answer(r))


def unpack_case(words, t, n, h, buf, start, end, out, expect=...):
    r, after = unpack(t, n, h, buf, start, end, out)
    assert expect is ... or r == expect, (words, r, expect)
    note(words)
    given.append(f"2 {table_in(t)} {n} {h} {row_in(buf)} {start} {end} {row_in(out)}")
    said.append("unpack" + answer(r) + row_out(after))


def pack_case(words, t, text, buf, expect=...):
    r, n, h, after = pack(t, text, buf)
    assert expect is ... or r == expect, (words, r, expect)
    note(words)
    given.append(f"3 {table_in(t)} {row_in(text)} {row_in(buf)}")
    said.append("pack" + answer(r) + f" n {n} h {h} k {t[0]} s {t[1]} sigma {t[2]}" + row_out(t[3]) + row_out(after))


def numbers_in(row):
    return " ".join([str(len(row))] + [str(x) for x in row])


def numbers_out(row):
    return " |" + "".join(f" {x}" for x in row)


def directory_case(words, t, n, h, buf, entries, expect=...):
    r, after = make_directory(t, n, h, buf, entries)
    assert expect is ... or r == expect, (words, r, expect)
    note(words)
    given.append(f"4 {table_in(t)} {n} {h} {row_in(buf)} {numbers_in(entries)}")
    said.append("directory" + answer(r) + numbers_out(after))


def read_case(words, t, n, h, buf, entries, place, expect=...):
    r, b = read_one(t, n, h, buf, entries, place)
    assert expect is ... or r == expect, (words, r, expect)
    note(words)
    given.append(f"5 {table_in(t)} {n} {h} {row_in(buf)} {numbers_in(entries)} {place}")
    said.append("read" + (answer(r) if r else f" {b}"))


def search_case(words, t, n, h, buf, pattern, hits, expect=...):
    """Both searches: the one by jumps answers and leaves what the plain one does."""
    r, total, after = search(t, n, h, buf, pattern, hits)
    assert expect is ... or r == expect, (words, r, expect)
    note(words)
    given.append(f"6 {table_in(t)} {n} {h} {row_in(buf)} {row_in(pattern)} {numbers_in(hits)}")
    outcome = (answer(r) if r else f" {total}") + numbers_out(after)
    said.append("search" + outcome + "\njumping" + outcome)


def edit_case(words, t, n, h, buf, entries, start, end, text, expect=...):
    r, n2, h2, after, behind = edit(t, n, h, buf, entries, start, end, list(text))
    assert expect is ... or r == expect, (words, r, expect)
    note(words)
    given.append(f"7 {table_in(t)} {n} {h} {row_in(buf)} {numbers_in(entries)} {start} {end} {row_in(list(text))}")
    said.append("edit" + answer(r) + f" n {n2} h {h2} k {t[0]} s {t[1]} sigma {t[2]}" + row_out(t[3]) + row_out(after) + numbers_out(behind))
    return n2, h2, after, behind


def rises_out(row):
    """Runs that rise by a step: how many, the first, the step."""
    out, i = " |", 0
    while i < len(row):
        step = (row[i + 1] - row[i]) % 2 ** 32 if i + 1 < len(row) else 0
        j = i + 1
        while j < len(row) and (row[j] - row[j - 1]) % 2 ** 32 == step:
            j += 1
        out, i = out + f" {j - i}x{row[i]}+{step}", j
    return out


def long_edit_case(words, t, n, h, buf, start, end, text, expect=...):
    """A directory made, the character at the start read, and the edit; entries as runs, since there may be 32,768."""
    made, entries = make_directory(t, n, h, buf, [0] * 32770)
    unread, b = read_one(t, n, h, buf, entries, start)
    r, n2, h2, after, behind = edit(t, n, h, buf, entries, start, end, list(text))
    assert expect is ... or r == expect, (words, r, expect)
    note(words)
    given.append(f"13 {table_in(t)} {n} {h} {row_in(buf)} {start} {end} {row_in(list(text))}")
    said.append("directory" + answer(made) + rises_out(entries) + "\nread" + (answer(unread) if unread else f" {b}")
                + "\nedit" + answer(r) + f" n {n2} h {h2} k {t[0]} s {t[1]} sigma {t[2]}" + row_out(t[3]) + row_out(after) + rises_out(behind))
    return n2, h2, after


def report_case(words, data, expect=None):
    answer = report(data)
    assert expect is None or answer == expect, (words, answer[:80], expect)
    note(words)
    given.append(f"8 {row_in(list(data))}")
    said.append("report\n" + answer.decode()[:-1])


def searcher_in(s):
    numbers = " ".join(str(x) for x in s["progress"])
    return f"{table_in(s['t'])} {s['n']} {s['h']} {numbers} {row_in(s['pattern'])} {s['length']} {s['ends'] >> 32} {s['ends'] % 2 ** 32}"


def searcher_out(s):
    t = s["t"]
    return ("searcher" + "".join(f" {x}" for x in s["progress"]) + f" n {s['n']} h {s['h']} k {t[0]} s {t[1]} sigma {t[2]}" + row_out(t[3])
            + row_out(s["pattern"]) + f" length {s['length']} ends {s['ends']}")


def come(s, pieces, expect, last):
    """The pieces of a case, each a row of bytes, or such a row and how many entries are lent for hits: how they are given, what is printed."""
    ins, outs, answers, found, joined = [str(len(pieces))], [], [], [], []
    for piece in pieces:
        piece, room = piece if isinstance(piece, tuple) else (piece, len(piece) * 8 // s["t"][0])
        r, hits, s = feed(s, piece, room)
        ins.append(f"{row_in(piece)} {room}")
        outs.append("feed" + answer(r) + f" hits {len(hits)}" + numbers_out(hits) + f" | left {room - len(hits)} finish" + answer(finish(s)))
        answers.append(r)
        found += hits
        joined += piece
    assert expect is ... or answers == expect, (answers, expect)
    assert last is ... or finish(s) == last, (finish(s), last)
    outs.append(searcher_out(s))
    return " ".join(ins), "\n".join(outs), s, found, joined, answers


def start_case(words, t, n, h, pattern, pieces, expect=..., last=..., refused=None):
    """A roll and a pattern, started; what each piece and then finishing should answer."""
    r, s = started(t, n, h, list(pattern))
    assert r == refused, (words, r, refused)
    ins, outs, after, found, joined, answers = come(s, pieces, expect, last)
    if r is None and all(x is None or x[0] == 6 for x in answers) and len(joined) == -(-h * t[0] // 8):
        # all bytes came: check and the search of the whole roll say the same
        assert finish(after) == check(t, n, h, joined), words
        assert finish(after) or found == search(t, n, h, joined, list(pattern), [0] * h)[2][:len(found)], words
        assert finish(after) or len(found) == search(t, n, h, joined, list(pattern), [])[1], words
    note(words)
    given.append(f"1 {table_in(t)} {n} {h} {row_in(list(pattern))} {ins}")
    said.append("start" + answer(r) + " finish" + answer(finish(s)) + "\n" + outs)
    return after


def given_case(words, s, pieces, expect=..., last=...):
    """A searcher as it stands."""
    ins, outs, after, *_ = come(s, pieces, expect, last)
    note(words)
    given.append(f"2 {searcher_in(s)} {ins}")
    said.append("given finish" + answer(finish(s)) + "\n" + outs)
    return after


def record_out(t, n, h):
    return f" n {n} h {h} k {t[0]} s {t[1]} sigma {t[2]}" + row_out(t[3])


def frames_said(text, buf):
    r, record, after = read_frames(text, buf)
    return r, "frames" + answer(r) + record_out(*record) + row_out(after)


def first_said(line, _):
    r, record = read_first(line)
    return r, "first" + answer(r) + record_out(*record)


def frame_said(line, out):
    r, many, after = read_frame(line, out)
    return r, "frame" + (answer(r) if r else f" {many}") + row_out(after)


def write_case(words, t, n, h, buf, out, other, expect=..., back=...):
    """A roll written, and then the whole output read into the other buffer."""
    r, many, after = write_frames(t, n, h, buf, out)
    assert expect is ... or r == expect, (words, r, expect)
    again, line = frames_said(after, other)
    assert back is ... or again == back, (words, again, back)
    assert max(len(buf), len(other)) <= 524300 and len(out) <= 1097800, words
    note(words)
    given.append(f"1 {table_in(t)} {n} {h} {row_in(buf)} {row_in(out)} {row_in(other)}")
    said.append("write" + (answer(r) if r else f" {many}") + row_out(after))
    said.append(line)


def instead(start, stop, row=(), expect=..., words=""):
    """An edit: the bytes of start..stop make way for these; what should be answered then."""
    return start, stop, list(row), expect, words


def edits_case(words, kind, lent, text, expect, edits):
    """A text read, and the text with each edit."""
    say = {2: frames_said, 3: first_said, 4: frame_said}[kind]
    text, ins = list(text), []
    for start, stop, row, wanted, name in [(0, 0, [], expect, ""), *edits]:
        after = text[:start] + row + text[stop:]
        r, line = say(after, lent)
        assert wanted is ... or r == wanted, (words, name, start, stop, row, r, wanted)
        assert len(row) <= 1100 and len(after) <= 1097800 and len(lent) <= 524300, words
        ins += ["# " + name] * (name != "") + [f"{start} {stop} {row_in(row)}"]
        said.append(line)
    note(words)
    given.append("\n".join([f"{kind} {row_in(lent)} {row_in(text)} {len(edits)}"] + ins[1:]))


def frames_case(words, buf, text, expect=..., edits=()):
    edits_case(words, 2, buf, text, expect, list(edits))


def first_case(words, line, expect=..., edits=()):
    edits_case(words, 3, [], line, expect, list(edits))


def frame_case(words, out, line, expect=..., edits=()):
    edits_case(words, 4, out, line, expect, list(edits))


def table(k, s, characters, sigma=None, rest=0):
    return (k, s, len(characters) if sigma is None else sigma, list(characters) + [rest] * (256 - len(characters)))


def packed(k, row, spare=0):
    per = 8 // k
    full = row + [0] * (-len(row) % per)
    return [sum(y << (8 - k * (i + 1)) for i, y in enumerate(full[j:j + per])) for j in range(0, len(full), per)] + [0xAA] * spare


ALL = list(range(256))
ABRA = table(2, 3, b"abrcd")
TEXT = list(b"abracadabra")
BYTES = [0x18, 0xC3, 0x46, 0x00]

# the paper's own
pack_case("P2: abracadabra, and a byte behind it that stays", ABRA, TEXT, [0xFF] * 5, None)
assert pack(ABRA, TEXT, [0xFF] * 5)[1:] == (11, 13, BYTES + [0xFF])
check_case("P2 is sound", ABRA, 11, 13, BYTES, None)
unpack_case("P2 unpacked whole", ABRA, 11, 13, BYTES, 0, 11, [0xEE] * 12, None)
BANANA = table(4, 3, b"anb")
pack_case("P5: banana", BANANA, list(b"banana"), [0xFF] * 3, None)
assert pack(BANANA, list(b"banana"), [0xFF] * 3)[3] == [0x20, 0x10, 0x10]
pack_case("P12: the empty text writes nothing", ABRA, [], [], None)
pack_case("P12: nor into a buffer", ABRA, [], [0xFF], None)
check_case("P12: and is sound", ABRA, 0, 0, [], None)
check_case("P12: whatever lies in the buffer", ABRA, 0, 0, [0xFF], None)
F14 = table(4, 14, ALL[:14])
check_case("P13: E 0 with sigma 14", table(4, 14, ALL[:15], 14), 1, 2, [0xE0], (6, 0))
check_case("P13: E 0 with sigma 15", table(4, 14, ALL[:15]), 1, 2, [0xE0], None)
ONE = table(2, 3, b"a")
for k, s in ((2, 3), (4, 1)):
    t, w, used = table(k, s, b"a"), f"P14: width {k}, ", LIMIT * k // 8
    pack_case(w + "1,048,576 characters of rank 0", t, [97] * LIMIT, [0xFF] * (used + 1), None)
    pack_case(w + "and one more", t, [97] * (LIMIT + 1), [0xFF] * (used + 2), (4, LIMIT))
    pack_case(w + "65,537 of them", t, [97] * 65537, [0xFF] * used, None)
unpack_case("P16: 3..3 of n 3", ONE, 3, 3, [0], 3, 3, [], None)
unpack_case("P16: 4..4 of n 3", ONE, 3, 3, [0], 4, 4, [], (10, 0))

for k, s in ((2, 3), (4, 14), (2, 1), (4, 1)):
    w = f"width {k}, s {s}: "
    per = 8 // k
    c0 = s  # the least continuer
    good = table(k, s, ALL[:5])
    short = [0] * per                     # one byte of rank 0
    bad_tables = [
        ("k 3", (3, s, 5, good[3])), ("k 0", (0, s, 5, good[3])), ("s 0", (k, 0, 5, good[3])), ("s 2^k", (k, 2 ** k, 5, good[3])),
        ("sigma 257", (k, s, 257, ALL)), ("sigma 65535", (k, s, 65535, ALL)), ("a character twice", (k, s, 5, [7, 8, 9, 7] + [0] * 252)),
    ]
    for name, t in bad_tables:
        check_case(w + "1, " + name, t, per, per, packed(k, short), (1, 0))
        pack_case(w + "1 for pack, " + name, t, [0], [0xFF], (1, 0))
    unpack_case(w + "1 for unpack", (3, s, 5, good[3]), per, per, packed(k, short), 0, 1, [0xEE], (1, 0))
    twice = (k, s, 5, ALL[:5] + [0] * 251)
    check_case(w + "a character twice past sigma is no fault", twice, per, per, packed(k, short), None)
    check_case(w + "sigma 0 and an empty roll", table(k, s, []), 0, 0, [1, 2], None)
    check_case(w + "sigma 0 and a symbol", table(k, s, []), 1, 1, [0], (6, 0))
    check_case(w + "sigma 256", table(k, s, ALL), per, per, packed(k, short), None)
    # 5
    check_case(w + "h at the room", good, 2 * per, 2 * per, packed(k, short * 2), None)
    check_case(w + "5, h over the room by one", good, 2 * per + 1, 2 * per + 1, packed(k, short * 2), (5, 2 * per + 1))
    check_case(w + "5, no buffer", good, 0, 1, [], (5, 1))
    check_case(w + "5, the greatest h", good, 0, 2 ** 32 - 1, packed(k, short), (5, 2 ** 32 - 1))
    check_case(w + "h at the limit in a longer buffer", good, LIMIT, LIMIT, [0] * (LIMIT // per + 1), None)
    check_case(w + "5, h over the limit in a longer buffer", good, LIMIT, LIMIT + 1, [0] * (LIMIT // per + 1), (5, LIMIT + 1))
    unpack_case(w + "5 for unpack", good, 1, 9, [0], 0, 1, [0xEE], (5, 9))
    # 6
    check_case(w + "6, unfinished at h", good, 1, 2, packed(k, [0, c0]), (6, 1))
    check_case(w + "6, unfinished from the first", good, 0, 1, packed(k, [c0]), (6, 0))
    second = [0] + list(codewords(k, s)[1])
    check_case(w + "6, of rank sigma", table(k, s, [9]), 2, len(second), packed(k, second), (6, 1))
    check_case(w + "and below sigma", table(k, s, [9, 8]), 2, len(second), packed(k, second), None)
    check_case(w + "6 comes where reading meets it, more than n read before", good, 1, 4, packed(k, [0, 0, 0, c0]), (6, 3))
    unpack_case(w + "6 for unpack", good, 1, 2, packed(k, [0, c0]), 0, 1, [0xEE], (6, 1))
    # 7
    check_case(w + "7, n one too few", good, per - 1, per, packed(k, short), (7, per))
    check_case(w + "7, n one too many", good, per + 1, per, packed(k, short), (7, per))
    check_case(w + "7, the greatest n", good, 2 ** 32 - 1, per, packed(k, short), (7, per))
    check_case(w + "7, an empty roll", good, 1, 0, [], (7, 0))
    unpack_case(w + "7 for unpack", good, 1, per, packed(k, short), 0, 1, [0xEE], (7, per))
    # 8
    for used in range(1, per):
        for at in range(used, per):
            row = [0] * per
            row[at] = 1
            check_case(w + f"8, {used} used, symbol {at} not 0", good, used, used, packed(k, row), (8, 0))
    check_case(w + "bytes behind the last are free", good, 1, 1, [0, 0xFF, 0xFF], None)
    unpack_case(w + "8 for unpack", good, 1, 1, packed(k, [0] * (per - 1) + [1]), 0, 1, [0xEE], (8, 0))
    # 10, 13
    buf = packed(k, short)
    unpack_case(w + "10, start over end", good, per, per, buf, 1, 0, [0xEE], (10, 0))
    unpack_case(w + "10, end over n", good, per, per, buf, 0, per + 1, [0xEE] * 9, (10, 0))
    unpack_case(w + "10, both huge", good, per, per, buf, 10 ** 11, 10 ** 11, [0xEE], (10, 0))
    unpack_case(w + "13", good, per, per, buf, 0, 2, [0xEE], (13, 2))
    unpack_case(w + "13, no output", good, per, per, buf, 0, 1, [], (13, 1))
    unpack_case(w + "the empty range at n", good, per, per, buf, per, per, [0xEE], None)
    unpack_case(w + "the output just long enough", good, per, per, buf, 1, 2, [0xEE], None)
    unpack_case(w + "later bytes of the output stay", good, per, per, buf, 0, 1, [0xEE, 0xDD, 0xCC], None)
    # 3, 4
    pack_case(w + "3, the first", good, [200], [0xFF], (3, 0))
    pack_case(w + "3, the last", good, [0, 1, 200], [0xFF] * 9, (3, 2))
    pack_case(w + "3, the first of two", good, [0, 200, 0, 201], [0xFF] * 9, (3, 1))
    pack_case(w + "3, a character that stands only past sigma", (k, s, 2, ALL), [0, 1, 2], [0xFF] * 9, (3, 2))
    pack_case(w + "3, sigma 0", table(k, s, []), [0], [0xFF], (3, 0))
    pack_case(w + "4, no buffer", good, [0], [], (4, 0))
    pack_case(w + "4, one too many", good, [0] * (per + 1), [0xFF], (4, per))
    long_rank = 4
    pack_case(w + "4, a long codeword that does not fit, a short one behind it that would", good, [0] * (per - 1) + [long_rank, 0], [0xFF],
              (4, per - 1) if len(codewords(k, s)[long_rank]) > 1 else ...)
    pack_case(w + "the room just filled", good, [0] * per, [0xFF], None)
    pack_case(w + "unused symbols of the last byte are made 0, later bytes stay", good, [0], [0xFF] * 3, None)
    # neighbours in the order
    check_case(w + "1 before 5", (k, 0, 5, good[3]), 1, 99, [0], (1, 0))
    check_case(w + "5 before 6", good, 1, per + 1, packed(k, [c0] * per), (5, per + 1))
    check_case(w + "6 before 7", good, 9, 1, packed(k, [c0]), (6, 0))
    check_case(w + "7 before 8", good, 2, 1, packed(k, [0] * (per - 1) + [1]), (7, 1))
    unpack_case(w + "8 before 10", good, 1, 1, packed(k, [0] * (per - 1) + [1]), 5, 4, [], (8, 0))
    unpack_case(w + "10 before 13", good, per, per, buf, 0, per + 1, [], (10, 0))
    pack_case(w + "1 before 3", (k, 0, 5, good[3]), [200], [], (1, 0))
    pack_case(w + "3 before 4, though it stands behind", good, [0] * (per + 1) + [200], [0xFF], (3, per + 1))
    pack_case(w + "3 before 4, the foreign one first", good, [200] + [0] * (per + 1), [0xFF], (3, 0))

# long runs of continuers, closed by a stopper and open
for k, s in ((2, 1), (2, 2), (2, 3), (4, 1), (4, 14), (4, 15)):
    every = table(k, s, ALL)
    for many in (8, 9, 16, 32, 33, 64, 65, 85, 86, 100, 65535, 65536, LIMIT - 1):
        for y in sorted({s, 2 ** k - 1}):
            check_case(f"width {k}, s {s}: {many} times {y}, closed", every, 1, many + 1, packed(k, [y] * many + [0]))
            check_case(f"width {k}, s {s}: {many} times {y}, open", every, 1, many, packed(k, [y] * many), (6, 0))
    check_case(f"width {k}, s {s}: {LIMIT} times {s}, open", every, 1, LIMIT, packed(k, [s] * LIMIT), (6, 0))
    check_case(f"width {k}, s {s}: {LIMIT} times {s}, closed: 5", every, 1, LIMIT + 1, packed(k, [s] * LIMIT + [0]), (5, LIMIT + 1))

# rolls of 2,048 symbols and more, of which a reader may take the first 1,024 one by one and then bytes: sigma where codewords gain a symbol,
# its last rank taken and rank sigma refused, from each symbol near 1,024 and each of two bytes on and with each rest that two bytes leave
turn = 0
for k, s in [(2, s) for s in range(1, 4)] + [(4, s) for s in range(1, 16)]:
    words, two = codewords(k, s, 257), 16 // k
    powers = [r for r in range(1, 257) if len(words[r]) > len(words[r - 1])]
    for sigma in sorted({1, 256, *(powers[:2] + powers[-1:] if s == 2 ** k - 1 else powers)}):
        t, last, h = table(k, s, ALL, sigma), list(words[sigma - 1]), 2048 + (turn + turn // two) % two
        # the last rank before, or over, symbol 1,024
        over = 1024 - (1 + turn % (len(last) - 1) if len(last) > 1 else 1)
        for first, at in ((512 + turn % 3, 1016 + turn % 17), (over, 1536 + turn % two)):
            row = [0] * first + last
            row += [0] * (at - len(row)) + list(words[sigma])
            check_case(f"width {k}, s {s}, sigma {sigma}: 6 at {at}", t, 1, h, packed(k, row + [0] * (h - len(row))), (6, at))
        turn += 1
# a codeword over each border of bytes
for k, s in ((2, 2), (2, 3), (4, 1), (4, 15)):
    per, y = 8 // k, 2 ** k - 1
    t = table(k, s, ALL, codewords(k, s).index((y,) * (per - 1) + (0,)) + 1)
    for h in (2047, 2048, 2049, 2047 + 2 * per, 65535, 65536, LIMIT - 1, LIMIT):
        w = f"width {k}, s {s}, {h} symbols: "
        row = (([0] + [y] * (per - 1)) * (h // per + 1))[:h - 1]
        n, first = sum(x < s for x in row) + 1, 1024 // per
        check_case(w + "over each border", t, n, h, packed(k, row + [0]), None)
        if h in (2048, 2049, 65536, LIMIT):
            check_case(w + "6, unfinished", t, n, h, packed(k, row + [y]), (6, (h - 2) // per * per + 1))
        if h in (2048, 65536, LIMIT):
            check_case(w + "7", t, n - 1, h, packed(k, row + [0]), (7, n))
            for at in (301, first - 1, first, first + 1):
                check_case(w + f"6, no stopper from byte {at} on", t, n, h, packed(k, row[:at * per] + [y] * (h - at * per)), (6, at * per - per + 1))
        if h in (2049, 65535, LIMIT - 1):
            check_case(w + "8", t, n, h, packed(k, row + [0, 1]), (8, 0))
        for at in (300, first - 1, first, first + 1, first + 2, h // per - 2, h // per - 1) if h == 2049 else ():
            longer = row[:at * per] + [y] * per + row[(at + 1) * per:] + [0]
            check_case(w + f"6, no stopper in byte {at}", t, n - 1, h, packed(k, longer), (6, at * per - per + 1))

# ranges of 2,048 characters, from each symbol of a byte on: more characters behind the range, and more bytes behind the output's
for k, s in ((2, 1), (2, 2), (2, 3), (4, 1), (4, 3), (4, 15)):
    t = table(k, s, list(reversed(ALL)), 27)
    varied = [t[3][(i * i + 5 * i) % 27] for i in range(24)]
    # as many symbols as a byte has, and one: a row of equal bytes
    whole = [t[3][r] for r, w in enumerate(codewords(k, s)[:27]) if len(w) == 8 // k]
    for start in range(8 // k):
        text = [t[3][0]] * start + varied + whole[-1:] * 500 + varied[::-1] + whole[:1] * 500 + varied + [t[3][s // 2]] * 964 + varied
        _, n, h, buf = pack(t, text, [0xFF] * 8000)
        for many in (2047, 2048, 2049):
            unpack_case(f"width {k}, s {s}: {many} characters from {start} on", t, n, h, buf, start, start + many, [0xEE] * (many + 5), None)
    unpack_case(f"width {k}, s {s}: 13, one byte too few", t, n, h, buf, 1, 2049, [0xEE] * 2047, (13, 2048))

# the longest codewords there and back
for k, s in ((2, 3), (2, 2), (4, 15), (4, 14), (4, 1)):
    every = table(k, s, list(reversed(ALL)))
    text = [0, 255, 1, 128, 0, 127]
    r, n, h, after = pack(every, text, [0xFF] * 120)
    pack_case(f"width {k}, s {s}: rare characters", every, text, [0xFF] * 120)
    if r is None:
        unpack_case(f"width {k}, s {s}: and back", every, n, h, after, 0, n, [0xEE] * (n + 1), None)
        unpack_case(f"width {k}, s {s}: a part of them", every, n, h, after, 2, 5, [0xEE] * 4, None)

# the directory
directory_case("P12: no entries, nothing written", ABRA, 0, 0, [], [], None)
directory_case("P12: an entry behind stays", ABRA, 0, 0, [], [7], None)
for k, s in ((2, 3), (4, 2)):
    w = f"width {k}, s {s}: "
    t = table(k, s, list(b"0123456789 abcdefghijklmnop"))
    for n in (1, 31, 32, 33, 64, 65, 100):
        text = [t[3][i * i % 27] for i in range(n)]
        r, _, h, buf = pack(t, text, [0xFF] * 400)
        assert r is None
        needed = -(-n // 32)
        directory_case(w + f"a directory of {n} characters", t, n, h, buf, [9] * (needed + 1), None)
        directory_case(w + f"12, {n} characters", t, n, h, buf, [9] * (needed - 1), (12, needed))
        right = make_directory(t, n, h, buf, [0] * needed)[1]
        for place in sorted({0, 1, 30, 31, 32, 33, 63, 64, n - 1}):
            if place < n:
                read_case(w + f"place {place} of {n}", t, n, h, buf, right, place, None)
        read_case(w + f"10, place {n}", t, n, h, buf, right, n, (10, 0))
        read_case(w + "10, a huge place", t, n, h, buf, right, 10 ** 11, (10, 0))
        read_case(w + "9, no entries", t, n, h, buf, [], n - 1, (9, (n - 1) // 32))
        read_case(w + "9, an entry at h", t, n, h, buf, right[:-1] + [h], n - 1, (9, (n - 1) // 32))
        read_case(w + "9, the greatest entry", t, n, h, buf, right[:-1] + [2 ** 32 - 1], n - 1, (9, (n - 1) // 32))
        for wrong in (0, 1, 2, h - 1):
            read_case(w + f"the entry {wrong} is followed", t, n, h, buf, right[:-1] + [wrong], n - 1)
        read_case(w + "n too great: a codeword that would start at h", t, n + 1, h, buf, right + [0], n)
    text = [48, 49, 50]
    _, n, h, buf = pack(t, text, [0xFF] * 9)
    right = [0]
    read_case(w + "1", (3, s, t[2], t[3]), n, h, buf, right, 0, (1, 0))
    read_case(w + "5", t, n, 999, buf, right, 0, (5, 999))
    read_case(w + "6, unfinished", t, 1, 1, packed(k, [s]), right, 0, (6, 0))
    read_case(w + "6, passed over", t, 3, 3, packed(k, [0, s, s]), right, 2, (6, 1))
    read_case(w + "6, of rank sigma", table(k, s, [48]), 1, 2, packed(k, [s, 0]), right, 0, (6, 0))
    read_case(w + "a bad codeword behind is no fault", t, 3, 3, packed(k, [0, 1, s]), right, 1, None)
    read_case(w + "an unused symbol that is not 0 is no fault", t, 1, 1, packed(k, [0, 1]), right, 0, None)
    read_case(w + "1 before 5", (3, s, t[2], t[3]), n, 999, buf, right, 0, (1, 0))
    read_case(w + "5 before 10", t, n, 999, buf, right, 99, (5, 999))
    read_case(w + "10 before 9", t, n, h, buf, [], 99, (10, 0))
    read_case(w + "9 before 6", t, 1, 1, packed(k, [s]), [], 0, (9, 0))
    read_case(w + "9 with h 0", t, 1, 0, [], [0], 0, (9, 0))
    directory_case(w + "8 before 12", t, 1, 1, packed(k, [0, 1]), [], (8, 0))
    directory_case(w + "1 for the directory", (3, s, t[2], t[3]), n, h, buf, [], (1, 0))

# the search
search_case("P3: b", ABRA, 11, 13, BYTES, list(b"b"), [9] * 3, None)
search_case("P4: a", ABRA, 11, 13, BYTES, list(b"a"), [9] * 6, None)
search_case("P5: ana, overlapping", BANANA, 6, 6, [0x20, 0x10, 0x10], list(b"ana"), [9] * 3, None)
assert search(ABRA, 11, 13, BYTES, list(b"b"), [9] * 3) == (None, 2, [1, 8, 9])
assert search(ABRA, 11, 13, BYTES, list(b"a"), [9] * 6) == (None, 5, [0, 3, 5, 7, 10, 9])
assert search(BANANA, 6, 6, [0x20, 0x10, 0x10], list(b"ana"), [9] * 3) == (None, 2, [1, 3, 9])
RUN = [97] * 100
_, n, h, buf = pack(ABRA, RUN, [0xFF] * 30)
search_case("P15: a pattern of 64", ABRA, n, h, buf, [97] * 64, [9] * 40, None)
search_case("P15: of 65", ABRA, n, h, buf, [97] * 65, [9] * 3, (11, 0))
search_case("P15: of 0", ABRA, n, h, buf, [], [9] * 3, (11, 0))
for k, s in ((2, 1), (2, 2), (2, 3), (4, 1), (4, 3), (4, 15)):
    w = f"width {k}, s {s}: "
    t = table(k, s, list(b"abcdefghij"))
    for text in (b"abcabcabcab", b"aaaaaaaa", b"jijijij", b"fgfgafgfbfgf", b"dcbadcbaabcd", b"a"):
        text = list(text)
        _, n, h, buf = pack(t, text, [0xFF] * 60)
        for pattern in (b"abc", b"aa", b"jij", b"gf", b"cba", b"a", b"b", b"fg", b"xyz", b"ax"):
            search_case(w + bytes(text).decode() + " for " + pattern.decode(), t, n, h, buf, list(pattern), [9] * 4, None)
        search_case(w + "the pattern is the text", t, n, h, buf, text, [9], None)
        search_case(w + "longer than the text", t, n, h, buf, text + [97], [9], None)
        search_case(w + "at the last character", t, n, h, buf, text[-1:], [9] * 12, None)
        search_case(w + "no room for a hit", t, n, h, buf, text[:1], [], None)
        search_case(w + "room for one", t, n, h, buf, text[:1], [9], None)
    search_case(w + "an empty roll", t, 0, 0, [], [97], [9], None)
    search_case(w + "8 before 11", t, 1, 1, packed(k, [0] * (8 // k - 1) + [1]), [], [9], (8, 0))
    search_case(w + "1 for search", (3, s, t[2], t[3]), 0, 0, [], [97], [9], (1, 0))
    search_case(w + "7 before 11", t, 1, 0, [], [], [9], (7, 0))
every = table(2, 3, ALL)
rare = [255] * 66
_, n, h, buf = pack(every, rare, [0xFF] * 1500)
search_case("64 characters of 86 symbols each", every, n, h, buf, [255] * 64, [9] * 4, None)
search_case("no roll inside a codeword: 252 stands in 255's symbols", every, n, h, buf, [252], [9] * 4, None)

# the search by jumps: its windows have as many bytes as the pattern's symbols fill

def symbols_for(t, w):
    """How many symbols a pattern may have whose windows are so many bytes wide."""
    per = 8 // t[0]
    return range(w * per, (w + 1) * per)


def of_symbols(t, many, turn):
    """A text of so many symbols, of characters that differ."""
    words, text = codewords(t[0], t[1])[:t[2]], []
    while many:
        fitting = [r for r, word in enumerate(words) if len(word) <= many]
        rank = fitting[(7 * turn + 5 * len(text)) % len(fitting)]
        text.append(t[3][rank])
        many -= len(words[rank])
    return text


def symbols_of(t, text):
    words = codewords(t[0], t[1])
    lengths = {b: len(words[r]) for r, b in enumerate(t[3][:t[2]])}
    return sum(lengths[b] for b in text)


def aligned(t, parts):
    """The parts, the first from the first symbol of a byte on and each from the next one on; between them stands the first character."""
    text, per = [], 8 // t[0]
    for i, part in enumerate(parts):
        text += t[3][:1] * ((i - symbols_of(t, text)) % per) + part
    return text


def text_case(words, t, text, pattern, hits=None, expect=...):
    """A text, packed, and how many hits it has; room for so many, or for all and one more, which stays."""
    r, n, h, buf = pack(t, text, [0xA5] * -(-symbols_of(t, text) * t[0] // 8))
    found = sum(text[i:i + len(pattern)] == pattern for i in range(len(text)))
    assert r is None and expect in (..., found), (words, r, found, expect)
    search_case(words, t, n, h, buf, pattern, [9] * (found + 1 if hits is None else hits), None)


SMALL = list(range(97, 123))
turn = 0
for k, s in ((2, 1), (2, 2), (2, 3), (4, 1), (4, 3), (4, 15)):
    t, per = table(k, s, SMALL), 8 // k
    words, a = codewords(k, s)[:26], SMALL[0]
    for w in (1, 2, 3):
        for many in symbols_for(t, w):
            name = f"width {k}, s {s}, {many} symbols: "
            pattern = of_symbols(t, many, turn)
            text_case(name + "from each symbol of a byte on, at the start and at the end", t, aligned(t, [pattern] * (per + 1)), pattern)
            turn += 1
        many = symbols_for(t, w)[-1 - turn % 2]
        name = f"width {k}, s {s}, {many} symbols: "
        # another character at the front, in the middle and at the end, of as many symbols where there is one
        pattern = of_symbols(t, many, turn)
        near = []
        for i in (0, len(pattern) // 2, len(pattern) - 1):
            others = [SMALL[r] for r, word in enumerate(words) if SMALL[r] != pattern[i] and len(word) == symbols_of(t, pattern[i:i + 1])] or SMALL[21:]
            near.append(pattern[:i] + [others[turn % len(others)]] + pattern[i + 1:])
        text_case(name + "near misses", t, aligned(t, near + [pattern]), pattern)
        text_case(name + "near misses alone, and cut at the end", t, aligned(t, [near[2], near[0], pattern[1:], pattern[:-1]]), pattern, 2, 0)
        # its symbols stand behind a continuer: no hit, wherever in a byte
        pattern = [a] + of_symbols(t, many - 1, turn)
        longer = SMALL[[word[1:] for word in words].index(words[0])]
        inside = [longer] + pattern[1:]
        text_case(name + "inside codewords, from each symbol of a byte on", t, aligned(t, [inside] * per), pattern, 2, 0)
        text_case(name + "inside codewords and not", t, aligned(t, [inside, pattern, inside]), pattern)
        turn += 1
    name = f"width {k}, s {s}: "
    # what stands behind h is no text: unused symbols, and bytes behind the last
    for used in range(1, per):
        pattern = of_symbols(t, 4 * per, turn) + [a] * (per - used)
        text = pattern[:-(per - used)]
        text = [SMALL[0]] * ((used - symbols_of(t, text)) % per) + text
        text_case(name + f"its last symbols are unused ones, {used} used", t, text, pattern, 2, 0)
    pattern = of_symbols(t, 5 * per, turn)
    behind = pack(t, pattern, [0] * 9)[3][:5]
    r, n, h, buf = pack(t, [a] * 6, [0] * (6 // per + (6 % per > 0)))
    search_case(name + "bytes behind the last are free", t, n, h, buf + behind + behind, pattern, [9] * 2, None)
    search_case(name + "the room of the buffer, and the pattern is longer", t, n, h, buf, pattern, [9] * 2, None)
    for hits in (0, 1, 3, 5):
        text_case(name + f"three hits, room for {hits}", t, aligned(t, [pattern] * 3), pattern, hits, 3)
    text_case(name + "the pattern is the roll", t, pattern, pattern, 2, 1)
    text_case(name + "and one character before it", t, SMALL[3:4] + pattern, pattern)
    text_case(name + "and one behind it", t, pattern + SMALL[3:4], pattern)
    # texts of few characters, and a part of each
    seed = 16 * k + s
    for many in (3, 8, 20):
        some, text = [SMALL[i] for i in (0, 1 + seed % 4, 6 + seed % 19)], []
        while len(text) < 30:
            seed = seed * 1103515245 + 12345 & 0x7FFFFFFF
            text.append(some[(seed >> 16) % 3])
        at = (seed >> 8) % (31 - many)
        text_case(name + f"three characters, a part of {many}", t, text, text[at:at + many], 5)
        text_case(name + f"three characters, a part of {many} and another behind it", t, text, text[at:at + many - 1] + some[:1], 5)
    if s != 3:
        continue
    # a character that the table has not
    for i in (0, len(pattern) // 2, len(pattern) - 1):
        text_case(name + f"place {i} of the pattern is not in the table", t, pattern, pattern[:i] + [200] + pattern[i + 1:], 2, 0)
    text_case(name + "a character that stands past sigma alone", (k, s, 25, t[3]), SMALL[16:25], SMALL[17:26], 2, 0)
    # refused: the slice stays
    text = pattern + SMALL[-1:]
    _, n, h, buf = pack(t, text, [0] * 12)
    for refusal, roll in (
        ((1, 0), ((3, s, 26, t[3]), n, h, buf)), ((1, 0), ((k, s, 26, SMALL[:25] + SMALL[:1] + t[3][26:]), n, h, buf)), ((5, 999), (t, n, 999, buf)),
        ((6, h - len(words[-1])), (t, n, h - 1, buf)), ((7, n), (t, n + 1, h, buf)), ((8, 0), (t, per + 1, per + 1, packed(k, [0] * (per + 1) + [1]))),
    ):
        search_case(name + f"{refusal[0]} for a longer pattern", *roll, pattern, [9] * 2, refusal)
    for many in (0, 65):
        search_case(name + f"11 for {many} characters", t, n, h, buf, SMALL[4:5] * many, [9] * 2, (11, 0))
    search_case(name + "7 before 11, 65 characters", t, n + 1, h, buf, SMALL[4:5] * 65, [9] * 2, (7, n))
    # one character again and again, and patterns that overlap
    for b in (SMALL[0], SMALL[5], SMALL[25]):
        for many in (1, 2, 3, 7, 8, 64):
            text_case(name + f"66 times {b}, for {many}", t, [b] * 66, [b] * many, 4, 67 - many)
        text_case(name + f"63 times {b}, for 64", t, [b] * 63, [b] * 64, 4, 0)
        text_case(name + f"66 times {b}, for another behind 7", t, [b] * 66, [b] * 7 + SMALL[1:2], 4, 0)
        text_case(name + f"66 times {b}, for another before 7", t, [b] * 66, SMALL[1:2] + [b] * 7, 4, 0)
    for pair in (b"ab", b"bz"):
        rabbits = [pair[1:], pair[:1]]
        while len(rabbits[-1]) < 34:
            rabbits.append(rabbits[-1] + rabbits[-2])
        for i in (3, 4, 5, 6):
            text_case(name + f"overlapping, {pair.decode()}, {len(rabbits[i])} characters", t, list(rabbits[-1]), list(rabbits[i]), 4)

# the longest codewords, from each symbol of a byte on: 64 of them, one alone, and one that stands inside another
for k, s, most in ((2, 3, 86), (4, 15, 18)):
    t, name = table(k, s, ALL), f"width {k}, s {s}: "
    assert len(codewords(k, s)[255]) == most and s * (most - 1) <= 255
    shorter = 255 - s
    for before in range(8 // k):
        text_case(name + f"64 characters of {most} symbols each, {before} before them", t, [0] * before + [255] * 66, [255] * 64, None, 3)
        text = [0] * before + [255, shorter, 254, 255, 0, 255, shorter, 0]
        for pattern, hits in (([255], 3), ([shorter], 2), ([254, 255], 1), ([255, 0, 255], 1)):
            text_case(name + f"codewords of {most} symbols, {before} before them, for {len(pattern)} from {pattern[0]} on", t, text, pattern, None, hits)
    text_case(name + "64 characters, the last of them differs", t, [255] * 65 + [254], [255] * 63 + [254], None, 1)
    text_case(name + "64 characters, the last of them is not there", t, [255] * 65, [255] * 63 + [254], None, 0)
    text_case(name + "64 characters, one between is not there", t, [255] * 65, [255] * 31 + [254] + [255] * 32, None, 0)
    text_case(name + "the first of 64 characters stands inside a longer one", t, [255] * 65, [shorter] + [255] * 63, None, 0)
    # 254 to 256 whole bytes
    per = 8 // k
    for w in (254, 255, 256):
        for many in (symbols_for(t, w)[0], symbols_for(t, w)[-1]):
            pattern = [255] * (many // most) + [s * (many % most - 1)]
            assert symbols_of(t, pattern) == many
            text_case(name + f"{many} symbols, a near miss and a hit", t, [0] * (w % per) + [254] + pattern[1:] + [0] + pattern, pattern, None, 1)

# the longest rolls
for k, s in ((2, 3), (4, 3)):
    t, name = table(k, s, SMALL), f"width {k}: 1,048,576 symbols, "
    for many in (1, 7, 30, 64):
        text_case(name + f"for {many} times their character", t, [97] * LIMIT, [97] * many, 2, LIMIT + 1 - many)
    pattern = list(b"bacabdabac")
    long = [97] * (LIMIT - 2 * symbols_of(t, pattern) - 7)
    text_case(name + "a hit at the start and one at the end", t, pattern + long + [98] * 7 + pattern, pattern, None, 2)
    text_case(name + "one at the end alone", t, pattern[:-1] + [97] + long + [98] * 7 + pattern, pattern, None, 1)
    text_case(name + "and none there", t, pattern + long + [98] * 7 + pattern[:-1] + [97], pattern, None, 1)

# byte 10 in a pattern: 11, and the slice stays, though the text has what the pattern says; a pattern is of one line
LINE = list((b"ann bob +47 " * 6)[:64])
WITH_10 = (
    ("alone", [10]), ("twice", [10, 10]), ("behind byte 13", [13, 10]), ("first", [10] + LINE[:6]), ("last", LINE[-6:] + [10]),
    ("in the middle", LINE[-3:] + [10] + LINE[:3]), ("the first of 64", [10] + LINE[:63]), ("the 33rd of 64", LINE[-32:] + [10] + LINE[:31]),
    ("the 64th of 64", LINE[1:] + [10]), ("the first of 65", [10] + LINE), ("the 65th of 65", LINE + [10]),
)
WITH_13 = (
    ("alone", [13], 5), ("twice", [13, 13], 1), ("first", [13] + LINE[:6], 2), ("last", LINE[-6:] + [13], 2), ("in the middle", LINE[-3:] + [13] + LINE[:3], 1),
    ("the first of 64", [13] + LINE[:63], 2), ("the 64th of 64", LINE[1:] + [13], 2),
)
TEXT_10 = [10] + LINE + [10] + LINE + [10, 10, 13, 10]
TEXT_13 = [13] + LINE + [13] + LINE + [13, 13, 10, 13]


def eleven_case(words, t, text, pattern, hits=(9, 8, 7)):
    """A text, packed, and a pattern that is 11."""
    r, n, h, buf = pack(t, text, [0xA5] * -(-symbols_of(t, text) * t[0] // 8))
    assert r is None, words
    search_case(words, t, n, h, buf, list(pattern), list(hits), (11, 0))


for k, s in ((2, 3), (4, 3)):
    w, per = f"width {k}, s {s}: ", 8 // k
    t, bare = table(k, s, b" abno+47\r\n"), table(k, s, b" abno+47")
    for place, pattern in WITH_10:
        assert any(TEXT_10[i:i + len(pattern)] == pattern for i in range(len(TEXT_10))), place
        eleven_case(w + f"11, byte 10 {place}", t, TEXT_10, pattern)
        eleven_case(w + f"11, byte 10 {place}, not in the table", bare, LINE + LINE, pattern)
    eleven_case(w + "11, 64 times byte 10", t, [10] * 66, [10] * 64)
    eleven_case(w + "11, byte 10 and no room for a hit", t, TEXT_10, LINE[-3:] + [10], [])
    eleven_case(w + "11, byte 10 behind a character not in the table", t, TEXT_10, b"ann?\nbob")
    eleven_case(w + "11, byte 10 before a character not in the table", t, TEXT_10, b"ann\n?bob")
    eleven_case(w + "11, byte 10 in a pattern longer than the text", t, list(b"ann"), b"ann\nbob +47")
    for which, pattern in (("byte 10 alone", b"\n"), ("byte 10 among others", b"ann\nbob +47")):
        search_case(w + f"11, {which}, an empty roll", t, 0, 0, [], list(pattern), [9], (11, 0))
        search_case(w + f"11, {which}, an empty roll and bytes behind it", bare, 0, 0, [0xFF], list(pattern), [9], (11, 0))
        search_case(w + f"11, {which}, an empty roll and sigma 0", table(k, s, []), 0, 0, [], list(pattern), [9], (11, 0))
        # check's refusals come before it
        _, n, h, buf = pack(t, TEXT_10, [0] * -(-symbols_of(t, TEXT_10) // per))
        for refusal, roll in (
            ((1, 0), ((3, s, 10, t[3]), n, h, buf)), ((5, 9999), (t, n, 9999, buf)), ((6, h - len(codewords(k, s)[9])), (t, n, h - 1, buf)),
            ((7, n), (t, n + 1, h, buf)), ((8, 0), (t, per + 1, per + 1, packed(k, [0] * (per + 1) + [1]))),
        ):
            search_case(w + f"{refusal[0]} before 11, {which}", *roll, list(pattern), [9, 8], refusal)
    # byte 13 is as any other
    for place, pattern, hits in WITH_13:
        text_case(w + f"byte 13 {place}", t, TEXT_13, pattern, None, hits)
        text_case(w + f"byte 13 {place}, not in the table", bare, LINE + LINE, pattern, 2, 0)
    eleven_case(w + "11, byte 13 the 65th of 65", t, TEXT_13, LINE + [13])
    # so are those beside 10, and those that differ from it in one bit
    for b in (2, 8, 9, 11, 14, 26, 42, 74, 138):
        near, text = table(k, s, [97, 110, 98, 111, b, 10]), list(b"ann") + [b] + list(b"bob") + [b, 10, b, b]
        text_case(w + f"byte {b} alone", near, text, [b], None, 4)
        text_case(w + f"byte {b} in the middle", near, text, text[:7], None, 1)
        text_case(w + f"byte {b} first and last", near, text, text[3:8], None, 1)
    # in the text byte 10 is no matter, and is not passed over
    text_case(w + "64 characters, between bytes 10 of the text", t, TEXT_10, LINE, None, 2)
    text_case(w + "no hit over byte 10 of the text", t, TEXT_10, LINE[-3:] + LINE[:3], 2, 0)
for k, s in ((2, 2), (4, 3)):
    every, w = table(k, s, ALL), f"width {k}, s {s}: "
    for first in (0, 64, 128, 192):
        text_case(w + f"every byte value but 10 from {first} on", every, ALL[:10] + ALL[11:], [b for b in ALL[first:first + 64] if b != 10], None, 1)
    eleven_case(w + "11, every byte value from 0 on", every, ALL, ALL[:64])

# the edit
edit_case("P10: 4..5 by dd", ABRA, 11, 13, BYTES, [0], 4, 5, b"dd", None)
edit_case("P11: 4..7 dropped", ABRA, 11, 13, BYTES, [0], 4, 7, b"", None)
assert edit(ABRA, 11, 13, BYTES, [0], 4, 5, list(b"dd")) == (None, 12, 15, [0x18, 0xDD, 0x34, 0x60], [0])
assert edit(ABRA, 11, 13, BYTES, [0], 4, 7, []) == (None, 8, 8, [0x18, 0x18, 0, 0], [0])
LONG = list(b"0123456789+") + [10]
for k, s in ((2, 3), (2, 1), (4, 14), (4, 3)):
    w = f"width {k}, s {s}: "
    per = 8 // k
    t = (k, s, 12, LONG + [7] * 244)      # places past sigma come back as given
    lengths = [len(x) for x in codewords(k, s)[:12]]

    def rolled(text, room=30, entries=2):
        """A roll of a text with bytes and entries behind it that are not 0."""
        r, n, h, buf = pack(t, text, [0xA5] * room)
        assert r is None
        return n, h, buf, make_directory(t, n, h, buf, [77] * entries)[1]

    roll = list(b"012+345+678\n")
    n, h, buf, entries = rolled(roll)
    for start, end, text in ((0, 1, b"0"), (3, 4, b"+"), (0, 12, roll), (4, 7, b"543"), (8, 11, b"876")):
        edit_case(w + "as many symbols: only the run is stored", t, n, h, buf, entries, start, end, text, None)
    for at in range(0, 13, 3):
        edit_case(w + f"one symbol more at {at}: the tail moves by less than a byte", t, n, h, buf, entries, at, at, b"0", None)
        edit_case(w + f"a byte more at {at}", t, n, h, buf, entries, at, at, b"0" * per, None)
        edit_case(w + f"many more at {at}", t, n, h, buf, entries, at, at, b"9+8+7+6", None)
    for at in range(0, 12, 4):
        edit_case(w + f"character {at} gone", t, n, h, buf, entries, at, at + 1, b"", None)
    r8 = [48] * (3 * per)
    m, g, b8, e8 = rolled(r8)
    for start, end in ((0, 1), (per - 1, per), (per, 2 * per), (per - 1, per + 1), (2 * per, 3 * per), (1, 3 * per), (3 * per - 1, 3 * per)):
        edit_case(w + f"{start}..{end} of whole bytes dropped", t, m, g, b8, e8, start, end, b"", None)
    edit_case(w + "runs across bytes by one that is shorter", t, n, h, buf, entries, 1, 11, b"1", None)
    edit_case(w + "nothing by nothing", t, n, h, buf, entries, 5, 5, b"", None)
    edit_case(w + "the whole roll gone: its digits are gone from memory", t, n, h, buf, entries, 0, 12, b"", None)
    edit_case(w + "an empty roll filled", t, 0, 0, [0xA5] * 30, [77] * 2, 0, 0, b"+4420\n", None)
    edit_case(w + "an empty roll left empty", t, 0, 0, [], [], 0, 0, b"", None)
    # more and fewer entries
    n40, h40, b40, e40 = rolled([48] * 40, 60, 4)
    edit_case(w + "an entry no longer used is 0", t, n40, h40, b40, e40, 0, 20, b"", None)
    edit_case(w + "one entry more", t, n40, h40, b40, e40, 40, 40, b"1" * 30, None)
    edit_case(w + "entries behind the run go up", t, n40, h40, b40, e40, 3, 4, b"9", None)
    edit_case(w + "characters change places with entries", t, n40, h40, b40, e40, 0, 0, b"+", None)
    edit_case(w + "at an entry", t, n40, h40, b40, e40, 32, 32, b"+", None)
    edit_case(w + "just enough entries", t, n40, h40, b40, e40[:2], 40, 40, b"1" * 24, None)
    edit_case(w + "a chain of edits on one roll", t, *edit_case(w + "its first", t, n40, h40, b40, e40, 10, 20, b"98765", None), 30, 35, b"\n+\n", None)
    # refusals, and each pair of neighbours
    bad = (3, s, 12, t[3])
    edit_case(w + "1 before 9", bad, n, h, buf, [], 0, 0, b"", (1, 0))
    edit_case(w + "8 before 9", t, 1, 1, packed(k, [0, 1]), [], 0, 0, b"", (8, 0))
    edit_case(w + "7 before 9", t, n + 1, h, buf, [], 0, 0, b"", (7, n))
    edit_case(w + "5, 6 for the edit", t, n, 9999, buf, entries, 0, 0, b"", (5, 9999))
    edit_case(w + "6 for the edit", t, 1, 1, packed(k, [s]), [0], 0, 0, b"", (6, 0))
    edit_case(w + "9, no entries", t, n, h, buf, [], 0, 0, b"", (9, 0))
    edit_case(w + "9, the second missing", t, n40, h40, b40, e40[:1], 0, 0, b"", (9, 1))
    edit_case(w + "9, the second wrong", t, n40, h40, b40, [0, e40[1] + 1], 0, 0, b"", (9, 1))
    edit_case(w + "9, both wrong", t, n40, h40, b40, [1, 1], 0, 0, b"", (9, 0))
    edit_case(w + "9 before 10", t, n, h, buf, [5], 1, 0, b"", (9, 0))
    edit_case(w + "10, start over end", t, n, h, buf, entries, 2, 1, b"", (10, 0))
    edit_case(w + "10, end over n", t, n, h, buf, entries, 0, n + 1, b"", (10, 0))
    edit_case(w + "10, huge", t, n, h, buf, entries, 10 ** 11, 10 ** 11, b"", (10, 0))
    edit_case(w + "10 before 3", t, n, h, buf, entries, 1, 0, b"x", (10, 0))
    edit_case(w + "3, the place in the text put in", t, n, h, buf, entries, 5, 6, b"01x", (3, 2))
    edit_case(w + "3, a character that stands past sigma alone", t, n, h, buf, entries, 5, 6, [7], (3, 0))
    tight = buf[:-(-h * k // 8)]
    spare = len(tight) * per - h
    edit_case(w + "3 before 4, though it stands behind", t, n, h, tight, entries, 0, 0, b"0" * 9 + b"x", (3, 9))
    edit_case(w + "the room just filled", t, n, h, tight, entries, 5, 5, b"0" * spare, None)
    edit_case(w + "4, in the text put in", t, n, h, tight, entries, 12, 12, b"0" * (spare + 2), (4, 12 + spare))
    edit_case(w + "4, behind the text put in", t, n, h, tight, entries, 5, 5, b"0" * (spare + 1))
    edit_case(w + "4, a long codeword before a short one", t, n, h, tight, entries, 0, 0, b"\n" * 3)
    full, fullen = [48] * 32, 32
    m, g, b32, e32 = rolled(full, -(-32 * k // 8), 1)
    edit_case(w + "4 before 12", t, m, g, b32, e32, 32, 32, b"0", (4, 32))
    m, g, b32, e32 = rolled(full, 30, 1)
    edit_case(w + "12", t, m, g, b32, e32, 32, 32, b"0", (12, 2))
    edit_case(w + "12, many", t, m, g, b32, e32, 0, 0, b"0" * 40 if k == 2 else b"0" * 28, (12, 3) if k == 2 else (12, 2))

# what the neighbours in the order leave open
for k, s in ((2, 3), (4, 2)):
    w = f"width {k}, s {s}: "
    t = table(k, s, list(b"0123456789"))
    per = 8 // k
    directory_case(w + "5 for the directory", t, 1, 99, [0], [9], (5, 99))
    directory_case(w + "6 for the directory", t, 1, 1, packed(k, [s]), [9], (6, 0))
    directory_case(w + "7 for the directory", t, 2, 1, packed(k, [0]), [9], (7, 1))
    search_case(w + "5 for the search", t, 1, 99, [0], [48], [9], (5, 99))
    search_case(w + "6 for the search", t, 1, 1, packed(k, [s]), [48], [9], (6, 0))
every = table(2, 3, ALL)
_, n, h, buf = pack(every, [0, 255, 9, 200], [0xA5] * 90)
edit_case("codewords of 86 and 68 symbols put in", every, n, h, buf, [0], 1, 3, [255, 201, 3], None)
_, n, h, buf = pack(ONE, [97] * 65535, [0xA5] * 16386)
right = make_directory(ONE, n, h, buf, [0] * 2049)[1]
edit_case("over 65,536 symbols in a longer buffer", ONE, n, h, buf, right, 0, 0, b"aaaaa", None)

# the longest rolls, in a buffer longer than they need: one symbol under the limit, and at it
for k, s in ((2, 3), (4, 3)):
    t, w, used = table(k, s, b"abcdefgh"), f"width {k}: ", LIMIT * k // 8
    half = [97] * (LIMIT // 2 - 8)
    text = list(b"abcdefgh") + half + list(b"hgfedcba") + half
    text = text[:LIMIT - 1 - (symbols_of(t, text) - len(text))]
    _, n, h, buf = pack(t, text, [0xA5] * (used + 2))
    assert h == LIMIT - 1
    unpack_case(w + "1,048,575 symbols", t, n, h, buf, 0, n, [0xEE] * (n + 1), None)
    long_edit_case(w + "up to 1,048,576 symbols, at the end", t, n, h, buf, n, n, b"c", None)
    long_edit_case(w + "up to 1,048,576 symbols, in the middle", t, n, h, buf, n // 2, n // 2 + 1, b"bc", None)
    long_edit_case(w + "4, past 1,048,576 symbols, at the end", t, n, h, buf, n, n, b"cb", (4, n + 1))
    long_edit_case(w + "4, past 1,048,576 symbols, in front", t, n, h, buf, 0, 0, b"bc", (4, n + 1))
    n, h, buf = long_edit_case(w + "up to 1,048,576 symbols, in front", t, n, h, buf, 0, 0, b"b", None)
    check_case(w + "1,048,576 symbols", t, n, h, buf, None)
    check_case(w + "5, 1,048,577 symbols", t, n + 1, h + 1, buf, (5, LIMIT + 1))
    long_edit_case(w + "as many symbols as before of 1,048,576, in front", t, n, h, buf, 0, 2, b"cc", None)
    long_edit_case(w + "as many symbols as before of 1,048,576, at the end", t, n, h, buf, n - 2, n, b"d", None)
    long_edit_case(w + "4, one symbol more than 1,048,576, in front", t, n, h, buf, 0, 1, b"d", (4, n - 1))
    long_edit_case(w + "10, behind the last of 1,048,576 symbols", t, n, h, buf, n, n + 1, b"", (10, 0))
    long_edit_case(w + "fewer than 1,048,576, in front", t, n, h, buf, 0, 9, b"a", None)
    long_edit_case(w + "nothing of 1,048,576 left", t, n, h, buf, 0, n, b"", None)
for k, s in ((2, 3), (4, 3)):
    t, w, buf = table(k, s, b"abc"), f"width {k}: ", [0] * (LIMIT * k // 8 - 1) + [1, 0xA5]
    unpack_case(w + "1,048,576 characters", t, LIMIT, LIMIT, buf, 0, LIMIT, [0xEE] * (LIMIT + 1), None)
    unpack_case(w + "the last two of 1,048,576", t, LIMIT, LIMIT, buf, LIMIT - 2, LIMIT, [0xEE] * 3, None)
    unpack_case(w + "13, one byte too few for 1,048,576", t, LIMIT, LIMIT, buf, 0, LIMIT, [0xEE] * (LIMIT - 1), (13, LIMIT))
    unpack_case(w + "10, past 1,048,576 characters", t, LIMIT, LIMIT, buf, LIMIT, LIMIT + 1, [0xEE] * 3, (10, 0))

# ranks that 16, 32 and 64 bits would take for 0
for bits in (16, 32, 64):
    row = [2] * (bits - 2) + [3, 0]
    wraps = table(2, 2, ALL)
    check_case(f"a rank of 2^{bits}", wraps, 1, bits, packed(2, row), (6, 0))
    read_case(f"a rank of 2^{bits}, read", wraps, 1, bits, packed(2, row), [0], 0, (6, 0))
    character_case(f"a rank of 2^{bits}, decoded", wraps, bits, row + [0] * (86 - bits), (6, 0))

# counting
ZEROS = [0] * 256
count_case("no text", [], [9] * 256, None)
count_case("abracadabra", TEXT, [9] * 256, None)
count_case("every byte value", ALL + ALL[128:], ZEROS, None)
count_case("65,537 of one", [255] * 65537, ZEROS, None)
count_case("1,048,576 of one", [255] * LIMIT, ZEROS, None)
count_case("1,048,576, each as often", ALL * (LIMIT // 256), ZEROS, None)
count_case("4, one more", [255] * (LIMIT + 1), [9] * 256, (4, LIMIT))
count_case("the twelve", list(TWELVE), [9] * 256, None)
for b in TWELVE:
    count_case(f"{b} alone of the twelve", [b], [9] * 256, None)
count_case("2, no counts", TEXT, [], (2, 0))
count_case("2, 255 counts", TEXT, [9] * 255, (2, 255))
count_case("2, 257 counts", TEXT, [9] * 257, (2, 257))
count_case("2 before 4", [255] * (LIMIT + 1), [9] * 3, (2, 3))

# choosing
for k in (2, 4):
    w = f"width {k}: "
    choose_case(w + "all counts 0", k, ZEROS, None)
    choose_case(w + "abracadabra", k, counts_of(TEXT), None)
    choose_case(w + "banana", k, counts_of(b"banana"), None)
    choose_case(w + "one character", k, counts_of(b"z"), None)
    choose_case(w + "all alike: the smaller byte first", k, [3] * 256, None)
    choose_case(w + "each more often than the one before", k, ALL, None)
    choose_case(w + "halving", k, [2 ** (31 - i) if i < 32 else 0 for i in range(256)], None)
    choose_case(w + "the greatest counts", k, [2 ** 32 - 1] * 256, None)
    choose_case(w + "2, no counts", k, [], (2, 0))
    choose_case(w + "2, 257 counts", k, [1] * 257, (2, 257))
    for j in range(6):
        choose_case(w + f"mixed {j}", k, [(i * i * (j + 7) + i * j) % (13 + 31 * j) if i % (j + 2) == 0 else 0 for i in range(256)], None)
for k in (0, 1, 3, 5, 8, 255):
    choose_case(f"1, width {k}, before 2", k, [1] * 3, (1, 0))
# P1 and P5 by the counts as they are, and what choosing gives
assert choose(2, counts_of(TEXT), b"")[1:] == (13, ABRA) and choose(4, counts_of(b"banana"), b"")[1:] == (6, table(4, 3, b"anb"))
assert choose(2, counts_of(TEXT))[1:] == (53, table(2, 2, b"abr\n+0123456789cd"))
assert choose(4, counts_of(b"banana"))[1:] == (18, table(4, 15, b"an\n+0123456789b"))
assert choose(2, ZEROS)[1:] == (28, table(2, 2, TWELVE)) and choose(4, ZEROS)[1:] == (12, table(4, 12, TWELVE))

# the twelve: none left out, no other raised, and none that is counted
for k in (2, 4):
    w = f"width {k}: "
    choose_case(w + "every byte value but the twelve", k, [0 if b in TWELVE else 3 for b in ALL], None)
    choose_case(w + "the twelve alone, once", k, counts_of(TWELVE), None)
    choose_case(w + "the twelve alone, twice", k, counts_of(TWELVE * 2), None)
    choose_case(w + "the bytes beside the twelve, once", k, counts_of(b"\x09\x0b*,/:"), None)
    choose_case(w + "every byte value once but the twelve", k, [0 if b in TWELVE else 1 for b in ALL], None)
    choose_case(w + "the greatest count, and the twelve", k, [2 ** 32 - 1 if b == 57 else 0 for b in ALL], None)
    for b in TWELVE:
        choose_case(w + f"{b} alone of the twelve not counted", k, [2 * (x in TWELVE and x != b) for x in ALL], None)
        choose_case(w + f"{b} alone of the twelve counted", k, [2 * (x == b) for x in ALL], None)

# a member's number goes into a roll that held none of its characters: no edit by the twelve is refused 3 under a chosen table
for k in (2, 4):
    w = f"width {k}: "
    t = choose(k, counts_of(TEXT))[2]
    _, n, h, buf = pack(t, TEXT, [0] * 40)
    right = make_directory(t, n, h, buf, [0] * 2)[1]
    pack_case(w + "a text, its table chosen", t, TEXT, [0xFF] * 12, None)
    pack_case(w + "the twelve under it", t, list(TWELVE), [0xFF] * 16, None)
    pack_case(w + "3, a letter that was not counted", t, list(b"+47e"), [0xFF] * 12, (3, 3))
    edit_case(w + "a number in place of cad", t, n, h, buf, right, 4, 7, b"+4799\n", None)
    for b in TWELVE:
        edit_case(w + f"{b} before all", t, n, h, buf, right, 0, 0, [b], None)
    edit_case(w + "3, a letter behind a number", t, n, h, buf, right, 11, 11, b"+47e", (3, 3))
    t = choose(k, ZEROS)[2]
    pack_case(w + "the empty text, its table chosen", t, [], [0xFF] * 2, None)
    edit_case(w + "a number into an empty roll", t, 0, 0, [0xFF] * 24, [9], 0, 0, b"+4712345678\n", None)
    many = counts_of([97] * LIMIT)
    assert choose(k, many)[1] > LIMIT
    choose_case(w + "a total over the limit", k, many, None)
    pack_case(w + "and the text fits", choose(k, many)[2], [97] * LIMIT, [0xFF] * (LIMIT * k // 8), None)
edit_case("3, a number in P2", ABRA, 11, 13, BYTES + [9], [0, 9], 4, 7, b"+47", (3, 0))

# the codeword of a character, and the character of a codeword
for k, s in ((2, 1), (2, 2), (2, 3), (4, 1), (4, 3), (4, 14), (4, 15)):
    w = f"width {k}, s {s}: "
    backwards = table(k, s, list(reversed(ALL)))
    words = codewords(k, s)
    for rank in (0, 1, 2, 3, 13, 14, 15, 27, 28, 41, 42, 85, 128, 254, 255):
        codeword_case(w + f"rank {rank}", backwards, 255 - rank, None)
        long = list(words[rank])
        character_case(w + f"rank {rank} back", backwards, len(long), long + [0] * (86 - len(long)), None)
        character_case(w + f"rank {rank}, what follows is not looked at", backwards, len(long), long + [255] * (86 - len(long)), None)
    few = table(k, s, list(b"abc"), rest=97)
    codeword_case(w + "3, not in the table", few, 100, (3, 0))
    codeword_case(w + "3, only past sigma", (k, s, 2, [1, 2, 3] + [0] * 253), 3, (3, 0))
    codeword_case(w + "3, sigma 0", table(k, s, []), 0, (3, 0))
    codeword_case(w + "1 before 3", (k, 2 ** k, 3, few[3]), 100, (1, 0))
    fourth = list(words[3])
    character_case(w + "6, of rank sigma", few, len(fourth), fourth + [0] * (86 - len(fourth)), (6, 0))
    character_case(w + "6, no symbols", few, 0, [0] * 86, (6, 0))
    character_case(w + "6, a stopper inside", few, 2, [0] * 86, (6, 0))
    character_case(w + "6, unfinished", few, 86, [s] * 86, (6, 0))
    character_case(w + "6, a length over 86", few, 87, [s] * 85 + [0], (6, 0))
    character_case(w + "6, a huge length", few, 10 ** 11, [0] * 86, (6, 0))
    character_case(w + "6, no base symbol", few, 2, [2 ** k, 0] + [0] * 84, (6, 0))
    character_case(w + "1 before 6", (3, s, 3, few[3]), 0, [0] * 86, (1, 0))

# the program's report
EXAMPLE = b"best 2 symbols 19\n182a4ac180\n0\n7\nhits 2\n"
report_case("the paper's example", b"abra\nabracadabra", EXAMPLE)
report_case("an empty input", b"", b"refused 11 0\n")
report_case("no byte 10: the text is empty", b"abc", b"best 2 symbols 0\nhits 0\n")
report_case("a byte 10 alone", b"\n", b"refused 11 0\n")
report_case("an empty pattern before a text", b"\nabc", b"refused 11 0\n")
report_case("an empty text", b"abc\n", b"best 2 symbols 0\nhits 0\n")
report_case("further bytes 10 are the text's", b"b\nab\nab\n")
report_case("byte 13 before the first byte 10 is the pattern's", b"bra\r\nabracadabra\r\nabra\r\n")
report_case("a pattern of 64", b"a" * 64 + b"\n" + b"a" * 70)
report_case("a pattern of 64 and no byte 10", b"a" * 64, b"best 2 symbols 0\nhits 0\n")
report_case("a pattern of 65", b"a" * 65 + b"\n" + b"a" * 70, b"refused 11 0\n")
report_case("a pattern of 65 and no byte 10", b"a" * 65, b"refused 11 0\n")
report_case("a pattern that is not in the text", b"cab\nabracadabra")
report_case("a pattern with a character that the text has not", b"abx\nabracadabra")
report_case("a pattern longer than the text", b"abra\nabr")
report_case("overlapping hits", b"ana\nbanana")
report_case("one character", b"z\nz")
for n in (127, 128, 129):
    report_case(f"{n} symbols: 31 bytes and 32 and 33", b"b\n" + b"a" * n)
report_case("two full lines of bytes", b"ab\n" + b"ab" * 128)
report_case("all byte values", b"\xff\n" + bytes(range(256)))
report_case("all byte values twice, and a pair", b"\x00\x01\n" + bytes(range(256)) * 2)
report_case("a text of 16,384 bytes, and as many hits", b"a\n" + b"a" * 16384)
report_case("a text of 16,385 bytes", b"a\n" + b"a" * 16385, b"refused 4 16384\n")
report_case("the longest input that is read: a pattern of 64 and a text of 16,385", b"a" * 64 + b"\n" + b"a" * 16385, b"refused 4 16384\n")
report_case("11 before 4", b"a" * 65 + b"\n" + b"a" * 16385, b"refused 11 0\n")
report_case("many rare characters: packing refuses", b"a\n" + bytes(range(256)) * 64)
assert report(b"a\n" + bytes(range(256)) * 64).startswith(b"refused 4 1")
report_case("the room just passed by the last characters", b"a\n" + bytes(range(256)) * 48)

write("vectors", 4)

# a roll that comes in: one roll cut in every way into up to three pieces, empty ones among them; then byte by byte

def cuttings(buf):
    places = range(len(buf) + 1)
    yield [buf]
    for i in places:
        yield [buf[:i], buf[i:]]
    for i in places:
        for j in places[i:]:
            yield [buf[:i], buf[i:j], buf[j:]]


def cut_case(words, t, n, h, pattern, buf, last=None):
    """Every cutting ends alike."""
    ends = []
    for pieces in cuttings(buf):
        named = ", ".join(str(len(piece)) for piece in pieces)
        ends.append(start_case(f"{words}: {named} bytes", t, n, h, pattern, pieces, ..., last))
    alone = [[b] for b in buf]
    ends.append(start_case(f"{words}: byte by byte", t, n, h, pattern, alone, ..., last))
    between = [piece for b in buf for piece in ([], [b], [])]
    ends.append(start_case(f"{words}: byte by byte, empty pieces between", t, n, h, pattern, between, ..., last))
    more = [(piece, len(piece) * 8 // t[0] + 3) for piece in ([], *alone)]
    ends.append(start_case(f"{words}: byte by byte, and more entries lent", t, n, h, pattern, more, ..., last))
    assert all(dict(end, came=[]) == dict(ends[0], came=[]) for end in ends), words


cut_case("P2 for abra", ABRA, 11, 13, b"abra", BYTES)
cut_case("P3: b", ABRA, 11, 13, b"b", BYTES)
cut_case("P5: ana, overlapping", BANANA, 6, 6, b"ana", [0x20, 0x10, 0x10])
LETTERS = list(range(97, 117))
for k, s, x in ((2, 1, "f"), (2, 2, "p"), (2, 3, "j"), (4, 1, "p"), (4, 3, "p"), (4, 14, "p")):
    t = table(k, s, LETTERS)
    text = [ord(y) for y in f"{x}a{x}a{x}b{x}a{x}"]
    _, n, h, buf = pack(t, text, [0] * 20)
    buf = buf[:-(-h * k // 8)]
    cut_case(f"width {k}, s {s}: {x}a{x}", t, n, h, [ord(x), 97, ord(x)], buf)

# a bad codeword of rank sigma that begins near each border, and what follows it: ends before the border, cut by it, begins behind it
for k, s, sigma in ((2, 2, 6), (2, 3, 6), (4, 3, 5), (4, 14, 15)):
    per, word = 8 // k, list(codewords(k, s)[sigma])
    t = table(k, s, LETTERS, sigma)
    h = 4 * per - 1
    for border in (1, 2, 3):
        for first in range(max(0, border * per - len(word) - 1), border * per + 2):
            if first + len(word) <= h:
                row = [0] * first + word + [0] * (h - first - len(word))
                buf = packed(k, row)
                start_case(f"width {k}, s {s}: 6 at {first}, border at {border * per}", t, 9, h, b"aa", [buf[:border], buf[border:], []], ..., (6, first))
    last = h - len(word)
    buf = packed(k, [0] * last + word + [1])
    start_case(f"width {k}, s {s}: 6 at {last}, unused symbols behind it are not looked at", t, 9, h, b"aa", [buf[:3], buf[3:]], [None, (6, last)], (6, last))

# a codeword still open at h: named by the piece with symbol h - 1; unused symbols behind it are not looked at
for k, s in ((2, 1), (2, 3), (4, 2), (4, 15)):
    per, t = 8 // k, table(k, s, LETTERS)
    for used in range(1, per + 1):
        h = 2 * per + used
        for many in sorted({1, 2, used, used + 1, per + used, h}):
            buf = packed(k, [0] * (h - many) + [s] * many + [1] * (per - used))
            w = f"width {k}, s {s}, {h} symbols: {many} continuers at the end"
            start_case(w, t, h, h, b"a", [buf[:2], buf[2:], []], [None, (6, h - many), (6, h - many)], (6, h - many))

# a long run of continuers is not named before its stopper, or h, is read
for k, s in ((2, 1), (2, 2), (2, 3), (4, 1), (4, 14), (4, 15)):
    per, t = 8 // k, table(k, s, ALL)
    for y in sorted({s, 2 ** k - 1}):
        for many in (3 * per - 1, 3 * per, 86):
            for behind in ([0], []):
                row = [0] + [y] * many + behind
                bad = read(t, row)[1]
                w = f"width {k}, s {s}: {many} times {y}, " + ("closed" if behind else "open")
                buf = packed(k, row)
                start_case(w, t, 2, len(row), bytes([0]), [buf[:1], buf[1:2], buf[2:-1], buf[-1:]], [None, None, None, bad and (6, bad)], bad and (6, bad))
for bits in (16, 32, 64):
    row = [2] * (bits - 2) + [3, 0]
    wraps = table(2, 2, ALL)
    start_case(f"a rank of 2^{bits}, byte by byte", wraps, 1, bits, bytes([0]), [[b] for b in packed(2, row)], [None] * (bits // 4 - 1) + [(6, 0)], (6, 0))

# too little came: the value is the first symbol of the unfinished codeword, or as many as were read
for k, s in ((2, 1), (2, 3), (4, 1), (4, 15)):
    per, t = 8 // k, table(k, s, LETTERS)
    w = f"width {k}, s {s}: "
    for h in range(per + 1, 2 * per + 1):
        for first in range(per + 1):
            row = [0] * first + [s] * (per - first)
            start_case(w + f"a byte of {h} symbols, open from {first} on", t, h, h, b"a", [packed(k, row)], [None], (6, first))
    start_case(w + "two bytes of three, open from the first byte on", t, 1, 3 * per, b"a", [packed(k, [0] + [s] * (per - 1)), packed(k, [s] * per)], [None, None], (6, 1))
    start_case(w + "nothing came", t, 1, 1, b"a", [], [], (6, 0))
    start_case(w + "nothing but an empty piece", t, 1, 1, b"a", [[]], [None], (6, 0))
    # 7 and 8
    for used in range(1, per):
        for at in range(used, per):
            row = [0] * (2 * per)
            row[per + at] = 1
            buf, h = packed(k, row), per + used
            start_case(w + f"8, {used} used, symbol {at} not 0, the last byte alone", t, h, h, b"aa", [buf[:1], buf[1:]], [None, None], (8, 0))
            start_case(w + f"8, {used} used, symbol {at} not 0", t, h, h, b"aa", [buf, []], [None, None], (8, 0))
        start_case(w + f"7 before 8, {used} used", t, h - 1, h, b"aa", [buf], [None], (7, h))
    start_case(w + "7, n one too few", t, per - 1, per, b"a", [packed(k, [0] * per)], [None], (7, per))
    start_case(w + "7, n one too many", t, per + 1, per, b"a", [packed(k, [0] * per)], [None], (7, per))
    start_case(w + "7, the greatest n: start does not look at it", t, 2 ** 32 - 1, per, b"a", [packed(k, [0] * per)], [None], (7, per))
    start_case(w + "6 before 7", t, 99, 1, b"a", [packed(k, [s])], [(6, 0)], (6, 0))
    # pieces that are refused, and change nothing
    buf = packed(k, [0] * (3 * per))
    h = 3 * per
    five, short = (5, h), (14, per)
    start_case(w + "5, one byte too many at first", t, h, h, b"aa", [buf + [0], buf], [five, None], None)
    start_case(w + "5, behind a byte", t, h, h, b"aa", [buf[:1], buf, buf[:2]], [None, five, None], None)
    start_case(w + "5, behind the last byte", t, h, h, b"aa", [buf, [0], []], [None, five, None], None)
    start_case(w + "5, a byte would bring a bad codeword", t, h, h, b"aa", [packed(k, [s] * (4 * per)), buf], [five, None], None)
    start_case(w + "5, behind a last byte with unused symbols", t, h - 1, h - 1, b"aa", [buf, [0]], [None, (5, h - 1)], None)
    start_case(w + "5, a thousand bytes", t, h, h, b"aa", [([0] * 1000, 0), buf], [five, None], None)
    start_case(w + "14, no entries", t, h, h, b"aa", [(buf[:1], 0), buf], [short, None], None)
    start_case(w + "14, one too few", t, h, h, b"aa", [buf[:1], (buf[1:], 2 * per - 1), buf[1:]], [None, (14, 2 * per), None], None)
    start_case(w + "14, unused symbols count too", t, h - 1, h - 1, b"aa", [(buf, h - 1), buf], [(14, h), None], None)
    start_case(w + "14, a byte would bring a bad codeword", t, h, h, b"aa", [(packed(k, [s, 0] * per), 1), buf], [(14, 2 * per), None], None)
    start_case(w + "an empty piece needs no entries", t, h, h, b"aa", [([], 0), ([], 5), buf], [None, None, None], None)
    start_case(w + "5 before 14", t, h, h, b"aa", [(buf + [0], 0), buf], [five, None], None)
    start_case(w + "5 and 14 by turns", t, h, h, b"aa", [buf[:1], buf, (buf[:1], 0), buf[:1], buf, (buf[:1], 1), buf[:1], [0]],
               [None, five, short, None, five, short, None, five], None)
    worst = packed(k, [0] * (per - 1) + [s] * (2 * per + 1))
    start_case(w + "an earlier 6 before 5 and 14", t, h, h, b"aa", [worst, [], ([0], 0), worst + worst, ([0] * 9, 0)], [(6, per - 1)] * 5, (6, per - 1))
    start_case(w + "h 0: any byte is 5", t, 0, 0, b"a", [[], [0], ([0], 0), []], [None, (5, 0), (5, 0), None], None)
    start_case(w + "h 0, n 1", t, 1, 0, b"a", [[], [0]], [None, (5, 0)], (7, 0))
    # start's refusals: the searcher beside one is refused in its turn
    good = table(k, s, LETTERS)
    bad_tables = [
        ("k 3", (3, s, 5, good[3])), ("k 0", (0, s, 5, good[3])), ("s 0", (k, 0, 5, good[3])), ("s 2^k", (k, 2 ** k, 5, good[3])),
        ("sigma 257", (k, s, 257, ALL)), ("sigma 65535", (k, s, 65535, ALL)), ("a character twice", (k, s, 5, [7, 8, 9, 7] + [0] * 252)),
    ]
    for name, bad in bad_tables:
        r = (1, 0)
        start_case(w + "1, " + name, bad, per, per, b"a", [([0], 4), ([], 0)], [r, r], r, refused=r)
    start_case(w + "1 before 5 and 11", bad_tables[0][1], 1, LIMIT + 1, b"", [([], 0)], [(1, 0)], (1, 0), refused=(1, 0))
    start_case(w + "5 before 11", good, 1, LIMIT + 1, b"", [([0], 4)], [(5, LIMIT + 1)], (5, LIMIT + 1), refused=(5, LIMIT + 1))
    start_case(w + "5, the greatest h", good, 1, 2 ** 32 - 1, b"a", [([0], 4)], [(5, 2 ** 32 - 1)], (5, 2 ** 32 - 1), refused=(5, 2 ** 32 - 1))
    start_case(w + "h at the limit", good, 1, LIMIT, b"a", [[0]], [None], (6, per))
    start_case(w + "11, no character", good, per, per, b"", [([0], 4)], [(11, 0)], (11, 0), refused=(11, 0))
    start_case(w + "11, 65 characters", good, per, per, b"a" * 65, [([0], 4), []], [(11, 0)] * 2, (11, 0), refused=(11, 0))
    start_case(w + "a character twice past sigma is no fault", (k, s, 5, LETTERS[:5] + [97] * 251), per, per, b"a", [[0]], [None], None)
    start_case(w + "sigma 0", table(k, s, []), 1, 1, bytes([0]), [[0], []], [(6, 0)] * 2, (6, 0))

# patterns
for k, s in ((2, 3), (4, 3)):
    t = table(k, s, LETTERS)
    w = f"width {k}, s {s}: "
    _, n, h, buf = pack(t, [97] * 130, [0] * 65)
    buf = buf[:-(-h * k // 8)]
    third = len(buf) // 3
    for pattern in (b"a" * 64, b"a" * 63, b"a" * 63 + b"b", b"b" + b"a" * 63, b"aab", b"a"):
        start_case(w + f"130 times a for {len(pattern)} characters", t, n, h, pattern, [buf[:third], buf[third:2 * third], buf[2 * third:]], [None] * 3, None)
    text = list(b"abacabadabacabaeabacabadabacaba" * 2)
    _, n, h, buf = pack(t, text, [0] * 200)
    buf = buf[:-(-h * k // 8)]
    for pattern in (bytes(text), bytes(text[:31]), b"aba", b"abacabadabacabaabacaba", b"cabaeabac", b"x", b"tab", b"ab" + bytes([0])):
        start_case(w + "62 characters for " + pattern[:12].decode().replace("\0", "0") + f" of {len(pattern)}", t, n, h, pattern, [[b] for b in buf], ..., None)
    start_case(w + "a pattern of the text and one character more", t, n, h, text + [97], [buf[:9], buf[9:]], [None] * 2, None)
    start_case(w + "a character that stands past sigma alone", (k, s, 2, [97, 98, 99] + [0] * 253), 4, 4, b"c", [packed(k, [0, 1, 0, 1])], [None], None)

# byte 10 in a pattern
for k, s in ((2, 3), (4, 3)):
    w, per, eleven = f"width {k}, s {s}: ", 8 // k, (11, 0)
    t, bare = table(k, s, b" abno+47\r\n"), table(k, s, b" abno+47")
    _, n, h, buf = pack(t, TEXT_10, [0] * -(-symbols_of(t, TEXT_10) // per))
    half = len(buf) // 2
    for place, pattern in WITH_10:
        start_case(w + f"11, byte 10 {place}", t, n, h, pattern, [buf, []], [eleven] * 2, eleven, refused=eleven)
        start_case(w + f"11, byte 10 {place}, not in the table", bare, 8, 8, pattern, [packed(k, [0] * 8)], [eleven], eleven, refused=eleven)
    start_case(w + "11, 64 times byte 10", t, n, h, [10] * 64, [buf[:1], ([], 0)], [eleven] * 2, eleven, refused=eleven)
    start_case(w + "11, byte 10 behind a character not in the table", t, n, h, b"ann?\n", [buf], [eleven], eleven, refused=eleven)
    start_case(w + "11, byte 10 before a character not in the table", t, n, h, b"\n?ann", [buf], [eleven], eleven, refused=eleven)
    for which, pattern in (("byte 10 alone", b"\n"), ("byte 10 among others", b"ann\nbob +47")):
        start_case(w + f"11, {which}, h 0", t, 0, 0, pattern, [[], [0]], [eleven] * 2, eleven, refused=eleven)
        start_case(w + f"11, {which}, h 0 and sigma 0", table(k, s, []), 0, 0, pattern, [[]], [eleven], eleven, refused=eleven)
        start_case(w + f"11, {which}, h at the limit", t, 1, LIMIT, pattern, [[0]], [eleven], eleven, refused=eleven)
        for bad_h in (h, LIMIT + 1):
            start_case(w + f"1 before 11, {which}, h {bad_h}", (3, s, 10, t[3]), n, bad_h, pattern, [(buf[:1], 4)], [(1, 0)], (1, 0), refused=(1, 0))
        for bad_h in (LIMIT + 1, 2 ** 32 - 1):
            start_case(w + f"5 before 11, {which}, h {bad_h}", t, n, bad_h, pattern, [buf[:1]], [(5, bad_h)], (5, bad_h), refused=(5, bad_h))
    start_case(w + "64 characters, between bytes 10 of the text", t, n, h, LINE, [[b] for b in buf], [None] * len(buf), None)
    start_case(w + "no hit over byte 10 of the text", t, n, h, LINE[-3:] + LINE[:3], [buf[:half], buf[half:]], [None] * 2, None)
    # byte 13 is as any other, and so are those beside 10 and those that differ from it in one bit
    _, n, h, buf = pack(t, TEXT_13, [0] * -(-symbols_of(t, TEXT_13) // per))
    for place, pattern, hits in WITH_13:
        after = start_case(w + f"byte 13 {place}", t, n, h, pattern, [buf[:half], buf[half:]], [None] * 2, None)
        assert search(t, n, h, after["came"], pattern, [])[1] == hits, place
        start_case(w + f"byte 13 {place}, not in the table", bare, 8, 8, pattern, [packed(k, [0] * 8)], [None], None)
    start_case(w + "11, byte 13 the 65th of 65", t, n, h, LINE + [13], [buf], [eleven], eleven, refused=eleven)
    for b in (2, 8, 9, 11, 14, 26, 42, 74, 138):
        near, text = table(k, s, [97, 110, 98, 111, b, 10]), list(b"ann") + [b] + list(b"bob") + [b, 10, b, b]
        _, n, h, buf = pack(near, text, [0] * -(-symbols_of(near, text) // per))
        start_case(w + f"byte {b} alone", near, n, h, [b], [[x] for x in buf], ..., None)
        start_case(w + f"byte {b} in the middle", near, n, h, text[:7], [[x] for x in buf], ..., None)

# the longest rolls: a hit over each border
for k, s in ((2, 3), (4, 3)):
    t, per = table(k, s, LETTERS), 8 // k
    pieces = [packed(k, [1 if i else 0] + [0] * (16384 * per - 2) + [0]) for i in range(LIMIT // per // 16384)]
    start_case(f"width {k}: 1,048,576 symbols", t, LIMIT, LIMIT, b"ab", pieces, [None] * len(pieces), None)
    start_case(f"width {k}: 1,048,576 symbols, one n too few", t, LIMIT - 1, LIMIT, b"aab", pieces + [[0]], [None] * len(pieces) + [(5, LIMIT)], (7, LIMIT))
    pieces[-1][-1] += s
    start_case(f"width {k}: 1,048,576 symbols, the last a continuer", t, LIMIT, LIMIT, b"ab", pieces, [None] * (len(pieces) - 1) + [(6, LIMIT - 1)], (6, LIMIT - 1))
    start_case(f"width {k}: 1,048,577 symbols", t, LIMIT + 1, LIMIT + 1, b"ab", pieces[:1], [(5, LIMIT + 1)], (5, LIMIT + 1), refused=(5, LIMIT + 1))
    # one codeword, from the first symbol to the last
    pieces = [packed(k, [s] * (16384 * per)) for _ in range(LIMIT // per // 16384)]
    start_case(f"width {k}: 1,048,576 continuers, open", t, 1, LIMIT, b"a", pieces, [None] * (len(pieces) - 1) + [(6, 0)], (6, 0))
    pieces[-1][-1] -= s
    start_case(f"width {k}: 1,048,575 continuers, closed", t, 1, LIMIT, b"a", pieces, [None] * (len(pieces) - 1) + [(6, 0)], (6, 0))

# a searcher is all that is kept: taken up from its numbers behind each byte
for k, s, x in ((2, 1, "f"), (2, 3, "j"), (4, 14, "p")):
    t = table(k, s, LETTERS)
    text = [ord(y) for y in f"{x}a{x}a{x}b{x}a{x}"]
    _, n, h, buf = pack(t, text, [0] * 20)
    buf = buf[:-(-h * k // 8)]
    for i in range(len(buf) + 1):
        given_case(f"width {k}, s {s}: taken up behind {i} bytes", searcher(t, n, h, text[:3], buf[:i]), [buf[i:], []], [None] * 2, None)
    bad = packed(k, [0] * (8 // k + 1) + [s] * (h - 8 // k - 1))
    given_case(f"width {k}, s {s}: taken up behind a 6", searcher(t, n, h, text[:3], bad), [[], [0]], [(6, 8 // k + 1)] * 2, (6, 8 // k + 1))

# any numbers: each bound, just within it and just past it. An empty piece changes nothing
NAMES = ("read", "count", "first", "past", "place", "shorter", "rows", "value", "bad", "stained")
for k, s in ((2, 2), (4, 3)):
    t, per = table(k, s, LETTERS), 8 // k
    h = 20 * per
    base = dict(searcher(t, h, h, list(b"abc"), packed(k, [0] * (10 * per))), came=None)

    def numbers(**changed):
        """The searcher after ten bytes of twenty, with these numbers instead."""
        own = {name: changed.pop(name) for name in list(changed) if name in NAMES}
        return dict(base, **changed, progress=[own.get(name, x) for name, x in zip(NAMES, base["progress"])])

    def bound(words, within, past, last=(6, 10 * per), fed=None):
        """The one is asked on, the other is refused before all else."""
        given_case(f"width {k}, s {s}: {words}, within", numbers(**within), [[]], [fed], last)
        given_case(f"width {k}, s {s}: {words}, past it", numbers(**past), [[], (packed(k, [0] * per), 0)], [(1, 0)] * 2, (1, 0))

    half = 10 * per
    bound("past", dict(past=1), dict(past=2))
    bound("place", dict(place=2), dict(place=3))
    bound("shorter", dict(shorter=256), dict(shorter=257))
    bound("rows", dict(rows=4096), dict(rows=4097))
    bound("rows 0", dict(rows=0), dict(rows=2 ** 32 - 1))
    bound("value", dict(value=256), dict(value=257))
    bound("bad", dict(bad=1), dict(bad=2), fed=(6, half))
    bound("stained", dict(stained=1), dict(stained=2))
    bound("stained at the end", dict(read=h, first=h, count=h, stained=1), dict(read=h, first=h, count=h, stained=2 ** 32 - 1), (8, 0))
    bound("count up to first", dict(count=half), dict(count=half + 1))
    bound("count up to first, first below read", dict(count=5, first=5), dict(count=6, first=5), (6, 5))
    bound("first up to read", dict(first=half), dict(first=half + 1))
    bound("read up to h", dict(read=h, first=h), dict(read=h + per, first=h), (7, half))
    bound("read up to h, a bad codeword", dict(read=h, bad=1), dict(read=h + 1, bad=1), fed=(6, half))
    bound("read up to another h", dict(h=half), dict(h=half - 1, bad=1), (7, half))
    for more in range(1, per):
        bound(f"read in whole bytes, {more} more", dict(read=half + per), dict(read=half + more))
        bound(f"read anywhere behind a bad codeword, {more} more", dict(read=half + more, bad=1), dict(read=half + more, bad=0), fed=(6, half))
        bound(f"read to the end in the middle of a byte, {more} more", dict(read=half + more, h=half + more), dict(read=half + more, h=half + per), (7, half))
    bound("ends by count", dict(count=1, ends=1), dict(count=1, ends=2))
    bound("ends by count 0", dict(count=0, ends=0), dict(count=0, ends=1))
    bound("ends by length 3", dict(ends=3), dict(ends=4))
    bound("ends by length 1", dict(length=1, ends=0), dict(length=1, ends=1))
    full = dict(pattern=[97] * 64, length=64, h=LIMIT, n=LIMIT)
    many = dict(full, read=8000, first=8000)
    bound("ends by length 64", dict(many, count=8000, ends=2 ** 63 - 1), dict(many, count=8000, ends=2 ** 63), (6, 8000))
    bound("ends by count 63", dict(many, count=63, ends=2 ** 63 - 1), dict(many, count=63, ends=2 ** 64 - 1), (6, 8000))
    bound("ends by count 62", dict(many, count=62, ends=2 ** 62 - 1), dict(many, count=62, ends=2 ** 62), (6, 8000))
    bound("ends by count 32", dict(many, count=32, ends=2 ** 32 - 1), dict(many, count=32, ends=2 ** 32), (6, 8000))
    for name in NAMES:
        given_case(f"width {k}, s {s}: {name} the greatest", numbers(**{name: 2 ** 32 - 1}), [[]], [(1, 0)], (1, 0))
    w = f"width {k}, s {s}: "
    given_case(w + "all numbers the greatest", numbers(**{name: 2 ** 32 - 1 for name in NAMES}, ends=2 ** 64 - 1), [[]], [(1, 0)], (1, 0))
    # the order
    given_case(w + "a bad table before all else", numbers(t=(3, s, 5, t[3]), h=2 ** 32 - 1, length=0, place=3), [[]], [(1, 0)], (1, 0))
    given_case(w + "5 before 11 and bounds", numbers(h=LIMIT + 1, length=65, place=3), [[]], [(5, LIMIT + 1)], (5, LIMIT + 1))
    given_case(w + "11, length 0, before bounds", numbers(length=0, place=3), [[]], [(11, 0)], (11, 0))
    given_case(w + "11, length 65", numbers(length=65), [[]], [(11, 0)], (11, 0))
    given_case(w + "11, the greatest length", numbers(length=2 ** 32 - 1), [[]], [(11, 0)], (11, 0))
    given_case(w + "bounds before an earlier 6", numbers(bad=1, place=3), [[]], [(1, 0)], (1, 0))
    given_case(w + "bounds before 5 and 14", numbers(rows=5000), [([0] * 99, 0)], [(1, 0)], (1, 0))
    given_case(w + "an earlier 6 before 5 and 14", numbers(bad=1, first=7, count=7), [([0] * 99, 0), ([0], 0)], [(6, 7)] * 2, (6, 7))
    given_case(w + "5 before 14", numbers(), [([0] * 11, 0), ([0] * 10, 10 * per - 1)], [(5, h), (14, 10 * per)], (6, half))
    given_case(w + "finishing believes the numbers", numbers(read=h, first=3, count=3, past=1, n=3), [[], [0]], [None, (5, h)], None)
    given_case(w + "what stands past the length is not looked at", dict(searcher(t, h, h, list(b"aa"), packed(k, [0] * half)), pattern=[97] * 64),
               [packed(k, [0] * half)], [None], None)
    # byte 10 among the characters of its pattern, and past them
    eleven, coming = (11, 0), [[], packed(k, [0] * half)]
    for length in (1, 2, 3, 33, 63, 64):
        name = w + f"byte 10 of a searcher's {length}, "
        for place in sorted({0, length // 2, length - 1}):
            holding = [10 if i == place else 97 for i in range(64)]
            given_case(name + f"at {place}: 11", numbers(pattern=holding, length=length, ends=0), coming, [eleven] * 2, eleven)
        for place in sorted({length, 63}) if length < 64 else ():
            holding = [10 if i == place else 97 for i in range(64)]
            given_case(name + f"past them at {place}", dict(searcher(t, h, h, [97] * length, packed(k, [0] * half)), pattern=holding), coming, [None] * 2, None)
        if length < 64:
            holding = [97] * length + [10] * (64 - length)
            given_case(name + "past them everywhere", dict(searcher(t, h, h, [97] * length, packed(k, [0] * half)), pattern=holding), coming, [None] * 2, None)
    ten = dict(pattern=[97, 10, 99] + [0] * 61)
    given_case(w + "byte 10 of a searcher: 1 of its table before 11", numbers(**ten, t=(3, s, 5, t[3])), [[]], [(1, 0)], (1, 0))
    given_case(w + "byte 10 of a searcher: 1 of its table before 5 and 11", numbers(**ten, t=(k, 0, 5, t[3]), h=LIMIT + 1), [[]], [(1, 0)], (1, 0))
    given_case(w + "byte 10 of a searcher: 5 before 11", numbers(**ten, h=LIMIT + 1), [[]], [(5, LIMIT + 1)], (5, LIMIT + 1))
    given_case(w + "byte 10 of a searcher: 5 before 11, the greatest h", numbers(**ten, h=2 ** 32 - 1), [[]], [(5, 2 ** 32 - 1)], (5, 2 ** 32 - 1))
    for name in NAMES:
        given_case(w + f"byte 10 of a searcher: 11 before {name} the greatest", numbers(**ten, **{name: 2 ** 32 - 1}), [[]], [eleven], eleven)
    given_case(w + "byte 10 of a searcher: 11 before ends by length 3", numbers(**ten, ends=4), [[]], [eleven], eleven)
    given_case(w + "byte 10 of a searcher: 11 before an earlier 6", numbers(**ten, bad=1), [[]], [eleven], eleven)
    given_case(w + "byte 10 of a searcher: 11 before 5 and 14", numbers(**ten), [([0] * 99, 0), ([0], 0)], [eleven] * 2, eleven)
    given_case(w + "byte 10 of a searcher: 11 before 7 and 8", numbers(**ten, read=h, first=h, count=h, n=1, stained=1), [[]], [eleven], eleven)
    given_case(w + "byte 10 in all 64 places, length 0: 11", numbers(pattern=[10] * 64, length=0), [[]], [eleven], eleven)
    given_case(w + "byte 10 in all 64 places, length 65: 11", numbers(pattern=[10] * 64, length=65), [[]], [eleven], eleven)
    given_case(w + "byte 13 in all places", searcher(table(k, s, [13]), h, h, [13] * 64, packed(k, [0] * half)), coming, [None] * 2, None)
write("vectors_radio")

# rolls as frames

def fields(k, s, sigma, n, h, characters):
    """A first line by its fields, whatever they are."""
    return line_of([1, k, s, *sigma.to_bytes(2, "big"), *n.to_bytes(4, "big"), *h.to_bytes(4, "big"), *characters])


def number_of(text, i):
    """The number of the line in which place i is."""
    return text[:i].count(10)


def sound_row(k, s, sigma, h):
    """h symbols that are codewords of ranks below sigma, of many kinds: how many codewords, and the symbols."""
    words, row, n = codewords(k, s)[:sigma], [], 0
    while len(row) < h:
        word = words[(n * n + 3 * n + n // 7) % sigma]
        row += word if len(row) + len(word) <= h else words[n % min(s, sigma)]
        n += 1
    return n, row


def named(words, edits):
    """These words stand before the first of them."""
    edits = list(edits)
    return [edits[0][:4] + (words,)] + edits[1:]


def towards(text, wanted, expect, words):
    """The shortest edit that makes one text of another."""
    start = next((i for i, (a, b) in enumerate(zip(text, wanted)) if a != b), min(len(text), len(wanted)))
    same = 0
    while same < min(len(text), len(wanted)) - start and text[-same - 1] == wanted[-same - 1]:
        same += 1
    return instead(start, len(text) - same, wanted[start:len(wanted) - same], expect, words)


# the paper's P2 and P5, and the empty roll
P2 = frame_text(ABRA, 11, 13, BYTES)
P5 = frame_text(BANANA, 6, 6, [0x20, 0x10, 0x10])
assert bytes(P2) == b"01020300050000000b0000000d6162726364\n0218c34600\n"
assert bytes(P5) == b"01040300030000000600000006616e62\n02201010\n"
for name, t, n, h, buf in (("P2", ABRA, 11, 13, BYTES), ("P5", BANANA, 6, 6, [0x20, 0x10, 0x10])):
    text = frame_text(t, n, h, buf)
    many = len(text)
    out, other = [0xEE] * many, [0xFF] * len(buf)
    write_case(f"{name}: written and read", t, n, h, buf, out, other, None, None)
    write_case(f"{name}: bytes behind it in its buffer are not written, and in the other one stay", t, n, h, buf + [0xAA] * 3, out, other + [0xFF] * 40,
               None, None)
    for more in (1, 2, 67):
        write_case(f"{name}: bytes behind it in the output stay, here {more}: a line too many", t, n, h, buf, out + [0xEE] * more, other, None, (15, 2))
    write_case(f"{name}: 13, one byte too few", t, n, h, buf, out[1:], other, (13, many), (15, 0))
    write_case(f"{name}: 13, no output", t, n, h, buf, [], other, (13, many), (15, 0))
    write_case(f"{name}: 13, all is there but the last byte 10", t, n, h, buf, text[:-1], other, (13, many), (15, 1))
    for less in range(1, len(buf) + 1):
        write_case(f"{name}: read into a buffer with {less} bytes too few", t, n, h, buf, out, other[less:], None, (5, h))
    write_case(f"{name}: places past sigma are not written", t[:3] + (t[3][:t[2]] + [7] * (256 - t[2]),), n, h, buf, out, other, None, None)
write_case("P12: the empty roll", ABRA, 0, 0, [], [0xEE] * 37, [], None, None)
write_case("P12: the empty roll, whatever lies in the buffers", ABRA, 0, 0, [0xFF] * 2, [0xEE] * 37, [0xFF] * 2, None, None)
write_case("P12: 13", ABRA, 0, 0, [], [0xEE] * 36, [], (13, 37), (15, 0))
write_case("no character and no symbol", table(4, 1, []), 0, 0, [], [0xEE] * 27, [9], None, None)
write_case("no character and no symbol, a place past sigma", table(2, 3, b"a", 0), 0, 0, [], [0xEE] * 27, [9], None, None)

# written: check's refusals, then 13
for k, s in ((2, 3), (4, 14)):
    t, per, good = table(k, s, LETTERS), 8 // k, [0] * 5
    for out in ([0xEE] * 200, []):
        w = f"width {k}: " + ("" if out else "no output, ")

        def refused_case(words, t, n, h, buf, expect):
            write_case(w + words, t, n, h, buf, out, [0xFF], expect, (15, 0))

        for bad in (0, 1, 3, 6, 8, 255):
            refused_case(f"1, k {bad}", (bad, *t[1:]), 5, 5, good, (1, 0))
        for bad in (0, 2 ** k, 255):
            refused_case(f"1, s {bad}", (k, bad, *t[2:]), 5, 5, good, (1, 0))
        refused_case("1, sigma 257", (k, s, 257, ALL), 5, 5, good, (1, 0))
        refused_case("1, sigma 65535", (k, s, 65535, ALL), 5, 5, good, (1, 0))
        refused_case("1, a character twice", (k, s, 4, [7, 8, 9, 7] + [0] * 252), 5, 5, good, (1, 0))
        refused_case("1 before 5", (3, *t[1:]), 5, 99, good, (1, 0))
        refused_case("5, one symbol too many", t, 5 * per + 1, 5 * per + 1, good, (5, 5 * per + 1))
        refused_case("5, the greatest h", t, 5, 2 ** 32 - 1, good, (5, 2 ** 32 - 1))
        refused_case("6, an open codeword", t, 5, per, packed(k, [0] * (per - 1) + [s]), (6, per - 1))
        refused_case("6 before 7 and 8", t, 99, per + 1, packed(k, [0] * per + [s] * per), (6, per))
        refused_case("7, n one too few", t, per - 1, per, good, (7, per))
        refused_case("7 before 8", t, per + 2, per + 1, packed(k, [0] * (2 * per - 1) + [1]), (7, per + 1))
        refused_case("8", t, per + 1, per + 1, packed(k, [0] * (2 * per - 1) + [1]), (8, 0))

# packed bytes that nearly fill frames, fill them and go over; the last byte full, or with unused symbols
for k, s, sigma, most in ((2, 3, 5, 96), (2, 1, 20, 33), (4, 15, 20, 65), (4, 3, 20, 33)):
    t, per = table(k, s, LETTERS, sigma), 8 // k
    for used in (1, 31, 32, 33, 63, 64, 65, 96):
        for unused in (0, per - 1) if used <= most else ():
            h = used * per - unused
            n, row = sound_row(k, s, sigma, h)
            buf = packed(k, row)
            many = len(frame_text(t, n, h, buf))
            assert len(buf) == used and many == 27 + 2 * sigma + 2 * used + 3 * -(-used // 32)
            w = f"width {k}, s {s}: {used} packed bytes, {unused} unused symbols"
            write_case(w, t, n, h, buf, [0xEE] * many, [0xFF] * (used + 1), None, None)
            if used in (32, 33) and unused:
                write_case(w + ", 13", t, n, h, buf, [0xEE] * (many - 1), [], (13, many), (15, 0))

# every character, the longest codewords among them
for k in (2, 4):
    t, text = table(k, 2 ** k - 1, ALL), [255, 0, 254, 128, 255]
    _, n, h, buf = pack(t, text, [0] * 500)
    buf = buf[:-(-h * k // 8)]
    write_case(f"width {k}: 256 characters", t, n, h, buf, [0xEE] * len(frame_text(t, n, h, buf)), [0xFF] * len(buf), None, None)

# the longest rolls
for k in (2, 4):
    t, used = table(k, 3, b"abc"), LIMIT * k // 8
    # bytes whose digits go on from the 2 of 02: a line has three runs
    buf, many = [1] + [0x22] * (used - 2) + [2], 33 + 67 * (used // 32)
    write_case(f"width {k}: 1,048,576 symbols", t, LIMIT, LIMIT, buf, [0xEE] * many, [0xFF] * used, None, None)
    write_case(f"width {k}: 1,048,576 symbols, 13", t, LIMIT, LIMIT, buf, [0xEE] * (many - 1), [], (13, many), (15, 0))
    write_case(f"width {k}: 1,048,577 symbols, 5", t, LIMIT + 1, LIMIT + 1, [0] * (used + 1), [0xEE] * (many + 5), [], (5, LIMIT + 1), (15, 0))
for h in (65535, 65536, 65537):
    buf = packed(2, ([0, 2] * h)[:h])
    many = 33 + 2 * len(buf) + 3 * -(-len(buf) // 32)
    write_case(f"width 2: {h:,} symbols", table(2, 3, b"abc"), h, h, buf, [0xEE] * many, [0xFF] * len(buf), None, None)
used = LIMIT // 4 + 1
text = frame_text(table(2, 3, b"abc"), LIMIT + 1, LIMIT + 1, [0x22] * (used - 1) + [0])
end, last = len(text), 1 + used // 32
frames_case("width 2: 1,048,577 symbols, and all their bytes came", [0xFF] * (used + 55), text, (5, LIMIT + 1), [
    instead(end - 5, end, [], (15, last), "the last line missing"), instead(end - 1, end, [], (15, last), "its byte 10 missing"),
    instead(end, end, [10], (15, last + 1), "a byte 10 more"), instead(4, 6, b"04", (1, 0), "1 before 5"),
    instead(18, 26, b"00100000", (15, last), "h 1,048,576: a line too many"), instead(18, 26, b"00100005", (15, last), "h 1,048,581: a byte too few"),
    instead(18, 26, b"00010001", (15, 513), "h 65,537: a frame too long")])

# one byte another, at every place
DIGITS = list(b"0123456789abcdef")
OTHERS = [10, 13, 32, 65, 70, 103, 71, 0, 47, 58, 64, 96, 255]  # no digits: byte 10, byte 13, blank, A, F, g, and more
EACH = [b"%02x" % b for b in range(256)]


def another(text, bytes_, expect):
    """At every place each of these bytes but the one that stands there; what should be answered, by place and byte."""
    return [instead(i, i + 1, [b], expect(i, b)) for i, old in enumerate(text) for b in bytes_ if b != old]


for name, text, lent, others in (("P2", P2, [0xFF] * 6, OTHERS), ("P5", P5, [0xFF] * 3, OTHERS[:6])):
    def line_wrong(i, b=0):
        return 15, number_of(text, i)

    places, last = range(len(text)), len(text) - 3
    frames_case(f"{name}: another digit at every place", lent, text, None, another(text, DIGITS, lambda i, b: line_wrong(i) if text[i] == 10 else ...))
    frames_case(f"{name}: a byte that is no digit at every place", lent, text, None, another(text, others, line_wrong))
    frames_case(f"{name} in other ways", lent, text, None, [
        *named("every byte left out", (instead(i, i + 1, [], line_wrong(i)) for i in places)),
        *named("every byte twice", (instead(i, i, text[i:i + 1], (15, number_of(text, i + 1))) for i in places)),
        *named("a blank before every byte, and at the end", (instead(i, i, [32], line_wrong(i)) for i in range(len(text) + 1))),
        *named("cut off at every place", (instead(i, len(text), [], line_wrong(i)) for i in places)),
        *named("begun at every place", (instead(0, i + 1, [], (15, 0)) for i in places)),
        *named("every byte value as the last digit of the last packed byte but one",
               (instead(last - 1, last, [b], ... if b in DIGITS else line_wrong(last)) for b in ALL)),
        *named("a letter as a capital", (instead(i, i + 1, [c - 32], line_wrong(i)) for i, c in enumerate(text) if c >= 97)),
        instead(0, len(text), bytes(text).upper(), (15, 0), "all letters as capitals")])
frames_case("the empty text", [0xFF] * 2, [], (15, 0), named("and others that are hardly any", (
    instead(0, 0, row, (15, 0)) for row in (
        b"\n", b"\n\n", b"0", b"01", b"01\n", b"02\n", b"0\n", b"1\n", b"01\n02\n", b"0200\n", b"\0", b"\r\n", b" \n", b"\xff" * 40))))

# a text of four lines: 32, 32 and 7 packed bytes
for k, s, sigma in ((2, 3, 5), (4, 14, 20)):
    t, per = table(k, s, LETTERS, sigma), 8 // k
    h = 71 * per - 1
    n, row = sound_row(k, s, sigma, h)
    buf = packed(k, row)
    text = frame_text(t, n, h, buf)
    lines, end = lines_of(text), len(text)
    at = [sum(len(line) for line in lines[:i]) for i in range(5)]
    assert [len(line) for line in lines] == [27 + 2 * sigma, 67, 67, 17] and at[4] == end
    w, lent = f"width {k}, four lines", [0xFF] * 73
    stained = end - 3, end - 1, b"%02x" % (buf[-1] + 1)
    frames_case(w, lent, text, None, [
        *named("a line dropped", (instead(at[i], at[i + 1], [], (15, r)) for i, r in enumerate((0, 2, 2, 3)))),
        *named("a line doubled", (instead(at[i], at[i], lines[i], (15, r)) for i, r in enumerate((1, 3, 3, 4)))),
        instead(at[0], at[2], lines[1] + lines[0], (15, 0), "lines 0 and 1 exchanged"),
        instead(at[1], at[3], lines[2] + lines[1], ..., "1 and 2, both full"),
        instead(at[2], at[4], lines[3] + lines[2], (15, 2), "2 and 3"),
        *named("the first line behind each", (instead(at[i], at[i], lines[0], (15, i)) for i in (1, 2, 3, 4))),
        *named("a line that ends otherwise", (instead(at[i + 1] - 1, at[i + 1], ending, (15, i + ending.startswith(b"\n"))) for i in range(4) for ending in (
            b"", b"\r\n", b" \n", b"\n\n", b"0\n", b"00\n", b"\n0", b"\n ", b"\n\0", b"\r", b"\0"))),
        *named("a line with one digit too few, and with two", (instead(at[i + 1] - 1 - less, at[i + 1] - 1, [], (15, i)) for i in range(4) for less in (1, 2))),
        *named("a line that begins otherwise", (instead(at[i], at[i] + 2, b, (15, i)) for i in range(4) for b in (
            b"01" if i else b"02", b"00", b"03", b"12", b"11", b"20", b"10", b"82", b"81", b"ff", b"2", b"1", b"", b" 02", b" 01", b"0x", b"0X", b"+2"))),
        *named("a line empty, and with its first byte alone", (
            instead(at[i], at[i + 1], row, (15, i)) for i in range(4) for row in (b"\n", b"02\n" if i else b"01\n"))),
        *named("an empty line before each, and at the end", (instead(at[i], at[i], b"\n", (15, i)) for i in range(5))),
        *named("a line 02 before each, and at the end", (instead(at[i], at[i], b"02\n", (15, i)) for i in range(5))),
        *named("one byte behind the end", (instead(end, end, [b], (15, 4)) for b in (10, 13, 32, 48, 97, 65, 0, 255))),
        *named("a line behind the end", (instead(end, end, row, (15, 4)) for row in (b"0200\n", b"00\n", b"0200", lines[1], lines[3])))])
    shapes = []
    for shape, r in (((31, 32, 8), 1), ((31, 33, 7), 1), ((33, 31, 7), 1), ((33, 32, 6), 1), ((32, 31, 8), 2), ((32, 33, 6), 2), ((32, 32, 6), 3),
                     ((32, 32, 8), 3), ((32, 32, 6, 1), 3), ((32, 32, 3, 4), 3), ((32, 16, 16, 7), 2), ((1, 31, 32, 7), 1), ((64, 7), 1), ((32, 39), 2),
                     ((71,), 1), ((32, 7, 32), 2), ((32, 32, 32), 3)):
        starts = [sum(shape[:i]) for i in range(len(shape) + 1)]
        wanted = lines[0] + [c for i, j in zip(starts, starts[1:]) for c in line_of([2] + (buf + [0] * 32)[i:j])]
        shapes.append(towards(text, wanted, (15, r), ", ".join(str(many) for many in shape)))
    frames_case(w + ": the packed bytes otherwise on lines", lent, text, None, shapes)
    # what check asks of the bytes that came
    frames_case(w + ": n, unused symbols, codewords", lent, text, None, [
        *named("7, n another", (instead(10, 18, b"%08x" % x, (7, n)) for x in (n - 1, n + 1, 0, n + 256, n + 65536, n + 2 ** 24, 2 ** 32 - 1))),
        *named("8, unused symbols not 0", (instead(end - 3, end - 1, b"%02x" % (buf[-1] + x), (8, 0)) for x in range(1, 2 ** k))),
        *named("a packed byte of continuers", (
            instead(at[i] + 2 + 2 * j, at[i] + 4 + 2 * j, b"ff") for i, most in ((1, 32), (2, 32), (3, 7)) for j in (0, 1, most - 2, most - 1))),
        *named("s another", (instead(4, 6, b"%02x" % x, ... if 1 <= x < 2 ** k else (1, 0)) for x in (0, 1, 2, 3, 4, 15, 16, 255)))])
    frames_case(w + ", n one too many", lent, text[:10] + list(b"%08x" % (n + 1)) + text[18:], (7, n), [
        instead(*stained, (7, n), "7 before 8"), instead(end, end, b"\n", (15, 4), "15 before 7"), instead(4, 6, b"00", (1, 0), "1 before 7")])
    frames_case(w + ", into a buffer one byte too short", lent[:70], text, (5, h), [
        instead(4, 6, b"00", (1, 0), "s: 1 before 5"), instead(28, 30, text[26:28], (1, 0), "a character twice: 1 before 5"),
        instead(10, 18, b"%08x" % (n + 1), (5, h), "5 before 7"),
        instead(*stained, (5, h), "5 before 8"), instead(end - 1, end, b"", (15, 3), "15 before 5"), instead(2, 4, b"03", (1, 0), "k 3")])
    for first in (0, 32 * per - 1, 32 * per, 64 * per - 1, 64 * per, h - 2, h - 1):
        # one codeword of rank sigma or more, or open at the end; all others of rank 0
        word = (list(codewords(k, s)[sigma]) + [0] * h)[:h - first]
        damaged = frame_text(t, h, h, packed(k, [0] * first + word))
        frames_case(w + f": 6 at {first}", lent, damaged, (6, first), [
            instead(10, 18, b"00000000", (6, first), "6 before 7"), instead(end, end, b"\n", (15, 4), "15 before 6"),
            instead(4, 6, b"00", (1, 0), "1 before 6")])
    frames_case(w + ": 5 before 6", lent[:70], damaged, (5, h))
    frames_case(w + ": into a buffer of as many bytes", lent[:71], text, None)

# a codeword over the border of two frames
for k, s, sigma in ((2, 3, 20), (4, 3, 20)):
    per, word = 8 // k, list(codewords(k, s)[sigma - 1])
    t = table(k, s, LETTERS)
    for first in range(32 * per - len(word) + 1, 32 * per):
        n, h, buf = first + 2, first + len(word) + 1, packed(k, [0] * first + word + [0])
        out = [0xEE] * len(frame_text(t, n, h, buf))
        write_case(f"width {k}: a codeword from symbol {first} on, over a border", t, n, h, buf, out, [0xFF] * len(buf), None, None)

# k: every value, and before it the first line
FEW = (b"00", b"01", b"03", b"05", b"06", b"08", b"12", b"20", b"ff")
frames_case("P2: every k", [0xFF] * 8, P2, None, (instead(2, 4, k, {2: None, 4: (15, 1)}.get(int(k, 16), (1, 0))) for k in EACH))
frames_case("P5: k", [0xFF] * 8, P5, None, (instead(2, 4, k, {2: (15, 1), 4: None}.get(int(k, 16), (1, 0))) for k in EACH[:20]))
first_case("P2's first line: every k", P2[:37], None, (instead(2, 4, k, None if int(k, 16) in (2, 4) else (1, 0)) for k in EACH))
for words, wrong, r in (("its second line short", P2[:37] + list(b"0218c346\n"), 1), ("its second line in capitals", P2[:37] + list(b"0218C34600\n"), 1),
                        ("a line too many", P2 + [10], 2), ("its last byte 10 missing", P2[:-1], 1), ("its second line missing", P2[:37], 1),
                        ("s 0", P2[:5] + [48] + P2[6:], None)):
    frames_case(f"P2, {words}: k", [], wrong, (15, r) if r else (1, 0), (instead(2, 4, k, (1, 0)) for k in FEW))
for words, wrong in (("sigma 6", P2[:9] + [54] + P2[10:]), ("a capital", P2[:35] + [65] + P2[36:]), ("byte 13", P2[:36] + [13] + P2[36:]),
                     ("odd", P2[:35] + P2[36:]), ("no byte 10", P2[:36]), ("02 for 01", [48, 50] + P2[2:])):
    frames_case(f"P2, its first line wrong, {words}: k", [0xFF] * 4, wrong, (15, 0), (instead(2, 4, k, (15, 0)) for k in FEW))
    first_case(f"P2's first line wrong, {words}: k", lines_of(wrong)[0], (15, 0), (instead(2, 4, k, (15, 0)) for k in FEW))

# s, the characters, sigma, h, the buffer
for name, text, k, h in (("P2", P2, 2, 13), ("P5", P5, 4, 6)):
    end = text.index(10)
    sigma, lent = (end - 26) // 2, [0xFF] * 8
    frames_case(f"{name}: its record", lent, text, None, [
        *named("s another", (instead(4, 6, b"%02x" % s, ... if 1 <= s < 2 ** k else (1, 0)) for s in (*range(20), 34, 64, 128, 130, 254, 255))),
        *named("a character twice", (
            instead(26 + 2 * i, 28 + 2 * i, text[26 + 2 * j:28 + 2 * j], (1, 0)) for i in range(sigma) for j in range(sigma) if i != j)),
        *named("sigma another, the characters as they are", (
            instead(6, 10, b"%04x" % x, (15, 0)) for x in (*range(9), 255, 256, 256 + sigma, 512, 65535) if x != sigma)),
        *named("sigma another, and as many characters", (
            instead(6, end, b"%04x" % x + bytes(text[10:26]) + bytes(ALL[97:97 + x]).hex().encode()) for x in (0, 1, 2, 3, 4, 20))),
        *named("h another", (instead(18, 26, b"%08x" % x) for x in (
            *range(h + 8), 2 ** 8 + h, 2 ** 16 + h, 2 ** 24 + h, 2 ** 29, 2 ** 29 + h, 2 ** 30, 2 ** 30 + h, 2 ** 31, 2 ** 31 + h, 2 ** 32 - 1)))])
    frames_case(f"{name}: a line too many", lent, text + [10], (15, 2), [
        *named("15 before 1 for s", (instead(4, 6, b"%02x" % s, (15, 2)) for s in (0, 2 ** k, 255))),
        instead(28, 30, text[26:28], (15, 2), "15 before 1 for a character twice")])
    frames_case(f"{name}: its first line alone", lent, text[:end + 1], (15, 1), named("h another", (
        instead(18, 26, b"%08x" % x, (15, 1) if x else (7, 0)) for x in (
            0, 1, LIMIT, LIMIT + 1, 2 ** 24, 2 ** 28, 2 ** 29, 2 ** 30, 2 ** 30 + 1, 2 ** 31, 2 ** 31 + 1, 2 ** 32 - 1))))
    for many in range(6):
        frames_case(f"{name}: into {many} bytes", [0xFF] * many, text, None if many * 8 // k >= h else (5, h))
for k, sigma in ((2, 0), (2, 1), (2, 256), (2, 257), (4, 0), (4, 256), (4, 300)):
    line = fields(k, 2, sigma, 0, 0, (ALL + ALL)[:sigma])
    good = sigma <= 256
    frames_case(f"width {k}: sigma {sigma} and no symbol", [7], line, None if good else (1, 0), [
        instead(len(line), len(line), b"\n", (15, 1), "a line too many"), instead(0, 1, b"1", (15, 0), "its first digit 1"),
        instead(4, 6, b"00", (1, 0), "s 0"),
        instead(10, 18, b"00000001", (7, 0) if good else (1, 0), "n 1"), instead(18, 26, b"00000001", (15, 1), "h 1, and no line"),
        instead(2, 4, b"03", (1, 0), "k 3"),
        instead(6, 10, b"%04x" % (sigma ^ 256), (15, 0), "sigma 256 more or less"), instead(len(line) - 1, len(line), b"00\n", (15, 0), "a character more"),
        *[instead(26 + 2 * i, 28 + 2 * i, b"%02x" % j, (1, 0), f"character {j} at {i} too")
          for i, j in ((0, 255), (255, 0), (0, 1), (127, 128), (255, 254)) if sigma == 256]])
for k, sigma in ((2, 0), (2, 256), (2, 300), (4, 257)):
    first_case(f"width {k}, a first line: sigma {sigma}", fields(k, 2, sigma, 0, 0, (ALL + ALL)[:sigma]), None)
line = fields(2, 2, 65535, 0, 0, [0] * 65535)
first_case("a first line: sigma 65,535", line, None, [
    instead(6, 10, b"fffe", (15, 0), "sigma one fewer"), instead(28, 30, b"", (15, 0), "a character fewer"),
    instead(536, 538, b"7f", None, "character 255 another"), instead(538, 540, b"7f", None, "character 256 another")])
frames_case("sigma 65,535", [7], line, (1, 0), [instead(6, 10, b"fffe", (15, 0), "sigma one fewer"), instead(18, 26, b"00000001", (15, 1), "h 1, and no line")])
for k in (2, 4):
    frames_case(f"width {k}: sigma 0 and a symbol", [7], fields(k, 2, 0, 1, 1, []) + line_of([2, 0]), (6, 0))

# a first line alone: of what it says only k is asked
line = P2[:37]
first_case("P2's first line", line, None, [
    instead(37, 37, P2[37:], (15, 0), "the second behind it"), instead(37, 37, b"\n", (15, 0), "a byte 10 more"),
    instead(0, 0, b"\n", (15, 0), "a byte 10 before it"),
    instead(0, 37, P2[37:], (15, 0), "the second"), instead(0, 37, b"", (15, 0), "nothing"), instead(0, 37, b"\n", (15, 0), "a byte 10"),
    instead(36, 37, b"", (15, 0), "no byte 10"),
    instead(36, 37, b"\r\n", (15, 0), "byte 13 before its byte 10"), instead(36, 37, b"00\n", (15, 0), "a character more"),
    instead(34, 36, b"", (15, 0), "a character fewer"),
    instead(4, 6, b"00", None, "s 0"), instead(4, 6, b"ff", None, "s 255"), instead(10, 26, b"f" * 16, None, "n and h the greatest"),
    instead(10, 26, DIGITS, None, "n and h of all digits"),
    instead(18, 26, b"00100001", None, "h over the limit"), instead(28, 30, b"61", None, "a character twice"),
    instead(6, 36, b"0000" + bytes(line[10:26]), None, "no characters"),
    instead(6, 36, b"0000", (15, 0), "sigma 0, and nothing behind it"), instead(24, 36, b"", (15, 0), "12 bytes"),
    instead(6, 36, b"0000" + bytes(line[10:24]), (15, 0), "sigma 0, and 12 bytes")])
first_case("P2's first line: another digit at every place", line, None, another(
    line, DIGITS, lambda i, b: (15, 0) if i < 2 or 6 <= i < 10 or i == 36 else (1, 0) if i == 2 or i == 3 and b != 52 else None))
first_case("P2's first line: a byte that is no digit at every place", line, None, another(line, OTHERS, lambda i, b: (15, 0)))
first_case("P2's first line: cut off at every place, with its byte 10 and without", line, None,
           (instead(i, stop, [], (15, 0)) for i in range(36) for stop in (36, 37)))
first_case("P5's first line: another first byte", P5[:33], None,
           (instead(0, 2, b, None if b == b"01" else (15, 0)) for b in (*EACH[:5], b"11", b"21", b"81", b"f1", b"ff")))

# a later line alone
line = P2[37:]
frame_case("P2's second line", [0xEE] * 6, line, None, [
    instead(0, 11, P2[:37], (15, 0), "the first"), instead(0, 11, b"", (15, 0), "nothing"), instead(0, 11, b"\n", (15, 0), "a byte 10"),
    instead(0, 0, P2[:37], (15, 0), "the first before it"),
    instead(10, 11, b"", (15, 0), "no byte 10"), instead(10, 11, b"\n\n", (15, 0), "a byte 10 more"),
    instead(10, 11, b"\r\n", (15, 0), "byte 13 before its byte 10"),
    instead(11, 11, line, (15, 0), "twice"), instead(2, 10, b"", (15, 0), "no packed byte"), instead(10, 10, b"0", (15, 0), "odd"),
    instead(0, 2, b"01", (15, 0), "01 for 02"),
    instead(4, 10, b"", None, "one packed byte"), instead(4, 4, b"ffff", None, "six"), instead(4, 4, b"ffffff", (13, 7), "seven")])
frame_case("P2's second line: another digit at every place", [0xEE] * 5, line, None, another(line, DIGITS, lambda i, b: (15, 0) if i < 2 or i == 10 else None))
frame_case("P2's second line: a byte that is no digit at every place", [0xEE] * 5, line, None, another(line, OTHERS, lambda i, b: (15, 0)))
frame_case("P2's second line: cut off at every place, with its byte 10", [0xEE] * 5, line, None,
           (instead(i, 10, [], None if i in (4, 6, 8) else (15, 0)) for i in range(10)))
frame_case("one packed byte", [0xEE] * 2, b"0277\n", None, [
    *named("every first byte", (instead(0, 2, b, None if b == b"02" else (15, 0)) for b in EACH)),
    *named("every packed byte", (instead(2, 4, b, None) for b in EACH)),
    *named("every byte value as its first digit", (instead(2, 3, [b], None if b in DIGITS else (15, 0)) for b in ALL)),
    *named("every byte value as its second digit", (instead(3, 4, [b], None if b in DIGITS else (15, 0)) for b in ALL))])
for many, rooms in ((0, (0, 1)), (1, (0, 1, 2)), (2, (1, 2)), (31, (30, 31, 32)), (32, (0, 31, 32, 33, 40)), (33, (32, 33, 40)), (34, (32, 40)),
                    (64, (64,)), (255, (256,)), (256, (256,))):
    for lent in rooms:
        r = (15, 0) if not 1 <= many <= 32 else (13, many) if lent < many else None
        frame_case(f"{many} packed bytes, {lent} lent", [0xEE] * lent, line_of([2] + [(i * 37 + many) % 256 if many < 64 else 0 for i in range(many)]), r)
frame_case("15 before 13", [], b"02AA\n", (15, 0), [
    instead(2, 4, b"aa", (13, 1)), instead(0, 2, b"01", (15, 0)), instead(4, 5, b"", (15, 0)), instead(2, 4, b"", (15, 0))])
write("vectors_frames", 2)
