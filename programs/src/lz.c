/* A compressor: a flag byte before each eight items, an item is a byte or a pair (distance 1 to 4095, length 3 to 18) in two bytes.
   `lz pack` and `lz unpack` go from standard input to standard output; `lz check` does both and tells the sizes. */
#include "guest.h"

enum { ROOM = 32768, HASHES = 1024, NONE = 0xffff, TRIES = 8 };

static byte plain[ROOM], packed[ROOM + ROOM / 8 + 16], again[ROOM];
static unsigned short newest[HASHES], earlier[ROOM];

static word hash_of(const byte *from) { return (from[0] * 33u * 33u + from[1] * 33u + from[2]) & (HASHES - 1); }

static void remember(word at, word length) {
    if (at + 3 > length)
        return;
    word hash = hash_of(plain + at);
    earlier[at] = newest[hash];
    newest[hash] = (unsigned short)at;
}

/* The longest match of at most TRIES earlier places; its length, or 0. */
static word longest(word at, word length, word *distance) {
    word best = 0;
    if (at + 3 > length)
        return 0;
    word from = newest[hash_of(plain + at)];
    for (int tries = TRIES; from != NONE && at - from < 4096 && tries; tries--) {
        word same = 0;
        while (same < 18 && at + same < length && plain[from + same] == plain[at + same])
            same++;
        if (same > best)
            best = same, *distance = at - from;
        from = earlier[from];
    }
    return best >= 3 ? best : 0;
}

static word pack(word length) {
    word to = 0, flag = 0;
    int bit = 8;
    for (int k = 0; k < HASHES; k++)
        newest[k] = NONE;
    for (word at = 0; at < length;) {
        if (bit == 8) {
            flag = to++;
            packed[flag] = 0;
            bit = 0;
        }
        word distance = 0, same = longest(at, length, &distance);
        if (same) {
            packed[flag] |= (byte)(1 << bit);
            packed[to++] = (byte)distance;
            packed[to++] = (byte)((distance >> 8) << 4 | (same - 3));
        } else {
            packed[to++] = plain[at];
            same = 1;
        }
        for (; same; same--)
            remember(at++, length);
        bit++;
    }
    return to;
}

/* Answers the length of what was packed, or -1 where the bytes are not of this form. */
static int unpack(const byte *from, word length, byte *to) {
    word made = 0, flag = 0;
    int bit = 8;
    for (word at = 0; at < length; bit++) {
        if (bit == 8) {
            flag = from[at++];
            bit = 0;
            if (at == length)
                return -1;
        }
        if (!(flag >> bit & 1)) {
            if (made == ROOM)
                return -1;
            to[made++] = from[at++];
            continue;
        }
        if (at + 1 >= length)
            return -1;
        word distance = from[at] | (word)(from[at + 1] >> 4) << 8, same = (from[at + 1] & 15u) + 3;
        at += 2;
        if (distance == 0 || distance > made || made + same > ROOM)
            return -1;
        for (; same; same--, made++)
            to[made] = to[made - distance];
    }
    return (int)made;
}

static int check(word length) {
    word size = pack(length);
    int back = unpack(packed, size, again);
    put_word(length);
    put_text(" to ");
    put_word(size);
    put_text(" and back to ");
    put_number(back);
    put_byte('\n');
    if (back != (int)length)
        return 1;
    for (word k = 0; k < length; k++)
        if (plain[k] != again[k])
            return 1;
    return 0;
}

int guest_main(int count, char **words) {
    const char *order = count > 1 ? words[1] : "";
    if (text_equal(order, "pack")) {
        word size = pack(read_all(plain, sizeof plain));
        write_all(1, packed, size);
        return 0;
    }
    if (text_equal(order, "check"))
        return check(read_all(plain, sizeof plain));
    if (!text_equal(order, "unpack"))
        return 2;
    int made = unpack(packed, read_all(packed, sizeof packed), again);
    if (made < 0) {
        write_all(2, "lz: damaged\n", 12);
        return 1;
    }
    write_all(1, again, (word)made);
    return 0;
}
