/* Base64 (RFC 4648, section 4) of standard input, and with the word `-d` its inverse, which skips white space and ends with 1 at anything else.
   clang -O2 makes instructions of it that the subset does not have. */
#include "../../src/guest.h"

static const char digits[] = "ABCDEFGHIJKLMNOPQRSTUVWXYZabcdefghijklmnopqrstuvwxyz0123456789+/";
static byte bytes[3 * 4096];

static void put_group(const byte *at, word length) {
    word group = (word)at[0] << 16 | (length > 1 ? (word)at[1] << 8 : 0) | (length > 2 ? at[2] : 0);
    put_byte((byte)digits[group >> 18]);
    put_byte((byte)digits[group >> 12 & 63]);
    put_byte(length > 1 ? (byte)digits[group >> 6 & 63] : '=');
    put_byte(length > 2 ? (byte)digits[group & 63] : '=');
}

static int encode(void) {
    word column = 0, length;
    while ((length = read_all(bytes, sizeof bytes)) > 0) {
        for (word at = 0; at < length; at += 3) {
            put_group(bytes + at, length - at);
            if ((column += 4) == 76) {
                put_byte('\n');
                column = 0;
            }
        }
    }
    if (column > 0)
        put_byte('\n');
    return 0;
}

static int is_space(byte value) {
    return value == ' ' || value == '\t' || value == '\n' || value == '\r';
}

static int value_of(byte digit) {
    for (int at = 0; at < 64; at++)
        if ((byte)digits[at] == digit)
            return at;
    return -1;
}

static int decode(void) {
    word group = 0, held = 0, length;
    while ((length = read_all(bytes, sizeof bytes)) > 0) {
        for (word at = 0; at < length; at++) {
            int value = value_of(bytes[at]);
            if (is_space(bytes[at]) || bytes[at] == '=')
                continue;
            if (value < 0)
                return 1;
            group = group << 6 | (word)value;
            held += 6;
            if (held >= 8) {
                held -= 8;
                put_byte((byte)(group >> held));
            }
        }
    }
    return 0;
}

int guest_main(int count, char **words) {
    return count > 1 && text_equal(words[1], "-d") ? decode() : encode();
}
