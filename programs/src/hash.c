/* SHA-256 (FIPS 180-4), CRC-32 (the reflected polynomial EDB88320) and FNV-1a (32 bits) of standard input. */
#include "guest.h"

static const word round_constants[64] = {
    0x428a2f98, 0x71374491, 0xb5c0fbcf, 0xe9b5dba5, 0x3956c25b, 0x59f111f1, 0x923f82a4, 0xab1c5ed5,
    0xd807aa98, 0x12835b01, 0x243185be, 0x550c7dc3, 0x72be5d74, 0x80deb1fe, 0x9bdc06a7, 0xc19bf174,
    0xe49b69c1, 0xefbe4786, 0x0fc19dc6, 0x240ca1cc, 0x2de92c6f, 0x4a7484aa, 0x5cb0a9dc, 0x76f988da,
    0x983e5152, 0xa831c66d, 0xb00327c8, 0xbf597fc7, 0xc6e00bf3, 0xd5a79147, 0x06ca6351, 0x14292967,
    0x27b70a85, 0x2e1b2138, 0x4d2c6dfc, 0x53380d13, 0x650a7354, 0x766a0abb, 0x81c2c92e, 0x92722c85,
    0xa2bfe8a1, 0xa81a664b, 0xc24b8b70, 0xc76c51a3, 0xd192e819, 0xd6990624, 0xf40e3585, 0x106aa070,
    0x19a4c116, 0x1e376c08, 0x2748774c, 0x34b0bcb5, 0x391c0cb3, 0x4ed8aa4a, 0x5b9cca4f, 0x682e6ff3,
    0x748f82ee, 0x78a5636f, 0x84c87814, 0x8cc70208, 0x90befffa, 0xa4506ceb, 0xbef9a3f7, 0xc67178f2,
};

static word turn(word value, int count) { return value >> count | value << (32 - count); }

static word big_endian(const byte *at) {
    return (word)at[0] << 24 | (word)at[1] << 16 | (word)at[2] << 8 | at[3];
}

static void sha_block(word state[8], const byte *block) {
    word schedule[64];
    for (int t = 0; t < 16; t++)
        schedule[t] = big_endian(block + 4 * t);
    for (int t = 16; t < 64; t++) {
        word x = schedule[t - 15], y = schedule[t - 2];
        word small_0 = turn(x, 7) ^ turn(x, 18) ^ x >> 3;
        word small_1 = turn(y, 17) ^ turn(y, 19) ^ y >> 10;
        schedule[t] = small_1 + schedule[t - 7] + small_0 + schedule[t - 16];
    }
    word a = state[0], b = state[1], c = state[2], d = state[3];
    word e = state[4], f = state[5], g = state[6], h = state[7];
    for (int t = 0; t < 64; t++) {
        word one = h + (turn(e, 6) ^ turn(e, 11) ^ turn(e, 25)) + ((e & f) ^ (~e & g)) + round_constants[t] + schedule[t];
        word two = (turn(a, 2) ^ turn(a, 13) ^ turn(a, 22)) + ((a & b) ^ (a & c) ^ (b & c));
        h = g, g = f, f = e, e = d + one, d = c, c = b, b = a, a = one + two;
    }
    state[0] += a, state[1] += b, state[2] += c, state[3] += d;
    state[4] += e, state[5] += f, state[6] += g, state[7] += h;
}

static word crc_table[256];

static void make_crc_table(void) {
    for (word n = 0; n < 256; n++) {
        word value = n;
        for (int k = 0; k < 8; k++)
            value = value & 1 ? value >> 1 ^ 0xedb88320u : value >> 1;
        crc_table[n] = value;
    }
}

static byte tail[128];

/* The last bytes, the bit 1, zeros, and the length in bits; one block or two. */
static void sha_end(word state[8], const byte *rest, word length, word total) {
    for (word k = 0; k < length; k++)
        tail[k] = rest[k];
    tail[length] = 0x80;
    word blocks = length < 56 ? 1 : 2;
    for (word k = 0; k < 4; k++)
        tail[64 * blocks - 4 + k] = (byte)(total << 3 >> (24 - 8 * k));
    tail[64 * blocks - 5] = (byte)(total >> 29);
    for (word k = 0; k < blocks; k++)
        sha_block(state, tail + 64 * k);
}

static byte piece[4096];

int guest_main(int count, char **words) {
    (void)count, (void)words;
    word state[8] = {0x6a09e667, 0xbb67ae85, 0x3c6ef372, 0xa54ff53a, 0x510e527f, 0x9b05688c, 0x1f83d9ab, 0x5be0cd19};
    word crc = 0xffffffffu, fnv = 0x811c9dc5u, total = 0, length;
    make_crc_table();
    do {
        length = read_all(piece, sizeof piece);
        total += length;
        for (word k = 0; k < length; k++) {
            crc = crc >> 8 ^ crc_table[(crc ^ piece[k]) & 255];
            fnv = (fnv ^ piece[k]) * 0x01000193u;
        }
        for (word k = 0; k + 64 <= length; k += 64)
            sha_block(state, piece + k);
    } while (length == sizeof piece);
    sha_end(state, piece + (length & ~63u), length & 63, total);
    put_text("sha256 ");
    for (int k = 0; k < 8; k++)
        put_hex(state[k]);
    put_text("\ncrc32 ");
    put_hex(~crc);
    put_text("\nfnv1a ");
    put_hex(fnv);
    put_byte('\n');
    return 0;
}
