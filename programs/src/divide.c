/* Division: primes below the first word by trial, greatest common divisors, signed quotients and remainders, numbers in several bases,
   and quotients of 64 by 32 bits by the instruction itself. */
#include "guest.h"

/* The least divisor of n from 2 on, by one DIV a try. */
static word least_divisor(word n) {
    for (word d = 2; d <= n / d; d++)
        if (n % d == 0)
            return d;
    return n;
}

static word common(word a, word b) {
    while (b) {
        word rest = a % b;
        a = b;
        b = rest;
    }
    return a;
}

static void primes(word limit) {
    word count = 0, last = 0;
    for (word n = 2; n < limit; n++)
        if (least_divisor(n) == n)
            count++, last = n;
    put_text("primes ");
    put_word(count);
    put_text(" last ");
    put_word(last);
    put_byte('\n');
}

static void factors(word n) {
    put_word(n);
    put_text(" =");
    while (n > 1) {
        word d = least_divisor(n);
        put_byte(' ');
        put_word(d);
        n /= d;
    }
    put_byte('\n');
}

static void signs(int a, int b) {
    put_number(a);
    put_text(" by ");
    put_number(b);
    put_text(": ");
    put_number(a / b);
    put_text(" rest ");
    put_number(a % b);
    put_text(", by 7 ");
    put_number(a / 7);
    put_text(", by -16 ");
    put_number(a / -16);
    put_byte('\n');
}

static void in_base(word n, word base) {
    char digits[33];
    int count = 0;
    do {
        digits[count++] = "0123456789abcdefghijklmnopqrstuvwxyz"[n % base];
        n /= base;
    } while (n);
    while (count)
        put_byte((byte)digits[--count]);
    put_byte(' ');
}

/* high * 2^32 + low by a divisor above high. */
static void wide(word high, word low, word divisor) {
    word quotient, rest;
    __asm__("divl %4" : "=a"(quotient), "=d"(rest) : "0"(low), "1"(high), "rm"(divisor) : "cc");
    put_hex(quotient);
    put_text(" rest ");
    put_hex(rest);
    put_byte('\n');
}

static void power(word base, word exponent, word modulus) {
    word answer = 1;
    for (; exponent; exponent >>= 1) {
        word low, high, ignored;
        if (exponent & 1) {
            __asm__("mull %3" : "=a"(low), "=d"(high) : "0"(answer), "rm"(base) : "cc");
            __asm__("divl %4" : "=a"(ignored), "=d"(answer) : "0"(low), "1"(high), "rm"(modulus) : "cc");
        }
        __asm__("mull %3" : "=a"(low), "=d"(high) : "0"(base), "rm"(base) : "cc");
        __asm__("divl %4" : "=a"(ignored), "=d"(base) : "0"(low), "1"(high), "rm"(modulus) : "cc");
    }
    put_text("power ");
    put_word(answer);
    put_byte('\n');
}

int guest_main(int count, char **words) {
    word limit = count > 1 ? text_number(words[1]) : 100;
    primes(limit);
    factors(limit);
    factors(limit * 6 + 1);
    put_text("common ");
    put_word(common(limit, 360));
    put_byte(' ');
    put_word(common(1071 * (limit + 1), 462));
    put_byte('\n');
    int divisors[4] = {3, -3, 1000, -7};
    for (int k = 0; k < 4; k++) {
        signs((int)limit, divisors[k]);
        signs(-(int)limit - k, divisors[k]);
    }
    for (word base = 2; base <= 36; base += 7)
        in_base(limit * 12345u, base);
    put_byte('\n');
    wide(limit, 0x89abcdefu, limit + 1);
    wide(0x12345678u, limit, 0x80000000u);
    power(3, limit, 1000000007u);
    return 0;
}
