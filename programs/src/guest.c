#include "guest.h"

/* At entry esp points at the number of arguments, then their addresses. */
__asm__(".globl _start\n"
        "_start:\n"
        "    xorl %ebp, %ebp\n"
        "    movl (%esp), %eax\n"
        "    leal 4(%esp), %edx\n"
        "    andl $-16, %esp\n"
        "    subl $8, %esp\n"
        "    pushl %edx\n"
        "    pushl %eax\n"
        "    call guest_start\n");

static byte waiting[512];
static word waiting_length;

__attribute__((noreturn, used)) void guest_start(int count, char **words) {
    word status = (word)guest_main(count, words);
    put_flush();
    for (;;)
        system_call(CALL_EXIT, status, 0, 0);
}

/* The compiler calls these two. */
__attribute__((used)) void *memcpy(void *into, const void *from, word length) {
    void *to = into;
    __asm__ volatile("rep movsb" : "+D"(to), "+S"(from), "+c"(length) : : "memory");
    return into;
}

__attribute__((used)) void *memset(void *into, int value, word length) {
    void *to = into;
    __asm__ volatile("rep stosb" : "+D"(to), "+c"(length) : "a"(value) : "memory");
    return into;
}

void write_all(int descriptor, const void *bytes, word length) {
    const byte *at = bytes;
    while (length > 0) {
        int taken = system_call(CALL_WRITE, (word)descriptor, (word)at, length);
        if (taken <= 0)
            return;
        at += taken;
        length -= (word)taken;
    }
}

word read_all(void *into, word room) {
    byte *at = into;
    while (room > 0) {
        int taken = system_call(CALL_READ, 0, (word)at, room);
        if (taken <= 0)
            break;
        at += taken;
        room -= (word)taken;
    }
    return (word)(at - (byte *)into);
}

void put_flush(void) {
    write_all(1, waiting, waiting_length);
    waiting_length = 0;
}

void put_byte(byte value) {
    if (waiting_length == sizeof waiting)
        put_flush();
    waiting[waiting_length++] = value;
}

void put_text(const char *text) {
    while (*text)
        put_byte((byte)*text++);
}

void put_word(word value) {
    byte digits[10];
    int count = 0;
    do {
        digits[count++] = (byte)('0' + value % 10);
        value /= 10;
    } while (value);
    while (count)
        put_byte(digits[--count]);
}

void put_number(int value) {
    if (value < 0)
        put_byte('-');
    put_word(value < 0 ? 0u - (word)value : (word)value);
}

void put_hex(word value) {
    for (int shift = 28; shift >= 0; shift -= 4)
        put_byte((byte)"0123456789abcdef"[(value >> shift) & 15]);
}

word text_length(const char *text) {
    word length = 0;
    while (text[length])
        length++;
    return length;
}

int text_equal(const char *one, const char *other) {
    while (*one && *one == *other)
        one++, other++;
    return *one == *other;
}

word text_number(const char *text) {
    word value = 0;
    while (*text >= '0' && *text <= '9')
        value = value * 10 + (word)(*text++ - '0');
    return value;
}

void *more_memory(word bytes) {
    word start = (word)system_call(CALL_BRK, 0, 0, 0);
    word end = start + bytes;
    if ((word)system_call(CALL_BRK, end, 0, 0) != end)
        return 0;
    return (void *)start;
}
