/* Ends in each way that a program can: with a status, or by a fault of the chosen kind after some output. */
#include "guest.h"

static int depth(int n) {
    volatile int room[64];
    room[n & 63] = n;
    return n == 0 ? 0 : room[n & 63] + depth(n - 1);
}

/* With bytes waiting to be written the fault comes after the first part of the output alone. */
int guest_main(int count, char **words) {
    const char *how = count > 1 ? words[1] : "";
    word number = count > 2 ? text_number(words[2]) : 0;
    put_text("before\n");
    put_flush();
    put_text("after\n");
    if (text_equal(how, "exit"))
        return (int)number;
    if (text_equal(how, "read"))
        put_number(*(volatile int *)number);
    if (text_equal(how, "write"))
        *(volatile char *)&guest_main = 1;
    if (text_equal(how, "jump"))
        ((void (*)(void))number)();
    if (text_equal(how, "data"))
        ((void (*)(void))words)();
    if (text_equal(how, "divide"))
        put_number((int)(1000u / number));
    if (text_equal(how, "range")) {
        word quotient = 0, rest = 1;
        __asm__ volatile("divl %2" : "+a"(quotient), "+d"(rest) : "r"(1) : "cc");
        put_word(quotient);
    }
    if (text_equal(how, "illegal"))
        __asm__ volatile("ud2");
    if (text_equal(how, "calls")) {
        put_number(system_call(CALL_WRITE, 7, (word)how, 1));
        put_byte(' ');
        put_number(depth((int)number));
        put_byte('\n');
    }
    return 1;
}
