/* String instructions: MOVS and STOS of three widths, with and without a repeat, up and down, over ranges that overlap. */
#include "guest.h"

static void copy_bytes(void *to, const void *from, word count) {
    __asm__ volatile("rep movsb" : "+D"(to), "+S"(from), "+c"(count) : : "memory");
}
static void copy_halves(void *to, const void *from, word count) {
    __asm__ volatile("rep movsw" : "+D"(to), "+S"(from), "+c"(count) : : "memory");
}
static void copy_words(void *to, const void *from, word count) {
    __asm__ volatile("rep movsl" : "+D"(to), "+S"(from), "+c"(count) : : "memory");
}
/* From the last byte down to the first; the arguments are the last bytes. */
static void copy_down(void *to, const void *from, word count) {
    __asm__ volatile("std\n\trep movsb\n\tcld" : "+D"(to), "+S"(from), "+c"(count) : : "memory");
}
static void fill_bytes(void *to, byte value, word count) {
    __asm__ volatile("rep stosb" : "+D"(to), "+c"(count) : "a"(value) : "memory");
}
static void fill_halves(void *to, word value, word count) {
    __asm__ volatile("rep stosw" : "+D"(to), "+c"(count) : "a"(value) : "memory");
}
static void fill_words(void *to, word value, word count) {
    __asm__ volatile("rep stosl" : "+D"(to), "+c"(count) : "a"(value) : "memory");
}

static byte text[4096], work[4096];

/* Bytes from `from` move to `to`, also where the ranges overlap. */
static void move(byte *to, const byte *from, word count) {
    if (to <= from)
        copy_bytes(to, from, count);
    else if (count)
        copy_down(to + count - 1, from + count - 1, count);
}

/* Turns the order of the bytes by single string instructions: each is stored going down. */
static void turn(byte *to, const byte *from, word count) {
    byte *last = to + count;
    while (count--) {
        byte one = *from++;
        last--;
        byte *place = last;
        __asm__ volatile("stosb" : "+D"(place) : "a"(one) : "memory");
    }
}

static word turn_words(word length) {
    word made = 0;
    for (word from = 0; from < length;) {
        word end = from;
        while (end < length && text[end] > ' ')
            end++;
        turn(work + made, text + from, end - from);
        made += end - from;
        for (; end < length && text[end] <= ' '; end++)
            work[made++] = text[end];
        from = end;
    }
    return made;
}

static void show(const char *name, word length) {
    put_text(name);
    put_text(": ");
    for (word k = 0; k < length; k++)
        put_byte(work[k] >= ' ' && work[k] < 127 ? work[k] : '.');
    put_byte('\n');
}

static void shifts(word length) {
    word count = length > 60 ? 60 : length;
    fill_bytes(work, '-', 80);
    copy_bytes(work + 5, text, count);
    move(work, work + 5, count);
    show("left", 70);
    move(work + 3, work, count);
    show("right", 70);
    copy_bytes(work + 1, work, 20);
    show("smeared", 30);
}

static void widths(word length) {
    fill_words(work, 0x2a2b2d2e, 8);
    fill_halves(work + 8, 0x3c3e, 4);
    copy_halves(work + 20, text, length > 12 ? 6 : length / 2);
    show("halves", 32);
    fill_words(work, 0x20202020, 8);
    copy_words(work + 4, text, length > 16 ? 4 : length / 4);
    copy_words(work + 4, text, 0);
    show("words", 32);
}

int guest_main(int count, char **words) {
    (void)count, (void)words;
    word length = read_all(text, sizeof text);
    shifts(length);
    widths(length);
    word made = turn_words(length);
    put_text("turned: ");
    for (word k = 0; k < made; k++)
        put_byte(work[k]);
    put_byte('\n');
    return (int)(made & 63);
}
