/* Reads all of standard input into memory that grows by brk, and writes its lines in reverse order; the arguments are words to count.
   The counts go to descriptor 2; the status is the number of words that were not found. */
#include "guest.h"

enum { STEP = 1000 };

struct line {
    const char *start;
    word length;
    struct line *before;
};

static char *all;
static word all_length;

/* The room grows by STEP bytes at a time, and its bytes follow one another, since nothing else moves the break. */
static int read_input(void) {
    for (;;) {
        char *room = more_memory(STEP);
        if (!room)
            return 0;
        if (!all)
            all = room;
        word length = read_all(room, STEP);
        all_length += length;
        if (length < STEP)
            return 1;
    }
}

static struct line *split(void) {
    struct line *last = 0;
    for (word from = 0; from < all_length;) {
        word end = from;
        while (end < all_length && all[end] != '\n')
            end++;
        struct line *line = more_memory(sizeof *line);
        if (!line)
            return 0;
        line->start = all + from;
        line->length = end - from;
        line->before = last;
        last = line;
        from = end + 1;
    }
    return last;
}

static word occurrences(const struct line *line, const char *text) {
    word length = text_length(text), count = 0;
    for (; line; line = line->before)
        for (word from = 0; from + length <= line->length; from++) {
            word same = 0;
            while (same < length && line->start[from + same] == text[same])
                same++;
            count += same == length;
        }
    return count;
}

static void report(const char *text, word count) {
    char digits[12];
    int at = 12;
    digits[--at] = '\n';
    do
        digits[--at] = (char)('0' + count % 10);
    while (count /= 10);
    write_all(2, text, text_length(text));
    write_all(2, ": ", 2);
    write_all(2, digits + at, (word)(12 - at));
}

int guest_main(int count, char **words) {
    if (!read_input())
        return 200;
    struct line *last = split();
    word number = 0;
    for (struct line *line = last; line; line = line->before, number++) {
        for (word k = 0; k < line->length; k++)
            put_byte((byte)line->start[k]);
        put_byte('\n');
    }
    put_flush();
    report("lines", number);
    int missing = 0;
    for (int k = 1; k < count; k++) {
        word found = occurrences(last, words[k]);
        report(words[k], found);
        missing += !found;
    }
    return missing;
}
