/* Writes the files that its words name, one behind the other, or standard input where there are none; `-n` numbers the lines.
   It opens files, so in the machine of `run` it can copy standard input alone. */
#include "../../src/guest.h"

enum { CALL_OPEN = 5, CALL_CLOSE = 6 };

static byte bytes[4096];
static word line = 1;
static int numbered, begins = 1;

static void put_part(const byte *part, word length) {
    for (word at = 0; at < length; at++) {
        if (numbered && begins) {
            put_word(line++);
            put_byte('\t');
        }
        put_byte(part[at]);
        begins = part[at] == '\n';
    }
}

static int copy(int from) {
    for (;;) {
        int taken = system_call(CALL_READ, (word)from, (word)bytes, sizeof bytes);
        if (taken <= 0)
            return taken;
        put_part(bytes, (word)taken);
    }
}

static void put_error(const char *name) {
    put_flush();
    write_all(2, "cat: ", 5);
    write_all(2, name, text_length(name));
    write_all(2, ": cannot be read\n", 17);
}

static int copy_file(const char *name) {
    int from = system_call(CALL_OPEN, (word)name, 0, 0);
    int ended = from < 0 ? from : copy(from);
    if (from >= 0)
        system_call(CALL_CLOSE, (word)from, 0, 0);
    if (ended < 0)
        put_error(name);
    return ended < 0;
}

int guest_main(int count, char **words) {
    int failed = 0, at = 1;
    if (count > 1 && text_equal(words[1], "-n")) {
        numbered = 1;
        at++;
    }
    if (at == count)
        return copy(0) < 0;
    for (; at < count; at++)
        failed |= copy_file(words[at]);
    return failed;
}
