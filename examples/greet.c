/* Asks for a name and greets. The start file programs/src/guest.c gives the entry, and calls guest_main; guest.h has its helpers.
   A read waits for as many bytes as it asks for, or the end of the input, so a dialogue reads byte by byte. */
#include "guest.h"

int guest_main(int count, char **words) {
    put_text(count > 1 ? words[1] : "Your name");
    put_text("? ");
    put_flush();
    char name[64];
    word length = 0;
    while (length < sizeof name && read_all(name + length, 1) == 1 && name[length] != '\n')
        length++;
    put_text("Hello, ");
    for (word k = 0; k < length; k++)
        put_byte((byte)name[k]);
    put_text(".\n");
    return length == 0;
}
