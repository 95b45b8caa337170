/* System calls by int 0x80, buffered output and small text helpers for freestanding i386 programs. */
#ifndef GUEST_H
#define GUEST_H

typedef unsigned char byte;
typedef unsigned int word;

enum { CALL_EXIT = 1, CALL_READ = 3, CALL_WRITE = 4, CALL_BRK = 45 };

static inline int system_call(int number, word first, word second, word third) {
    int answer;
    __asm__ volatile("int $0x80" : "=a"(answer) : "a"(number), "b"(first), "c"(second), "d"(third) : "memory");
    return answer;
}

/* Each program has this; what it returns is the exit status. */
int guest_main(int count, char **words);

/* Writes all bytes to descriptor 1 or 2. */
void write_all(int descriptor, const void *bytes, word length);
/* Reads to the end of the input or until the room is full; answers the number of bytes. */
word read_all(void *into, word room);

/* Output to descriptor 1 through a buffer, which is written when it is full and at the end. */
void put_byte(byte value);
void put_text(const char *text);
void put_number(int value);
void put_word(word value);
void put_hex(word value);
void put_flush(void);

word text_length(const char *text);
int text_equal(const char *one, const char *other);
/* The decimal number at the front of the text; digits end at the first other character. */
word text_number(const char *text);

/* Moves the break up by so many bytes; answers the start of the new bytes, or 0 where there is no room. */
void *more_memory(word bytes);

#endif
