/* An interpreter of a tape machine with eight orders, > < + - . , [ ]; the program is the first word, the input is standard input.
   The orders are packed with a count, brackets know their partner, and each turn goes through one jump table. */
#include "guest.h"

enum kind { RIGHT, LEFT, ADD, TAKE, OUT, IN, OPEN, CLOSE, CLEAR, END };

struct order {
    byte kind;
    word number;
};

static struct order program[4096];
static word open[256];
static byte tape[30000];

static int kind_of(char letter) {
    const char *letters = "><+-.,[]";
    for (int k = 0; letters[k]; k++)
        if (letters[k] == letter)
            return k;
    return -1;
}

/* Answers the number of orders, or 0 where the brackets do not fit or there is no room. */
static word read_program(const char *text) {
    word length = 0, depth = 0;
    for (; *text; text++) {
        int kind = kind_of(*text);
        if (kind < 0)
            continue;
        if (length == 4095)
            return 0;
        if (kind <= TAKE && length && program[length - 1].kind == kind) {
            program[length - 1].number++;
            continue;
        }
        if (kind == OPEN) {
            if (depth == 256)
                return 0;
            open[depth++] = length;
        } else if (kind == CLOSE) {
            if (!depth--)
                return 0;
            word from = open[depth];
            if (length == from + 2 && program[from + 1].kind == TAKE && program[from + 1].number == 1) {
                program[from].kind = CLEAR;
                length = from + 1;
                continue;
            }
            program[from].number = length;
            program[length].number = from;
        } else
            program[length].number = 1;
        program[length++].kind = (byte)kind;
    }
    program[length].kind = END;
    return depth ? 0 : length + 1;
}

static int run_program(void) {
    word head = 0;
    for (word at = 0;; at++) {
        word number = program[at].number;
        switch ((enum kind)program[at].kind) {
        case RIGHT:
            head += number;
            if (head >= sizeof tape)
                return 3;
            break;
        case LEFT:
            if (head < number)
                return 3;
            head -= number;
            break;
        case ADD: tape[head] = (byte)(tape[head] + number); break;
        case TAKE: tape[head] = (byte)(tape[head] - number); break;
        case OUT: put_byte(tape[head]); break;
        case IN:
            if (!read_all(tape + head, 1))
                tape[head] = 0;
            break;
        case OPEN:
            if (!tape[head])
                at = number;
            break;
        case CLOSE:
            if (tape[head])
                at = number;
            break;
        case CLEAR: tape[head] = 0; break;
        case END: return 0;
        }
    }
}

int guest_main(int count, char **words) {
    if (count < 2 || !read_program(words[1])) {
        write_all(2, "tape: no program\n", 17);
        return 2;
    }
    int status = run_program();
    if (status)
        write_all(2, "tape: off the end\n", 18);
    return status;
}
