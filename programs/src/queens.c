/* The ways to place N queens on a board of N by N (N from 1 to 12, the first word), by recursion, and the first board. */
#include "guest.h"

static int size;
static byte row_of[12];
static byte first[12];
static int found;

static int safe(int column, int row) {
    for (int other = 0; other < column; other++) {
        int apart = column - other, rise = row - row_of[other];
        if (rise == 0 || rise == apart || rise == -apart)
            return 0;
    }
    return 1;
}

static int place(int column) {
    if (column == size) {
        if (!found++)
            for (int k = 0; k < size; k++)
                first[k] = row_of[k];
        return 1;
    }
    int ways = 0;
    for (int row = 0; row < size; row++)
        if (safe(column, row)) {
            row_of[column] = (byte)row;
            ways += place(column + 1);
        }
    return ways;
}

/* Ackermann's function, as a second recursion. */
static word deep(word m, word n) {
    if (m == 0)
        return n + 1;
    return n == 0 ? deep(m - 1, 1) : deep(m - 1, deep(m, n - 1));
}

static void show_board(void) {
    for (int row = 0; row < size; row++) {
        for (int column = 0; column < size; column++)
            put_byte(first[column] == row ? 'Q' : '.');
        put_byte('\n');
    }
}

int guest_main(int count, char **words) {
    size = count > 1 ? (int)text_number(words[1]) : 0;
    if (size < 1 || size > 12) {
        write_all(2, "queens: a number from 1 to 12\n", 30);
        return 2;
    }
    int ways = place(0);
    put_word((word)size);
    put_text(" queens: ");
    put_number(ways);
    put_text(" ways\n");
    if (ways)
        show_board();
    put_text("deep ");
    put_word(deep(2, (word)size));
    put_byte('\n');
    return ways == 0;
}
