/* Sorts the signed numbers of standard input by quicksort and by heapsort, with an order chosen by the first word: up, down or size. */
#include "guest.h"

typedef int (*order)(int, int);

static int up(int a, int b) { return a < b; }
static int down(int a, int b) { return a > b; }
static int size(int a, int b) {
    word x = a < 0 ? 0u - (word)a : (word)a, y = b < 0 ? 0u - (word)b : (word)b;
    return x != y ? x < y : a < b;
}

/* Not constant, so that the executable has bytes in a segment that can be written. */
struct {
    const char *name;
    order before;
} orders[3] = {{"up", up}, {"down", down}, {"size", size}};

static void swap(int *a, int *b) {
    int kept = *a;
    *a = *b;
    *b = kept;
}

static void quick(int *from, int *end, order before) {
    while (end - from > 1) {
        int pivot = from[(end - from) / 2];
        int *low = from, *high = end - 1;
        while (low <= high) {
            while (before(*low, pivot))
                low++;
            while (before(pivot, *high))
                high--;
            if (low <= high)
                swap(low++, high--);
        }
        quick(from, high + 1, before);
        from = low;
    }
}

static void sink(int *heap, int at, int length, order before) {
    for (int child = 2 * at + 1; child < length; child = 2 * at + 1) {
        if (child + 1 < length && before(heap[child], heap[child + 1]))
            child++;
        if (!before(heap[at], heap[child]))
            return;
        swap(heap + at, heap + child);
        at = child;
    }
}

static void heap_sort(int *heap, int length, order before) {
    for (int at = length / 2 - 1; at >= 0; at--)
        sink(heap, at, length, before);
    for (int last = length - 1; last > 0; last--) {
        swap(heap, heap + last);
        sink(heap, 0, last, before);
    }
}

static char text[16384];
static int numbers[4096], again[4096];

static int read_numbers(void) {
    word length = read_all(text, sizeof text - 1);
    int count = 0;
    for (word at = 0; at < length && count < 4096;) {
        int negative = text[at] == '-';
        at += (word)negative;
        if (text[at] < '0' || text[at] > '9') {
            at++;
            continue;
        }
        int value = (int)text_number(text + at);
        numbers[count++] = negative ? -value : value;
        while (text[at] >= '0' && text[at] <= '9')
            at++;
    }
    return count;
}

int guest_main(int count, char **words) {
    order before = 0;
    for (int k = 0; k < 3; k++)
        if (count > 1 && text_equal(words[1], orders[k].name))
            before = orders[k].before;
    if (!before) {
        write_all(2, "sort: up, down or size\n", 23);
        return 2;
    }
    int length = read_numbers();
    for (int k = 0; k < length; k++)
        again[k] = numbers[k];
    quick(numbers, numbers + length, before);
    heap_sort(again, length, before);
    for (int k = 0; k < length; k++) {
        if (numbers[k] != again[k])
            return 1;
        put_number(numbers[k]);
        put_byte('\n');
    }
    return 0;
}
