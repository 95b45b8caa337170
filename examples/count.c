/* Counts the lines, words and bytes of standard input; with words on the command line it counts only how often the byte that begins the first of them
   occurs. It has its own entry and no library: this is the whole program. Its exit status is 0, or 1 where nothing was counted. */

/* At entry esp points at the number of arguments, then their addresses. */
__asm__(".globl _start\n"
        "_start:\n"
        "    movl (%esp), %eax\n"
        "    leal 4(%esp), %edx\n"
        "    andl $-16, %esp\n"
        "    subl $8, %esp\n"
        "    pushl %edx\n"
        "    pushl %eax\n"
        "    call start\n");

/* The four system calls of the machine are exit 1, read 3, write 4 and brk 45. */
static int system_call(int number, int first, const void *second, int third) {
    int answer;
    __asm__ volatile("int $0x80" : "=a"(answer) : "a"(number), "b"(first), "c"(second), "d"(third) : "memory");
    return answer;
}

static void print_number(unsigned value, char behind) {
    char text[12];
    int at = sizeof text;
    text[--at] = behind;
    do {
        text[--at] = (char)('0' + value % 10);
        value /= 10;
    } while (value);
    system_call(4, 1, text + at, (int)sizeof text - at);
}

static unsigned lines, words, bytes, wanted;

static void count(const char *text, int length, int byte) {
    static int in_word;
    for (int k = 0; k < length; k++) {
        int blank = text[k] == ' ' || text[k] == '\n' || text[k] == '\t';
        lines += text[k] == '\n';
        words += !blank && !in_word;
        in_word = !blank;
        wanted += text[k] == byte;
        bytes++;
    }
}

__attribute__((used, noreturn)) void start(int number, char **given) {
    static char piece[4096];
    int byte = number > 1 ? given[1][0] : -1;
    int length;
    while ((length = system_call(3, 0, piece, sizeof piece)) > 0)
        count(piece, length, byte);
    if (number > 1) {
        print_number(wanted, '\n');
    } else {
        print_number(lines, ' ');
        print_number(words, ' ');
        print_number(bytes, '\n');
    }
    for (;;)
        system_call(1, bytes == 0, 0, 0);
}
