/* One expression a line: numbers, + - * / % with the usual order, signs and brackets. Prints the value or where the line is wrong. */
#include "guest.h"

static char text[8192];
static const char *at;
static const char *wrong;
static const char *why;

static int sum(void);

static int fail(const char *reason) {
    if (!wrong)
        wrong = at, why = reason;
    return 0;
}

static void blanks(void) {
    while (*at == ' ' || *at == '\t')
        at++;
}

static int atom(void) {
    blanks();
    if (*at == '-' || *at == '+') {
        int negative = *at++ == '-';
        int value = atom();
        return negative ? -value : value;
    }
    if (*at == '(') {
        at++;
        int value = sum();
        blanks();
        if (*at != ')')
            return fail("')' wanted");
        at++;
        return value;
    }
    if (*at < '0' || *at > '9')
        return fail("number wanted");
    int value = (int)text_number(at);
    while (*at >= '0' && *at <= '9')
        at++;
    return value;
}

static int product(void) {
    int value = atom();
    for (;;) {
        blanks();
        char sign = *at;
        if (sign != '*' && sign != '/' && sign != '%')
            return value;
        at++;
        int other = atom();
        if (sign == '*')
            value = (int)((word)value * (word)other);
        else if (other == 0)
            return fail("division by zero");
        else if (other == -1)
            value = sign == '/' ? (int)(0u - (word)value) : 0;
        else
            value = sign == '/' ? value / other : value % other;
    }
}

static int sum(void) {
    int value = product();
    for (;;) {
        blanks();
        if (*at == '+')
            at++, value = (int)((word)value + (word)product());
        else if (*at == '-')
            at++, value = (int)((word)value - (word)product());
        else
            return value;
    }
}

static int line(const char *start) {
    at = start;
    wrong = 0;
    int value = sum();
    if (!wrong && *at)
        fail("end of line wanted");
    if (!wrong) {
        put_number(value);
        put_byte('\n');
        return 0;
    }
    put_text("error at ");
    put_word((word)(wrong - start));
    put_text(": ");
    put_text(why);
    put_byte('\n');
    return 1;
}

int guest_main(int count, char **words) {
    (void)count, (void)words;
    word length = read_all(text, sizeof text - 1);
    int errors = 0;
    for (word from = 0; from < length;) {
        word end = from;
        while (end < length && text[end] != '\n')
            end++;
        text[end] = 0;
        if (end > from)
            errors += line(text + from);
        from = end + 1;
    }
    return errors > 100 ? 100 : errors;
}
