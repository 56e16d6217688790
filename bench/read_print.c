/* The plain program that `cht plain` is measured against: it reads a script of one matrix and prints the matrix.
   fread of all of the input, a number scan by hand, qsort where the entries do not rise, printf into a large buffer. */
#include <stdio.h>
#include <stdlib.h>
#include <string.h>

struct entry { unsigned row, column; long long value; };

static int before(const void *a, const void *b) {
    const struct entry *x = a, *y = b;
    if (x->row != y->row) return x->row < y->row ? -1 : 1;
    if (x->column != y->column) return x->column < y->column ? -1 : 1;
    return 0;
}

static const char *at;

static long long number(void) {
    int minus = 0;
    if (*at == '-' || *at == '+') minus = *at++ == '-';
    unsigned long long n = 0;
    while (*at >= '0' && *at <= '9') n = n * 10 + (unsigned)(*at++ - '0');
    at++;
    return minus ? -(long long)n : (long long)n;
}

static void line(void) { at = strchr(at, '\n') + 1; }

int main(void) {
    size_t room = 1 << 20, len = 0, n;
    char *text = malloc(room + 1);
    while ((n = fread(text + len, 1, room - len, stdin)) > 0) {
        len += n;
        if (len == room) text = realloc(text, (room *= 2) + 1);
    }
    text[len] = 0;
    at = text;
    line(), line(), line();
    long long rows = number(), columns = number(), count = number(), kept = 0;
    struct entry *entries = malloc((size_t)count * sizeof *entries);
    int rises = 1;
    for (long long i = 0; i < count; i++) {
        struct entry e = {(unsigned)number(), (unsigned)number(), number()};
        entries[i] = e;
        if (i > 0 && before(&entries[i - 1], &e) >= 0) rises = 0;
    }
    if (!rises) qsort(entries, (size_t)count, sizeof *entries, before);
    for (long long i = 1; i < count; i++)
        if (before(&entries[i - 1], &entries[i]) == 0) return 2;
    for (long long i = 0; i < count; i++)
        if (entries[i].value != 0) entries[kept++] = entries[i];
    setvbuf(stdout, malloc(1 << 20), _IOFBF, 1 << 20);
    printf("%%%%MatrixMarket matrix coordinate integer general\n%lld %lld %lld\n", rows, columns, kept);
    for (long long i = 0; i < kept; i++)
        printf("%u %u %lld\n", entries[i].row, entries[i].column, entries[i].value);
    return 0;
}
