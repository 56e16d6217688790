// The plain program that `cht plain` is measured against on sums: matrices as sorted lists of entries in 128 bits, a script
// of `market`, `add` and `print` statements in the spelling that bench/sums.py writes.
#include <algorithm>
#include <cstdio>
#include <cstring>
#include <map>
#include <string>
#include <vector>

#include "scripts.hpp"

struct Entry {
    unsigned row, column;
    Number value;
};

struct Matrix {
    unsigned rows, columns;
    std::vector<Entry> entries;
};

static bool before(const Entry &a, const Entry &b) {
    return a.row != b.row ? a.row < b.row : a.column < b.column;
}

static Matrix sum(const Matrix &a, const Matrix &b) {
    Matrix c{a.rows, a.columns, {}};
    c.entries.reserve(a.entries.size() + b.entries.size());
    auto x = a.entries.begin(), y = b.entries.begin();
    while (x != a.entries.end() || y != b.entries.end()) {
        if (y == b.entries.end() || (x != a.entries.end() && before(*x, *y))) {
            c.entries.push_back(*x++);
        } else if (x == a.entries.end() || before(*y, *x)) {
            c.entries.push_back(*y++);
        } else {
            Number value = x->value + y->value;
            if (value != 0) c.entries.push_back({x->row, x->column, value});
            ++x, ++y;
        }
    }
    c.entries.shrink_to_fit();
    return c;
}

static Matrix market() {
    at = strchr(strchr(at, '\n') + 1, '\n') + 1;
    Matrix m{(unsigned)number(), (unsigned)number(), {}};
    long long count = number();
    m.entries.reserve((size_t)count);
    for (long long i = 0; i < count; i++) {
        unsigned row = (unsigned)number(), column = (unsigned)number();
        long long value = number();
        if (value != 0) m.entries.push_back({row, column, value});
    }
    if (!std::is_sorted(m.entries.begin(), m.entries.end(), before)) std::sort(m.entries.begin(), m.entries.end(), before);
    return m;
}

int main() {
    std::string text;
    open_script(text);
    std::map<std::string, Matrix> named;
    at = strchr(at, '\n') + 1;
    for (std::string verb = word(); !verb.empty(); verb = word()) {
        std::string name = word();
        if (verb == "market") {
            named[name] = market();
        } else if (verb == "add") {
            std::string a = word(), b = word();
            named[name] = sum(named[a], named[b]);
        } else {
            const Matrix &m = named[name];
            printf("%%%%MatrixMarket matrix coordinate integer general\n%u %u %zu\n", m.rows, m.columns, m.entries.size());
            for (const Entry &e : m.entries) {
                printf("%u %u ", e.row, e.column);
                print_number(e.value);
                putchar('\n');
            }
        }
    }
    return 0;
}
