// The plain program that `cht plain` is measured against on products: a quadtree of dense leaves in 128 bits, multiplied
// recursively in one thread, for a script of `market`, `mul`, `tmul`, `mult`, `add`, `trace` and `print` statements in the spelling
// that bench/products.py writes. With the word `tasks` it also writes to standard error how many tasks the library's plans ask
// for these statements, markets left out.
#include <algorithm>
#include <cstdio>
#include <cstring>
#include <map>
#include <memory>
#include <string>
#include <vector>

#include "scripts.hpp"

static size_t leaf_side;
static unsigned long long tasks;

// A block: nothing where it is zero, else a leaf row by row, or four quadrants.
struct Block;
typedef std::shared_ptr<const Block> Tree;

struct Block {
    std::vector<Number> numbers;
    Tree quadrant[4];
};

struct Entry {
    unsigned row, column;
    long long value;
};

struct Matrix {
    unsigned rows, columns;
    Tree tree;
};

static Tree leaf(std::vector<Number> &&numbers) {
    if (std::all_of(numbers.begin(), numbers.end(), [](Number n) { return n == 0; })) return nullptr;
    auto block = std::make_shared<Block>();
    block->numbers = std::move(numbers);
    return block;
}

static Tree joined(Tree parts[4]) {
    if (!parts[0] && !parts[1] && !parts[2] && !parts[3]) return nullptr;
    auto block = std::make_shared<Block>();
    for (int q = 0; q < 4; q++) block->quadrant[q] = std::move(parts[q]);
    return block;
}

// The block of that many levels above the leaves with these entries, which begin at the row and the column.
static Tree assigned(const std::vector<Entry> &entries, unsigned height, unsigned row, unsigned column) {
    if (entries.empty()) return nullptr;
    if (height == 0) {
        std::vector<Number> numbers(leaf_side * leaf_side);
        for (const Entry &e : entries) numbers[(e.row - row) * leaf_side + (e.column - column)] = e.value;
        return leaf(std::move(numbers));
    }
    unsigned half = (unsigned)leaf_side << (height - 1);
    std::vector<Entry> parts[4];
    for (const Entry &e : entries) parts[(e.row >= row + half) * 2 + (e.column >= column + half)].push_back(e);
    Tree trees[4];
    for (unsigned q = 0; q < 4; q++) trees[q] = assigned(parts[q], height - 1, row + q / 2 * half, column + q % 2 * half);
    return joined(trees);
}

static Tree sum(const Tree &x, const Tree &y, unsigned height) {
    tasks++;
    if (!x || !y) return x ? x : y;
    if (height == 0) {
        std::vector<Number> numbers(x->numbers);
        const Number *other = y->numbers.data();
        for (size_t i = 0; i < numbers.size(); i++) numbers[i] += other[i];
        return leaf(std::move(numbers));
    }
    Tree parts[4];
    bool any = false;
    for (int q = 0; q < 4; q++) {
        const Tree &a = x->quadrant[q], &b = y->quadrant[q];
        any = any || a || b;
        parts[q] = a && b ? sum(a, b, height - 1) : a ? a : b;
    }
    tasks += any;
    return joined(parts);
}

enum Product { MUL, TMUL, MULT };

// Row by row, with the inner loop over a row of the second factor; a zero factor is passed over.
static Tree leaf_product(Product kind, const Number *a, const Number *b) {
    size_t n = leaf_side;
    std::vector<Number> numbers(n * n);
    Number *out = numbers.data();
    if (kind == MULT) {
        for (size_t i = 0; i < n; i++)
            for (size_t j = 0; j < n; j++) {
                Number total = 0;
                for (size_t k = 0; k < n; k++) total += a[i * n + k] * b[j * n + k];
                out[i * n + j] = total;
            }
        return leaf(std::move(numbers));
    }
    for (size_t i = 0; i < n; i++)
        for (size_t k = 0; k < n; k++) {
            Number factor = kind == MUL ? a[i * n + k] : a[k * n + i];
            if (factor == 0) continue;
            const Number *row = b + k * n;
            for (size_t j = 0; j < n; j++) out[i * n + j] += factor * row[j];
        }
    return leaf(std::move(numbers));
}

static Tree product(Product kind, const Tree &x, const Tree &y, unsigned height) {
    tasks++;
    if (!x || !y) return nullptr;
    if (height == 0) return leaf_product(kind, x->numbers.data(), y->numbers.data());
    Tree parts[4];
    bool any = false;
    for (int r = 0; r < 2; r++)
        for (int c = 0; c < 2; c++) {
            Tree terms[2];
            int there = 0;
            for (int k = 0; k < 2; k++) {
                const Tree &a = x->quadrant[kind == TMUL ? 2 * k + r : 2 * r + k];
                const Tree &b = y->quadrant[kind == MULT ? 2 * c + k : 2 * k + c];
                if (a && b) terms[there++] = product(kind, a, b, height - 1);
            }
            any = any || there > 0;
            parts[2 * r + c] = there == 2 ? sum(terms[0], terms[1], height - 1) : std::move(terms[0]);
        }
    tasks += any;
    return joined(parts);
}

static Number trace(const Tree &x, unsigned height) {
    tasks++;
    if (!x) return 0;
    Number total = 0;
    if (height == 0) {
        for (size_t i = 0; i < leaf_side; i++) total += x->numbers[i * leaf_side + i];
        return total;
    }
    const Tree &first = x->quadrant[0], &last = x->quadrant[3];
    if (first) total += trace(first, height - 1);
    if (last) total += trace(last, height - 1);
    tasks += first && last;
    return total;
}

static size_t entries_in(const Tree &x, unsigned height) {
    if (!x) return 0;
    if (height == 0) return x->numbers.size() - (size_t)std::count(x->numbers.begin(), x->numbers.end(), (Number)0);
    size_t count = 0;
    for (const Tree &q : x->quadrant) count += entries_in(q, height - 1);
    return count;
}

// The numbers other than 0 in one row of a block, from the left.
static void print_row(const Tree &x, unsigned height, unsigned row, unsigned whole, unsigned column) {
    if (!x) return;
    if (height == 0) {
        const Number *numbers = x->numbers.data() + row * leaf_side;
        for (size_t j = 0; j < leaf_side; j++) {
            if (numbers[j] == 0) continue;
            printf("%u %u ", whole, column + (unsigned)j);
            print_number(numbers[j]);
            putchar('\n');
        }
        return;
    }
    unsigned half = (unsigned)leaf_side << (height - 1);
    const Tree *quadrants = x->quadrant + (row >= half ? 2 : 0);
    unsigned low = row >= half ? row - half : row;
    print_row(quadrants[0], height - 1, low, whole, column);
    print_row(quadrants[1], height - 1, low, whole, column + half);
}

static Matrix market(unsigned height) {
    at = strchr(strchr(at, '\n') + 1, '\n') + 1;
    Matrix m{(unsigned)number(), (unsigned)number(), nullptr};
    long long count = number();
    std::vector<Entry> entries;
    entries.reserve((size_t)count);
    for (long long i = 0; i < count; i++) {
        unsigned row = (unsigned)number() - 1, column = (unsigned)number() - 1;
        long long value = number();
        if (value != 0) entries.push_back({row, column, value});
    }
    m.tree = assigned(entries, height, 0, 0);
    return m;
}

int main(int count, char **words) {
    std::string text;
    open_script(text);
    word();
    unsigned grid = (unsigned)number();
    word();
    leaf_side = (size_t)number();
    unsigned height = 0;
    while ((leaf_side << height) < grid) height++;
    std::map<std::string, Matrix> named;
    for (std::string verb = word(); !verb.empty(); verb = word()) {
        std::string name = word();
        if (verb == "market") {
            named[name] = market(height);
        } else if (verb == "print") {
            const Matrix &m = named[name];
            printf("%%%%MatrixMarket matrix coordinate integer general\n%u %u %zu\n", m.rows, m.columns, entries_in(m.tree, height));
            for (unsigned row = 0; m.tree && row < m.rows; row++) print_row(m.tree, height, row, row + 1, 1);
        } else if (verb == "trace") {
            print_number(trace(named[name].tree, height));
            putchar('\n');
        } else {
            const Matrix &a = named[word()], &b = named[word()];
            if (verb == "add") {
                named[name] = {a.rows, a.columns, sum(a.tree, b.tree, height)};
            } else if (verb == "mul") {
                named[name] = {a.rows, b.columns, product(MUL, a.tree, b.tree, height)};
            } else if (verb == "tmul") {
                named[name] = {a.columns, b.columns, product(TMUL, a.tree, b.tree, height)};
            } else {
                named[name] = {a.rows, b.rows, product(MULT, a.tree, b.tree, height)};
            }
        }
    }
    if (count > 1 && !strcmp(words[1], "tasks")) fprintf(stderr, "%llu\n", tasks);
    return 0;
}
