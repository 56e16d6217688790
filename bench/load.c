/* Writes the script that the number 7 draws, of size 4096 and fill 64, by printf into a buffer of 1 MiB. */
#include <stdint.h>
#include <stdio.h>

static uint64_t state = 7;

static uint64_t draw(void) {
    state = state * 6364136223846793005u + 1442695040888963407u;
    return state >> 32;
}

static void matrix(const char *name, unsigned size, unsigned fill) {
    printf("market %s\n%%%%MatrixMarket matrix coordinate integer general\n%u %u %u\n", name, size, size, size * fill);
    unsigned step = size / fill;
    for (unsigned row = 1; row <= size; row++) {
        uint64_t start = draw();
        for (unsigned k = 0; k < fill; k++) {
            unsigned column = 1 + (start + k * step) % size;
            int value = (int)(draw() % 199) - 99;
            printf("%u %u %d\n", row, column, value);
        }
    }
}

int main(void) {
    static char buffer[1 << 20];
    setvbuf(stdout, buffer, _IOFBF, sizeof buffer);
    unsigned size = 4096, fill = 64;
    printf("grid %u leaf 32\n", size);
    matrix("a", size, fill);
    matrix("b", size, fill);
    printf("mul c a b\ntrace c\ncount c\n");
    return 0;
}
