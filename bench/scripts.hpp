// What the plain programs share: the script from standard input word by word, and the text of a number in 128 bits.
#pragma once
#include <cstdio>
#include <string>

typedef __int128 Number;

// Where the script is read.
static const char *at;

// All of standard input, which is read from its first byte on; standard output gets a large buffer.
static void open_script(std::string &text) {
    char piece[1 << 16];
    size_t n;
    while ((n = fread(piece, 1, sizeof piece, stdin)) > 0) text.append(piece, n);
    at = text.c_str();
    setvbuf(stdout, nullptr, _IOFBF, 1 << 20);
}

static std::string word() {
    while (*at == ' ' || *at == '\n') at++;
    const char *start = at;
    while (*at != 0 && *at != ' ' && *at != '\n') at++;
    return std::string(start, at);
}

static long long number() {
    while (*at == ' ' || *at == '\n') at++;
    bool minus = *at == '-';
    if (minus) at++;
    unsigned long long n = 0;
    while (*at >= '0' && *at <= '9') n = n * 10 + (unsigned)(*at++ - '0');
    return minus ? -(long long)n : (long long)n;
}

static void print_number(Number value) {
    char digits[48];
    int last = 48;
    unsigned __int128 rest = value < 0 ? -(unsigned __int128)value : (unsigned __int128)value;
    do digits[--last] = (char)('0' + (int)(rest % 10)), rest /= 10;
    while (rest != 0);
    if (value < 0) digits[--last] = '-';
    fwrite(digits + last, 1, (size_t)(48 - last), stdout);
}
