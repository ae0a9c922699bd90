/* Fuzzing of answer.c: lines that a hostile library or file could hold. No line is good but those that are known to be (the file that
   GOOD_ROWS names), and each field that is read is the only spelling of its bytes. (Of a digest that is longer than the group's order
   ECDSA takes the first bits alone, so that under ECDSA_P256_SHA384 other lines are good too: FIPS 186-5, 6.4.1.) */
#include "../answer.h"
#include <stdio.h>
#include <stdlib.h>
#include <string.h>

static char *good;

int LLVMFuzzerInitialize(int *argc, char ***argv) {
    (void)argc, (void)argv;
    const char *path = getenv("GOOD_ROWS");
    FILE *file = path ? fopen(path, "rb") : NULL;
    if (!file) { fprintf(stderr, "fuzz: GOOD_ROWS names no file that can be read\n"); exit(2); }
    size_t length = 1 << 20;
    good = calloc(1, length + 2);
    good[0] = '\n';
    length = fread(good + 1, 1, length, file);
    fclose(file);
    return length ? 0 : 1;
}

static bool is_known(const char *line, size_t length) {
    static const char truncated[] = "accept ECDSA_P256_SHA384 ";
    if (length > sizeof truncated && !memcmp(line, truncated, sizeof truncated - 1)) return true;
    for (const char *at = good; (at = memchr(at, '\n', strlen(at))) && *++at;)
        if (!strncmp(at, line, length) && at[length] == '\n' && !memchr(line, 0, length)) return true;
    return false;
}

static void check_field(const char *text, size_t length) {
    static const char letters[] = "ABCDEFGHIJKLMNOPQRSTUVWXYZabcdefghijklmnopqrstuvwxyz0123456789+/";
    size_t n;
    uint8_t *bytes = field_of(text, length, &n);
    if (!bytes) return;
    if (n == 0) { if (length != 1 || *text != '-') abort(); }
    else {
        if (length != (n + 2) / 3 * 4) abort();
        for (size_t i = 0; i < length; i++) {
            size_t at = i / 4 * 3;
            uint32_t bits = (uint32_t)bytes[at] << 16 | (at + 1 < n ? bytes[at + 1] : 0u) << 8 | (at + 2 < n ? bytes[at + 2] : 0u);
            char wanted = at + i % 4 > n ? '=' : letters[bits >> (18 - 6 * (i % 4)) & 63];
            if (text[i] != wanted) abort();
        }
    }
    free(bytes);
}

int LLVMFuzzerTestOneInput(const uint8_t *data, size_t size) {
    char *line = malloc(size ? size : 1);
    memcpy(line, data, size);
    if (is_good(line, size) && !is_known(line, size)) abort();
    check_field(line, size);
    free(line);
    return 0;
}
