/* Answers to questions, by OpenSSL's libcrypto. Nothing here is proved. */
#ifndef ANSWER_H
#define ANSWER_H
#include <stdbool.h>
#include <stddef.h>
#include <stdint.h>

/* Whether the signature of a line `accept SCHEME KEY SUBJECT SIGNATURE`, without its end, is good. One outside the grammar, or of
   a scheme that isn't there, isn't. */
bool is_good(const char *line, size_t length);

/* The bytes of a field, strict base64 or a dash, in memory of one's own; null where it is neither, or memory is wanting. */
uint8_t *field_of(const char *text, size_t length, size_t *bytes);
#endif
