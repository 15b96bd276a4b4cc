/* A text that grows. It may have any bytes. */
#ifndef FOLLOW_TEXT_H
#define FOLLOW_TEXT_H

#include <stdbool.h>
#include <stddef.h>
#include <stdint.h>

/* The empty text is all zeros. */
struct text {
    char *at;
    size_t length;
    size_t capacity;
};

/* Bytes in the text of another. */
struct span {
    const char *at;
    size_t length;
};

/* Appends bytes, or what printf would print. If there is no memory, the process ends. */
void text_add(struct text *text, const void *at, size_t length);
void text_print(struct text *text, const char *format, ...) __attribute__((format(printf, 2, 3)));

/* Drops this many bytes at the front. */
void text_drop(struct text *text, size_t length);

/* Frees the memory. The text is empty then. */
void text_free(struct text *text);

/* Takes the words up to the next space, and the space, off the front of a span. A span without a space is one word. */
struct span next_word(struct span *rest);

/* Whether a span has just these bytes, and whether it begins with them. */
bool span_is(struct span span, const char *words);
bool span_begins(struct span span, const char *words);

/* Reads decimal digits that don't begin with 0, or `0` alone. Returns false if the span is no such number below 2^64. */
bool span_number(struct span span, uint64_t *number);

#endif
