#include "text.h"

#include "errors.h"

#include <stdarg.h>
#include <stdio.h>
#include <stdlib.h>
#include <string.h>

/* Makes room for this many more bytes and a null byte. */
static void text_reserve(struct text *text, size_t more)
{
    size_t wanted = text->length + more + 1;
    size_t capacity = 2 * text->capacity > wanted ? 2 * text->capacity : wanted;
    char *at;

    if (wanted <= text->capacity) {
        return;
    }
    at = realloc(text->at, capacity);
    if (at == NULL) {
        fail(STATUS_MEMORY, "no memory for a text of %zu bytes", wanted);
    }
    text->at = at;
    text->capacity = capacity;
}

void text_add(struct text *text, const void *at, size_t length)
{
    text_reserve(text, length);
    if (length != 0) {
        memcpy(text->at + text->length, at, length);
    }
    text->length += length;
    text->at[text->length] = '\0';
}

void text_print(struct text *text, const char *format, ...)
{
    va_list words, again;
    int length;

    va_start(words, format);
    va_copy(again, words);
    length = vsnprintf(NULL, 0, format, words);
    va_end(words);
    if (length < 0) {
        fail(STATUS_MEMORY, "a text can't be printed");
    }
    text_reserve(text, (size_t)length);
    vsnprintf(text->at + text->length, (size_t)length + 1, format, again);
    va_end(again);
    text->length += (size_t)length;
}

void text_drop(struct text *text, size_t length)
{
    if (length != 0) {
        memmove(text->at, text->at + length, text->length - length);
        text->length -= length;
    }
}

void text_free(struct text *text)
{
    free(text->at);
    memset(text, 0, sizeof *text);
}

struct span next_word(struct span *rest)
{
    const char *space = rest->length == 0 ? NULL : memchr(rest->at, ' ', rest->length);
    struct span word = { rest->at, space == NULL ? rest->length : (size_t)(space - rest->at) };
    size_t taken = word.length + (space != NULL);

    if (taken != 0) {
        rest->at += taken;
        rest->length -= taken;
    }
    return word;
}

bool span_is(struct span span, const char *words)
{
    return span.length == strlen(words) && memcmp(span.at, words, span.length) == 0;
}

bool span_begins(struct span span, const char *words)
{
    return span.length >= strlen(words) && memcmp(span.at, words, strlen(words)) == 0;
}

bool span_number(struct span span, uint64_t *number)
{
    uint64_t sum = 0;

    if (span.length == 0 || (span.at[0] == '0' && span.length > 1)) {
        return false;
    }
    for (size_t i = 0; i < span.length; i++) {
        uint64_t digit = (uint64_t)(span.at[i] - '0');

        if (digit > 9 || sum > (UINT64_MAX - digit) / 10) {
            return false;
        }
        sum = 10 * sum + digit;
    }
    *number = sum;
    return true;
}
