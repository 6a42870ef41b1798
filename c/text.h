/* A text that grows, and bytes in hexadecimal, `-` where there are none. */
#ifndef TEXT_H
#define TEXT_H

#include <stdarg.h>
#include <stdint.h>
#include <stdio.h>
#include <stdlib.h>
#include <string.h>

struct text {
    char *bytes;
    size_t length;
    size_t room;
};

static inline void text_add(struct text *text, const void *bytes, size_t length)
{
    if (text->room - text->length < length) {
        text->room = 2 * (text->room + length);
        text->bytes = (char *)realloc(text->bytes, text->room);
        if (text->bytes == NULL) {
            fputs("no memory is left\n", stderr);
            exit(2);
        }
    }
    if (length != 0)
        memcpy(text->bytes + text->length, bytes, length);
    text->length += length;
}

/* Adds words as printf prints them, at most 99 bytes. */
static inline void text_print(struct text *text, const char *format, ...)
{
    char words[100];
    va_list values;
    va_start(values, format);
    vsnprintf(words, sizeof words, format, values);
    va_end(values);
    text_add(text, words, strlen(words));
}

static inline void text_add_hex(struct text *text, const uint8_t *bytes, size_t length)
{
    size_t i;
    if (length == 0)
        text_add(text, "-", 1);
    for (i = 0; i < length; i++)
        text_print(text, "%02x", (unsigned)bytes[i]);
}

static inline int hex_digit(char sign)
{
    static const char digits[] = "0123456789abcdef";
    const char *at = sign != '\0' ? strchr(digits, sign) : NULL;
    return at != NULL ? (int)(at - digits) : -1;
}

/* The bytes that hexadecimal says, into `bytes`. 0 if it is none. */
static inline int hex_read(const char *hex, struct text *bytes)
{
    if (strcmp(hex, "-") == 0)
        return 1;
    for (; *hex != '\0'; hex += 2) {
        int high = hex_digit(hex[0]);
        int low = high < 0 ? -1 : hex_digit(hex[1]);
        uint8_t byte;
        if (low < 0)
            return 0;
        byte = (uint8_t)(16 * high + low);
        text_add(bytes, &byte, 1);
    }
    return 1;
}

#endif
