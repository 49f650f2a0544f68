/* Lines with text in them, and the plain lines that they stand for. */
#include "replay.h"
#include <stdio.h>
#include <stdlib.h>
#include <string.h>

static const char LETTERS[] = "abtnvfr\"\\", BYTES[] = "\a\b\t\n\v\f\r\"\\";

/* The first byte of a text behind a backslash, and what follows its spelling, or nothing. */
static const char *escaped_byte(const char *text, unsigned char *byte) {
    const char *letter = text[0] ? strchr(LETTERS, text[0]) : NULL;
    if (letter) *byte = (unsigned char)BYTES[letter - LETTERS];
    if (letter) return text + 1;
    if (text[0] != 'x' || strspn(text + 1, "0123456789abcdef") < 2) return NULL;
    char pair[3] = {text[1], text[2], 0};
    return bytes_in(pair, byte) == 1 ? text + 3 : NULL;
}

static char *put_pair(char *end, unsigned char byte) {
    *end++ = "0123456789abcdef"[byte / 16];
    *end++ = "0123456789abcdef"[byte % 16];
    return end;
}

/* Writes a text's digits behind its opening quotation mark. What follows it is a blank or the line's end, or it is none. */
static const char *put_text(const char *text, char **end) {
    char *digits = *end;
    while (*text && *text != '"') {
        unsigned char byte = (unsigned char)*text++;
        if (byte == '\\' && (text = escaped_byte(text, &byte)) == NULL) return NULL;
        digits = put_pair(digits, byte);
    }
    if (*text != '"' || (text[1] && text[1] != ' ')) return NULL;
    if (digits == *end) *digits++ = '-';
    *end = digits;
    return text + 1;
}

/* Writes the control space of so many rights (CMSG_SPACE of cmsg(3)). */
static const char *put_space(const char *number, char **end) {
    char *behind;
    unsigned long count = strtoul(number, &behind, 10);
    if (behind == number || count > 253 || (*behind && *behind != ' ')) return NULL;
    *end += snprintf(*end, 8, "%lu", 16 + 8 * ((count + 1) / 2));
    return behind;
}

/* Writes the plain word of one that is written otherwise. */
static const char *put_special(const char *word, char **end) {
    if (word[0] == '"') return put_text(word + 1, end);
    if (strncmp(word, "rights:", 7) == 0) return put_space(word + 7, end);
    if (strncmp(word, "x:\"", 3)) return NULL;
    char *behind = *end;
    *behind++ = 'x';
    *behind++ = ':';
    const char *rest = put_text(word + 3, &behind);
    if (rest) *end = behind;
    return rest;
}

/* The plain line of a line, which has at most so many bytes. */
char *plain_line(char *line) {
    static char plain[2 * LINE + 16];
    if (strlen(line) > LINE || (!strchr(line, '"') && !strstr(line, "rights:"))) return line;
    char *end = plain;
    const char *rest = line;
    while (*rest) {
        int is_word = rest == line || rest[-1] == ' ';
        const char *behind = is_word ? put_special(rest, &end) : NULL;
        if (behind) rest = behind;
        else *end++ = *rest++;
    }
    *end = 0;
    return plain;
}
