/* Texts of any bytes, buffers of them, and how they are printed: for the administrator's tools. */
#ifndef BIXETHOMI_TEXT_H
#define BIXETHOMI_TEXT_H

#include <stdbool.h>
#include <stddef.h>
#include <stdio.h>

struct text {
    const char *bytes;
    size_t count;
};

struct buffer {
    char *bytes;
    size_t count;
    size_t room;
};

struct text text_of(const char *string);
struct text text_in(const struct buffer *buffer);
bool text_equal(struct text a, struct text b);
bool text_is(struct text text, const char *string);
bool text_equal_without_case(struct text a, struct text b);
bool text_begins(struct text text, const char *beginning);
/* The text behind its first bytes. */
struct text text_behind(struct text text, size_t count);
/* Without spaces, tabs and carriage returns at both ends. */
struct text text_trimmed(struct text text);
/* Takes the part of a text in front of a separator; false where nothing is left. `rest` begins as the whole text. */
bool text_next(struct text *rest, char separator, struct text *part);
/* A number of one to ten digits up to 4294967295. */
bool text_number(struct text text, unsigned long *number);

/* The end of the process for want of memory. */
_Noreturn void no_memory(void);
/* Room for `count` items of which `used` are in use. */
void *grown(void *items, size_t used, size_t *room, size_t size);

void buffer_add(struct buffer *buffer, struct text text);
void buffer_add_string(struct buffer *buffer, const char *string);
void buffer_add_number(struct buffer *buffer, unsigned long long number);
void buffer_free(struct buffer *buffer);

/* The whole of a file, at most so many bytes: 0, or an error number (EFBIG where it is longer). */
int read_file(const char *path, size_t most, struct buffer *out);

/* A field as the daemon's replies have it: control bytes, colon and backslash as `\` and two hexadecimal digits. */
void print_field(FILE *out, struct text field);
/* A string of JSON; bytes that are no UTF-8 become U+FFFD. */
void print_json(FILE *out, struct text text);
/* A number of seconds in words: 5s, 3m20s, 2h05m, 4d03h. */
void print_duration(FILE *out, unsigned long long seconds);

#endif
