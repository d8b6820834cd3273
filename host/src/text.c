#include "text.h"

#include <errno.h>
#include <stdlib.h>
#include <string.h>
#include <strings.h>

struct text text_of(const char *string) { return (struct text){string, strlen(string)}; }

struct text text_in(const struct buffer *buffer) { return (struct text){buffer->bytes == NULL ? "" : buffer->bytes, buffer->count}; }

bool text_equal(struct text a, struct text b) { return a.count == b.count && (a.count == 0 || memcmp(a.bytes, b.bytes, a.count) == 0); }

bool text_is(struct text text, const char *string) { return text_equal(text, text_of(string)); }

bool text_equal_without_case(struct text a, struct text b) {
    return a.count == b.count && (a.count == 0 || strncasecmp(a.bytes, b.bytes, a.count) == 0);
}

bool text_begins(struct text text, const char *beginning) {
    size_t count = strlen(beginning);
    return text.count >= count && memcmp(text.bytes, beginning, count) == 0;
}

struct text text_behind(struct text text, size_t count) { return (struct text){text.bytes + count, text.count - count}; }

static bool is_blank(char byte) { return byte == ' ' || byte == '\t' || byte == '\r'; }

struct text text_trimmed(struct text text) {
    while (text.count > 0 && is_blank(text.bytes[0])) {
        text = text_behind(text, 1);
    }
    while (text.count > 0 && is_blank(text.bytes[text.count - 1])) {
        text.count -= 1;
    }
    return text;
}

bool text_next(struct text *rest, char separator, struct text *part) {
    const char *end;
    if (rest->bytes == NULL) {
        return false;
    }
    end = rest->count == 0 ? NULL : memchr(rest->bytes, separator, rest->count);
    *part = *rest;
    if (end == NULL) {
        rest->bytes = NULL;
        rest->count = 0;
    } else {
        part->count = (size_t)(end - rest->bytes);
        *rest = text_behind(*rest, part->count + 1);
    }
    return true;
}

bool text_number(struct text text, unsigned long *number) {
    unsigned long long value = 0;
    if (text.count == 0 || text.count > 10) {
        return false;
    }
    for (size_t place = 0; place < text.count; place++) {
        if (text.bytes[place] < '0' || text.bytes[place] > '9') {
            return false;
        }
        value = value * 10 + (unsigned long long)(text.bytes[place] - '0');
    }
    *number = (unsigned long)value;
    return value <= 4294967295ULL;
}

void no_memory(void) {
    fputs("no memory\n", stderr);
    exit(7);
}

void *grown(void *items, size_t used, size_t *room, size_t size) {
    if (used < *room) {
        return items;
    }
    *room = *room == 0 ? 16 : *room * 2;
    items = reallocarray(items, *room, size);
    if (items == NULL) {
        no_memory();
    }
    return items;
}

void buffer_add(struct buffer *buffer, struct text text) {
    size_t room = buffer->room == 0 ? 256 : buffer->room;
    if (text.count == 0) {
        return;
    }
    while (room - buffer->count <= text.count) {
        room *= 2;
    }
    if (room != buffer->room) {
        char *bytes = realloc(buffer->bytes, room);
        if (bytes == NULL) {
            no_memory();
        }
        buffer->bytes = bytes;
        buffer->room = room;
    }
    memcpy(buffer->bytes + buffer->count, text.bytes, text.count);
    buffer->count += text.count;
}

void buffer_add_string(struct buffer *buffer, const char *string) { buffer_add(buffer, text_of(string)); }

void buffer_add_number(struct buffer *buffer, unsigned long long number) {
    char digits[24];
    snprintf(digits, sizeof digits, "%llu", number);
    buffer_add_string(buffer, digits);
}

void buffer_free(struct buffer *buffer) {
    free(buffer->bytes);
    *buffer = (struct buffer){0};
}

int read_file(const char *path, size_t most, struct buffer *out) {
    char piece[65536];
    int fault = 0;
    FILE *file = fopen(path, "rbe");
    if (file == NULL) {
        return errno;
    }
    for (;;) {
        size_t count = fread(piece, 1, sizeof piece, file);
        if (count == 0) {
            break;
        }
        if (count > most - out->count) {
            fault = EFBIG;
            break;
        }
        buffer_add(out, (struct text){piece, count});
    }
    if (fault == 0 && ferror(file) != 0) {
        fault = errno == 0 ? EIO : errno;
    }
    fclose(file);
    return fault;
}

void print_field(FILE *out, struct text field) {
    for (size_t place = 0; place < field.count; place++) {
        unsigned char byte = (unsigned char)field.bytes[place];
        if (byte < 0x20 || byte == 0x7f || byte == ':' || byte == '\\') {
            fprintf(out, "\\%02x", (unsigned)byte);
        } else {
            putc(byte, out);
        }
    }
}

/* How many bytes the character of UTF-8 at the beginning has; 0 where there is none. */
static size_t character_of(struct text text) {
    const unsigned char *bytes = (const unsigned char *)text.bytes;
    size_t count;
    if (bytes[0] < 0x80) {
        return 1;
    }
    if (bytes[0] < 0xc2 || bytes[0] > 0xf4) {
        return 0;
    }
    count = bytes[0] < 0xe0 ? 2 : bytes[0] < 0xf0 ? 3 : 4;
    if (text.count < count) {
        return 0;
    }
    for (size_t place = 1; place < count; place++) {
        if ((bytes[place] & 0xc0) != 0x80) {
            return 0;
        }
    }
    /* Longer than needed, a surrogate, or above the last character. */
    if ((bytes[0] == 0xe0 && bytes[1] < 0xa0) || (bytes[0] == 0xed && bytes[1] > 0x9f) || (bytes[0] == 0xf0 && bytes[1] < 0x90) ||
        (bytes[0] == 0xf4 && bytes[1] > 0x8f)) {
        return 0;
    }
    return count;
}

void print_json(FILE *out, struct text text) {
    putc('"', out);
    while (text.count > 0) {
        unsigned char byte = (unsigned char)text.bytes[0];
        size_t count = character_of(text);
        if (byte == '"' || byte == '\\') {
            fprintf(out, "\\%c", byte);
        } else if (byte < 0x20 || byte == 0x7f) {
            fprintf(out, "\\u%04x", (unsigned)byte);
        } else if (count == 0) {
            fputs("\\ufffd", out);
        } else {
            fwrite(text.bytes, 1, count, out);
        }
        text = text_behind(text, count == 0 ? 1 : count);
    }
    putc('"', out);
}

void print_duration(FILE *out, unsigned long long seconds) {
    if (seconds < 60) {
        fprintf(out, "%llus", seconds);
    } else if (seconds < 3600) {
        fprintf(out, "%llum%02llus", seconds / 60, seconds % 60);
    } else if (seconds < 86400) {
        fprintf(out, "%lluh%02llum", seconds / 3600, seconds / 60 % 60);
    } else {
        fprintf(out, "%llud%02lluh", seconds / 86400, seconds / 3600 % 24);
    }
}
