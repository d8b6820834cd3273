#include "search.h"

#include <errno.h>
#include <netdb.h>
#include <poll.h>
#include <stdlib.h>
#include <string.h>
#include <sys/socket.h>
#include <time.h>
#include <unistd.h>

/* What the daemon gives a server as well. */
#define SECONDS 6
#define MOST_REPLY ((size_t)1 << 20)

enum tag { SEQUENCE = 0x30, OCTETS = 0x04, INTEGER = 0x02, ENUMERATED = 0x0a, BOOLEAN = 0x01, SEARCH = 0x63, ENTRY = 0x64, DONE = 0x65,
    REFERENCE = 0x73, AND = 0xa0, EQUAL = 0xa3, PRESENT = 0x87 };

static void put(struct buffer *out, int tag, struct text contents) {
    unsigned char head[6] = {(unsigned char)tag};
    size_t count = 2;
    if (contents.count < 128) {
        head[1] = (unsigned char)contents.count;
    } else {
        head[1] = 0x84;
        for (size_t place = 0; place < 4; place++) {
            head[2 + place] = (unsigned char)(contents.count >> (24 - 8 * place));
        }
        count = 6;
    }
    buffer_add(out, (struct text){(const char *)head, count});
    buffer_add(out, contents);
}

static void put_string(struct buffer *out, int tag, const char *string) { put(out, tag, text_of(string)); }

static void put_number(struct buffer *out, int tag, unsigned char number) { put(out, tag, (struct text){(const char *)&number, 1}); }

static void put_whole(struct buffer *out, int tag, struct buffer *contents) {
    put(out, tag, text_in(contents));
    buffer_free(contents);
}

static void put_equal(struct buffer *out, const char *attribute, struct text value) {
    struct buffer equal = {0};
    put_string(&equal, OCTETS, attribute);
    put(&equal, OCTETS, value);
    put_whole(out, EQUAL, &equal);
}

static void put_filter(struct buffer *out, const struct search *search) {
    struct buffer both = {0};
    if (search->class == NULL) {
        put_string(out, PRESENT, "objectClass");
        return;
    }
    put_equal(&both, "objectClass", text_of(search->class));
    if (search->attribute != NULL) {
        put_equal(&both, search->attribute, search->value);
    }
    put_whole(out, AND, &both);
}

static void put_search(struct buffer *out, unsigned number, const struct search *search) {
    struct buffer operation = {0}, attributes = {0}, message = {0};
    put(&operation, OCTETS, search->base);
    put_number(&operation, ENUMERATED, (unsigned char)search->scope);
    put_number(&operation, ENUMERATED, 0);
    put_number(&operation, INTEGER, 1);
    put_number(&operation, INTEGER, SECONDS);
    put_number(&operation, BOOLEAN, 0);
    put_filter(&operation, search);
    /* No attributes: whether the entry is there is enough. */
    put_string(&attributes, OCTETS, "1.1");
    put_whole(&operation, SEQUENCE, &attributes);
    put_number(&message, INTEGER, (unsigned char)number);
    put_whole(&message, SEARCH, &operation);
    put_whole(out, SEQUENCE, &message);
}

/* The element at the front of some bytes, which it is taken from; false where it is not whole. */
static bool take(struct text *bytes, int *tag, struct text *contents) {
    size_t length, head = 2;
    if (bytes->count < 2) {
        return false;
    }
    length = (unsigned char)bytes->bytes[1];
    if (length > 128) {
        size_t count = length - 128;
        if (count > 4 || bytes->count < 2 + count) {
            return false;
        }
        length = 0;
        for (size_t place = 0; place < count; place++) {
            length = length << 8 | (unsigned char)bytes->bytes[2 + place];
        }
        head += count;
    }
    if (bytes->count - head < length) {
        return false;
    }
    *tag = (unsigned char)bytes->bytes[0];
    *contents = (struct text){bytes->bytes + head, length};
    *bytes = text_behind(*bytes, head + length);
    return true;
}

static double now(void) {
    struct timespec time;
    clock_gettime(CLOCK_MONOTONIC, &time);
    return (double)time.tv_sec * 1000 + (double)time.tv_nsec / 1e6;
}

static int connect_to(const struct addrinfo *address, const char **fault) {
    const struct timeval bound = {SECONDS, 0};
    int connection = socket(address->ai_family, SOCK_STREAM | SOCK_CLOEXEC, 0);
    if (connection < 0) {
        *fault = strerror(errno);
        return -1;
    }
    setsockopt(connection, SOL_SOCKET, SO_SNDTIMEO, &bound, sizeof bound);
    setsockopt(connection, SOL_SOCKET, SO_RCVTIMEO, &bound, sizeof bound);
    if (connect(connection, address->ai_addr, address->ai_addrlen) != 0) {
        *fault = errno == EINPROGRESS || errno == EAGAIN ? "no connection within 6 seconds" : strerror(errno);
        close(connection);
        return -1;
    }
    return connection;
}

int server_connect(const char *host, unsigned port, const char **fault) {
    const struct addrinfo hints = {.ai_socktype = SOCK_STREAM};
    struct addrinfo *found = NULL;
    char digits[8];
    int connection = -1, refused;
    snprintf(digits, sizeof digits, "%u", port);
    refused = getaddrinfo(host, digits, &hints, &found);
    if (refused != 0) {
        *fault = gai_strerror(refused);
        return -1;
    }
    for (const struct addrinfo *address = found; address != NULL && connection < 0; address = address->ai_next) {
        connection = connect_to(address, fault);
    }
    freeaddrinfo(found);
    return connection;
}

static bool send_all(int connection, struct text bytes) {
    while (bytes.count > 0) {
        ssize_t count = send(connection, bytes.bytes, bytes.count, MSG_NOSIGNAL);
        if (count <= 0) {
            return false;
        }
        bytes = text_behind(bytes, (size_t)count);
    }
    return true;
}

/* Reads one message; false where its operation is that of no search. */
static bool read_message(struct text message, unsigned number, struct search_result *result, bool *is_done) {
    struct text id, operation, code;
    int tag = 0, kind = 0;
    if (!take(&message, &tag, &id) || tag != INTEGER || id.count != 1 || (unsigned char)id.bytes[0] != number ||
        !take(&message, &kind, &operation)) {
        return false;
    }
    if (kind == ENTRY || kind == REFERENCE) {
        result->entries += kind == ENTRY;
        return true;
    }
    if (kind != DONE || !take(&operation, &tag, &code) || tag != ENUMERATED || code.count != 1) {
        return false;
    }
    result->code = (unsigned char)code.bytes[0];
    *is_done = true;
    return true;
}

static const char *read_reply(int connection, unsigned number, struct search_result *result) {
    struct buffer got = {0};
    const char *fault = NULL;
    bool is_done = false;
    char piece[4096];
    size_t read = 0;
    while (!is_done && fault == NULL) {
        struct text rest = text_behind(text_in(&got), read), message;
        int tag = 0;
        if (take(&rest, &tag, &message)) {
            read = got.count - rest.count;
            fault = tag == SEQUENCE && read_message(message, number, result, &is_done) ? NULL : "what came is no answer of LDAP";
        } else if (got.count > 0 && got.bytes[read < got.count ? read : 0] != SEQUENCE) {
            fault = "what came is no answer of LDAP";
        } else {
            ssize_t count = recv(connection, piece, sizeof piece, 0);
            if (count > 0) {
                buffer_add(&got, (struct text){piece, (size_t)count});
                fault = got.count > MOST_REPLY ? "the answer is too long" : NULL;
            } else {
                fault = count == 0 ? "it closed the connection" : errno == EAGAIN ? "no answer within 6 seconds" : strerror(errno);
            }
        }
    }
    buffer_free(&got);
    return fault;
}

struct search_result server_search(int connection, unsigned number, const struct search *search) {
    struct search_result result = {0};
    struct buffer request = {0};
    double began = now();
    put_search(&request, number, search);
    result.fault = send_all(connection, text_in(&request)) ? read_reply(connection, number, &result) : "the connection ended";
    result.milliseconds = now() - began;
    buffer_free(&request);
    return result;
}
