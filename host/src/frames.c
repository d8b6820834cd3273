#include "frames.h"

#include <string.h>

enum { LENGTH_BYTES = 4 };

static void put_byte(struct request *request, uint32_t byte)
{
    request->bytes[request->length++] = (unsigned char)(byte & 0xff);
}

static void put_number(struct request *request, uint32_t number)
{
    for (int shift = 24; shift >= 0; shift -= 8)
        put_byte(request, number >> shift);
}

/* The room of a request holds the longest name and the longest password together. */
static bool put_text(struct request *request, const char *text, size_t shortest, size_t longest)
{
    size_t length = strnlen(text, longest + 1);

    if (length < shortest || length > longest)
        return false;
    put_byte(request, (uint32_t)(length >> 8));
    put_byte(request, (uint32_t)length);
    memcpy(request->bytes + request->length, text, length);
    request->length += length;
    return true;
}

static void begin_request(struct request *request, enum command command)
{
    request->length = LENGTH_BYTES;
    put_byte(request, (uint32_t)command);
}

/* The length counts what follows it. */
static bool end_request(struct request *request)
{
    size_t end = request->length;

    request->length = 0;
    put_number(request, (uint32_t)(end - LENGTH_BYTES));
    request->length = end;
    return true;
}

bool request_by_name(struct request *request, enum command command, const char *name)
{
    begin_request(request, command);
    return put_text(request, name, 1, LONGEST_NAME) && end_request(request);
}

bool request_by_number(struct request *request, enum command command, uint32_t number)
{
    begin_request(request, command);
    put_number(request, number);
    return end_request(request);
}

bool request_login(struct request *request, const char *name, const char *password)
{
    begin_request(request, COMMAND_LOGIN);
    return put_text(request, name, 1, LONGEST_NAME)
        && put_text(request, password, 0, LONGEST_PASSWORD)
        && end_request(request);
}

bool request_access(struct request *request, const char *name, const char *service)
{
    begin_request(request, COMMAND_ACCESS);
    return put_text(request, name, 1, LONGEST_NAME)
        && put_text(request, service, 1, LONGEST_NAME)
        && end_request(request);
}
