/* The bytes of each request, and the bounds of its texts. */
#include <stdio.h>
#include <string.h>

#include "frames.h"

static int failures;

static void check(bool holds, const char *what)
{
    if (holds)
        return;
    failures++;
    fprintf(stderr, "%s\n", what);
}

static bool is(const struct request *request, const char *bytes, size_t length)
{
    return request->length == length && memcmp(request->bytes, bytes, length) == 0;
}

/* A text of so many bytes. */
static const char *text_of(size_t length, char *text)
{
    memset(text, 'x', length);
    text[length] = '\0';
    return text;
}

static void check_bytes(void)
{
    struct request request;

    check(request_by_name(&request, COMMAND_USER, "alice") && is(&request, "\0\0\0\x08\x01\0\x05" "alice", 12), "user");
    check(request_by_number(&request, COMMAND_UID, 0x01020304) && is(&request, "\0\0\0\x05\x02\1\2\3\4", 9), "uid");
    check(request_by_name(&request, COMMAND_GROUP, "g") && is(&request, "\0\0\0\x04\x03\0\1g", 8), "group");
    check(request_by_number(&request, COMMAND_GID, 4294967294u) && is(&request, "\0\0\0\x05\x04\xff\xff\xff\xfe", 9), "gid");
    check(request_by_name(&request, COMMAND_GROUPS_OF_USER, "a") && is(&request, "\0\0\0\x04\x05\0\1" "a", 8), "groups");
    check(request_login(&request, "a", "pw") && is(&request, "\0\0\0\x08\x10\0\1" "a\0\2pw", 12), "login");
    check(request_login(&request, "a", "") && is(&request, "\0\0\0\x06\x10\0\1" "a\0\0", 10), "login without a password");
    check(request_access(&request, "a", "sshd") && is(&request, "\0\0\0\x0a\x11\0\1" "a\0\4sshd", 14), "access");
}

static void check_bounds(void)
{
    struct request request;
    char name[LONGEST_NAME + 2];
    char password[LONGEST_PASSWORD + 2];

    check(request_by_name(&request, COMMAND_USER, text_of(LONGEST_NAME, name)) && request.length == 4 + 1 + 2 + 255
              && memcmp(request.bytes, "\0\0\1\2\1\0\xff", 7) == 0, "the longest name");
    check(!request_by_name(&request, COMMAND_USER, text_of(LONGEST_NAME + 1, name)), "a name too long");
    check(!request_by_name(&request, COMMAND_USER, ""), "an empty name");
    check(request_login(&request, text_of(LONGEST_NAME, name), text_of(LONGEST_PASSWORD, password))
              && request.length == LONGEST_REQUEST && memcmp(request.bytes, "\0\0\5\4\x10\0\xff", 7) == 0,
          "the longest name and password");
    check(!request_login(&request, "a", text_of(LONGEST_PASSWORD + 1, password)), "a password too long");
    check(!request_login(&request, "", "pw"), "a login without a name");
    check(request_access(&request, "a", text_of(LONGEST_NAME, name)), "the longest service");
    check(!request_access(&request, "a", text_of(LONGEST_NAME + 1, name)), "a service too long");
    check(!request_access(&request, "a", ""), "an empty service");
}

int main(void)
{
    check_bytes();
    check_bounds();
    printf("%d failures\n", failures);
    return failures == 0 ? 0 : 1;
}
