#include "limits.h"

#include <errno.h>
#include <fcntl.h>
#include <stdatomic.h>
#include <stdio.h>
#include <stdlib.h>
#include <string.h>
#include <sys/socket.h>
#include <sys/stat.h>
#include <sys/un.h>
#include <syslog.h>
#include <unistd.h>

#include "replies.h"

enum { LONGEST_FILE = 8192 };

static const struct limits defaults = { .least = 1000, .greatest = 0, .gives_groups_to_local_users = false };

static const char *file_path(void)
{
#ifdef BIXETHOMI_TEST_BUILD
    const char *other = secure_getenv("BIXETHOMI_MODULES_CONF");

    if (other != NULL)
        return other;
#endif
    return "/etc/bixethomi/modules.conf";
}

/* syslog(3) is the program's own: it would leave a descriptor open, and use the program's settings. */
static void log_to_host(const char *text)
{
    const struct sockaddr_un address = { .sun_family = AF_UNIX, .sun_path = "/dev/log" };
    int descriptor = socket(AF_UNIX, SOCK_DGRAM | SOCK_CLOEXEC, 0);
    char line[512];
    int length = snprintf(line, sizeof line, "<%d>bixethomi[%d]: %s", LOG_AUTHPRIV | LOG_ERR, (int)getpid(), text);

    if (descriptor < 0)
        return;
    if (length > 0 && (size_t)length < sizeof line)
        /* A log that takes nothing changes no answer. */
        (void)sendto(descriptor, line, (size_t)length, MSG_DONTWAIT | MSG_NOSIGNAL, (const struct sockaddr *)&address, sizeof address);
    close(descriptor);
}

static void log_once(const char *fault)
{
    static atomic_flag is_logged = ATOMIC_FLAG_INIT;
    char text[400];

    if (atomic_flag_test_and_set(&is_logged))
        return;
    snprintf(text, sizeof text, "%s is ignored, and the defaults are taken: %s", file_path(), fault);
    log_to_host(text);
}

static char *without_spaces(char *text)
{
    char *end;

    text += strspn(text, " \t\r");
    end = text + strlen(text);
    while (end > text && strchr(" \t\r", end[-1]) != NULL)
        end--;
    *end = '\0';
    return text;
}

static bool take_number(const char *text, uint32_t *number)
{
    size_t digits = strspn(text, "0123456789");
    unsigned long long value;

    if (digits == 0 || digits > 10 || text[digits] != '\0')
        return false;
    value = strtoull(text, NULL, 10);
    *number = (uint32_t)value;
    return value < UINT32_MAX;
}

static bool take_choice(const char *text, bool *choice)
{
    *choice = strcmp(text, "yes") == 0;
    return *choice || strcmp(text, "no") == 0;
}

/* Whether the line is one of the file's. */
static bool take_line(char *line, struct limits *limits)
{
    char *value;
    char *name;

    line = without_spaces(line);
    if (*line == '\0' || *line == '#' || *line == ';')
        return true;
    value = strchr(line, '=');
    if (value == NULL)
        return false;
    *value++ = '\0';
    name = without_spaces(line);
    value = without_spaces(value);
    if (strcmp(name, "min_id") == 0)
        return take_number(value, &limits->least);
    if (strcmp(name, "max_id") == 0)
        return take_number(value, &limits->greatest);
    if (strcmp(name, "groups_for_local_users") == 0)
        return take_choice(value, &limits->gives_groups_to_local_users);
    return false;
}

static struct limits take_lines(char *text)
{
    struct limits limits = defaults;
    unsigned number = 0;
    char *next = text;

    while (next != NULL) {
        char *line = next;
        char *end = strchr(line, '\n');

        next = end == NULL ? NULL : end + 1;
        if (end != NULL)
            *end = '\0';
        number++;
        if (!take_line(line, &limits)) {
            char fault[64];

            snprintf(fault, sizeof fault, "line %u has no form", number);
            log_once(fault);
            return defaults;
        }
    }
    return limits;
}

/* Why the open file is not to be trusted; a null pointer where it is. */
static const char *distrust(const struct stat *status)
{
    if (!S_ISREG(status->st_mode))
        return "it is no regular file";
    if (status->st_uid != 0)
        return "its owner is not root";
    if ((status->st_mode & (S_IWGRP | S_IWOTH)) != 0)
        return "its group or others may write it";
    if (status->st_size > LONGEST_FILE)
        return "it is too long";
    return NULL;
}

/* Up to `room` bytes; false where reading failed. */
static bool read_bytes(int descriptor, char *text, size_t room, size_t *length)
{
    *length = 0;
    while (*length < room) {
        ssize_t count = read(descriptor, text + *length, room - *length);

        if (count == 0)
            return true;
        if (count > 0)
            *length += (size_t)count;
        else if (errno != EINTR)
            return false;
    }
    return true;
}

static struct limits read_file(int descriptor)
{
    char text[LONGEST_FILE + 1];
    struct stat status;
    size_t length = 0;
    const char *fault = "it cannot be read";

    if (fstat(descriptor, &status) == 0)
        fault = distrust(&status);
    if (fault == NULL && !read_bytes(descriptor, text, LONGEST_FILE, &length))
        fault = "it cannot be read";
    if (fault == NULL && memchr(text, '\0', length) != NULL)
        fault = "it has a zero byte";
    if (fault != NULL) {
        log_once(fault);
        return defaults;
    }
    text[length] = '\0';
    return take_lines(text);
}

struct limits read_limits(void)
{
    /* A pipe in the file's place must not be waited for. */
    int descriptor = open(file_path(), O_RDONLY | O_CLOEXEC | O_NONBLOCK | O_NOCTTY);
    struct limits limits;

    if (descriptor < 0) {
        if (errno != ENOENT)
            log_once("it cannot be opened");
        return defaults;
    }
    limits = read_file(descriptor);
    close(descriptor);
    return limits;
}

bool is_within(const struct limits *limits, uint32_t number)
{
    return is_account_number(number) && number >= limits->least && (limits->greatest == 0 || number <= limits->greatest);
}

/* How much of the name stands at the line's front so far, and whether it still may be the line's first field. */
struct match {
    size_t length;
    bool is_possible;
};

/* Whether the name is the first field of the line, whose byte comes next. */
static bool match_byte(struct match *match, const char *name, char byte)
{
    if (byte == '\n')
        *match = (struct match){ .is_possible = true };
    else if (!match->is_possible)
        return false;
    else if (byte == ':' && name[match->length] == '\0')
        return true;
    else if (byte != '\0' && name[match->length] == byte)
        match->length++;
    else
        match->is_possible = false;
    return false;
}

bool is_local_user(const char *name)
{
    int descriptor = open("/etc/passwd", O_RDONLY | O_CLOEXEC);
    struct match match = { .is_possible = true };
    bool is_found = false;
    char piece[4096];
    size_t length = sizeof piece;

    if (descriptor < 0)
        return false;
    while (!is_found && length == sizeof piece && read_bytes(descriptor, piece, sizeof piece, &length))
        for (size_t i = 0; i < length && !is_found; i++)
            is_found = match_byte(&match, name, piece[i]);
    close(descriptor);
    return is_found;
}
