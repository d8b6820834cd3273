/* Requests to the daemon: a big-endian 32-bit length, a command byte, and the command's fields.
 * A text field is a big-endian 16-bit length and the bytes, a number is a big-endian 32-bit number. */
#ifndef BIXETHOMI_FRAMES_H
#define BIXETHOMI_FRAMES_H

#include <stdbool.h>
#include <stddef.h>
#include <stdint.h>

enum {
    LONGEST_NAME = 255,      /* bytes of a user's, a group's or a service's name; the shortest has one */
    LONGEST_PASSWORD = 1024, /* bytes; a password may be empty */
    NUMBER_REQUEST = 4 + 1 + 4, /* bytes of a request by a number */
    LONGEST_REQUEST = 4 + 1 + 2 + LONGEST_NAME + 2 + LONGEST_PASSWORD
};

enum command {
    COMMAND_USER = 1,
    COMMAND_UID = 2,
    COMMAND_GROUP = 3,
    COMMAND_GID = 4,
    COMMAND_GROUPS_OF_USER = 5,
    COMMAND_LOGIN = 16,
    COMMAND_ACCESS = 17
};

struct request {
    size_t length;
    unsigned char bytes[LONGEST_REQUEST];
};

/* Each makes the whole request and answers true, or answers false where a text is shorter or longer
 * than the daemon takes; the request is then of no use. */
bool request_by_name(struct request *request, enum command command, const char *name);
bool request_by_number(struct request *request, enum command command, uint32_t number);
bool request_login(struct request *request, const char *name, const char *password);
bool request_access(struct request *request, const char *name, const char *service);

#endif
