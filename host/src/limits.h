/* What a directory may give to this host, by the administrator's file /etc/bixethomi/modules.conf. */
#ifndef BIXETHOMI_LIMITS_H
#define BIXETHOMI_LIMITS_H

#include <stdbool.h>
#include <stdint.h>

struct limits {
    uint32_t least;    /* of uids and gids */
    uint32_t greatest; /* 0: no bound */
    bool gives_groups_to_local_users;
};

/* Reads the file. Without one, or where it is not to be trusted or has no form, these are the defaults; then one line in the
 * log of the host says why, once in a process. */
struct limits read_limits(void);

/* Whether a directory may give this uid or gid to the host: never 0, nor the number that stands for none. */
bool is_within(const struct limits *limits, uint32_t number);

/* Whether /etc/passwd has a user of this name. */
bool is_local_user(const char *name);

#endif
