/* The words behind the module's name in a line of a PAM stack. */
#ifndef BIXETHOMI_WORDS_H
#define BIXETHOMI_WORDS_H

#include <stdbool.h>
#include <stdint.h>

#include <security/pam_modules.h>

struct options {
    bool tries_first_password; /* the password of the module in front is tried, then the user is asked */
    bool uses_first_password;  /* it is tried, and the user is not asked */
    bool is_quiet;
    bool ignores_unknown_user;
    bool ignores_unavailable;
    bool is_debugged;
    unsigned retries;     /* prompts after a wrong password */
    uint32_t minimum_uid; /* users below it are none of this module's */
};

/* A word that is not known, or has no form, is logged once since the host started. */
struct options read_options(pam_handle_t *handle, int flags, int count, const char **words);

#endif
