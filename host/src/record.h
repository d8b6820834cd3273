/* What one call of PAM is about, and its lines in the log of the host. */
#ifndef BIXETHOMI_RECORD_H
#define BIXETHOMI_RECORD_H

#include <stdbool.h>
#include <stddef.h>
#include <stdint.h>

#include "words.h"

struct call {
    pam_handle_t *handle;
    struct options options;
    const char *name; /* of the user */
    bool is_known;    /* the directory has the user: an unknown name may be a password that was typed at the wrong prompt */
    int64_t deadline; /* of all questions of the call */
};

/* A text of the daemon, or why there is none. */
struct answer_text {
    const char *text;
    size_t length;
};

/* One line: what came of the call, who asked for whom from where, and the daemon's own words. */
void record(const struct call *call, int priority, const char *outcome, struct answer_text answer);

/* The same with a text of the module. */
void record_text(const struct call *call, int priority, const char *outcome, const char *text);

/* Nothing but with the word `debug`. */
void record_step(const struct call *call, const char *step);

#endif
