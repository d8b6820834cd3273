/* What a program asks next that asks all of a user, as id(1) does: these questions are sent before it asks them. There is no
 * input or output here. */
#ifndef BIXETHOMI_AHEAD_H
#define BIXETHOMI_AHEAD_H

#include <stddef.h>
#include <stdint.h>

#include "recent.h"

enum {
    MOST_NAMES_AHEAD = 16, /* groups whose names are asked ahead at once */
    LONGEST_AHEAD = MOST_NAMES_AHEAD * NUMBER_REQUEST + LONGEST_RECENT_REQUEST /* bytes of all requests at once */
};

/* The program asked again for the user that `question` names and has the answer: the user by number, the user's first group and
 * the groups come next. Adds those that were not asked a moment ago; the bytes of their requests go to `requests`, their number
 * is returned. */
size_t ahead_of_user(struct recent *recent, const struct recent_question *question, int64_t now, unsigned char *requests);

/* The same for the names of a user's groups, whose reply is there: they come next where the program asked for a group by its
 * number before, or went on to what was asked ahead of it. */
size_t ahead_of_groups(struct recent *recent, int64_t now, unsigned char *requests);

#endif
