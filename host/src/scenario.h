/* A store as a scenario: a text for `bixethomi scenario` whose directory has what the store knows. */
#ifndef BIXETHOMI_SCENARIO_H
#define BIXETHOMI_SCENARIO_H

#include "configuration.h"
#include "kept.h"

void scenario_write(struct buffer *out, const struct configuration *configuration, const struct kept *kept);

#endif
