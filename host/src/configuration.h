/* The daemon's configuration as its reader takes it, with every fault and every line without effect. */
#ifndef BIXETHOMI_CONFIGURATION_H
#define BIXETHOMI_CONFIGURATION_H

#include "text.h"

enum conf_option {
    DOMAINS, SERVICES, CONFIG_FILE_VERSION, JOURNAL_LIMIT, NEGATIVE_TIMEOUT, NOWAIT_PERCENTAGE, FILTER_USERS, FILTER_GROUPS, PWFIELD,
    EXPIRATION_DAYS, LOGIN_ATTEMPTS, LOGIN_DELAY, ID_PROVIDER, AUTH_PROVIDER, ACCESS_PROVIDER, CACHE_TIMEOUT, USER_TIMEOUT,
    GROUP_TIMEOUT, CACHE_CREDENTIALS, CACHED_AUTH_TIMEOUT, OFFLINE_TIMEOUT, LDAP_URI, LDAP_BACKUP_URI, IPA_SERVER, IPA_BACKUP_SERVER,
    IPA_DOMAIN, IPA_HOSTNAME, SEARCH_BASE, NESTING_LEVEL, HBAC_REFRESH, ALLOW_USERS, DENY_USERS, ALLOW_GROUPS, DENY_GROUPS,
    OPTION_COUNT
};

struct setting {
    struct text value;
    /* 0 where the option does not stand in the text. */
    unsigned line;
};

enum kind { FAULT, NO_EFFECT };

struct finding {
    enum kind kind;
    /* 0 where no line is at fault. */
    unsigned line;
    struct text section;
    struct text option;
    struct text value;
    /* What is allowed, or why there is no effect. */
    const char *why;
};

#define SERVER_LIMIT 64

struct server {
    struct text host;
    unsigned port;
};

struct configuration {
    struct text text;
    struct text domain;
    /* The name of its section. */
    struct buffer domain_section;
    struct setting settings[OPTION_COUNT];
    struct finding *findings;
    size_t finding_count;
    size_t finding_room;
    /* Primaries in their order, then backups; of which so many are primaries. */
    struct server servers[SERVER_LIMIT];
    size_t server_count;
    size_t primary_count;
    /* The search base, also where it was made of the domain's labels. */
    struct buffer base;
};

/* Reads the text, which has to outlive the configuration. */
void configuration_read(struct configuration *configuration, struct text text);
void configuration_free(struct configuration *configuration);
size_t configuration_faults(const struct configuration *configuration);
const char *option_key(enum conf_option option);
/* The number of an option, or its default. */
unsigned long configuration_number(const struct configuration *configuration, enum conf_option option);
bool configuration_flag(const struct configuration *configuration, enum conf_option option);
bool is_dn(struct text text);

#endif
