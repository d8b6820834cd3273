/* One search at an LDAP server, for bixethomi-check. */
#ifndef BIXETHOMI_SEARCH_H
#define BIXETHOMI_SEARCH_H

#include "text.h"

struct search {
    struct text base;
    /* 0: the entry itself; 2: all below it. */
    int scope;
    /* Entries of this class; where a value is given, with this value of the attribute. */
    const char *class;
    const char *attribute;
    struct text value;
};

struct search_result {
    /* Why there is no result; NULL where there is one. */
    const char *fault;
    /* A result code of LDAP. */
    unsigned code;
    size_t entries;
    double milliseconds;
};

/* Connects, or gives -1 and says why. Each wait has a bound. */
int server_connect(const char *host, unsigned port, const char **fault);
/* Searches for at most one entry. */
struct search_result server_search(int connection, unsigned number, const struct search *search);

#endif
