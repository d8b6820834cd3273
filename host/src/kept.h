/* The rows of a store, as the daemon keeps them. */
#ifndef BIXETHOMI_KEPT_H
#define BIXETHOMI_KEPT_H

#include "text.h"

#include <stdint.h>

enum row_kind { HEAD, ANSWER, HASH, WRONG, FALL, ONLINE };
enum key_kind { KEY_USER, KEY_UID, KEY_GROUP, KEY_GID, KEY_GROUPS, KEY_HOST, KEY_RULES };

struct texts {
    struct text *items;
    size_t count;
    size_t room;
};

struct user {
    struct text dn, name, gecos, home, shell;
    uint32_t uid, gid;
};

struct group {
    struct text dn, name;
    uint32_t gid;
    struct texts members;
};

struct group_reference {
    struct text name;
    bool has_gid;
    uint32_t gid;
};

struct group_references {
    struct group_reference *items;
    size_t count;
    size_t room;
};

/* A host or a service, with its groups. */
struct named {
    struct text name;
    struct texts groups;
};

struct element {
    bool is_all;
    struct texts names, groups;
};

struct access_rule {
    struct text name;
    bool is_enabled;
    struct element users, hosts, services;
};

struct rule_book {
    struct access_rule *rules;
    size_t rule_count, rule_room;
    struct named *services;
    size_t service_count, service_room;
};

struct row {
    enum row_kind kind;
    uint64_t number, moment;
    /* Of an answer: its key, a name or a number, and the record where one was found. */
    enum key_kind key;
    struct text name;
    uint32_t key_number;
    bool is_found, is_voided;
    struct user user;
    struct group group;
    struct group_references groups;
    struct named host;
    struct rule_book book;
    /* Of wrong guesses, and of a fall. */
    uint64_t count;
    uint32_t server;
};

struct kept {
    uint32_t version;
    uint64_t next, moment;
    struct row *rows;
    size_t count, room;
    struct buffer bytes;
};

/* Reads the store in a file. The text says what is wrong where there is something; it is NULL otherwise. */
const char *kept_read(const char *path, struct kept *kept);
void kept_free(struct kept *kept);

#endif
