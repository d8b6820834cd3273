/* What each reply says, and which texts are none. */
#include <stdio.h>
#include <stdlib.h>
#include <string.h>

#include "replies.h"

static int failures;

static void check(bool holds, const char *text, const char *what)
{
    if (holds)
        return;
    failures++;
    fprintf(stderr, "\"%s\": %s\n", text, what);
}

static const struct {
    const char *text;
    enum saying lookup;
    enum saying login;
    enum saying access;
    uint64_t number;
} replies[] = {
    { "found 3 a", SAYS_FOUND, SAYS_NOTHING, SAYS_NOTHING, 0 },
    { "found 3 ", SAYS_FOUND, SAYS_NOTHING, SAYS_NOTHING, 0 },
    { "found 3", SAYS_NOTHING, SAYS_NOTHING, SAYS_NOTHING, 0 },
    { "found  3 a", SAYS_NOTHING, SAYS_NOTHING, SAYS_NOTHING, 0 },
    { "found 03 a", SAYS_NOTHING, SAYS_NOTHING, SAYS_NOTHING, 0 },
    { "found -3 a", SAYS_NOTHING, SAYS_NOTHING, SAYS_NOTHING, 0 },
    { "Found 3 a", SAYS_NOTHING, SAYS_NOTHING, SAYS_NOTHING, 0 },
    { "found 18446744073709551615 a", SAYS_FOUND, SAYS_NOTHING, SAYS_NOTHING, 0 },
    { "found 18446744073709551616 a", SAYS_NOTHING, SAYS_NOTHING, SAYS_NOTHING, 0 },
    { "old 3 9 a", SAYS_FOUND, SAYS_NOTHING, SAYS_NOTHING, 0 },
    { "old 3 a", SAYS_NOTHING, SAYS_NOTHING, SAYS_NOTHING, 0 },
    { "none 0", SAYS_ABSENT, SAYS_ABSENT, SAYS_ABSENT, 0 },
    { "none 3", SAYS_ABSENT, SAYS_ABSENT, SAYS_ABSENT, 0 },
    { "none 3 ", SAYS_NOTHING, SAYS_NOTHING, SAYS_NOTHING, 0 },
    { "none", SAYS_NOTHING, SAYS_NOTHING, SAYS_NOTHING, 0 },
    { "none ", SAYS_NOTHING, SAYS_NOTHING, SAYS_NOTHING, 0 },
    { "oldnone 3 9", SAYS_ABSENT, SAYS_ABSENT, SAYS_ABSENT, 0 },
    { "oldnone 3", SAYS_NOTHING, SAYS_NOTHING, SAYS_NOTHING, 0 },
    { "filtered", SAYS_ABSENT, SAYS_ABSENT, SAYS_ABSENT, 0 },
    { "filtered ", SAYS_NOTHING, SAYS_NOTHING, SAYS_NOTHING, 0 },
    { "dark 5", SAYS_DARK, SAYS_DARK, SAYS_DARK, 5 },
    { "refused 53", SAYS_REFUSED, SAYS_REFUSED, SAYS_REFUSED, 53 },
    { "refused 4294967296", SAYS_NOTHING, SAYS_NOTHING, SAYS_NOTHING, 0 },
    { "many 2", SAYS_MANY, SAYS_MANY, SAYS_MANY, 2 },
    { "dropped 9", SAYS_DROPPED, SAYS_DROPPED, SAYS_DROPPED, 9 },
    { "denied empty", SAYS_NOTHING, SAYS_EMPTY_PASSWORD, SAYS_NOTHING, 0 },
    { "accepted online 6", SAYS_NOTHING, SAYS_ACCEPTED_ONLINE, SAYS_NOTHING, 0 },
    { "accepted offline 6", SAYS_NOTHING, SAYS_ACCEPTED_OFFLINE, SAYS_NOTHING, 0 },
    { "accepted 6", SAYS_NOTHING, SAYS_NOTHING, SAYS_NOTHING, 0 },
    { "accepted online", SAYS_NOTHING, SAYS_NOTHING, SAYS_NOTHING, 0 },
    { "accepted online 6x", SAYS_NOTHING, SAYS_NOTHING, SAYS_NOTHING, 0 },
    { "wrong online 6", SAYS_NOTHING, SAYS_WRONG_PASSWORD, SAYS_NOTHING, 0 },
    { "wrong offline 6", SAYS_NOTHING, SAYS_WRONG_PASSWORD, SAYS_NOTHING, 0 },
    { "expired 86400", SAYS_NOTHING, SAYS_EXPIRED, SAYS_NOTHING, 86400 },
    { "blocked 310", SAYS_NOTHING, SAYS_BLOCKED_UNTIL, SAYS_NOTHING, 310 },
    { "blocked online", SAYS_NOTHING, SAYS_BLOCKED_UNTIL_ONLINE, SAYS_NOTHING, 0 },
    { "blocked", SAYS_NOTHING, SAYS_NOTHING, SAYS_NOTHING, 0 },
    { "nohash", SAYS_NOTHING, SAYS_NO_HASH, SAYS_NOTHING, 0 },
    { "granted 13 permit", SAYS_NOTHING, SAYS_NOTHING, SAYS_GRANTED, 0 },
    { "granted 13 simple", SAYS_NOTHING, SAYS_NOTHING, SAYS_GRANTED, 0 },
    { "granted 13 rule allow_all", SAYS_NOTHING, SAYS_NOTHING, SAYS_GRANTED, 0 },
    { "granted 13 rule ", SAYS_NOTHING, SAYS_NOTHING, SAYS_GRANTED, 0 },
    { "granted 13 rule a\nb", SAYS_NOTHING, SAYS_NOTHING, SAYS_NOTHING, 0 },
    { "granted 13 rule", SAYS_NOTHING, SAYS_NOTHING, SAYS_NOTHING, 0 },
    { "granted 13 permitted", SAYS_NOTHING, SAYS_NOTHING, SAYS_NOTHING, 0 },
    { "granted permit", SAYS_NOTHING, SAYS_NOTHING, SAYS_NOTHING, 0 },
    { "denied 18 deny", SAYS_NOTHING, SAYS_NOTHING, SAYS_DENIED, 0 },
    { "denied 18 simple", SAYS_NOTHING, SAYS_NOTHING, SAYS_DENIED, 0 },
    { "denied 18 norule", SAYS_NOTHING, SAYS_NOTHING, SAYS_DENIED, 0 },
    { "denied 18 normally", SAYS_NOTHING, SAYS_NOTHING, SAYS_NOTHING, 0 },
    { "denied 18 denyx", SAYS_NOTHING, SAYS_NOTHING, SAYS_NOTHING, 0 },
    { "denied 18", SAYS_NOTHING, SAYS_NOTHING, SAYS_NOTHING, 0 },
    { "done 4", SAYS_NOTHING, SAYS_NOTHING, SAYS_NOTHING, 0 },
    { "", SAYS_NOTHING, SAYS_NOTHING, SAYS_NOTHING, 0 },
};

static void check_sayings(void)
{
    for (size_t i = 0; i < sizeof replies / sizeof replies[0]; i++) {
        const char *text = replies[i].text;
        size_t length = strlen(text);
        struct login_reply login = read_login(text, length);

        check(read_lookup(text, length).saying == replies[i].lookup, text, "as a lookup");
        check(login.saying == replies[i].login, text, "as a login");
        check(read_access(text, length, true) == replies[i].access, text, "as an account check");
        if (login.saying != SAYS_NOTHING)
            check(login.number == replies[i].number, text, "the login's number");
    }
    check(read_access("granted 13 rule cu", 18, false) == SAYS_GRANTED, "granted 13 rule cu", "cut");
    check(read_access("granted 13 permit", 17, false) == SAYS_NOTHING, "granted 13 permit", "cut");
    check(read_access("denied 13 deny", 14, false) == SAYS_NOTHING, "denied 13 deny", "cut");
}

/* A user's line, and the fields that it gives, or what it comes to. */
static const struct {
    const char *line;
    enum reading reading;
    const char *name, *password, *gecos, *home, *shell;
    uint32_t uid, gid;
} users[] = {
    { "alice:*:1000:1001:Alice:/home/alice:/bin/sh", READ, "alice", "*", "Alice", "/home/alice", "/bin/sh", 1000, 1001 },
    { "a::1:2:::", READ, "a", "", "", "", "", 1, 2 },
    { "c:*:1:2:x\\3ay\\5cz:/h:/s", READ, "c", "*", "x:y\\z", "/h", "/s", 1, 2 },
    { "c:*:1:2:x\\0ay\\00z\\7f:/h:/s", READ, "c", "*", "x y z ", "/h", "/s", 1, 2 },
    { "DOM\\5cuser:*:1:2::/h:/s", READ, "DOM\\user", "*", "", "/h", "/s", 1, 2 },
    { "\xc3\xa9t\xc3\xa9:*:1:2::/h:/s", READ, "\xc3\xa9t\xc3\xa9", "*", "", "/h", "/s", 1, 2 },
    { "c:*:4294967294:4294967294::/h:/s", READ, "c", "*", "", "/h", "/s", 4294967294u, 4294967294u },
    { "0x:*:1:2::/h:/s", READ, "0x", "*", "", "/h", "/s", 1, 2 },
    { "0:*:1:2::/h:/s", UNFIT, 0, 0, 0, 0, 0, 0, 0 },
    { "10001:*:1:2::/h:/s", UNFIT, 0, 0, 0, 0, 0, 0, 0 },
    { "c:*:0:2::/h:/s", UNFIT, 0, 0, 0, 0, 0, 0, 0 },
    { "c:*:1:0::/h:/s", UNFIT, 0, 0, 0, 0, 0, 0, 0 },
    { "c:*:4294967295:1::/h:/s", UNFIT, 0, 0, 0, 0, 0, 0, 0 },
    { "c\\00d:*:1:2::/h:/s", UNFIT, 0, 0, 0, 0, 0, 0, 0 },
    { "c\\0ad:*:1:2::/h:/s", UNFIT, 0, 0, 0, 0, 0, 0, 0 },
    { "c\\3ad:*:1:2::/h:/s", UNFIT, 0, 0, 0, 0, 0, 0, 0 },
    { ":*:1:2::/h:/s", UNFIT, 0, 0, 0, 0, 0, 0, 0 },
    { "c:*:1:2::/h\\00:/s", UNFIT, 0, 0, 0, 0, 0, 0, 0 },
    { "c:*:1:2::/h:/s\\0a", UNFIT, 0, 0, 0, 0, 0, 0, 0 },
    { "c:*:1:2::/h", BAD, 0, 0, 0, 0, 0, 0, 0 },
    { "c:*:1:2::/h:/s:", BAD, 0, 0, 0, 0, 0, 0, 0 },
    { "c:*:01:2::/h:/s", BAD, 0, 0, 0, 0, 0, 0, 0 },
    { "c:*:4294967296:2::/h:/s", BAD, 0, 0, 0, 0, 0, 0, 0 },
    { "c:*:99999999999999999999999999:2::/h:/s", BAD, 0, 0, 0, 0, 0, 0, 0 },
    { "c:*:+1:2::/h:/s", BAD, 0, 0, 0, 0, 0, 0, 0 },
    { "c:*::2::/h:/s", BAD, 0, 0, 0, 0, 0, 0, 0 },
    { "c:*:1:2:\\3:/h:/s", BAD, 0, 0, 0, 0, 0, 0, 0 },
    { "c:*:1:2:\\3A:/h:/s", BAD, 0, 0, 0, 0, 0, 0, 0 },
    { "c:*:1:2:\n:/h:/s", BAD, 0, 0, 0, 0, 0, 0, 0 },
    { "c:*:1:2:\x7f:/h:/s", BAD, 0, 0, 0, 0, 0, 0, 0 },
    { "c:*:1:2::/h:\\", BAD, 0, 0, 0, 0, 0, 0, 0 },
    { "c:*:0:x::/h:/s", BAD, 0, 0, 0, 0, 0, 0, 0 },
};

/* The line behind its words, in a block of exactly `room` bytes. */
static char *block_of(const char *line, size_t extra, size_t *at, size_t *length)
{
    static const char words[] = "found 3 ";
    char *block;

    *at = sizeof words - 1;
    *length = *at + strlen(line);
    block = malloc(*length + extra);
    if (block == NULL)
        abort();
    memcpy(block, words, *at);
    memcpy(block + *at, line, *length - *at);
    return block;
}

static void check_users(void)
{
    for (size_t i = 0; i < sizeof users / sizeof users[0]; i++) {
        const char *line = users[i].line;
        struct passwd user;
        size_t at, length;
        char *block = block_of(line, 0, &at, &length);
        enum reading reading = read_user(block, at, length, length, &user);

        check(reading == users[i].reading, line, "what reading it comes to");
        if (reading == READ && users[i].reading == READ) {
            check(strcmp(user.pw_name, users[i].name) == 0, line, "name");
            check(strcmp(user.pw_passwd, users[i].password) == 0, line, "password");
            check(strcmp(user.pw_gecos, users[i].gecos) == 0, line, "gecos");
            check(strcmp(user.pw_dir, users[i].home) == 0, line, "home");
            check(strcmp(user.pw_shell, users[i].shell) == 0, line, "shell");
            check(user.pw_uid == users[i].uid && user.pw_gid == users[i].gid, line, "numbers");
        }
        free(block);
    }
}

/* A group's line, and its members parted by semicolons. */
static const struct {
    const char *line;
    enum reading reading;
    const char *name, *members;
    uint32_t gid;
} groups[] = {
    { "staff:*:2001:alice,bob", READ, "staff", "alice;bob;", 2001 },
    { "staff:*:2001:", READ, "staff", "", 2001 },
    { "staff::2001:alice", READ, "staff", "alice;", 2001 },
    { "a b\\2cc:*:1:comma\\2cname,back\\5cslash", READ, "a b,c", "back\\slash;", 1 },
    { "staff:*:1:alice,col\\3aon,new\\0aline,ze\\00ro,bob", READ, "staff", "alice;bob;", 1 },
    { "staff:*:1:alice,0,10001,bob", READ, "staff", "alice;bob;", 1 },
    { "27:*:1:alice", UNFIT, 0, 0, 0 },
    { "staff:*:0:alice", UNFIT, 0, 0, 0 },
    { "staff:*:4294967295:alice", UNFIT, 0, 0, 0 },
    { ":*:1:alice", UNFIT, 0, 0, 0 },
    { "sta\\0aff:*:1:alice", UNFIT, 0, 0, 0 },
    { "staff:*:1", BAD, 0, 0, 0 },
    { "staff:*:1:alice,", BAD, 0, 0, 0 },
    { "staff:*:1:,alice", BAD, 0, 0, 0 },
    { "staff:*:1:alice:bob", BAD, 0, 0, 0 },
    { "staff:*:1:ali\\zzce", BAD, 0, 0, 0 },
    { "staff:*:1:alice\n", BAD, 0, 0, 0 },
    { "staff:*:x:alice", BAD, 0, 0, 0 },
};

static void check_members(const char *line, const struct group *group, const char *members)
{
    char joined[256] = "";

    for (char **member = group->gr_mem; *member != NULL; member++) {
        strcat(joined, *member);
        strcat(joined, ";");
    }
    check(strcmp(joined, members) == 0, line, "members");
}

static void check_groups(void)
{
    for (size_t i = 0; i < sizeof groups / sizeof groups[0]; i++) {
        const char *line = groups[i].line;
        bool was_read = false;

        /* Each room from none beyond the text: too small a one gives nothing, the first that is not
         * gives the whole, and so do all greater ones. */
        for (size_t extra = 0; extra < 64; extra++) {
            struct group group;
            size_t at, length;
            char *block = block_of(line, extra, &at, &length);
            enum reading reading = read_group(block, at, length, length + extra, &group);

            if (reading == NO_SPACE) {
                check(groups[i].reading == READ && !was_read, line, "no space");
            } else {
                check(reading == groups[i].reading, line, "what reading it comes to");
                was_read = true;
            }
            if (reading == READ && groups[i].reading == READ) {
                check(strcmp(group.gr_name, groups[i].name) == 0, line, "name");
                check(group.gr_gid == groups[i].gid, line, "gid");
                check_members(line, &group, groups[i].members);
            }
            free(block);
        }
        check(was_read, line, "no room is enough");
    }
}

/* The groups of alice, and their gids parted by spaces; none where the text is bad. */
static const struct {
    const char *text;
    const char *gids;
} gid_texts[] = {
    { "alice:2001,2002", "2001 2002 " },
    { "alice:2001", "2001 " },
    { "alice:", "" },
    { "alice:0,4294967295", "0 4294967295 " },
    { "alice:2001,", NULL },
    { "alice:,2001", NULL },
    { "alice:2001,,2002", NULL },
    { "alice:02001", NULL },
    { "alice:00", NULL },
    { "alice:4294967296", NULL },
    { "alice:99999999999999999999999999999999", NULL },
    { "alice:1 ", NULL },
    { "alice:-1", NULL },
    { "alice", NULL },
    { "alic:1", NULL },
    { "alicee:1", NULL },
    { "bob:1", NULL },
    { "alic\\65:1", "1 " },
    { "alice\\00:1", NULL },
    { "", NULL },
};

/* Reads in pieces of `step` bytes behind the name. */
static bool gids_of(const char *text, size_t step, char *gids)
{
    struct gid_reader reader = { .digits = 0 };
    size_t length = strlen(text);
    size_t at = 0;
    uint32_t gid;
    enum gid_reading reading = GID_NEEDS_MORE;

    *gids = '\0';
    if (read_groups_name(text, length, &at, "alice") != READ)
        return false;
    while (at < length) {
        size_t end = at + step < length ? at + step : length;

        while ((reading = next_gid(&reader, text, end, &at, &gid)) == GID_READ)
            sprintf(gids + strlen(gids), "%u ", gid);
        if (reading == GID_BAD)
            return false;
    }
    reading = last_gid(&reader, &gid);
    if (reading == GID_READ)
        sprintf(gids + strlen(gids), "%u ", gid);
    return reading != GID_BAD;
}

static void check_gids(void)
{
    for (size_t i = 0; i < sizeof gid_texts / sizeof gid_texts[0]; i++)
        for (size_t step = 1; step < 20; step++) {
            char gids[256];
            bool is_read = gids_of(gid_texts[i].text, step, gids);

            check(is_read == (gid_texts[i].gids != NULL), gid_texts[i].text, "whether gids are read");
            if (is_read && gid_texts[i].gids != NULL)
                check(strcmp(gids, gid_texts[i].gids) == 0, gid_texts[i].text, "gids");
        }
}

int main(void)
{
    check_sayings();
    check_users();
    check_groups();
    check_gids();
    printf("%d failures\n", failures);
    return failures == 0 ? 0 : 1;
}
