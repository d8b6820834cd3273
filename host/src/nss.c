/* libnss_bixethomi: users, groups and the groups of a user from the daemon, for the name service
 * switch of the C library. */
#include <errno.h>
#include <grp.h>
#include <nss.h>
#include <pwd.h>
#include <stdlib.h>
#include <string.h>
#include <sys/types.h>

#include "exchange.h"
#include "frames.h"
#include "limits.h"
#include "replies.h"

enum nss_status _nss_bixethomi_getpwnam_r(const char *name, struct passwd *result, char *buffer, size_t room, int *error);
enum nss_status _nss_bixethomi_getpwuid_r(uid_t uid, struct passwd *result, char *buffer, size_t room, int *error);
enum nss_status _nss_bixethomi_getgrnam_r(const char *name, struct group *result, char *buffer, size_t room, int *error);
enum nss_status _nss_bixethomi_getgrgid_r(gid_t gid, struct group *result, char *buffer, size_t room, int *error);
enum nss_status _nss_bixethomi_initgroups_dyn(const char *name, gid_t skipped, long *start, long *size, gid_t **gids,
                                              long limit, int *error);

/* What a call gives: the status, and the error number beside a status other than success. */
struct outcome {
    enum nss_status status;
    int error;
};

static const struct outcome success = { NSS_STATUS_SUCCESS, 0 };
static const struct outcome not_found = { NSS_STATUS_NOTFOUND, ENOENT };

/* The error number of a lookup that nobody can answer is that of a name that nobody knows: programs
 * that add users, or start early, take every other one for a fault of the host and give up. */
static const struct outcome unavailable = { NSS_STATUS_UNAVAIL, ENOENT };
static const struct outcome faulty = { NSS_STATUS_UNAVAIL, EIO };
static const struct outcome try_again = { NSS_STATUS_TRYAGAIN, EAGAIN };
static const struct outcome buffer_too_small = { NSS_STATUS_TRYAGAIN, ERANGE };

static struct outcome outcome_of_end(enum exchange_end end)
{
    switch (end) {
    case EXCHANGE_WELL:
        return success;
    case EXCHANGE_NO_DAEMON:
    case EXCHANGE_PAUSED:
        return unavailable;
    case EXCHANGE_LATE:
    case EXCHANGE_STARVED:
        return try_again;
    case EXCHANGE_BROKEN:
        break;
    }
    return faulty;
}

static struct outcome outcome_of_saying(enum saying saying)
{
    switch (saying) {
    case SAYS_FOUND:
        return success;
    case SAYS_ABSENT:
        return not_found;
    case SAYS_DARK:
        return unavailable;
    case SAYS_DROPPED:
        return try_again;
    default:
        return faulty;
    }
}

static struct outcome outcome_of_reading(enum reading reading)
{
    switch (reading) {
    case READ:
        return success;
    case UNFIT:
        return not_found;
    case NO_SPACE:
        return buffer_too_small;
    case BAD:
        break;
    }
    return faulty;
}

static enum nss_status report(struct outcome outcome, int *error)
{
    if (outcome.status != NSS_STATUS_SUCCESS)
        *error = outcome.error;
    return outcome.status;
}

/* A user's name, or a group's, that the daemon is asked. Root is a matter of the host alone. */
static bool is_asked(const char *name)
{
    return is_account_name(name) && strcmp(name, "root") != 0;
}

static struct outcome open_exchange(struct exchange *exchange, const struct request *request)
{
    return outcome_of_end(exchange_open(exchange, CONNECTION_KEPT, request, moment_after(BIXETHOMI_LOOKUP_SECONDS)));
}

/* Asks for a record and has its whole reply in the buffer; the line of a found one begins at `line`
 * and ends at `length`. */
static struct outcome ask_record(const struct request *request, char *buffer, size_t room, size_t *line, size_t *length)
{
    struct exchange exchange;
    struct lookup_reply reply;
    struct outcome outcome;

    outcome = open_exchange(&exchange, request);
    if (outcome.status == NSS_STATUS_SUCCESS && exchange.length > room)
        outcome = buffer_too_small;
    if (outcome.status == NSS_STATUS_SUCCESS)
        outcome = outcome_of_end(exchange_fill(&exchange, buffer, exchange.length));
    exchange_close(&exchange);
    if (outcome.status != NSS_STATUS_SUCCESS)
        return outcome;
    reply = read_lookup(buffer, exchange.length);
    *line = reply.line;
    *length = exchange.length;
    return outcome_of_saying(reply.saying);
}

static struct outcome ask_user(const struct request *request, struct passwd *user, char *buffer, size_t room)
{
    size_t line = 0;
    size_t length = 0;
    struct outcome outcome = ask_record(request, buffer, room, &line, &length);

    if (outcome.status == NSS_STATUS_SUCCESS)
        outcome = outcome_of_reading(read_user(buffer, line, length, room, user));
    return outcome;
}

static struct outcome ask_group(const struct request *request, struct group *group, char *buffer, size_t room)
{
    size_t line = 0;
    size_t length = 0;
    struct outcome outcome = ask_record(request, buffer, room, &line, &length);

    if (outcome.status == NSS_STATUS_SUCCESS)
        outcome = outcome_of_reading(read_group(buffer, line, length, room, group));
    return outcome;
}

/* A user has to have both numbers within the limits, as sssd has it. */
static bool is_given_user(const struct limits *limits, const struct passwd *user)
{
    return is_within(limits, user->pw_uid) && is_within(limits, user->pw_gid);
}

enum nss_status _nss_bixethomi_getpwnam_r(const char *name, struct passwd *result, char *buffer, size_t room, int *error)
{
    int saved = errno;
    struct limits limits = read_limits();
    struct request request;
    struct passwd user = { .pw_name = NULL };
    struct outcome outcome = not_found;

    if (is_asked(name) && request_by_name(&request, COMMAND_USER, name))
        outcome = ask_user(&request, &user, buffer, room);
    if (outcome.status == NSS_STATUS_SUCCESS && strcmp(user.pw_name, name) != 0)
        outcome = faulty;
    if (outcome.status == NSS_STATUS_SUCCESS && !is_given_user(&limits, &user))
        outcome = not_found;
    if (outcome.status == NSS_STATUS_SUCCESS)
        *result = user;
    errno = saved;
    return report(outcome, error);
}

enum nss_status _nss_bixethomi_getpwuid_r(uid_t uid, struct passwd *result, char *buffer, size_t room, int *error)
{
    int saved = errno;
    struct limits limits = read_limits();
    struct request request;
    struct passwd user = { .pw_name = NULL };
    struct outcome outcome = not_found;

    if (is_within(&limits, uid) && request_by_number(&request, COMMAND_UID, uid))
        outcome = ask_user(&request, &user, buffer, room);
    if (outcome.status == NSS_STATUS_SUCCESS && user.pw_uid != uid)
        outcome = faulty;
    if (outcome.status == NSS_STATUS_SUCCESS && !is_given_user(&limits, &user))
        outcome = not_found;
    if (outcome.status == NSS_STATUS_SUCCESS)
        *result = user;
    errno = saved;
    return report(outcome, error);
}

enum nss_status _nss_bixethomi_getgrnam_r(const char *name, struct group *result, char *buffer, size_t room, int *error)
{
    int saved = errno;
    struct limits limits = read_limits();
    struct request request;
    struct group group = { .gr_name = NULL };
    struct outcome outcome = not_found;

    if (is_asked(name) && request_by_name(&request, COMMAND_GROUP, name))
        outcome = ask_group(&request, &group, buffer, room);
    if (outcome.status == NSS_STATUS_SUCCESS && strcmp(group.gr_name, name) != 0)
        outcome = faulty;
    if (outcome.status == NSS_STATUS_SUCCESS && !is_within(&limits, group.gr_gid))
        outcome = not_found;
    if (outcome.status == NSS_STATUS_SUCCESS)
        *result = group;
    errno = saved;
    return report(outcome, error);
}

enum nss_status _nss_bixethomi_getgrgid_r(gid_t gid, struct group *result, char *buffer, size_t room, int *error)
{
    int saved = errno;
    struct limits limits = read_limits();
    struct request request;
    struct group group = { .gr_name = NULL };
    struct outcome outcome = not_found;

    if (is_within(&limits, gid) && request_by_number(&request, COMMAND_GID, gid))
        outcome = ask_group(&request, &group, buffer, room);
    if (outcome.status == NSS_STATUS_SUCCESS && group.gr_gid != gid)
        outcome = faulty;
    if (outcome.status == NSS_STATUS_SUCCESS)
        *result = group;
    errno = saved;
    return report(outcome, error);
}

/* The caller's list of gids, which grows as the C library's convention has it: `size` places, at most
 * `limit` where that is above 0, of which `count` are used. */
struct gid_list {
    gid_t **gids;
    long *size;
    long count;
    long limit;
    gid_t skipped;
    const struct limits *limits;
    bool is_full;
};

static struct outcome grow(struct gid_list *list)
{
    long size;
    gid_t *grown;

    if (list->limit > 0 && *list->size >= list->limit) {
        list->is_full = true;
        return success;
    }
    size = *list->size > 0 ? *list->size * 2 : 16;
    if (list->limit > 0 && size > list->limit)
        size = list->limit;
    grown = realloc(*list->gids, (size_t)size * sizeof **list->gids);
    if (grown == NULL)
        return (struct outcome){ NSS_STATUS_TRYAGAIN, ENOMEM };
    *list->gids = grown;
    *list->size = size;
    return success;
}

/* A directory puts no user into a group whose number is the host's own matter. */
static struct outcome add_gid(struct gid_list *list, gid_t gid)
{
    if (list->is_full || gid == list->skipped || !is_within(list->limits, gid))
        return success;
    if (list->count >= *list->size) {
        struct outcome outcome = grow(list);

        if (outcome.status != NSS_STATUS_SUCCESS || list->is_full)
            return outcome;
    }
    (*list->gids)[list->count++] = gid;
    return success;
}

static struct outcome add_gids(struct gid_list *list, struct gid_reader *reader, const char *piece, size_t length, size_t at)
{
    for (;;) {
        uint32_t gid = 0;
        enum gid_reading reading = next_gid(reader, piece, length, &at, &gid);
        struct outcome outcome = success;

        if (reading == GID_NEEDS_MORE)
            return success;
        outcome = reading == GID_READ ? add_gid(list, gid) : faulty;
        if (outcome.status != NSS_STATUS_SUCCESS)
            return outcome;
    }
}

static struct outcome add_last_gid(struct gid_list *list, struct gid_reader *reader)
{
    uint32_t gid = 0;

    switch (last_gid(reader, &gid)) {
    case GID_READ:
        return add_gid(list, gid);
    case GID_NEEDS_MORE:
        return success;
    case GID_BAD:
        break;
    }
    return faulty;
}

/* The text is read piece by piece, so that the stack's piece is room enough for any number of groups.
 * The words and the name in front of the gids fit into the first piece. */
static struct outcome read_gids(struct exchange *exchange, char *piece, size_t room, const char *name, struct gid_list *list)
{
    size_t first = exchange->length < room ? exchange->length : room;
    struct gid_reader reader = { .digits = 0 };
    struct outcome outcome = outcome_of_end(exchange_fill(exchange, piece, first));
    struct lookup_reply reply;
    size_t at;

    if (outcome.status != NSS_STATUS_SUCCESS)
        return outcome;
    reply = read_lookup(piece, first);
    /* Only a found one is longer than a piece. */
    if (reply.saying != SAYS_FOUND)
        return first == exchange->length ? outcome_of_saying(reply.saying) : faulty;
    at = reply.line;
    outcome = outcome_of_reading(read_groups_name(piece, first, &at, name));
    if (outcome.status == NSS_STATUS_SUCCESS)
        outcome = add_gids(list, &reader, piece, first, at);
    while (outcome.status == NSS_STATUS_SUCCESS && exchange->received < exchange->length) {
        size_t taken = 0;

        outcome = outcome_of_end(exchange_take(exchange, piece, room, &taken));
        if (outcome.status == NSS_STATUS_SUCCESS)
            outcome = add_gids(list, &reader, piece, taken, 0);
    }
    return outcome.status == NSS_STATUS_SUCCESS ? add_last_gid(list, &reader) : outcome;
}

/* A local user is the host's own: the directory's user of the same name is another one. So nothing about local users waits
 * for the daemon. */
static bool has_groups_here(const char *name, const struct limits *limits)
{
    return is_asked(name) && (limits->gives_groups_to_local_users || !is_local_user(name));
}

enum nss_status _nss_bixethomi_initgroups_dyn(const char *name, gid_t skipped, long *start, long *size, gid_t **gids,
                                              long limit, int *error)
{
    int saved = errno;
    struct limits limits = read_limits();
    struct request request;
    struct outcome outcome = not_found;

    if (has_groups_here(name, &limits) && request_by_name(&request, COMMAND_GROUPS_OF_USER, name)) {
        struct gid_list list = {
            .gids = gids, .size = size, .count = *start, .limit = limit, .skipped = skipped, .limits = &limits
        };
        struct exchange exchange;
        char piece[1024];

        outcome = open_exchange(&exchange, &request);
        if (outcome.status == NSS_STATUS_SUCCESS)
            outcome = read_gids(&exchange, piece, sizeof piece, name, &list);
        exchange_close(&exchange);
        /* Of a reply that is not whole no group is given. */
        if (outcome.status == NSS_STATUS_SUCCESS)
            *start = list.count;
    }
    errno = saved;
    return report(outcome, error);
}
