/* mutations SECONDS SEED: for so long mutated replies to every reader of replies, and random texts to every maker of requests,
 * built with the address sanitizer and that of undefined behaviour. Each text stands in a block of exactly its room, so that a
 * byte read or written outside is seen. */
#include <stdio.h>
#include <stdlib.h>
#include <time.h>

#include "frames.h"
#include "mutate.h"
#include "recent.h"
#include "replies.h"

static void demand(bool holds, const char *what, unsigned long turn)
{
    if (holds)
        return;
    fprintf(stderr, "mutation %lu: %s\n", turn, what);
    exit(1);
}

/* The text begins in the block and ends in it. */
static bool lies_in(const char *text, const char *block, size_t room)
{
    return text >= block && text < block + room && memchr(text, '\0', (size_t)(block + room - text)) != NULL;
}

static void try_user(const char *text, size_t length, size_t room, unsigned long turn)
{
    char *block = malloc(room);
    struct lookup_reply reply;
    struct passwd user;

    if (block == NULL)
        abort();
    memcpy(block, text, length);
    reply = read_lookup(block, length);
    if (reply.saying == SAYS_FOUND && read_user(block, reply.line, length, room, &user) == READ) {
        demand(lies_in(user.pw_name, block, room) && is_account_name(user.pw_name), "user's name", turn);
        demand(lies_in(user.pw_passwd, block, room), "password field", turn);
        demand(lies_in(user.pw_gecos, block, room) && strpbrk(user.pw_gecos, "\n\r\t") == NULL, "gecos", turn);
        demand(lies_in(user.pw_dir, block, room) && strchr(user.pw_dir, '\n') == NULL, "home", turn);
        demand(lies_in(user.pw_shell, block, room) && strchr(user.pw_shell, '\n') == NULL, "shell", turn);
        demand(is_account_number(user.pw_uid) && is_account_number(user.pw_gid), "numbers", turn);
    }
    free(block);
}

static void try_group(const char *text, size_t length, size_t room, unsigned long turn)
{
    char *block = malloc(room);
    struct lookup_reply reply;
    struct group group;

    if (block == NULL)
        abort();
    memcpy(block, text, length);
    reply = read_lookup(block, length);
    if (reply.saying == SAYS_FOUND && read_group(block, reply.line, length, room, &group) == READ) {
        char *end = block + room;

        demand(lies_in(group.gr_name, block, room) && is_account_name(group.gr_name), "group's name", turn);
        demand(is_account_number(group.gr_gid), "gid", turn);
        demand((char *)group.gr_mem > block && (char *)group.gr_mem < end, "list of members", turn);
        for (char **member = group.gr_mem;; member++) {
            demand((char *)(member + 1) <= end, "end of the list of members", turn);
            if (*member == NULL)
                break;
            demand(lies_in(*member, block, room) && is_member_name(*member), "member", turn);
        }
    }
    free(block);
}

/* The gids of a text, in pieces cut at random. */
static void try_gids(uint64_t *state, const char *text, size_t length, unsigned long turn)
{
    char *block = malloc(length + 1);
    struct lookup_reply reply;
    size_t at;

    if (block == NULL)
        abort();
    memcpy(block, text, length);
    reply = read_lookup(block, length);
    at = reply.line;
    if (reply.saying == SAYS_FOUND && read_groups_name(block, length, &at, "alice") == READ) {
        struct gid_reader reader = { .digits = 0 };
        enum gid_reading reading = GID_NEEDS_MORE;
        uint32_t gid;

        demand(at <= length && block[at - 1] == ':', "end of the name", turn);
        while (at < length && reading != GID_BAD) {
            size_t end = at + 1 + random_below(state, length - at);

            do
                reading = next_gid(&reader, block, end, &at, &gid);
            while (reading == GID_READ);
            demand(reading == GID_BAD || at == end, "bytes left in a piece", turn);
        }
        if (reading != GID_BAD)
            last_gid(&reader, &gid);
    }
    free(block);
}

/* What is read of a reply before anybody asks for it: it says no more than the readers of whole replies do. */
static void try_ahead(const char *text, size_t length, unsigned long turn)
{
    char *block = malloc(length + 1);
    uint32_t groups[4];
    uint32_t uid = 0;
    uint32_t gid = 0;
    struct passwd user;
    struct lookup_reply reply;

    if (block == NULL)
        abort();
    memcpy(block, text, length);
    reply = read_lookup(block, length);
    demand(read_first_groups(block, length, groups, 4) <= 4, "first groups", turn);
    if (read_user_numbers(block, length, &uid, &gid) && read_user(block, reply.line, length, length, &user) == READ)
        demand(user.pw_uid == uid && user.pw_gid == gid, "a user's numbers", turn);
    free(block);
}

static void try_words(const char *text, size_t length, bool is_whole)
{
    char *block = malloc(length + 1);

    if (block == NULL)
        abort();
    memcpy(block, text, length);
    read_login(block, length);
    read_access(block, length, is_whole);
    free(block);
}

/* A text of so many random bytes, none of them 0, in a block of its own. */
static char *random_text(uint64_t *state, size_t length)
{
    char *text = malloc(length + 1);

    if (text == NULL)
        abort();
    for (size_t i = 0; i < length; i++)
        text[i] = (char)(unsigned char)(1 + random_below(state, 255));
    text[length] = '\0';
    return text;
}

/* A length that is mostly near a bound of the field. */
static size_t random_length(uint64_t *state, size_t longest)
{
    if (random_below(state, 2) == 0)
        return random_below(state, 24);
    return longest - 2 + random_below(state, 5);
}

/* Whether the request's next field is this text; `at` is then behind it. */
static bool has_field(const struct request *request, size_t *at, const char *text)
{
    size_t length = strlen(text);
    const unsigned char *field = request->bytes + *at;

    *at += 2 + length;
    return *at <= request->length && (size_t)field[0] * 256 + field[1] == length && memcmp(field + 2, text, length) == 0;
}

static bool has_front(const struct request *request, enum command command)
{
    const unsigned char *bytes = request->bytes;
    size_t length = (size_t)bytes[0] << 24 | (size_t)bytes[1] << 16 | (size_t)bytes[2] << 8 | bytes[3];

    return request->length <= LONGEST_REQUEST && length == request->length - 4 && bytes[4] == (unsigned char)command;
}

static void try_request(uint64_t *state, unsigned long turn)
{
    size_t name_length = random_length(state, LONGEST_NAME);
    size_t other_length = random_length(state, random_below(state, 2) == 0 ? LONGEST_NAME : LONGEST_PASSWORD);
    char *name = random_text(state, name_length);
    char *other = random_text(state, other_length);
    bool fits = name_length >= 1 && name_length <= LONGEST_NAME;
    struct request *request = malloc(sizeof *request);
    size_t at = 5;

    if (request == NULL)
        abort();
    demand(request_by_name(request, COMMAND_GROUP, name) == fits, "which names are asked", turn);
    demand(!fits || (has_front(request, COMMAND_GROUP) && has_field(request, &at, name) && at == request->length), "a name", turn);
    at = 5;
    fits = fits && other_length <= LONGEST_PASSWORD;
    demand(request_login(request, name, other) == fits, "which logins are asked", turn);
    demand(!fits || (has_front(request, COMMAND_LOGIN) && has_field(request, &at, name) && has_field(request, &at, other)
                     && at == request->length), "a login", turn);
    at = 5;
    fits = fits && other_length >= 1 && other_length <= LONGEST_NAME;
    demand(request_access(request, name, other) == fits, "which account checks are asked", turn);
    demand(!fits || (has_front(request, COMMAND_ACCESS) && has_field(request, &at, name) && has_field(request, &at, other)
                     && at == request->length), "an account check", turn);
    free(request);
    free(other);
    free(name);
}

/* Mutated frames behind one another, in pieces cut at random, as a connection gives them. */
static void try_frames(uint64_t *state, unsigned long turn)
{
    struct recent *recent = malloc(sizeof *recent);
    unsigned char *bytes = malloc(4 * (4 + LONGEST_MUTATED));
    size_t length = 0;
    size_t taken = 0;

    if (recent == NULL || bytes == NULL)
        abort();
    recent_forget(recent);
    for (size_t i = 0; i < 4; i++) {
        char text[LONGEST_MUTATED];
        size_t size = mutate(state, WHOLE_REPLIES, text);
        size_t said = random_below(state, 16) == 0 ? (size_t)next_random(state) >> random_below(state, 64) : size;

        for (int byte = 0; byte < 4; byte++)
            bytes[length++] = (unsigned char)(said >> (24 - 8 * byte));
        memcpy(bytes + length, text, size);
        length += size;
        demand(recent_add(recent, (const unsigned char *)"request", 1 + i, 1) != NULL, "a question", turn);
    }
    while (taken < length && recent->answered < recent->count) {
        unsigned char *place;
        size_t room;
        size_t count;
        size_t long_length;

        if (recent_is_long(recent, &long_length))
            break;
        room = recent_place(recent, &place);
        demand(room > 0 && place >= recent->bytes && place + room <= recent->bytes + RECENT_ROOM, "room for bytes", turn);
        count = 1 + random_below(state, length - taken < room ? length - taken : room);
        memcpy(place, bytes + taken, count);
        taken += count;
        if (!recent_put(recent, count))
            break;
    }
    for (size_t i = 0; i < recent->answered; i++)
        demand(recent->questions[i].text + recent->questions[i].length <= recent->filled, "a reply's place", turn);
    free(bytes);
    free(recent);
}

static void try_reply(uint64_t *state, unsigned long turn)
{
    char text[LONGEST_MUTATED];
    size_t length = mutate(state, WHOLE_REPLIES, text);
    size_t room = length + random_below(state, 128);

    /* malloc(0) may be a null pointer. */
    if (room == 0)
        room = 1;
    try_user(text, length, room, turn);
    try_group(text, length, room, turn);
    try_gids(state, text, length, turn);
    try_ahead(text, length, turn);
    try_words(text, length, random_below(state, 4) != 0);
}

int main(int count, char **words)
{
    time_t end = time(NULL) + (count > 1 ? atol(words[1]) : 60);
    uint64_t state = count > 2 ? strtoull(words[2], NULL, 10) : 1;
    unsigned long turn = 0;

    demand(state != 0, "a seed that is not 0", 0);
    do {
        try_reply(&state, turn);
        try_request(&state, turn);
        try_frames(&state, turn);
        turn++;
    } while (turn % 256 != 0 || time(NULL) < end);
    printf("%lu mutated replies, requests and streams of four frames\n", turn);
    return 0;
}
