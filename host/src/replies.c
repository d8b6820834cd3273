#include "replies.h"

#include <stdalign.h>
#include <string.h>

/* What is unread of a text. */
struct cursor {
    const char *at;
    const char *end;
};

static struct cursor cursor_over(const char *text, size_t from, size_t to)
{
    return (struct cursor){ .at = text + from, .end = text + to };
}

static bool take_text(struct cursor *cursor, const char *text)
{
    size_t length = strlen(text);

    if ((size_t)(cursor->end - cursor->at) < length || memcmp(cursor->at, text, length) != 0)
        return false;
    cursor->at += length;
    return true;
}

static bool is_at_end(const struct cursor *cursor)
{
    return cursor->at == cursor->end;
}

static bool is_digit(char byte)
{
    return byte >= '0' && byte <= '9';
}

/* A decimal number without a sign and without a leading zero, up to `greatest`. */
static bool take_number(struct cursor *cursor, uint64_t greatest, uint64_t *number)
{
    const char *first = cursor->at;
    uint64_t value = 0;

    while (!is_at_end(cursor) && is_digit(*cursor->at)) {
        uint64_t digit = (uint64_t)(*cursor->at - '0');

        if (value > (greatest - digit) / 10)
            return false;
        value = value * 10 + digit;
        cursor->at++;
    }
    if (cursor->at == first || (*first == '0' && cursor->at - first > 1))
        return false;
    *number = value;
    return true;
}

static bool take_entry_number(struct cursor *cursor)
{
    uint64_t number;

    return take_number(cursor, UINT64_MAX, &number);
}

/* A number alone, up to the end. */
static bool ends_with_number(struct cursor cursor, uint64_t greatest, uint64_t *number)
{
    return take_number(&cursor, greatest, number) && is_at_end(&cursor);
}

/* What no server could say, the same for lookups, logins and account checks. */
static enum saying read_unanswered(struct cursor cursor, uint64_t *number)
{
    struct cursor start = cursor;

    if (take_text(&cursor, "dark "))
        return ends_with_number(cursor, UINT64_MAX, number) ? SAYS_DARK : SAYS_NOTHING;
    cursor = start;
    if (take_text(&cursor, "refused "))
        return ends_with_number(cursor, UINT32_MAX, number) ? SAYS_REFUSED : SAYS_NOTHING;
    cursor = start;
    if (take_text(&cursor, "many "))
        return ends_with_number(cursor, UINT32_MAX, number) ? SAYS_MANY : SAYS_NOTHING;
    cursor = start;
    if (take_text(&cursor, "dropped "))
        return ends_with_number(cursor, UINT64_MAX, number) ? SAYS_DROPPED : SAYS_NOTHING;
    return SAYS_NOTHING;
}

static enum saying read_absent(struct cursor cursor)
{
    struct cursor start = cursor;
    uint64_t number;

    if (take_text(&cursor, "none "))
        return ends_with_number(cursor, UINT64_MAX, &number) ? SAYS_ABSENT : SAYS_NOTHING;
    cursor = start;
    if (take_text(&cursor, "oldnone ")) {
        bool is_whole = take_entry_number(&cursor) && take_text(&cursor, " ");

        return is_whole && ends_with_number(cursor, UINT64_MAX, &number) ? SAYS_ABSENT : SAYS_NOTHING;
    }
    cursor = start;
    return take_text(&cursor, "filtered") && is_at_end(&cursor) ? SAYS_ABSENT : SAYS_NOTHING;
}

struct lookup_reply read_lookup(const char *text, size_t length)
{
    struct lookup_reply reply = { SAYS_NOTHING, 0 };
    struct cursor start = cursor_over(text, 0, length);
    struct cursor cursor = start;
    bool is_found = false;
    uint64_t number;

    if (take_text(&cursor, "found "))
        is_found = take_entry_number(&cursor) && take_text(&cursor, " ");
    else if (take_text(&cursor, "old "))
        is_found = take_entry_number(&cursor) && take_text(&cursor, " ")
            && take_entry_number(&cursor) && take_text(&cursor, " ");
    if (is_found) {
        reply.saying = SAYS_FOUND;
        reply.line = (size_t)(cursor.at - text);
        return reply;
    }
    reply.saying = read_absent(start);
    if (reply.saying == SAYS_NOTHING)
        reply.saying = read_unanswered(start, &number);
    return reply;
}

/* The forms of a login that are words and one number, and those that are words alone. */
static const struct {
    const char *words;
    enum saying saying;
    bool has_moment; /* the number tells the user something */
} numbered_logins[] = {
    { "accepted online ", SAYS_ACCEPTED_ONLINE, false },
    { "accepted offline ", SAYS_ACCEPTED_OFFLINE, false },
    { "wrong online ", SAYS_WRONG_PASSWORD, false },
    { "wrong offline ", SAYS_WRONG_PASSWORD, false },
    { "expired ", SAYS_EXPIRED, true },
    { "blocked ", SAYS_BLOCKED_UNTIL, true },
}, plain_logins[] = {
    { "denied empty", SAYS_EMPTY_PASSWORD, false },
    { "blocked online", SAYS_BLOCKED_UNTIL_ONLINE, false },
    { "nohash", SAYS_NO_HASH, false },
};

struct login_reply read_login(const char *text, size_t length)
{
    struct login_reply reply = { SAYS_NOTHING, 0 };
    struct cursor start = cursor_over(text, 0, length);

    for (size_t i = 0; i < sizeof plain_logins / sizeof plain_logins[0]; i++) {
        struct cursor cursor = start;

        if (take_text(&cursor, plain_logins[i].words) && is_at_end(&cursor)) {
            reply.saying = plain_logins[i].saying;
            return reply;
        }
    }
    for (size_t i = 0; i < sizeof numbered_logins / sizeof numbered_logins[0]; i++) {
        struct cursor cursor = start;
        uint64_t number;

        if (take_text(&cursor, numbered_logins[i].words) && ends_with_number(cursor, UINT64_MAX, &number)) {
            reply.saying = numbered_logins[i].saying;
            reply.number = numbered_logins[i].has_moment ? number : 0;
            return reply;
        }
    }
    reply.saying = read_absent(start);
    if (reply.saying == SAYS_NOTHING)
        reply.saying = read_unanswered(start, &reply.number);
    return reply;
}

/* A printed text has no control bytes: they are escaped. */
static bool is_printed(struct cursor cursor)
{
    for (; !is_at_end(&cursor); cursor.at++)
        if ((unsigned char)*cursor.at < 0x20 || *cursor.at == 0x7f)
            return false;
    return true;
}

static bool grants(struct cursor cursor, bool is_whole)
{
    struct cursor start = cursor;

    /* A rule's name may be empty. */
    if (take_text(&cursor, "rule "))
        return is_printed(cursor);
    cursor = start;
    if (!take_text(&cursor, "permit") && !take_text(&cursor, "simple"))
        return false;
    return is_whole && is_at_end(&cursor);
}

static bool denies(struct cursor cursor, bool is_whole)
{
    bool has_reason = take_text(&cursor, "deny") || take_text(&cursor, "simple") || take_text(&cursor, "norule");

    return has_reason && is_whole && is_at_end(&cursor);
}

enum saying read_access(const char *text, size_t length, bool is_whole)
{
    struct cursor start = cursor_over(text, 0, length);
    struct cursor cursor = start;
    uint64_t number;
    enum saying saying;

    if (take_text(&cursor, "granted ")) {
        bool is_granted = take_entry_number(&cursor) && take_text(&cursor, " ") && grants(cursor, is_whole);

        return is_granted ? SAYS_GRANTED : SAYS_NOTHING;
    }
    if (take_text(&cursor, "denied ")) {
        bool is_denied = take_entry_number(&cursor) && take_text(&cursor, " ") && denies(cursor, is_whole);

        return is_denied ? SAYS_DENIED : SAYS_NOTHING;
    }
    if (!is_whole)
        return SAYS_NOTHING;
    saying = read_absent(start);
    return saying != SAYS_NOTHING ? saying : read_unanswered(start, &number);
}

bool is_account_name(const char *name)
{
    size_t length = strnlen(name, 256);

    if (length < 1 || length > 255 || strspn(name, "0123456789") == length)
        return false;
    for (const char *byte = name; *byte != '\0'; byte++)
        if ((unsigned char)*byte < 0x20 || *byte == 0x7f || *byte == ':')
            return false;
    return true;
}

bool is_member_name(const char *name)
{
    return is_account_name(name) && strchr(name, ',') == NULL;
}

bool is_account_number(uint32_t number)
{
    return number != 0 && number != UINT32_MAX;
}

/* A record's line while it is read: texts without their escapes go to the buffer's front, which never
 * overtakes what is unread, since no text is longer than it was in the reply. */
struct fields {
    struct cursor cursor;
    char *out;
};

/* How bytes that are no printing ones stand in a field: a text that a person reads has a space in
 * place of a control byte; in every other one it is kept, and a zero byte makes the record unfit. */
enum field_kind { FIELD_EXACT, FIELD_READ_BY_PEOPLE };

static int hex_value(char digit)
{
    if (is_digit(digit))
        return digit - '0';
    if (digit >= 'a' && digit <= 'f')
        return digit - 'a' + 10;
    return -1;
}

/* The next byte of a field, its escape undone; -1 where no field goes on so. */
static int take_field_byte(struct cursor *cursor)
{
    unsigned char byte = (unsigned char)*cursor->at;
    int high;
    int low;

    if (byte < 0x20 || byte == 0x7f)
        return -1;
    if (byte != '\\') {
        cursor->at++;
        return byte;
    }
    if (cursor->end - cursor->at < 3)
        return -1;
    high = hex_value(cursor->at[1]);
    low = hex_value(cursor->at[2]);
    if (high < 0 || low < 0)
        return -1;
    cursor->at += 3;
    return high * 16 + low;
}

/* Reads a field up to `stop`, which is taken, or up to the end where `stop` is 0, which no field has
 * unescaped. The text ends with a zero byte: the colon that it has, or the words in front of the
 * line, give the room. */
static enum reading take_field(struct fields *fields, char stop, enum field_kind kind, char **text)
{
    bool is_fit = true;

    *text = fields->out;
    while (!is_at_end(&fields->cursor) && *fields->cursor.at != ':' && (stop != ',' || *fields->cursor.at != ',')) {
        int byte = take_field_byte(&fields->cursor);

        if (byte < 0)
            return BAD;
        if (kind == FIELD_READ_BY_PEOPLE && (byte < 0x20 || byte == 0x7f))
            byte = ' ';
        if (byte == '\0' || byte == '\n')
            is_fit = false;
        *fields->out++ = (char)byte;
    }
    if (stop == ':') {
        if (is_at_end(&fields->cursor))
            return BAD;
        fields->cursor.at++;
    } else if (!is_at_end(&fields->cursor) && *fields->cursor.at == ':') {
        return BAD;
    }
    *fields->out++ = '\0';
    return is_fit ? READ : UNFIT;
}

static enum reading take_id(struct fields *fields, bool is_last, uint32_t *id)
{
    uint64_t number;

    if (!take_number(&fields->cursor, UINT32_MAX, &number))
        return BAD;
    if (is_last ? !is_at_end(&fields->cursor) : !take_text(&fields->cursor, ":"))
        return BAD;
    *id = (uint32_t)number;
    return is_account_number(*id) ? READ : UNFIT;
}

/* The worse of two: a line without a form is none, whatever else it has. */
static enum reading both(enum reading one, enum reading other)
{
    if (one == BAD || other == BAD)
        return BAD;
    return one == READ ? other : one;
}

enum reading read_user(char *buffer, size_t line, size_t length, size_t room, struct passwd *user)
{
    struct fields fields = { cursor_over(buffer, line, length), buffer };
    uint32_t uid = 0;
    uint32_t gid = 0;
    enum reading reading;

    if (room < length)
        return NO_SPACE;
    reading = take_field(&fields, ':', FIELD_EXACT, &user->pw_name);
    if (reading != BAD)
        reading = both(reading, take_field(&fields, ':', FIELD_EXACT, &user->pw_passwd));
    if (reading != BAD)
        reading = both(reading, take_id(&fields, false, &uid));
    if (reading != BAD)
        reading = both(reading, take_id(&fields, false, &gid));
    if (reading != BAD)
        reading = both(reading, take_field(&fields, ':', FIELD_READ_BY_PEOPLE, &user->pw_gecos));
    if (reading != BAD)
        reading = both(reading, take_field(&fields, ':', FIELD_EXACT, &user->pw_dir));
    if (reading != BAD)
        reading = both(reading, take_field(&fields, '\0', FIELD_EXACT, &user->pw_shell));
    if (reading == READ && !is_account_name(user->pw_name))
        reading = UNFIT;
    user->pw_uid = uid;
    user->pw_gid = gid;
    return reading;
}

/* Reads the members one behind the other, and counts those that a host can have. The others are taken
 * out again: with one of them libc prints no line of the whole group. */
static enum reading take_members(struct fields *fields, size_t *count)
{
    *count = 0;
    if (is_at_end(&fields->cursor))
        return READ;
    for (;;) {
        char *name;
        enum reading reading = take_field(fields, ',', FIELD_EXACT, &name);

        /* No member's name is empty. */
        if (reading == BAD || fields->out == name + 1)
            return BAD;
        if (reading == UNFIT || !is_member_name(name))
            fields->out = name;
        else
            ++*count;
        if (is_at_end(&fields->cursor))
            return READ;
        fields->cursor.at++;
    }
}

/* Puts the list of members behind their names. */
static enum reading list_members(char *names, size_t count, char *free_from, char *free_to, char ***members)
{
    size_t misfit = (size_t)((uintptr_t)free_from % alignof(char *));
    size_t gap = misfit == 0 ? 0 : alignof(char *) - misfit;
    size_t room = (size_t)(free_to - free_from);

    if (room < gap || (room - gap) / sizeof(char *) < count + 1)
        return NO_SPACE;
    *members = (char **)(void *)(free_from + gap);
    for (size_t i = 0; i < count; i++) {
        (*members)[i] = names;
        names += strlen(names) + 1;
    }
    (*members)[count] = NULL;
    return READ;
}

enum reading read_group(char *buffer, size_t line, size_t length, size_t room, struct group *group)
{
    struct fields fields = { cursor_over(buffer, line, length), buffer };
    uint32_t gid = 0;
    size_t count = 0;
    char *names = buffer;
    enum reading reading;

    if (room < length)
        return NO_SPACE;
    reading = take_field(&fields, ':', FIELD_EXACT, &group->gr_name);
    if (reading != BAD)
        reading = both(reading, take_field(&fields, ':', FIELD_EXACT, &group->gr_passwd));
    if (reading != BAD)
        reading = both(reading, take_id(&fields, false, &gid));
    if (reading != BAD) {
        names = fields.out;
        reading = both(reading, take_members(&fields, &count));
    }
    if (reading == READ && !is_account_name(group->gr_name))
        reading = UNFIT;
    group->gr_gid = gid;
    if (reading != READ)
        return reading;
    return list_members(names, count, fields.out, buffer + room, &group->gr_mem);
}

static bool skip_field(struct cursor *cursor)
{
    while (!is_at_end(cursor) && *cursor->at != ':')
        if (take_field_byte(cursor) < 0)
            return false;
    return take_text(cursor, ":");
}

bool read_user_numbers(const char *text, size_t length, uint32_t *uid, uint32_t *gid)
{
    struct lookup_reply reply = read_lookup(text, length);
    struct cursor cursor = cursor_over(text, reply.line, length);
    uint64_t numbers[2];

    if (reply.saying != SAYS_FOUND || !skip_field(&cursor) || !skip_field(&cursor))
        return false;
    for (size_t i = 0; i < 2; i++)
        if (!take_number(&cursor, UINT32_MAX, &numbers[i]) || !take_text(&cursor, ":"))
            return false;
    *uid = (uint32_t)numbers[0];
    *gid = (uint32_t)numbers[1];
    return true;
}

enum reading read_groups_name(const char *text, size_t length, size_t *at, const char *name)
{
    struct cursor cursor = cursor_over(text, *at, length);

    for (;;) {
        int byte;

        if (is_at_end(&cursor))
            return BAD;
        if (*cursor.at == ':')
            break;
        byte = take_field_byte(&cursor);
        /* A zero byte ends the name that was asked, and no other may. */
        if (byte <= 0 || byte != (unsigned char)*name)
            return BAD;
        name++;
    }
    *at = (size_t)(cursor.at - text) + 1;
    return *name == '\0' ? READ : BAD;
}

enum gid_reading next_gid(struct gid_reader *reader, const char *piece, size_t length, size_t *at, uint32_t *gid)
{
    while (*at < length) {
        char byte = piece[(*at)++];

        if (byte == ',') {
            if (reader->digits == 0)
                return GID_BAD;
            *gid = (uint32_t)reader->number;
            *reader = (struct gid_reader){ .is_after_comma = true };
            return GID_READ;
        }
        /* A leading zero stands alone. */
        if (!is_digit(byte) || (reader->digits > 0 && reader->number == 0))
            return GID_BAD;
        reader->number = reader->number * 10 + (uint64_t)(byte - '0');
        reader->digits++;
        if (reader->number > UINT32_MAX)
            return GID_BAD;
    }
    return GID_NEEDS_MORE;
}

enum gid_reading last_gid(struct gid_reader *reader, uint32_t *gid)
{
    if (reader->digits == 0)
        return reader->is_after_comma ? GID_BAD : GID_NEEDS_MORE;
    *gid = (uint32_t)reader->number;
    *reader = (struct gid_reader){ .is_after_comma = false };
    return GID_READ;
}

size_t read_first_groups(const char *text, size_t length, uint32_t *groups, size_t most)
{
    struct lookup_reply reply = read_lookup(text, length);
    struct cursor cursor = cursor_over(text, reply.line, length);
    struct gid_reader reader = { .digits = 0 };
    enum gid_reading reading = GID_READ;
    size_t count = 0;
    size_t at;

    if (reply.saying != SAYS_FOUND || !skip_field(&cursor))
        return 0;
    at = (size_t)(cursor.at - text);
    while (count < most && reading == GID_READ) {
        reading = next_gid(&reader, text, length, &at, &groups[count]);
        if (reading == GID_NEEDS_MORE && last_gid(&reader, &groups[count]) == GID_READ)
            count++;
        if (reading == GID_READ)
            count++;
    }
    return count;
}
