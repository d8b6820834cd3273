/* The texts of the daemon's replies, read without input, output or allocation. The bytes are not
 * trusted: what has not exactly the form of a reply is none, and no byte outside the text is read. */
#ifndef BIXETHOMI_REPLIES_H
#define BIXETHOMI_REPLIES_H

#include <grp.h>
#include <pwd.h>
#include <stdbool.h>
#include <stddef.h>
#include <stdint.h>

/* A reply's text has at most so many bytes; a greater length begins no reply. */
#define LONGEST_REPLY ((size_t)256 * 1024 * 1024)

/* What a reply says, by its first words. */
enum saying {
    SAYS_NOTHING, /* the text has no reply's form */
    SAYS_FOUND,   /* also an old record, kept over an outage */
    SAYS_ABSENT,  /* also absent as known before an outage, and a name that is filtered out */
    SAYS_DARK,    /* no server can be reached, and nothing is kept */
    SAYS_REFUSED, /* a server refused; the number is its LDAP code */
    SAYS_MANY,    /* more than one entry fits; the number says how many */
    SAYS_DROPPED, /* another client asked the same and left before the answer came */
    SAYS_EMPTY_PASSWORD,
    SAYS_ACCEPTED_ONLINE,
    SAYS_ACCEPTED_OFFLINE,
    SAYS_WRONG_PASSWORD,
    SAYS_EXPIRED,       /* the kept hash is too old; the number is its last second, Unix time */
    SAYS_BLOCKED_UNTIL, /* after wrong guesses; the number is a Unix time */
    SAYS_BLOCKED_UNTIL_ONLINE,
    SAYS_NO_HASH, /* no server can be reached, and no hash is kept */
    SAYS_GRANTED,
    SAYS_DENIED
};

/* A lookup's reply: a record's line follows where it is found. */
struct lookup_reply {
    enum saying saying;
    size_t line; /* where the line begins in the text, in bytes */
};

struct login_reply {
    enum saying saying;
    uint64_t number; /* as said at the saying, else 0 */
};

/* What reading a record came to. */
enum reading {
    READ,     /* the record is whole */
    BAD,      /* the line has no record's form */
    UNFIT,    /* no host can have such a user or group; see is_account_name */
    NO_SPACE  /* the room is too small; nothing of the record is given */
};

/* Whether a host can have a user or a group of this name: 1 to 255 bytes, no control bytes and no
 * colon, as passwd(5) has them, so that no line printed for one reads as another's; and not digits
 * alone, which programs such as chown(1) would take for a number. */
bool is_account_name(const char *name);

/* Whether such a user can also be told as a member of a group: group(5) parts members by commas. */
bool is_member_name(const char *name);

/* Whether a host may learn of this uid or gid from a directory: not 0, which is root's, and not the
 * greatest number, which stands for none. */
bool is_account_number(uint32_t number);

/* Each reads the front of a text of `length` bytes; `line` of a found record may be the length. */
struct lookup_reply read_lookup(const char *text, size_t length);
struct login_reply read_login(const char *text, size_t length);

/* The front of the reply to an account check. `is_whole` says that the text ends at `length`; else
 * more follows, of which only the name of the rule that grants may be cut. */
enum saying read_access(const char *text, size_t length, bool is_whole);

/* Reads the line from `line` up to `length` of the text in `buffer`, which has room for `room` bytes,
 * and puts the record's texts at the buffer's front, over the reply. On READ each text ends with a
 * zero byte in the buffer, and so does a group's list with a null pointer. `line` is above 0. */
enum reading read_user(char *buffer, size_t line, size_t length, size_t room, struct passwd *user);
enum reading read_group(char *buffer, size_t line, size_t length, size_t room, struct group *group);

/* The numbers of a found user; false where the line does not begin as a user's. */
bool read_user_numbers(const char *text, size_t length, uint32_t *uid, uint32_t *gid);

/* The groups of a user, read piece by piece: first the name in front of the colon, then the gids.
 * The text is in `text` from `*at` on; the whole name has to be in the piece. On READ `*at` is behind
 * the colon, and the name is compared with `name` byte for byte: BAD where it is another. */
enum reading read_groups_name(const char *text, size_t length, size_t *at, const char *name);

struct gid_reader {
    uint64_t number;
    unsigned digits;
    bool is_after_comma;
};

enum gid_reading { GID_READ, GID_NEEDS_MORE, GID_BAD };

/* Takes bytes from `*at` on up to the next whole gid. GID_NEEDS_MORE: the piece is used up. */
enum gid_reading next_gid(struct gid_reader *reader, const char *piece, size_t length, size_t *at, uint32_t *gid);

/* At the end of the text: the last gid, where there is one. GID_NEEDS_MORE: there is none. */
enum gid_reading last_gid(struct gid_reader *reader, uint32_t *gid);

/* Of a whole reply the first groups, at most `most`; none where it is no list of groups. */
size_t read_first_groups(const char *text, size_t length, uint32_t *groups, size_t most);

#endif
