/* The questions that were asked over a connection a moment ago, in the order in which they were sent, and their replies as
 * they come: of the first ones they are there, of the others they are on their way. Bounded in number, bytes and time. There is no
 * input or output here; the bytes of replies are not trusted. */
#ifndef BIXETHOMI_RECENT_H
#define BIXETHOMI_RECENT_H

#include <stdbool.h>
#include <stddef.h>
#include <stdint.h>

#include "frames.h"

/* A reply answers no question that comes later than this after its own was sent. */
#ifndef BIXETHOMI_RECENT_NANOSECONDS
#define BIXETHOMI_RECENT_NANOSECONDS 20000000
#endif

enum {
    MOST_RECENT = 24,            /* questions */
    LONGEST_RECENT_REQUEST = 64, /* bytes; a longer one has its place in the order, and is not found again */
    RECENT_ROOM = 4096           /* bytes of replies, with their lengths in front */
};

struct recent_question {
    int64_t sent;          /* nanoseconds of the clock that goes on while the system sleeps */
    size_t request_length; /* 0: it answers no other question */
    size_t text, length;   /* of the reply, in `bytes`, where it is there */
    bool is_ahead;         /* it was sent before the program asked it */
    bool is_given;         /* the program had the whole reply */
    bool is_followed;      /* what comes next after it was asked ahead */
    unsigned char request[LONGEST_RECENT_REQUEST];
};

struct recent {
    size_t count;    /* of the questions */
    size_t answered; /* of these, from the first on */
    size_t next;     /* where the reply begins that comes next */
    size_t filled;   /* bytes */
    struct recent_question questions[MOST_RECENT];
    unsigned char bytes[RECENT_ROOM];
};

/* Nanoseconds of the clock by which questions age. */
int64_t recent_now(void);

bool is_recent(const struct recent_question *question, int64_t now);

/* Forgets what is answered where its last question is no longer recent. */
void recent_age(struct recent *recent, int64_t now);

/* The recent question with these bytes, answered or not; none, a null pointer. */
struct recent_question *recent_find(struct recent *recent, const unsigned char *request, size_t length, int64_t now);

/* One more question, behind those that are there; older ones that are answered are forgotten where there are too many. A null
 * pointer where the replies to too many are on their way. */
struct recent_question *recent_add(struct recent *recent, const unsigned char *request, size_t length, int64_t now);

/* As at the beginning: no question, whatever the bytes were. */
void recent_forget(struct recent *recent);

/* The replies that are on their way do not come any more. */
void recent_forget_awaited(struct recent *recent);

/* Where the bytes go that come next, and how many at least one; older replies are forgotten where there is no room. Only while
 * a reply is awaited that is not long. */
size_t recent_place(struct recent *recent, unsigned char **place);

/* So many bytes were put there. False where they begin no reply, or nobody asked for them. */
bool recent_put(struct recent *recent, size_t count);

/* Whether the reply that comes next is longer than all room; its length then goes to `length`. */
bool recent_is_long(const struct recent *recent, size_t *length);

/* The reply that comes next, a long one, is taken elsewhere: its front is at `front` until more bytes are put here. */
size_t recent_pass_long(struct recent *recent, const unsigned char **front);

#endif
