/* One question to the daemon: one request, one reply, and one moment by which all of it ends. A process may keep the connection
 * of a question that went well for its next one; the daemon ends one that is idle for a minute, and then another is made. With
 * it the process keeps for a moment what was asked over it, so that a question that is asked twice is sent once, and questions
 * that come next are sent ahead. A process of root keeps no connection: the daemon has few places at the administrator's socket.
 *
 * After an answer that did not come in time the process asks nothing for some seconds. */
#ifndef BIXETHOMI_EXCHANGE_H
#define BIXETHOMI_EXCHANGE_H

#include <stdbool.h>
#include <stddef.h>
#include <stdint.h>

#include "connection.h"
#include "frames.h"
#include "recent.h"

/* Seconds for a whole question of libc. The daemon gives each server 6 seconds for each answer and then takes the next. */
#ifndef BIXETHOMI_LOOKUP_SECONDS
#define BIXETHOMI_LOOKUP_SECONDS 9
#endif

/* Seconds for all questions of one login, account check or password change. */
#ifndef BIXETHOMI_LOGIN_SECONDS
#define BIXETHOMI_LOGIN_SECONDS 60
#endif

enum connection_use {
    CONNECTION_OF_ITS_OWN,
    CONNECTION_KEPT /* for requests that may be made twice: the daemon may end a kept one meanwhile */
};

/* A connection, and what is asked over it. */
struct conversation {
    struct connection connection;
    struct recent recent;
};

struct exchange {
    struct conversation *conversation; /* the process's, or `own` */
    enum connection_use use;
    bool is_of_root; /* by the effective user */
    int cancel_state;
    int64_t deadline;                 /* nanoseconds of the clock that bounds waits */
    int64_t now;                      /* and of the one by which questions age */
    struct recent_question *question; /* where the whole reply was there at once */
    bool was_given_before;
    const unsigned char *front; /* of the reply's text, so many bytes of it */
    size_t front_length;
    size_t length;   /* of the reply's text, in bytes, at most LONGEST_REPLY */
    size_t received; /* of these by the caller */
    struct conversation own;
};

/* Connects, or takes the kept connection, sends the request where its reply is not there or on its way, and takes the reply's
 * length, all up to the moment `deadline`, which bounds the calls below too. A thread cannot be cancelled from here to `exchange_close`, which has to follow however this ends. */
enum exchange_end exchange_open(struct exchange *exchange, enum connection_use use, const struct request *request,
                                int64_t deadline);

/* Takes one more piece of the text, at most `room` bytes and none behind the text's end; its size goes
 * to `taken` and is not 0. Text has to be left, and `room` is not 0. */
enum exchange_end exchange_take(struct exchange *exchange, char *piece, size_t room, size_t *taken);

/* Takes the text up to `wanted` bytes, which are at most its length, into `text`, whose front has
 * what was received before. */
enum exchange_end exchange_fill(struct exchange *exchange, char *text, size_t wanted);

/* Keeps the connection where that is asked and the reply is whole, or closes it. Over a kept one the questions are sent, without
 * a wait for their replies, that programs ask next. */
void exchange_close(struct exchange *exchange);

#endif
