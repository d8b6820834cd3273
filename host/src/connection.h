/* A connection to one of the daemon's two sockets. Every wait has a bound, no signal is raised by a closed socket, and the
 * descriptor is not handed to programs that are started meanwhile. */
#ifndef BIXETHOMI_CONNECTION_H
#define BIXETHOMI_CONNECTION_H

#include <stdbool.h>
#include <stddef.h>
#include <stdint.h>
#include <sys/types.h>

enum exchange_end {
    EXCHANGE_WELL,
    EXCHANGE_NO_DAEMON, /* nobody listens, or the process is the daemon itself */
    EXCHANGE_LATE,      /* a bound has passed */
    EXCHANGE_PAUSED,    /* nothing was asked: an answer came too late a moment ago */
    EXCHANGE_BROKEN,    /* the daemon ended the connection, or what it sends begins no reply */
    EXCHANGE_STARVED    /* this process, or the system, has no descriptor or no memory to give */
};

struct connection {
    bool is_open;
    int descriptor;
    pid_t process; /* whose it is */
    dev_t device;  /* with the file, by which it is told from others under its descriptor */
    ino_t file;
};

/* Nanoseconds of a clock that stands while the system sleeps, by which waits are bounded. */
int64_t moment_now(void);

/* The moment so many seconds from now. */
int64_t moment_after(int64_t seconds);

/* Connects up to the moment `deadline`. Root's processes connect to the administrator's socket, which no other user can
 * occupy, and to the public one where they cannot reach it. All others connect to the public one. */
enum exchange_end connection_open(struct connection *connection, bool is_of_root, int64_t deadline);

/* Whether its descriptor is still what it was: a program may close descriptors that are not its own, and open others under
 * their numbers. */
bool connection_is_its_own(const struct connection *connection);

/* The descriptor is closed, where it is open. */
void connection_end(struct connection *connection);

/* All bytes, up to the moment `deadline`. */
enum exchange_end connection_send(const struct connection *connection, const unsigned char *bytes, size_t length, int64_t deadline);

/* All bytes without a wait, or false. */
bool connection_send_at_once(const struct connection *connection, const unsigned char *bytes, size_t length);

/* At least one byte and at most `room`, which is not 0, up to the moment `deadline`; what is there is taken after it too. */
enum exchange_end connection_receive(const struct connection *connection, void *place, size_t room, int64_t deadline,
                                     size_t *taken);

#endif
