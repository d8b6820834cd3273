#include "connection.h"

#include <errno.h>
#include <fcntl.h>
#include <poll.h>
#include <stdlib.h>
#include <string.h>
#include <sys/socket.h>
#include <sys/stat.h>
#include <sys/time.h>
#include <sys/un.h>
#include <time.h>
#include <unistd.h>

#ifndef BIXETHOMI_SOCKET_PATH
#error "BIXETHOMI_SOCKET_PATH is the administrator's socket of the daemon"
#endif

/* Seconds for connecting to one socket, of those of a whole question. */
#ifndef BIXETHOMI_CONNECT_SECONDS
#define BIXETHOMI_CONNECT_SECONDS 3
#endif

static const char public_suffix[] = ".public";

static const int64_t nanoseconds_of_second = 1000000000;

int64_t moment_now(void)
{
    struct timespec now;

    if (clock_gettime(CLOCK_MONOTONIC, &now) != 0)
        return INT64_MAX;
    return now.tv_sec * nanoseconds_of_second + now.tv_nsec;
}

int64_t moment_after(int64_t seconds)
{
    return moment_now() + seconds * nanoseconds_of_second;
}

static int64_t time_left(int64_t deadline)
{
    int64_t now = moment_now();

    return now < deadline ? deadline - now : 0;
}

static const char *socket_path(void)
{
#ifdef BIXETHOMI_TEST_BUILD
    /* Nothing, where the program has more rights than who started it. */
    const char *other = secure_getenv("BIXETHOMI_SOCKET");

    if (other != NULL)
        return other;
#endif
    return BIXETHOMI_SOCKET_PATH;
}

/* The administrator's socket, or with the suffix the public one. */
static bool socket_address(struct sockaddr_un *address, const char *suffix)
{
    const char *path = socket_path();

    memset(address, 0, sizeof *address);
    address->sun_family = AF_UNIX;
    if (strlen(path) + strlen(suffix) >= sizeof address->sun_path)
        return false;
    strcpy(address->sun_path, path);
    strcat(address->sun_path, suffix);
    return true;
}

/* A process that closed its standard streams must not find the socket in their place. */
static int above_standard_streams(int descriptor)
{
    int moved;

    if (descriptor < 0 || descriptor > STDERR_FILENO)
        return descriptor;
    moved = fcntl(descriptor, F_DUPFD_CLOEXEC, STDERR_FILENO + 1);
    close(descriptor);
    return moved;
}

/* While the daemon's queue of connections is full, connecting waits at most this long. */
static bool bound_connecting(int descriptor, int64_t left)
{
    struct timeval bound = {
        .tv_sec = left / nanoseconds_of_second,
        /* No time at all would mean no bound. */
        .tv_usec = left % nanoseconds_of_second / 1000 + 1,
    };

    if (bound.tv_usec > 999999)
        bound.tv_usec = 999999;
    return setsockopt(descriptor, SOL_SOCKET, SO_SNDTIMEO, &bound, sizeof bound) == 0;
}

static enum exchange_end connect_to_socket(int descriptor, const char *suffix, int64_t deadline)
{
    int64_t own_deadline = moment_after(BIXETHOMI_CONNECT_SECONDS);
    struct sockaddr_un address;

    if (!socket_address(&address, suffix))
        return EXCHANGE_NO_DAEMON;
    if (own_deadline < deadline)
        deadline = own_deadline;
    for (;;) {
        int64_t left = time_left(deadline);

        if (left == 0 || !bound_connecting(descriptor, left))
            return EXCHANGE_LATE;
        if (connect(descriptor, (const struct sockaddr *)&address, sizeof address) == 0)
            return EXCHANGE_WELL;
        if (errno == EAGAIN)
            return EXCHANGE_LATE;
        if (errno != EINTR)
            return EXCHANGE_NO_DAEMON;
    }
}

static enum exchange_end connect_to_daemon(int descriptor, bool is_of_root, int64_t deadline)
{
    if (is_of_root && connect_to_socket(descriptor, "", deadline) == EXCHANGE_WELL)
        return EXCHANGE_WELL;
    return connect_to_socket(descriptor, public_suffix, deadline);
}

/* A lookup that the daemon makes, of a server's name, must not wait for the daemon. */
static bool is_own_socket(const struct connection *connection)
{
    struct ucred peer;
    socklen_t size = sizeof peer;

    if (getsockopt(connection->descriptor, SOL_SOCKET, SO_PEERCRED, &peer, &size) != 0)
        return false;
    return peer.pid == connection->process;
}

enum exchange_end connection_open(struct connection *connection, bool is_of_root, int64_t deadline)
{
    pid_t process = connection->process;
    int descriptor = above_standard_streams(socket(AF_UNIX, SOCK_STREAM | SOCK_CLOEXEC, 0));
    struct stat status;
    enum exchange_end end;

    if (descriptor < 0)
        return EXCHANGE_STARVED;
    *connection = (struct connection){ .is_open = true, .descriptor = descriptor, .process = process };
    if (fstat(descriptor, &status) != 0)
        return EXCHANGE_STARVED;
    connection->device = status.st_dev;
    connection->file = status.st_ino;
    end = connect_to_daemon(descriptor, is_of_root, deadline);
    return end == EXCHANGE_WELL && is_own_socket(connection) ? EXCHANGE_NO_DAEMON : end;
}

bool connection_is_its_own(const struct connection *connection)
{
    struct stat status;

    return connection->is_open && fstat(connection->descriptor, &status) == 0 && S_ISSOCK(status.st_mode)
        && status.st_dev == connection->device && status.st_ino == connection->file;
}

void connection_end(struct connection *connection)
{
    if (connection->is_open)
        close(connection->descriptor);
    connection->is_open = false;
}

static enum exchange_end wait_for(const struct connection *connection, short event, int64_t deadline)
{
    struct pollfd waited = { .fd = connection->descriptor, .events = event };

    for (;;) {
        int64_t left = time_left(deadline);
        int ready;

        if (left == 0)
            return EXCHANGE_LATE;
        ready = poll(&waited, 1, (int)(left / 1000000) + 1);
        if (ready > 0)
            return EXCHANGE_WELL;
        if (ready < 0 && errno != EINTR)
            return EXCHANGE_STARVED;
    }
}

enum exchange_end connection_send(const struct connection *connection, const unsigned char *bytes, size_t length, int64_t deadline)
{
    size_t sent = 0;

    while (sent < length) {
        ssize_t count = send(connection->descriptor, bytes + sent, length - sent, MSG_NOSIGNAL | MSG_DONTWAIT);

        if (count >= 0) {
            sent += (size_t)count;
        } else if (errno == EAGAIN) {
            enum exchange_end end = wait_for(connection, POLLOUT, deadline);

            if (end != EXCHANGE_WELL)
                return end;
        } else if (errno != EINTR) {
            return EXCHANGE_BROKEN;
        }
    }
    return EXCHANGE_WELL;
}

bool connection_send_at_once(const struct connection *connection, const unsigned char *bytes, size_t length)
{
    return send(connection->descriptor, bytes, length, MSG_NOSIGNAL | MSG_DONTWAIT) == (ssize_t)length;
}

enum exchange_end connection_receive(const struct connection *connection, void *place, size_t room, int64_t deadline,
                                     size_t *taken)
{
    for (;;) {
        ssize_t bytes = recv(connection->descriptor, place, room, MSG_DONTWAIT);

        if (bytes > 0) {
            *taken = (size_t)bytes;
            return EXCHANGE_WELL;
        }
        if (bytes == 0 || (errno != EAGAIN && errno != EINTR))
            return EXCHANGE_BROKEN;
        if (errno == EAGAIN) {
            enum exchange_end end = wait_for(connection, POLLIN, deadline);

            if (end != EXCHANGE_WELL)
                return end;
        }
    }
}
