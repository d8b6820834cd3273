/* storm mutated SECONDS SEED: asks the NSS calls, linked into this program with a sanitizer, for so long
 * over a socket whose other end answers with mutated replies, also those that were asked ahead.
 * storm honest COUNT: eight threads ask COUNT times each, and every answer has to be the right one.
 *
 * The other end is a child of this program; the socket is that which BIXETHOMI_SOCKET names, with .public behind it. */
#include <errno.h>
#include <grp.h>
#include <nss.h>
#include <pthread.h>
#include <pwd.h>
#include <signal.h>
#include <stdbool.h>
#include <stdio.h>
#include <stdlib.h>
#include <sys/prctl.h>
#include <sys/socket.h>
#include <sys/un.h>
#include <sys/wait.h>
#include <time.h>
#include <unistd.h>

#include "mutate.h"

enum nss_status _nss_bixethomi_getpwnam_r(const char *, struct passwd *, char *, size_t, int *);
enum nss_status _nss_bixethomi_getpwuid_r(uid_t, struct passwd *, char *, size_t, int *);
enum nss_status _nss_bixethomi_getgrnam_r(const char *, struct group *, char *, size_t, int *);
enum nss_status _nss_bixethomi_getgrgid_r(gid_t, struct group *, char *, size_t, int *);
enum nss_status _nss_bixethomi_initgroups_dyn(const char *, gid_t, long *, long *, gid_t **, long, int *);

static void demand(bool holds, const char *what)
{
    if (holds)
        return;
    fprintf(stderr, "storm: %s (%s)\n", what, strerrorname_np(errno));
    exit(1);
}

static int listen_at(const char *path)
{
    struct sockaddr_un address = { .sun_family = AF_UNIX };
    int listener = socket(AF_UNIX, SOCK_STREAM | SOCK_CLOEXEC, 0);

    demand(listener >= 0 && strlen(path) < sizeof address.sun_path, "a socket");
    strcpy(address.sun_path, path);
    unlink(path);
    demand(bind(listener, (const struct sockaddr *)&address, sizeof address) == 0 && listen(listener, 128) == 0, "listening");
    return listener;
}

/* The length in front is right as a rule, sometimes one off, sometimes any. Whether it is right. */
static bool put_length(uint64_t *state, unsigned char header[4], size_t length)
{
    size_t said = length;
    size_t kind = random_below(state, 40);

    if (kind == 0)
        said = (size_t)next_random(state);
    else if (kind == 1)
        said = length + 1;
    else if (kind == 2)
        said = length - 1;
    for (int i = 0; i < 4; i++)
        header[i] = (unsigned char)(said >> (24 - 8 * i));
    return said == length;
}

/* Sends a reply in up to three pieces. What the asker does not take any more is nobody's loss. */
static void send_pieces(uint64_t *state, int connection, const unsigned char *bytes, size_t length)
{
    size_t sent = 0;

    while (sent < length) {
        size_t left = length - sent;
        size_t piece = random_below(state, 4) == 0 ? 1 + random_below(state, left) : left;
        ssize_t count = send(connection, bytes + sent, piece, MSG_NOSIGNAL);

        if (count <= 0)
            return;
        sent += (size_t)count;
    }
}

static size_t right_reply(const unsigned char *request, char text[LONGEST_MUTATED])
{
    static const char *const replies[] = {
        "none 1", "found 3 alice:*:1000:1001:A:/home/alice:/bin/sh", "found 3 alice:*:1000:1001:A:/home/alice:/bin/sh",
        "found 6 staff:*:2001:alice,bob", "found 6 staff:*:2001:alice,bob", "found 9 alice:2001,2002",
    };
    const char *reply = replies[request[4] < 6 ? request[4] : 0];

    strcpy(text, reply);
    return strlen(reply);
}

/* One of any form, or the right one, changed or not. */
static size_t mutated_reply(uint64_t *state, const unsigned char *request, char text[LONGEST_MUTATED])
{
    size_t length;

    if (random_below(state, 2) == 0)
        return mutate(state, LOOKUP_REPLIES, text);
    length = right_reply(request, text);
    return random_below(state, 2) == 0 ? length : change(state, text, length);
}

struct conversation_end {
    int connection;
    bool is_honest;
    uint64_t state;
};

/* Whether the connection goes on: not always where replies are mutated, and not behind a wrong length. */
static bool answer(struct conversation_end *end, const unsigned char *request)
{
    unsigned char reply[4 + LONGEST_MUTATED];
    char text[LONGEST_MUTATED];
    size_t length = end->is_honest ? right_reply(request, text) : mutated_reply(&end->state, request, text);
    bool is_right = true;

    memcpy(reply + 4, text, length);
    if (end->is_honest)
        for (int i = 0; i < 4; i++)
            reply[i] = (unsigned char)(length >> (24 - 8 * i));
    else
        is_right = put_length(&end->state, reply, length) && random_below(&end->state, 8) != 0;
    send_pieces(&end->state, end->connection, reply, 4 + length);
    return is_right;
}

static void *converse(void *given)
{
    struct conversation_end *end = given;
    unsigned char requests[2048];
    size_t have = 0;
    bool goes_on = true;

    while (goes_on) {
        ssize_t count = recv(end->connection, requests + have, sizeof requests - have, 0);
        size_t at = 0;

        if (count <= 0)
            break;
        have += (size_t)count;
        while (goes_on && have - at >= 4 && have - at >= 4 + (size_t)requests[at + 3]) {
            goes_on = answer(end, requests + at);
            at += 4 + (size_t)requests[at + 3];
        }
        have -= at;
        memmove(requests, requests + at, have);
    }
    close(end->connection);
    free(end);
    return NULL;
}

static void answer_all(int listener, bool is_honest, uint64_t seed)
{
    uint64_t state = seed;

    for (;;) {
        int connection = accept(listener, NULL, NULL);
        struct conversation_end *end = malloc(sizeof *end);
        pthread_t thread;

        demand(connection >= 0 && end != NULL, "a connection");
        *end = (struct conversation_end){ connection, is_honest, next_random(&state) };
        demand(pthread_create(&thread, NULL, converse, end) == 0 && pthread_detach(thread) == 0, "a thread");
    }
}

static void ask_mutated(uint64_t *state, unsigned long counts[4])
{
    size_t room = random_below(state, 600);
    char *buffer = malloc(room + 1);
    long start = 0;
    long size = 1;
    gid_t *gids = malloc(sizeof *gids);
    struct passwd user;
    struct group group;
    enum nss_status status;
    int error = 0;

    demand(buffer != NULL && gids != NULL, "memory");
    switch (random_below(state, 5)) {
    case 0:
        status = _nss_bixethomi_getpwnam_r("alice", &user, buffer, room, &error);
        demand(status != NSS_STATUS_SUCCESS || strcmp(user.pw_name, "alice") == 0, "another user");
        break;
    case 1:
        status = _nss_bixethomi_getpwuid_r(1000, &user, buffer, room, &error);
        demand(status != NSS_STATUS_SUCCESS || user.pw_uid == 1000, "another uid");
        break;
    case 2:
        status = _nss_bixethomi_getgrnam_r("staff", &group, buffer, room, &error);
        demand(status != NSS_STATUS_SUCCESS || strcmp(group.gr_name, "staff") == 0, "another group");
        break;
    case 3:
        status = _nss_bixethomi_getgrgid_r(2001, &group, buffer, room, &error);
        demand(status != NSS_STATUS_SUCCESS || group.gr_gid == 2001, "another gid");
        break;
    default:
        status = _nss_bixethomi_initgroups_dyn("alice", 1000, &start, &size, &gids, random_below(state, 2) ? -1 : 2, &error);
        demand(status == NSS_STATUS_SUCCESS || start == 0, "groups beside an error");
        for (long i = 0; i < start; i++)
            demand(gids[i] != 0 && gids[i] != 1000, "a group that is not to be given");
        break;
    }
    demand(status == NSS_STATUS_SUCCESS || error != 0, "no error number");
    demand(status == NSS_STATUS_TRYAGAIN || error != ERANGE, "a small buffer that is no reason to try again");
    counts[status == NSS_STATUS_SUCCESS ? 0 : status == NSS_STATUS_NOTFOUND ? 1 : status == NSS_STATUS_UNAVAIL ? 2 : 3]++;
    free(buffer);
    free(gids);
}

static void *ask_honest(void *given)
{
    unsigned long turns = *(const unsigned long *)given;

    for (unsigned long i = 0; i < turns; i++) {
        char buffer[256];
        struct passwd user;
        struct group group;
        long start = 0;
        long size = 1;
        gid_t *gids = malloc(sizeof *gids);
        int error = 0;

        demand(gids != NULL, "memory");
        demand(_nss_bixethomi_getpwnam_r("alice", &user, buffer, sizeof buffer, &error) == NSS_STATUS_SUCCESS, "alice");
        demand(user.pw_gid == 1001 && strcmp(user.pw_shell, "/bin/sh") == 0, "alice's fields");
        demand(_nss_bixethomi_getgrnam_r("staff", &group, buffer, sizeof buffer, &error) == NSS_STATUS_SUCCESS, "staff");
        demand(group.gr_gid == 2001 && strcmp(group.gr_mem[1], "bob") == 0 && group.gr_mem[2] == NULL, "staff's members");
        demand(_nss_bixethomi_initgroups_dyn("alice", 1, &start, &size, &gids, -1, &error) == NSS_STATUS_SUCCESS, "groups");
        demand(start == 2 && gids[0] == 2001 && gids[1] == 2002, "alice's groups");
        free(gids);
    }
    return NULL;
}

int main(int count, char **words)
{
    const char *named = getenv("BIXETHOMI_SOCKET");
    char path[256];
    bool is_honest = count > 1 && strcmp(words[1], "honest") == 0;
    unsigned long turns = count > 2 ? strtoul(words[2], NULL, 10) : 1000;
    uint64_t seed = count > 3 ? strtoull(words[3], NULL, 10) : 1;
    uint64_t state = seed + 1;
    unsigned long counts[4] = { 0, 0, 0, 0 };
    pid_t child;
    int listener;

    demand(named != NULL && seed != 0, "BIXETHOMI_SOCKET and a seed that is not 0");
    snprintf(path, sizeof path, "%s.public", named);
    /* What hangs ends as a fault. */
    alarm(500);
    listener = listen_at(path);
    child = fork();
    demand(child >= 0, "a child");
    if (child == 0) {
        prctl(PR_SET_PDEATHSIG, SIGKILL);
        /* The listening process is the one whose socket it is. */
        close(listener);
        answer_all(listen_at(path), is_honest, seed);
    }
    close(listener);
    /* Until the child listens itself, the first socket's end is found. */
    for (int i = 0; i < 1000; i++) {
        struct passwd user;
        char buffer[256];
        int error;

        if (_nss_bixethomi_getpwnam_r("alice", &user, buffer, sizeof buffer, &error) != NSS_STATUS_UNAVAIL || error != ENOENT)
            break;
        usleep(1000);
    }
    if (is_honest) {
        pthread_t threads[8];

        for (size_t i = 0; i < 8; i++)
            demand(pthread_create(&threads[i], NULL, ask_honest, &turns) == 0, "a thread");
        for (size_t i = 0; i < 8; i++)
            pthread_join(threads[i], NULL);
        printf("8 threads asked %lu times each\n", turns * 3);
    } else {
        time_t end = time(NULL) + (time_t)turns;

        for (turns = 0; turns % 64 != 0 || time(NULL) < end; turns++)
            ask_mutated(&state, counts);
        printf("%lu mutated replies: %lu found, %lu not found, %lu unavailable, %lu try again\n", turns, counts[0],
               counts[1], counts[2], counts[3]);
    }
    kill(child, SIGKILL);
    waitpid(child, NULL, 0);
    unlink(path);
    return 0;
}
