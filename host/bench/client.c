/* client KIND PLACE COMMAND: asks for users by name and measures, in one way whatever is asked.
 *
 *   KIND PLACE   `frames SOCKET`: a daemon by its frames; `anew SOCKET`: the same by a connection for each question,
 *                as the NSS module asks; `module FILE`: an NSS module, by its getpwnam_r;
 *                `libc -`: the C library, which asks the daemon nscd where its socket is;
 *                `logins SOCKET`, `checks SOCKET`: logins, and account checks for the service sshd, by its frames;
 *                `pam FOLDER`: logins by PAM, by the service `login` of that folder. Passwords are `pw-NAME`
 *   COMMAND      `loop CLIENTS SECONDS PREFIX COUNT`   each client asks again and again for PREFIX and a number below COUNT
 *                `many CLIENTS TIMES PREFIX COUNT`     the same until all together asked so many times
 *                `each PREFIX FROM COUNT`              one client asks for so many names, one after the other
 *                `burst CLIENTS NAME`                  all clients ask for one name at once
 *                `first NAME`                          asks until the name is found, for at most 60 seconds
 *
 * Clients are processes. Those of a loop ask for a while before the time begins, until the system has found each a
 * processor. It prints what was asked, how many of it was found, seconds, the times of answers in microseconds, and how
 * many answers came before the time; for `first` a line once it has asked, and the moment of the answer, by the monotonic
 * clock in nanoseconds. */
#include <dlfcn.h>
#include <errno.h>
#include <nss.h>
#include <pwd.h>
#include <stdatomic.h>
#include <stdbool.h>
#include <stdio.h>
#include <stdlib.h>
#include <string.h>
#include <sys/mman.h>
#include <sys/prctl.h>
#include <sys/signal.h>
#include <sys/socket.h>
#include <sys/un.h>
#include <sys/wait.h>
#include <time.h>
#include <unistd.h>

#include "frames.h"

enum { MOST_CLIENTS = 256, SECONDS_AT_MOST = 120, SECONDS_OF_FIRST = 60, ROOM = 1 << 16 };

/* How long the clients of a loop ask before the time begins, in nanoseconds. */
static const uint64_t AHEAD = 200000000;

/* Cells of times: 32 for each power of two nanoseconds, so a time is at most 3 % too high. */
enum { PARTS = 32, CELLS = PARTS * 42 };

struct tally {
    uint64_t cells[CELLS];
    uint64_t asked, found, ahead;
    /* When its last answer came. */
    uint64_t ended;
};

/* What each client does: it asks for the time of a loop, or so many times. Without `count` it asks for the prefix itself. */
struct task {
    uint64_t nanoseconds, times;
    const char *prefix;
    unsigned count;
};

struct shared {
    atomic_int ready;
    /* The moment at which the time begins; none before all are ready. */
    atomic_ullong begin;
    struct tally tallies[MOST_CLIENTS];
};

typedef enum nss_status lookup(const char *, struct passwd *, char *, size_t, int *);

static const char *place;
enum kind { FRAMES, ANEW, MODULE, LIBC, LOGINS, CHECKS, PAM };

/* As pam(3) has them: its header is in a package of its own. */
struct pam_message {
    int style;
    const char *text;
};
struct pam_response {
    char *text;
    int code;
};
struct pam_conversation {
    int (*talk)(int, const struct pam_message **, struct pam_response **, void *);
    void *password;
};
typedef int pam_start(const char *, const char *, const struct pam_conversation *, const char *, void **);
typedef int pam_step(void *, int);

static enum kind kind;
static lookup *ask_module;
static pam_start *start_login;
static pam_step *authenticate, *end_login;
static int connection = -1;

static void fail(const char *why)
{
    fprintf(stderr, "client: %s\n", why);
    exit(1);
}

static uint64_t now(void)
{
    struct timespec time;

    clock_gettime(CLOCK_MONOTONIC, &time);
    return (uint64_t)time.tv_sec * 1000000000u + (uint64_t)time.tv_nsec;
}

static void rest(long nanoseconds)
{
    struct timespec time = { .tv_nsec = nanoseconds };

    nanosleep(&time, NULL);
}

static bool connect_to_place(void)
{
    struct sockaddr_un address = { .sun_family = AF_UNIX };

    if (strlen(place) >= sizeof address.sun_path)
        fail("the path is too long");
    strcpy(address.sun_path, place);
    connection = socket(AF_UNIX, SOCK_STREAM | SOCK_CLOEXEC, 0);
    if (connection >= 0 && connect(connection, (const struct sockaddr *)&address, sizeof address) == 0)
        return true;
    if (connection >= 0)
        close(connection);
    connection = -1;
    return false;
}

/* The name of the module's call is in its file's name: libnss_NAME.so.2. */
static void open_module(void)
{
    const char *file = strrchr(place, '/') ? strrchr(place, '/') + 1 : place;
    void *module = dlopen(place, RTLD_NOW);
    char call[128], name[64] = "";

    if (module == NULL || sscanf(file, "libnss_%63[^.]", name) != 1)
        fail("no such module");
    snprintf(call, sizeof call, "_nss_%s_getpwnam_r", name);
    *(void **)&ask_module = dlsym(module, call);
    if (ask_module == NULL)
        fail("the module has no such call");
}

static void open_pam(void)
{
    void *library = dlopen("libpam.so.0", RTLD_NOW);

    if (library == NULL)
        fail("there is no PAM");
    *(void **)&start_login = dlsym(library, "pam_start_confdir");
    *(void **)&authenticate = dlsym(library, "pam_authenticate");
    *(void **)&end_login = dlsym(library, "pam_end");
    if (start_login == NULL || authenticate == NULL || end_login == NULL)
        fail("PAM has no such call");
}

static void open_place(void)
{
    if (kind == FRAMES || kind == LOGINS || kind == CHECKS)
        connect_to_place();
    else if (kind == MODULE)
        open_module();
    else if (kind == PAM)
        open_pam();
}

static bool receive_reply(char *reply)
{
    size_t have = 0, wanted = 4;

    while (have < wanted) {
        ssize_t count = recv(connection, reply + have, ROOM - have, 0);

        if (count <= 0)
            return false;
        have += (size_t)count;
        if (have >= 4) {
            const unsigned char *header = (const unsigned char *)reply;

            wanted = 4 + ((size_t)header[0] << 24 | (size_t)header[1] << 16 | (size_t)header[2] << 8 | header[3]);
            if (wanted > ROOM)
                return false;
        }
    }
    return have == wanted;
}

static bool begins(const char *text, const char *word)
{
    return strncmp(text, word, strlen(word)) == 0;
}

static bool make_request(struct request *request, const char *name)
{
    char password[300];

    if (kind == CHECKS)
        return request_access(request, name, "sshd");
    if (kind != LOGINS)
        return request_by_name(request, COMMAND_USER, name);
    snprintf(password, sizeof password, "pw-%.255s", name);
    return request_login(request, name, password);
}

/* Whether the user was found, or let in. */
static bool ask_by_frame(const char *name)
{
    static char reply[ROOM + 1];
    struct request request;
    bool is_whole;

    if (!make_request(&request, name) || (connection < 0 && !connect_to_place()))
        return false;
    is_whole = send(connection, request.bytes, request.length, MSG_NOSIGNAL) == (ssize_t)request.length && receive_reply(reply);
    if (!is_whole || kind == ANEW) {
        close(connection);
        connection = -1;
    }
    return is_whole && (begins(reply + 4, "found ") || begins(reply + 4, "old ") || begins(reply + 4, "accepted ") ||
                        begins(reply + 4, "granted "));
}

static int tell_password(int count, const struct pam_message **messages, struct pam_response **answers, void *password)
{
    enum { ASKS_HIDDEN = 1, ASKS_SHOWN = 2 };

    *answers = calloc((size_t)count, sizeof **answers);
    for (int at = 0; at < count; at++)
        if (messages[at]->style == ASKS_HIDDEN || messages[at]->style == ASKS_SHOWN)
            (*answers)[at].text = strdup(password);
    return 0;
}

static bool log_in(const char *name)
{
    char password[300];
    struct pam_conversation conversation = { tell_password, password };
    void *login = NULL;
    int status;

    snprintf(password, sizeof password, "pw-%.255s", name);
    if (start_login("login", name, &conversation, place, &login) != 0)
        return false;
    status = authenticate(login, 0);
    end_login(login, status);
    return status == 0;
}

static bool ask(const char *name)
{
    static char buffer[ROOM];
    struct passwd user, *found = NULL;
    int fault;

    switch (kind) {
    case FRAMES:
    case ANEW:
    case LOGINS:
    case CHECKS:
        return ask_by_frame(name);
    case PAM:
        return log_in(name);
    case MODULE:
        return ask_module(name, &user, buffer, sizeof buffer, &fault) == NSS_STATUS_SUCCESS;
    case LIBC:
        return getpwnam_r(name, &user, buffer, sizeof buffer, &found) == 0 && found != NULL;
    }
    return false;
}

static int cell_of(uint64_t time)
{
    int power, cell;

    if (time < PARTS)
        return (int)time;
    power = 63 - __builtin_clzll(time);
    cell = PARTS * (power - 4) + (int)((time >> (power - 5)) & (PARTS - 1));
    return cell < CELLS ? cell : CELLS - 1;
}

static uint64_t top_of(int cell)
{
    if (cell < PARTS)
        return (uint64_t)cell;
    return (((uint64_t)(PARTS + cell % PARTS) + 1) << (cell / PARTS - 1)) - 1;
}

static void ask_timed(struct tally *tally, const char *name)
{
    uint64_t began = now();
    bool found = ask(name);

    tally->ended = now();
    tally->cells[cell_of(tally->ended - began)]++;
    tally->asked++;
    tally->found += found;
}

/* Below it are so many of 100 times, in microseconds. */
static double percentile(const struct tally *tally, unsigned share)
{
    uint64_t seen = 0;

    for (int cell = 0; cell < CELLS; cell++) {
        seen += tally->cells[cell];
        if (seen * 100 >= tally->asked * share && seen > 0)
            return (double)top_of(cell) / 1000;
    }
    return 0;
}

static void report(const struct tally *tally, double seconds)
{
    printf("asked %llu found %llu seconds %.3f p50 %.1f p99 %.1f ahead %llu\n", (unsigned long long)tally->asked,
           (unsigned long long)tally->found, seconds, percentile(tally, 50), percentile(tally, 99),
           (unsigned long long)tally->ahead);
}

static uint64_t next_random(uint64_t *state)
{
    *state ^= *state << 13;
    *state ^= *state >> 7;
    *state ^= *state << 17;
    return *state;
}

static void choose_name(char *name, size_t room, const struct task *task, uint64_t *state)
{
    if (task->count > 0)
        snprintf(name, room, "%s%llu", task->prefix, (unsigned long long)(next_random(state) % task->count));
    else
        snprintf(name, room, "%s", task->prefix);
}

static void be_client(struct shared *shared, int number, const struct task *task)
{
    struct tally *tally = &shared->tallies[number];
    uint64_t state = 88172645463325252u + 7919 * (uint64_t)number, begin;
    char name[300];

    open_place();
    if (task->count > 0) {
        /* Opens what is opened late. */
        choose_name(name, sizeof name, task, &state);
        ask(name);
        tally->ahead++;
    }
    atomic_fetch_add(&shared->ready, 1);
    while ((begin = atomic_load(&shared->begin)) == 0)
        rest(200000);
    while (now() < begin) {
        choose_name(name, sizeof name, task, &state);
        ask(name);
        tally->ahead++;
    }
    do {
        choose_name(name, sizeof name, task, &state);
        ask_timed(tally, name);
    } while (task->nanoseconds > 0 ? now() < begin + task->nanoseconds : tally->asked < task->times);
}

static int run_clients(int clients, const struct task *task)
{
    struct shared *shared = mmap(NULL, sizeof *shared, PROT_READ | PROT_WRITE, MAP_SHARED | MAP_ANONYMOUS, -1, 0);
    struct tally all = { 0 };
    int status, failed = 0;

    if (shared == MAP_FAILED || clients < 1 || clients > MOST_CLIENTS)
        fail("not so many clients");
    for (int number = 0; number < clients; number++) {
        pid_t child = fork();

        if (child < 0)
            fail("no process");
        if (child == 0) {
            prctl(PR_SET_PDEATHSIG, SIGKILL);
            alarm(SECONDS_AT_MOST);
            be_client(shared, number, task);
            _exit(0);
        }
    }
    while (atomic_load(&shared->ready) < clients)
        rest(200000);
    atomic_store(&shared->begin, now() + (task->nanoseconds > 0 ? AHEAD : 0));
    while (wait(&status) > 0)
        failed += status != 0;
    for (int number = 0; number < clients; number++) {
        const struct tally *tally = &shared->tallies[number];

        all.asked += tally->asked;
        all.found += tally->found;
        all.ahead += tally->ahead;
        if (tally->ended > all.ended)
            all.ended = tally->ended;
        for (int cell = 0; cell < CELLS; cell++)
            all.cells[cell] += tally->cells[cell];
    }
    report(&all, (double)(all.ended - atomic_load(&shared->begin)) / 1e9);
    return failed > 0;
}

static int ask_together(char **words, bool is_timed)
{
    int clients = atoi(words[0]);
    struct task task = { .prefix = words[2], .count = (unsigned)atoi(words[3]) };

    if (clients < 1 || task.count < 1)
        fail("not so many clients");
    if (is_timed)
        task.nanoseconds = (uint64_t)(atof(words[1]) * 1e9);
    else
        task.times = strtoull(words[1], NULL, 10) / (unsigned)clients;
    return run_clients(clients, &task);
}

static int ask_each(const char *prefix, unsigned from, unsigned count)
{
    struct tally tally = { 0 };
    uint64_t began;
    char name[300];

    open_place();
    began = now();
    for (unsigned number = from; number < from + count; number++) {
        snprintf(name, sizeof name, "%s%u", prefix, number);
        ask_timed(&tally, name);
    }
    report(&tally, (double)(now() - began) / 1e9);
    return tally.found < count;
}

static int ask_first(const char *name)
{
    uint64_t end = now() + SECONDS_OF_FIRST * 1000000000ull;
    bool has_told = false;

    if (kind == MODULE)
        open_module();
    do {
        bool found = ask(name);
        uint64_t answered = now();

        if (!has_told)
            printf("asking\n");
        has_told = true;
        if (found)
            printf("%llu\n", (unsigned long long)answered);
        fflush(stdout);
        if (found)
            return 0;
        rest(200000);
    } while (now() < end);
    return 1;
}

static enum kind kind_of(const char *word)
{
    static const char *const words[] = { [FRAMES] = "frames", [ANEW] = "anew",     [MODULE] = "module", [LIBC] = "libc",
                                         [LOGINS] = "logins", [CHECKS] = "checks", [PAM] = "pam" };

    for (enum kind one = FRAMES; one <= PAM; one++)
        if (strcmp(words[one], word) == 0)
            return one;
    fail("no such kind");
    return LIBC;
}

int main(int count, char **words)
{
    const char *command = count > 3 ? words[3] : "";
    int left = count - 4;

    alarm(SECONDS_AT_MOST);
    if (count > 3) {
        kind = kind_of(words[1]);
        place = words[2];
        words += 4;
    }
    if ((strcmp(command, "loop") == 0 || strcmp(command, "many") == 0) && left == 4)
        return ask_together(words, strcmp(command, "loop") == 0);
    if (strcmp(command, "each") == 0 && left == 3)
        return ask_each(words[0], (unsigned)atoi(words[1]), (unsigned)atoi(words[2]));
    if (strcmp(command, "burst") == 0 && left == 2)
        return run_clients(atoi(words[0]), &(struct task){ .times = 1, .prefix = words[1] });
    if (strcmp(command, "first") == 0 && left == 1)
        return ask_first(words[0]);
    fprintf(stderr, "client frames|anew|logins|checks SOCKET, module FILE, libc - or pam FOLDER, then loop|many|each|burst|first ..\n");
    return 2;
}
