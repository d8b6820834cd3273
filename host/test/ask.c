/* ask [OPTION..] MODULE KIND NAME: calls an NSS module as the C library does, and prints what it gave.
 *
 * KIND is user, uid, group, gid or groups. Printed is the status, the error's name, and a found record,
 * its bytes that do not print as %XX. The buffer grows as libc's callers let it grow.
 *
 *   -r ROOM   the first buffer's bytes (1024), or the first list's places (4)
 *   -n COUNT  asks so often, and prints once; every answer has to be the same
 *   -m        meddles between two answers: a child asks too, then what was opened since is closed, and its
 *             numbers are others'
 *   -p MS     waits so long between two answers
 *   -d        the answers may differ: prints each on a line
 *   -t COUNT  asks in so many threads
 *   -s        a signal each millisecond, whose handler lets no call go on
 *   -c        starts a program while the answer is awaited, and prints the sockets that it was given
 *   -f        closes the standard streams but for the error one while it asks
 *   -x        cancels the asking threads meanwhile, which end their question all the same
 *   -o        listens itself at the socket that BIXETHOMI_SOCKET names
 *
 * The exit status is 0 where the answers are the same and no descriptor was left open, else 1. What hangs is ended by a
 * signal after two minutes. */
#include <dlfcn.h>
#include <errno.h>
#include <fcntl.h>
#include <grp.h>
#include <nss.h>
#include <pthread.h>
#include <pwd.h>
#include <signal.h>
#include <stdbool.h>
#include <stdint.h>
#include <stdio.h>
#include <stdlib.h>
#include <string.h>
#include <sys/socket.h>
#include <sys/time.h>
#include <sys/un.h>
#include <sys/wait.h>
#include <time.h>
#include <unistd.h>

typedef enum nss_status user_by_name(const char *, struct passwd *, char *, size_t, int *);
typedef enum nss_status user_by_number(uid_t, struct passwd *, char *, size_t, int *);
typedef enum nss_status group_by_name(const char *, struct group *, char *, size_t, int *);
typedef enum nss_status group_by_number(gid_t, struct group *, char *, size_t, int *);
typedef enum nss_status groups_of_user(const char *, gid_t, long *, long *, gid_t **, long, int *);

enum { ANSWER = 1 << 18 };

struct question {
    void *call;
    const char *kind, *name;
    size_t room;
    long count;
    bool has_meddler;
    bool may_differ;
    struct timespec pause;
    char *answer; /* ANSWER bytes */
    bool differs;
};

static void fail(const char *what)
{
    fprintf(stderr, "ask: %s\n", what);
    exit(1);
}

static void *call_of(void *module, const char *kind)
{
    static const struct {
        const char *kind, *call;
    } calls[] = {
        { "user", "_nss_bixethomi_getpwnam_r" },   { "uid", "_nss_bixethomi_getpwuid_r" },
        { "group", "_nss_bixethomi_getgrnam_r" },  { "gid", "_nss_bixethomi_getgrgid_r" },
        { "groups", "_nss_bixethomi_initgroups_dyn" },
    };

    for (size_t i = 0; i < sizeof calls / sizeof calls[0]; i++)
        if (strcmp(calls[i].kind, kind) == 0) {
            void *call = dlsym(module, calls[i].call);

            if (call == NULL)
                fail(dlerror());
            return call;
        }
    fail("no such kind");
    return NULL;
}

static const char *status_name(enum nss_status status)
{
    switch (status) {
    case NSS_STATUS_SUCCESS:
        return "success";
    case NSS_STATUS_NOTFOUND:
        return "notfound";
    case NSS_STATUS_UNAVAIL:
        return "unavail";
    case NSS_STATUS_TRYAGAIN:
        return "tryagain";
    case NSS_STATUS_RETURN:
        break;
    }
    return "return";
}

static void put(char *answer, const char *text)
{
    char *at = answer + strlen(answer);

    for (; *text != '\0'; text++) {
        if (at - answer > ANSWER - 8)
            fail("the answer is too long to be shown");
        if ((unsigned char)*text < 0x20 || *text == 0x7f || *text == '%')
            at += sprintf(at, "%%%02x", (unsigned)(unsigned char)*text);
        else
            *at++ = *text;
    }
    *at = '\0';
}

static void put_number(char *answer, unsigned long number)
{
    char text[32];

    snprintf(text, sizeof text, "%lu", number);
    put(answer, text);
}

static void put_user(char *answer, const struct passwd *user)
{
    const char *const fields[] = { user->pw_name, user->pw_passwd, NULL, NULL, user->pw_gecos, user->pw_dir, user->pw_shell };

    for (size_t i = 0; i < 7; i++) {
        put(answer, i == 0 ? " " : "|");
        if (fields[i] != NULL)
            put(answer, fields[i]);
        else
            put_number(answer, i == 2 ? user->pw_uid : user->pw_gid);
    }
}

static void put_group(char *answer, const struct group *group)
{
    put(answer, " ");
    put(answer, group->gr_name);
    put(answer, "|");
    put(answer, group->gr_passwd);
    put(answer, "|");
    put_number(answer, group->gr_gid);
    for (char **member = group->gr_mem; *member != NULL; member++) {
        put(answer, "|");
        put(answer, *member);
    }
}

static enum nss_status ask_groups(const struct question *question, char *answer, int *error)
{
    groups_of_user *call;
    long size = question->room < 1024 ? (long)question->room : 4;
    long start = 1;
    gid_t *gids = malloc((size_t)size * sizeof *gids);
    enum nss_status status;

    *(void **)&call = question->call;
    if (gids == NULL)
        fail("no memory");
    gids[0] = 42;
    status = call(question->name, 42, &start, &size, &gids, -1, error);
    if (gids[0] != 42 || start > size)
        fail("the list of groups is not as it was");
    if (status != NSS_STATUS_SUCCESS && start != 1)
        fail("groups were given beside an error");
    for (long i = 1; i < start; i++) {
        put(answer, i == 1 ? " " : "|");
        put_number(answer, gids[i]);
    }
    free(gids);
    return status;
}

static enum nss_status ask_record(const struct question *question, char *buffer, size_t room, char *answer, int *error)
{
    unsigned long number = strtoul(question->name, NULL, 10);
    struct passwd user;
    struct group group;
    enum nss_status status;
    bool is_user = question->kind[0] == 'u';

    if (strcmp(question->kind, "user") == 0)
        status = ((user_by_name *)(uintptr_t)question->call)(question->name, &user, buffer, room, error);
    else if (strcmp(question->kind, "uid") == 0)
        status = ((user_by_number *)(uintptr_t)question->call)((uid_t)number, &user, buffer, room, error);
    else if (strcmp(question->kind, "group") == 0)
        status = ((group_by_name *)(uintptr_t)question->call)(question->name, &group, buffer, room, error);
    else
        status = ((group_by_number *)(uintptr_t)question->call)((gid_t)number, &group, buffer, room, error);
    if (status == NSS_STATUS_SUCCESS && is_user)
        put_user(answer, &user);
    if (status == NSS_STATUS_SUCCESS && !is_user)
        put_group(answer, &group);
    return status;
}

static void ask_once(const struct question *question, char *answer)
{
    char record[ANSWER] = "";
    char *end;
    enum nss_status status;
    int error = 0;

    if (strcmp(question->kind, "groups") == 0) {
        status = ask_groups(question, record, &error);
    } else {
        size_t room = question->room;

        for (;;) {
            char *buffer = malloc(room);

            if (buffer == NULL)
                fail("no memory");
            status = ask_record(question, buffer, room, record, &error);
            free(buffer);
            if (status != NSS_STATUS_TRYAGAIN || error != ERANGE)
                break;
            room = room * 2 + 1;
            error = 0;
        }
    }
    end = stpcpy(stpcpy(stpcpy(answer, status_name(status)), " "), status == NSS_STATUS_SUCCESS ? "-" : strerrorname_np(error));
    if (strlen(record) >= (size_t)(answer + ANSWER - end))
        fail("the answer is too long to be shown");
    strcpy(end, record);
}

/* A child's answer has to be the same, and takes nothing from its parent's connection. */
static bool asks_in_child(const struct question *question, char *answer)
{
    int status;
    pid_t child = fork();

    if (child < 0)
        fail("no child");
    if (child == 0) {
        ask_once(question, answer);
        _exit(strcmp(answer, question->answer) == 0 ? 0 : 1);
    }
    return waitpid(child, &status, 0) == child && WIFEXITED(status) && WEXITSTATUS(status) == 0;
}

enum { DESCRIPTORS = 256 };

static bool was_open[DESCRIPTORS];
static int spare = -1;

/* As a program does that closes all that it did not open, and opens files of its own. */
static void take_numbers(void)
{
    for (int i = 0; i < DESCRIPTORS; i++)
        if (!was_open[i])
            close(i);
    spare = open("/dev/null", O_RDONLY | O_CLOEXEC);
    if (spare < 0)
        fail("no file");
}

static void *ask_often(void *given)
{
    struct question *question = given;
    char *answer = malloc(ANSWER);

    if (answer == NULL)
        fail("no memory");
    ask_once(question, question->answer);
    if (question->may_differ)
        printf("%s\n", question->answer);
    for (long i = 1; i < question->count; i++) {
        if (question->has_meddler && !asks_in_child(question, answer))
            question->differs = true;
        if (question->has_meddler && i % 2 == 0)
            take_numbers();
        nanosleep(&question->pause, NULL);
        ask_once(question, answer);
        if (question->may_differ)
            printf("%s\n", answer);
        else if (strcmp(answer, question->answer) != 0)
            question->differs = true;
    }
    free(answer);
    return NULL;
}

static void on_alarm(int signal)
{
    (void)signal;
}

static void start_alarms(void)
{
    struct sigaction action = { .sa_handler = on_alarm };
    struct itimerval each = { { 0, 1000 }, { 0, 1000 } };

    if (sigaction(SIGALRM, &action, NULL) != 0 || setitimer(ITIMER_REAL, &each, NULL) != 0)
        fail("no alarms");
}

/* A program that is started meanwhile, and the sockets that it has. */
static void *start_program(void *given)
{
    struct timespec while_asking = { .tv_nsec = 200000000 };
    pid_t child;

    (void)given;
    nanosleep(&while_asking, NULL);
    child = fork();
    if (child == 0) {
        execlp("sh", "sh", "-c", "ls -l /proc/self/fd | grep -c socket: >&2", (char *)NULL);
        _exit(1);
    }
    waitpid(child, NULL, 0);
    return NULL;
}

/* The socket of a daemon that is this process. */
static void listen_itself(void)
{
    const char *path = getenv("BIXETHOMI_SOCKET");
    struct sockaddr_un address = { .sun_family = AF_UNIX };
    int listener = socket(AF_UNIX, SOCK_STREAM | SOCK_CLOEXEC, 0);

    if (path == NULL || strlen(path) >= sizeof address.sun_path || listener < 0)
        fail("no socket");
    strcpy(address.sun_path, path);
    unlink(path);
    if (bind(listener, (const struct sockaddr *)&address, sizeof address) != 0 || listen(listener, 8) != 0)
        fail("it cannot listen");
}

static int open_descriptors(void)
{
    int count = 0;

    for (int i = 0; i < DESCRIPTORS; i++)
        if (fcntl(i, F_GETFD) >= 0)
            count++;
    return count;
}

int main(int count, char **words)
{
    struct question question = { .room = 1024, .count = 1 };
    int threads = 1;
    bool starts_program = false;
    bool has_alarms = false;
    bool is_without_streams = false;
    bool is_cancelled = false;
    pthread_t program;
    pthread_t thread[64];
    struct question *questions;
    void *module;
    int before;
    bool is_well = true;

    for (int option; (option = getopt(count, words, "r:n:t:p:mdscfxo")) != -1;) {
        if (option == 'r')
            question.room = strtoul(optarg, NULL, 10);
        else if (option == 'n')
            question.count = strtol(optarg, NULL, 10);
        else if (option == 't')
            threads = (int)strtol(optarg, NULL, 10);
        else if (option == 'm')
            question.has_meddler = true;
        else if (option == 'd')
            question.may_differ = true;
        else if (option == 'p')
            question.pause = (struct timespec){ .tv_sec = atol(optarg) / 1000, .tv_nsec = atol(optarg) % 1000 * 1000000 };
        else if (option == 's')
            has_alarms = true;
        else if (option == 'c')
            starts_program = true;
        else if (option == 'f')
            is_without_streams = true;
        else if (option == 'x')
            is_cancelled = true;
        else if (option == 'o')
            listen_itself();
        else
            fail("no such option");
    }
    if (count - optind != 3 || threads < 1 || threads > 64)
        fail("MODULE KIND NAME");
    module = dlopen(words[optind], RTLD_NOW);
    if (module == NULL)
        fail(dlerror());
    question.kind = words[optind + 1];
    question.name = words[optind + 2];
    question.call = call_of(module, question.kind);
    questions = calloc((size_t)threads, sizeof *questions);
    if (questions == NULL)
        fail("no memory");
    before = open_descriptors();
    for (int i = 0; i < DESCRIPTORS; i++)
        was_open[i] = fcntl(i, F_GETFD) >= 0;
    int output = is_without_streams ? fcntl(1, F_DUPFD_CLOEXEC, 100) : 1;
    if (is_without_streams) {
        close(0);
        close(1);
    }
    if (has_alarms)
        start_alarms();
    else
        alarm(120);
    if (starts_program)
        pthread_create(&program, NULL, start_program, NULL);
    for (int i = 0; i < threads; i++) {
        questions[i] = question;
        questions[i].answer = calloc(1, ANSWER);
        if (questions[i].answer == NULL || pthread_create(&thread[i], NULL, ask_often, &questions[i]) != 0)
            fail("no thread");
    }
    if (is_cancelled) {
        struct timespec while_asking = { .tv_nsec = 200000000 };

        nanosleep(&while_asking, NULL);
        for (int i = 0; i < threads; i++)
            pthread_cancel(thread[i]);
    }
    for (int i = 0; i < threads; i++) {
        pthread_join(thread[i], NULL);
        if (questions[i].differs || strcmp(questions[i].answer, questions[0].answer) != 0)
            is_well = false;
    }
    if (starts_program)
        pthread_join(program, NULL);
    if (spare >= 0)
        close(spare);
    /* What the module keeps goes with it. */
    if (dlclose(module) != 0 || open_descriptors() != before - (is_without_streams ? 1 : 0))
        is_well = false;
    if (!question.may_differ || !is_well)
        dprintf(output, "%s%s\n", questions[0].answer, is_well ? "" : " (answers differ, or a descriptor is left)");
    for (int i = 0; i < threads; i++)
        free(questions[i].answer);
    free(questions);
    return is_well ? 0 : 1;
}
