/* ahead MODULE USER [SEQUENCES]: asks an NSS module for a user's groups as id(1) does, and then for their names in several
 * orders and with other questions, pauses and children between; and so many sequences (100) of questions for the user, by name
 * and number, the groups and their names, in any order: whatever the module keeps and asks ahead, each answer has to be that
 * of a question by itself. Prints the groups' names. The exit status is 0 where they are, and no descriptor was left open, else 1. */
#include <dirent.h>
#include <dlfcn.h>
#include <fcntl.h>
#include <grp.h>
#include <nss.h>
#include <pwd.h>
#include <stdbool.h>
#include <stdio.h>
#include <stdlib.h>
#include <string.h>
#include <sys/wait.h>
#include <time.h>
#include <unistd.h>

typedef enum nss_status user_by_name(const char *, struct passwd *, char *, size_t, int *);
typedef enum nss_status user_by_number(uid_t, struct passwd *, char *, size_t, int *);
typedef enum nss_status group_by_number(gid_t, struct group *, char *, size_t, int *);
typedef enum nss_status groups_of_user(const char *, gid_t, long *, long *, gid_t **, long, int *);

enum { MOST_GROUPS = 64, LONGEST = 256, DESCRIPTORS = 64 };

static user_by_name *ask_user;
static user_by_number *ask_uid;
static group_by_number *ask_group;
static groups_of_user *ask_groups;
static const char *user_name;
static gid_t gids[MOST_GROUPS];
static char names[MOST_GROUPS][LONGEST];
static size_t group_count;
static uid_t uid;
static bool was_open[DESCRIPTORS];

static void fail(const char *what)
{
    fprintf(stderr, "ahead: %s\n", what);
    exit(1);
}

/* A function's address and an object's are the same thing here, but not to the compiler. */
static void find(void *module, const char *name, void *call)
{
    void *found = dlsym(module, name);

    if (found == NULL)
        fail(name);
    memcpy(call, &found, sizeof found);
}

static int open_descriptors(void)
{
    DIR *listed = opendir("/proc/self/fd");
    int count = 0;

    if (listed == NULL)
        fail("/proc/self/fd");
    while (readdir(listed) != NULL)
        count++;
    closedir(listed);
    return count;
}

static gid_t group_of_user(void)
{
    struct passwd user;
    char buffer[4096];
    int error;

    if (ask_user(user_name, &user, buffer, sizeof buffer, &error) != NSS_STATUS_SUCCESS)
        fail("the user is not found");
    uid = user.pw_uid;
    return user.pw_gid;
}

static void ask_by_number(void)
{
    struct passwd user;
    char buffer[4096];
    int error;

    if (ask_uid(uid, &user, buffer, sizeof buffer, &error) != NSS_STATUS_SUCCESS || strcmp(user.pw_name, user_name) != 0)
        fail("the user by number is another");
}

static void name_of_group(gid_t gid, char *name)
{
    struct group group;
    char buffer[65536];
    int error;

    if (ask_group(gid, &group, buffer, sizeof buffer, &error) != NSS_STATUS_SUCCESS)
        fail("a group is not found");
    snprintf(name, LONGEST, "%s", group.gr_name);
}

/* Its first group, asked by its number, and then its others: from here on their names are asked ahead. */
static void ask_for_groups(void)
{
    gid_t first = group_of_user();
    long start = 0, size = 1;
    gid_t *list = malloc(sizeof *list);
    char name[LONGEST];
    int error;

    name_of_group(first, name);
    if (list == NULL || ask_groups(user_name, first, &start, &size, &list, 0, &error) != NSS_STATUS_SUCCESS)
        fail("the groups are not found");
    group_count = 0;
    gids[group_count++] = first;
    for (long i = 0; i < start && group_count < MOST_GROUPS; i++)
        gids[group_count++] = list[i];
    free(list);
}

static void wait_long(void)
{
    struct timespec pause = { .tv_nsec = 60000000 };

    nanosleep(&pause, NULL);
}

static void ask_in_child(void)
{
    pid_t child = fork();
    char name[LONGEST];
    int status;

    if (child == 0) {
        name_of_group(gids[0], name);
        _exit(strcmp(name, names[0]) != 0);
    }
    if (child < 0 || waitpid(child, &status, 0) != child || status != 0)
        fail("a child was told another name");
}

static void ask_user_between(void)
{
    if (group_of_user() != gids[0])
        fail("the user has another group");
}

static void nothing(void)
{
}

/* Asks for the names from one place on in steps, over and over; `between` is done before the name at `place`. */
static bool asks_well(size_t from, size_t step, size_t place, void (*between)(void))
{
    ask_for_groups();
    for (size_t i = 0; i < 2 * group_count; i++) {
        size_t at = (from + i * step) % group_count;
        char name[LONGEST];

        if (i == place)
            between();
        name_of_group(gids[at], name);
        if (strcmp(name, names[at]) != 0)
            return false;
    }
    return true;
}

/* The groups behind the first, as they were told before. */
static void ask_list(void)
{
    long start = 0, size = 4;
    gid_t *list = malloc((size_t)size * sizeof *list);
    int error;

    if (list == NULL || ask_groups(user_name, gids[0], &start, &size, &list, 0, &error) != NSS_STATUS_SUCCESS
        || (size_t)start + 1 != group_count || memcmp(list, gids + 1, (group_count - 1) * sizeof *list) != 0)
        fail("the groups are others");
    free(list);
}

static void ask_name(size_t at)
{
    char name[LONGEST];

    name_of_group(gids[at % group_count], name);
    if (strcmp(name, names[at % group_count]) != 0)
        fail("the group has another name");
}

/* As a program does that closes what it did not open, and opens files of its own. */
static void take_descriptors(int first)
{
    int spare;

    for (int i = first; i < DESCRIPTORS; i++)
        if (!was_open[i])
            close(i);
    spare = open("/dev/null", O_RDONLY | O_CLOEXEC);
    if (spare != first)
        fail("no file");
    ask_name(0);
    close(spare);
}

static size_t random_below(unsigned *state, size_t bound)
{
    *state = *state * 1664525 + 1013904223;
    return (*state >> 8) % bound;
}

/* Mostly what id(1) asks, in its order or another. */
static void ask_in_any_order(unsigned seed, int free_descriptor)
{
    unsigned state = seed;

    for (int i = 0; i < 16; i++)
        switch (random_below(&state, 24)) {
        case 0:
            wait_long();
            break;
        case 1:
            ask_in_child();
            break;
        case 2:
            take_descriptors(free_descriptor);
            break;
        case 3: case 4: case 5: case 6:
            ask_by_number();
            break;
        case 7: case 8: case 9: case 10:
            ask_list();
            break;
        case 11: case 12: case 13: case 14: case 15: case 16:
            ask_name(random_below(&state, group_count));
            break;
        default:
            ask_user_between();
            break;
        }
}

/* The number that the next file has. */
static int next_descriptor(void)
{
    int next = open("/dev/null", O_RDONLY | O_CLOEXEC);

    close(next);
    for (int i = 0; i < DESCRIPTORS; i++)
        was_open[i] = fcntl(i, F_GETFD) >= 0;
    return next;
}

int main(int argc, char **argv)
{
    unsigned sequences = argc > 3 ? (unsigned)strtoul(argv[3], NULL, 10) : 100;
    int free_descriptor = next_descriptor();
    void (*const betweens[])(void) = { nothing, wait_long, ask_in_child, ask_user_between, ask_for_groups };
    int before = open_descriptors();
    void *module;

    if (argc < 3)
        fail("usage: ahead MODULE USER [SEQUENCES]");
    user_name = argv[2];
    module = dlopen(argv[1], RTLD_NOW);
    if (module == NULL)
        fail(dlerror());
    find(module, "_nss_bixethomi_getpwnam_r", &ask_user);
    find(module, "_nss_bixethomi_getpwuid_r", &ask_uid);
    find(module, "_nss_bixethomi_getgrgid_r", &ask_group);
    find(module, "_nss_bixethomi_initgroups_dyn", &ask_groups);
    ask_for_groups();
    /* What was kept and asked ahead is too old then, so each of these names is asked for by itself. */
    for (size_t i = 0; i < group_count; i++) {
        wait_long();
        name_of_group(gids[i], names[i]);
    }
    for (size_t step = 1; step <= group_count; step++)
        for (size_t from = 0; from < group_count; from++)
            for (size_t i = 0; i < sizeof betweens / sizeof betweens[0]; i++)
                if (!asks_well(from, step, (from + step) % group_count, betweens[i]))
                    fail("another name");
    for (unsigned i = 0; i < sequences; i++)
        ask_in_any_order(i, free_descriptor);
    for (size_t i = 0; i < group_count; i++)
        printf("%s%s", i == 0 ? "" : " ", names[i]);
    printf("\n");
    fflush(stdout);
    if (dlclose(module) != 0 || open_descriptors() != before)
        fail("a descriptor is left");
    return 0;
}
