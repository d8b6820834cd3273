/* bixethomi-store: shows what the daemon keeps, or writes it as a scenario. */
#include "scenario.h"

#include <getopt.h>
#include <stdlib.h>
#include <string.h>
#include <time.h>

#define STORE "/var/lib/bixethomi/store"
#define CONFIGURATION "/etc/bixethomi/bixethomi.conf"
#define MOST_CONFIGURATION ((size_t)1 << 20)
#define MOST_SCENARIO ((size_t)16 << 20)

enum status { WELL = 0, FAILED = 1, USAGE = 2 };

/* The seconds for which other requests leave a server alone that failed. */
#define REST 30

struct wishes {
    const char *store, *configuration, *scenario;
    const char *user, *kind;
    bool is_json;
    uint64_t now;
};

struct showing {
    const struct wishes *wishes;
    const struct configuration *configuration;
    bool is_first;
};

static const char *const kind_names[] = {"head", "answer", "hash", "wrong", "fall", "online"};
static const char *const key_names[] = {"user", "uid", "group", "gid", "groups", "host", "rules"};

static _Noreturn void usage(void) {
    fputs("bixethomi-store [--conf CONF] [--user NAME] [--kind KIND] [--json] [--at SECONDS] [STORE]\n"
          "bixethomi-store --scenario CONF [STORE]\n"
          "KIND is answer, hash, wrong, fall, online, or that of an answer: user, uid, group, gid, groups, host, rules\n",
        stderr);
    exit(USAGE);
}

static bool is_kind(const char *kind) {
    for (size_t place = ANSWER; place <= ONLINE; place++) {
        if (strcmp(kind, kind_names[place]) == 0) {
            return true;
        }
    }
    for (size_t place = 0; place <= KEY_RULES; place++) {
        if (strcmp(kind, key_names[place]) == 0) {
            return true;
        }
    }
    return false;
}

static struct wishes read_words(int count, char **words) {
    static const struct option options[] = {{"conf", required_argument, NULL, 'c'}, {"user", required_argument, NULL, 'u'},
        {"kind", required_argument, NULL, 'k'}, {"json", no_argument, NULL, 'j'}, {"scenario", required_argument, NULL, 's'},
        {"at", required_argument, NULL, 'a'}, {NULL, 0, NULL, 0}};
    struct wishes wishes = {.store = STORE, .now = (uint64_t)time(NULL)};
    unsigned long number;
    int option;
    while ((option = getopt_long(count, words, "", options, NULL)) != -1) {
        switch (option) {
        case 'c':
            wishes.configuration = optarg;
            break;
        case 'u':
            wishes.user = optarg;
            break;
        case 'k':
            if (!is_kind(optarg)) {
                usage();
            }
            wishes.kind = optarg;
            break;
        case 'j':
            wishes.is_json = true;
            break;
        case 's':
            wishes.scenario = optarg;
            break;
        case 'a':
            if (!text_number(text_of(optarg), &number)) {
                usage();
            }
            wishes.now = number;
            break;
        default:
            usage();
        }
    }
    if (optind + 1 < count) {
        usage();
    }
    wishes.store = optind < count ? words[optind] : STORE;
    return wishes;
}

/* Whether a row is about a user: the user, its groups, its password, a group that has it as a member. */
static bool is_about(const struct row *row, const char *user) {
    if (row->kind == FALL) {
        return false;
    }
    if (row->kind != ANSWER || row->key == KEY_USER || row->key == KEY_GROUPS) {
        return text_is(row->name, user);
    }
    if (row->key == KEY_UID) {
        return row->is_found && text_is(row->user.name, user);
    }
    if (row->key == KEY_GROUP || row->key == KEY_GID) {
        for (size_t place = 0; place < row->group.members.count; place++) {
            if (text_is(row->group.members.items[place], user)) {
                return true;
            }
        }
    }
    return false;
}

static bool is_wanted(const struct row *row, const struct wishes *wishes) {
    if (wishes->user != NULL && !is_about(row, wishes->user)) {
        return false;
    }
    return wishes->kind == NULL || strcmp(wishes->kind, kind_names[row->kind]) == 0 ||
        (row->kind == ANSWER && strcmp(wishes->kind, key_names[row->key]) == 0);
}

/* What is left of a row's time: of an answer until it is asked again, of a hash until it expires, of wrong guesses until the block
 * ends, of a fall until the server is asked again. */
struct left {
    bool is_known;
    bool is_endless;
    uint64_t seconds;
};

static struct left left_of(uint64_t moment, uint64_t lasts, uint64_t now) {
    uint64_t end = moment + lasts;
    return (struct left){.is_known = true, .seconds = end > now ? end - now : 0};
}

static uint64_t answer_lasts(const struct configuration *configuration, const struct row *row) {
    if (!row->is_found) {
        return configuration_number(configuration, NEGATIVE_TIMEOUT);
    }
    switch (row->key) {
    case KEY_USER:
    case KEY_UID:
    case KEY_GROUPS:
        return configuration_number(configuration, USER_TIMEOUT);
    case KEY_GROUP:
    case KEY_GID:
        return configuration_number(configuration, GROUP_TIMEOUT);
    case KEY_HOST:
    case KEY_RULES:
        break;
    }
    return configuration_number(configuration, HBAC_REFRESH);
}

static struct left row_left(const struct showing *showing, const struct row *row) {
    const struct configuration *configuration = showing->configuration;
    uint64_t now = showing->wishes->now, number, delay;
    struct left none = {0}, endless = {.is_known = true, .is_endless = true};
    if (configuration == NULL) {
        return none;
    }
    switch (row->kind) {
    case ANSWER:
        return row->is_voided ? (struct left){.is_known = true} : left_of(row->moment, answer_lasts(configuration, row), now);
    case HASH:
        number = configuration_number(configuration, EXPIRATION_DAYS);
        return number == 0 ? endless : left_of(row->moment, number * 86400, now);
    case WRONG:
        number = configuration_number(configuration, LOGIN_ATTEMPTS);
        delay = configuration_number(configuration, LOGIN_DELAY);
        if (number == 0 || row->count % number != 0) {
            return none;
        }
        return delay == 0 ? endless : left_of(row->moment, delay * 60, now);
    case FALL:
        return left_of(row->moment, REST, now);
    case HEAD:
    case ONLINE:
        break;
    }
    return none;
}

static const struct server *server_of(const struct showing *showing, const struct row *row) {
    const struct configuration *configuration = showing->configuration;
    return configuration == NULL || row->server >= configuration->server_count ? NULL : &configuration->servers[row->server];
}

static uint64_t age_of(const struct showing *showing, const struct row *row) {
    return showing->wishes->now > row->moment ? showing->wishes->now - row->moment : 0;
}

/* Lines for people. */

/* In a list of names the comma is escaped as well. */
static void print_listed(struct text name) {
    struct text part;
    for (bool is_first = true; text_next(&name, ',', &part); is_first = false) {
        fputs(is_first ? "" : "\\2c", stdout);
        print_field(stdout, part);
    }
}

static void print_names(const struct texts *names) {
    for (size_t place = 0; place < names->count; place++) {
        fputs(place == 0 ? "" : ",", stdout);
        print_listed(names->items[place]);
    }
}

static void print_user(const struct user *user) {
    print_field(stdout, user->name);
    printf(":%u:%u:", (unsigned)user->uid, (unsigned)user->gid);
    print_field(stdout, user->gecos);
    putchar(':');
    print_field(stdout, user->home);
    putchar(':');
    print_field(stdout, user->shell);
}

static void print_record(const struct row *row) {
    switch (row->key) {
    case KEY_USER:
    case KEY_UID:
        print_user(&row->user);
        break;
    case KEY_GROUP:
    case KEY_GID:
        print_field(stdout, row->group.name);
        printf(":%u:", (unsigned)row->group.gid);
        print_names(&row->group.members);
        break;
    case KEY_GROUPS:
        for (size_t place = 0; place < row->groups.count; place++) {
            const struct group_reference *group = &row->groups.items[place];
            fputs(place == 0 ? "" : ",", stdout);
            print_listed(group->name);
            if (group->has_gid) {
                printf("(%u)", (unsigned)group->gid);
            }
        }
        break;
    case KEY_HOST:
        print_field(stdout, row->host.name);
        fputs(" in ", stdout);
        print_names(&row->host.groups);
        break;
    case KEY_RULES:
        printf("%zu rules, %zu services", row->book.rule_count, row->book.service_count);
        break;
    }
}

static void print_key(const struct row *row) {
    fputs(key_names[row->key], stdout);
    if (row->key == KEY_UID || row->key == KEY_GID) {
        printf(":%u", (unsigned)row->key_number);
    } else if (row->key != KEY_HOST && row->key != KEY_RULES) {
        putchar(':');
        print_field(stdout, row->name);
    }
}

static void print_times(const struct showing *showing, const struct row *row) {
    struct left left = row_left(showing, row);
    const char *word = row->kind == WRONG ? "blocked" : row->kind == FALL ? "rests" : "left";
    fputs("  age ", stdout);
    print_duration(stdout, age_of(showing, row));
    if (!left.is_known) {
        return;
    }
    printf("  %s ", word);
    if (left.is_endless) {
        fputs("no end", stdout);
    } else {
        print_duration(stdout, left.seconds);
    }
}

static void show_line(const struct showing *showing, const struct row *row) {
    const struct server *server = row->kind == FALL ? server_of(showing, row) : NULL;
    printf("%-7s %llu  ", kind_names[row->kind], (unsigned long long)row->number);
    if (row->kind == ANSWER) {
        print_key(row);
    } else if (row->kind == FALL) {
        printf("server %u", (unsigned)row->server);
    } else {
        print_field(stdout, row->name);
    }
    if (server != NULL) {
        printf(" %.*s:%u", (int)server->host.count, server->host.bytes, server->port);
    }
    if (row->kind == WRONG) {
        printf("  %llu wrong guesses", (unsigned long long)row->count);
    }
    print_times(showing, row);
    if (row->kind == ANSWER) {
        fputs(row->is_voided ? "  voided  " : "  ", stdout);
        if (row->is_found) {
            print_record(row);
        } else {
            fputs("absent", stdout);
        }
    }
    putchar('\n');
}

/* JSON. */

static void json_member(const char *name, struct text text) {
    printf(",\"%s\":", name);
    print_json(stdout, text);
}

static void json_names(const char *name, const struct texts *names) {
    printf(",\"%s\":[", name);
    for (size_t place = 0; place < names->count; place++) {
        fputs(place == 0 ? "" : ",", stdout);
        print_json(stdout, names->items[place]);
    }
    putchar(']');
}

static void json_user(const struct user *user) {
    json_member("name", user->name);
    printf(",\"uid\":%u,\"gid\":%u", (unsigned)user->uid, (unsigned)user->gid);
    json_member("gecos", user->gecos);
    json_member("home", user->home);
    json_member("shell", user->shell);
    json_member("dn", user->dn);
}

static void json_groups(const struct group_references *groups) {
    fputs(",\"groups\":[", stdout);
    for (size_t place = 0; place < groups->count; place++) {
        fputs(place == 0 ? "{\"name\":" : ",{\"name\":", stdout);
        print_json(stdout, groups->items[place].name);
        if (groups->items[place].has_gid) {
            printf(",\"gid\":%u", (unsigned)groups->items[place].gid);
        }
        putchar('}');
    }
    putchar(']');
}

static void json_rules(const struct rule_book *book) {
    fputs(",\"rules\":[", stdout);
    for (size_t place = 0; place < book->rule_count; place++) {
        fputs(place == 0 ? "{\"name\":" : ",{\"name\":", stdout);
        print_json(stdout, book->rules[place].name);
        printf(",\"enabled\":%s}", book->rules[place].is_enabled ? "true" : "false");
    }
    fputs("],\"services\":[", stdout);
    for (size_t place = 0; place < book->service_count; place++) {
        fputs(place == 0 ? "" : ",", stdout);
        print_json(stdout, book->services[place].name);
    }
    putchar(']');
}

static void json_record(const struct row *row) {
    switch (row->key) {
    case KEY_USER:
    case KEY_UID:
        json_user(&row->user);
        break;
    case KEY_GROUP:
    case KEY_GID:
        json_member("name", row->group.name);
        printf(",\"gid\":%u", (unsigned)row->group.gid);
        json_names("members", &row->group.members);
        json_member("dn", row->group.dn);
        break;
    case KEY_GROUPS:
        json_groups(&row->groups);
        break;
    case KEY_HOST:
        json_member("name", row->host.name);
        json_names("groups", &row->host.groups);
        break;
    case KEY_RULES:
        json_rules(&row->book);
        break;
    }
}

static void json_answer(const struct row *row) {
    printf(",\"key\":\"%s\"", key_names[row->key]);
    if (row->key == KEY_UID || row->key == KEY_GID) {
        printf(",\"asked\":%u", (unsigned)row->key_number);
    } else if (row->key != KEY_HOST && row->key != KEY_RULES) {
        json_member("asked", row->name);
    }
    printf(",\"found\":%s,\"voided\":%s", row->is_found ? "true" : "false", row->is_voided ? "true" : "false");
    if (row->is_found) {
        json_record(row);
    }
}

static void json_fall(const struct showing *showing, const struct row *row) {
    const struct server *server = server_of(showing, row);
    printf(",\"server\":%u", (unsigned)row->server);
    if (server != NULL) {
        json_member("host", server->host);
        printf(",\"port\":%u", server->port);
    }
}

static void show_json(const struct showing *showing, const struct row *row) {
    struct left left = row_left(showing, row);
    printf("%s\n{\"kind\":\"%s\",\"number\":%llu,\"moment\":%llu,\"age\":%llu", showing->is_first ? "" : ",", kind_names[row->kind],
        (unsigned long long)row->number, (unsigned long long)row->moment, (unsigned long long)age_of(showing, row));
    if (left.is_known && left.is_endless) {
        fputs(",\"left\":null", stdout);
    } else if (left.is_known) {
        printf(",\"left\":%llu", (unsigned long long)left.seconds);
    }
    if (row->kind == ANSWER) {
        json_answer(row);
    } else if (row->kind == FALL) {
        json_fall(showing, row);
    } else {
        json_member("user", row->name);
    }
    if (row->kind == WRONG) {
        printf(",\"count\":%llu", (unsigned long long)row->count);
    }
    putchar('}');
}

static void show_head(const struct wishes *wishes, const struct kept *kept) {
    struct text path = text_of(wishes->store);
    if (wishes->is_json) {
        fputs("{\"store\":", stdout);
        print_json(stdout, path);
        printf(",\"version\":%u,\"next\":%llu,\"moment\":%llu,\"rows\":[", (unsigned)kept->version, (unsigned long long)kept->next,
            (unsigned long long)kept->moment);
        return;
    }
    printf("%s: version %u, %zu rows, next entry %llu, last moment %llu\n", wishes->store, (unsigned)kept->version, kept->count,
        (unsigned long long)kept->next, (unsigned long long)kept->moment);
}

static void show(const struct wishes *wishes, const struct configuration *configuration, const struct kept *kept) {
    struct showing showing = {wishes, configuration, true};
    show_head(wishes, kept);
    for (size_t place = 0; place < kept->count; place++) {
        if (!is_wanted(&kept->rows[place], wishes)) {
            continue;
        }
        if (wishes->is_json) {
            show_json(&showing, &kept->rows[place]);
        } else {
            show_line(&showing, &kept->rows[place]);
        }
        showing.is_first = false;
    }
    if (wishes->is_json) {
        puts("\n]}");
    }
}

static bool write_scenario(const struct configuration *configuration, const struct kept *kept) {
    struct buffer text = {0};
    bool fits;
    scenario_write(&text, configuration, kept);
    fits = text.count <= MOST_SCENARIO;
    if (fits) {
        fwrite(text.bytes, 1, text.count, stdout);
    } else {
        fputs("bixethomi-store: the scenario has more than 16 MiB, the most that the daemon's program reads\n", stderr);
    }
    buffer_free(&text);
    return fits;
}

/* Reads the configuration where one was named, or the host's own where that can be read. */
static bool read_configuration(const struct wishes *wishes, struct buffer *text, struct configuration *configuration) {
    const char *named = wishes->scenario != NULL ? wishes->scenario : wishes->configuration;
    int fault = read_file(named != NULL ? named : CONFIGURATION, MOST_CONFIGURATION, text);
    if (fault != 0 && named != NULL) {
        fprintf(stderr, "bixethomi-store: %s: %s\n", named, strerror(fault));
        exit(FAILED);
    }
    if (fault != 0) {
        return false;
    }
    configuration_read(configuration, text_in(text));
    if (configuration_faults(configuration) > 0 && named != NULL) {
        fprintf(stderr, "bixethomi-store: %s has faults: bixethomi-check names them\n", named);
        exit(FAILED);
    }
    return configuration_faults(configuration) == 0;
}

int main(int count, char **words) {
    struct wishes wishes = read_words(count, words);
    struct configuration configuration = {0};
    struct buffer text = {0};
    struct kept kept;
    bool has_configuration = read_configuration(&wishes, &text, &configuration), is_done = true;
    const char *fault = kept_read(wishes.store, &kept);
    if (fault != NULL) {
        fprintf(stderr, "bixethomi-store: %s: %s\n", wishes.store, fault);
        exit(FAILED);
    }
    if (wishes.scenario != NULL) {
        is_done = write_scenario(&configuration, &kept);
    } else {
        show(&wishes, has_configuration ? &configuration : NULL, &kept);
    }
    kept_free(&kept);
    configuration_free(&configuration);
    buffer_free(&text);
    if (fflush(stdout) != 0 || ferror(stdout) != 0) {
        return FAILED;
    }
    return is_done ? WELL : FAILED;
}
