/* bixethomi-check: every fault and every line without effect of a configuration; where asked to, what its servers answer. */
#include "configuration.h"
#include "search.h"

#include <getopt.h>
#include <netdb.h>
#include <stdlib.h>
#include <string.h>
#include <unistd.h>

#define CONFIGURATION "/etc/bixethomi/bixethomi.conf"
#define MOST_CONFIGURATION ((size_t)1 << 20)

enum status { WELL = 0, FAULTS = 1, USAGE = 2, UNREADABLE = 3, NO_ANSWER = 4 };

struct wishes {
    const char *path, *user, *group;
    bool is_json, asks, wants_addresses;
};

static _Noreturn void usage(void) {
    fputs("bixethomi-check [--json] [--ask [--user NAME] [--group NAME]] [CONF]\n"
          "bixethomi-check --addresses [CONF]\n", stderr);
    exit(USAGE);
}

static struct wishes read_words(int count, char **words) {
    static const struct option options[] = {{"json", no_argument, NULL, 'j'}, {"ask", no_argument, NULL, 'a'},
        {"user", required_argument, NULL, 'u'}, {"group", required_argument, NULL, 'g'}, {"addresses", no_argument, NULL, 'd'},
        {NULL, 0, NULL, 0}};
    struct wishes wishes = {0};
    int option;
    while ((option = getopt_long(count, words, "", options, NULL)) != -1) {
        switch (option) {
        case 'j':
            wishes.is_json = true;
            break;
        case 'a':
            wishes.asks = true;
            break;
        case 'u':
            wishes.user = optarg;
            break;
        case 'g':
            wishes.group = optarg;
            break;
        case 'd':
            wishes.wants_addresses = true;
            break;
        default:
            usage();
        }
    }
    if (optind + 1 < count || ((wishes.user != NULL || wishes.group != NULL) && !wishes.asks)) {
        usage();
    }
    wishes.path = optind < count ? words[optind] : CONFIGURATION;
    return wishes;
}

/* Findings. */

/* The words of a password are not shown. */
static bool is_secret(struct text option) { return text_begins(option, "ldap_default_authtok") && !text_is(option, "ldap_default_authtok_type"); }

static void print_value(const struct finding *finding) {
    if (is_secret(finding->option)) {
        fputs("..", stdout);
    } else {
        fwrite(finding->value.bytes, 1, finding->value.count, stdout);
    }
}

static void show_line(const char *path, const struct finding *finding) {
    fputs(path, stdout);
    if (finding->line > 0) {
        printf(":%u", finding->line);
    }
    fputs(finding->kind == FAULT ? ": fault: " : ": no effect: ", stdout);
    if (finding->section.bytes != NULL) {
        printf("[%.*s] ", (int)finding->section.count, finding->section.bytes);
    }
    if (finding->option.bytes != NULL) {
        fwrite(finding->option.bytes, 1, finding->option.count, stdout);
        if (finding->line > 0) {
            fputs(" = ", stdout);
            print_value(finding);
        } else {
            fputs(" is missing", stdout);
        }
        fputs(finding->kind == NO_EFFECT ? ": " : finding->line > 0 ? ": allowed: " : ": needed: ", stdout);
    }
    puts(finding->why);
}

static void json_finding(const struct finding *finding, bool is_first) {
    printf("%s\n{\"kind\":\"%s\"", is_first ? "" : ",", finding->kind == FAULT ? "fault" : "no effect");
    if (finding->line > 0) {
        printf(",\"line\":%u", finding->line);
    }
    if (finding->section.bytes != NULL) {
        fputs(",\"section\":", stdout);
        print_json(stdout, finding->section);
    }
    if (finding->option.bytes != NULL) {
        fputs(",\"option\":", stdout);
        print_json(stdout, finding->option);
    }
    if (finding->option.bytes != NULL && finding->line > 0) {
        fputs(",\"value\":", stdout);
        print_json(stdout, is_secret(finding->option) ? text_of("..") : finding->value);
    }
    printf(",\"%s\":", finding->kind == FAULT ? "allowed" : "why");
    print_json(stdout, text_of(finding->why));
    putchar('}');
}

static void show_findings(const struct wishes *wishes, const struct configuration *configuration) {
    size_t faults = configuration_faults(configuration);
    if (wishes->is_json) {
        fputs("{\"configuration\":", stdout);
        print_json(stdout, text_of(wishes->path));
        printf(",\"faults\":%zu,\"findings\":[", faults);
    }
    for (size_t place = 0; place < configuration->finding_count; place++) {
        if (wishes->is_json) {
            json_finding(&configuration->findings[place], place == 0);
        } else {
            show_line(wishes->path, &configuration->findings[place]);
        }
    }
    if (wishes->is_json) {
        putchar(']');
    } else {
        printf("%s: %zu faults, %zu lines without effect\n", wishes->path, faults, configuration->finding_count - faults);
    }
}

/* What the servers answer. */

struct asking {
    const struct wishes *wishes;
    const struct configuration *configuration;
    bool is_first;
    size_t unanswered;
};

static void show_answer(struct asking *asking, const struct server *server, const char *question, const struct search_result *result) {
    bool is_well = result->fault == NULL && result->code == 0 && result->entries > 0;
    /* One entry was asked for: a server that has more may say so. */
    if (result->fault == NULL && result->code == 4 && result->entries > 0) {
        is_well = true;
    }
    asking->unanswered += !is_well;
    if (asking->wishes->is_json) {
        printf("%s\n{\"host\":", asking->is_first ? "" : ",");
        print_json(stdout, server->host);
        printf(",\"port\":%u,\"question\":", server->port);
        print_json(stdout, text_of(question));
        printf(",\"well\":%s", is_well ? "true" : "false");
    } else {
        printf("%.*s:%u: %s: %s", (int)server->host.count, server->host.bytes, server->port, question, is_well ? "found" : "");
    }
    asking->is_first = false;
    if (asking->wishes->is_json) {
        if (result->fault != NULL) {
            fputs(",\"fault\":", stdout);
            print_json(stdout, text_of(result->fault));
        } else {
            printf(",\"code\":%u,\"entries\":%zu", result->code, result->entries);
        }
        printf(",\"milliseconds\":%.1f}", result->milliseconds);
        return;
    }
    if (result->fault != NULL) {
        fputs(result->fault, stdout);
    } else if (!is_well && result->code != 0 && result->code != 32) {
        printf("refused by code %u", result->code);
    } else if (!is_well) {
        fputs("no such entry, or it may not be read anonymously", stdout);
    }
    printf(" (%.1f ms)\n", result->milliseconds);
}

static void ask_for(struct asking *asking, const struct server *server, int connection, unsigned number) {
    struct text base = text_in(&asking->configuration->base);
    const char *user = asking->wishes->user, *group = asking->wishes->group;
    struct search search = {.base = base};
    const char *question = "the search base";
    struct search_result result;
    if (number == 2) {
        question = user == NULL ? "a user" : user;
        search = (struct search){base, 2, "posixAccount", user == NULL ? NULL : "uid", text_of(user == NULL ? "" : user)};
    } else if (number == 3) {
        question = group == NULL ? "a group" : group;
        search = (struct search){base, 2, "posixGroup", group == NULL ? NULL : "cn", text_of(group == NULL ? "" : group)};
    }
    result = server_search(connection, number, &search);
    show_answer(asking, server, question, &result);
}

static void ask_server(struct asking *asking, const struct server *server) {
    struct search_result none = {0};
    char host[256];
    int connection;
    snprintf(host, sizeof host, "%.*s", (int)server->host.count, server->host.bytes);
    connection = server_connect(host, server->port, &none.fault);
    if (connection < 0) {
        show_answer(asking, server, "a connection", &none);
        return;
    }
    for (unsigned number = 1; number <= 3; number++) {
        ask_for(asking, server, connection, number);
    }
    close(connection);
}

static size_t ask_servers(const struct wishes *wishes, const struct configuration *configuration) {
    struct asking asking = {wishes, configuration, true, 0};
    if (wishes->is_json) {
        fputs(",\"answers\":[", stdout);
    }
    for (size_t place = 0; place < configuration->server_count; place++) {
        ask_server(&asking, &configuration->servers[place]);
    }
    if (wishes->is_json) {
        putchar(']');
    }
    return asking.unanswered;
}

/* The lines of a drop-in that lets the unit reach its servers and resolvers alone. */

static void allow_host(const char *host) {
    const struct addrinfo hints = {.ai_socktype = SOCK_STREAM};
    struct addrinfo *found = NULL;
    char digits[64];
    if (getaddrinfo(host, NULL, &hints, &found) != 0) {
        printf("# %s has no address here\n", host);
        return;
    }
    for (const struct addrinfo *address = found; address != NULL; address = address->ai_next) {
        if (getnameinfo(address->ai_addr, address->ai_addrlen, digits, sizeof digits, NULL, 0, NI_NUMERICHOST) == 0) {
            digits[strcspn(digits, "%")] = '\0';
            printf("# %s\nIPAddressAllow=%s\n", host, digits);
        }
    }
    freeaddrinfo(found);
}

static void allow_resolvers(void) {
    struct buffer file = {0};
    struct text rest, line;
    if (read_file("/etc/resolv.conf", MOST_CONFIGURATION, &file) == 0) {
        rest = text_in(&file);
        while (text_next(&rest, '\n', &line)) {
            if (text_begins(line, "nameserver ")) {
                line = text_trimmed(text_behind(line, 11));
                printf("# a resolver\nIPAddressAllow=%.*s\n", (int)line.count, line.bytes);
            }
        }
    }
    buffer_free(&file);
}

static void show_addresses(const struct configuration *configuration) {
    char host[256];
    puts("[Service]\nIPAddressDeny=any\nIPAddressAllow=localhost");
    for (size_t place = 0; place < configuration->server_count; place++) {
        const struct server *server = &configuration->servers[place];
        snprintf(host, sizeof host, "%.*s", (int)server->host.count, server->host.bytes);
        allow_host(host);
    }
    allow_resolvers();
}

int main(int count, char **words) {
    struct wishes wishes = read_words(count, words);
    struct configuration configuration;
    struct buffer text = {0};
    size_t faults, unanswered = 0;
    int fault = read_file(wishes.path, MOST_CONFIGURATION, &text);
    if (fault != 0) {
        fprintf(stderr, "bixethomi-check: %s: %s\n", wishes.path, strerror(fault));
        return UNREADABLE;
    }
    configuration_read(&configuration, text_in(&text));
    faults = configuration_faults(&configuration);
    if (!wishes.wants_addresses || faults > 0) {
        show_findings(&wishes, &configuration);
    }
    if (wishes.wants_addresses && faults == 0) {
        show_addresses(&configuration);
    }
    if (wishes.asks) {
        unanswered = ask_servers(&wishes, &configuration);
    }
    if (wishes.is_json && !(wishes.wants_addresses && faults == 0)) {
        puts("}");
    }
    configuration_free(&configuration);
    buffer_free(&text);
    if (fflush(stdout) != 0 || ferror(stdout) != 0) {
        return UNREADABLE;
    }
    return faults > 0 ? FAULTS : unanswered > 0 ? NO_ANSWER : WELL;
}
