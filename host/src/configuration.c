#include "configuration.h"

#include <stdlib.h>
#include <string.h>

enum section { SSSD, NSS, PAM, DOMAIN, SECTION_COUNT };
enum rule { ANY, NUMBER, FLAG, ID_WORD, AUTH_WORD, ACCESS_WORD, LENGTH, URIS, HOSTS, DN };

struct row {
    const char *key;
    enum section section;
    enum rule rule;
    unsigned long least;
    unsigned long greatest;
    unsigned long standard;
};

#define COUNT 0, 4294967295UL

static const struct row rows[OPTION_COUNT] = {
    [DOMAINS] = {"domains", SSSD, ANY, 0, 0, 0},
    [SERVICES] = {"services", SSSD, ANY, 0, 0, 0},
    [CONFIG_FILE_VERSION] = {"config_file_version", SSSD, ANY, 0, 0, 0},
    [JOURNAL_LIMIT] = {"journal_limit", SSSD, NUMBER, 8, 1000000, 1000000},
    [NEGATIVE_TIMEOUT] = {"entry_negative_timeout", NSS, NUMBER, COUNT, 15},
    [NOWAIT_PERCENTAGE] = {"entry_cache_nowait_percentage", NSS, NUMBER, 0, 99, 50},
    [FILTER_USERS] = {"filter_users", NSS, ANY, 0, 0, 0},
    [FILTER_GROUPS] = {"filter_groups", NSS, ANY, 0, 0, 0},
    [PWFIELD] = {"pwfield", NSS, LENGTH, 0, 255, 0},
    [EXPIRATION_DAYS] = {"offline_credentials_expiration", PAM, NUMBER, COUNT, 0},
    [LOGIN_ATTEMPTS] = {"offline_failed_login_attempts", PAM, NUMBER, COUNT, 0},
    [LOGIN_DELAY] = {"offline_failed_login_delay", PAM, NUMBER, COUNT, 5},
    [ID_PROVIDER] = {"id_provider", DOMAIN, ID_WORD, 0, 0, 0},
    [AUTH_PROVIDER] = {"auth_provider", DOMAIN, AUTH_WORD, 0, 0, 0},
    [ACCESS_PROVIDER] = {"access_provider", DOMAIN, ACCESS_WORD, 0, 0, 0},
    [CACHE_TIMEOUT] = {"entry_cache_timeout", DOMAIN, NUMBER, COUNT, 5400},
    [USER_TIMEOUT] = {"entry_cache_user_timeout", DOMAIN, NUMBER, COUNT, 5400},
    [GROUP_TIMEOUT] = {"entry_cache_group_timeout", DOMAIN, NUMBER, COUNT, 5400},
    [CACHE_CREDENTIALS] = {"cache_credentials", DOMAIN, FLAG, 0, 0, 0},
    [CACHED_AUTH_TIMEOUT] = {"cached_auth_timeout", DOMAIN, NUMBER, COUNT, 0},
    [OFFLINE_TIMEOUT] = {"offline_timeout", DOMAIN, NUMBER, COUNT, 60},
    [LDAP_URI] = {"ldap_uri", DOMAIN, URIS, 0, 0, 0},
    [LDAP_BACKUP_URI] = {"ldap_backup_uri", DOMAIN, URIS, 0, 0, 0},
    [IPA_SERVER] = {"ipa_server", DOMAIN, HOSTS, 0, 0, 0},
    [IPA_BACKUP_SERVER] = {"ipa_backup_server", DOMAIN, HOSTS, 0, 0, 0},
    [IPA_DOMAIN] = {"ipa_domain", DOMAIN, ANY, 0, 0, 0},
    [IPA_HOSTNAME] = {"ipa_hostname", DOMAIN, LENGTH, 1, 255, 0},
    [SEARCH_BASE] = {"ldap_search_base", DOMAIN, DN, 0, 0, 0},
    [NESTING_LEVEL] = {"ldap_group_nesting_level", DOMAIN, NUMBER, 0, 100, 2},
    [HBAC_REFRESH] = {"ipa_hbac_refresh", DOMAIN, NUMBER, COUNT, 5},
    [ALLOW_USERS] = {"simple_allow_users", DOMAIN, ANY, 0, 0, 0},
    [DENY_USERS] = {"simple_deny_users", DOMAIN, ANY, 0, 0, 0},
    [ALLOW_GROUPS] = {"simple_allow_groups", DOMAIN, ANY, 0, 0, 0},
    [DENY_GROUPS] = {"simple_deny_groups", DOMAIN, ANY, 0, 0, 0},
};

/* Options of sssd.conf(5) that are not read, and what the daemon does instead; the first that fits. */
static const struct {
    const char *beginning;
    const char *why;
} unread[] = {
    {"ldap_id_use_start_tls", "the daemon has no TLS: its links are in clear unless a gateway or a tunnel stands before the server"},
    {"ldap_tls_", "the daemon has no TLS: its links are in clear unless a gateway or a tunnel stands before the server"},
    {"ldap_default_", "the daemon searches anonymously"},
    {"ldap_sasl_", "the daemon searches anonymously"},
    {"krb5_", "logins are simple binds"},
    {"chpass_provider", "passwords are not changed here"},
    {"ldap_access_", "account checks are those of access_provider alone"},
    {"ldap_user_search_base", "there is one search base for all"},
    {"ldap_group_search_base", "there is one search base for all"},
    {"ldap_schema", "attributes and classes are those of RFC 2307bis and FreeIPA"},
    {"ldap_user_", "attributes and classes are those of RFC 2307bis and FreeIPA"},
    {"ldap_group_", "attributes and classes are those of RFC 2307bis and FreeIPA"},
    {"min_id", "the daemon gives every number; the modules' own file has bounds"},
    {"max_id", "the daemon gives every number; the modules' own file has bounds"},
    {"override_", "homes and shells are the directory's"},
    {"fallback_homedir", "homes are the directory's"},
    {"default_shell", "shells are the directory's"},
    {"enumerate", "nothing is listed whole"},
    {"case_sensitive", "names are compared byte for byte"},
    {"use_fully_qualified_names", "names have no domain"},
    {"full_name_format", "names have no domain"},
    {"re_expression", "names have no domain"},
    {"debug_level", "the level of the log stands in the unit's environment"},
    {"sudo_provider", "this service is not there"},
    {"autofs_provider", "this service is not there"},
    {"selinux_provider", "this service is not there"},
    {"subdomains_provider", "this service is not there"},
    {"", "the daemon does not know this option"},
};

const char *option_key(enum conf_option option) { return rows[option].key; }

struct reading {
    struct configuration *made;
    unsigned line;
    struct text section;
    bool has_section;
};

static void find(struct configuration *made, struct finding finding) {
    made->findings = grown(made->findings, made->finding_count, &made->finding_room, sizeof *made->findings);
    made->findings[made->finding_count++] = finding;
}

static const char *const section_names[SECTION_COUNT] = {"sssd", "nss", "pam", "domain/"};

static bool is_section(const struct configuration *made, enum section section, struct text name) {
    if (section != DOMAIN) {
        return text_is(name, section_names[section]);
    }
    return made->domain.bytes != NULL && text_begins(name, "domain/") && text_equal(text_behind(name, 7), made->domain);
}

static bool is_read_section(const struct configuration *made, struct text name) {
    for (int section = SSSD; section < SECTION_COUNT; section++) {
        if (is_section(made, (enum section)section, name)) {
            return true;
        }
    }
    return false;
}

/* A line: nothing, a section, a key with its value, or none of these. */
enum form { EMPTY, SECTION, KEY, BAD };

static enum form line_form(struct text line, struct text *name, struct text *value) {
    const char *equals;
    if (line.count == 0 || line.bytes[0] == '#' || line.bytes[0] == ';') {
        return EMPTY;
    }
    if (line.bytes[0] == '[' && line.bytes[line.count - 1] == ']' && line.count > 2) {
        *name = (struct text){line.bytes + 1, line.count - 2};
        return SECTION;
    }
    equals = memchr(line.bytes, '=', line.count);
    if (line.bytes[0] == '[' || equals == NULL) {
        return BAD;
    }
    *name = text_trimmed((struct text){line.bytes, (size_t)(equals - line.bytes)});
    *value = text_trimmed(text_behind(line, (size_t)(equals - line.bytes) + 1));
    return name->count == 0 ? BAD : KEY;
}

typedef void line_reader(struct reading *reading, enum form form, struct text name, struct text value);

static void each_line(struct configuration *made, line_reader *reader) {
    struct reading reading = {.made = made};
    struct text rest = made->text, line;
    while (text_next(&rest, '\n', &line)) {
        struct text name = {0}, value = {0};
        enum form form = line_form(text_trimmed(line), &name, &value);
        reading.line += 1;
        if (form == SECTION) {
            reading.section = name;
            reading.has_section = true;
        }
        reader(&reading, form, name, value);
    }
}

static void read_form(struct reading *reading, enum form form, struct text name, struct text value) {
    (void)name;
    (void)value;
    if (form == BAD) {
        find(reading->made, (struct finding){.kind = FAULT, .line = reading->line,
            .why = "this line is neither [SECTION], nor OPTION = VALUE, nor a comment"});
    }
    if (form == KEY && !reading->has_section) {
        find(reading->made, (struct finding){.kind = FAULT, .line = reading->line,
            .why = "this option stands in front of every [SECTION]"});
    }
}

static void read_domains(struct reading *reading, enum form form, struct text name, struct text value) {
    if (form == KEY && text_is(reading->section, "sssd") && text_is(name, "domains")) {
        reading->made->settings[DOMAINS] = (struct setting){value, reading->line};
    }
}

static const char *why_unread(struct text key) {
    size_t place = 0;
    while (!text_begins(key, unread[place].beginning)) {
        place += 1;
    }
    return unread[place].why;
}

static void read_key(struct reading *reading, struct text key, struct text value) {
    struct configuration *made = reading->made;
    struct finding finding = {.kind = NO_EFFECT, .line = reading->line, .section = reading->section, .option = key, .value = value};
    for (int option = 0; option < OPTION_COUNT; option++) {
        if (!text_is(key, rows[option].key)) {
            continue;
        }
        if (is_section(made, rows[option].section, reading->section)) {
            struct setting *setting = &made->settings[option];
            if (setting->line != 0 && setting->line != reading->line && option != DOMAINS) {
                find(made, (struct finding){.kind = NO_EFFECT, .line = setting->line, .section = reading->section, .option = key,
                    .value = setting->value, .why = "a later line of this section has the same option, and that one counts"});
            }
            *setting = (struct setting){value, reading->line};
        } else {
            finding.why = rows[option].section == DOMAIN ? "this option belongs to the section of the domain"
                : rows[option].section == NSS ? "this option belongs to the section [nss]"
                : rows[option].section == PAM ? "this option belongs to the section [pam]" : "this option belongs to the section [sssd]";
            find(made, finding);
        }
        return;
    }
    finding.why = why_unread(key);
    find(made, finding);
}

static void read_line(struct reading *reading, enum form form, struct text name, struct text value) {
    bool is_read = reading->has_section && is_read_section(reading->made, reading->section);
    if (form == SECTION && !is_read) {
        find(reading->made, (struct finding){.kind = NO_EFFECT, .line = reading->line, .section = name,
            .why = text_begins(name, "domain/") ? "this domain is not the one that `domains` lists"
                                                : "the daemon does not read this section"});
    }
    if (form == KEY && is_read) {
        read_key(reading, name, value);
    }
}

/* The items of a list, without the empty ones. */
static bool next_item(struct text *rest, struct text *item) {
    while (text_next(rest, ',', item)) {
        *item = text_trimmed(*item);
        if (item->count > 0) {
            return true;
        }
    }
    return false;
}

static void choose_domain(struct configuration *made) {
    struct setting *domains = &made->settings[DOMAINS];
    struct text rest = domains->value, item;
    size_t count = 0;
    while (domains->line != 0 && next_item(&rest, &item)) {
        count += 1;
        made->domain = item;
    }
    if (count != 1) {
        find(made, (struct finding){.kind = FAULT, .line = domains->line, .section = text_of("sssd"), .option = text_of("domains"),
            .value = domains->value, .why = "one domain: the name D of its section [domain/D]"});
    }
    if (count != 1) {
        made->domain = (struct text){0};
    }
    buffer_add_string(&made->domain_section, section_names[DOMAIN]);
    buffer_add(&made->domain_section, count == 1 ? made->domain : text_of("D"));
}

static bool is_host(struct text host) {
    if (host.count < 1 || host.count > 255) {
        return false;
    }
    for (size_t place = 0; place < host.count; place++) {
        if (strchr("abcdefghijklmnopqrstuvwxyzABCDEFGHIJKLMNOPQRSTUVWXYZ0123456789.-_", host.bytes[place]) == NULL ||
            host.bytes[place] == '\0') {
            return false;
        }
    }
    return true;
}

static bool read_port(struct text digits, unsigned *port) {
    unsigned long value = 0;
    /* Zeros in front are accepted. */
    while (digits.count > 1 && digits.bytes[0] == '0') {
        digits = text_behind(digits, 1);
    }
    if (!text_number(digits, &value) || value < 1 || value > 65535) {
        return false;
    }
    *port = (unsigned)value;
    return true;
}

static bool read_server(enum rule rule, struct text item, struct server *server) {
    const char *colon;
    *server = (struct server){item, 389};
    if (rule == HOSTS) {
        return is_host(item);
    }
    if (!text_begins(item, "ldap://")) {
        return false;
    }
    item = text_behind(item, 7);
    if (item.count > 0 && item.bytes[item.count - 1] == '/') {
        item.count -= 1;
    }
    colon = item.count == 0 ? NULL : memchr(item.bytes, ':', item.count);
    server->host = item;
    if (colon != NULL) {
        server->host.count = (size_t)(colon - item.bytes);
        if (!read_port(text_behind(item, server->host.count + 1), &server->port)) {
            return false;
        }
    }
    return is_host(server->host);
}

/* Reads a list of servers, and puts them behind those of the configuration where they are wanted. */
static bool read_servers(struct configuration *made, enum conf_option option, bool is_wanted) {
    struct text rest = made->settings[option].value, item;
    size_t count = 0;
    struct server server;
    while (made->settings[option].line != 0 && next_item(&rest, &item)) {
        if (text_is(item, "_srv_")) {
            continue;
        }
        if (!read_server(rows[option].rule, item, &server) || ++count > SERVER_LIMIT) {
            return false;
        }
        if (is_wanted && made->server_count == SERVER_LIMIT) {
            return false;
        }
        if (is_wanted) {
            made->servers[made->server_count++] = server;
        }
    }
    return true;
}

static bool is_hexadecimal(char byte) { return byte != '\0' && strchr("0123456789abcdefABCDEF", byte) != NULL; }

static size_t skip_spaces(struct text text, size_t at) {
    while (at < text.count && text.bytes[at] == ' ') {
        at += 1;
    }
    return at;
}

/* The place behind an attribute's value; the length and one more where there is none. */
static size_t value_end(struct text text, size_t at) {
    size_t none = text.count + 1;
    if (at < text.count && text.bytes[at] == '#') {
        return none;
    }
    while (at < text.count && text.bytes[at] != ',' && text.bytes[at] != '+') {
        char byte = text.bytes[at];
        char next = at + 1 < text.count ? text.bytes[at + 1] : '\0';
        if (byte == '\0' || strchr("\"<>;", byte) != NULL) {
            return byte == '\0' ? at + 1 : none;
        }
        if (byte != '\\') {
            at += 1;
        } else if (next != '\0' && strchr(",+\"\\<>;=# ", next) != NULL) {
            at += 2;
        } else if (at + 2 < text.count && is_hexadecimal(next) && is_hexadecimal(text.bytes[at + 2])) {
            at += 3;
        } else {
            return none;
        }
    }
    return at;
}

bool is_dn(struct text text) {
    size_t at = 0, begin;
    if (text.count == 0) {
        return true;
    }
    if (text.bytes[0] == ' ') {
        return false;
    }
    for (;;) {
        at = begin = skip_spaces(text, at);
        while (at < text.count && text.bytes[at] != '\0' &&
               strchr("abcdefghijklmnopqrstuvwxyzABCDEFGHIJKLMNOPQRSTUVWXYZ0123456789-.", text.bytes[at]) != NULL) {
            at += 1;
        }
        if (at == begin) {
            return false;
        }
        at = skip_spaces(text, at);
        if (at >= text.count || text.bytes[at] != '=') {
            return false;
        }
        at = value_end(text, skip_spaces(text, at + 1));
        if (at >= text.count) {
            return at == text.count;
        }
        at += 1;
    }
}

static bool is_one_of(struct text value, const char *const *words) {
    for (; *words != NULL; words++) {
        if (text_is(value, *words)) {
            return true;
        }
    }
    return false;
}

static bool is_allowed(struct configuration *made, enum conf_option option) {
    static const char *const id_words[] = {"ldap", "ipa", NULL};
    static const char *const access_words[] = {"permit", "deny", "simple", "ipa", NULL};
    const struct row *row = &rows[option];
    struct text value = made->settings[option].value;
    unsigned long number = 0;
    switch (row->rule) {
    case ANY:
        return true;
    case NUMBER:
        return text_number(value, &number) && number >= row->least && number <= row->greatest;
    case FLAG:
        return text_equal_without_case(value, text_of("true")) || text_equal_without_case(value, text_of("false"));
    case ID_WORD:
        return is_one_of(value, id_words);
    case AUTH_WORD:
        return !text_is(value, "none");
    case ACCESS_WORD:
        return is_one_of(value, access_words);
    case LENGTH:
        return value.count >= row->least && value.count <= row->greatest;
    case URIS:
    case HOSTS:
        return read_servers(made, option, false);
    case DN:
        return is_dn(value);
    }
    return false;
}

static const char *allowed_text(enum conf_option option) {
    switch (rows[option].rule) {
    case NUMBER:
        return option == JOURNAL_LIMIT ? "a number from 8 to 1000000"
            : option == NOWAIT_PERCENTAGE ? "a number from 0 to 99"
            : option == NESTING_LEVEL ? "a number from 0 to 100" : "a number from 0 to 4294967295";
    case FLAG:
        return "TRUE or FALSE";
    case ID_WORD:
        return "ldap or ipa";
    case AUTH_WORD:
        return "any provider but none, as logins are always checked";
    case ACCESS_WORD:
        return "permit, deny, simple or ipa";
    case LENGTH:
        return option == PWFIELD ? "a text of at most 255 bytes" : "a text of 1 to 255 bytes";
    case URIS:
        return "a list of ldap://HOST, with :PORT (1 to 65535) and a last / allowed, 64 at most; HOST has letters, digits and . - _";
    case HOSTS:
        return "a list of HOST, 64 at most; HOST has letters, digits and . - _";
    case DN:
        return "a distinguished name such as dc=example,dc=com";
    case ANY:
        break;
    }
    return "any text";
}

static struct text section_of(const struct configuration *made, enum section section) {
    return section == DOMAIN ? text_in(&made->domain_section) : text_of(section_names[section]);
}

static void find_at(struct configuration *made, enum kind kind, enum conf_option option, const char *why) {
    find(made, (struct finding){.kind = kind, .line = made->settings[option].line, .section = section_of(made, rows[option].section),
        .option = text_of(rows[option].key), .value = made->settings[option].value, .why = why});
}

/* An option that the domain's section has to have. */
static void find_missing(struct configuration *made, enum conf_option option, const char *why) {
    find(made, (struct finding){.kind = FAULT, .section = section_of(made, DOMAIN), .option = text_of(rows[option].key), .why = why});
}

static void check_values(struct configuration *made) {
    for (int option = 0; option < OPTION_COUNT; option++) {
        if (made->settings[option].line != 0 && !is_allowed(made, (enum conf_option)option)) {
            find_at(made, FAULT, (enum conf_option)option, allowed_text((enum conf_option)option));
        }
    }
}

static bool is_set(const struct configuration *made, enum conf_option option) { return made->settings[option].line != 0; }

static bool has_value(const struct configuration *made, enum conf_option option, const char *value) {
    return is_set(made, option) && text_is(made->settings[option].value, value);
}

static void choose_servers(struct configuration *made) {
    bool is_ipa = has_value(made, ID_PROVIDER, "ipa");
    enum conf_option primaries = is_ipa && !is_set(made, LDAP_URI) ? IPA_SERVER : LDAP_URI;
    enum conf_option backups = is_ipa && !is_set(made, LDAP_BACKUP_URI) ? IPA_BACKUP_SERVER : LDAP_BACKUP_URI;
    bool is_read = read_servers(made, primaries, true);
    made->primary_count = made->server_count;
    if (is_read && made->primary_count == 0) {
        find_missing(made, is_ipa ? IPA_SERVER : LDAP_URI, "at least one server");
    }
    if (read_servers(made, backups, false) && !read_servers(made, backups, true)) {
        find_at(made, FAULT, backups, "64 servers in all, backups among them");
    }
}

/* The search base of FreeIPA: dc= and each label of the domain. */
static void make_base(struct configuration *made) {
    struct text rest = is_set(made, IPA_DOMAIN) ? made->settings[IPA_DOMAIN].value : made->domain, label;
    while (text_next(&rest, '.', &label)) {
        if (label.count > 0) {
            buffer_add_string(&made->base, made->base.count == 0 ? "dc=" : ",dc=");
            buffer_add(&made->base, label);
        }
    }
}

static void choose_base(struct configuration *made) {
    if (is_set(made, SEARCH_BASE)) {
        buffer_add(&made->base, made->settings[SEARCH_BASE].value);
        return;
    }
    if (has_value(made, ID_PROVIDER, "ipa") && made->domain.bytes != NULL) {
        make_base(made);
        if (is_dn(text_in(&made->base))) {
            return;
        }
    }
    find_missing(made, SEARCH_BASE, "the place under which all entries are searched, such as dc=example,dc=com");
}

static void check_missing(struct configuration *made) {
    if (!is_set(made, ID_PROVIDER)) {
        find_missing(made, ID_PROVIDER, "ldap or ipa");
    }
    choose_servers(made);
    choose_base(made);
    if (has_value(made, ACCESS_PROVIDER, "ipa") && !is_set(made, IPA_HOSTNAME)) {
        find_missing(made, IPA_HOSTNAME, "this host's name in the access rules, as access_provider is ipa");
    }
}

static void find_idle(struct configuration *made, enum conf_option option, bool is_idle, const char *why) {
    if (is_idle && is_set(made, option)) {
        find_at(made, NO_EFFECT, option, why);
    }
}

static bool lists_discovery(const struct configuration *made, enum conf_option option) {
    struct text rest = made->settings[option].value, item;
    while (is_set(made, option) && next_item(&rest, &item)) {
        if (text_is(item, "_srv_")) {
            return true;
        }
    }
    return false;
}

static void check_effects(struct configuration *made) {
    static const char *const taken_as_is = "the daemon accepts this option without effect";
    static const char *const other_servers = "the options ldap_uri and ldap_backup_uri name the servers here";
    bool is_ipa = has_value(made, ID_PROVIDER, "ipa");
    bool has_rules = has_value(made, ACCESS_PROVIDER, "ipa"), has_lists = has_value(made, ACCESS_PROVIDER, "simple");
    bool keeps_hashes = configuration_flag(made, CACHE_CREDENTIALS);
    find_idle(made, SERVICES, true, taken_as_is);
    find_idle(made, CONFIG_FILE_VERSION, true, taken_as_is);
    find_idle(made, AUTH_PROVIDER, !has_value(made, AUTH_PROVIDER, "none"), "logins are simple binds with every auth_provider");
    find_idle(made, IPA_SERVER, !is_ipa || is_set(made, LDAP_URI), other_servers);
    find_idle(made, IPA_BACKUP_SERVER, !is_ipa || is_set(made, LDAP_BACKUP_URI), other_servers);
    find_idle(made, IPA_DOMAIN, !is_ipa || is_set(made, SEARCH_BASE), "ldap_search_base names the search base here");
    find_idle(made, IPA_HOSTNAME, !has_rules, "access_provider is not ipa");
    find_idle(made, HBAC_REFRESH, !has_rules, "access_provider is not ipa");
    for (int option = ALLOW_USERS; option <= DENY_GROUPS; option++) {
        find_idle(made, (enum conf_option)option, !has_lists, "access_provider is not simple");
    }
    for (int option = EXPIRATION_DAYS; option <= LOGIN_DELAY; option++) {
        find_idle(made, (enum conf_option)option, !keeps_hashes, "cache_credentials is not TRUE, so no hash is kept");
    }
    find_idle(made, CACHED_AUTH_TIMEOUT, !keeps_hashes, "cache_credentials is not TRUE, so no hash is kept");
    find_idle(made, CACHE_TIMEOUT, is_set(made, USER_TIMEOUT) && is_set(made, GROUP_TIMEOUT), "the two options below it are set");
    for (int option = LDAP_URI; option <= IPA_BACKUP_SERVER; option++) {
        find_idle(made, (enum conf_option)option, lists_discovery(made, (enum conf_option)option),
            "_srv_ is passed over: servers are not looked up in DNS");
    }
}

static int by_line(const void *a, const void *b) {
    const struct finding *one = a, *other = b;
    /* What has no line comes last. */
    unsigned first = one->line - 1, second = other->line - 1;
    return first < second ? -1 : first > second;
}

void configuration_read(struct configuration *configuration, struct text text) {
    *configuration = (struct configuration){.text = text};
    each_line(configuration, read_form);
    each_line(configuration, read_domains);
    choose_domain(configuration);
    each_line(configuration, read_line);
    check_values(configuration);
    check_missing(configuration);
    check_effects(configuration);
    if (configuration->finding_count > 0) {
        qsort(configuration->findings, configuration->finding_count, sizeof *configuration->findings, by_line);
    }
}

void configuration_free(struct configuration *configuration) {
    free(configuration->findings);
    buffer_free(&configuration->domain_section);
    buffer_free(&configuration->base);
}

size_t configuration_faults(const struct configuration *configuration) {
    size_t count = 0;
    for (size_t place = 0; place < configuration->finding_count; place++) {
        count += configuration->findings[place].kind == FAULT;
    }
    return count;
}

unsigned long configuration_number(const struct configuration *configuration, enum conf_option option) {
    unsigned long number = 0;
    if (configuration->settings[option].line != 0 && text_number(configuration->settings[option].value, &number)) {
        return number;
    }
    if (option == USER_TIMEOUT || option == GROUP_TIMEOUT) {
        return configuration_number(configuration, CACHE_TIMEOUT);
    }
    return rows[option].standard;
}

bool configuration_flag(const struct configuration *configuration, enum conf_option option) {
    return configuration->settings[option].line != 0 &&
        text_equal_without_case(configuration->settings[option].value, text_of("true"));
}
