#include "scenario.h"

#include <stdlib.h>
#include <string.h>

/* A user as an entry: names of one DN are one entry. */
struct person {
    struct user user;
    struct texts names;
    /* A member whose record the store does not have. */
    bool is_member_alone;
    /* Whether the store has the groups of this user. */
    bool has_groups;
};

/* A group as an entry. */
struct circle {
    struct text dn;
    struct text name;
    bool has_gid;
    uint32_t gid;
    struct texts members;
};

struct name_place {
    struct text name;
    size_t place;
};

/* Names and the places that they stand for, sorted by name. */
struct index {
    struct name_place *items;
    size_t count, room;
};

struct directory {
    struct person *people;
    size_t people_count, people_room;
    struct circle *circles;
    size_t circle_count, circle_room;
    /* The people by each of their names: see `sort_names`. */
    struct index names;
};

struct writing {
    struct buffer *out;
    struct text base;
    const struct kept *kept;
    struct directory directory;
};

static int compare_texts(struct text a, struct text b) {
    size_t count = a.count < b.count ? a.count : b.count;
    int order = count == 0 ? 0 : memcmp(a.bytes, b.bytes, count);
    return order != 0 ? order : (a.count > b.count) - (a.count < b.count);
}

static int by_name(const void *a, const void *b) {
    return compare_texts(((const struct name_place *)a)->name, ((const struct name_place *)b)->name);
}

static void add_text(struct texts *texts, struct text text) {
    texts->items = grown(texts->items, texts->count, &texts->room, sizeof *texts->items);
    texts->items[texts->count++] = text;
}

static bool holds(const struct texts *texts, struct text text) {
    for (size_t place = 0; place < texts->count; place++) {
        if (text_equal(texts->items[place], text)) {
            return true;
        }
    }
    return false;
}

/* LDIF */

static void add_base64(struct buffer *out, struct text value) {
    static const char digits[] = "ABCDEFGHIJKLMNOPQRSTUVWXYZabcdefghijklmnopqrstuvwxyz0123456789+/";
    for (size_t place = 0; place < value.count; place += 3) {
        unsigned long group = 0;
        char four[5] = "====";
        size_t left = value.count - place < 3 ? value.count - place : 3;
        for (size_t next = 0; next < 3; next++) {
            group = group << 8 | (next < left ? (unsigned char)value.bytes[place + next] : 0U);
        }
        for (size_t next = 0; next <= left; next++) {
            four[next] = digits[group >> (18 - 6 * next) & 63];
        }
        buffer_add_string(out, four);
    }
}

static bool is_plain(struct text value) {
    if (value.count == 0 || strchr(" :<", value.bytes[0]) != NULL || value.bytes[value.count - 1] == ' ') {
        return false;
    }
    for (size_t place = 0; place < value.count; place++) {
        if (value.bytes[place] < 0x20 || value.bytes[place] > 0x7e) {
            return false;
        }
    }
    return true;
}

static void add_line(struct buffer *out, const char *attribute, struct text value) {
    buffer_add_string(out, attribute);
    if (is_plain(value)) {
        buffer_add_string(out, ": ");
        buffer_add(out, value);
    } else {
        buffer_add_string(out, ":: ");
        add_base64(out, value);
    }
    buffer_add_string(out, "\n");
}

static void add_string_line(struct buffer *out, const char *attribute, const char *value) { add_line(out, attribute, text_of(value)); }

static void add_number_line(struct buffer *out, const char *attribute, uint32_t number) {
    buffer_add_string(out, attribute);
    buffer_add_string(out, ": ");
    buffer_add_number(out, number);
    buffer_add_string(out, "\n");
}

/* `ATTRIBUTE=VALUE,PLACE,BASE`, every byte of the value escaped that might be taken for part of the form. */
static void make_dn(struct buffer *dn, const char *attribute, struct text value, const char *place, struct text base) {
    char escaped[4];
    dn->count = 0;
    buffer_add_string(dn, attribute);
    buffer_add_string(dn, "=");
    for (size_t at = 0; at < value.count; at++) {
        unsigned char byte = (unsigned char)value.bytes[at];
        bool is_safe = byte != '\0' && strchr("abcdefghijklmnopqrstuvwxyzABCDEFGHIJKLMNOPQRSTUVWXYZ0123456789-._", byte) != NULL;
        snprintf(escaped, sizeof escaped, is_safe ? "%c" : "\\%02x", (unsigned)byte);
        buffer_add_string(dn, escaped);
    }
    if (place[0] != '\0') {
        buffer_add_string(dn, ",");
        buffer_add_string(dn, place);
    }
    if (base.count > 0) {
        buffer_add_string(dn, ",");
        buffer_add(dn, base);
    }
}

#define USERS "cn=users,cn=accounts"
#define GROUPS "cn=groups,cn=accounts"
#define HOSTS_PLACE "cn=computers,cn=accounts"
#define HOST_GROUPS "cn=hostgroups,cn=accounts"
#define SERVICES_PLACE "cn=hbacservices,cn=hbac"
#define SERVICE_GROUPS "cn=hbacservicegroups,cn=hbac"

static void add_dn_line(struct writing *writing, const char *line, const char *attribute, struct text value, const char *place) {
    struct buffer dn = {0};
    make_dn(&dn, attribute, value, place, writing->base);
    add_line(writing->out, line, text_in(&dn));
    buffer_free(&dn);
}

/* What the rows know, as entries. */

static void index_add(struct index *index, struct text name, size_t place) {
    index->items = grown(index->items, index->count, &index->room, sizeof *index->items);
    index->items[index->count++] = (struct name_place){name, place};
}

static void index_sort(struct index *index) {
    if (index->count > 0) {
        qsort(index->items, index->count, sizeof *index->items, by_name);
    }
}

static const struct name_place *index_find(const struct index *index, struct text name) {
    struct name_place sought = {name, 0};
    return index->count == 0 ? NULL : bsearch(&sought, index->items, index->count, sizeof sought, by_name);
}

static struct person *person_named(struct directory *directory, struct text name) {
    const struct name_place *found = index_find(&directory->names, name);
    return found == NULL ? NULL : &directory->people[found->place];
}

static void sort_names(struct directory *directory) {
    directory->names.count = 0;
    for (size_t place = 0; place < directory->people_count; place++) {
        const struct texts *names = &directory->people[place].names;
        for (size_t at = 0; at < names->count; at++) {
            index_add(&directory->names, names->items[at], place);
        }
    }
    index_sort(&directory->names);
}

/* The names that were looked up and that nobody has; a name has one such row. */
static struct index absent_names(const struct kept *kept) {
    struct index absent = {0};
    for (size_t place = 0; place < kept->count; place++) {
        const struct row *row = &kept->rows[place];
        if (row->kind == ANSWER && row->key == KEY_USER && !row->is_found) {
            index_add(&absent, row->name, place);
        }
    }
    index_sort(&absent);
    return absent;
}

static bool is_gone(const struct kept *kept, const struct index *absent, const struct row *row) {
    const struct name_place *found = index_find(absent, row->user.name);
    return found != NULL && kept->rows[found->place].number > row->number;
}

static int by_dn(const void *a, const void *b) {
    const struct row *one = *(const struct row *const *)a, *other = *(const struct row *const *)b;
    int order = compare_texts(one->user.dn, other->user.dn);
    return order != 0 ? order : one->number < other->number ? -1 : 1;
}

/* One person for each DN, by its newest row. */
static void add_people(struct writing *writing) {
    const struct kept *kept = writing->kept;
    struct directory *directory = &writing->directory;
    const struct row **found = calloc(kept->count + 1, sizeof *found);
    struct index absent = absent_names(kept);
    size_t count = 0;
    if (found == NULL) {
        no_memory();
    }
    for (size_t place = 0; place < kept->count; place++) {
        const struct row *row = &kept->rows[place];
        bool is_user = row->kind == ANSWER && row->is_found && (row->key == KEY_USER || row->key == KEY_UID);
        if (is_user && !is_gone(kept, &absent, row)) {
            found[count++] = row;
        }
    }
    if (count > 0) {
        qsort(found, count, sizeof *found, by_dn);
    }
    for (size_t place = 0; place < count; place++) {
        struct person *person;
        if (place == 0 || !text_equal(found[place]->user.dn, found[place - 1]->user.dn)) {
            directory->people = grown(directory->people, directory->people_count, &directory->people_room, sizeof *directory->people);
            directory->people[directory->people_count++] = (struct person){0};
        }
        person = &directory->people[directory->people_count - 1];
        person->user = found[place]->user;
        if (!holds(&person->names, found[place]->user.name)) {
            add_text(&person->names, found[place]->user.name);
        }
    }
    free(found);
    free(absent.items);
}

static bool is_group(const struct row *row) {
    return row->kind == ANSWER && row->is_found && (row->key == KEY_GROUP || row->key == KEY_GID);
}

static struct index member_names(const struct kept *kept) {
    struct index members = {0};
    for (size_t place = 0; place < kept->count; place++) {
        const struct row *row = &kept->rows[place];
        for (size_t at = 0; is_group(row) && at < row->group.members.count; at++) {
            index_add(&members, row->group.members.items[at], place);
        }
    }
    index_sort(&members);
    return members;
}

/* A member that was never looked up has an entry as well, with the number that no host takes for a user. */
static void add_members_alone(struct writing *writing) {
    struct directory *directory = &writing->directory;
    struct index members = member_names(writing->kept);
    sort_names(directory);
    for (size_t place = 0; place < members.count; place++) {
        struct text name = members.items[place].name;
        struct person person = {.is_member_alone = true};
        bool is_again = place > 0 && text_equal(name, members.items[place - 1].name);
        if (is_again || person_named(directory, name) != NULL) {
            continue;
        }
        person.user = (struct user){.name = name, .uid = UINT32_MAX, .gid = UINT32_MAX,
            .gecos = text_of("known as a member of a group alone"), .home = text_of("/nonexistent")};
        add_text(&person.names, name);
        directory->people = grown(directory->people, directory->people_count, &directory->people_room, sizeof *directory->people);
        directory->people[directory->people_count++] = person;
    }
    free(members.items);
}

static struct circle *circle_named(struct directory *directory, struct text name) {
    for (size_t place = 0; place < directory->circle_count; place++) {
        if (text_equal(directory->circles[place].name, name)) {
            return &directory->circles[place];
        }
    }
    directory->circles = grown(directory->circles, directory->circle_count, &directory->circle_room, sizeof *directory->circles);
    directory->circles[directory->circle_count] = (struct circle){.name = name};
    return &directory->circles[directory->circle_count++];
}

/* The groups of a user say more than the members of a group: account checks go by them. */
static void add_groups_of_users(struct writing *writing) {
    const struct kept *kept = writing->kept;
    for (size_t place = 0; place < kept->count; place++) {
        const struct row *row = &kept->rows[place];
        struct person *person;
        if (row->kind != ANSWER || row->key != KEY_GROUPS || !row->is_found) {
            continue;
        }
        person = person_named(&writing->directory, row->name);
        if (person == NULL) {
            continue;
        }
        person->has_groups = true;
        for (size_t at = 0; at < row->groups.count; at++) {
            struct circle *circle = circle_named(&writing->directory, row->groups.items[at].name);
            circle->has_gid = circle->has_gid || row->groups.items[at].has_gid;
            if (row->groups.items[at].has_gid) {
                circle->gid = row->groups.items[at].gid;
            }
            add_text(&circle->members, row->name);
        }
    }
}

static void add_groups(struct writing *writing) {
    const struct kept *kept = writing->kept;
    for (size_t place = 0; place < kept->count; place++) {
        const struct row *row = &kept->rows[place];
        struct circle *circle;
        if (!is_group(row)) {
            continue;
        }
        circle = circle_named(&writing->directory, row->group.name);
        circle->dn = row->group.dn;
        circle->has_gid = true;
        circle->gid = row->group.gid;
        for (size_t at = 0; at < row->group.members.count; at++) {
            struct text name = row->group.members.items[at];
            const struct person *person = person_named(&writing->directory, name);
            if (person != NULL && !person->has_groups && !holds(&circle->members, name)) {
                add_text(&circle->members, name);
            }
        }
    }
}

/* Entries */

static void write_person(struct writing *writing, const struct person *person) {
    struct buffer *out = writing->out;
    if (person->is_member_alone) {
        add_dn_line(writing, "dn", "uid", person->user.name, USERS);
    } else {
        add_line(out, "dn", person->user.dn);
    }
    add_string_line(out, "objectClass", "posixAccount");
    for (size_t place = 0; place < person->names.count; place++) {
        add_line(out, "uid", person->names.items[place]);
    }
    add_number_line(out, "uidNumber", person->user.uid);
    add_number_line(out, "gidNumber", person->user.gid);
    add_line(out, "homeDirectory", person->user.home);
    if (person->user.gecos.count > 0) {
        add_line(out, "gecos", person->user.gecos);
    }
    if (person->user.shell.count > 0) {
        add_line(out, "loginShell", person->user.shell);
    }
    buffer_add_string(out, "\n");
}

static void write_circle(struct writing *writing, const struct circle *circle) {
    struct buffer *out = writing->out;
    if (circle->dn.count > 0) {
        add_line(out, "dn", circle->dn);
    } else {
        add_dn_line(writing, "dn", "cn", circle->name, GROUPS);
    }
    add_string_line(out, "objectClass", "groupOfNames");
    if (circle->has_gid) {
        add_string_line(out, "objectClass", "posixGroup");
        add_number_line(out, "gidNumber", circle->gid);
    }
    add_line(out, "cn", circle->name);
    for (size_t place = 0; place < circle->members.count; place++) {
        const struct person *person = person_named(&writing->directory, circle->members.items[place]);
        if (person == NULL || person->is_member_alone) {
            add_dn_line(writing, "member", "uid", circle->members.items[place], USERS);
        } else {
            add_line(out, "member", person->user.dn);
        }
    }
    buffer_add_string(out, "\n");
}

static void write_named(struct writing *writing, const struct named *named, const char *class, const char *attribute, const char *groups) {
    add_string_line(writing->out, "objectClass", class);
    add_line(writing->out, attribute, named->name);
    for (size_t place = 0; place < named->groups.count; place++) {
        add_dn_line(writing, "memberOf", "cn", named->groups.items[place], groups);
    }
    buffer_add_string(writing->out, "\n");
}

struct side {
    const char *member;
    const char *category;
    const char *attribute;
    const char *names;
    const char *groups;
};

static void write_side(struct writing *writing, const struct element *element, const struct side *side) {
    if (element->is_all) {
        add_string_line(writing->out, side->category, "all");
    }
    for (size_t place = 0; place < element->names.count; place++) {
        add_dn_line(writing, side->member, side->attribute, element->names.items[place], side->names);
    }
    for (size_t place = 0; place < element->groups.count; place++) {
        add_dn_line(writing, side->member, "cn", element->groups.items[place], side->groups);
    }
}

/* Rules and services may have one name twice, so their places are numbers. */
static void number_entry(struct writing *writing, size_t place, const char *container) {
    char digits[24];
    snprintf(digits, sizeof digits, "%zu", place);
    add_dn_line(writing, "dn", "ipaUniqueID", text_of(digits), container);
}

static void write_book(struct writing *writing, const struct rule_book *book) {
    static const struct side users = {"memberUser", "userCategory", "uid", USERS, GROUPS};
    static const struct side hosts = {"memberHost", "hostCategory", "fqdn", HOSTS_PLACE, HOST_GROUPS};
    static const struct side services = {"memberService", "serviceCategory", "cn", SERVICES_PLACE, SERVICE_GROUPS};
    for (size_t place = 0; place < book->rule_count; place++) {
        const struct access_rule *rule = &book->rules[place];
        number_entry(writing, place, "cn=hbac");
        add_string_line(writing->out, "objectClass", "ipaHBACRule");
        add_line(writing->out, "cn", rule->name);
        add_string_line(writing->out, "ipaEnabledFlag", rule->is_enabled ? "TRUE" : "FALSE");
        add_string_line(writing->out, "accessRuleType", "allow");
        write_side(writing, &rule->users, &users);
        write_side(writing, &rule->hosts, &hosts);
        write_side(writing, &rule->services, &services);
        buffer_add_string(writing->out, "\n");
    }
    for (size_t place = 0; place < book->service_count; place++) {
        number_entry(writing, place, SERVICES_PLACE);
        write_named(writing, &book->services[place], "ipaHBACService", "cn", SERVICE_GROUPS);
    }
}

static void write_host_and_rules(struct writing *writing) {
    for (size_t place = 0; place < writing->kept->count; place++) {
        const struct row *row = &writing->kept->rows[place];
        if (row->kind != ANSWER || !row->is_found) {
            continue;
        }
        if (row->key == KEY_HOST) {
            add_dn_line(writing, "dn", "fqdn", row->host.name, HOSTS_PLACE);
            write_named(writing, &row->host, "ipaHost", "fqdn", HOST_GROUPS);
        } else if (row->key == KEY_RULES) {
            write_book(writing, &row->book);
        }
    }
}

static void write_configuration(struct buffer *out, const struct configuration *configuration) {
    buffer_add_string(out, "conf\n");
    buffer_add(out, configuration->text);
    if (configuration->text.count > 0 && configuration->text.bytes[configuration->text.count - 1] != '\n') {
        buffer_add_string(out, "\n");
    }
    buffer_add_string(out, ".\n");
}

static void write_clock(struct writing *writing) {
    struct buffer *out = writing->out;
    for (size_t place = 0; place < writing->kept->count; place++) {
        const struct row *row = &writing->kept->rows[place];
        if (row->kind == FALL) {
            buffer_add_string(out, "# server ");
            buffer_add_number(out, row->server);
            buffer_add_string(out, " fell at ");
            buffer_add_number(out, row->moment);
            buffer_add_string(out, "\n");
        }
    }
    buffer_add_string(out, "at ");
    buffer_add_number(out, writing->kept->moment);
    buffer_add_string(out, "\n");
}

static void free_directory(struct directory *directory) {
    for (size_t place = 0; place < directory->people_count; place++) {
        free(directory->people[place].names.items);
    }
    for (size_t place = 0; place < directory->circle_count; place++) {
        free(directory->circles[place].members.items);
    }
    free(directory->people);
    free(directory->circles);
    free(directory->names.items);
}

void scenario_write(struct buffer *out, const struct configuration *configuration, const struct kept *kept) {
    struct writing writing = {.out = out, .base = text_in(&configuration->base), .kept = kept};
    add_people(&writing);
    add_members_alone(&writing);
    sort_names(&writing.directory);
    add_groups_of_users(&writing);
    add_groups(&writing);
    write_configuration(out, configuration);
    write_clock(&writing);
    buffer_add_string(out, "ldif\n");
    for (size_t place = 0; place < writing.directory.people_count; place++) {
        write_person(&writing, &writing.directory.people[place]);
    }
    for (size_t place = 0; place < writing.directory.circle_count; place++) {
        write_circle(&writing, &writing.directory.circles[place]);
    }
    write_host_and_rules(&writing);
    buffer_add_string(out, ".\n");
    free_directory(&writing.directory);
}
