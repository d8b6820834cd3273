#include "kept.h"

#include <sqlite3.h>
#include <stdlib.h>
#include <string.h>
#include <sys/stat.h>
#include <time.h>

/* The file of a store holds at most 512 MiB of texts. */
#define MOST_BYTES ((size_t)2 << 30)
#define TRIES 50
/* The head of a log, that of a frame, and the least page. */
#define LEAST_LOG (32 + 24 + 512 - 1)

/* What is left of a row's bytes; `is_bad` once they had no form. */
struct fields {
    struct text rest;
    bool is_bad;
};

static uint64_t read_big_endian(struct fields *fields, size_t count) {
    uint64_t value = 0;
    if (fields->is_bad || fields->rest.count < count) {
        fields->is_bad = true;
        return 0;
    }
    for (size_t place = 0; place < count; place++) {
        value = value << 8 | (unsigned char)fields->rest.bytes[place];
    }
    fields->rest = text_behind(fields->rest, count);
    return value;
}

static uint64_t read_long(struct fields *fields) { return read_big_endian(fields, 8); }

static uint32_t read_number(struct fields *fields) { return (uint32_t)read_big_endian(fields, 4); }

static unsigned read_variant(struct fields *fields, unsigned count) {
    unsigned variant = (unsigned)read_big_endian(fields, 1);
    fields->is_bad = fields->is_bad || variant >= count;
    return variant;
}

static struct text read_text(struct fields *fields) {
    size_t count = read_number(fields);
    struct text text = {fields->rest.bytes, count};
    if (fields->is_bad || fields->rest.count < count) {
        fields->is_bad = true;
        return (struct text){"", 0};
    }
    fields->rest = text_behind(fields->rest, count);
    return text;
}

static struct texts read_texts(struct fields *fields) {
    struct texts texts = {0};
    uint32_t count = read_number(fields);
    for (uint32_t place = 0; place < count && !fields->is_bad; place++) {
        texts.items = grown(texts.items, texts.count, &texts.room, sizeof *texts.items);
        texts.items[texts.count++] = read_text(fields);
    }
    return texts;
}

static struct user read_user(struct fields *fields) {
    struct user user;
    user.dn = read_text(fields);
    user.name = read_text(fields);
    user.uid = read_number(fields);
    user.gid = read_number(fields);
    user.gecos = read_text(fields);
    user.home = read_text(fields);
    user.shell = read_text(fields);
    return user;
}

static struct group read_group(struct fields *fields) {
    struct group group;
    group.dn = read_text(fields);
    group.name = read_text(fields);
    group.gid = read_number(fields);
    group.members = read_texts(fields);
    return group;
}

static struct group_references read_references(struct fields *fields) {
    struct group_references groups = {0};
    uint32_t count;
    read_text(fields);
    count = read_number(fields);
    for (uint32_t place = 0; place < count && !fields->is_bad; place++) {
        struct group_reference *group;
        groups.items = grown(groups.items, groups.count, &groups.room, sizeof *groups.items);
        group = &groups.items[groups.count++];
        group->name = read_text(fields);
        group->has_gid = read_variant(fields, 2) == 1;
        group->gid = group->has_gid ? read_number(fields) : 0;
    }
    return groups;
}

static struct named read_named(struct fields *fields) {
    struct named named;
    named.name = read_text(fields);
    named.groups = read_texts(fields);
    return named;
}

static struct element read_element(struct fields *fields) {
    struct element element;
    element.is_all = read_variant(fields, 2) == 1;
    element.names = read_texts(fields);
    element.groups = read_texts(fields);
    return element;
}

static struct access_rule read_rule(struct fields *fields) {
    struct access_rule rule;
    rule.name = read_text(fields);
    rule.is_enabled = read_variant(fields, 2) == 1;
    rule.users = read_element(fields);
    rule.hosts = read_element(fields);
    rule.services = read_element(fields);
    return rule;
}

static struct rule_book read_book(struct fields *fields) {
    struct rule_book book = {0};
    uint32_t count = read_number(fields);
    for (uint32_t place = 0; place < count && !fields->is_bad; place++) {
        book.rules = grown(book.rules, book.rule_count, &book.rule_room, sizeof *book.rules);
        book.rules[book.rule_count++] = read_rule(fields);
    }
    count = read_number(fields);
    for (uint32_t place = 0; place < count && !fields->is_bad; place++) {
        book.services = grown(book.services, book.service_count, &book.service_room, sizeof *book.services);
        book.services[book.service_count++] = read_named(fields);
    }
    return book;
}

static void read_key(struct fields *fields, struct row *row) {
    row->key = (enum key_kind)read_variant(fields, 7);
    if (row->key == KEY_UID || row->key == KEY_GID) {
        row->key_number = read_number(fields);
    } else if (row->key != KEY_HOST && row->key != KEY_RULES) {
        row->name = read_text(fields);
    }
}

enum record_kind { RECORD_USER, RECORD_GROUP, RECORD_GROUPS, RECORD_HOST, RECORD_RULES };

static enum record_kind record_of(enum key_kind key) {
    switch (key) {
    case KEY_USER:
    case KEY_UID:
        return RECORD_USER;
    case KEY_GROUP:
    case KEY_GID:
        return RECORD_GROUP;
    case KEY_GROUPS:
        return RECORD_GROUPS;
    case KEY_HOST:
        return RECORD_HOST;
    case KEY_RULES:
        break;
    }
    return RECORD_RULES;
}

static void read_record(struct fields *fields, struct row *row) {
    enum record_kind kind = (enum record_kind)read_variant(fields, 5);
    fields->is_bad = fields->is_bad || kind != record_of(row->key);
    if (fields->is_bad) {
        return;
    }
    switch (kind) {
    case RECORD_USER:
        row->user = read_user(fields);
        break;
    case RECORD_GROUP:
        row->group = read_group(fields);
        break;
    case RECORD_GROUPS:
        row->groups = read_references(fields);
        break;
    case RECORD_HOST:
        row->host = read_named(fields);
        break;
    case RECORD_RULES:
        row->book = read_book(fields);
        break;
    }
}

static void read_answer(struct fields *fields, struct row *row) {
    read_key(fields, row);
    row->is_found = read_variant(fields, 2) == 0;
    if (row->is_found && !fields->is_bad) {
        read_record(fields, row);
    }
    row->is_voided = read_variant(fields, 2) == 1;
}

/* A row behind the head; false where the bytes have no form. The text of a hash is passed over. */
static bool read_row(struct text body, struct row *row) {
    struct fields fields = {body, false};
    *row = (struct row){0};
    row->kind = (enum row_kind)read_variant(&fields, 6);
    row->number = read_long(&fields);
    row->moment = read_long(&fields);
    switch (row->kind) {
    case HEAD:
        return false;
    case ANSWER:
        read_answer(&fields, row);
        break;
    case HASH:
        row->name = read_text(&fields);
        read_text(&fields);
        break;
    case WRONG:
        row->name = read_text(&fields);
        row->count = read_long(&fields);
        break;
    case FALL:
        row->server = read_number(&fields);
        break;
    case ONLINE:
        row->name = read_text(&fields);
        break;
    }
    return !fields.is_bad && fields.rest.count == 0;
}

static const char *take_head(struct kept *kept, struct text body) {
    struct fields fields = {body, false};
    if (read_variant(&fields, 1) != HEAD || fields.is_bad) {
        return "the first row is no head";
    }
    kept->version = read_number(&fields);
    kept->next = read_long(&fields);
    kept->moment = read_long(&fields);
    if (fields.is_bad || fields.rest.count != 0) {
        return "the first row is no head";
    }
    return kept->version == 1 || kept->version == 2 ? NULL : "its version is not known here";
}

/* All bodies of the table, each behind its length, in the order of their places. */
static const char *take_bodies(sqlite3 *base, struct kept *kept) {
    sqlite3_stmt *statement = NULL;
    int step;
    if (sqlite3_prepare_v2(base, "SELECT body FROM kept ORDER BY place", -1, &statement, NULL) != SQLITE_OK) {
        return sqlite3_errcode(base) == SQLITE_BUSY ? "the daemon is writing it" : "it is no store";
    }
    while ((step = sqlite3_step(statement)) == SQLITE_ROW) {
        uint64_t count = (uint64_t)sqlite3_column_bytes(statement, 0);
        buffer_add(&kept->bytes, (struct text){(const char *)&count, sizeof count});
        buffer_add(&kept->bytes, (struct text){sqlite3_column_blob(statement, 0), count});
    }
    sqlite3_finalize(statement);
    return step == SQLITE_DONE ? NULL : step == SQLITE_BUSY ? "the daemon is writing it" : "it cannot be read";
}

static const char *take_rows(struct kept *kept) {
    struct text rest = text_in(&kept->bytes);
    const char *fault;
    bool is_first = true;
    while (rest.count > 0) {
        uint64_t count;
        struct text body;
        memcpy(&count, rest.bytes, sizeof count);
        body = (struct text){rest.bytes + sizeof count, count};
        rest = text_behind(rest, sizeof count + count);
        if (is_first) {
            if ((fault = take_head(kept, body)) != NULL) {
                return fault;
            }
            is_first = false;
            continue;
        }
        kept->rows = grown(kept->rows, kept->count, &kept->room, sizeof *kept->rows);
        if (!read_row(body, &kept->rows[kept->count++])) {
            return "a row of it has no form";
        }
    }
    return NULL;
}

/* A log without a whole frame behind its head holds nothing: the daemon leaves such a one. */
static bool has_log(const char *path) {
    struct buffer name = {0};
    struct stat found;
    bool has = false;
    buffer_add_string(&name, path);
    buffer_add(&name, (struct text){"-wal", 5});
    has = stat(name.bytes, &found) == 0 && found.st_size > LEAST_LOG;
    buffer_free(&name);
    return has;
}

static bool is_same(const struct stat *before, const struct stat *after) {
    return before->st_ino == after->st_ino && before->st_size == after->st_size && before->st_mtim.tv_sec == after->st_mtim.tv_sec &&
        before->st_mtim.tv_nsec == after->st_mtim.tv_nsec;
}

/* The bytes of a store that nobody writes at the moment. It is not opened by SQLite, whose lock would refuse a flush of the daemon. */
static const char *read_quiet(const char *path, struct buffer *bytes) {
    struct stat before, after;
    const struct timespec pause = {0, 100000000};
    for (int round = 0; round < TRIES; round++) {
        int fault;
        bytes->count = 0;
        if (stat(path, &before) != 0) {
            return "there is no such file, or it may not be read";
        }
        if (!S_ISREG(before.st_mode)) {
            return "it is no file";
        }
        if (!has_log(path)) {
            fault = read_file(path, MOST_BYTES, bytes);
            if (fault != 0) {
                return "it may not be read";
            }
            if (stat(path, &after) == 0 && is_same(&before, &after) && !has_log(path) && bytes->count == (size_t)after.st_size) {
                return NULL;
            }
        }
        nanosleep(&pause, NULL);
    }
    bytes->count = 0;
    return NULL;
}

static const char *open_copy(sqlite3 *base, struct buffer *bytes) {
    if (bytes->count < 100 || memcmp(bytes->bytes, "SQLite format 3", 16) != 0) {
        return "it is no store";
    }
    /* A database in memory has no log. */
    bytes->bytes[18] = 1;
    bytes->bytes[19] = 1;
    return sqlite3_deserialize(base, "main", (unsigned char *)bytes->bytes, (sqlite3_int64)bytes->count, (sqlite3_int64)bytes->count,
               SQLITE_DESERIALIZE_READONLY) == SQLITE_OK ? NULL : "it is no store";
}

const char *kept_read(const char *path, struct kept *kept) {
    struct buffer bytes = {0};
    sqlite3 *base = NULL;
    const char *fault;
    *kept = (struct kept){0};
    fault = read_quiet(path, &bytes);
    if (fault == NULL && bytes.count > 0) {
        fault = sqlite3_open(":memory:", &base) == SQLITE_OK ? open_copy(base, &bytes) : "no memory";
    } else if (fault == NULL) {
        /* A log stays where a daemon was killed in the middle of a flush. */
        fault = sqlite3_open_v2(path, &base, SQLITE_OPEN_READONLY, NULL) == SQLITE_OK ? NULL : "it cannot be opened";
        sqlite3_busy_timeout(base, 5000);
    }
    if (fault == NULL) {
        fault = take_bodies(base, kept);
    }
    sqlite3_close(base);
    buffer_free(&bytes);
    return fault == NULL ? take_rows(kept) : fault;
}

static void free_row(struct row *row) {
    free(row->group.members.items);
    free(row->groups.items);
    free(row->host.groups.items);
    for (size_t place = 0; place < row->book.rule_count; place++) {
        struct access_rule *rule = &row->book.rules[place];
        free(rule->users.names.items);
        free(rule->users.groups.items);
        free(rule->hosts.names.items);
        free(rule->hosts.groups.items);
        free(rule->services.names.items);
        free(rule->services.groups.items);
    }
    for (size_t place = 0; place < row->book.service_count; place++) {
        free(row->book.services[place].groups.items);
    }
    free(row->book.rules);
    free(row->book.services);
}

void kept_free(struct kept *kept) {
    for (size_t place = 0; place < kept->count; place++) {
        free_row(&kept->rows[place]);
    }
    free(kept->rows);
    /* The rows held hashes of passwords. */
    if (kept->bytes.bytes != NULL) {
        explicit_bzero(kept->bytes.bytes, kept->bytes.count);
    }
    buffer_free(&kept->bytes);
}
