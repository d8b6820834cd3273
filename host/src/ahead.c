#include "ahead.h"

#include <string.h>

#include "replies.h"

/* Where a request has its command: behind its length. */
enum { COMMAND_PLACE = 4 };

/* The requests that are to be sent in one piece. */
struct batch {
    struct recent *recent;
    int64_t now;
    unsigned char *requests;
    size_t length;
};

static enum command command_of(const struct recent_question *question)
{
    return question->request_length > COMMAND_PLACE ? question->request[COMMAND_PLACE] : 0;
}

static void add(struct batch *batch, const unsigned char *request, size_t length)
{
    struct recent_question *added;

    if (recent_find(batch->recent, request, length, batch->now) != NULL)
        return;
    added = recent_add(batch->recent, request, length, batch->now);
    if (added == NULL)
        return;
    added->is_ahead = true;
    memcpy(batch->requests + batch->length, request, length);
    batch->length += length;
}

static void add_number(struct batch *batch, enum command command, uint32_t number)
{
    struct request request;

    if (is_account_number(number) && request_by_number(&request, command, number))
        add(batch, request.bytes, request.length);
}

static const char *text_of(const struct recent *recent, const struct recent_question *question)
{
    return (const char *)recent->bytes + question->text;
}

size_t ahead_of_user(struct recent *recent, const struct recent_question *question, int64_t now, unsigned char *requests)
{
    struct batch batch = { .recent = recent, .now = now, .requests = requests };
    unsigned char groups[LONGEST_RECENT_REQUEST];
    size_t length = question->request_length;
    uint32_t uid = 0;
    uint32_t gid = 0;

    if (command_of(question) != COMMAND_USER || !read_user_numbers(text_of(recent, question), question->length, &uid, &gid))
        return 0;
    /* The same request but for its command; the question itself may move as others are added. */
    memcpy(groups, question->request, length);
    groups[COMMAND_PLACE] = COMMAND_GROUPS_OF_USER;
    add_number(&batch, COMMAND_UID, uid);
    add_number(&batch, COMMAND_GID, gid);
    add(&batch, groups, length);
    return batch.length;
}

/* The groups of a user that are there and were not followed. */
static struct recent_question *groups_to_follow(struct recent *recent, int64_t now)
{
    for (size_t i = 0; i < recent->answered; i++) {
        struct recent_question *question = &recent->questions[i];

        if (command_of(question) == COMMAND_GROUPS_OF_USER && !question->is_followed && is_recent(question, now))
            return question;
    }
    return NULL;
}

static bool asks_all_of_user(const struct recent *recent, int64_t now)
{
    for (size_t i = 0; i < recent->answered; i++) {
        const struct recent_question *question = &recent->questions[i];
        enum command command = command_of(question);

        if (question->is_given && is_recent(question, now) && (command == COMMAND_GID || (command == COMMAND_UID && question->is_ahead)))
            return true;
    }
    return false;
}

size_t ahead_of_groups(struct recent *recent, int64_t now, unsigned char *requests)
{
    struct batch batch = { .recent = recent, .now = now, .requests = requests };
    struct recent_question *question = groups_to_follow(recent, now);
    uint32_t groups[MOST_NAMES_AHEAD];
    size_t count;

    if (question == NULL || !asks_all_of_user(recent, now))
        return 0;
    question->is_followed = true;
    count = read_first_groups(text_of(recent, question), question->length, groups, MOST_NAMES_AHEAD);
    for (size_t i = 0; i < count; i++)
        add_number(&batch, COMMAND_GID, groups[i]);
    return batch.length;
}
