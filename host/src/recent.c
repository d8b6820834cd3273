#include "recent.h"

#include <string.h>
#include <time.h>

#include "replies.h"

enum { HEADER = 4 };

int64_t recent_now(void)
{
    struct timespec now;

    if (clock_gettime(CLOCK_BOOTTIME, &now) != 0)
        return INT64_MAX;
    return now.tv_sec * INT64_C(1000000000) + now.tv_nsec;
}

bool is_recent(const struct recent_question *question, int64_t now)
{
    return now - question->sent < BIXETHOMI_RECENT_NANOSECONDS;
}

static void forget_answered(struct recent *recent)
{
    size_t awaited = recent->count - recent->answered;
    size_t unread = recent->filled - recent->next;

    memmove(recent->questions, recent->questions + recent->answered, awaited * sizeof recent->questions[0]);
    memmove(recent->bytes, recent->bytes + recent->next, unread);
    recent->count = awaited;
    recent->answered = 0;
    recent->next = 0;
    recent->filled = unread;
}

void recent_age(struct recent *recent, int64_t now)
{
    if (recent->answered > 0 && !is_recent(&recent->questions[recent->answered - 1], now))
        forget_answered(recent);
}

struct recent_question *recent_find(struct recent *recent, const unsigned char *request, size_t length, int64_t now)
{
    for (size_t i = 0; i < recent->count; i++) {
        struct recent_question *question = &recent->questions[i];

        if (question->request_length == length && memcmp(question->request, request, length) == 0 && is_recent(question, now))
            return question;
    }
    return NULL;
}

struct recent_question *recent_add(struct recent *recent, const unsigned char *request, size_t length, int64_t now)
{
    struct recent_question *question;

    if (recent->count == MOST_RECENT)
        forget_answered(recent);
    if (recent->count == MOST_RECENT)
        return NULL;
    question = &recent->questions[recent->count++];
    question->sent = now;
    question->request_length = length <= sizeof question->request ? length : 0;
    memcpy(question->request, request, question->request_length);
    question->text = 0;
    question->length = 0;
    question->is_ahead = false;
    question->is_given = false;
    question->is_followed = false;
    return question;
}

void recent_forget(struct recent *recent)
{
    recent->count = 0;
    recent->answered = 0;
    recent->next = 0;
    recent->filled = 0;
}

void recent_forget_awaited(struct recent *recent)
{
    recent->count = recent->answered;
    recent->filled = recent->next;
}

/* The length that the reply says that comes next; false where it is not there yet. */
static bool next_length(const struct recent *recent, size_t *length)
{
    const unsigned char *header = recent->bytes + recent->next;

    if (recent->filled - recent->next < HEADER)
        return false;
    *length = (size_t)header[0] << 24 | (size_t)header[1] << 16 | (size_t)header[2] << 8 | header[3];
    return true;
}

size_t recent_place(struct recent *recent, unsigned char **place)
{
    size_t length = 0;

    next_length(recent, &length);
    if (recent->next + HEADER + length > RECENT_ROOM)
        forget_answered(recent);
    *place = recent->bytes + recent->filled;
    return RECENT_ROOM - recent->filled;
}

bool recent_put(struct recent *recent, size_t count)
{
    size_t length;

    recent->filled += count;
    while (recent->answered < recent->count) {
        struct recent_question *question = &recent->questions[recent->answered];

        if (!next_length(recent, &length))
            return true;
        if (length > LONGEST_REPLY)
            return false;
        if (recent->filled - recent->next - HEADER < length)
            return true;
        question->text = recent->next + HEADER;
        question->length = length;
        recent->next += HEADER + length;
        recent->answered++;
    }
    return recent->next == recent->filled;
}

bool recent_is_long(const struct recent *recent, size_t *length)
{
    return recent->answered < recent->count && next_length(recent, length) && *length > RECENT_ROOM - HEADER;
}

size_t recent_pass_long(struct recent *recent, const unsigned char **front)
{
    size_t count = recent->filled - recent->next - HEADER;

    *front = recent->bytes + recent->next + HEADER;
    recent->questions[recent->answered++].request_length = 0;
    recent->filled = recent->next;
    return count;
}
