#include "exchange.h"

#include <pthread.h>
#include <stdatomic.h>
#include <string.h>
#include <unistd.h>

#include "ahead.h"
#include "replies.h"

/* Seconds without a question after an answer that did not come in time. */
#ifndef BIXETHOMI_PAUSE_SECONDS
#define BIXETHOMI_PAUSE_SECONDS 10
#endif

/* The moment up to which this process asks nothing. */
static _Atomic int64_t pause_end;

/* What this process keeps between two questions: one connection, so that other threads make their own meanwhile. A child that was
 * forked has its parent's, and uses nothing of it. */
static struct conversation kept;

/* The process of the thread that uses it now; 0 where none does. */
static _Atomic pid_t keeper;

/* Passes on how a part of a question ended. */
static enum exchange_end pause_where_late(enum exchange_end end)
{
    if (end == EXCHANGE_LATE)
        atomic_store(&pause_end, moment_after(BIXETHOMI_PAUSE_SECONDS));
    return end;
}

static void end_conversation(struct conversation *conversation)
{
    connection_end(&conversation->connection);
    recent_forget_awaited(&conversation->recent);
}

/* Whether there is a connection. One whose descriptor is not its own any more is no more, and nothing of it is closed. */
static bool has_connection(struct conversation *conversation)
{
    if (connection_is_its_own(&conversation->connection))
        return true;
    conversation->connection.is_open = false;
    recent_forget_awaited(&conversation->recent);
    return false;
}

/* The process uses nothing of what is there, and closes its descriptor. */
static void begin_anew(struct conversation *conversation, pid_t process)
{
    if (has_connection(conversation))
        connection_end(&conversation->connection);
    recent_forget(&conversation->recent);
    conversation->connection.process = process;
}

/* The kept conversation, which is nobody else's then; a null pointer where another thread has it. A thread of the parent, from
 * before this process was forked, has nothing here. */
static struct conversation *take_kept(pid_t process)
{
    pid_t other = 0;

    if (!atomic_compare_exchange_strong(&keeper, &other, process)
        && (other == process || !atomic_compare_exchange_strong(&keeper, &other, process)))
        return NULL;
    if (kept.connection.process != process)
        begin_anew(&kept, process);
    return &kept;
}

static void give_kept_back(void)
{
    atomic_store(&keeper, 0);
}

/* A program that unloads the module has no descriptor left of it. */
__attribute__((destructor)) static void close_kept(void)
{
    struct conversation *conversation = take_kept(getpid());

    if (conversation == NULL)
        return;
    begin_anew(conversation, 0);
    give_kept_back();
}

/* Answers without a form, and those that a moment may change, are given once. */
static bool is_lasting(const struct recent *recent, const struct recent_question *question)
{
    enum saying saying = read_lookup((const char *)recent->bytes + question->text, question->length).saying;

    return saying == SAYS_FOUND || saying == SAYS_ABSENT;
}

static enum exchange_end give(struct exchange *exchange, struct recent_question *question)
{
    struct recent *recent = &exchange->conversation->recent;

    exchange->question = question;
    exchange->was_given_before = question->is_given;
    exchange->front = recent->bytes + question->text;
    exchange->front_length = question->length;
    exchange->length = question->length;
    if (!is_lasting(recent, question))
        question->request_length = 0;
    return EXCHANGE_WELL;
}

static enum exchange_end give_long(struct exchange *exchange, size_t length)
{
    if (length > LONGEST_REPLY)
        return EXCHANGE_BROKEN;
    exchange->length = length;
    exchange->front_length = recent_pass_long(&exchange->conversation->recent, &exchange->front);
    return EXCHANGE_WELL;
}

/* Takes a reply that nobody asked for yet and that has no room, and drops it. */
static enum exchange_end drop_long(struct exchange *exchange, size_t length, int64_t deadline)
{
    const unsigned char *front;
    size_t left = length - recent_pass_long(&exchange->conversation->recent, &front);
    enum exchange_end end = EXCHANGE_WELL;

    while (end == EXCHANGE_WELL && left > 0) {
        unsigned char piece[512];
        size_t taken = 0;

        end = connection_receive(&exchange->conversation->connection, piece, left < sizeof piece ? left : sizeof piece, deadline, &taken);
        left -= taken;
    }
    return end;
}

static enum exchange_end receive_replies(struct exchange *exchange, int64_t deadline)
{
    struct recent *recent = &exchange->conversation->recent;
    unsigned char *place;
    size_t room = recent_place(recent, &place);
    size_t taken = 0;
    enum exchange_end end = connection_receive(&exchange->conversation->connection, place, room, deadline, &taken);

    if (end != EXCHANGE_WELL)
        return end;
    return recent_put(recent, taken) ? EXCHANGE_WELL : EXCHANGE_BROKEN;
}

/* Replies that nobody asked for yet, in front of the one that is asked for, are waited for only as long as they are recent: a
 * question over another connection does not wait for them. */
static enum exchange_end take_in_front(struct exchange *exchange)
{
    struct recent *recent = &exchange->conversation->recent;
    int64_t deadline = moment_now() + recent->questions[recent->answered].sent + BIXETHOMI_RECENT_NANOSECONDS - exchange->now;
    size_t length;
    enum exchange_end end;

    if (deadline > exchange->deadline)
        deadline = exchange->deadline;
    end = recent_is_long(recent, &length) ? drop_long(exchange, length, deadline) : receive_replies(exchange, deadline);
    return end == EXCHANGE_LATE ? EXCHANGE_BROKEN : end;
}

/* Takes the replies up to that of the question behind which so many others are on their way. */
static enum exchange_end await(struct exchange *exchange, size_t behind)
{
    struct recent *recent = &exchange->conversation->recent;
    enum exchange_end end = EXCHANGE_WELL;

    while (end == EXCHANGE_WELL && recent->count - recent->answered > behind) {
        size_t length;

        if (recent->count - recent->answered > behind + 1)
            end = take_in_front(exchange);
        else if (recent_is_long(recent, &length))
            return give_long(exchange, length);
        else
            end = receive_replies(exchange, exchange->deadline);
    }
    return end == EXCHANGE_WELL ? give(exchange, &recent->questions[recent->count - 1 - behind]) : end;
}

static enum exchange_end ask(struct exchange *exchange, const struct request *request)
{
    struct conversation *conversation = exchange->conversation;
    /* Of what is asked once nothing is to be found again. */
    size_t known = exchange->use == CONNECTION_KEPT ? request->length : 0;
    enum exchange_end end = EXCHANGE_BROKEN;

    if (recent_add(&conversation->recent, request->bytes, known, exchange->now) != NULL)
        end = connection_send(&conversation->connection, request->bytes, request->length, exchange->deadline);
    return end == EXCHANGE_WELL ? await(exchange, 0) : end;
}

/* Asks over the kept connection, or takes the reply that is on its way there. */
static enum exchange_end ask_kept(struct exchange *exchange, const struct request *request, const struct recent_question *known)
{
    const struct recent *recent = &exchange->conversation->recent;

    if (known == NULL)
        return ask(exchange, request);
    return await(exchange, recent->count - 1 - (size_t)(known - recent->questions));
}

static enum exchange_end ask_over(struct exchange *exchange, const struct request *request)
{
    struct conversation *conversation = exchange->conversation;
    struct recent *recent = &conversation->recent;
    struct recent_question *known = recent_find(recent, request->bytes, request->length, exchange->now);
    enum exchange_end end;

    if (known != NULL && (size_t)(known - recent->questions) < recent->answered)
        return give(exchange, known);
    if (moment_now() < atomic_load(&pause_end))
        return EXCHANGE_PAUSED;
    /* One that was made before the process became root's is at the public socket. */
    if (exchange->is_of_root && has_connection(conversation))
        end_conversation(conversation);
    if (has_connection(conversation)) {
        end = ask_kept(exchange, request, known);
        if (end != EXCHANGE_BROKEN)
            return end;
        end_conversation(conversation);
    }
    end = connection_open(&conversation->connection, exchange->is_of_root, exchange->deadline);
    return end == EXCHANGE_WELL ? ask(exchange, request) : end;
}

enum exchange_end exchange_open(struct exchange *exchange, enum connection_use use, const struct request *request,
                                int64_t deadline)
{
    pid_t process = getpid();

    exchange->use = use;
    exchange->is_of_root = geteuid() == 0;
    exchange->question = NULL;
    exchange->front_length = 0;
    exchange->length = 0;
    exchange->received = 0;
    exchange->deadline = deadline;
    exchange->now = recent_now();
    pthread_setcancelstate(PTHREAD_CANCEL_DISABLE, &exchange->cancel_state);
    exchange->conversation = use == CONNECTION_KEPT ? take_kept(process) : NULL;
    if (exchange->conversation == NULL) {
        exchange->conversation = &exchange->own;
        exchange->own.connection = (struct connection){ .process = process };
        recent_forget(&exchange->own.recent);
    }
    recent_age(&exchange->conversation->recent, exchange->now);
    return pause_where_late(ask_over(exchange, request));
}

enum exchange_end exchange_take(struct exchange *exchange, char *piece, size_t room, size_t *taken)
{
    size_t left = exchange->length - exchange->received;
    size_t wanted = room < left ? room : left;
    enum exchange_end end = EXCHANGE_WELL;

    if (exchange->received < exchange->front_length) {
        size_t there = exchange->front_length - exchange->received;

        *taken = wanted < there ? wanted : there;
        memcpy(piece, exchange->front + exchange->received, *taken);
    } else {
        end = connection_receive(&exchange->conversation->connection, piece, wanted, exchange->deadline, taken);
    }
    if (end == EXCHANGE_WELL)
        exchange->received += *taken;
    return pause_where_late(end);
}

enum exchange_end exchange_fill(struct exchange *exchange, char *text, size_t wanted)
{
    while (exchange->received < wanted) {
        size_t taken = 0;
        enum exchange_end end = exchange_take(exchange, text + exchange->received, wanted - exchange->received, &taken);

        if (end != EXCHANGE_WELL)
            return end;
    }
    return EXCHANGE_WELL;
}

/* Sends what is asked next, without a wait. */
static void ask_ahead(struct exchange *exchange)
{
    struct conversation *conversation = exchange->conversation;
    struct recent_question *question = exchange->question;
    unsigned char requests[LONGEST_AHEAD];
    size_t length = 0;

    if (question != NULL && exchange->was_given_before && !question->is_followed) {
        question->is_followed = true;
        length = ahead_of_user(&conversation->recent, question, exchange->now, requests);
    }
    if (length == 0)
        length = ahead_of_groups(&conversation->recent, exchange->now, requests);
    if (length > 0 && has_connection(conversation) && !connection_send_at_once(&conversation->connection, requests, length))
        end_conversation(conversation);
}

/* Of a reply that was not taken whole the rest would be taken for the next one. */
static bool is_whole(const struct exchange *exchange)
{
    return exchange->question != NULL || (exchange->length > 0 && exchange->received == exchange->length);
}

void exchange_close(struct exchange *exchange)
{
    struct conversation *conversation = exchange->conversation;
    int ignored;

    if (exchange->question != NULL && exchange->received == exchange->length)
        exchange->question->is_given = true;
    if (conversation != &kept || exchange->is_of_root || !is_whole(exchange))
        end_conversation(conversation);
    else
        ask_ahead(exchange);
    if (conversation == &kept)
        give_kept_back();
    pthread_setcancelstate(exchange->cancel_state, &ignored);
}
