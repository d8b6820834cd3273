/* What is remembered of questions and replies, and what is asked ahead: which question a reply answers and for how long, replies
 * that come in pieces, are cut, long or of another form. Expected values are written out here. */
#include "recent.h"

#include <stdio.h>
#include <stdlib.h>
#include <string.h>

#include "ahead.h"
#include "replies.h"

static unsigned checks;

static void demand(bool holds, const char *what)
{
    checks++;
    if (holds)
        return;
    fprintf(stderr, "recent: %s\n", what);
    exit(1);
}

enum { MILLISECOND = 1000000 };

static struct recent recent;

static struct recent_question *add(const char *request, int64_t now)
{
    return recent_add(&recent, (const unsigned char *)request, strlen(request), now);
}

static struct recent_question *find(const char *request, int64_t now)
{
    return recent_find(&recent, (const unsigned char *)request, strlen(request), now);
}

/* As much at a time as there is room for. */
static bool put(const char *bytes, size_t count)
{
    bool is_well = true;

    while (is_well && count > 0) {
        unsigned char *place;
        size_t room = recent_place(&recent, &place);
        size_t piece = room < count ? room : count;

        demand(room > 0 && place >= recent.bytes && place + room <= recent.bytes + RECENT_ROOM, "there is room");
        memcpy(place, bytes, piece);
        is_well = recent_put(&recent, piece);
        bytes += piece;
        count -= piece;
    }
    return is_well;
}

/* The reply with its length in front, as the daemon sends it. */
static size_t frame(const char *text, char *bytes)
{
    size_t length = strlen(text);

    bytes[0] = bytes[1] = 0;
    bytes[2] = (char)(length >> 8);
    bytes[3] = (char)length;
    memcpy(bytes + 4, text, length);
    return 4 + length;
}

static bool put_reply(const char *text)
{
    char bytes[RECENT_ROOM];

    return put(bytes, frame(text, bytes));
}

static bool says(const struct recent_question *question, const char *text)
{
    return question != NULL && question->length == strlen(text) && memcmp(recent.bytes + question->text, text, question->length) == 0;
}

static void ages(void)
{
    recent_forget(&recent);
    add("one", 5);
    demand(put_reply("first"), "a reply");
    demand(says(find("one", 5), "first"), "it is found");
    demand(says(find("one", 4 + 20 * MILLISECOND), "first"), "just within 20 milliseconds");
    demand(find("one", 5 + 20 * MILLISECOND) == NULL, "and not after them");
    demand(find("on", 5) == NULL && find("ones", 5) == NULL && find("two", 5) == NULL, "nor for another question");
    recent_age(&recent, 4 + 20 * MILLISECOND);
    demand(recent.count == 1, "it stays so long");
    recent_age(&recent, 5 + 20 * MILLISECOND);
    demand(recent.count == 0 && recent.filled == 0, "and is gone then");
}

static void order(void)
{
    recent_forget(&recent);
    add("one", 1);
    add("two", 1);
    add("three", 1);
    demand(recent.answered == 0 && find("two", 1) == &recent.questions[1], "three are on their way");
    demand(put("\0\0", 2) && put("\0\3a", 3) && recent.answered == 0, "a reply in pieces");
    demand(put("bc\0\0\0\1x\0\0", 9), "two at once, and a piece");
    demand(recent.answered == 2 && says(find("one", 1), "abc") && says(find("two", 1), "x"), "replies in order");
    demand(put("\0\0", 2) && recent.answered == 3 && says(find("three", 1), ""), "one without text");
    demand(!put("y", 1), "a byte that nobody asked for");
}

static void ends(void)
{
    recent_forget(&recent);
    add("one", 1);
    add("two", 1);
    demand(put_reply("first") && put("\0\0\0\5se", 6), "one reply, and a piece of the next");
    recent_forget_awaited(&recent);
    demand(recent.count == 1 && says(find("one", 1), "first") && find("two", 1) == NULL, "the first one stays");
    add("three", 2);
    demand(put_reply("third") && says(find("three", 2), "third"), "over another connection");
    recent_forget(&recent);
    add("one", 1);
    demand(!put("\x10\0\0\1", 4), "a length that begins no reply");
}

static void room(void)
{
    char text[1001];
    char name[] = "a";

    memset(text, 't', 1000);
    text[1000] = '\0';
    recent_forget(&recent);
    for (int i = 0; i < 20; i++, name[0]++) {
        demand(add(name, 1) != NULL && put_reply(text) && says(find(name, 1), text), "as many as there is room for");
        demand(recent.filled <= RECENT_ROOM && recent.count <= 4, "and the older ones go");
    }
    recent_forget(&recent);
    for (int i = 0; i < MOST_RECENT; i++)
        demand(add("again", i) != NULL, "as many as may be on their way");
    demand(add("again", MOST_RECENT) == NULL, "and no more");
    for (int i = 0; i < MOST_RECENT; i++)
        demand(put_reply("x"), "they come");
    demand(add("last", 1) != NULL && recent.count == 1, "and go for another");
}

static void long_requests(void)
{
    char request[LONGEST_RECENT_REQUEST + 2];

    memset(request, 'r', sizeof request);
    request[LONGEST_RECENT_REQUEST] = '\0';
    recent_forget(&recent);
    demand(add(request, 1) != NULL && find(request, 1) != NULL, "the longest request that is found again");
    request[LONGEST_RECENT_REQUEST] = 'r';
    request[LONGEST_RECENT_REQUEST + 1] = '\0';
    demand(add(request, 1) != NULL && find(request, 1) == NULL, "one that is longer");
    demand(put_reply("one") && put_reply("two") && recent.answered == 2, "both have their place");
}

static void long_replies(void)
{
    char bytes[RECENT_ROOM] = { 0, 0, (RECENT_ROOM - 4) >> 8, (char)((RECENT_ROOM - 4) & 0xff) };
    const unsigned char *front;
    size_t length = 0;

    recent_forget(&recent);
    add("zero", 1);
    demand(put_reply("gone when room is needed"), "a reply");
    add("one", 1);
    demand(put(bytes, 100) && !recent_is_long(&recent, &length), "a reply that takes all room is none of the long ones");
    demand(put(bytes + 100, RECENT_ROOM - 100) && recent.answered == 1 && recent.questions[0].length == RECENT_ROOM - 4, "it comes whole");
    recent_forget(&recent);
    add("one", 1);
    add("two", 1);
    bytes[3]++;
    memcpy(bytes + 4, "front", 5);
    demand(put(bytes, 9) && recent_is_long(&recent, &length) && length == RECENT_ROOM - 3, "a byte more, and it is long");
    demand(recent_pass_long(&recent, &front) == 5 && memcmp(front, "front", 5) == 0, "its front");
    demand(find("one", 1) == NULL && find("two", 1) != NULL && recent.answered == 1, "it answers nothing later");
    demand(put_reply("second") && says(find("two", 1), "second"), "the next one comes behind it");
}

/* The requests as they are sent: the length, the command, then a number or a name. */
#define ALICE "\0\0\0\10\1\0\5alice"
#define UID "\0\0\0\5\2\0\0\x27\21"
#define GID "\0\0\0\5\4\0\0\x27\22"
#define GROUPS "\0\0\0\10\5\0\5alice"

static struct recent_question *ask(const void *request, size_t length, const char *reply)
{
    struct recent_question *question = recent_add(&recent, request, length, 1);

    demand(put_reply(reply), "a reply");
    question->is_given = true;
    return question;
}

static bool follows_user(const char *reply, const void *wanted, size_t length)
{
    unsigned char requests[LONGEST_AHEAD];
    struct recent_question *question;

    recent_forget(&recent);
    question = ask(ALICE, 12, reply);
    return ahead_of_user(&recent, question, 1, requests) == length && memcmp(requests, wanted, length) == 0;
}

static void users(void)
{
    unsigned char requests[LONGEST_AHEAD];

    demand(follows_user("found 3 alice:*:10001:10002:A:/home/alice:/bin/sh", UID GID GROUPS, 30), "what comes after a user");
    demand(recent.count == 4 && recent.answered == 1 && recent.questions[1].is_ahead, "it is on its way");
    demand(ahead_of_user(&recent, &recent.questions[0], 1, requests) == 0, "and is not asked once more");
    demand(follows_user("old 3 4 al\\3aice:*:10001:10002::/:/", UID GID GROUPS, 30), "an old one, with escapes");
    demand(follows_user("found 3 alice:*:0:10002:A:/:/", GID GROUPS, 21), "root's number is not asked");
    demand(follows_user("found 3 alice:*:4294967295:4294967295:A:/:/", GROUPS, 12), "nor the greatest");
    demand(follows_user("none 3", "", 0) && follows_user("dark 3", "", 0) && follows_user("", "", 0), "no user");
    demand(follows_user("found 3 alice:*:1", "", 0) && follows_user("found 3 alice:*:x:1:", "", 0), "a line that is cut, or bad");
    demand(follows_user("found 3 alice", "", 0) && follows_user("found 3 alice:*:10001:10002", "", 0), "a line without an end");
    demand(follows_user("found 3 alice:*:99999999999:1:", "", 0) && follows_user("found 3 a\\zz:*:1:1:::", "", 0), "no number, no name");
    recent_forget(&recent);
    demand(ahead_of_user(&recent, ask(UID, 9, "found 3 alice:*:10001:10002:A:/:/"), 1, requests) == 0, "a user by number is not followed");
}

/* The groups' numbers that are asked ahead, one behind the other. */
static const char *names_after(const char *reply, int64_t now)
{
    static char text[400];
    unsigned char requests[LONGEST_AHEAD];
    size_t length;

    ask(GROUPS, 12, reply);
    length = ahead_of_groups(&recent, now, requests);
    text[0] = '\0';
    for (size_t i = 0; i + 9 <= length; i += 9) {
        demand(memcmp(requests + i, "\0\0\0\5\4\0\0", 7) == 0, "a request for a group by number");
        snprintf(text + strlen(text), 8, "%d ", requests[i + 7] << 8 | requests[i + 8]);
    }
    return text;
}

static void groups(void)
{
    recent_forget(&recent);
    demand(strcmp(names_after("found 9 alice:7,8", 1), "") == 0, "groups of who asked for no number");
    ask(GID, 9, "found 4 staff:*:10002:");
    demand(strcmp(names_after("found 9 alice:7,10002,8", 1), "7 8 ") == 0, "after a group's number those that are not there");
    demand(strcmp(names_after("found 9 alice:7,8", 1), "") == 0, "each once");
    recent_forget(&recent);
    ask(GID, 9, "found 4 staff:*:10002:");
    demand(strcmp(names_after("found 9 alice:7,8", 1 + 20 * MILLISECOND), "") == 0, "not much later");
    recent_forget(&recent);
    ask(UID, 9, "found 4 alice:*:10001:10002:::");
    demand(strcmp(names_after("found 9 alice:7", 1), "") == 0, "nor after a user's number that the program asked by itself");
    recent_forget(&recent);
    ask(UID, 9, "found 4 alice:*:10001:10002:::")->is_ahead = true;
    demand(strcmp(names_after("found 9 alice:7,4294967295,0,9", 1), "7 9 ") == 0, "but where that was asked ahead");
    demand(strcmp(names_after("found 9 alice:", 1), "") == 0 && strcmp(names_after("none 9", 1), "") == 0, "no groups");
    demand(strcmp(names_after("found 9 alice:x", 1), "") == 0, "groups that are none");
    demand(strcmp(names_after("found 9 alice:5,", 1), "5 ") == 0, "and behind one that is");
    demand(strcmp(names_after("found 9 alice:11,12,13,14,15,16,17,18,19,20,21,22,23,24,25,26,27,28", 1),
                  "11 12 13 14 15 16 17 18 19 20 21 22 23 24 25 26 ") == 0, "at most sixteen");
}

int main(void)
{
    ages();
    order();
    ends();
    room();
    long_requests();
    long_replies();
    users();
    groups();
    printf("%u checks\n", checks);
    return 0;
}
