/* floor SOCKET: a thread for each connection, which answers each request with a user's line and looks nothing up.
 *
 * Its rate is the most that the machine gives to a daemon of this shape: one receive and one send for a request. */
#include <arpa/inet.h>
#include <pthread.h>
#include <stdbool.h>
#include <stdint.h>
#include <stdio.h>
#include <stdlib.h>
#include <string.h>
#include <sys/socket.h>
#include <sys/un.h>
#include <unistd.h>

enum { LONGEST_BODY = 65536, HEADER = 4, NAME_AT = HEADER + 3, LONGEST_NAME = 255 };

/* The reply to a request, whose body has this length. */
static size_t write_reply(char *reply, size_t room, const unsigned char *request, uint32_t length)
{
    uint32_t name = length < 3 ? 0 : length - 3;
    int text;
    uint32_t header;

    if (name > LONGEST_NAME)
        name = LONGEST_NAME;
    text = snprintf(reply + HEADER, room - HEADER, "found 1 %.*s:*:10001:10001::/home/%.*s:/bin/sh", (int)name,
                    (const char *)request + NAME_AT, (int)name, (const char *)request + NAME_AT);
    header = htonl((uint32_t)text);
    memcpy(reply, &header, HEADER);
    return HEADER + (size_t)text;
}

/* Receives until so many bytes are there; whatever comes with them stays behind them. */
static bool receive_up_to(int connection, unsigned char *bytes, size_t room, size_t *have, size_t wanted)
{
    while (*have < wanted) {
        ssize_t count = recv(connection, bytes + *have, room - *have, 0);

        if (count <= 0)
            return false;
        *have += (size_t)count;
    }
    return true;
}

static void serve(int connection)
{
    unsigned char request[HEADER + LONGEST_BODY];
    char reply[1024];
    size_t have = 0;

    while (receive_up_to(connection, request, sizeof request, &have, HEADER)) {
        uint32_t length;
        size_t whole, size;

        memcpy(&length, request, HEADER);
        length = ntohl(length);
        whole = HEADER + (size_t)length;
        if (length < 1 || length > LONGEST_BODY || !receive_up_to(connection, request, sizeof request, &have, whole))
            return;
        size = write_reply(reply, sizeof reply, request, length);
        if (send(connection, reply, size, MSG_NOSIGNAL) != (ssize_t)size)
            return;
        have -= whole;
        memmove(request, request + whole, have);
    }
}

static void *session(void *argument)
{
    int connection = (int)(intptr_t)argument;

    serve(connection);
    close(connection);
    return NULL;
}

int main(int count, char **words)
{
    struct sockaddr_un address = { .sun_family = AF_UNIX };
    int listener = socket(AF_UNIX, SOCK_STREAM | SOCK_CLOEXEC, 0);

    if (count != 2 || strlen(words[1]) >= sizeof address.sun_path) {
        fprintf(stderr, "floor SOCKET\n");
        return 2;
    }
    strcpy(address.sun_path, words[1]);
    unlink(words[1]);
    if (listener < 0 || bind(listener, (const struct sockaddr *)&address, sizeof address) || listen(listener, 128)) {
        perror("floor");
        return 1;
    }
    for (;;) {
        int connection = accept(listener, NULL, NULL);
        pthread_t thread;

        if (connection < 0)
            continue;
        if (pthread_create(&thread, NULL, session, (void *)(intptr_t)connection))
            close(connection);
        else
            pthread_detach(thread);
    }
}
