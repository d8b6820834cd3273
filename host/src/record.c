#include "record.h"

#include <stdio.h>
#include <string.h>
#include <syslog.h>
#include <unistd.h>

#include <security/pam_ext.h>

/* Bytes of a value in a line, of those that come from a client, and of the daemon's words. */
enum { LONGEST_VALUE = 256, LONGEST_ANSWER = 320 };

/* Whether the byte stands in a line as it is: what a client sends can neither end the line nor begin another field of it. */
static bool is_plain(char byte, bool has_spaces)
{
    return (byte > ' ' && byte < 0x7f && byte != '\\') || (has_spaces && byte == ' ');
}

static void print_bytes(char *out, size_t room, const char *text, size_t length, bool has_spaces)
{
    size_t used = 0;

    for (size_t i = 0; i < length; i++) {
        bool is_whole = is_plain(text[i], has_spaces);

        if (used + (is_whole ? 1 : 3) + sizeof ".." > room) {
            used += (size_t)snprintf(out + used, room - used, "..");
            break;
        }
        if (is_whole)
            out[used++] = text[i];
        else
            used += (size_t)snprintf(out + used, room - used, "\\%02x", (unsigned)(unsigned char)text[i]);
    }
    out[used] = '\0';
}

/* A text that the program left with PAM; nothing where it left none. */
static void print_item(const struct call *call, int item, char out[LONGEST_VALUE])
{
    const void *value = NULL;

    if (pam_get_item(call->handle, item, &value) != PAM_SUCCESS || value == NULL)
        value = "";
    print_bytes(out, LONGEST_VALUE, value, strlen(value), false);
}

/* The fields stand in the order of pam_unix(8) and pam_sss(8), which programs read that watch the log. */
void record(const struct call *call, int priority, const char *outcome, struct answer_text answer)
{
    char terminal[LONGEST_VALUE];
    char remote_user[LONGEST_VALUE];
    char remote_host[LONGEST_VALUE];
    char user[LONGEST_VALUE] = "(unknown)";
    char service[LONGEST_VALUE];
    char words[LONGEST_ANSWER];

    print_item(call, PAM_TTY, terminal);
    print_item(call, PAM_RUSER, remote_user);
    print_item(call, PAM_RHOST, remote_host);
    print_item(call, PAM_SERVICE, service);
    if (call->is_known)
        print_bytes(user, sizeof user, call->name, strlen(call->name), false);
    print_bytes(words, sizeof words, answer.text, answer.length, true);
    pam_syslog(call->handle, priority, "%s; logname= uid=%u euid=%u tty=%s ruser=%s rhost=%s user=%s service=%s: %s", outcome,
               (unsigned)getuid(), (unsigned)geteuid(), terminal, remote_user, remote_host, user, service, words);
}

void record_text(const struct call *call, int priority, const char *outcome, const char *text)
{
    record(call, priority, outcome, (struct answer_text){ text, strlen(text) });
}

void record_step(const struct call *call, const char *step)
{
    if (call->options.is_debugged)
        pam_syslog(call->handle, LOG_DEBUG, "%s", step);
}
