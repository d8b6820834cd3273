/* pam_bixethomi: logins and account checks by the daemon. A password goes to the daemon's socket and
 * nowhere else: it is in no log, and every copy made here is wiped. */
#include <errno.h>
#include <inttypes.h>
#include <stdarg.h>
#include <stdio.h>
#include <stdlib.h>
#include <string.h>
#include <syslog.h>
#include <time.h>

#include <security/pam_modules.h>
#include <security/pam_ext.h>
#include <security/pam_modutil.h>

#include "exchange.h"
#include "frames.h"
#include "limits.h"
#include "record.h"
#include "replies.h"
#include "words.h"

/* A reply is read in a piece of this size. Only a user's record, behind its numbers, and the name of a rule that grants can be
 * longer. */
enum { PIECE = 4096 };

struct answer {
    char text[PIECE];
    size_t length;
    bool is_whole;
};

static struct answer_text text_of(const struct answer *answer)
{
    return (struct answer_text){ answer->text, answer->length };
}

static void show(const struct call *call, int style, const char *format, ...) __attribute__((format(printf, 3, 4)));

static void show(const struct call *call, int style, const char *format, ...)
{
    va_list values;

    if (call->options.is_quiet)
        return;
    va_start(values, format);
    /* A message that cannot be shown changes no answer. */
    (void)pam_vprompt(call->handle, style, NULL, format, values);
    va_end(values);
}

/* A Unix time as the user's clock shows it; false where no calendar has it. */
static bool print_moment(uint64_t moment, char *text, size_t room)
{
    time_t seconds = (time_t)moment;
    struct tm local;

    /* The year 9999 ends there. */
    if (moment > UINT64_C(253402300799) || localtime_r(&seconds, &local) == NULL)
        return false;
    return strftime(text, room, "%Y-%m-%d %H:%M:%S", &local) > 0;
}

static void show_moment(const struct call *call, const char *with, const char *without, uint64_t moment)
{
    char text[64];

    if (print_moment(moment, text, sizeof text))
        show(call, PAM_ERROR_MSG, "%s %s.", with, text);
    else
        show(call, PAM_ERROR_MSG, "%s.", without);
}

/* Whether the host has the user with a uid below the word's. */
static bool is_below_minimum(const struct call *call)
{
    struct passwd *user;

    if (call->options.minimum_uid == 0)
        return false;
    user = pam_modutil_getpwnam(call->handle, call->name);
    return user != NULL && user->pw_uid < call->options.minimum_uid;
}

/* Reads the words, and whose request it is. A name that no host can have, and root's, are not the daemon's matter. */
static int begin(struct call *call, pam_handle_t *handle, int flags, int count, const char **words)
{
    int status;

    *call = (struct call){ .handle = handle, .options = read_options(handle, flags, count, words) };
    status = pam_get_user(handle, &call->name, NULL);
    if (status != PAM_SUCCESS)
        return status == PAM_CONV_AGAIN ? PAM_INCOMPLETE : status;
    call->deadline = moment_after(BIXETHOMI_LOGIN_SECONDS);
    if (call->name == NULL || !is_account_name(call->name) || strcmp(call->name, "root") == 0) {
        record_step(call, "the name is none that the directory is asked for");
        return PAM_USER_UNKNOWN;
    }
    if (is_below_minimum(call)) {
        record_step(call, "the user's uid is below minimum_uid");
        return PAM_USER_UNKNOWN;
    }
    return PAM_SUCCESS;
}

/* What the stack is told of a status. */
static int finish(const struct call *call, int status)
{
    if (status == PAM_USER_UNKNOWN && call->options.ignores_unknown_user)
        return PAM_IGNORE;
    if (status == PAM_AUTHINFO_UNAVAIL && call->options.ignores_unavailable)
        return PAM_IGNORE;
    return status;
}

/* What is beyond the first piece is taken and not kept: it has to come, or the reply is cut. */
static enum exchange_end take_rest(struct exchange *exchange)
{
    char piece[PIECE];

    while (exchange->received < exchange->length) {
        size_t taken = 0;
        enum exchange_end end = exchange_take(exchange, piece, sizeof piece, &taken);

        if (end != EXCHANGE_WELL)
            return end;
    }
    return EXCHANGE_WELL;
}

/* Asks, and has the reply's front. */
static enum exchange_end ask(const struct call *call, const struct request *request, struct answer *answer)
{
    struct exchange exchange;
    enum exchange_end end;

    record_step(call, "asks the daemon");
    end = exchange_open(&exchange, CONNECTION_OF_ITS_OWN, request, call->deadline);
    if (end == EXCHANGE_WELL) {
        answer->is_whole = exchange.length <= PIECE;
        answer->length = answer->is_whole ? exchange.length : PIECE;
        end = exchange_fill(&exchange, answer->text, answer->length);
    }
    if (end == EXCHANGE_WELL)
        end = take_rest(&exchange);
    exchange_close(&exchange);
    record_step(call, end == EXCHANGE_WELL ? "the daemon answered" : "the daemon did not answer");
    return end;
}

static int status_of_end(const struct call *call, enum exchange_end end)
{
    const char *outcome = "no answer";

    switch (end) {
    case EXCHANGE_WELL:
        break;
    case EXCHANGE_NO_DAEMON:
        record_text(call, LOG_ERR, outcome, "the daemon does not run");
        break;
    case EXCHANGE_LATE:
        record_text(call, LOG_ERR, outcome, "the daemon gave no answer in time");
        break;
    case EXCHANGE_PAUSED:
        record_text(call, LOG_ERR, outcome, "the daemon is not asked, since it gave no answer in time a moment ago");
        break;
    case EXCHANGE_BROKEN:
        record_text(call, LOG_ERR, outcome, "the daemon ended the connection, or its reply has no form");
        break;
    case EXCHANGE_STARVED:
        record_text(call, LOG_CRIT, outcome, "no descriptor or no memory to ask the daemon");
        break;
    }
    return PAM_AUTHINFO_UNAVAIL;
}

/* What a login or an account check says where the daemon has no answer of its own to give. */
static int status_unanswered(const struct call *call, enum saying saying, const struct answer *answer)
{
    switch (saying) {
    case SAYS_ABSENT:
        if (!call->options.is_quiet)
            record(call, LOG_NOTICE, "user unknown to the directory", text_of(answer));
        return PAM_USER_UNKNOWN;
    case SAYS_DARK:
        record(call, LOG_WARNING, "no server can be reached, and nothing is kept", text_of(answer));
        show(call, PAM_ERROR_MSG, "The directory cannot be reached.");
        return PAM_AUTHINFO_UNAVAIL;
    case SAYS_REFUSED:
        record(call, LOG_ERR, "a server of the directory refused", text_of(answer));
        return PAM_AUTHINFO_UNAVAIL;
    case SAYS_MANY:
        record(call, LOG_ERR, "the directory has more than one such entry", text_of(answer));
        return PAM_AUTHINFO_UNAVAIL;
    case SAYS_DROPPED:
        record(call, LOG_WARNING, "another client asked the same and left", text_of(answer));
        return PAM_AUTHINFO_UNAVAIL;
    default:
        record(call, LOG_ERR, "the daemon's reply has no form", text_of(answer));
        return PAM_AUTHINFO_UNAVAIL;
    }
}

/* Whether the directory may give the host the user's numbers. */
static bool is_given(const struct call *call, uint32_t uid, uint32_t gid)
{
    struct limits limits = read_limits();
    char text[128];

    if (is_within(&limits, uid) && is_within(&limits, gid))
        return true;
    snprintf(text, sizeof text, "uid %" PRIu32 " or gid %" PRIu32 " is outside the limits of modules.conf", uid, gid);
    record_text(call, LOG_NOTICE, "user not given to this host", text);
    return false;
}

/* Looks the user up, whose numbers have to be within the host's limits. PAM_SUCCESS where the next question may be asked; what
 * the directory says of a user that is not found is its answer's matter, and goes to `saying`. */
static int look_user_up(struct call *call, struct answer *answer, enum saying *saying)
{
    struct request request;
    enum exchange_end end;
    uint32_t uid = 0;
    uint32_t gid = 0;

    *saying = SAYS_NOTHING;
    if (!request_by_name(&request, COMMAND_USER, call->name))
        return PAM_USER_UNKNOWN;
    end = ask(call, &request, answer);
    if (end != EXCHANGE_WELL)
        return status_of_end(call, end);
    *saying = read_lookup(answer->text, answer->length).saying;
    if (!read_user_numbers(answer->text, answer->length, &uid, &gid))
        return PAM_SUCCESS;
    call->is_known = true;
    return is_given(call, uid, gid) ? PAM_SUCCESS : PAM_USER_UNKNOWN;
}

/* The status of a login. A wrong password is PAM_AUTH_ERR, and nothing else is but an empty one. */
static int status_of_login(const struct call *call, struct login_reply reply, const struct answer *answer)
{
    struct answer_text text = text_of(answer);

    switch (reply.saying) {
    case SAYS_ACCEPTED_ONLINE:
        record(call, LOG_INFO, "authentication success", text);
        return PAM_SUCCESS;
    case SAYS_ACCEPTED_OFFLINE:
        record(call, LOG_INFO, "authentication success", text);
        show(call, PAM_TEXT_INFO, "The directory cannot be reached: your password was checked offline.");
        return PAM_SUCCESS;
    case SAYS_WRONG_PASSWORD:
    case SAYS_EMPTY_PASSWORD:
        record(call, LOG_NOTICE, "authentication failure", text);
        return PAM_AUTH_ERR;
    case SAYS_EXPIRED:
        record(call, LOG_NOTICE, "the kept password hash expired", text);
        show_moment(call, "The directory cannot be reached, and logins without it were possible until",
                    "The directory cannot be reached, and logins without it are not possible any more", reply.number);
        return PAM_PERM_DENIED;
    case SAYS_BLOCKED_UNTIL:
        record(call, LOG_NOTICE, "blocked after wrong passwords", text);
        show_moment(call, "Too many wrong passwords: logins are blocked until", "Too many wrong passwords: logins are blocked",
                    reply.number);
        return PAM_PERM_DENIED;
    case SAYS_BLOCKED_UNTIL_ONLINE:
        record(call, LOG_NOTICE, "blocked after wrong passwords until a server can be reached", text);
        show(call, PAM_ERROR_MSG, "Too many wrong passwords: logins are blocked until the directory can be reached.");
        return PAM_PERM_DENIED;
    case SAYS_NO_HASH:
        record(call, LOG_WARNING, "no server can be reached, and no password hash is kept", text);
        show(call, PAM_ERROR_MSG, "The directory cannot be reached, and you did not log in here before.");
        return PAM_AUTHINFO_UNAVAIL;
    default:
        return status_unanswered(call, reply.saying, answer);
    }
}

static int log_in(struct call *call, const char *password)
{
    struct request request;
    struct answer answer = { .length = 0 };
    enum saying saying;
    bool is_made = request_login(&request, call->name, password);
    enum exchange_end end = EXCHANGE_WELL;
    int status = look_user_up(call, &answer, &saying);

    /* The daemon denies an empty password, and takes none that is too long. */
    if (status == PAM_SUCCESS && is_made && password[0] != '\0')
        end = ask(call, &request, &answer);
    explicit_bzero(&request, sizeof request);
    if (status != PAM_SUCCESS)
        return status;
    if (!is_made || password[0] == '\0') {
        record_text(call, LOG_NOTICE, "authentication failure", is_made ? "empty password" : "overlong password");
        return PAM_AUTH_ERR;
    }
    if (end != EXCHANGE_WELL)
        return status_of_end(call, end);
    /* No reply to a login is longer than a piece. */
    return status_of_login(call, answer.is_whole ? read_login(answer.text, answer.length) : (struct login_reply){ SAYS_NOTHING, 0 },
                           &answer);
}

static void wipe(char *password)
{
    if (password == NULL)
        return;
    explicit_bzero(password, strlen(password));
    free(password);
}

/* Asks the user, and leaves the password with the modules that follow. A program that answers each prompt with the same word,
 * as sshd does, makes one login of it: `tried` is the password that was wrong. */
static int log_in_by_prompt(struct call *call, const char *tried, char **password)
{
    int status = pam_prompt(call->handle, PAM_PROMPT_ECHO_OFF, password, "Password: ");

    if (status != PAM_SUCCESS)
        return status == PAM_CONV_AGAIN ? PAM_INCOMPLETE : status;
    if (*password == NULL)
        return PAM_AUTH_ERR;
    status = pam_set_item(call->handle, PAM_AUTHTOK, *password);
    if (status != PAM_SUCCESS)
        return status;
    if (tried != NULL && strcmp(tried, *password) == 0) {
        record_step(call, "the same wrong password again is not sent");
        return PAM_AUTH_ERR;
    }
    /* What the user took for an answer is not the daemon's time. */
    call->deadline = moment_after(BIXETHOMI_LOGIN_SECONDS);
    return log_in(call, *password);
}

/* Asks once, and again after a wrong password as often as the word `retry` says. */
static int log_in_by_prompts(struct call *call, char *tried)
{
    int status = PAM_AUTH_ERR;

    for (unsigned i = 0; i <= call->options.retries && status == PAM_AUTH_ERR; i++) {
        char *password = NULL;

        status = log_in_by_prompt(call, tried, &password);
        wipe(tried);
        tried = password;
    }
    wipe(tried);
    return status;
}

static int authenticate(struct call *call)
{
    bool uses_earlier = call->options.tries_first_password || call->options.uses_first_password;
    const void *earlier = NULL;
    char *tried = NULL;
    int status = uses_earlier ? pam_get_item(call->handle, PAM_AUTHTOK, &earlier) : PAM_SUCCESS;

    if (status != PAM_SUCCESS)
        return status;
    if (earlier == NULL && call->options.uses_first_password)
        return PAM_AUTH_ERR;
    if (earlier != NULL) {
        status = log_in(call, earlier);
        /* The user may have another password here than for the module in front. */
        if (status != PAM_AUTH_ERR || call->options.uses_first_password)
            return status;
        tried = strdup(earlier);
        if (tried == NULL)
            return PAM_BUF_ERR;
    }
    return log_in_by_prompts(call, tried);
}

int pam_sm_authenticate(pam_handle_t *handle, int flags, int count, const char **words)
{
    struct call call;
    int status = begin(&call, handle, flags, count, words);

    return finish(&call, status == PAM_SUCCESS ? authenticate(&call) : status);
}

/* There is no credential beside the password. */
int pam_sm_setcred(pam_handle_t *handle, int flags, int count, const char **words)
{
    (void)handle;
    (void)flags;
    (void)count;
    (void)words;
    return PAM_SUCCESS;
}

/* A session has nothing of the daemon: what a stack has behind `pam_bixethomi.so` goes on. */
int pam_sm_open_session(pam_handle_t *handle, int flags, int count, const char **words)
{
    (void)read_options(handle, flags, count, words);
    return PAM_SUCCESS;
}

int pam_sm_close_session(pam_handle_t *handle, int flags, int count, const char **words)
{
    (void)read_options(handle, flags, count, words);
    return PAM_SUCCESS;
}

static int status_of_access(const struct call *call, const char *service, enum saying saying, const struct answer *answer)
{
    switch (saying) {
    case SAYS_GRANTED:
        record(call, LOG_INFO, "account check success", text_of(answer));
        return PAM_SUCCESS;
    case SAYS_DENIED:
        record(call, LOG_NOTICE, "account check failure", text_of(answer));
        show(call, PAM_ERROR_MSG, "You have no access to %s on this host.", service);
        return PAM_PERM_DENIED;
    default:
        return status_unanswered(call, saying, answer);
    }
}

static int check_account(struct call *call)
{
    struct request request;
    struct answer answer = { .length = 0 };
    const void *service = NULL;
    enum saying saying;
    enum exchange_end end;
    int status = pam_get_item(call->handle, PAM_SERVICE, &service);

    if (status != PAM_SUCCESS)
        return status;
    if (service == NULL || !request_access(&request, call->name, service)) {
        pam_syslog(call->handle, LOG_ERR, "the service has no name of 1 to 255 bytes");
        return PAM_SYSTEM_ERR;
    }
    status = look_user_up(call, &answer, &saying);
    if (status != PAM_SUCCESS)
        return status;
    end = ask(call, &request, &answer);
    if (end != EXCHANGE_WELL)
        return status_of_end(call, end);
    return status_of_access(call, service, read_access(answer.text, answer.length, answer.is_whole), &answer);
}

int pam_sm_acct_mgmt(pam_handle_t *handle, int flags, int count, const char **words)
{
    struct call call;
    int status = begin(&call, handle, flags, count, words);

    return finish(&call, status == PAM_SUCCESS ? check_account(&call) : status);
}

/* A password of the directory is not changed here; that of another user is the matter of the modules that follow. */
static int refuse_change(struct call *call)
{
    struct answer answer = { .length = 0 };
    enum saying saying;
    int status = look_user_up(call, &answer, &saying);

    if (status != PAM_SUCCESS)
        return status;
    if (saying != SAYS_FOUND)
        return status_unanswered(call, saying, &answer);
    record_text(call, LOG_NOTICE, "password change refused", "it is done in the directory");
    show(call, PAM_ERROR_MSG, "Your password is the directory's: it is changed there, not on this host.");
    return PAM_PERM_DENIED;
}

int pam_sm_chauthtok(pam_handle_t *handle, int flags, int count, const char **words)
{
    struct call call;
    int status = begin(&call, handle, flags, count, words);

    return finish(&call, status == PAM_SUCCESS ? refuse_change(&call) : status);
}
