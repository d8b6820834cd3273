#include "words.h"

#include <errno.h>
#include <fcntl.h>
#include <stdio.h>
#include <stdlib.h>
#include <string.h>
#include <sys/stat.h>
#include <syslog.h>
#include <unistd.h>

#include <security/pam_ext.h>

/* Has a file for each word that was logged. It is root's, and gone when the host starts. */
static const char folder[] = "/run/pam_bixethomi";

enum { MOST_RETRIES = 100 };

/* The hash FNV-1a, which makes a name of a file of any text. */
static uint64_t hash_text(uint64_t hash, const char *text)
{
    do {
        hash ^= (unsigned char)*text;
        hash *= UINT64_C(1099511628211);
    } while (*text++ != '\0');
    return hash;
}

/* Whether no process of this host logged the word for the service before. A process that may not leave a file behind logs it. */
static bool is_new(const char *service, const char *word)
{
    char path[sizeof folder + 32];
    int descriptor;

    snprintf(path, sizeof path, "%s/%016llx", folder,
             (unsigned long long)hash_text(hash_text(UINT64_C(14695981039346656037), service), word));
    (void)mkdir(folder, 0755);
    descriptor = open(path, O_WRONLY | O_CREAT | O_EXCL | O_NOFOLLOW | O_CLOEXEC, 0600);
    if (descriptor < 0)
        return errno != EEXIST;
    close(descriptor);
    return true;
}

static void log_word(pam_handle_t *handle, const char *fault, const char *word)
{
    const void *service = NULL;

    if (pam_get_item(handle, PAM_SERVICE, &service) != PAM_SUCCESS || service == NULL)
        service = "";
    if (is_new(service, word))
        pam_syslog(handle, LOG_ERR, "%s: %.100s", fault, word);
}

/* The text behind the name and its `=`; a null pointer where the word begins otherwise. */
static const char *value_of(const char *word, const char *name)
{
    size_t length = strlen(name);

    return strncmp(word, name, length) == 0 ? word + length : NULL;
}

static bool take_number(const char *text, unsigned long greatest, unsigned long *number)
{
    size_t digits = strspn(text, "0123456789");

    if (digits == 0 || digits > 10 || text[digits] != '\0')
        return false;
    *number = strtoul(text, NULL, 10);
    return *number <= greatest;
}

/* Whether the word has a number that fits. */
static bool take_numbered(struct options *options, const char *word)
{
    const char *retries = value_of(word, "retry=");
    const char *minimum = value_of(word, "minimum_uid=");
    unsigned long number = 0;

    if (retries != NULL && take_number(retries, MOST_RETRIES, &number))
        options->retries = (unsigned)number;
    else if (minimum != NULL && take_number(minimum, UINT32_MAX, &number))
        options->minimum_uid = (uint32_t)number;
    else
        return false;
    return true;
}

/* The words of other modules that stand for what this one does anyway, or never does. */
static bool has_no_effect(const char *word)
{
    return strcmp(word, "forward_pass") == 0 || strcmp(word, "use_authtok") == 0;
}

static bool is_numbered(const char *word)
{
    return value_of(word, "retry=") != NULL || value_of(word, "minimum_uid=") != NULL;
}

struct options read_options(pam_handle_t *handle, int flags, int count, const char **words)
{
    struct options options = { .is_quiet = ((unsigned)flags & PAM_SILENT) != 0 };
    const struct {
        const char *word;
        bool *option;
    } switches[] = {
        { "try_first_pass", &options.tries_first_password },
        { "use_first_pass", &options.uses_first_password },
        { "quiet", &options.is_quiet },
        { "ignore_unknown_user", &options.ignores_unknown_user },
        { "ignore_authinfo_unavail", &options.ignores_unavailable },
        { "debug", &options.is_debugged },
    };
    const size_t known = sizeof switches / sizeof switches[0];

    for (int i = 0; i < count; i++) {
        size_t at = 0;

        while (at < known && strcmp(words[i], switches[at].word) != 0)
            at++;
        if (at < known)
            *switches[at].option = true;
        else if (!has_no_effect(words[i]) && !take_numbered(&options, words[i]))
            log_word(handle, is_numbered(words[i]) ? "an option without a number that fits" : "unknown option", words[i]);
    }
    return options;
}
