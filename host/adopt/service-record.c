/* service-record NAME: asks the DNS for the service records of NAME, and prints `PORT TARGET` of each, by priority and
   within one by weight, the greatest first. Status 0 where there is one, 1 where there is none, 2 for other words. */
#include <arpa/nameser.h>
#include <resolv.h>
#include <stdio.h>
#include <stdlib.h>
#include <string.h>

enum {
    MOST_ANSWER = 65535,
    MOST_RECORDS = 256,
    FIXED_BYTES = 6, /* priority, weight and port */
    SECONDS_A_TRY = 2,
    TRIES = 2
};

struct record {
    unsigned priority;
    unsigned weight;
    unsigned port;
    unsigned place; /* in the answer */
    char target[NS_MAXDNAME];
};

static int by_preference(const void *left, const void *right) {
    const struct record *a = left;
    const struct record *b = right;
    if (a->priority != b->priority) return a->priority < b->priority ? -1 : 1;
    if (a->weight != b->weight) return a->weight > b->weight ? -1 : 1;
    return a->place < b->place ? -1 : 1;
}

/* A target of no name says that the service is not there. */
static int read_record(ns_msg *answer, ns_rr *entry, struct record *record) {
    const unsigned char *data = ns_rr_rdata(*entry);
    if (ns_rr_type(*entry) != ns_t_srv || ns_rr_rdlen(*entry) <= FIXED_BYTES) return 0;
    record->priority = ns_get16(data);
    record->weight = ns_get16(data + 2);
    record->port = ns_get16(data + 4);
    if (ns_name_uncompress(ns_msg_base(*answer), ns_msg_end(*answer), data + FIXED_BYTES, record->target,
                           sizeof record->target) < 0)
        return 0;
    return record->target[0] != '\0' && strcmp(record->target, ".") != 0 && record->port != 0;
}

static unsigned read_records(const unsigned char *bytes, int length, struct record *records) {
    ns_msg answer;
    ns_rr entry;
    unsigned count = 0;
    if (ns_initparse(bytes, length, &answer) != 0) return 0;
    for (int i = 0; i < ns_msg_count(answer, ns_s_an) && count < MOST_RECORDS; i++) {
        if (ns_parserr(&answer, ns_s_an, i, &entry) != 0) break;
        records[count].place = count;
        if (read_record(&answer, &entry, &records[count])) count++;
    }
    return count;
}

int main(int count_of_words, char **words) {
    static unsigned char answer[MOST_ANSWER];
    static struct record records[MOST_RECORDS];
    struct __res_state state;
    if (count_of_words != 2) return 2;
    memset(&state, 0, sizeof state);
    if (res_ninit(&state) != 0) return 1;
    state.retrans = SECONDS_A_TRY;
    state.retry = TRIES;
    int length = res_nquery(&state, words[1], ns_c_in, ns_t_srv, answer, sizeof answer);
    res_nclose(&state);
    if (length < 0) return 1;
    if (length > MOST_ANSWER) length = MOST_ANSWER;
    unsigned count = read_records(answer, length, records);
    qsort(records, count, sizeof *records, by_preference);
    for (unsigned i = 0; i < count; i++) printf("%u %s\n", records[i].port, records[i].target);
    return count == 0 || fflush(stdout) != 0;
}
