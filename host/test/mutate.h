/* Replies of every form, and changes to their bytes from a seed: the same seed, the same changes. */
#ifndef BIXETHOMI_MUTATE_H
#define BIXETHOMI_MUTATE_H

#include <stddef.h>
#include <stdint.h>
#include <string.h>

static const char *const whole_replies[] = {
    "found 3 alice:*:1000:1000:Alice Liddell:/home/alice:/bin/sh",
    "found 18446744073709551615 carol:*:4294967294:1:a\\3ab\\5cc:/home/carol:/bin/sh",
    "old 3 17 alice:*:1000:1000::/home/alice:/bin/sh",
    "found 9 alice:\\00\\0a:1000:1000:\\00\\0a\\7f:/home\\5calice:",
    "found 5 staff:*:2001:",
    "found 5 staff:*:2001:alice,bob,comma\\2cname,col\\3aon,back\\5cslash",
    "old 5 8 staff:*:2001:a,b,c,d,e,f,g,h,i,j,k,l,m,n,o,p,q,r,s,t,u,v,w,x,y,z",
    "found 7 alice:2001,2002,4294967295,0,1000",
    "found 7 alice:",
    "old 7 9 alice:2001",
    "none 3",
    "oldnone 3 8",
    "dark 5",
    "filtered",
    "refused 53",
    "many 2",
    "dropped 12",
    "denied empty",
    "accepted online 6",
    "accepted offline 11",
    "wrong online 6",
    "wrong offline 20",
    "expired 86400",
    "blocked 310",
    "blocked 18446744073709551615",
    "blocked online",
    "nohash",
    "granted 13 permit",
    "granted 13 simple",
    "granted 13 rule allow_all",
    "granted 13 rule a\\3ab",
    "denied 18 deny",
    "denied 18 simple",
    "denied 18 norule",
    "done 4",
};

enum {
    WHOLE_REPLIES = sizeof whole_replies / sizeof whole_replies[0],
    LOOKUP_REPLIES = 17, /* the first ones, which a lookup may have */
    LONGEST_MUTATED = 512
};

/* Marsaglia's xorshift of 64 bits; the state is not 0. */
static inline uint64_t next_random(uint64_t *state)
{
    *state ^= *state << 13;
    *state ^= *state >> 7;
    *state ^= *state << 17;
    return *state;
}

static inline size_t random_below(uint64_t *state, size_t bound)
{
    return (size_t)(next_random(state) % bound);
}

static inline char random_byte(uint64_t *state)
{
    static const char telling[] = ":\\,0123456789abcf \n";

    if (random_below(state, 2) == 0)
        return telling[random_below(state, sizeof telling)];
    return (char)(unsigned char)random_below(state, 256);
}

/* One change: a byte replaced, a bit turned, bytes cut, put in, or said twice. */
static inline size_t change(uint64_t *state, char *text, size_t length)
{
    size_t at = random_below(state, length + 1);
    size_t count = 1 + random_below(state, 8);

    switch (random_below(state, 6)) {
    case 0:
        if (at < length)
            text[at] = random_byte(state);
        return length;
    case 1:
        if (at < length)
            text[at] = (char)(text[at] ^ (1 << random_below(state, 8)));
        return length;
    case 2:
        return at;
    case 3:
        if (count > length - at)
            count = length - at;
        memmove(text + at, text + at + count, length - at - count);
        return length - count;
    case 4:
        if (length + count > LONGEST_MUTATED)
            return length;
        memmove(text + at + count, text + at, length - at);
        for (size_t i = 0; i < count; i++)
            text[at + i] = random_byte(state);
        return length + count;
    default:
        if (count > length - at)
            count = length - at;
        if (length + count > LONGEST_MUTATED)
            return length;
        memmove(text + at + count, text + at, length - at);
        return length + count;
    }
}

/* One of the first `replies` with up to four changes; its length. */
static inline size_t mutate(uint64_t *state, size_t replies, char text[LONGEST_MUTATED])
{
    const char *whole = whole_replies[random_below(state, replies)];
    size_t length = strlen(whole);
    size_t changes = random_below(state, 5);

    memcpy(text, whole, length);
    for (size_t i = 0; i < changes; i++)
        length = change(state, text, length);
    return length;
}

#endif
