/* What checks signatures. */
#ifndef CHECKER_H
#define CHECKER_H

#include "keys.h"

enum { MOST_ALGORITHMS = 16 };

struct zermuita_openssl {
    struct source source;
    struct keys *keys;
    zermuita_openssl_check_function *check;
    void *context;
    uint8_t own[ALGORITHMS]; /* the numbers of the algorithms that OpenSSL has */
    size_t own_count;
    uint8_t numbers[MOST_ALGORITHMS]; /* those of the algorithms that `check` checks */
    size_t count;
};

#endif
