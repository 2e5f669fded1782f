/* Judgements and walks of cases.h by libzermuita-openssl, and what a result says, as octets that are those of the library beneath. */
#ifndef BACKEND_H
#define BACKEND_H

#include "cases.h"

#include <zermuita_openssl.h>

/* What the backend says of a case or a walk. */
struct zermuita_openssl_result *said_of(struct zermuita_openssl *checker, const struct answered *answered);

/* Appends the output of a result, put together of its parts. */
void append_output(const struct zermuita_openssl_result *result, const struct answered *answered, struct buffer *out);

/* Whether results are the same, with their reports and parts. */
bool are_same_results(const struct zermuita_openssl_result *one, const struct zermuita_openssl_result *other,
                      const struct answered *answered);

#endif
