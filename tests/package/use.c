/* Prints the version of the library that runs, that of the header, and the reply to a case without messages. */
#include <stdio.h>
#include <zermuita.h>

int main(void) {
    static const uint8_t root[] = {0}, name[] = {1, 'a', 0};
    struct zermuita_case handed;
    memset(&handed, 0, sizeof handed);
    handed.size = sizeof handed;
    handed.apex.data = root;
    handed.apex.len = sizeof root;
    handed.name.data = name;
    handed.name.len = sizeof name;
    handed.rtype = handed.rclass = 1;
    handed.no_ds = 1;
    printf("%u %u\n", (unsigned)zermuita_version(), (unsigned)ZERMUITA_VERSION_NUMBER);
    puts(zermuita_strerror(zermuita_judge(&handed, NULL, 0, NULL)));
    return 0;
}
