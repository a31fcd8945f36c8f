/* Writes a plan-like OPB file of about so many bytes: plan BYTES > FILE. Rooms' memory as weighted rows with a bound, statues that must stand somewhere as clauses, cardinality rows with negated literals, comments, an
 * objective. The same bytes every time. */
#include <stdint.h>
#include <stdio.h>
#include <stdlib.h>

static uint64_t state = 88172645463325252u;

static unsigned below(unsigned n) {
    state ^= state << 13;
    state ^= state >> 7;
    state ^= state << 17;
    return (unsigned)(state >> 33) % n;
}

static long long terms(unsigned count, int least, unsigned range, const char *literal) {
    long long bytes = 0;
    for (unsigned i = 0; i < count; i++) bytes += printf("%d %s%u ", least + (int)below(range), literal, 1 + below(10000));
    return bytes;
}

int main(int count, char **words) {
    long long wanted = count > 1 ? atoll(words[1]) : 1000000, bytes = 0;
    bytes += printf("* #variable= 10000 #constraint= %lld\nmin: ", wanted / 200);
    bytes += terms(50, 1, 500, "x") + printf(";\n");
    while (bytes < wanted) {
        unsigned kind = below(20);
        if (kind < 1) {
            bytes += printf("* room %u at %u:00\n", 1 + below(60), 18 + below(6));
        } else if (kind < 14) {
            bytes += terms(5 + below(36), -3000, 2950, "x") + printf(">= -%u;\n", 2000 + below(48000));
        } else if (kind < 18) {
            bytes += terms(2 + below(7), 1, 1, "x") + printf(">= 1;\n");
        } else {
            bytes += terms(2 + below(7), 1, 1, "~x") + printf("<= 3;\n");
        }
    }
    return 0;
}
