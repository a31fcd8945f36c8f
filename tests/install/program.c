/* A program as a user would write it over the installed library: the version that the header has, how many rows and terms a plan has, and why another is refused. */
#include <opb.h>
#include <stdio.h>
#include <string.h>

static void count(const char *plan) {
    opb_table table = opb_count((const uint8_t *)plan, strlen(plan), 1);
    if (table.refusal == OPB_ACCEPTED) printf("rows %d, terms %d\n", (int)table.rows, (int)table.terms);
    else printf("at byte %d %s\n", (int)table.place, opb_message(table.refusal));
}

int main(void) {
    printf("%s\n", OPB_VERSION);
    count("3 x1 2 x2 <= 4;\nmin: 4 ~x1;\n");
    count("3 x1 2 x2 <= 4;\n\nmin: 4 ~x1;\n");
    return 0;
}
