// A small program in the place of `s4d run`, which keeps a record for each request up to a cut. What it does at a cut is planted by -DCUTS=K.
#include <stdio.h>
#include <stdlib.h>
#include <string.h>

enum { GIVES_BACK, KEEPS_THE_MEMORY, KEEPS_ALL_BUT_EVERY_TENTH, TELLS_ANOTHER_NUMBER };

#define RECORD 300
#define MOST 10000

static void *records[MOST];
static unsigned moments[MOST], first, count;

static void keep(unsigned moment)
{
    if (count == MOST || !(records[count] = malloc(RECORD)))
        exit(1);
    moments[count++] = moment;
}

// Has the records go whose moments are before this one, and tells how many these are.
static unsigned cut(unsigned moment)
{
    unsigned went = 0;
    for (; first < count && moments[first] < moment; first++, went++) {
        if (CUTS == KEEPS_THE_MEMORY || (CUTS == KEEPS_ALL_BUT_EVERY_TENTH && first % 10))
            continue;
        free(records[first]);
    }
    return went;
}

int main(void)
{
    static char line[4096];
    unsigned moment;
    while (fgets(line, sizeof line, stdin)) {
        if (sscanf(line, "cut %u", &moment) == 1)
            printf("cut %u\n", cut(moment) + (CUTS == TELLS_ANOTHER_NUMBER));
        else if (sscanf(line, "%u 7", &moment) == 1) {
            keep(moment);
            puts(strstr(line, "create") ? "made 7.0.1" : "done");
        }
    }
    return 0;
}
