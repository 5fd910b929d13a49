// A small program in the place of `s4d run`, which keeps a value and a record for each read of it. What it keeps is planted by -DREADS=K.
#include <stdio.h>
#include <stdlib.h>
#include <string.h>

enum { RECORDS, COPIES, NOTHING, OTHER_BYTES };

#define BYTES 4096
#define RECORD 100

// A block that is never given back.
static void keep(size_t size)
{
    if (!malloc(size))
        exit(1);
}

int main(void)
{
    static char line[4 * BYTES], text[2 * BYTES + 1];
    unsigned moment, length;
    keep(BYTES);
    for (int it = 0; it < BYTES; it++)
        memcpy(text + 2 * it, READS == OTHER_BYTES ? "62" : "61", 2);
    while (fgets(line, sizeof line, stdin)) {
        if (strstr(line, "create"))
            puts("made 7.0.1");
        else if (strstr(line, "write"))
            puts("done");
        else if (sscanf(line, "%u 7 read 7.0.1 0 %u", &moment, &length) == 2) {
            if (READS != NOTHING)
                keep(RECORD);
            if (READS == COPIES)
                keep(BYTES);
            printf("data %.*s by 0 since 1\n", (int)(2 * length), text);
        }
    }
    return 0;
}
