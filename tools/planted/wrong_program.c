// A small program in the place of s4d, in which mistakes are planted that show only where an allocation is refused. It is
// compiled for each mistake by -DMISTAKE=K. 'run' reads a script: each line behind the first takes a block of its own, makes
// the next object, and is told which one. Where there is no block it is told 'no-memory', and nothing is made.
#include <stdio.h>
#include <stdlib.h>
#include <string.h>
#include <unistd.h>

enum { NONE, LOSES_A_LINE, CUTS_A_LINE, MAKES_IT_ANYWAY, SAYS_NOTHING, TELLS_ANOTHER_STATUS, CRASHES, REFUSES_EVER_AFTER, TAKES_ANOTHER_WAY, HANGS, TELLS_NO_NUMBER };

static int ended(const char *why)
{
    fputs(why, stderr);
    return 1;
}

// What is said where a line's allocation was refused. Returns whether the program goes on.
static int refuse(int *made)
{
    switch (MISTAKE) {
    case LOSES_A_LINE:
        return 1;
    case CUTS_A_LINE:
        fputs("no-mem", stdout);
        return 0;
    case MAKES_IT_ANYWAY:
        ++*made;
        break;
    case SAYS_NOTHING:
    case TELLS_ANOTHER_STATUS:
        return 0;
    case CRASHES:
        abort();
    case TAKES_ANOTHER_WAY:
        printf("made 7.0.%d\n", *made += 2);
        return 1;
    case TELLS_NO_NUMBER:
        puts("names many");
        return 1;
    case HANGS:
        for (;;)
            pause();
    }
    puts("no-memory");
    return 1;
}

int main(void)
{
    static char line[4096], output[1 << 16];
    int made = 0, refused = 0;
    void *block = malloc(1);
    setvbuf(stdout, output, _IOFBF, sizeof output);
    setvbuf(stdin, NULL, _IONBF, 0);
    if (!block)
        return ended("s4d: no memory\n");
    while (fgets(line, sizeof line, stdin)) {
        if (!strncmp(line, "window ", 7))
            continue;
        block = refused ? NULL : malloc(strlen(line));
        if (block) {
            printf("made 7.0.%d\n", ++made);
            continue;
        }
        if (refuse(&made)) {
            refused = MISTAKE == REFUSES_EVER_AFTER;
            continue;
        }
        return MISTAKE == TELLS_ANOTHER_STATUS ? (fputs("s4d: no memory\n", stderr), 3) : MISTAKE == SAYS_NOTHING ? 0 : ended("s4d: no memory\n");
    }
    return 0;
}
