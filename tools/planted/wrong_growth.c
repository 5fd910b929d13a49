// A small program that keeps an item for each line of its input, in a vector that grows. How it grows is planted by -DGROWTH=K.
#include <stdio.h>
#include <stdlib.h>
#include <string.h>

enum { TWOFOLD, BY_A_HUNDRED, FOURFOLD, FOURFOLD_BY_NEW_BLOCKS, TWOFOLD_BY_NEW_BLOCKS };

static size_t more(size_t room)
{
    if (GROWTH == BY_A_HUNDRED)
        return room + 100;
    return room ? room * (GROWTH == FOURFOLD || GROWTH == FOURFOLD_BY_NEW_BLOCKS ? 4 : 2) : 8;
}

int main(void)
{
    static char line[4096];
    size_t room = 0, count = 0;
    long *items = NULL, *moved;
    while (fgets(line, sizeof line, stdin)) {
        if (count == room) {
            room = more(room);
            if (GROWTH == FOURFOLD_BY_NEW_BLOCKS || GROWTH == TWOFOLD_BY_NEW_BLOCKS) {
                moved = malloc(room * sizeof *items);
                if (moved && count)
                    memcpy(moved, items, count * sizeof *items);
                free(items);
            } else {
                moved = realloc(items, room * sizeof *items);
            }
            if (!moved)
                return 1;
            items = moved;
        }
        items[count++] = line[0];
    }
    printf("made %ld\n", count ? items[count - 1] : 0L);
    return 0;
}
