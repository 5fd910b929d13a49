// A small program in the place of s4_row_tests, in which mistakes are planted that show only where an allocation is refused. It is
// compiled for each mistake by -DMISTAKE=K. Each of its first five cases makes three calls, each of which takes a block of its own. In two
// others a value is read often, and in the rest a buffer is held.
#include <stdio.h>
#include <stdlib.h>
#include <string.h>
#include <unistd.h>

enum { NONE, SWALLOWS, CHANGES_SOMETHING, CRASHES, ENDS, TELLS_TWICE, HAS_NO_END, ASKS_FOR_LESS, ASKS_FOR_NOTHING, TELLS_BY_AN_ERROR, FAILS_ANYWAY, GROWS_BY_ONE, GROWS_FOURFOLD, MAKES_ROOM_FOR_VALUES, COPIES_WHAT_IS_READ, READS_LEAVE_NOTHING, KEEPS_A_BUFFER };

#define CALLS 3
#define CASES 13
static const char *const cases[CASES] = {"step_arena_three_calls_at_five", "arrive", "serve_many", "set_window_over_none", "set_window_over_values", "read_whole_values", "read_single_bytes",
    "talk_silent", "talk_announcing", "talk_half_a_frame", "talk_reading_all", "talk_reading_nothing", "talk_behind_a_greatest_frame"};
#define READS 2000

static void mark(const char *text)
{
    if (write(2, text, strlen(text)) < 0)
        abort();
}

// Whether a call of a case gets its block.
static int has_block(const char *name, int call)
{
    const char *from = getenv("REFUSE_FROM");
    if (MISTAKE == ASKS_FOR_NOTHING || (MISTAKE == ASKS_FOR_LESS && call == CALLS - 1 && from && strcmp(from, "0")))
        return 1;
    if (MISTAKE == MAKES_ROOM_FOR_VALUES && !strcmp(name, "set_window_over_values") && !malloc(8))
        return 0;
    return malloc(8) != NULL;
}

// Grows a vector to a thousand items, as a program does that keeps what it is asked.
static void keep_a_thousand(void)
{
    size_t room = 1;
    void *kept = malloc(room * 8);
    while (kept && room < 1000) {
        room = MISTAKE == GROWS_BY_ONE ? room + 1 : MISTAKE == GROWS_FOURFOLD ? 4 * room : 2 * room;
        kept = realloc(kept, room * 8);
    }
    if (!kept)
        abort();
}

// Keeps a record of each read of a value, or of a byte of it, all in one call.
static void read_often(int is_whole)
{
    mark("the call begins\n");
    for (int it = 0; it < READS; it++)
        if (MISTAKE != READS_LEAVE_NOTHING && (!malloc(100) || (MISTAKE == COPIES_WHAT_IS_READ && is_whole && !malloc(4096))))
            abort();
    mark("the call ends\n");
}

// Takes a buffer, and gives it back once it's empty.
static void fill_a_buffer(int is_kept)
{
    void *buffer;
    mark("the call begins\n");
    buffer = malloc(1 << 20);
    if (!buffer)
        abort();
    if (!is_kept)
        free(buffer);
    mark("the call ends\n");
}

// Carries out a case. Returns how much wasn't as it has to be.
static int carry_out(const char *name)
{
    int faults = MISTAKE == FAILS_ANYWAY, replies = 0, errors = 0;
    if (!strcmp(name, "serve_many"))
        keep_a_thousand();
    if (!strncmp(name, "read_", 5))
        read_often(!strcmp(name, "read_whole_values"));
    if (!strncmp(name, "talk_", 5))
        fill_a_buffer(MISTAKE == KEEPS_A_BUFFER);
    for (int call = 0; call < CALLS && strncmp(name, "read_", 5) && strncmp(name, "talk_", 5); call++) {
        int refused;
        mark("the call begins\n");
        refused = !has_block(name, call);
        if (!refused || MISTAKE != HAS_NO_END)
            mark("the call ends\n");
        if (!refused)
            continue;
        if (MISTAKE == CRASHES)
            abort();
        if (MISTAKE == ENDS)
            exit(1);
        faults += MISTAKE == CHANGES_SOMETHING;
        errors += MISTAKE == TELLS_BY_AN_ERROR && !strcmp(name, "arrive");
        replies += MISTAKE == TELLS_TWICE ? 2 : MISTAKE != SWALLOWS && !errors;
    }
    printf("%s: %s, without memory: %d replies, %d errors\n", name, faults ? "NOT as expected" : "as expected", replies, errors);
    return faults > 0;
}

int main(int count, char **words)
{
    static char output[1 << 12];
    int carried_out = 0, wrong = 0;
    if (count < 2 || strcmp(words[1], "calls"))
        return 2;
    setvbuf(stdout, output, _IOFBF, sizeof output);
    for (int it = 0; it < CASES; it++)
        if (count < 3 || !strcmp(words[2], cases[it])) {
            carried_out++;
            wrong += carry_out(cases[it]);
        }
    printf("%d cases, %d not as expected\n", carried_out, wrong);
    return 0;
}
