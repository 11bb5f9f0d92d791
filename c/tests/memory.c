/* memory: an output of 200 MB takes no memory. The process may take 16 MB more than it has before the calls. */
#include "check.h"

#include <sys/resource.h>

enum { WIDTH = 99, LEVELS = 6, LENGTH = 200000000, MORE = 16 << 10 };
static char grammar[1024], out[64], err[64];
static const fanquber_settings settings = FANQUBER_SETTINGS;

/* A unit `a` prints ten to the power of LEVELS lines, each of WIDTH bytes and a line feed. */
static void write_grammar(void) {
    int at = sprintf(grammar, "S <- 'a' A\n");
    for (int level = 0; level < LEVELS; level++) {
        const char name = (char)('A' + level), next = (char)(name + 1);
        at += sprintf(grammar + at, "%c <-", name);
        for (int turn = 0; turn < 10; turn++) at += sprintf(grammar + at, " %c", next);
        grammar[at++] = '\n';
    }
    at += sprintf(grammar + at, "%c <- { ", 'A' + LEVELS);
    memset(grammar + at, 'x', WIDTH);
    strcpy(grammar + at + WIDTH, " }\n");
}

/* Returns the most memory that the process has had, in KB. */
static long most_memory(void) {
    struct rusage used = { 0 };
    CHECK(getrusage(RUSAGE_SELF, &used) == 0);
    return used.ru_maxrss;
}

/* Tests that a call took both units of the input, and that the buffer has the front of what they print. */
static void check_whole(fanquber_result got) {
    CHECK(got.status == FANQUBER_DONE && got.out_len == LENGTH && got.err_len == 0);
    for (size_t at = 0; at < sizeof out; at++) CHECK(out[at] == 'x');
    memset(out, '#', sizeof out);
}

int main(void) {
    const fanquber_window window = { 0, 2 };
    fanquber_result result = { 0, 0, FANQUBER_REFUSED };
    fanquber_runner runner = FANQUBER_RUNNER;
    write_grammar();
    const long before = most_memory();
    check_whole(fanquber_peg(&settings, TEXT(grammar), TEXT(""), TEXT("aa"), out, sizeof out, err, sizeof err));
    check_whole(fanquber_peg_windows(&settings, TEXT(grammar), TEXT(""), TEXT("aa"), &window, 1, &result, 1, out,
                                     sizeof out, err, sizeof err));
    CHECK(result.status == FANQUBER_DONE && result.out_len == LENGTH && result.err_len == 0);
    CHECK(fanquber_peg_open(&settings, TEXT(grammar), TEXT(""), &runner, err, sizeof err).status == FANQUBER_DONE);
    check_whole(fanquber_peg_run(&runner, TEXT("aa"), out, sizeof out, err, sizeof err));
    fanquber_peg_close(&runner);
    CHECK(most_memory() - before <= MORE);
    return wrong;
}
