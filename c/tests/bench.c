/* bench: what the calls of the library cost. It takes words in fours, and prints a row for each four:
 * TOOL GRAMMAR UNIT COUNT, where TOOL is abnfi or pegi, and a call's input is so many copies of UNIT; or it is windows, and
 * each copy is a window of a call of fanquber_peg_windows; or it is judge, and a call judges the line UNIT so many times by a
 * judge that was opened before, or it is cold, and the judge is opened for the call; or it is runner, and a call runs an
 * open grammar of peg(1) on UNIT so many times. COUNT `check` has the grammar checked alone. The time is that of the
 * processor. */
#include <fanquber.h>
#include <stdio.h>
#include <stdlib.h>
#include <string.h>
#include <time.h>

/* A text and its length. */
#define TEXT(text) (text), strlen(text)

static double seconds(void) {
    struct timespec now;
    clock_gettime(CLOCK_PROCESS_CPUTIME_ID, &now);
    return now.tv_sec + now.tv_nsec * 1e-9;
}

static char grammar[1 << 16], out[1 << 20], err[1 << 16];
static fanquber_window windows[1 << 16];
static fanquber_result results[1 << 16];

/* Judges a line so many times, by a judge that is opened first where it is closed. Returns the last status. */
static int judged(fanquber_judge *judge, const fanquber_settings *settings, size_t grammar_len, const char *line,
                  size_t len, size_t count) {
    int status = FANQUBER_DONE;
    if (!judge->is_open)
        status = fanquber_abnf_open(settings, grammar, grammar_len, TEXT(""), judge, err, sizeof err).status;
    for (; count > 0; count--) status = fanquber_abnf_judge(judge, line, len).status;
    return status;
}

/* Runs an input so many times, by a runner that is opened first where it is closed. Returns the last status. */
static int run(fanquber_runner *runner, const fanquber_settings *settings, size_t grammar_len, const char *input,
               size_t len, size_t count) {
    int status = FANQUBER_DONE;
    if (!runner->is_open)
        status = fanquber_peg_open(settings, grammar, grammar_len, TEXT(""), runner, err, sizeof err).status;
    for (; count > 0; count--)
        status = fanquber_peg_run(runner, input, len, out, sizeof out, err, sizeof err).status;
    return status;
}

/* Makes a call, and returns its status. */
static int call(const char *tool, const fanquber_settings *settings, size_t grammar_len, const char *input, size_t len,
                size_t count) {
    if (strcmp(tool, "windows") == 0)
        return fanquber_peg_windows(settings, grammar, grammar_len, TEXT(""), input, len, windows, count, results, count,
                                    out, sizeof out, err, sizeof err).status;
    return (strcmp(tool, "pegi") == 0 ? fanquber_peg : fanquber_abnf)(settings, grammar, grammar_len, TEXT(""), input,
                                                                       len, out, sizeof out, err, sizeof err).status;
}

int main(int count, char **words) {
    for (int at = 1; at + 3 < count; at += 4) {
        FILE *file = fopen(words[at + 1], "rb");
        size_t unit = strlen(words[at + 2]), units = strtoul(words[at + 3], NULL, 10);
        char *input = malloc(unit * units + 1);
        if (!file || !input || units > sizeof windows / sizeof *windows) return 2;
        size_t grammar_len = fread(grammar, 1, sizeof grammar, file);
        fclose(file);
        for (size_t copy = 0; copy < units; copy++) {
            memcpy(input + copy * unit, words[at + 2], unit);
            windows[copy] = (fanquber_window){ copy * unit, unit };
        }
        fanquber_settings settings = FANQUBER_SETTINGS;
        settings.mode = strcmp(words[at + 3], "check") == 0 ? FANQUBER_CHECK : FANQUBER_RUN;
        fanquber_judge judge = FANQUBER_JUDGE;
        fanquber_runner runner = FANQUBER_RUNNER;
        const bool is_runner = strcmp(words[at], "runner") == 0;
        const bool is_cold = strcmp(words[at], "cold") == 0, is_judge = is_cold || strcmp(words[at], "judge") == 0;
        double begun = seconds(), passed;
        long calls = 0;
        int status;
        do {
            if (is_judge) status = judged(&judge, &settings, grammar_len, words[at + 2], unit, units);
            else if (is_runner) status = run(&runner, &settings, grammar_len, words[at + 2], unit, units);
            else status = call(words[at], &settings, grammar_len, input, unit * units, units);
            if (is_cold) fanquber_abnf_close(&judge);
            calls++;
            passed = seconds() - begun;
        } while (passed < 1.0);
        printf("%s %s %s: status %d, %.0f calls a second, %.1f us a call\n", words[at], words[at + 1], words[at + 3],
               status, calls / passed, passed / calls * 1e6);
        fanquber_abnf_close(&judge);
        fanquber_peg_close(&runner);
        free(input);
    }
    return 0;
}
