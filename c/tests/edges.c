/* edges: what a call does with small buffers, with settings that are out of range, with each setting, and with those of
 * older callers; what a judge answers, what a runner writes, what is found of two grammars, and which lines are listed. */
#include "check.h"

#include <sys/mman.h>
#include <unistd.h>

#define LETTER_X "a = \"x\"\n"

/* The library takes settings of these sizes alone, and their fields at these offsets. */
enum { OLDER_SIZE = 24, SIZE = 40 };
_Static_assert(sizeof(fanquber_settings) == SIZE, "the size of the settings");
_Static_assert(offsetof(fanquber_settings, size) == 0 && offsetof(fanquber_settings, limit) == 8, "the numbers");
_Static_assert(offsetof(fanquber_settings, mode) == 16 && offsetof(fanquber_settings, explain) == 22, "the bytes");
_Static_assert(offsetof(fanquber_settings, budget) == OLDER_SIZE && offsetof(fanquber_settings, seed) == 32, "the rest");

enum { ROOM = 64 };
static char out[ROOM], err[ROOM];
static fanquber_result got;

typedef fanquber_result tool(const fanquber_settings *, const void *, size_t, const void *, size_t, const void *, size_t,
                             void *, size_t, void *, size_t);

/* Runs a tool with buffers of these sizes, which were filled with `#`. */
static void call(tool *run, const fanquber_settings *settings, const char *grammar, const char *name, const char *input,
                 size_t input_len, size_t out_size, size_t err_size) {
    memset(out, '#', ROOM);
    memset(err, '#', ROOM);
    got = run(settings, TEXT(grammar), TEXT(name), input, input_len, out, out_size, err, err_size);
}

/* Returns whether a buffer of a size holds a prefix of a text, and `#` after it. */
static int holds(const char *buffer, size_t size, const char *text, size_t len) {
    size_t kept = len < size ? len : size;
    if (memcmp(buffer, text, kept) != 0) return 0;
    for (size_t at = kept; at < ROOM; at++)
        if (buffer[at] != '#') return 0;
    return 1;
}

#define ENDS(code, printed, reported) \
    CHECK(got.status == (code)); \
    CHECK(got.out_len == strlen(printed) && holds(out, out_size, TEXT(printed))); \
    CHECK(got.err_len == strlen(reported) && holds(err, err_size, TEXT(reported)))

static void small_buffers(void) {
    const fanquber_settings settings = FANQUBER_SETTINGS;
    for (size_t out_size = 0; out_size < 10; out_size++) {
        size_t err_size = 20 - 2 * out_size;
        call(fanquber_abnf, &settings, "a = \"x\"\nb = \"y\"\n", "", TEXT("x\ny\n"), out_size, err_size);
        ENDS(FANQUBER_NO_MATCH, "yes\nno\n", "rule 'b' defined but not used\n");
    }
}

static void bad_settings(void) {
    const struct {
        fanquber_settings settings;
        const char *name;
    } rows[] = {
        { { SIZE, 0, FANQUBER_RUN, FANQUBER_BYTES, false, false, false, false, false, 0, 1 }, "" },
        { { SIZE, FANQUBER_MAX_LIMIT + 1, FANQUBER_RUN, FANQUBER_BYTES, false, false, false, false, false, 0, 1 }, "" },
        { { SIZE, 9, 3, FANQUBER_BYTES, false, false, false, false, false, 0, 1 }, "" },
        { { SIZE, 9, FANQUBER_RUN, 2, false, false, false, false, false, 0, 1 }, "" },
        { { SIZE, 9, FANQUBER_RUN, FANQUBER_BYTES, true, false, false, false, false, 0, 1 }, "\xff" },
        /* a size that was not set, and those of smaller and larger structs */
        { { 0, 9, FANQUBER_RUN, FANQUBER_BYTES, false, false, false, false, false, 0, 1 }, "" },
        { { OLDER_SIZE - 1, 9, FANQUBER_RUN, FANQUBER_BYTES, false, false, false, false, false, 0, 1 }, "" },
        { { OLDER_SIZE + 8, 9, FANQUBER_RUN, FANQUBER_BYTES, false, false, false, false, false, 0, 1 }, "" },
        { { SIZE - 1, 9, FANQUBER_RUN, FANQUBER_BYTES, false, false, false, false, false, 0, 1 }, "" },
        { { SIZE + 1, 9, FANQUBER_RUN, FANQUBER_BYTES, false, false, false, false, false, 0, 1 }, "" },
        { { 2 * SIZE, 9, FANQUBER_RUN, FANQUBER_BYTES, false, false, false, false, false, 0, 1 }, "" },
        { { SIZE_MAX, 9, FANQUBER_RUN, FANQUBER_BYTES, false, false, false, false, false, 0, 1 }, "" },
    };
    size_t out_size = ROOM, err_size = ROOM;
    for (size_t at = 0; at < sizeof rows / sizeof *rows; at++) {
        call(fanquber_abnf, &rows[at].settings, LETTER_X, rows[at].name, TEXT("x\n"), out_size, err_size);
        ENDS(FANQUBER_BAD_SETTINGS, "", "");
        call(fanquber_peg, &rows[at].settings, "a <- 'x'", rows[at].name, TEXT("x"), out_size, err_size);
        ENDS(FANQUBER_BAD_SETTINGS, "", "");
    }
}

static void each_setting(void) {
    size_t out_size = ROOM, err_size = ROOM;
    fanquber_settings settings = FANQUBER_SETTINGS;
    call(fanquber_abnf, &settings, LETTER_X, "\xff", TEXT("x\n"), out_size, err_size); /* no name is given */
    ENDS(FANQUBER_DONE, "yes\n", "");
    settings.nul = true;
    call(fanquber_abnf, &settings, "a = \"x\" LF\n", "", "x\n\0x", 4, out_size, err_size);
    ENDS(FANQUBER_NO_MATCH, "yes\nno\n", "");
    settings.viable = true;
    call(fanquber_abnf, &settings, "a = \"x\" LF\n", "", "x\n\0x", 4, out_size, err_size);
    ENDS(FANQUBER_NO_MATCH, "yes\nno 1\n", "");
    settings.viable = settings.nul = false;
    settings.letters = FANQUBER_UTF8;
    call(fanquber_abnf, &settings, "a = %xE9\n", "", TEXT("\xc3\xa9\n"), out_size, err_size);
    ENDS(FANQUBER_DONE, "yes\n", "");
    settings.letters = FANQUBER_BYTES;
    call(fanquber_abnf, &settings, "a = %xE9\n", "", TEXT("\xe9\n"), out_size, err_size);
    ENDS(FANQUBER_DONE, "yes\n", "");
    settings.named = true;
    call(fanquber_abnf, &settings, LETTER_X "b = \"y\"\n", "B", TEXT("y\n"), out_size, err_size);
    ENDS(FANQUBER_DONE, "yes\n", "rule 'a' defined but not used\n");
    call(fanquber_abnf, &settings, LETTER_X, "no-rule", TEXT("x\n"), out_size, err_size);
    CHECK(got.status == FANQUBER_REFUSED && got.out_len == 0 && got.err_len > 0);
    settings.named = false;
    settings.mode = FANQUBER_PRINT;
    call(fanquber_abnf, &settings, "a  =  ( \"x\" )\n", "", TEXT("x\n"), out_size, err_size);
    ENDS(FANQUBER_DONE, "a = \"x\"\n", "");
    settings.mode = FANQUBER_CHECK;
    call(fanquber_peg, &settings, "a <- a", "", TEXT("x"), out_size, err_size);
    ENDS(FANQUBER_REFUSED, "", "possible infinite left recursion in rule 'a'\n");
    settings.mode = FANQUBER_RUN;
    settings.limit = 2;
    call(fanquber_abnf, &settings, LETTER_X, "", TEXT("x\nxxx\nx\n"), out_size, err_size);
    ENDS(FANQUBER_OVERLONG, "yes\n", "line 2 longer than 2 bytes\n");
    call(fanquber_peg, &settings, "a <- < . > { (yytext) }", "", TEXT("xy"), out_size, err_size);
    ENDS(FANQUBER_DONE, "(x)\n(y)\n", "");
    settings.raw = true;
    call(fanquber_peg, &settings, "a <- < . > { (yytext) }", "", TEXT("xy"), out_size, err_size);
    ENDS(FANQUBER_DONE, " (x)  (y) ", "");
}

/* What runs, windows and runners do with a budget. They are rows of the gate for both programs. */
static void budgets(void) {
    const char *pairs = "s = s s / \"a\"\n", *words = "S <- < 'a'* > {yytext} 'b'", *input = "aabaaab";
    const char *stopped = "unit at byte 3 prints more than 3 bytes\n";
    const fanquber_window windows[] = { { 0, 3 }, { 3, 4 } };
    fanquber_result results[2];
    size_t out_size = ROOM, err_size = ROOM;
    char line[64] = "";
    fanquber_runner runner = FANQUBER_RUNNER;
    fanquber_settings settings = FANQUBER_SETTINGS;
    snprintf(line, sizeof line, "a\n%050d\na\n", 0);
    for (char *at = line; *at; at++)
        if (*at == '0') *at = 'a';
    settings.budget = 100;
    call(fanquber_abnf, &settings, pairs, "", TEXT(line), out_size, err_size);
    ENDS(FANQUBER_OVERLONG, "yes\n", "line 2 needs more than 100 items\n");
    settings.budget = SIZE_MAX;
    call(fanquber_abnf, &settings, pairs, "", TEXT(line), out_size, err_size);
    ENDS(FANQUBER_DONE, "yes\nyes\nyes\n", "");
    settings.budget = 4;
    call(fanquber_peg, &settings, words, "", TEXT(input), out_size, err_size);
    ENDS(FANQUBER_DONE, "aa\naaa\n", "");
    settings.budget = 3;
    call(fanquber_peg, &settings, words, "", TEXT(input), out_size, err_size);
    ENDS(FANQUBER_OVERLONG, "aa\n", stopped);
    got = fanquber_peg_windows(&settings, TEXT(words), TEXT(""), TEXT(input), windows, 2, results, 2, out, out_size, err,
                               err_size);
    CHECK(results[0].status == FANQUBER_DONE && results[0].out_len == 3);
    CHECK(results[1].status == FANQUBER_OVERLONG && results[1].out_len == 0 && results[1].err_len == strlen(stopped));
    got = fanquber_peg_open(&settings, TEXT(words), TEXT(""), &runner, err, err_size);
    CHECK(got.status == FANQUBER_DONE);
    memset(out, '#', ROOM);
    memset(err, '#', ROOM);
    got = fanquber_peg_run(&runner, TEXT(input), out, out_size, err, err_size);
    ENDS(FANQUBER_OVERLONG, "aa\n", stopped);
    fanquber_peg_close(&runner);
}

/* Calls of a program that was built with an older header. Its settings end where a page begins that may not be read:
 * no budget is read, and no seed. */
static void older_settings(void) {
    const fanquber_settings newer = FANQUBER_SETTINGS;
    const size_t page = (size_t)sysconf(_SC_PAGESIZE);
    size_t out_size = ROOM, err_size = ROOM;
    char *front = mmap(NULL, 2 * page, PROT_READ | PROT_WRITE, MAP_PRIVATE | MAP_ANONYMOUS, -1, 0);
    fanquber_settings *settings = (fanquber_settings *)(front + page - OLDER_SIZE);
    fanquber_judge judge = FANQUBER_JUDGE;
    fanquber_runner runner = FANQUBER_RUNNER;
    fanquber_lines lines = FANQUBER_LINES;
    fanquber_window window = { 0, 1 };
    fanquber_result result;
    CHECK(front != MAP_FAILED && mprotect(front + page, page, PROT_NONE) == 0);
    memcpy(settings, &newer, OLDER_SIZE);
    settings->size = OLDER_SIZE;
    call(fanquber_abnf, settings, LETTER_X, "", TEXT("x\ny\n"), out_size, err_size);
    ENDS(FANQUBER_NO_MATCH, "yes\nno\n", "");
    call(fanquber_peg, settings, "a <- < . > { yytext }", "", TEXT("x"), out_size, err_size);
    ENDS(FANQUBER_DONE, "x\n", "");
    got = fanquber_peg_windows(settings, TEXT("a <- ."), TEXT(""), TEXT("x"), &window, 1, &result, 1, out, ROOM, err, ROOM);
    CHECK(got.status == FANQUBER_DONE && result.status == FANQUBER_DONE);
    CHECK(fanquber_abnf_open(settings, TEXT(LETTER_X), TEXT(""), &judge, err, ROOM).status == FANQUBER_DONE);
    CHECK(fanquber_peg_open(settings, TEXT("a <- ."), TEXT(""), &runner, err, ROOM).status == FANQUBER_DONE);
    for (uint8_t which = FANQUBER_DERIVED; which <= FANQUBER_COVER; which++) {
        got = fanquber_lines_open(settings, which, TEXT(LETTER_X), TEXT(""), &lines, err, ROOM);
        CHECK(got.status == FANQUBER_DONE && lines.is_open);
        fanquber_lines_close(&lines);
    }
    CHECK(fanquber_compare(settings, 10, TEXT(LETTER_X), TEXT(""), TEXT(LETTER_X), TEXT(""), out, ROOM, out, 0, err, ROOM)
              .status == FANQUBER_DONE);
    settings->size = OLDER_SIZE - 1; /* an unknown size, with no more bytes behind it */
    call(fanquber_abnf, settings, LETTER_X, "", TEXT("x\n"), out_size, err_size);
    ENDS(FANQUBER_BAD_SETTINGS, "", "");
    fanquber_abnf_close(&judge);
    fanquber_peg_close(&runner);
    munmap(front, 2 * page);
}

/* Four windows of an input: a word, two words that lie over one another, and one that is no word. */
static void many_windows(void) {
    const fanquber_settings settings = FANQUBER_SETTINGS;
    const char *words = "S <- < [a-z]+ > { yytext }", *input = "tea milk";
    const fanquber_window windows[] = { { 0, 3 }, { 4, 4 }, { 4, 2 }, { 3, 5 }, { 8, 0 }, { 8, 1 }, { SIZE_MAX, 2 } };
    enum { COUNT = sizeof windows / sizeof *windows };
    const fanquber_result wanted[COUNT] = {
        { 4, 0, FANQUBER_DONE }, { 5, 0, FANQUBER_DONE }, { 3, 0, FANQUBER_DONE }, { 0, 19, FANQUBER_NO_MATCH },
        { 0, 0, FANQUBER_DONE }, { 0, 0, FANQUBER_BAD_SETTINGS }, { 0, 0, FANQUBER_BAD_SETTINGS },
    };
    fanquber_result results[COUNT];
    size_t out_size = ROOM, err_size = ROOM;
    memset(out, '#', ROOM);
    memset(err, '#', ROOM);
    memset(results, 0, sizeof results);
    got = fanquber_peg_windows(&settings, TEXT(words), TEXT(""), TEXT(input), windows, COUNT, results, COUNT, out,
                               out_size, err, err_size);
    ENDS(FANQUBER_DONE, "tea\nmilk\nmi\n", "no match at byte 0\n");
    for (size_t at = 0; at < COUNT; at++)
        CHECK(results[at].out_len == wanted[at].out_len && results[at].err_len == wanted[at].err_len &&
              results[at].status == wanted[at].status);
    memset(out, '#', ROOM);
    memset(err, '#', ROOM);
    got = fanquber_peg_windows(&settings, TEXT(words), TEXT(""), TEXT(input), windows, COUNT, results, COUNT - 1, out,
                               out_size, err, err_size);
    ENDS(FANQUBER_BAD_SETTINGS, "", "");
}

/* The messages on a grammar with a note, on one that is rejected, and on a text with a fault: they stand once, first, also
 * where the buffer is small, and where there is no window. */
static void windows_of_grammars(void) {
    const struct {
        const char *grammar, *front, *printed, *reported;
        uint8_t first, second;
    } rows[] = {
        { "S <- < 'x' > { yytext }\nT <- 'y'\n", "rule 'T' defined but not used\n", "x\n", "no match at byte 0\n",
          FANQUBER_DONE, FANQUBER_NO_MATCH },
        { "S <- T\n", "rule 'T' used but not defined\n", "", "", FANQUBER_REFUSED, FANQUBER_REFUSED },
        { "S <- )\n", "line 1: syntax error\n", "", "", FANQUBER_REFUSED, FANQUBER_REFUSED },
    };
    const fanquber_settings settings = FANQUBER_SETTINGS;
    const fanquber_window windows[] = { { 0, 1 }, { 1, 1 }, { 2, 1 } };
    for (size_t row = 0; row < sizeof rows / sizeof *rows; row++) {
        for (size_t err_size = 0; err_size <= ROOM; err_size++) {
            const size_t out_size = ROOM - err_size, count = err_size % 2 ? 3 : 0;
            fanquber_result results[3];
            char all[ROOM];
            memset(out, '#', ROOM);
            memset(err, '#', ROOM);
            got = fanquber_peg_windows(&settings, TEXT(rows[row].grammar), TEXT(""), TEXT("xy"), windows, count, results,
                                       count, out, out_size, err, err_size);
            snprintf(all, sizeof all, "%s%s", rows[row].front, count ? rows[row].reported : "");
            ENDS(FANQUBER_DONE, count ? rows[row].printed : "", all);
            if (count == 0) continue;
            CHECK(results[0].out_len == strlen(rows[row].printed) && results[0].err_len == 0);
            CHECK(results[1].out_len == 0 && results[1].err_len == strlen(rows[row].reported));
            CHECK(results[0].status == rows[row].first && results[1].status == rows[row].second);
            CHECK(results[2].out_len == 0 && results[2].err_len == 0 && results[2].status == FANQUBER_BAD_SETTINGS);
        }
    }
}

/* Opens a judge with a buffer that was filled with `#`. */
static fanquber_judge opened(const fanquber_settings *settings, const char *grammar, const char *name, size_t err_size) {
    fanquber_judge judge = FANQUBER_JUDGE;
    memset(err, '#', ROOM);
    got = fanquber_abnf_open(settings, TEXT(grammar), TEXT(name), &judge, err, err_size);
    return judge;
}

#define OPENS(code, reported) \
    CHECK(got.status == (code) && got.out_len == 0 && judge.is_open == ((code) == FANQUBER_DONE)); \
    CHECK(got.err_len == strlen(reported) && holds(err, err_size, TEXT(reported)))

#define ANSWERS(line, len, code, count) \
    do { \
        fanquber_answer said = fanquber_abnf_judge(&judge, line, len); \
        CHECK(said.status == (code) && said.reached == (count)); \
    } while (0)

/* What judges answer, opened with each setting that they look at. */
static void judged_lines(void) {
    fanquber_settings settings = FANQUBER_SETTINGS;
    size_t err_size = ROOM;
    fanquber_judge judge = opened(&settings, "a = 1*(\"x\" [LF])\n", "", err_size);
    OPENS(FANQUBER_DONE, "");
    for (int turn = 0; turn < 3; turn++) {
        ANSWERS("x", 1, FANQUBER_DONE, 0);
        ANSWERS("", 0, FANQUBER_NO_MATCH, 0);
        ANSWERS("x\nx", 3, FANQUBER_DONE, 0);
        ANSWERS("x\0x", 3, FANQUBER_NO_MATCH, 0);
    }
    got = fanquber_abnf_open(&settings, TEXT(LETTER_X), TEXT(""), &judge, err, err_size);
    CHECK(got.status == FANQUBER_BAD_SETTINGS && judge.is_open); /* it is open */
    ANSWERS("x\nx", 3, FANQUBER_DONE, 0);
    fanquber_abnf_close(&judge);
    CHECK(!judge.is_open);
    fanquber_abnf_close(&judge);
    ANSWERS("x", 1, FANQUBER_BAD_SETTINGS, 0);
    settings.mode = 7;
    judge = opened(&settings, LETTER_X, "", err_size);
    OPENS(FANQUBER_BAD_SETTINGS, "");
    settings = (fanquber_settings){ SIZE, 2, FANQUBER_RUN, FANQUBER_UTF8, true, false, true, false, false, 0, 1 };
    for (err_size = 0; err_size < 32; err_size++) {
        judge = opened(&settings, "a = \"x\"\nb = %xE9 \"y\"\n", "B", err_size);
        OPENS(FANQUBER_DONE, "rule 'a' defined but not used\n");
        ANSWERS("\xc3\xa9", 2, FANQUBER_NO_MATCH, 1);
        ANSWERS("\xc3", 1, FANQUBER_NO_MATCH, 0);
        ANSWERS("\xc3\xa9y", 3, FANQUBER_OVERLONG, 0);
        fanquber_abnf_close(&judge);
    }
    err_size = ROOM;
    settings = (fanquber_settings){ SIZE, 60, FANQUBER_RUN, FANQUBER_BYTES, false, false, false, false, false, 100, 1 };
    judge = opened(&settings, "s = s s / \"a\"\n", "", err_size);
    ANSWERS("aaaaaaaaaaaaaaaaaaaaaaaaaaaaaaaaaaaaaaaaaaaaaaaaaa", 50, FANQUBER_COSTLY, 0);
    ANSWERS("a", 1, FANQUBER_DONE, 0); /* it goes on */
    fanquber_abnf_close(&judge);
    settings = (fanquber_settings){ SIZE, 2, FANQUBER_RUN, FANQUBER_UTF8, true, false, true, false, false, 0, 1 };
    judge = opened(&settings, LETTER_X, "no-rule", err_size);
    CHECK(got.status == FANQUBER_REFUSED && got.err_len > 0 && !judge.is_open);
    settings.named = false;
    judge = opened(&settings, "a = )\n", "", err_size);
    OPENS(FANQUBER_REFUSED, "line 1: syntax error\n");
    settings.explain = true;
    for (err_size = 0; err_size <= ROOM; err_size++) {
        judge = opened(&settings, "a = \"x\"\nb = \"y\"\n", "", err_size);
        OPENS(FANQUBER_DONE, "rule 'b' defined but not used\n  line 2: 'b' is defined\n");
        fanquber_abnf_close(&judge);
        judge = opened(&settings, "a = b\n", "", err_size);
        OPENS(FANQUBER_REFUSED, "rule 'b' used but not defined\n  line 1: used in rule 'a'\n  reached by 'a' > 'b'\n");
    }
}

/* Opens a runner with a buffer that was filled with `#`. */
static fanquber_runner opened_runner(const fanquber_settings *settings, const char *grammar, const char *name,
                                     size_t err_size) {
    fanquber_runner runner = FANQUBER_RUNNER;
    memset(err, '#', ROOM);
    got = fanquber_peg_open(settings, TEXT(grammar), TEXT(name), &runner, err, err_size);
    return runner;
}

#define STARTS(code, reported) \
    CHECK(got.status == (code) && got.out_len == 0 && runner.is_open == ((code) == FANQUBER_DONE)); \
    CHECK(got.err_len == strlen(reported) && holds(err, err_size, TEXT(reported)))

#define WRITES(input, code, printed, reported) \
    do { \
        memset(out, '#', ROOM); \
        memset(err, '#', ROOM); \
        got = fanquber_peg_run(&runner, TEXT(input), out, out_size, err, err_size); \
        ENDS(code, printed, reported); \
    } while (0)

/* What runners write, opened with each setting that they look at. */
static void runs_of_runners(void) {
    const char *words = "S <- < [a-z]+ > { yytext }\n";
    fanquber_settings settings = FANQUBER_SETTINGS;
    size_t out_size = ROOM, err_size = ROOM;
    fanquber_runner runner = opened_runner(&settings, words, "", err_size);
    STARTS(FANQUBER_DONE, "");
    for (out_size = 0; out_size < 10; out_size++) {
        err_size = ROOM - out_size;
        WRITES("tea", FANQUBER_DONE, "tea\n", "");
        WRITES("", FANQUBER_DONE, "", "");
        WRITES("milk?", FANQUBER_NO_MATCH, "milk\n", "no match at byte 4\n");
    }
    got = fanquber_peg_open(&settings, TEXT(words), TEXT(""), &runner, err, err_size);
    CHECK(got.status == FANQUBER_BAD_SETTINGS && runner.is_open); /* it is open */
    WRITES("tea", FANQUBER_DONE, "tea\n", "");
    fanquber_peg_close(&runner);
    CHECK(!runner.is_open);
    fanquber_peg_close(&runner);
    WRITES("tea", FANQUBER_BAD_SETTINGS, "", "");
    settings.limit = 0;
    runner = opened_runner(&settings, words, "", err_size);
    STARTS(FANQUBER_BAD_SETTINGS, "");
    settings = (fanquber_settings){ SIZE, 3, FANQUBER_CHECK, FANQUBER_BYTES, true, true, false, false, false, 0, 1 };
    for (err_size = 0; err_size < 32; err_size++) {
        out_size = ROOM;
        runner = opened_runner(&settings, "a <- 'x'\nb <- < 'y'+ > { (yytext) }\n", "b", err_size);
        STARTS(FANQUBER_DONE, "rule 'a' defined but not used\n");
        WRITES("yy", FANQUBER_DONE, " (yy) ", "");
        WRITES("yyyy", FANQUBER_OVERLONG, "", "unit at byte 0 longer than 3 bytes\n");
        fanquber_peg_close(&runner);
    }
    err_size = ROOM;
    runner = opened_runner(&settings, words, "no_rule", err_size);
    CHECK(got.status == FANQUBER_REFUSED && got.err_len > 0 && !runner.is_open);
    settings.named = false;
    runner = opened_runner(&settings, "S <- )\n", "", err_size);
    STARTS(FANQUBER_REFUSED, "line 1: syntax error\n");
    runner = opened_runner(&settings, "S <- T\n", "", err_size);
    STARTS(FANQUBER_REFUSED, "rule 'T' used but not defined\n");
}

/* A runner that explains writes what a run writes after the notes. */
static void explained_runs(void) {
    const char *grammar = "S <- 'ab' 'c'\nT <- 'y'\n", *inputs[] = { "abc", "abx", "" };
    fanquber_settings settings = FANQUBER_SETTINGS;
    settings.explain = true;
    static char notes[1024], whole[1024], rest[1024];
    fanquber_runner runner = FANQUBER_RUNNER;
    got = fanquber_peg_open(&settings, TEXT(grammar), TEXT(""), &runner, notes, sizeof notes);
    CHECK(got.status == FANQUBER_DONE && got.err_len > 0);
    for (size_t at = 0; at < sizeof inputs / sizeof *inputs; at++) {
        const fanquber_result all = fanquber_peg(&settings, TEXT(grammar), TEXT(""), TEXT(inputs[at]), out, ROOM, whole,
                                                 sizeof whole);
        const fanquber_result run = fanquber_peg_run(&runner, TEXT(inputs[at]), out, ROOM, rest, sizeof rest);
        CHECK(run.status == all.status && run.out_len == all.out_len && run.err_len == all.err_len - got.err_len);
        CHECK(memcmp(whole, notes, got.err_len) == 0 && memcmp(whole + got.err_len, rest, run.err_len) == 0);
    }
    fanquber_peg_close(&runner);
}

/* Compares two grammars, with buffers that were filled with `#`. */
static char old_line[ROOM], new_line[ROOM];
static fanquber_comparison compared(const fanquber_settings *settings, size_t budget, const char *old_grammar,
                                    const char *old_name, const char *new_grammar, const char *new_name, size_t room) {
    memset(old_line, '#', ROOM);
    memset(new_line, '#', ROOM);
    memset(err, '#', ROOM);
    return fanquber_compare(settings, budget, TEXT(old_grammar), TEXT(old_name), TEXT(new_grammar), TEXT(new_name),
                            old_line, room, new_line, ROOM - room, err, ROOM);
}

/* What is known of the lines that one of two rules alone derives. */
static int is_known(fanquber_alone found, uint8_t known, const char *buffer, size_t size, const char *line) {
    return found.known == known && found.len == (known == FANQUBER_FIRST ? strlen(line) : 0) &&
           holds(buffer, size, TEXT(line));
}

/* Pairs of rules, and what is found of them: lines of the manual page abnfd(1), and by the order that it gives. */
static void compared_rules(void) {
    const struct {
        const char *old_grammar, *old_name, *new_grammar, *new_name;
        uint8_t letters, old_known, new_known;
        const char *old_first, *new_first;
    } rows[] = {
        { "a = 1*\"x\"", "", "a = \"x\" [a]", "", FANQUBER_BYTES, FANQUBER_NEVER, FANQUBER_NEVER, "", "" },
        { "d = 2DIGIT", "", "d = 1*2DIGIT", "", FANQUBER_BYTES, FANQUBER_NEVER, FANQUBER_FIRST, "", "0" },
        { "a = \"x\" CRLF", "", "a = \"x\" LF", "", FANQUBER_BYTES, FANQUBER_FIRST, FANQUBER_FIRST, "X\r\n", "X\n" },
        { "t = %xE9", "", "t = %xC3.A9", "", FANQUBER_UTF8, FANQUBER_FIRST, FANQUBER_FIRST, "\xc3\xa9",
          "\xc3\x83\xc2\xa9" },
        { "a = b\nb = %x41", "a", "c = %x42\nb = c", "B", FANQUBER_BYTES, FANQUBER_FIRST, FANQUBER_FIRST, "A", "B" },
        { "a = %x42", "", "c = d\nd = %x42", "d", FANQUBER_BYTES, FANQUBER_NEVER, FANQUBER_NEVER, "", "" },
    };
    fanquber_settings settings = FANQUBER_SETTINGS;
    settings.named = true; /* an empty name is none */
    for (size_t at = 0; at < sizeof rows / sizeof *rows; at++) {
        settings.letters = rows[at].letters;
        for (size_t room = 0; room <= ROOM; room++) {
            const fanquber_comparison found = compared(&settings, FANQUBER_DEFAULT_BUDGET, rows[at].old_grammar,
                                                       rows[at].old_name, rows[at].new_grammar, rows[at].new_name, room);
            const int is_same = rows[at].old_known == FANQUBER_NEVER && rows[at].new_known == FANQUBER_NEVER;
            CHECK(found.status == (is_same ? FANQUBER_DONE : FANQUBER_NO_MATCH));
            CHECK(is_known(found.old_alone, rows[at].old_known, old_line, room, rows[at].old_first));
            CHECK(is_known(found.new_alone, rows[at].new_known, new_line, ROOM - room, rows[at].new_first));
        }
    }
}

/* What is found where the budget is met, a grammar is rejected or has a note, and settings are invalid. */
static void uncompared_rules(void) {
    const char *nested = "s = [\"a\" s \"b\"]", *flat = "s = *\"a\" *\"b\"", *note = "rule 'b' defined but not used\n";
    const char *fault = "line 1: syntax error\n";
    fanquber_settings settings = FANQUBER_SETTINGS;
    fanquber_comparison found = compared(&settings, 1000, nested, "\xff", flat, "\xff", ROOM / 2); /* no name is given */
    CHECK(found.status == FANQUBER_NO_MATCH && found.old_alone.known == FANQUBER_NEVER_UP_TO && found.old_alone.len > 0);
    CHECK(is_known(found.new_alone, FANQUBER_FIRST, new_line, ROOM / 2, "A"));
    found = compared(&settings, 0, nested, "", nested, "", ROOM / 2);
    CHECK(found.status == FANQUBER_NOT_KNOWN && is_known(found.old_alone, FANQUBER_UNKNOWN, old_line, ROOM, ""));
    CHECK(is_known(found.new_alone, FANQUBER_UNKNOWN, new_line, ROOM, "") && found.err_len == 0);
    found = compared(&settings, 1000, "a = %x41\nb = %x42\n", "", "a = )\n", "", ROOM / 2);
    CHECK(found.status == FANQUBER_REFUSED && is_known(found.old_alone, FANQUBER_UNKNOWN, old_line, ROOM, ""));
    CHECK(found.old_err_len == strlen(note) && found.err_len == strlen(note) + strlen(fault));
    CHECK(memcmp(err, note, strlen(note)) == 0 && memcmp(err + strlen(note), fault, strlen(fault)) == 0);
    settings.named = true;
    found = compared(&settings, 1000, nested, "s", nested, "\xff", ROOM / 2);
    CHECK(found.status == FANQUBER_BAD_SETTINGS && holds(err, ROOM, TEXT("")) && found.err_len == 0);
    settings.size--;
    found = compared(&settings, 1000, nested, "s", nested, "s", ROOM / 2);
    CHECK(found.status == FANQUBER_BAD_SETTINGS && is_known(found.old_alone, FANQUBER_UNKNOWN, old_line, ROOM, ""));
}

/* Lines of rules, each before a `|`, and how they end. They are rows of the gate for abnfg(1). */
static void listed_lines(void) {
    const struct {
        const char *grammar;
        uint8_t which, letters;
        bool nul;
        size_t limit;
        const char *lines;
        uint8_t status;
    } rows[] = {
        { "d = 1*2(\"0\" / \"1\")", FANQUBER_DERIVED, FANQUBER_BYTES, false, 65536, "0|1|00|01|10|11|", FANQUBER_NO_MATCH },
        { "a = *\"x\"", FANQUBER_DERIVED, FANQUBER_BYTES, false, 1, "|X|x|", FANQUBER_NO_MATCH },
        { "a = \"(\" *a \")\"", FANQUBER_DERIVED, FANQUBER_BYTES, false, 6, "()|(())|((()))|(()())|", FANQUBER_NO_MATCH },
        { "a = \"x\" CRLF", FANQUBER_DERIVED, FANQUBER_BYTES, false, 9, "", FANQUBER_NO_MATCH },
        { "a = \"x\" LF", FANQUBER_DERIVED, FANQUBER_BYTES, true, 9, "X\n|x\n|", FANQUBER_NO_MATCH },
        { "a = %xD7FF-E000 / %xE9", FANQUBER_DERIVED, FANQUBER_UTF8, false, 9, "\xc3\xa9|\xed\x9f\xbf|\xee\x80\x80|",
          FANQUBER_NO_MATCH },
        { "a = a \"b\" / \"c\"", FANQUBER_DERIVED, FANQUBER_BYTES, false, 9, "", FANQUBER_NOT_KNOWN },
        { "k = \"no\" / \"yes\"", FANQUBER_MISSED, FANQUBER_BYTES, false, 256, "|!|N|N!|Y|Y!|NO!|YE|YE!|", FANQUBER_NO_MATCH },
        { "k = \"no\" / \"yes\"", FANQUBER_MISSED, FANQUBER_BYTES, false, 1, "|!|N|Y|", FANQUBER_NO_MATCH },
        { "a = *OCTET", FANQUBER_MISSED, FANQUBER_BYTES, false, 256, "", FANQUBER_NO_MATCH },
        { "a = %x09 / %x20 / %x22 / %xFF", FANQUBER_EDGES, FANQUBER_BYTES, false, 1, "|!|#|\x08|\x1F|\xFE|",
          FANQUBER_NO_MATCH },
        { "a = 3\"x\"", FANQUBER_RANDOM, FANQUBER_BYTES, false, 2, "", FANQUBER_NO_MATCH },
        { "a = ALPHA DIGIT", FANQUBER_SAMPLES, FANQUBER_BYTES, false, 256, "A0|a0|", FANQUBER_NO_MATCH },
        { "a = %x80-10FFFF", FANQUBER_SAMPLES, FANQUBER_UTF8, false, 256, "\xC2\x80|", FANQUBER_NO_MATCH },
        { "a = %x00-0A %xFF", FANQUBER_SAMPLES, FANQUBER_BYTES, true, 256, "\x01\xFF|", FANQUBER_NO_MATCH },
        { "a = a \"b\" / \"c\"", FANQUBER_SAMPLES, FANQUBER_BYTES, false, 9, "", FANQUBER_NOT_KNOWN },
        { "d = 1*2%x30-39 [\",\" d]", FANQUBER_COVER, FANQUBER_BYTES, false, 9, "0,0|00|9|", FANQUBER_NO_MATCH },
        { "k = \"no\" / %s\"Yes\"", FANQUBER_COVER, FANQUBER_BYTES, false, 9, "Yes|no|NO|", FANQUBER_NO_MATCH },
        { "a = \"(\" *a \")\"", FANQUBER_COVER, FANQUBER_BYTES, false, 6, "(())|", FANQUBER_NO_MATCH },
        { "a = 3\"x\"", FANQUBER_COVER, FANQUBER_BYTES, false, 2, "", FANQUBER_NO_MATCH },
    };
    fanquber_settings settings = FANQUBER_SETTINGS;
    for (size_t at = 0; at < sizeof rows / sizeof *rows; at++) {
        char all[ROOM] = "";
        size_t len = 0;
        fanquber_lines lines = FANQUBER_LINES;
        fanquber_line next;
        settings.letters = rows[at].letters;
        settings.nul = rows[at].nul;
        settings.limit = rows[at].limit;
        got = fanquber_lines_open(&settings, rows[at].which, TEXT(rows[at].grammar), TEXT(""), &lines, err, ROOM);
        CHECK(got.status == FANQUBER_DONE && got.err_len == 0 && lines.is_open);
        while ((next = fanquber_lines_next(&lines, all + len, ROOM - len - 1)).status == FANQUBER_DONE) {
            len += next.len;
            all[len++] = '|';
        }
        CHECK(next.status == rows[at].status && next.len == 0 && lines.is_open);
        CHECK(len == strlen(rows[at].lines) && memcmp(all, rows[at].lines, len) == 0);
        CHECK(fanquber_lines_next(&lines, all, ROOM).status == rows[at].status);
        fanquber_lines_close(&lines);
        CHECK(!lines.is_open && fanquber_lines_next(&lines, all, ROOM).status == FANQUBER_BAD_SETTINGS);
    }
}

/* Lines by lot: each is one of the rule, and the same seed gives the same ones. */
static void drawn_lines(void) {
    enum { DRAWN = 40 };
    const uint64_t seeds[] = { 1, 1, UINT64_MAX };
    char drawn[3][DRAWN] = { "", "", "" };
    fanquber_settings settings = FANQUBER_SETTINGS;
    for (size_t turn = 0; turn < 3; turn++) {
        fanquber_lines lines = FANQUBER_LINES;
        settings.seed = seeds[turn];
        got = fanquber_lines_open(&settings, FANQUBER_RANDOM, TEXT("d = DIGIT\n"), TEXT(""), &lines, err, ROOM);
        CHECK(got.status == FANQUBER_DONE && lines.is_open);
        for (size_t at = 0; at < DRAWN; at++) {
            const fanquber_line next = fanquber_lines_next(&lines, drawn[turn] + at, 1);
            CHECK(next.status == FANQUBER_DONE && next.len == 1);
            CHECK(drawn[turn][at] >= '0' && drawn[turn][at] <= '9');
        }
        fanquber_lines_close(&lines);
    }
    CHECK(memcmp(drawn[0], drawn[1], DRAWN) == 0 && memcmp(drawn[0], drawn[2], DRAWN) != 0);
}

/* What opening lines does with small buffers, and where nothing is opened. */
static void unlisted_lines(void) {
    const char *grammar = "a = \"0\"\nb = \"12\"\n", *note = "rule 'a' defined but not used\n";
    fanquber_settings settings = FANQUBER_SETTINGS;
    fanquber_lines lines = FANQUBER_LINES;
    settings.named = true;
    for (size_t room = 0; room < ROOM; room++) {
        memset(err, '#', ROOM);
        memset(out, '#', ROOM);
        got = fanquber_lines_open(&settings, FANQUBER_DERIVED, TEXT(grammar), TEXT("b"), &lines, err, room);
        CHECK(got.status == FANQUBER_DONE && got.err_len == strlen(note) && holds(err, room, TEXT(note)));
        got = fanquber_lines_open(&settings, FANQUBER_DERIVED, TEXT(grammar), TEXT("b"), &lines, err, room);
        CHECK(got.status == FANQUBER_BAD_SETTINGS && lines.is_open); /* they are open */
        CHECK(fanquber_lines_next(&lines, out, room).len == 2 && holds(out, room, "12", 2));
        CHECK(fanquber_lines_next(&lines, out, room).status == FANQUBER_NO_MATCH && holds(out, room, "12", 2));
        fanquber_lines_close(&lines);
    }
    got = fanquber_lines_open(&settings, FANQUBER_COVER + 1, TEXT(grammar), TEXT("b"), &lines, err, ROOM);
    CHECK(got.status == FANQUBER_BAD_SETTINGS && !lines.is_open);
    got = fanquber_lines_open(&settings, FANQUBER_MISSED, TEXT(grammar), TEXT("\xff"), &lines, err, ROOM);
    CHECK(got.status == FANQUBER_BAD_SETTINGS && !lines.is_open);
    got = fanquber_lines_open(&settings, FANQUBER_MISSED, TEXT("a = )\n"), TEXT("a"), &lines, err, ROOM);
    CHECK(got.status == FANQUBER_REFUSED && got.err_len == strlen("line 1: syntax error\n") && !lines.is_open);
}

int main(void) {
    judged_lines();
    listed_lines();
    drawn_lines();
    unlisted_lines();
    compared_rules();
    uncompared_rules();
    runs_of_runners();
    explained_runs();
    many_windows();
    windows_of_grammars();
    small_buffers();
    bad_settings();
    older_settings();
    each_setting();
    budgets();
    return wrong;
}
