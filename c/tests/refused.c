/* refused GRAMMAR: each allocation of a call is refused in turn. The status is then FANQUBER_NO_MEMORY, or the reply is
 * whole, and no memory is leaked, nor by a judge or a runner that was closed. GRAMMAR is that of RFC 3986. Link it with
 * the static library and -Wl,--wrap=malloc,--wrap=realloc,--wrap=free. */
#include "check.h"

enum { MOST = 1000000 };
static long left = -1; /* how many allocations are still granted; -1: all */
static long live;

void *__real_malloc(size_t size);
void *__real_realloc(void *block, size_t size);
void __real_free(void *block);

static int is_refused(void) {
    if (left == 0) return 1;
    if (left > 0) left--;
    return 0;
}

void *__wrap_malloc(size_t size) {
    void *block = is_refused() ? NULL : __real_malloc(size);
    live += block != NULL;
    return block;
}

void *__wrap_realloc(void *block, size_t size) {
    void *moved = is_refused() ? NULL : __real_realloc(block, size);
    live += moved != NULL && block == NULL;
    return moved;
}

void __wrap_free(void *block) {
    live -= block != NULL;
    __real_free(block);
}

typedef fanquber_result tool(const fanquber_settings *, const void *, size_t, const void *, size_t, const void *, size_t,
                             void *, size_t, void *, size_t);

/* Refuses the first allocation of a call, then the second, and so on, until none is refused. */
static void sweep(const char *title, tool *run, const char *grammar, size_t grammar_len, const char *input,
                  int status, const char *printed) {
    const fanquber_settings settings = FANQUBER_SETTINGS;
    const long base = live;
    static char out[64], err[4096];
    for (long granted = 0; granted < MOST; granted++) {
        left = granted;
        fanquber_result got = run(&settings, grammar, grammar_len, TEXT(""), TEXT(input), out, sizeof out, err,
                                  sizeof err);
        int is_all = left > 0;
        left = -1;
        CHECK(live == base);
        CHECK(got.out_len <= strlen(printed) && memcmp(out, printed, got.out_len) == 0);
        if (got.status == status) CHECK(got.out_len == strlen(printed));
        else CHECK(!is_all && got.status == FANQUBER_NO_MEMORY);
        if (is_all || wrong) {
            printf("%s: %ld allocations refused in turn\n", title, granted);
            return;
        }
    }
    CHECK(!"the sweep ends");
}

/* Does the same for a judge: to open it, to judge each of two lines twice, and to close it. */
static void sweep_judge(const char *grammar, size_t grammar_len, size_t limit) {
    fanquber_settings settings = FANQUBER_SETTINGS;
    const long base = live;
    static char err[4096];
    settings.limit = limit;
    for (long granted = 0; granted < MOST; granted++) {
        fanquber_judge judge = FANQUBER_JUDGE;
        left = granted;
        fanquber_result got = fanquber_abnf_open(&settings, grammar, grammar_len, TEXT(""), &judge, err, sizeof err);
        CHECK(got.status == (judge.is_open ? FANQUBER_DONE : FANQUBER_NO_MEMORY));
        CHECK(judge.is_open || live == base);
        for (int turn = 0; turn < 4 && judge.is_open; turn++) {
            const char *line = turn % 2 == 0 ? "http://a/b" : "http://[";
            fanquber_answer said = fanquber_abnf_judge(&judge, TEXT(line));
            CHECK(said.status == turn % 2 || (said.status == FANQUBER_NO_MEMORY && left == 0));
            CHECK(said.reached == 0 && judge.is_open);
        }
        int is_all = left > 0;
        left = -1;
        if (judge.is_open) {
            const char *line = "http://a/b"; /* the judge serves on after a failed allocation */
            CHECK(fanquber_abnf_judge(&judge, TEXT(line)).status == FANQUBER_DONE);
        }
        fanquber_abnf_close(&judge);
        CHECK(live == base);
        if (is_all || wrong) {
            printf("judge: %ld allocations refused in turn\n", granted);
            return;
        }
    }
    CHECK(!"the sweep ends");
}

/* Does the same for a runner of a grammar with a note: to open it, to run each of two inputs twice, and to close it. */
static void sweep_runner(void) {
    const fanquber_settings settings = FANQUBER_SETTINGS;
    const char *inputs[] = { "yxxz", "y?" }, *printed[] = { "(y)\n(z)\n", "(y)\n" };
    const long base = live;
    static char out[64], err[4096];
    for (long granted = 0; granted < MOST; granted++) {
        fanquber_runner runner = FANQUBER_RUNNER;
        left = granted;
        fanquber_result got = fanquber_peg_open(&settings, TEXT("a <- b / < [a-z] > { (yytext) }\nb <- 'x' 'x'\nc <- 'z'"),
                                                TEXT(""), &runner, err, sizeof err);
        CHECK(got.status == (runner.is_open ? FANQUBER_DONE : FANQUBER_NO_MEMORY));
        CHECK(runner.is_open || live == base);
        for (int turn = 0; turn < 4 && runner.is_open; turn++) {
            got = fanquber_peg_run(&runner, TEXT(inputs[turn % 2]), out, sizeof out, err, sizeof err);
            CHECK(got.status == turn % 2 || (got.status == FANQUBER_NO_MEMORY && left == 0));
            CHECK(got.out_len <= strlen(printed[turn % 2]) && memcmp(out, printed[turn % 2], got.out_len) == 0);
            CHECK(got.status == FANQUBER_NO_MEMORY || got.out_len == strlen(printed[turn % 2]));
        }
        int is_all = left > 0;
        left = -1;
        if (runner.is_open) { /* the runner serves on after a failed allocation */
            got = fanquber_peg_run(&runner, TEXT(inputs[0]), out, sizeof out, err, sizeof err);
            CHECK(got.status == FANQUBER_DONE && got.out_len == strlen(printed[0]));
        }
        fanquber_peg_close(&runner);
        CHECK(live == base);
        if (is_all || wrong) {
            printf("runner: %ld allocations refused in turn\n", granted);
            return;
        }
    }
    CHECK(!"the sweep ends");
}

/* Does the same for windows, of a grammar with a note: where the note is reported, all runs are those of the grammar, and
 * else each stops. */
static void sweep_windows(void) {
    const fanquber_settings settings = FANQUBER_SETTINGS;
    const fanquber_window windows[] = { { 0, 1 }, { 1, 1 } };
    const char *front = "rule 'b' defined but not used\n";
    const long base = live;
    static char out[64], err[4096];
    for (long granted = 0; granted < MOST; granted++) {
        fanquber_result results[2];
        left = granted;
        fanquber_result got = fanquber_peg_windows(&settings, TEXT("a <- < 'x' > { yytext }\nb <- 'y'\n"), TEXT(""),
                                                   TEXT("xy"), windows, 2, results, 2, out, sizeof out, err, sizeof err);
        int is_all = left > 0;
        left = -1;
        CHECK(live == base);
        CHECK(got.status == FANQUBER_DONE);
        size_t first = got.err_len - results[0].err_len - results[1].err_len;
        int is_reported = first == strlen(front) && memcmp(err, front, first) == 0;
        CHECK(is_reported || (!is_all && first == 0));
        CHECK(results[0].status == FANQUBER_DONE ? is_reported : results[0].status == FANQUBER_NO_MEMORY);
        CHECK(results[1].status == FANQUBER_NO_MATCH ? is_reported : results[1].status == FANQUBER_NO_MEMORY);
        if (is_all || wrong) {
            printf("windows: %ld allocations refused in turn\n", granted);
            return;
        }
    }
    CHECK(!"the sweep ends");
}

/* Does the same for a comparison of two grammars, of which the old one has a note. */
static void sweep_compare(void) {
    const fanquber_settings settings = FANQUBER_SETTINGS;
    const char *note = "rule 'b' defined but not used\n";
    const long base = live;
    static char old_line[64], new_line[64], err[4096];
    for (long granted = 0; granted < MOST; granted++) {
        left = granted;
        fanquber_comparison found = fanquber_compare(
            &settings, 1000, TEXT("d = 2DIGIT\nb = %x42\n"), TEXT(""), TEXT("d = 1*2DIGIT\n"), TEXT(""), old_line,
            sizeof old_line, new_line, sizeof new_line, err, sizeof err);
        int is_all = left > 0;
        left = -1;
        CHECK(live == base);
        if (found.status == FANQUBER_NO_MATCH) {
            CHECK(found.old_alone.known == FANQUBER_NEVER && found.new_alone.known == FANQUBER_FIRST);
            CHECK(found.new_alone.len == 1 && new_line[0] == '0' && found.err_len == strlen(note));
        } else CHECK(!is_all && found.status == FANQUBER_NO_MEMORY && found.err_len == 0);
        if (is_all || wrong) {
            printf("compare: %ld allocations refused in turn\n", granted);
            return;
        }
    }
    CHECK(!"the sweep ends");
}

/* Does the same for lines of a rule: to open them, to list three, and to close them. */
static void sweep_lines(uint8_t which, const char *wanted) {
    const fanquber_settings settings = FANQUBER_SETTINGS;
    const long base = live;
    static char line[64], err[4096];
    for (long granted = 0; granted < MOST; granted++) {
        fanquber_lines lines = FANQUBER_LINES;
        left = granted;
        fanquber_result got = fanquber_lines_open(&settings, which, TEXT("k = %s\"n\" / %s\"ys\"\n"), TEXT(""), &lines, err,
                                                  sizeof err);
        CHECK(got.status == (lines.is_open ? FANQUBER_DONE : FANQUBER_NO_MEMORY));
        CHECK(lines.is_open || live == base);
        const char *rest = wanted;
        uint8_t status = FANQUBER_DONE;
        while (lines.is_open && status == FANQUBER_DONE) {
            fanquber_line next = fanquber_lines_next(&lines, line, sizeof line);
            status = next.status;
            if (status != FANQUBER_DONE) break;
            CHECK(strncmp(rest, line, next.len) == 0 && rest[next.len] == '|');
            rest += next.len + 1;
        }
        int is_all = left > 0;
        left = -1;
        CHECK(!lines.is_open || status == FANQUBER_NO_MEMORY || (status == FANQUBER_NO_MATCH && *rest == 0));
        CHECK(!is_all || status == FANQUBER_NO_MATCH);
        fanquber_lines_close(&lines);
        CHECK(live == base);
        if (is_all || wrong) {
            printf("lines: %ld allocations refused in turn\n", granted);
            return;
        }
    }
    CHECK(!"the sweep ends");
}

int main(int count, char **words) {
    static char grammar[1 << 16];
    FILE *file = count == 2 ? fopen(words[1], "rb") : NULL;
    if (!file) return 2;
    size_t grammar_len = fread(grammar, 1, sizeof grammar, file);
    fclose(file);
    sweep("abnf", fanquber_abnf, grammar, grammar_len, URIS, FANQUBER_NO_MATCH, URI_ANSWERS);
    sweep("peg", fanquber_peg, TEXT("a <- (b / < . > { (yytext) })+ !.\nb <- 'x' 'x'"), "yxxz", FANQUBER_DONE,
          "(y)\n(z)\n");
    sweep_windows();
    sweep_judge(grammar, grammar_len, 64);
    sweep_runner();
    sweep_compare();
    sweep_lines(FANQUBER_DERIVED, "n|ys|");
    sweep_lines(FANQUBER_MISSED, "|!|n!|y|y!|");
    sweep_lines(FANQUBER_SAMPLES, "n|ys|");
    sweep_lines(FANQUBER_COVER, "ys|n|");
    return wrong;
}
