/* threads GRAMMAR: four threads call the library at once, and each has a judge and a runner of its own; each reply is that of
 * one thread. GRAMMAR is that of RFC 3986. */
#include "check.h"
#include <pthread.h>

enum { THREADS = 4, CALLS = 100 };
static char grammar[1 << 16];
static size_t grammar_len;

static void *work(void *bad) {
    const fanquber_settings settings = FANQUBER_SETTINGS;
    for (int call = 0; call < CALLS; call++) {
        char out[64], err[4096];
        fanquber_result got = fanquber_abnf(&settings, grammar, grammar_len, TEXT(""), TEXT(URIS), out, sizeof out,
                                            err, sizeof err);
        if (got.status != FANQUBER_NO_MATCH || got.out_len != strlen(URI_ANSWERS) ||
            memcmp(out, URI_ANSWERS, got.out_len) != 0)
            *(int *)bad = 1;
        got = fanquber_peg(&settings, TEXT("a <- < . > { (yytext) }"), TEXT(""), TEXT("xy"), out, sizeof out, err,
                           sizeof err);
        if (got.status != FANQUBER_DONE || got.out_len != 8 || memcmp(out, "(x)\n(y)\n", 8) != 0) *(int *)bad = 1;
    }
    fanquber_judge judge = FANQUBER_JUDGE;
    char err[4096];
    if (fanquber_abnf_open(&settings, grammar, grammar_len, TEXT(""), &judge, err, sizeof err).status != FANQUBER_DONE)
        *(int *)bad = 1;
    for (int call = 0; call < CALLS * CALLS; call++) {
        if (fanquber_abnf_judge(&judge, TEXT("http://a/b")).status != FANQUBER_DONE ||
            fanquber_abnf_judge(&judge, TEXT("http://[")).status != FANQUBER_NO_MATCH)
            *(int *)bad = 1;
    }
    fanquber_abnf_close(&judge);
    fanquber_runner runner = FANQUBER_RUNNER;
    if (fanquber_peg_open(&settings, TEXT("a <- < . > { (yytext) }"), TEXT(""), &runner, err, sizeof err).status !=
        FANQUBER_DONE)
        *(int *)bad = 1;
    for (int call = 0; call < CALLS * CALLS; call++) {
        char out[64];
        fanquber_result got = fanquber_peg_run(&runner, TEXT("xy"), out, sizeof out, err, sizeof err);
        if (got.status != FANQUBER_DONE || got.out_len != 8 || memcmp(out, "(x)\n(y)\n", 8) != 0) *(int *)bad = 1;
    }
    fanquber_peg_close(&runner);
    return NULL;
}

int main(int count, char **words) {
    FILE *file = count == 2 ? fopen(words[1], "rb") : NULL;
    pthread_t threads[THREADS];
    int bad[THREADS] = { 0 };
    if (!file) return 2;
    grammar_len = fread(grammar, 1, sizeof grammar, file);
    fclose(file);
    for (int at = 0; at < THREADS; at++) CHECK(pthread_create(&threads[at], NULL, work, &bad[at]) == 0);
    for (int at = 0; at < THREADS; at++) CHECK(pthread_join(threads[at], NULL) == 0);
    for (int at = 0; at < THREADS; at++) CHECK(!bad[at]);
    return wrong;
}
