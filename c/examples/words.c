/* Runs a grammar of peg(1), which is read once, on two inputs, and prints what it writes. Build:
 * cc words.c $(pkg-config --cflags --libs fanquber) */
#include <fanquber.h>
#include <stdio.h>
#include <string.h>

int main(void) {
    const char *words = "S <- < [a-z]+ > { yytext }\n", *inputs[] = { "tea", "milk?" };
    char out[64], err[256];
    fanquber_settings settings = FANQUBER_SETTINGS;
    fanquber_runner runner = FANQUBER_RUNNER;
    fanquber_result got = fanquber_peg_open(&settings, words, strlen(words), "", 0, &runner, err, sizeof err);
    if (got.status != FANQUBER_DONE) return got.status;
    for (size_t at = 0; at < 2; at++) {
        got = fanquber_peg_run(&runner, inputs[at], strlen(inputs[at]), out, sizeof out, err, sizeof err);
        printf("%.*sstatus %d\n", (int)got.out_len, out, got.status);
    }
    fanquber_peg_close(&runner);
    return 0;
}
