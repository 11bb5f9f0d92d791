/* Judges two lines by a grammar, and prints the answers. Build: cc days.c $(pkg-config --cflags --libs fanquber) */
#include <fanquber.h>
#include <stdio.h>
#include <string.h>

int main(void) {
    const char *day = "day = 4DIGIT \"-\" 2DIGIT \"-\" 2DIGIT\n", *lines = "1985-04-12\n1985-4-12\n";
    char out[64], err[256];
    fanquber_settings settings = FANQUBER_SETTINGS;
    fanquber_result got = fanquber_abnf(&settings, day, strlen(day), "", 0, lines, strlen(lines),
                                        out, sizeof out, err, sizeof err);
    printf("%.*sstatus %d\n", (int)got.out_len, out, got.status);
    return 0;
}
