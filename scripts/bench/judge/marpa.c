/* Judges lines by libmarpa, the engine in C of Debian's libmarpa-r2-perl, and prints nanoseconds a byte, the least of
   five rounds. marpa_rules.py writes what it reads. The first argument is its shared object. */
#include <dlfcn.h>
#include <stdio.h>
#include <stdlib.h>
#include <string.h>
#include <time.h>

struct config {
    int is_ok, error;
    const char *text;
};

static int (*c_init)(struct config *);
static void *(*g_new)(struct config *);
static int (*g_force_valued)(void *);
static int (*g_symbol_new)(void *);
static int (*g_rule_new)(void *, int, int *, int);
static int (*g_sequence_new)(void *, int, int, int, int, int);
static int (*g_start_symbol_set)(void *, int);
static int (*g_precompute)(void *);
static void *(*r_new)(void *);
static int (*r_start_input)(void *);
static int (*r_alternative)(void *, int, int, int);
static int (*r_earleme_complete)(void *);
static void (*r_unref)(void *);
static void *(*b_new)(void *, int);
static void (*b_unref)(void *);

static char line[1 << 20];
static int terminals_of[256][64], count_of[256];

static void fail(const char *what) {
    fprintf(stderr, "marpa: %s\n", what);
    exit(2);
}

static void *symbol(void *library, const char *name) {
    void *found = dlsym(library, name);
    if (!found) fail(name);
    return found;
}

static void load(const char *path) {
    void *library = dlopen("libperl.so.5.36", RTLD_LAZY | RTLD_GLOBAL) ? dlopen(path, RTLD_LAZY) : NULL;
    if (!library) fail(dlerror());
    c_init = symbol(library, "marpa_c_init");
    g_new = symbol(library, "marpa_g_new");
    g_force_valued = symbol(library, "marpa_g_force_valued");
    g_symbol_new = symbol(library, "marpa_g_symbol_new");
    g_rule_new = symbol(library, "marpa_g_rule_new");
    g_sequence_new = symbol(library, "marpa_g_sequence_new");
    g_start_symbol_set = symbol(library, "marpa_g_start_symbol_set");
    g_precompute = symbol(library, "marpa_g_precompute");
    r_new = symbol(library, "marpa_r_new");
    r_start_input = symbol(library, "marpa_r_start_input");
    r_alternative = symbol(library, "marpa_r_alternative");
    r_earleme_complete = symbol(library, "marpa_r_earleme_complete");
    r_unref = symbol(library, "marpa_r_unref");
    b_new = symbol(library, "marpa_b_new");
    b_unref = symbol(library, "marpa_b_unref");
}

static void add_rule(void *grammar) {
    int numbers[4096], count = 0;
    char *at = line + 1, *end;
    for (;; at = end) {
        int n = (int)strtol(at, &end, 10);
        if (end == at) break;
        numbers[count++] = n;
    }
    int made = line[0] == 's' ? g_sequence_new(grammar, numbers[0], numbers[1], -1, numbers[2], 0)
                              : g_rule_new(grammar, numbers[0], numbers + 1, count - 1);
    if (made < 0) fail(line);
}

static void *read_grammar(void) {
    struct config config;
    c_init(&config);
    void *grammar = g_new(&config);
    int terminals, symbols;
    g_force_valued(grammar);
    if (!fgets(line, sizeof line, stdin) || sscanf(line, "%d %d", &terminals, &symbols) != 2) fail("no rules");
    for (int i = 0; i < symbols; i++) g_symbol_new(grammar);
    for (int i = 0; i < terminals && fgets(line, sizeof line, stdin); i++)
        for (int b = 0; b < 256; b++)
            if (line[b] == '1') terminals_of[b][count_of[b]++] = i;
    while (fgets(line, sizeof line, stdin) && line[0] != '\n') add_rule(grammar);
    g_start_symbol_set(grammar, terminals);
    if (g_precompute(grammar) < 0) fail("the grammar is refused");
    return grammar;
}

/* Tells whether each letter of a line was taken, and, if it is asked to, whether the line is derived. */
static int judge(void *grammar, const unsigned char *text, size_t length, int asked) {
    void *run = r_new(grammar);
    int taken = 1;
    r_start_input(run);
    for (size_t i = 0; taken && i < length; i++) {
        taken = 0;
        for (int k = 0; k < count_of[text[i]]; k++) taken |= r_alternative(run, terminals_of[text[i]][k], 1, 1) == 0;
        taken = taken && r_earleme_complete(run) >= 0;
    }
    if (taken && asked) {
        void *trees = b_new(run, -1);
        taken = trees != NULL;
        if (trees) b_unref(trees);
    }
    r_unref(run);
    return taken;
}

int main(int count, char **words) {
    if (count < 2) fail("no shared object");
    load(words[1]);
    void *grammar = read_grammar();
    char *text = malloc(1 << 26);
    size_t length = fread(text, 1, 1 << 26, stdin);
    double best = 1e18;
    for (int round = 0; round < 6; round++) {
        struct timespec from, to;
        size_t bytes = 0;
        int lines = 0, derived = 0;
        clock_gettime(CLOCK_PROCESS_CPUTIME_ID, &from);
        for (size_t i = 0; i < length; lines++) {
            char *end = memchr(text + i, '\n', length - i);
            size_t next = end ? (size_t)(end - text) : length;
            derived += judge(grammar, (unsigned char *)text + i, next - i, round == 0);
            bytes += next - i;
            i = next + 1;
        }
        clock_gettime(CLOCK_PROCESS_CPUTIME_ID, &to);
        double spent = ((to.tv_sec - from.tv_sec) * 1e9 + (to.tv_nsec - from.tv_nsec)) / bytes;
        if (round == 0) printf("%d of %d lines, ", derived, lines);
        else if (spent < best) best = spent;
    }
    printf("%.0f ns/byte\n", best);
    return 0;
}
