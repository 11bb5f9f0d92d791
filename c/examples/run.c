/* run TOOL [OPTION ..] GRAMMAR: runs a tool on two files, the grammar and standard input, as the programs pegi and abnfi
 * do. TOOL is pegi or abnfi; the options are those of the programs. It writes both outputs, and ends with the status. */
#include <fanquber.h>
#include <stdio.h>
#include <stdlib.h>
#include <string.h>

typedef struct text {
    char *bytes;
    size_t len;
} text;

typedef fanquber_result tool(const fanquber_settings *, const void *, size_t, const void *, size_t, const void *, size_t,
                             void *, size_t, void *, size_t);

static void *held(void *block) {
    if (!block) {
        fputs("out of memory\n", stderr);
        exit(FANQUBER_NO_MEMORY);
    }
    return block;
}

/* Returns all that a file holds. */
static text read_all(FILE *file, const char *name) {
    size_t room = 4096, taken;
    text all = { held(malloc(room)), 0 };
    if (!file) {
        perror(name);
        exit(FANQUBER_FAULT);
    }
    while ((taken = fread(all.bytes + all.len, 1, room - all.len, file)) > 0) {
        all.len += taken;
        if (all.len == room) all.bytes = held(realloc(all.bytes, room *= 2));
    }
    fclose(file);
    return all;
}

/* Takes the options into the settings, and returns the index of the first word that is none. */
static int take_options(int count, char **words, fanquber_settings *settings, const char **name) {
    int at = 2;
    for (; at < count && words[at][0] == '-'; at++) {
        const char *value = at + 1 < count ? words[at + 1] : "";
        switch (words[at][1]) {
        case 'r': settings->raw = true; continue;
        case 'w': settings->viable = true; continue;
        case 'z': settings->nul = true; continue;
        case 'x': settings->explain = true; continue;
        case 's': settings->named = true; *name = value; break;
        case 'l': settings->limit = strtoul(value, NULL, 10); break;
        case 'b': settings->budget = strtoul(value, NULL, 10); break;
        case 'm': settings->mode = *value == 'c' ? FANQUBER_CHECK : *value == 'p' ? FANQUBER_PRINT : FANQUBER_RUN; break;
        case 'u': settings->letters = *value == 'u' ? FANQUBER_UTF8 : FANQUBER_BYTES; break;
        }
        at++;
    }
    return at;
}

int main(int count, char **words) {
    const char *name = "";
    fanquber_settings settings = FANQUBER_SETTINGS;
    int at = take_options(count, words, &settings, &name);
    if (at >= count) {
        fputs("usage: run pegi|abnfi [OPTION ..] GRAMMAR < INPUT\n", stderr);
        return FANQUBER_REFUSED;
    }
    tool *run = strcmp(words[1], "pegi") == 0 ? fanquber_peg : fanquber_abnf;
    text grammar = read_all(fopen(words[at], "rb"), words[at]), input = read_all(stdin, "standard input");
    size_t out_size = 256, err_size = 256;
    for (;;) {
        char *out = held(malloc(out_size)), *err = held(malloc(err_size));
        fanquber_result got = run(&settings, grammar.bytes, grammar.len, name, strlen(name), input.bytes, input.len,
                                  out, out_size, err, err_size);
        if (got.out_len <= out_size && got.err_len <= err_size) {
            fwrite(out, 1, got.out_len, stdout);
            fwrite(err, 1, got.err_len, stderr);
            return got.status;
        }
        out_size = got.out_len > out_size ? got.out_len : out_size;
        err_size = got.err_len > err_size ? got.err_len : err_size;
        free(out);
        free(err);
    }
}
