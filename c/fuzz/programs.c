/* programs: the calls of fanquber.h by runs of pegi and abnfi, which the folder BIN of the environment has, or else
 * that of the compiler's -DBIN. So calls.c and the package of python/ can be tried where there is no library. It aborts
 * where a program is ended by a signal, or takes more than 10 seconds of processor time. */
#define _GNU_SOURCE
#include <errno.h>
#include <fanquber.h>
#include <signal.h>
#include <stdio.h>
#include <stdlib.h>
#include <string.h>
#include <sys/mman.h>
#include <sys/resource.h>
#include <sys/wait.h>
#include <unistd.h>

#ifndef BIN
#define BIN "bin"
#endif
enum { SECONDS = 10, MEMORY = 256 << 20, OUTPUT = 64 << 20 };
static const fanquber_result BAD = { 0, 0, FANQUBER_BAD_SETTINGS };
/* How the message on a line that costs more than the budget ends. */
static const char COSTLY[] = " items\n";

typedef struct text {
    const char *bytes;
    size_t len;
} text;

/* A grammar, and after `open_as` how many bytes the messages on it have. */
typedef struct opened {
    fanquber_settings settings;
    text grammar, name;
    size_t front;
    const char *program;
} opened;

/* Returns a file in memory with a text, read from its front. */
static int file_of(text of) {
    int file = memfd_create("text", MFD_CLOEXEC);
    if (file < 0 || write(file, of.bytes, of.len) != (ssize_t)of.len || lseek(file, 0, SEEK_SET) != 0) abort();
    return file;
}

/* Runs a program. Returns its exit status. */
static int status_of(char **words, const int files[4]) {
    const struct rlimit time = { SECONDS, SECONDS + 1 }, memory = { MEMORY, MEMORY }, output = { OUTPUT, OUTPUT };
    int status;
    pid_t child = vfork();
    if (child == 0) {
        for (int at = 0; at < 4; at++) dup2(files[at], at == 3 ? 9 : at);
        setrlimit(RLIMIT_CPU, &time);
        setrlimit(RLIMIT_AS, &memory);
        setrlimit(RLIMIT_FSIZE, &output);
        signal(SIGXFSZ, SIG_IGN);
        execv(words[0], words);
        _exit(127);
    }
    if (child < 0) abort();
    while (waitpid(child, &status, 0) != child)
        if (errno != EINTR) abort();
    if (WIFSIGNALED(status) || WEXITSTATUS(status) > FANQUBER_NO_MEMORY) {
        fprintf(stderr, "%s: signal %d, status %d\n", words[0], WTERMSIG(status), WEXITSTATUS(status));
        abort();
    }
    return WEXITSTATUS(status);
}

/* Makes a whole run. Of the error output it leaves out as many bytes as `front` says. */
static fanquber_result run(const opened *of, text input, void *out, size_t out_size, void *err, size_t err_size) {
    static const char *modes[] = { "-mrun", "-mcheck", "-mprint" };
    const fanquber_settings *asked = &of->settings;
    const int is_abnf = of->program[0] == 'a';
    char path[4096], limit[32], rule[4096] = "-s=", options[8] = "-", budget[32];
    char *words[11] = { path, limit };
    int count = 2;
    if (asked->size != sizeof *asked || asked->limit < 1 || asked->limit > FANQUBER_MAX_LIMIT) return BAD;
    if (asked->mode > FANQUBER_PRINT || asked->letters > FANQUBER_UTF8 || of->name.len > sizeof rule - 4) return BAD;
    if (memchr(of->name.bytes, 0, of->name.len)) return BAD;
    memcpy(rule + 3, of->name.bytes, of->name.len);
    snprintf(path, sizeof path, "%s/%s", getenv("BIN") ? getenv("BIN") : BIN, of->program);
    snprintf(limit, sizeof limit, "-l%zu", asked->limit);
    words[count++] = (char *)modes[asked->mode];
    snprintf(budget, sizeof budget, "-b%zu", asked->budget);
    if (asked->budget) words[count++] = budget;
    if (asked->named) words[count++] = rule;
    if (asked->letters && is_abnf) words[count++] = "-uutf8";
    if (asked->raw && !is_abnf) strcat(options, "r");
    if (asked->viable && is_abnf) strcat(options, "w");
    if (asked->nul && is_abnf) strcat(options, "z");
    if (asked->explain) strcat(options, "x");
    if (options[1]) words[count++] = options;
    words[count++] = "/dev/fd/9";
    const int files[] = { file_of(input), file_of((text){ "", 0 }), file_of((text){ "", 0 }), file_of(of->grammar) };
    const uint8_t status = (uint8_t)status_of(words, files);
    const off_t out_len = lseek(files[1], 0, SEEK_END), err_len = lseek(files[2], 0, SEEK_END);
    if (pread(files[1], out, out_size, 0) < 0 || pread(files[2], err, err_size, (off_t)of->front) < 0) abort();
    for (int at = 0; at < 4; at++) close(files[at]);
    return (fanquber_result){ (size_t)out_len, (size_t)err_len - of->front, status };
}

/* Opens a grammar. Returns the result, and NULL where it stays closed. */
static fanquber_result open_as(opened like, void *err, size_t err_size, void **at, bool *is_open) {
    if (*is_open || like.settings.mode > FANQUBER_PRINT) return BAD;
    like.settings.mode = FANQUBER_CHECK;
    fanquber_result got = run(&like, (text){ "", 0 }, NULL, 0, err, err_size);
    if (got.status != FANQUBER_DONE) return got;
    opened *made = malloc(sizeof *made + like.grammar.len + like.name.len);
    if (!made) abort();
    char *copy = (char *)(made + 1);
    memcpy(copy, like.grammar.bytes, like.grammar.len);
    memcpy(copy + like.grammar.len, like.name.bytes, like.name.len);
    *made = like;
    made->settings.mode = FANQUBER_RUN;
    made->grammar.bytes = copy;
    made->name.bytes = copy + like.grammar.len;
    made->front = got.err_len;
    *at = made;
    *is_open = true;
    return got;
}

#define LIKE(program) { *settings, { grammar, grammar_len }, { name, name_len }, 0, program }
#define GRAMMAR \
    const fanquber_settings *settings, const void *grammar, size_t grammar_len, const void *name, size_t name_len
#define BUFFERS void *out, size_t out_size, void *err, size_t err_size

fanquber_result fanquber_peg(GRAMMAR, const void *input, size_t input_len, BUFFERS) {
    const opened like = LIKE("pegi");
    return run(&like, (text){ input, input_len }, out, out_size, err, err_size);
}

fanquber_result fanquber_abnf(GRAMMAR, const void *input, size_t input_len, BUFFERS) {
    const opened like = LIKE("abnfi");
    return run(&like, (text){ input, input_len }, out, out_size, err, err_size);
}

fanquber_result fanquber_abnf_open(GRAMMAR, fanquber_judge *judge, void *err, size_t err_size) {
    return open_as((opened)LIKE("abnfi"), err, err_size, &judge->at, &judge->is_open);
}

fanquber_result fanquber_peg_open(GRAMMAR, fanquber_runner *runner, void *err, size_t err_size) {
    return open_as((opened)LIKE("pegi"), err, err_size, &runner->at, &runner->is_open);
}

fanquber_answer fanquber_abnf_judge(fanquber_judge *judge, const void *line, size_t line_len) {
    if (!judge->is_open) return (fanquber_answer){ 0, FANQUBER_BAD_SETTINGS };
    opened like = *(opened *)judge->at;
    like.settings.nul = memchr(line, 0, line_len) == NULL;
    like.settings.explain = false;
    static char told[1 << 16];
    char said[32] = "", *ended = malloc(line_len + 1);
    if (!ended) abort();
    memcpy(ended, line, line_len);
    ended[line_len] = like.settings.nul ? 0 : '\n';
    like.front = 0;
    fanquber_result got = run(&like, (text){ ended, line_len + 1 }, said, sizeof said - 1, told, sizeof told);
    free(ended);
    /* The status of a line that costs more than the budget is that of a long one: the message says which it is. */
    const size_t items = strlen(COSTLY);
    if (got.status == FANQUBER_OVERLONG && got.err_len >= items && got.err_len <= sizeof told)
        if (memcmp(told + got.err_len - items, COSTLY, items) == 0) got.status = FANQUBER_COSTLY;
    return (fanquber_answer){ strtoul(said + (strlen(said) > 3 ? 3 : strlen(said)), NULL, 10), got.status };
}

fanquber_result fanquber_peg_run(fanquber_runner *runner, const void *input, size_t input_len, BUFFERS) {
    return runner->is_open ? run(runner->at, (text){ input, input_len }, out, out_size, err, err_size) : BAD;
}

void fanquber_abnf_close(fanquber_judge *judge) {
    if (judge->is_open) free(judge->at);
    judge->is_open = false;
}

void fanquber_peg_close(fanquber_runner *runner) {
    if (runner->is_open) free(runner->at);
    runner->is_open = false;
}

fanquber_result fanquber_peg_windows(GRAMMAR, const void *input, size_t input_len, const fanquber_window *windows,
                                     size_t windows_len, fanquber_result *results, size_t results_len, BUFFERS) {
    fanquber_runner runner = FANQUBER_RUNNER;
    if (windows_len != results_len) return BAD;
    fanquber_result all = fanquber_peg_open(settings, grammar, grammar_len, name, name_len, &runner, err, err_size);
    if (all.status == FANQUBER_BAD_SETTINGS) return BAD;
    for (size_t at = 0; at < windows_len; at++) {
        const fanquber_window it = windows[at];
        const size_t out_at = all.out_len < out_size ? all.out_len : out_size;
        const size_t err_at = all.err_len < err_size ? all.err_len : err_size;
        results[at] = (fanquber_result){ 0, 0, all.status };
        if (it.at > input_len || it.len > input_len - it.at) results[at] = BAD;
        else if (runner.is_open)
            results[at] = fanquber_peg_run(&runner, (const char *)input + it.at, it.len, (char *)out + out_at,
                                           out_size - out_at, (char *)err + err_at, err_size - err_at);
        all.out_len += results[at].out_len;
        all.err_len += results[at].err_len;
    }
    all.status = FANQUBER_DONE;
    fanquber_peg_close(&runner);
    return all;
}
