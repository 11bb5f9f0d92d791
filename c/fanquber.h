/* fanquber.h: proved grammar tools over memory. See fanquber(3).
 *
 * fanquber_peg runs a grammar in the syntax of peg(1) on an input, as pegi(1) does. fanquber_abnf judges the lines of an
 * input by a grammar in ABNF (RFC 5234, RFC 7405), as abnfi(1) does. fanquber_abnf_open reads such a grammar once, and
 * fanquber_abnf_judge judges line after line by it; fanquber_peg_open and fanquber_peg_run do the same for input after
 * input of a grammar of peg(1). fanquber_compare compares the lines that two grammars in ABNF derive, as abnfd(1) does, and
 * fanquber_lines_open and fanquber_lines_next list lines of one, as abnfg(1) does. */
#ifndef FANQUBER_H
#define FANQUBER_H

#include <stdbool.h>
#include <stddef.h>
#include <stdint.h>

#ifdef __cplusplus
extern "C" {
#endif

/* The version of this interface. A minor version adds calls, and fields at the end of fanquber_settings. Programs that were
 * built with a header of the same major version and no later minor version run with the library unchanged. */
#define FANQUBER_VERSION_MAJOR 2
#define FANQUBER_VERSION_MINOR 2

/* What to do with the grammar. */
enum { FANQUBER_RUN = 0, FANQUBER_CHECK = 1, FANQUBER_PRINT = 2 };

/* What the lines of a grammar in ABNF are made of. */
enum { FANQUBER_BYTES = 0, FANQUBER_UTF8 = 1 };

/* Status codes: the exit statuses of the programs, and two more. */
enum {
    FANQUBER_DONE = 0,        /* all input was taken, or each line is derived */
    FANQUBER_NO_MATCH = 1,    /* a position where nothing matches, or a line that is not derived */
    FANQUBER_REFUSED = 2,     /* the grammar is rejected: the error output says why */
    FANQUBER_OVERLONG = 3,    /* a unit or a line is longer than the limit, or needs more than the budget */
    FANQUBER_NOT_KNOWN = 3,   /* fanquber_compare: the budget was spent; fanquber_lines_next: too many states */
    FANQUBER_FAULT = 4,       /* the length of an output does not fit into a size_t */
    FANQUBER_NO_MEMORY = 5,   /* an allocation failed */
    FANQUBER_BAD_SETTINGS = 6, /* the library does not know the size of the settings, a number in them is out of its range,
                                * the name is not UTF-8, or a judge or a runner is open that is to be closed, or closed that
                                * is to be open: nothing was done */
    FANQUBER_COSTLY = 7        /* fanquber_abnf_judge: the sets of the line need more items than the budget */
};

enum { FANQUBER_DEFAULT_LIMIT = 65536, FANQUBER_MAX_LIMIT = 16777216, FANQUBER_DEFAULT_SEED = 1 };

/* The settings of a run. Begin with FANQUBER_SETTINGS, which are those of the programs without options. A library that
 * knows only a smaller struct, since it is older than this header, returns FANQUBER_BAD_SETTINGS. */
typedef struct fanquber_settings {
    size_t size;     /* sizeof(fanquber_settings), as FANQUBER_SETTINGS sets it */
    size_t limit;    /* how many bytes a unit may look at, or a line may have: 1 to FANQUBER_MAX_LIMIT */
    uint8_t mode;    /* FANQUBER_RUN, FANQUBER_CHECK or FANQUBER_PRINT */
    uint8_t letters; /* grammars in ABNF: FANQUBER_BYTES or FANQUBER_UTF8 */
    bool named;      /* the name names the start rule, or the rule that judges lines; else it is the first rule */
    bool raw;        /* fanquber_peg: actions are printed verbatim */
    bool viable;     /* fanquber_abnf: `no N` in place of `no`: the longest viable prefix has N letters */
    bool nul;        /* fanquber_abnf: lines end with NUL in place of LF, and may hold LF */
    bool explain;    /* a fault of the grammar, notes, rejected lines and stops are explained */
    size_t budget;   /* fanquber_abnf and fanquber_abnf_judge: the sets of a line have at most so many items; fanquber_peg,
                      * its windows, and fanquber_peg_run: a unit prints at most so many bytes; 0: any number */
    uint64_t seed;   /* fanquber_lines_open: what FANQUBER_RANDOM draws lines by */
} fanquber_settings;

#define FANQUBER_SETTINGS { sizeof(fanquber_settings), FANQUBER_DEFAULT_LIMIT, FANQUBER_RUN, FANQUBER_BYTES, \
                            false, false, false, false, false, 0, FANQUBER_DEFAULT_SEED }

/* The result of a call. The lengths are those of the whole outputs, as with snprintf: where out_len is above out_size, the
 * buffer holds a prefix, and a call with more room gives all. */
typedef struct fanquber_result {
    size_t out_len;
    size_t err_len;
    uint8_t status;
} fanquber_result;

/* Both calls read the grammar, the name and the input, and write the output and the error output of the run at the front
 * of two buffers, as much as there is room for. The other bytes of the buffers stay as they are. What does not fit is
 * counted and not kept, so the memory of a call does not grow with its outputs.
 *
 * No pointer is null, also where its length is 0: pass "" for a name that is not given. No length is above PTRDIFF_MAX.
 * The buffers overlap nothing else that is passed. All calls are independent: any thread may call at any time, but
 * no signal handler, and no child of fork() in a process with several threads. */
fanquber_result fanquber_peg(const fanquber_settings *settings, const void *grammar, size_t grammar_len,
                             const void *name, size_t name_len, const void *input, size_t input_len,
                             void *out, size_t out_size, void *err, size_t err_size);

fanquber_result fanquber_abnf(const fanquber_settings *settings, const void *grammar, size_t grammar_len,
                              const void *name, size_t name_len, const void *input, size_t input_len,
                              void *out, size_t out_size, void *err, size_t err_size);

/* A part of an input: how many bytes stand before it, and how many it has. */
typedef struct fanquber_window {
    size_t at;
    size_t len;
} fanquber_window;

/* Runs a grammar on each window of an input by itself, as fanquber_peg would on its bytes alone, but reads and checks the
 * grammar once. The messages on the grammar, its notes or the fault of its text, stand once at the front of err. The other
 * messages follow, one run after the other, and out holds the outputs in the same order. Each window has a result: the status
 * of its run and the lengths of what the run wrote, or FANQUBER_BAD_SETTINGS where the window does not lie in the input. The
 * returned result has the lengths of all, and the status FANQUBER_DONE: err_len less those of the results is the length of
 * the messages on the grammar. Or the status is FANQUBER_BAD_SETTINGS, and nothing was done, also where results_len is not
 * windows_len. */
fanquber_result fanquber_peg_windows(const fanquber_settings *settings, const void *grammar, size_t grammar_len,
                                     const void *name, size_t name_len, const void *input, size_t input_len,
                                     const fanquber_window *windows, size_t windows_len,
                                     fanquber_result *results, size_t results_len,
                                     void *out, size_t out_size, void *err, size_t err_size);

/* What judges lines by a grammar that is read, checked and lowered once. It begins as FANQUBER_JUDGE, which is closed. The
 * fields belong to the library. A judge may be moved, but of two copies only one may be used. It stays on the thread that
 * opened it, and serves one call at a time. */
typedef struct fanquber_judge {
    void *at;
    bool is_open;
} fanquber_judge;

#define FANQUBER_JUDGE { NULL, false }

/* The answer to a line. */
typedef struct fanquber_answer {
    size_t reached; /* settings.viable: how many letters the longest viable prefix of a rejected line has; else 0 */
    uint8_t status; /* FANQUBER_DONE: the line is derived; FANQUBER_NO_MATCH: it is not; FANQUBER_OVERLONG: it is not
                     * judged, since it is longer than the limit; FANQUBER_COSTLY: it needs more than the budget;
                     * FANQUBER_NO_MEMORY; FANQUBER_BAD_SETTINGS: the judge is closed */
} fanquber_answer;

/* Opens a closed judge by a grammar in ABNF, and writes the messages of fanquber_abnf on the grammar into the buffer, its
 * notes or the fault of its text. The status is FANQUBER_DONE and the judge is open, or FANQUBER_REFUSED, FANQUBER_NO_MEMORY
 * or FANQUBER_BAD_SETTINGS, and it stays closed. The mode must be valid, and has no other effect. The end of lines matters for
 * hints alone. out_len is 0. */
fanquber_result fanquber_abnf_open(const fanquber_settings *settings, const void *grammar, size_t grammar_len,
                                   const void *name, size_t name_len, fanquber_judge *judge, void *err, size_t err_size);

/* Judges a line, which may hold any bytes. A line without the byte that ends lines gets the answer that fanquber_abnf
 * gives to it. */
fanquber_answer fanquber_abnf_judge(fanquber_judge *judge, const void *line, size_t line_len);

/* Frees what an open judge holds, and closes it. */
void fanquber_abnf_close(fanquber_judge *judge);

/* What runs a grammar of peg(1) that is read and checked once. It begins as FANQUBER_RUNNER, which is closed. The fields
 * belong to the library. It may be moved, stays on its thread, and serves one call at a time, as a judge does. */
typedef struct fanquber_runner {
    void *at;
    bool is_open;
} fanquber_runner;

#define FANQUBER_RUNNER { NULL, false }

/* Opens a closed runner by a grammar in the syntax of peg(1), and writes the messages of fanquber_peg on the grammar into the
 * buffer, its notes or the fault of its text. The status is FANQUBER_DONE and the runner is open, or FANQUBER_REFUSED,
 * FANQUBER_NO_MEMORY or FANQUBER_BAD_SETTINGS, and it stays closed. The mode must be valid, and has no other effect.
 * out_len is 0. */
fanquber_result fanquber_peg_open(const fanquber_settings *settings, const void *grammar, size_t grammar_len,
                                  const void *name, size_t name_len, fanquber_runner *runner, void *err, size_t err_size);

/* Runs the grammar on an input, and writes what fanquber_peg would with the settings of opening, without the messages on the
 * grammar. The status is that of the run, or FANQUBER_BAD_SETTINGS, and nothing was done, where the runner is closed. */
fanquber_result fanquber_peg_run(fanquber_runner *runner, const void *input, size_t input_len, void *out, size_t out_size,
                                 void *err, size_t err_size);

/* Frees what an open runner holds, and closes it. */
void fanquber_peg_close(fanquber_runner *runner);

/* What is known of the lines that one of two rules derives and the other does not. */
enum {
    FANQUBER_UNKNOWN = 0,     /* nothing */
    FANQUBER_NEVER = 1,       /* there is no such line, of any length */
    FANQUBER_NEVER_UP_TO = 2, /* there is none of at most len letters */
    FANQUBER_FIRST = 3        /* the first of them, in the order of abnfd(1), has len bytes */
};

typedef struct fanquber_alone {
    size_t len;    /* 0 with FANQUBER_UNKNOWN and FANQUBER_NEVER */
    uint8_t known; /* FANQUBER_UNKNOWN, FANQUBER_NEVER, FANQUBER_NEVER_UP_TO or FANQUBER_FIRST */
} fanquber_alone;

/* The result of a comparison. */
typedef struct fanquber_comparison {
    fanquber_alone old_alone; /* of the lines that the old rule alone derives */
    fanquber_alone new_alone; /* of the lines that the new rule alone derives */
    size_t err_len;           /* the length of the messages on both grammars */
    size_t old_err_len;       /* the length of those on the old grammar, which come first */
    uint8_t status;           /* FANQUBER_DONE: both rules derive the same lines; FANQUBER_NO_MATCH: one derives a line that
                               * the other does not; FANQUBER_NOT_KNOWN; FANQUBER_REFUSED: a grammar is rejected;
                               * FANQUBER_NO_MEMORY; FANQUBER_BAD_SETTINGS */
} fanquber_comparison;

/* How many pairs of states abnfd(1) looks at without options. */
enum { FANQUBER_DEFAULT_BUDGET = 1000000 };

/* Compares the lines of any length that a rule of one grammar in ABNF derives with those of a rule of another. Each rule is
 * that of its name if the settings say that names are given and its name is not empty; else it is the grammar's first. For
 * each of both answers the search looks at no more than so many pairs of states.
 *
 * The first line that each rule alone derives is written at the front of its buffer, if it is known, and the messages of
 * fanquber_abnf on both grammars at the front of err, each as much as there is room for. Settings are used as
 * fanquber_abnf_open uses them. With FANQUBER_NO_MEMORY and FANQUBER_BAD_SETTINGS the buffers are unchanged. */
fanquber_comparison fanquber_compare(const fanquber_settings *settings, size_t budget,
                                     const void *old_grammar, size_t old_grammar_len,
                                     const void *old_name, size_t old_name_len,
                                     const void *new_grammar, size_t new_grammar_len,
                                     const void *new_name, size_t new_name_len,
                                     void *old_line, size_t old_line_size, void *new_line, size_t new_line_size,
                                     void *err, size_t err_size);

/* Which lines are listed. */
enum {
    FANQUBER_DERIVED = 0, /* those that the rule derives: shorter ones first, in the order of abnfg(1), each once */
    FANQUBER_MISSED = 1,  /* near ones that it does not derive, as abnfg(1) lists them with `-m miss` */
    FANQUBER_EDGES = 2,   /* near ones as abnfg(1) lists them with `-m miss -e` */
    FANQUBER_RANDOM = 3,  /* lines that it derives, drawn by the seed as with `-m random`: they may come again, and have
                           * no end if there is one */
    FANQUBER_SAMPLES = 4, /* of those that it derives, the ones that abnfg(1) lists with `-a` */
    FANQUBER_COVER = 5    /* lines that it derives and that reach each alternative and bound, as with `-m cover` */
};

/* Lines of a rule, one after another. They begin as FANQUBER_LINES, which is closed. The fields belong to the library. They
 * may be moved, stay on their thread, and serve one call at a time, as a judge does. */
typedef struct fanquber_lines {
    void *at;
    bool is_open;
} fanquber_lines;

#define FANQUBER_LINES { NULL, false }

/* The next line. */
typedef struct fanquber_line {
    size_t len;     /* how many bytes it has, whether there is room for them or not; else 0 */
    uint8_t status; /* FANQUBER_DONE: there is a line; FANQUBER_NO_MATCH: there is none; FANQUBER_NOT_KNOWN: the grammar has
                     * too many states; FANQUBER_NO_MEMORY; FANQUBER_BAD_SETTINGS: nothing is open */
} fanquber_line;

/* Opens closed lines of a grammar in ABNF, and writes the messages of fanquber_abnf on the grammar into the buffer, its notes
 * or the fault of its text. The lines have at most as many letters as the limit of the settings, and not the byte that ends
 * lines. The status is FANQUBER_DONE and the lines are open, or FANQUBER_REFUSED, FANQUBER_NO_MEMORY or
 * FANQUBER_BAD_SETTINGS, and they stay closed. The mode must be valid, and has no other effect. out_len is 0. */
fanquber_result fanquber_lines_open(const fanquber_settings *settings, uint8_t which, const void *grammar, size_t grammar_len,
                                    const void *name, size_t name_len, fanquber_lines *lines, void *err, size_t err_size);

/* Writes the next line at the front of the buffer, as much of it as there is room for. A line of as many bytes as the limit,
 * or four times as many in UTF-8, fits always. After FANQUBER_NOT_KNOWN or FANQUBER_NO_MEMORY nothing is said of later
 * lines. */
fanquber_line fanquber_lines_next(fanquber_lines *lines, void *line, size_t line_size);

/* Frees what open lines hold, and closes them. */
void fanquber_lines_close(fanquber_lines *lines);

#ifdef __cplusplus
}
#endif

#endif
