/* calls: for libFuzzer. It makes calls of a grammar, settings and an input, and aborts where one of them does what
 * fanquber.h does not say: a byte beyond a buffer, memory that is not freed, two answers to one question.
 *
 * Of the bytes the first four are settings (see `read_case`). The grammar, the name and the input follow, with a byte
 * FF after each of the first two. Each buffer ends where a page begins that may be neither read nor written. All blocks
 * of memory are counted. Link it with -Wl,--wrap=malloc,--wrap=realloc,--wrap=free. */
#include <fanquber.h>
#include <malloc.h>
#include <stdio.h>
#include <stdlib.h>
#include <string.h>
#include <sys/mman.h>
#include <unistd.h>

#ifndef MOST_LINES
#define MOST_LINES 9 /* of an input that a judge answers */
#endif
enum { ROOM = 1 << 16, MOST_PRINTED = 1 << 18, MEMORY = 64 << 20, FEATURES = 1 << 14 };

#define CHECK(holds) \
    do { \
        if (!(holds)) { \
            fprintf(stderr, "%s:%d: not so: %s\n", __FILE__, __LINE__, #holds); \
            abort(); \
        } \
    } while (0)

/* What a run came to, for libFuzzer, since the library is built without its counters. */
__attribute__((section("__libfuzzer_extra_counters"))) static uint8_t features[FEATURES];

static void feature(uint32_t kind, uint32_t value) {
    features[((kind * 2654435761u) ^ (value * 2246822519u)) >> 4 & (FEATURES - 1)] = 1;
}

static uint32_t log_of(size_t value) {
    uint32_t log = 0;
    for (; value > 0; value /= 2) log++;
    return log;
}

/* Memory: how many blocks and bytes are live, and how many allocations are granted until one fails; -1: all. */
static long blocks, granted = -1;
static size_t bytes;
static uint32_t last;
static int was_refused;

void *__real_malloc(size_t size);
void *__real_realloc(void *block, size_t size);
void __real_free(void *block);

static int is_refused(size_t size) {
    feature(last, log_of(size)); /* two allocations in a row show which way a call went */
    last = 100 + log_of(size);
    if (granted > 0 && bytes <= MEMORY && size <= MEMORY - bytes) granted--;
    const int refused = granted == 0 || bytes > MEMORY || size > MEMORY - bytes;
    was_refused |= refused;
    return refused;
}

void *__wrap_malloc(size_t size) {
    void *block = is_refused(size) ? NULL : __real_malloc(size);
    blocks += block != NULL;
    bytes += block ? malloc_usable_size(block) : 0;
    return block;
}

void *__wrap_realloc(void *block, size_t size) {
    size_t old = block ? malloc_usable_size(block) : 0;
    void *moved = is_refused(size) ? NULL : __real_realloc(block, size);
    blocks += moved != NULL && block == NULL;
    bytes += moved ? malloc_usable_size(moved) - old : 0;
    return moved;
}

void __wrap_free(void *block) {
    blocks -= block != NULL;
    bytes -= block ? malloc_usable_size(block) : 0;
    __real_free(block);
}

/* A buffer whose last byte stands before a page that may not be touched. */
typedef struct buffer {
    char *end;
    size_t len;
} buffer;

enum { GRAMMAR, NAME, INPUT, LINE, OUT, ERR, OUT_AGAIN, ERR_AGAIN, BUFFERS };
static char *ends[BUFFERS];

static void map_buffers(void) {
    size_t page = (size_t)sysconf(_SC_PAGESIZE);
    for (int at = 0; at < BUFFERS; at++) {
        char *front = mmap(NULL, ROOM + page, PROT_READ | PROT_WRITE, MAP_PRIVATE | MAP_ANONYMOUS, -1, 0);
        CHECK(front != MAP_FAILED && mprotect(front + ROOM, page, PROT_NONE) == 0);
        ends[at] = front + ROOM;
    }
}

/* Returns a buffer with this text. */
static buffer put(int at, const uint8_t *text, size_t len) {
    memcpy(ends[at] - len, text, len);
    return (buffer){ ends[at], len };
}

static char *at_front(buffer of) { return of.end - of.len; }

/* A call's outputs, in buffers that were filled with `#`. */
typedef struct reply {
    fanquber_result got;
    buffer out, err;
} reply;

static reply room_for(int out, size_t out_size, int err, size_t err_size) {
    memset(ends[out] - out_size, '#', out_size);
    memset(ends[err] - err_size, '#', err_size);
    return (reply){ { 0, 0, 0 }, { ends[out], out_size }, { ends[err], err_size } };
}

/* How many bytes of an output a buffer holds. The others are as they were. */
static size_t held(buffer of, size_t len) {
    size_t kept = len < of.len ? len : of.len;
    for (size_t at = kept; at < of.len; at++) CHECK(at_front(of)[at] == '#');
    return kept;
}

typedef struct test {
    fanquber_settings settings;
    int is_abnf;
    size_t out_size, err_size;
    long granted;
    buffer grammar, name, input;
} test;

static reply call(const test *it, fanquber_settings settings, buffer grammar, int out, size_t out_size, int err,
                  size_t err_size) {
    reply made = room_for(out, out_size, err, err_size);
    made.got = (it->is_abnf ? fanquber_abnf : fanquber_peg)(
        &settings, at_front(grammar), grammar.len, at_front(it->name), it->name.len, at_front(it->input), it->input.len,
        at_front(made.out), out_size, at_front(made.err), err_size);
    CHECK(made.got.status <= FANQUBER_BAD_SETTINGS);
    CHECK(made.got.status != FANQUBER_BAD_SETTINGS || (made.got.out_len == 0 && made.got.err_len == 0));
    held(made.out, made.got.out_len);
    held(made.err, made.got.err_len);
    return made;
}

/* A failed allocation ends a call early; what it wrote is not compared. */
static int is_cut(uint8_t status) { return status == FANQUBER_FAULT || status == FANQUBER_NO_MEMORY; }

static int is_whole(const reply *it) { return it->got.out_len <= it->out.len && it->got.err_len <= it->err.len; }

static int are_same(const reply *a, const reply *b) {
    return a->got.status == b->got.status && a->got.out_len == b->got.out_len && a->got.err_len == b->got.err_len;
}

/* Words of messages, without numbers and names, show which way a call went. */
static void note_messages(const reply *it) {
    const char *text = at_front(it->err);
    uint32_t hash = 0;
    int is_name = 0;
    for (size_t at = 0, len = held(it->err, it->got.err_len); at < len; at++) {
        if (text[at] == '\'' || text[at] == '"') is_name = !is_name;
        else if (text[at] == '\n') feature(1, hash), hash = 0, is_name = 0;
        else if (!is_name && (text[at] < '0' || text[at] > '9')) hash = hash * 31 + (uint8_t)text[at];
    }
    feature(2, it->got.status), feature(3, log_of(it->got.out_len)), feature(4, log_of(it->got.err_len));
}

/* The call with small buffers, or with a failed allocation; and the call with room. Both write the same. But after a
 * failed allocation messages may be left unexplained. */
static reply whole_run(const test *it) {
    was_refused = 0;
    granted = it->granted;
    reply small = call(it, it->settings, it->grammar, OUT_AGAIN, it->out_size, ERR_AGAIN, it->err_size);
    granted = -1;
    note_messages(&small);
    reply all = call(it, it->settings, it->grammar, OUT, ROOM, ERR, ROOM);
    note_messages(&all);
    if (is_cut(small.got.status) || is_cut(all.got.status) || !is_whole(&all)) return all;
    CHECK(small.got.status == all.got.status && small.got.out_len == all.got.out_len);
    CHECK(memcmp(at_front(small.out), at_front(all.out), held(small.out, small.got.out_len)) == 0);
    if (was_refused && it->settings.explain) return all;
    CHECK(are_same(&small, &all));
    CHECK(memcmp(at_front(small.err), at_front(all.err), held(small.err, small.got.err_len)) == 0);
    return all;
}

/* The canonical text of a grammar is its own canonical text, and does with the input what the grammar does. */
static void canonical(const test *it) {
    fanquber_settings settings = it->settings;
    settings.mode = FANQUBER_PRINT;
    settings.explain = false;
    reply first = call(it, settings, it->grammar, OUT, ROOM, ERR, ROOM);
    if (first.got.status != FANQUBER_DONE || !is_whole(&first)) return;
    buffer text = put(LINE, (const uint8_t *)at_front(first.out), first.got.out_len);
    reply second = call(it, settings, text, OUT_AGAIN, ROOM, ERR_AGAIN, ROOM);
    if (is_cut(second.got.status)) return;
    CHECK(second.got.status == FANQUBER_DONE && second.got.out_len == text.len);
    CHECK(memcmp(at_front(second.out), at_front(text), text.len) == 0);
    settings.mode = FANQUBER_RUN;
    first = call(it, settings, it->grammar, OUT, ROOM, ERR, ROOM);
    second = call(it, settings, text, OUT_AGAIN, ROOM, ERR_AGAIN, ROOM);
    if (is_cut(first.got.status) || is_cut(second.got.status) || !is_whole(&first)) return;
    CHECK(first.got.status == second.got.status && first.got.out_len == second.got.out_len);
    CHECK(memcmp(at_front(first.out), at_front(second.out), first.got.out_len) == 0);
}

/* A judge answers each line as the run did, whose output this is. */
static void judge_lines(const test *it, const reply *run) {
    fanquber_judge judge = FANQUBER_JUDGE;
    reply opened = room_for(OUT_AGAIN, 0, ERR_AGAIN, it->err_size);
    opened.got = fanquber_abnf_open(&it->settings, at_front(it->grammar), it->grammar.len, at_front(it->name),
                                    it->name.len, &judge, at_front(opened.err), opened.err.len);
    CHECK(opened.got.out_len == 0 && judge.is_open == (opened.got.status == FANQUBER_DONE));
    held(opened.err, opened.got.err_len);
    const char *said = at_front(run->out), *front = at_front(it->input), *end = it->input.end;
    for (int count = 0; judge.is_open && front < end && count < MOST_LINES; count++) {
        const char *stop = memchr(front, it->settings.nul ? 0 : '\n', (size_t)(end - front));
        size_t len = (size_t)((stop ? stop : end) - front);
        buffer line = put(LINE, (const uint8_t *)front, len);
        fanquber_answer answer = fanquber_abnf_judge(&judge, at_front(line), len);
        fanquber_answer again = fanquber_abnf_judge(&judge, at_front(line), len);
        CHECK(answer.status != FANQUBER_FAULT && answer.status != FANQUBER_BAD_SETTINGS);
        CHECK(is_cut(answer.status) || is_cut(again.status) || answer.status == again.status);
        CHECK((answer.status == FANQUBER_OVERLONG) == (len > it->settings.limit));
        CHECK(answer.reached <= len);
        if (is_cut(answer.status) || answer.status == FANQUBER_OVERLONG || answer.status == FANQUBER_COSTLY) break;
        if (it->settings.mode == FANQUBER_RUN && run->got.status <= FANQUBER_OVERLONG && is_whole(run)) {
            char want[32] = "yes\n";
            if (answer.status == FANQUBER_NO_MATCH)
                snprintf(want, sizeof want, it->settings.viable ? "no %zu\n" : "no\n", answer.reached);
            CHECK(said + strlen(want) <= at_front(run->out) + run->got.out_len);
            CHECK(memcmp(said, want, strlen(want)) == 0);
            said += strlen(want);
        }
        front = stop ? stop + 1 : end;
    }
    fanquber_abnf_close(&judge);
    CHECK(!judge.is_open);
}

/* A runner and a window of all the input write what the run does, with the messages on the grammar once. */
static void run_opened(const test *it, const reply *run) {
    fanquber_runner runner = FANQUBER_RUNNER;
    reply opened = room_for(OUT_AGAIN, 0, ERR_AGAIN, ROOM / 2);
    opened.got = fanquber_peg_open(&it->settings, at_front(it->grammar), it->grammar.len, at_front(it->name),
                                   it->name.len, &runner, at_front(opened.err), opened.err.len);
    CHECK(opened.got.out_len == 0 && runner.is_open == (opened.got.status == FANQUBER_DONE));
    const size_t front = opened.got.err_len;
    held(opened.err, front);
    int is_compared = it->settings.mode == FANQUBER_RUN && is_whole(run) && !is_cut(run->got.status);
    for (int turn = 0; turn < 2 && runner.is_open; turn++) {
        reply made = room_for(OUT_AGAIN, ROOM, ERR_AGAIN, ROOM);
        made.got = fanquber_peg_run(&runner, at_front(it->input), it->input.len, at_front(made.out), made.out.len,
                                    at_front(made.err), made.err.len);
        held(made.out, made.got.out_len);
        held(made.err, made.got.err_len);
        if (!is_compared || is_cut(made.got.status)) continue;
        CHECK(made.got.status == run->got.status && made.got.out_len == run->got.out_len);
        CHECK(memcmp(at_front(made.out), at_front(run->out), made.got.out_len) == 0);
        CHECK(front + made.got.err_len == run->got.err_len);
        CHECK(memcmp(at_front(made.err), at_front(run->err) + front, made.got.err_len) == 0);
    }
    fanquber_peg_close(&runner);
    CHECK(!runner.is_open);
    const fanquber_window windows[] = { { 0, it->input.len }, { it->input.len / 2, 1 }, { it->input.len, 0 } };
    fanquber_result results[3];
    reply made = room_for(OUT_AGAIN, ROOM, ERR_AGAIN, ROOM);
    made.got = fanquber_peg_windows(&it->settings, at_front(it->grammar), it->grammar.len, at_front(it->name),
                                    it->name.len, at_front(it->input), it->input.len, windows, 3, results, 3,
                                    at_front(made.out), made.out.len, at_front(made.err), made.err.len);
    held(made.out, made.got.out_len);
    held(made.err, made.got.err_len);
    if (made.got.status != FANQUBER_DONE || !is_compared || is_cut(results[0].status)) return;
    CHECK(results[0].status == run->got.status && results[0].out_len == run->got.out_len);
    CHECK(memcmp(at_front(made.out), at_front(run->out), run->got.out_len) == 0);
}

/* Reads a test from bytes. Returns whether there is one. */
static int read_case(test *it, const uint8_t *data, size_t size) {
    static const size_t limits[] = { 64, 1, 2, 7, 16, 32, 48, 100 }, sizes[] = { 0, 1, 2, 5, 10, 30, 100, 4096 };
    const uint8_t *first, *second, *text = data + 4, *end = data + size;
    if (size < 6 || size > ROOM / 8 || !(first = memchr(text, 0xFF, size - 4))) return 0;
    if (!(second = memchr(first + 1, 0xFF, (size_t)(end - first - 1)))) return 0;
    it->settings = (fanquber_settings)FANQUBER_SETTINGS;
    it->settings.named = data[0] & 1;
    it->settings.raw = data[0] >> 1 & 1;
    it->settings.viable = data[0] >> 2 & 1;
    it->settings.nul = data[0] >> 3 & 1;
    it->settings.explain = data[0] >> 4 & 1;
    it->settings.letters = data[0] >> 5 & 1;
    it->settings.mode = (data[0] >> 6) % 3;
    it->is_abnf = data[1] & 1;
    it->settings.limit = limits[data[1] >> 1 & 7];
    it->settings.budget = data[0] >> 6 == 3 ? 1u + data[3] : it->is_abnf ? 0 : MOST_PRINTED;
    it->out_size = sizes[data[1] >> 4 & 7];
    it->err_size = sizes[data[2] & 7];
    it->granted = data[2] >> 3 ? 1 + (data[2] >> 3) * (data[3] + 1l) / 4 : -1;
    it->grammar = put(GRAMMAR, text, (size_t)(first - text));
    it->name = put(NAME, first + 1, (size_t)(second - first - 1));
    it->input = put(INPUT, second + 1, (size_t)(end - second - 1));
    return 1;
}

int LLVMFuzzerTestOneInput(const uint8_t *data, size_t size) {
    test it;
    if (!ends[0]) map_buffers();
    if (!read_case(&it, data, size)) return 0;
    const long base = blocks;
    bytes = 0;
    reply run = whole_run(&it);
    if (it.is_abnf) judge_lines(&it, &run);
    else run_opened(&it, &run);
    canonical(&it);
    CHECK(blocks == base);
    return 0;
}
