/* Calls every function of the desk with buffers exactly before or behind a page that must not be touched.
 * tests/guard builds it with sanitizers and runs it.
 *   guard COUNT [SEED]   so many random inputs; ends in 'N inputs, M calls, 0 faults' */
#include "caller.h"
#include <pthread.h>
#include <signal.h>
#include <stdio.h>
#include <stdlib.h>
#include <string.h>
#include <sys/resource.h>
#include <sys/wait.h>
#include <unistd.h>

enum { THREADS = 8 };

/* Leaks of the harness are of no interest, and the search for them needs rights that a container may lack. */
const char *__asan_default_options(void);
const char *__asan_default_options(void)
{
    return "detect_leaks=0";
}

/* The largest inputs and results: what is within a limit needs the space of desk.h's macros, and no more; what is above is 18. */
static const char one_op[] = "version=1\ncount=1\nop=0 name=A jump=0 types=-\n";

static void repeat(struct bytes *b, const char *what, size_t size, size_t count)
{
    for (size_t i = 0; i < count; i++)
        put(b, what, size);
}

static void expect(struct caller *c, const char *about, uint64_t number, size_t out, size_t work)
{
    uint64_t r = 1;
    c->about = about;
    struct needs n = try_input(c, &r);
    if (n.answer.number != number || n.out != out || n.work != work) {
        printf("%s: expected number %llu, out %zu, entries %zu\n", about, (unsigned long long)number, out, work);
        fail(c, "something else is needed", n.answer, n.out, n.work);
    }
}

static struct bytes *begin(struct caller *c, enum operation what, const char *sheet)
{
    input_empty(c->in, what);
    put_text(&c->in->part[SHEET], sheet);
    return &c->in->part[BODY];
}

static void longest_sheet(struct bytes *b)
{
    char line[256];
    put_text(b, "version=4294967295\ncount=256\n");
    for (unsigned code = 0; code < DESK_MAX_OPCODES; code++) {
        snprintf(line, sizeof line, "op=%u name=N%047u jump=1 types=", code, code);
        put_text(b, line);
        for (int k = 0; k < DESK_MAX_OPERANDS; k++)
            put_text(b, k == 0 ? "UInt32S" : ",UInt32S");
        put_text(b, "\n");
    }
}

static void limits(struct caller *c)
{
    static const char ret[] = "version=1\ncount=1\nop=0 name=Ret jump=0 types=-\n";
    static const char wide[] = "version=1\ncount=1\nop=0 name=A jump=0 types="
                               "Double,Double,Double,Double,Double,Double,Double,Double\n";
    const size_t n = DESK_MAX_BODY;
    struct bytes *b = begin(c, DECODE, one_op);
    repeat(b, "", 1, n);
    expect(c, "decoding the longest body", DESK_OK, DESK_DECODE_WORDS(n), 0);
    put(b, "", 1);
    expect(c, "decoding a body too long", DESK_TOO_LARGE, 0, 0);

    b = begin(c, DECODE, "");
    longest_sheet(&c->in->part[SHEET]);
    if (c->in->part[SHEET].count != DESK_MAX_SHEET) {
        printf("the longest sheet has %zu bytes\n", c->in->part[SHEET].count);
        exit(1);
    }
    expect(c, "the longest sheet", DESK_OK, 0, 0);

    static const uint64_t doubles[DESK_RECORD_WORDS] = {0, 0, 65, 8, 5, 1, 5, 2, 5, 3, 5, 4, 5, 5, 5, 6, 5, 7, 5, 8};
    b = begin(c, ENCODE, wide);
    repeat(b, (const char *)doubles, sizeof doubles, 1000);
    expect(c, "encoding the longest instructions", DESK_OK, DESK_ENCODE_BYTES(20000), 0);
    repeat(b, (const char *)doubles, sizeof doubles, 9);
    expect(c, "encoding to a body too long", DESK_TOO_LARGE, 0, 0);

    b = begin(c, LIST, ret);
    c->in->offsets = false;
    repeat(b, "", 1, n);
    /* A line 'Ret' for each, and 'L' with the offset for each but the first. */
    const size_t lines = 4 * n + 3 * (n - 1) + 1 * 9 + 2 * 90 + 3 * 900 + 4 * 9000 + 5 * (n - 10000);
    expect(c, "listing with as many labels as can be", DESK_OK, lines, DESK_LIST_ENTRIES(n));
    c->in->offsets = true;
    expect(c, "a listing too long", DESK_TOO_LARGE, 0, 0);
    put(b, "", 1);
    expect(c, "listing a body too long", DESK_TOO_LARGE, 0, 0);

    b = begin(c, ASSEMBLE, one_op);
    repeat(b, "L:\nA\n", 5, n);
    b->count--;
    expect(c, "assembling with as many labels as can be", DESK_OK, DESK_ASSEMBLE_BYTES, DESK_ASSEMBLE_LABELS(b->count));
    put_text(b, "\nA");
    expect(c, "assembling to a body too long", DESK_TOO_LARGE, 0, 0);
    b->count = 0;
    repeat(b, " \n", 2, DESK_MAX_TEXT / 2);
    expect(c, "assembling the longest text", DESK_OK, 0, 0);
    put_text(b, "\n");
    expect(c, "assembling a text too long", DESK_TOO_LARGE, 0, 0);

    b->count = 0;
    repeat(b, " ", 1, DESK_MAX_LINE);
    expect(c, "assembling the longest line", DESK_OK, 0, 0);
    put_text(b, " ");
    expect(c, "assembling a line too long", DESK_LONG_LINE, 0, 0);

    /* Its line is the offset, two spaces, the name, a space, and the text in quotes. */
    b = begin(c, LIST, "version=1\ncount=1\nop=0 name=A jump=0 types=UInt8S\n");
    repeat(b, "", 1, 2);
    repeat(&c->in->part[BYTES], "a", 1, DESK_MAX_LINE - 10);
    put_u32(&c->in->part[ENDS], DESK_MAX_LINE - 10);
    expect(c, "listing the longest line", DESK_OK, DESK_MAX_LINE + 1, 0);
    put_text(&c->in->part[BYTES], "a");
    c->in->part[ENDS].count = 0;
    put_u32(&c->in->part[ENDS], DESK_MAX_LINE - 9);
    expect(c, "listing a line too long", DESK_LONG_LINE, 0, 0);
    /* Lines of 4,096 bytes with their ends. */
    c->in->offsets = false;
    c->in->part[ENDS].count = 0;
    put_text(&c->in->part[BYTES], "aaaa");
    put_u32(&c->in->part[ENDS], 4096 - 5);
    repeat(b, "", 1, 2 * (DESK_MAX_LISTING / 4096) - 2);
    expect(c, "the longest listing", DESK_OK, DESK_LIST_BYTES, 0);

    b = begin(c, CARRY, "version=1\ncount=1\nop=0 name=A jump=0 types=Reg8,Reg8,Reg8,Reg8,Reg8,Reg8,Reg8,Reg8\n");
    put_text(&c->in->part[SHEET2], "version=1\ncount=1\nop=9 name=A jump=0 types="
                                   "Reg32,Reg32,Reg32,Reg32,Reg32,Reg32,Reg32,Reg32\n");
    repeat(b, "\0ABCDEFGH", 9, 1985);
    expect(c, "carrying to the widest", DESK_OK, 33 * 1985, 1985);
    repeat(b, "\0ABCDEFGH", 9, 1);
    expect(c, "carrying to a body too long", DESK_TOO_LARGE, 0, 0);
    b = begin(c, CARRY, one_op);
    put_text(&c->in->part[SHEET2], one_op);
    repeat(b, "", 1, n);
    expect(c, "carrying the longest body", DESK_OK, n, DESK_CARRY_LABELS(n));

    b = begin(c, LIST, one_op);
    for (size_t i = 0; i < DESK_MAX_STRINGS; i++)
        put_u32(&c->in->part[ENDS], 0);
    repeat(&c->in->part[BYTES], "a", 1, DESK_MAX_STRING_BYTES);
    expect(c, "the largest string table", DESK_OK, 0, 0);
    put(&c->in->part[BYTES], "a", 1);
    expect(c, "string bytes too many", DESK_TOO_LARGE, 0, 0);
    c->in->part[BYTES].count = 0;
    put_u32(&c->in->part[ENDS], 0);
    expect(c, "strings too many", DESK_TOO_LARGE, 0, 0);
}

/* Whether a child that makes this call dies of the fault. */
static bool faults(struct caller *c, enum layout layout, size_t out, size_t work, int wrong)
{
    fflush(stdout);
    pid_t child = fork();
    if (child == 0) {
        const struct rlimit none = {0, 0};
        setrlimit(RLIMIT_CORE, &none);
        signal(SIGSEGV, SIG_DFL);
        signal(SIGBUS, SIG_DFL);
        size_t more[PARTS + 2] = {0};
        uint8_t *out_at = space_at(&c->out, out * out_element(c->in->what), layout);
        uint8_t *work_at = space_at(&c->work, work * work_element(c->in->what), layout);
        lend_inputs(c, layout);
        if (wrong >= 0)
            more[wrong] = 1;
        /* Behind a guard page a larger count harms nothing; there the buffer is said to begin two elements earlier, since the
           first word of a record is not read. */
        if (layout == BEHIND && wrong >= 0) {
            if (wrong < PARTS)
                c->lent[wrong] = (const uint8_t *)c->lent[wrong] - 2 * element(c->in, wrong);
            else if (wrong == PARTS)
                out_at -= 2 * out_element(c->in->what);
            else
                work_at -= 2 * work_element(c->in->what);
        }
        call(c, out_at, out, work_at, work, more);
        _exit(0);
    }
    int status = 0;
    if (child < 0 || waitpid(child, &status, 0) != child)
        exit(2);
    return WIFSIGNALED(status) && (WTERMSIG(status) == SIGSEGV || WTERMSIG(status) == SIGBUS);
}

/* A count that is one larger than the buffer has to fault: otherwise the calls above would show nothing. */
static int wrong_counts(struct caller *c)
{
    static const struct {
        enum operation what;
        int wrong[6];
    } tries[] = {{DECODE, {SHEET, BODY, PARTS, -1}},
                 {DECODE_FUNCTION, {SHEET, PARTS, -1}},
                 {ENCODE, {SHEET, BODY, PARTS, -1}},
                 {LIST, {SHEET, ENDS, BODY, PARTS, PARTS + 1, -1}},
                 {LIST_FUNCTION, {SHEET, ENDS, PARTS, PARTS + 1, -1}},
                 {LIST_MODULE, {SHEET, ENDS, PARTS, PARTS + 1, -1}},
                 {ASSEMBLE, {SHEET, ENDS, BODY, PARTS, PARTS + 1, -1}},
                 {CARRY, {SHEET, SHEET2, BODY, PARTS, PARTS + 1, -1}}};
    int seen = 0;
    for (size_t i = 0; i < sizeof tries / sizeof tries[0]; i++) {
        const enum operation what = tries[i].what;
        struct bytes *b = begin(c, what, one_op);
        put_text(&c->in->part[SHEET2], one_op);
        put_text(&c->in->part[BYTES], "a");
        put_u32(&c->in->part[ENDS], 1);
        put_u32(&c->in->part[FUNCTIONS], 0);
        put_u32(&c->in->part[FUNCTIONS], 3);
        put_u32(&c->in->part[FUNCTIONS], 0);
        if (what == ENCODE)
            repeat(b, "\0\0\0\0\0\0\0", 8, DESK_RECORD_WORDS);
        else
            put(b, what == ASSEMBLE ? "A\nA" : "\0\0", 3);
        for (int layout = BEFORE; layout < LAYOUTS; layout++) {
            c->about = "a call as it should be";
            if (faults(c, layout, 100, 4, -1))
                fail(c, "it faults", (struct desk_answer){0}, 100, 4);
            c->about = "a wrong count";
            for (const int *wrong = tries[i].wrong; *wrong >= 0; wrong++, seen++) {
                /* An element is taken out where a count that is one too large would else be refused without a look at that
                   element; and a sheet that lacks its last byte is refused, for which all of out is written. */
                struct bytes *part = &c->in->part[*wrong == PARTS ? SHEET : *wrong > PARTS ? BODY : *wrong];
                const bool short_sheet = *wrong == SHEET || *wrong == SHEET2 || *wrong == PARTS;
                const size_t cut = short_sheet ? 1 : what == ENCODE && *wrong == BODY ? 8 : 0;
                part->count -= cut;
                if (!faults(c, layout, 100, 4, *wrong)) {
                    printf("part %d, layout %d\n", *wrong, layout);
                    fail(c, "it does not fault", (struct desk_answer){0}, 100, 4);
                }
                part->count += cut;
            }
        }
    }
    return seen;
}

struct share {
    uint64_t seed, count, sum;
};

static void *on_a_thread(void *share)
{
    struct share *s = share;
    struct caller *c = malloc(sizeof *c);
    if (c == NULL)
        exit(2);
    caller_make(c);
    random_inputs(c, s->seed, s->count);
    s->sum = c->sum;
    caller_drop(c);
    free(c);
    return NULL;
}

/* The same inputs on eight threads at once, each with the stack that desk.h names. */
static void threads(uint64_t seed, uint64_t count)
{
    pthread_t thread[THREADS];
    struct share share[THREADS + 1];
    pthread_attr_t attr;
    pthread_attr_init(&attr);
    pthread_attr_setstacksize(&attr, DESK_STACK);
    for (int i = 0; i <= THREADS; i++)
        share[i] = (struct share){seed, count, 0};
    on_a_thread(&share[THREADS]);
    for (int i = 0; i < THREADS; i++)
        if (pthread_create(&thread[i], &attr, on_a_thread, &share[i]) != 0)
            exit(2);
    for (int i = 0; i < THREADS; i++) {
        pthread_join(thread[i], NULL);
        if (share[i].sum != share[THREADS].sum) {
            printf("thread %d has other answers than one thread alone\n", i);
            exit(1);
        }
    }
}

/* Lists a body of few bytes, one of the largest size, and one whose jumps all go to another place outside. */
static void *lists(void *failed)
{
    static const uint8_t sheet[] = "version=1\ncount=2\nop=0 name=A jump=0 types=-\nop=1 name=J jump=1 types=Addr32\n";
    static uint8_t body[DESK_MAX_BODY], out[DESK_LIST_BYTES];
    static uint32_t entries[DESK_LIST_ENTRIES(DESK_MAX_BODY)];
    static const size_t sizes[] = {2, DESK_MAX_BODY, DESK_MAX_BODY / 5 * 5};
    for (int i = 0; i < 3; i++) {
        for (size_t at = 0; i == 2 && at + 5 <= sizes[i]; at += 5) {
            const uint32_t distance = (uint32_t)(1000000 + at);
            body[at] = 1;
            memcpy(body + at + 1, &distance, 4);
        }
        const struct desk_answer a = desk_list(sheet, sizeof sheet - 1, NULL, 0, NULL, 0, body, sizes[i], true, true, true, out,
                                               sizeof out, entries, sizeof entries / sizeof *entries);
        if (a.number != 0 || a.length == 0)
            *(bool *)failed = true;
    }
    return NULL;
}

/* That on a thread with the stack that desk.h names for it, where more would fault. */
static void small_stack(void)
{
    pthread_t thread;
    pthread_attr_t attr;
    bool failed = false;
    pthread_attr_init(&attr);
    pthread_attr_setstacksize(&attr, DESK_LIST_STACK);
    if (pthread_create(&thread, &attr, lists, &failed) != 0)
        exit(2);
    pthread_join(thread, NULL);
    if (failed) {
        printf("a listing with the stack for it is refused\n");
        exit(1);
    }
}

int main(int argc, char **argv)
{
    static struct caller c;
    const uint64_t count = argc > 1 ? strtoull(argv[1], NULL, 10) : 1000;
    const uint64_t seed = argc > 2 ? strtoull(argv[2], NULL, 10) : 1;
    caller_make(&c);
    printf("%d wrong counts fault\n", wrong_counts(&c));
    limits(&c);
    memset(c.numbers, 0, sizeof c.numbers);
    random_inputs(&c, seed, count);
    /* What the random inputs came to; a function that was never called with success, or never refused, was not tried. */
    for (int what = 0; what < OPERATIONS; what++) {
        static const char *const names[OPERATIONS] = {"decode", "decode_function", "encode",   "list",
                                                      "list_function", "list_module", "assemble", "carry"};
        uint64_t refused = 0;
        printf("desk_%s:", names[what]);
        for (int n = 0; n <= DESK_REFUSALS; n++)
            if (c.numbers[what][n] > 0) {
                printf(" %d:%llu", n, (unsigned long long)c.numbers[what][n]);
                refused += n > 0 ? c.numbers[what][n] : 0;
            }
        printf("\n");
        if (count >= 1000 && (c.numbers[what][0] < count / 50 || refused < count / 100)) {
            printf("too few of one kind\n");
            return 1;
        }
    }
    threads(seed, count / 10);
    printf("%d threads have the same answers\n", THREADS);
    small_stack();
    printf("listing has enough of %d bytes of stack\n", DESK_LIST_STACK);
    printf("%llu inputs, %llu calls, 0 faults\n", (unsigned long long)count, (unsigned long long)c.calls);
    caller_drop(&c);
    return 0;
}
