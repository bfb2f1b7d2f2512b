/*
 * The host: makes the library's calls for a test that cannot link it, since the library is x86-64 code and the test may not be.
 *
 * It reads a batch from standard input (how many words follow, then one frame after another), makes each frame's call in the frame's own
 * memory, and writes the frames back as they are then; and so on until the input ends. src/engine/frame.rs has the other side. Words are in
 * the order of x86-64's bytes. With REED_BLOCKS in its environment each part that a call is lent is in a block of its own.
 */
#include "reedbiscuit.h"

/* The C library without its headers; ssize_t is long on x86-64 Linux. */
extern long read(int descriptor, void *to, size_t bytes);
extern long write(int descriptor, const void *from, size_t bytes);
extern void *malloc(size_t bytes);
extern void *memcpy(void *to, const void *from, size_t bytes);
extern void free(void *block);
extern void abort(void);
extern char *getenv(const char *name);

enum { STANDARD_INPUT, STANDARD_OUTPUT };
enum { ALL_MADE, CUT_SHORT, TOO_LONG, NO_SUCH_CALL };
enum { ANSWER_WORDS = 5, AREAS = 4, WORKING_AREA = 2, BATCH_WORDS = 1 << 22 };

enum call { CALL_STACK, CALL_READ, CALL_COMPILE, CALL_CHECK, CALL_RUN, CALL_WATCH, CALL_LIST_RUN };

/* Of the stack that calls are made on; and what stands there until it is written to. */
enum { STACK_BYTES = 1 << 17, PAINT = 0xA5 };

/* Memory that a call is lent, with guards around it. */
struct area {
    uint32_t words;  /* that it takes in the frame, guards included */
    uint32_t before; /* units of guard before what is lent */
    uint32_t length; /* units that are lent */
};

/* What is known of a call; after it stands the memory of its areas. */
struct frame {
    uint32_t call;
    uint32_t argument;
    uint32_t answer[ANSWER_WORDS];
    struct area areas[AREAS];
};

static uint32_t batch[BATCH_WORDS];

/* Sets all words of an answer; counts that a call does not have are 0. */
static void answer(struct frame *frame, uint32_t number, uint32_t first, uint32_t second, uint32_t third, uint32_t fourth)
{
    frame->answer[0] = number;
    frame->answer[1] = first;
    frame->answer[2] = second;
    frame->answer[3] = third;
    frame->answer[4] = fourth;
}

static void make_read(struct frame *frame, void *lent[AREAS])
{
    const struct area *file = &frame->areas[0], *left = &frame->areas[1], *right = &frame->areas[2], *subject = &frame->areas[3];
    struct reed_read_answer read =
        reed_read(lent[0], file->length, lent[1], left->length, lent[2], right->length, lent[3], subject->length);
    answer(frame, read.number, read.left, read.right, read.subject, 0);
}

static void make_compile(struct frame *frame, void *lent[AREAS])
{
    const struct area *left = &frame->areas[0], *right = &frame->areas[1], *code = &frame->areas[2];
    struct reed_answer compiled = reed_compile(lent[0], left->length, lent[1], right->length, lent[2], code->length);
    answer(frame, compiled.number, compiled.words, 0, 0, 0);
}

static void make_check(struct frame *frame, void *lent[AREAS])
{
    const struct area *code = &frame->areas[0];
    answer(frame, reed_check(lent[0], code->length), 0, 0, 0, 0);
}

static void make_run(struct frame *frame, void *lent[AREAS])
{
    const struct area *code = &frame->areas[0], *subject = &frame->areas[1], *working = &frame->areas[2], *result = &frame->areas[3];
    struct reed_answer run =
        reed_run(lent[0], code->length, lent[1], subject->length, lent[2], working->length, lent[3], result->length);
    answer(frame, run.number, run.words, 0, 0, 0);
}

static void make_watch(struct frame *frame, void *lent[AREAS])
{
    const struct area *code = &frame->areas[0], *subject = &frame->areas[1];
    struct reed_watch_answer watch = reed_watch(lent[0], code->length, lent[1], subject->length, frame->argument);
    answer(frame, watch.number, watch.current, watch.entries, watch.finished, watch.node);
}

static void make_list_run(struct frame *frame, void *lent[AREAS])
{
    const struct area *rules = &frame->areas[0], *subject = &frame->areas[1], *working = &frame->areas[2], *result = &frame->areas[3];
    struct reed_list_answer run = reed_list_run(lent[0], rules->length, lent[1], subject->length, frame->argument, lent[2], working->length,
                                                lent[3], result->length);
    answer(frame, run.number, run.words, run.rewrites, run.normal, 0);
}

/*
 * For bench/: paints the stack that the calls after this one take, or tells how many bytes from its top they have written to. It is the same
 * memory each time, though no rule of C says so.
 */
__attribute__((noinline)) static uint32_t stack(int look)
{
    volatile unsigned char below[STACK_BYTES];
    uint32_t at = 0;
    for (; !look && at < STACK_BYTES; at++) below[at] = PAINT;
    while (at < STACK_BYTES && below[at] == PAINT) at++;
    return STACK_BYTES - at;
}

/* Makes a frame's call on what it is lent; whether there is such a call. */
static int make(struct frame *frame, void *lent[AREAS])
{
    switch (frame->call) {
    case CALL_STACK:
        answer(frame, 0, stack(frame->argument), 0, 0, 0);
        return 1;
    case CALL_READ:
        make_read(frame, lent);
        return 1;
    case CALL_COMPILE:
        make_compile(frame, lent);
        return 1;
    case CALL_CHECK:
        make_check(frame, lent);
        return 1;
    case CALL_RUN:
        make_run(frame, lent);
        return 1;
    case CALL_WATCH:
        make_watch(frame, lent);
        return 1;
    case CALL_LIST_RUN:
        make_list_run(frame, lent);
        return 1;
    default:
        return 0;
    }
}

/* Bytes of a unit: a file is bytes, all else words. */
static size_t unit(const struct frame *frame, int area)
{
    return frame->call == CALL_READ && area == 0 ? sizeof(uint8_t) : sizeof(uint32_t);
}

static size_t lent_bytes(const struct frame *frame, int area)
{
    return frame->areas[area].length * unit(frame, area);
}

static int has_working_table(const struct frame *frame)
{
    return frame->call == CALL_RUN || frame->call == CALL_LIST_RUN;
}

/*
 * Puts what is lent into blocks of just that length. Only the working table may hold anything, so its block is left as it comes: memcheck
 * then tells of a run that looks at what stood there, or leaves any of it.
 */
static void put_in_blocks(const struct frame *frame, void *lent[AREAS], void *blocks[AREAS])
{
    for (int area = 0; area < AREAS; area++) {
        blocks[area] = malloc(lent_bytes(frame, area));
        if (!blocks[area]) abort();
        if (has_working_table(frame) && area == WORKING_AREA) continue;
        memcpy(blocks[area], lent[area], lent_bytes(frame, area));
    }
}

static void take_from_blocks(const struct frame *frame, void *lent[AREAS], void *blocks[AREAS])
{
    for (int area = 0; area < AREAS; area++) {
        memcpy(lent[area], blocks[area], lent_bytes(frame, area));
        free(blocks[area]);
    }
}

/* Makes a call as above, but for memcheck: it knows where a block ends, and nothing of guards. */
static int make_in_blocks(struct frame *frame, void *lent[AREAS])
{
    void *blocks[AREAS];
    put_in_blocks(frame, lent, blocks);
    int made = make(frame, blocks);
    take_from_blocks(frame, lent, blocks);
    return made;
}

/* Makes a frame's call by one of these two; gives where the next frame begins, or nothing if there is no such call. */
static uint32_t *make_frame(struct frame *frame, int (*make_call)(struct frame *, void *[AREAS]))
{
    void *lent[AREAS];
    uint32_t *next = (uint32_t *)(frame + 1);
    for (int area = 0; area < AREAS; area++) {
        lent[area] = (char *)next + frame->areas[area].before * unit(frame, area);
        next += frame->areas[area].words;
    }
    return make_call(frame, lent) ? next : 0;
}

/* Whether so many bytes were there. */
static int take(void *to, size_t bytes)
{
    for (size_t taken = 0; taken < bytes;) {
        long more = read(STANDARD_INPUT, (char *)to + taken, bytes - taken);
        if (more <= 0) return 0;
        taken += (size_t)more;
    }
    return 1;
}

/* Whether so many bytes were taken. */
static int give(const void *from, size_t bytes)
{
    for (size_t given = 0; given < bytes;) {
        long more = write(STANDARD_OUTPUT, (const char *)from + given, bytes - given);
        if (more <= 0) return 0;
        given += (size_t)more;
    }
    return 1;
}

int main(void)
{
    int (*make_call)(struct frame *, void *[AREAS]) = getenv("REED_BLOCKS") ? make_in_blocks : make;
    uint32_t words;
    while (take(&words, sizeof words)) {
        if (words > BATCH_WORDS) return TOO_LONG;
        if (!take(batch, words * sizeof *batch)) return CUT_SHORT;
        for (uint32_t *next = batch; next < batch + words;) {
            next = make_frame((struct frame *)next, make_call);
            if (!next) return NO_SUCH_CALL;
        }
        if (!give(batch, words * sizeof *batch)) return CUT_SHORT;
    }
    return ALL_MADE;
}
