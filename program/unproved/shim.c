/*
 * The C calls over the kit's own calling convention: a slice is a pointer and a length, as C passes it; an answer of two words comes in two
 * registers, where C packs them into one; a longer one is written through the first argument. Only build.sh needs it; the real library exports the
 * C calls itself.
 */
#include "reedbiscuit.h"

/* Each register's lower half counts. */
struct two_registers {
    unsigned long number;
    unsigned long words;
};

void unproved_read(struct reed_read_answer *, const uint8_t *, size_t, uint32_t *, size_t, uint32_t *, size_t, uint32_t *, size_t);
struct two_registers unproved_compile(const uint32_t *, size_t, const uint32_t *, size_t, uint32_t *, size_t);
uint32_t unproved_check(const uint32_t *, size_t);
struct two_registers unproved_run(const uint32_t *, size_t, const uint32_t *, size_t, uint32_t *, size_t, uint32_t *, size_t);
void unproved_watch(struct reed_watch_answer *, const uint32_t *, size_t, const uint32_t *, size_t, uint32_t);
void unproved_list_run(struct reed_list_answer *, const uint32_t *, size_t, const uint32_t *, size_t, uint32_t, uint32_t *, size_t, uint32_t *,
                       size_t);

static struct reed_answer packed(struct two_registers answer)
{
    struct reed_answer both = {(uint32_t)answer.number, (uint32_t)answer.words};
    return both;
}

struct reed_read_answer reed_read(const uint8_t *file, size_t file_length, uint32_t *left, size_t left_length, uint32_t *right,
                                  size_t right_length, uint32_t *subject, size_t subject_length)
{
    struct reed_read_answer answer;
    unproved_read(&answer, file, file_length, left, left_length, right, right_length, subject, subject_length);
    return answer;
}

struct reed_answer reed_compile(const uint32_t *left, size_t left_length, const uint32_t *right, size_t right_length, uint32_t *code,
                                size_t code_length)
{
    return packed(unproved_compile(left, left_length, right, right_length, code, code_length));
}

uint32_t reed_check(const uint32_t *code, size_t code_length)
{
    return unproved_check(code, code_length);
}

struct reed_answer reed_run(const uint32_t *code, size_t code_length, const uint32_t *subject, size_t subject_length, uint32_t *working,
                            size_t working_length, uint32_t *result, size_t result_length)
{
    return packed(unproved_run(code, code_length, subject, subject_length, working, working_length, result, result_length));
}

struct reed_watch_answer reed_watch(const uint32_t *code, size_t code_length, const uint32_t *subject, size_t subject_length, uint32_t i)
{
    struct reed_watch_answer answer;
    unproved_watch(&answer, code, code_length, subject, subject_length, i);
    return answer;
}

struct reed_list_answer reed_list_run(const uint32_t *rules, size_t rules_length, const uint32_t *subject, size_t subject_length,
                                      uint32_t rewrites, uint32_t *working, size_t working_length, uint32_t *result, size_t result_length)
{
    struct reed_list_answer answer;
    unproved_list_run(&answer, rules, rules_length, subject, subject_length, rewrites, working, working_length, result, result_length);
    return answer;
}
