/*
 * A rule file on standard input, one line on standard output, as plan_apply has it: what a firmware author may start from.
 *
 *     bash program/staticlib.sh
 *     gcc -I include examples/apply.c target/staticlib/libreedbiscuit.a -o apply
 *     ./apply < examples/beta.rule
 */
#include <stdio.h>

#include "reedbiscuit.h"

/* A byte more than the longest file has, so that a longer one is seen to be longer, and refused. */
static uint8_t file[REED_FILE_BYTES + 1];

/*
 * Each table is as long as any file can ask for, so that nothing is refused for want of room. With the file they take 160 KiB, and are
 * static, since a logger has little stack. One that is sent compiled code needs neither the file nor the two sides.
 */
static uint32_t left[REED_FILE_SIDE_WORDS];
static uint32_t right[REED_FILE_SIDE_WORDS];
static uint32_t subject[REED_FILE_SUBJECT_WORDS];
static uint32_t code[REED_CODE_WORDS];
static uint32_t working[REED_WORKING_WORDS];
static uint32_t result[REED_RESULT_WORDS];

/* Applies the file's rule to its subject. The first call that refuses ends the work: its number is given, and a 0. */
static struct reed_answer apply(size_t file_length)
{
    struct reed_read_answer words = reed_read(file, file_length, left, REED_FILE_SIDE_WORDS, right, REED_FILE_SIDE_WORDS, subject,
                                              REED_FILE_SUBJECT_WORDS);
    if (words.number != REED_DONE) return (struct reed_answer){words.number, 0};

    struct reed_answer compiled = reed_compile(left, words.left, right, words.right, code, REED_CODE_WORDS);
    if (compiled.number != REED_DONE) return compiled;

    /* No reed_check here: compiled code always passes, and a run asks the check itself, wherever its code comes from. */
    return reed_run(code, compiled.words, subject, words.subject, working, REED_WORKING_WORDS, result, REED_RESULT_WORDS);
}

/* Number, word count and the result's words, in decimal with single spaces. */
static void print_line(struct reed_answer answer)
{
    printf("%lu %lu", (unsigned long)answer.number, (unsigned long)answer.words);
    for (uint32_t word = 0; word < answer.words; word++) printf(" %lu", (unsigned long)result[word]);
    putchar('\n');
}

int main(void)
{
    size_t length = fread(file, 1, sizeof file, stdin);
    /* What cannot be read is no file: it is taken for an empty one, which reed_read refuses. */
    if (ferror(stdin)) length = 0;
    print_line(apply(length));
    return 0;
}
