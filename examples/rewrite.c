/*
 * A whole plan rewritten by a list of rules: what a planner may use as it is, and a firmware author may start from.
 *
 *     bash program/staticlib.sh
 *     gcc -I include examples/rewrite.c target/staticlib/libreedbiscuit.a -o rewrite
 *     ./rewrite 1000 examples/rewrite/feeding/1.rule examples/rewrite/feeding/2.rule examples/rewrite/feeding/3.rule
 *
 * The arguments are how many rewrites there may be, 0 to 1,000, and rule files, as for plan_apply; the plan is the first one's subject. The
 * list of their rules, in this order, is run to the end. One line tells what came of it, in decimal with single spaces: number, word count,
 * rewrites made, 1 if no rule matches any more and else 0, then the words of the last plan. A file that is none, or whose rule is refused,
 * is named on standard error with its number instead, and the status is 1.
 */
#include <stdio.h>

#include "reedbiscuit.h"

/* A byte more than the longest file has, so that a longer one is seen to be longer, and refused. */
static uint8_t file[REED_FILE_BYTES + 1];

/* Each table is as long as any file can ask for, so that nothing is refused for want of room. Only the first file's subject is kept. */
static uint32_t left[REED_FILE_SIDE_WORDS];
static uint32_t right[REED_FILE_SIDE_WORDS];
static uint32_t plan[REED_FILE_SUBJECT_WORDS];
static uint32_t other_subject[REED_FILE_SUBJECT_WORDS];
static uint32_t working[REED_LIST_WORKING_WORDS];
static uint32_t result[REED_RESULT_WORDS];

/* The rules, each a count and its code, and one word more: a rule too many need not be whole to be counted. */
static uint32_t rules[REED_LIST_RULES * (1 + REED_CODE_WORDS) + 1];
static size_t rules_length;

/* The length of the file of this name. What cannot be read is no file: it is taken for an empty one, which reed_read refuses. */
static size_t load(const char *name)
{
    FILE *from = fopen(name, "rb");
    if (!from) return 0;
    size_t length = fread(file, 1, sizeof file, from);
    if (ferror(from)) length = 0;
    fclose(from);
    return length;
}

/* Puts the rule of the file of this name behind the others, and its subject into a table; the first call that refuses gives its number. */
static struct reed_read_answer add(const char *name, uint32_t *subject)
{
    struct reed_read_answer words = reed_read(file, load(name), left, REED_FILE_SIDE_WORDS, right, REED_FILE_SIDE_WORDS, subject,
                                              REED_FILE_SUBJECT_WORDS);
    if (words.number != REED_DONE) return words;

    uint32_t *count = &rules[rules_length];
    struct reed_answer compiled = reed_compile(left, words.left, right, words.right, count + 1, REED_CODE_WORDS);
    words.number = compiled.number;
    if (words.number != REED_DONE) return words;

    *count = compiled.words;
    rules_length += 1 + compiled.words;
    return words;
}

/* Number, word count, rewrites, whether no rule matches any more, and the plan's words. */
static void print_line(struct reed_list_answer answer)
{
    printf("%lu %lu %lu %lu", (unsigned long)answer.number, (unsigned long)answer.words, (unsigned long)answer.rewrites,
           (unsigned long)answer.normal);
    for (uint32_t word = 0; word < answer.words; word++) printf(" %lu", (unsigned long)result[word]);
    putchar('\n');
}

/* Whether the text is a number; one over the limit is as good as any other over it. */
static int is_number(const char *text, uint32_t *number)
{
    *number = 0;
    if (!*text) return 0;
    for (; *text; text++) {
        if (*text < '0' || *text > '9') return 0;
        *number = 10 * *number + (uint32_t)(*text - '0');
        if (*number > REED_REWRITES) *number = REED_REWRITES + 1;
    }
    return 1;
}

int main(int count, char **arguments)
{
    uint32_t rewrites;
    size_t plan_length = 0;
    if (count < 3 || !is_number(arguments[1], &rewrites)) {
        fprintf(stderr, "usage: rewrite NUMBER-OF-REWRITES RULE-FILE...\n");
        return 2;
    }
    for (int rule = 0; rule < count - 2; rule++) {
        if (rule == REED_LIST_RULES) {
            rules[rules_length++] = 0;
            break;
        }
        const char *name = arguments[2 + rule];
        struct reed_read_answer added = add(name, rule == 0 ? plan : other_subject);
        if (added.number != REED_DONE) {
            fprintf(stderr, "rewrite: %s: %lu\n", name, (unsigned long)added.number);
            return 1;
        }
        if (rule == 0) plan_length = added.subject;
    }
    print_line(reed_list_run(rules, rules_length, plan, plan_length, rewrites, working, REED_LIST_WORKING_WORDS, result, REED_RESULT_WORDS));
    return 0;
}
