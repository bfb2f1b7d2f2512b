/*
 * Reedbiscuit: wake-plan rules, in calls that are proved.
 *
 * Every call takes every input there can be: any bytes, any words, tables of any length. It needs no start, keeps nothing between calls,
 * takes no memory but its stack and calls nobody but C's memset and memcpy; threads may call at the same time on memory of their own.
 */
#ifndef REEDBISCUIT_H
#define REEDBISCUIT_H

#include <stddef.h>
#include <stdint.h>

#ifdef __cplusplus
extern "C" {
#endif

/*
 * Numbers given back.
 *
 * Where it is not REED_DONE, all else that the call gives is 0, and the tables that it was lent to write words to are as they were. The one
 * exception is the working table of reed_run and reed_list_run, which is all zeros after every run, refused or done.
 */
enum reed_number {
    REED_DONE = 0,                              /* done */
    REED_TABLE_NOT_GOOD = 1,                    /* table not good */
    REED_TOO_MANY_WORDS = 2,                    /* more words than its node limit allows */
    REED_TOO_DEEP = 3,                          /* depth over 64 */
    REED_METAVARIABLE_IN_SUBJECT = 4,           /* metavariable in subject */
    REED_LEFT_ROOT_NO_SYMBOL = 5,               /* left root no symbol */
    REED_FREE_VARIABLE = 6,                     /* free variable in a side */
    REED_ARGUMENTS_NOT_DISTINCT_VARIABLES = 7,  /* left metavariable's arguments not distinct variables */
    REED_ABSENT_ON_LEFT = 8,                    /* right metavariable absent on left */
    REED_TOO_MANY_METAVARIABLES = 9,            /* over 16 left metavariables */
    REED_CODE_TABLE_SHORT = 10,                 /* code longer than the lent code table */
    REED_CODE_DOES_NOT_PASS = 11,               /* code does not pass */
    REED_MATCH_FAILS = 12,                      /* a match instruction fails */
    REED_RESULT_TOO_LARGE = 13,                 /* result has more nodes than 4,096 or half the result table's words, rounded down */
    REED_RESULT_TOO_DEEP = 14,                  /* result depth over 64 */
    REED_RESULT_INDEX_TOO_HIGH = 15,            /* result index over 65,535 */
    REED_WORKING_TABLE_SHORT = 16,              /* working table short */
    REED_BAD_FILE = 17,                         /* bad file */
    REED_LIST_TOO_LONG = 37                     /* over 32 rules, a cut one counted, or over 1,000 rewrites */
};

/*
 * Lent memory.
 *
 * What a call is lent is a pointer and, right after it, how many bytes or words stand there (words, not bytes, for a uint32_t pointer).
 * As for a Rust slice: the pointer is aligned for its type and not NULL; all of the memory can be read, and written where the pointer is
 * not const; memory that can be written overlaps nothing else that the call is lent; no part is longer than PTRDIFF_MAX bytes. Where the
 * length is 0, nothing is read or written through the pointer, which then need not point to memory at all.
 */

/*
 * Bytes.
 *
 * A file is one version byte, then left side, right side and subject, each a four-byte count of words and these words, all big-endian,
 * and nothing after.
 */
enum {
    REED_FILE_VERSION = 1,
    REED_FILE_SIDE_WORDS = 1024,    /* the most words of a side in a file */
    REED_FILE_SUBJECT_WORDS = 8192, /* the most words of a subject in a file */
    REED_FILE_BYTES = 40973         /* the length of the longest file */
};

/* REED_DONE and how many words were written to each table, or REED_BAD_FILE and three times 0. */
struct reed_read_answer {
    uint32_t number;
    uint32_t left;
    uint32_t right;
    uint32_t subject;
};

/*
 * Reads a file: puts the words of its tables at the front of the three lent ones and leaves the rest of each as it was.
 *
 * REED_BAD_FILE if the bytes are no such file, or a count is over its limit above or over the length of the table lent for it; then no
 * word of any table is changed. Whether the words make sense is not asked here: a table that is read need not be good.
 */
struct reed_read_answer reed_read(const uint8_t *file, size_t file_length, uint32_t *left, size_t left_length, uint32_t *right,
                                  size_t right_length, uint32_t *subject, size_t subject_length);

/*
 * Tables.
 *
 * A term in prefix order: each node, then its arguments from left to right. A node is two words, kind x 65,536 + name and the count of its
 * arguments: variable (kind 0, the name is its index, count 0), symbol (1), metavariable (2) or abstraction (3, name 0, count 1). Index 0
 * is the nearest abstraction; the root has depth 1. A table is good if it holds exactly one term and no word more.
 */
enum {
    REED_NODE_WORDS = 2,
    REED_DEPTH = 64,   /* the deepest node of a table */
    REED_ARGUMENTS = 8 /* the most arguments of a symbol or metavariable */
};

/* What a call that fills one table gives: REED_DONE and how many words were written to it, or a refusal and 0. */
struct reed_answer {
    uint32_t number;
    uint32_t words;
};

/*
 * Rules.
 *
 * Left and right side are a table each. A metavariable is known by its name and its count together: 5 with one argument is not 5 with two.
 */
enum {
    REED_SIDE_NODES = 256,   /* the most nodes of a side */
    REED_SIDE_WORDS = 512,   /* the same in words */
    REED_METAVARIABLES = 16, /* the most metavariables on the left, each counted once */
    REED_CODE_WORDS = 4096   /* a code table of this length holds the code of every rule */
};

/*
 * Compiles a rule: reads the two sides, puts its code at the front of the code table and leaves the rest of that as it was.
 *
 * A refusal leaves all of the code table as it was. Where several are due, it is the first of these:
 *
 * REED_TOO_MANY_WORDS, REED_TABLE_NOT_GOOD, REED_TOO_DEEP of the left side, then of the right side: it has more than REED_SIDE_WORDS words,
 * whatever they are; it is no good table; it has a node deeper than REED_DEPTH.
 * REED_LEFT_ROOT_NO_SYMBOL.
 * REED_FREE_VARIABLE: in either side, the arguments of metavariables included, an index has no abstraction above it.
 * REED_ARGUMENTS_NOT_DISTINCT_VARIABLES: those of some metavariable on the left.
 * REED_ABSENT_ON_LEFT: a metavariable on the right is none of those on the left, however many these are.
 * REED_TOO_MANY_METAVARIABLES: over REED_METAVARIABLES on the left.
 * REED_CODE_TABLE_SHORT: the code has more words than code_length. With a code_length of REED_CODE_WORDS that cannot be.
 */
struct reed_answer reed_compile(const uint32_t *left, size_t left_length, const uint32_t *right, size_t right_length, uint32_t *code,
                                size_t code_length);

/*
 * Checks code, whoever wrote it: REED_DONE if it passes, REED_CODE_DOES_NOT_PASS if not; writes nothing.
 *
 * What code must fulfil is document 01's 'When code passes'; all that reed_compile writes does. Any words may be handed in, and any number
 * of them, none too; code that passes has 1 to REED_CODE_WORDS.
 */
uint32_t reed_check(const uint32_t *code, size_t code_length);

/*
 * Subjects.
 *
 * A subject is a good table of at most REED_SUBJECT_NODES nodes, none deeper than REED_DEPTH, without metavariables. It may have free
 * variables. Its nodes are numbered from 0 in prefix order.
 */
enum {
    REED_SUBJECT_NODES = 4096, /* the most nodes of a subject */
    REED_SUBJECT_WORDS = 8192, /* the same in words */
    REED_RESULT_NODES = 4096,  /* the most nodes of a result */
    REED_RESULT_WORDS = 8192,  /* the same in words: a longer result table gives no more room */
    REED_INDEX = 65535,        /* the highest index of a variable */
    REED_WORKING_WORDS = 8192  /* the fewest words of a reed_run's working table */
};

/*
 * Runs code, whoever wrote it, at the root of a subject: puts the term that it makes at the front of the result table and leaves the rest of
 * that as it was. reed_check need not be asked before.
 *
 * The working table may hold anything before. After the call every word of it is 0, whatever number the call gives and however long or short
 * the table is. Words beyond the first REED_WORKING_WORDS serve nothing and are zeroed too.
 *
 * A refusal leaves all of the result table as it was. Where several are due, it is the first of these:
 *
 * REED_WORKING_TABLE_SHORT: working_length is below REED_WORKING_WORDS.
 * REED_CODE_DOES_NOT_PASS: as reed_check says.
 * REED_TOO_MANY_WORDS, REED_TABLE_NOT_GOOD, REED_TOO_DEEP, REED_METAVARIABLE_IN_SUBJECT: the subject has more than REED_SUBJECT_WORDS words,
 * whatever they are; it is no good table; it has a node deeper than REED_DEPTH; it has a metavariable.
 * REED_MATCH_FAILS: the test of a match instruction says no; for compiled code, the rule's left side does not match the subject.
 * REED_RESULT_TOO_LARGE: the result has more than REED_RESULT_NODES nodes, or more words than result_length.
 * REED_RESULT_TOO_DEEP: it has a node deeper than REED_DEPTH.
 * REED_RESULT_INDEX_TOO_HIGH: it has a variable with an index over REED_INDEX.
 */
struct reed_answer reed_run(const uint32_t *code, size_t code_length, const uint32_t *subject, size_t subject_length, uint32_t *working,
                            size_t working_length, uint32_t *result, size_t result_length);

/* REED_DONE and where the code stands after so many instructions, or a refusal and four times 0. */
struct reed_watch_answer {
    uint32_t number;
    uint32_t current;  /* current terms */
    uint32_t entries;  /* entries that were made */
    uint32_t finished; /* finished terms, those outside an open block too */
    uint32_t node;     /* the node of the current term in the subject; the subject's node count if there is none */
};

/*
 * Executes the first i outermost instructions of code on a subject, all of them if there are fewer, and tells where it stands then; writes
 * nothing. A PUSHI is one instruction, with all its bodies; a LAMBDA, its block's instructions and the ADBMAL are one each.
 *
 * Refusals, the first one that is due: REED_CODE_DOES_NOT_PASS; REED_TOO_MANY_WORDS, REED_TABLE_NOT_GOOD, REED_TOO_DEEP,
 * REED_METAVARIABLE_IN_SUBJECT, as for reed_run; REED_MATCH_FAILS, if one of the first i instructions fails. There are no limits to a result.
 */
struct reed_watch_answer reed_watch(const uint32_t *code, size_t code_length, const uint32_t *subject, size_t subject_length, uint32_t i);

/*
 * Lists of rules.
 *
 * A table of rules holds one after the other, in the order in which they are asked: each is a word that counts its code's words, then that
 * code, as reed_compile writes it or whoever else. There may be none. A rule whose count says more words than the table still has is cut.
 */
enum {
    REED_LIST_RULES = 32,           /* the most rules of a list */
    REED_REWRITES = 1000,           /* the most rewrites that may be asked for */
    REED_LIST_WORKING_WORDS = 16384 /* the fewest words of a working table */
};

/* REED_DONE and what became of the plan, or a refusal and three times 0. */
struct reed_list_answer {
    uint32_t number;
    uint32_t words;    /* words of the last plan, at the front of the result table */
    uint32_t rewrites; /* how many were made */
    uint32_t normal;   /* 1 if no rule matches that plan at any node, else 0 */
};

/*
 * Runs a list of rules to the end, but for at most so many rewrites: each is made at the first node of the plan, in prefix order, where some
 * rule matches, by the first such rule of the list. The first plan is the subject. Puts the last one at the front of the result table and
 * leaves the rest of that as it was. Where the rewrites are used up, the last plan is still looked at for normal; with 0 of them nothing else
 * is done. The subject is only read.
 *
 * The working table may hold anything before. After the call every word of it is 0, whatever number the call gives and however long or short
 * the table is. Words beyond the first REED_LIST_WORKING_WORDS serve nothing and are zeroed too.
 *
 * A refusal leaves all of the result table as it was, and tells nothing of the plans before it. Where several are due, it is the first of
 * these:
 *
 * REED_LIST_TOO_LONG: there are more than REED_LIST_RULES rules, a cut one counted, or rewrites is over REED_REWRITES.
 * REED_WORKING_TABLE_SHORT: working_length is below REED_LIST_WORKING_WORDS.
 * REED_CODE_DOES_NOT_PASS: a rule is cut, or its code does not pass, as reed_check says; one of no words does not.
 * REED_TOO_MANY_WORDS, REED_TABLE_NOT_GOOD, REED_TOO_DEEP, REED_METAVARIABLE_IN_SUBJECT: the subject, as for reed_run.
 * REED_RESULT_TOO_LARGE, REED_RESULT_TOO_DEEP, REED_RESULT_INDEX_TOO_HIGH: what reed_run asks of a result is asked of each whole plan, the
 * subject and those between included. The first plan that breaks a limit decides, and of the limits that it breaks the first one here. That
 * a later plan would fit, or that another rule or node would not break it, does not help.
 *
 * A rule that matches nowhere is no refusal: REED_MATCH_FAILS is not given.
 */
struct reed_list_answer reed_list_run(const uint32_t *rules, size_t rules_length, const uint32_t *subject, size_t subject_length,
                                      uint32_t rewrites, uint32_t *working, size_t working_length, uint32_t *result, size_t result_length);

#ifdef __cplusplus
}
#endif

#endif
