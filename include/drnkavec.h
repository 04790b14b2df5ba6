/* Drnkavec: a proved reader of UEFI VFR set-up text.
 *
 * Refusal numbers, rows, codes and limits are those of document 01, "VFR sources to rows and resolved text"; lines,
 * columns and the 0 in all that is lent past a result are those of document 02, the change requests (W-201), and so are
 * the screen and the refusals 14, 15 and 30 (W-202), that a rule serves its own form alone (W-203), the sizes,
 * displays and signed numbers of numerics with refusal 16 (W-204), and families of sources with refusal 17 (W-206).
 * The library is crates/face/out/libface.a, which `tools/prove face` makes; it is for Linux on x86-64, on
 * processors of the level x86-64-v2 (SSE4.2, POPCNT) or above.
 *
 * Every function takes every input. It reads the source without changing it, writes nowhere but to the
 * buffers lent for results, keeps no pointer and allocates nothing. A buffer of length 0 is not touched, and its
 * pointer may be NULL. Two things are left to the caller: the buffers of one call do not overlap, and there is stack
 * enough. vfr_read, vfr_read_family and vfr_resolve take about 140 KB of it for a source that is not deep and 300 KB
 * for the deepest, vfr_show 45 KB more of either, so that a thread wants 320 KB, or 370 KB for vfr_show;
 * vfr_quick_check takes about 190 KB at most, vfr_token under 1 KB.
 */
#ifndef DRNKAVEC_H
#define DRNKAVEC_H

#include <stddef.h>
#include <stdint.h>

#ifdef __cplusplus
extern "C" {
#endif

/* ---- Limits ---- */

enum {
    VFR_MAX_SOURCE = 65536,   /* bytes of a source */
    VFR_MAX_TEXT = 65536,     /* bytes of a resolved text */
    VFR_MAX_CONDITIONS = 16,  /* conditions open at once */
    VFR_MAX_GROUPS = 32,      /* unfinished grouping parentheses and NOTs in one expression */
    VFR_MAX_RULES = 255,      /* rules of a form set */
    VFR_MAX_ID = 65535,       /* form, question, string and label numbers */
    VFR_MAX_FAMILY = 64       /* sources of a family; their joined bytes are at most VFR_MAX_SOURCE */
};

/* ---- Refusal numbers, in the order of checking ---- */

/* Each has the line and column of its place, but for 1, 6, 13, 17 and 30, whose place is always 0, and 15, whose place
 * is not in the source. 17 stands apart: it is of a family's whole call, and given before any source is read. */

enum {
    VFR_ACCEPTED = 0,
    VFR_TOO_LONG = 1,           /* source over 65,536 bytes; place 0 */
    VFR_BAD_TOKEN = 2,          /* place: its first byte */
    VFR_NOT_GRAMMAR = 3,        /* place: the token, or the source length where the source ends early */
    VFR_TOO_DEEP = 4,           /* place: the token that opens a depth too many */
    VFR_SECOND_WORD = 16,       /* a second size or display in one numeric, even the same; place: that word */
    VFR_OUT_OF_RANGE = 5,       /* also a minimum, maximum, step or default over the size of its numeric; place: the
                                   number */
    VFR_TABLE_SHORT = 6,        /* place 0; the row count is the need */
    VFR_FORM_REPEATED = 7,      /* place: the second number */
    VFR_QUESTION_REPEATED = 8,  /* place: the second written number */
    VFR_NAME_REPEATED = 9,      /* place: the second name */
    VFR_TOO_MANY_RULES = 10,    /* place: the 256th `rule` */
    VFR_NOT_FOUND = 11,         /* place: the number or name that refers to nothing, or, in a `ruleref`, to a rule that
                                   stands in another form */
    VFR_BAD_CHOICE = 12,        /* a maximum below its minimum or a default outside them, in the signed order of its
                                   size where the numeric has DISPLAY_INT_DEC; a value or DEFAULT repeated in a oneof;
                                   place: the maximum, default or value, or the second DEFAULT */
    VFR_RULE_CIRCLE = 14,       /* a rule reaches itself through references; place: the name in the source's first
                                   `ruleref`, inside a rule, that is a step of such a circle */
    VFR_OUTPUT_SHORT = 13,      /* resolving alone; place 0; the row count is the bytes needed. If they are more than
                                   VFR_MAX_TEXT, no output is long enough */
    VFR_BAD_ANSWER = 15,        /* showing alone; place: which answer, from 0, is the first that is not above the one
                                   before it, has no value, or has a number that no question bears */
    VFR_SCREEN_SHORT = 30,      /* showing alone; place 0; fewer bytes are lent than there are rows */
    VFR_BAD_FAMILY = 17         /* a family's call alone; place 0; there are more than 64 ends, one is below the one
                                   before it, the last (0 if there is none) is not the buffer's length, the buffer is
                                   over 65,536 bytes, or fewer whole answers are lent than there are ends */
};

/* ---- Rows: VFR_COLUMNS numbers each; fields that a code does not use are 0 ---- */

enum {
    VFR_COL_CODE = 0,
    VFR_COL_PARENT = 1,  /* index of the row round it; the form set is its own */
    VFR_COL_NUMBER = 2,  /* of a form, question, label or rule */
    VFR_COL_FIRST = 3,   /* first string */
    VFR_COL_SECOND = 4,  /* second string */
    VFR_COL_FLAGS = 5,
    VFR_COL_A = 6,
    VFR_COL_B = 7,
    VFR_COL_C = 8,
    VFR_COL_D = 9,
    VFR_COL_NAME = 10,   /* place plus one of the name that a question or rule declares, or 0 */
    VFR_COL_PLACE = 11,  /* of the first token; of an operator, the operator */
    VFR_COL_SIZE = 12,   /* size and display of a numeric: VFR_SIZE_UNIT times the bytes, plus the display, see below; 0
                            for other rows */
    VFR_COLUMNS = 13
};

enum {
    /* Statements. */
    VFR_FORM = 0x01,        /* number; title */
    VFR_SUBTITLE = 0x02,    /* text */
    VFR_TEXT = 0x03,        /* text, help */
    VFR_ONEOF = 0x05,       /* prompt, help */
    VFR_CHECKBOX = 0x06,    /* prompt, help; d: 1 for TRUE */
    VFR_NUMERIC = 0x07,     /* prompt, help; a, b, c, d: minimum, maximum, step, default, as written; an absent step is
                               1, an absent default 0 */
    VFR_OPTION = 0x09,      /* text; a: value */
    VFR_SUPPRESSIF = 0x0A,
    VFR_FORMSET = 0x0E,     /* title, help; a: the GUID's 32, 16 and 16 bits, first highest; b: its eight bytes */
    VFR_GOTO = 0x0F,        /* prompt, help; a: form number */
    VFR_RULE = 0x18,        /* number, counted from 1 through the form set */
    VFR_GRAYOUTIF = 0x19,
    VFR_DISABLEIF = 0x1E,
    VFR_LABEL = 0x5F,       /* number */
    /* Operators. */
    VFR_AND = 0x15,
    VFR_OR = 0x16,
    VFR_NOT = 0x17,
    VFR_EQUAL = 0x2F,
    VFR_NOT_EQUAL = 0x30,
    VFR_GREATER = 0x31,
    VFR_GREATER_EQUAL = 0x32,
    VFR_LESS = 0x33,
    VFR_LESS_EQUAL = 0x34,
    VFR_BIT_AND = 0x35,
    VFR_BIT_OR = 0x36,
    VFR_SHIFT_LEFT = 0x38,
    VFR_SHIFT_RIGHT = 0x39,
    VFR_ADD = 0x3A,
    VFR_SUBTRACT = 0x3B,
    VFR_MULTIPLY = 0x3C,
    VFR_DIVIDE = 0x3D,
    VFR_REMAINDER = 0x3E,
    /* Atoms. */
    VFR_RULEREF = 0x3F,      /* a: the rule's number */
    VFR_QUESTIONREF = 0x40,  /* a: the question's number */
    VFR_NUMBER = 0x45,       /* a: the value */
    VFR_TRUE = 0x46,
    VFR_FALSE = 0x47,
    VFR_ZERO = 0x52,
    VFR_ONE = 0x53,
    VFR_ONES = 0x54,
    VFR_UNDEFINED = 0x55
};

/* Flags. */
enum {
    VFR_READ_ONLY = 1,
    VFR_INTERACTIVE = 4,
    VFR_RESET_REQUIRED = 16,
    VFR_OPTION_DEFAULT = 16,     /* of an option */
    VFR_DEFAULT_WRITTEN = 256    /* of a checkbox or numeric that writes `default` */
};

/* What VFR_COL_SIZE is made of. The size is 1, 2, 4 or 8 bytes, and none of a numeric's four numbers is over the
 * largest unsigned number of its size. An absent size is 8, an absent display VFR_DISPLAY_UINT_DEC, so that a numeric
 * without both has 33. */
enum {
    VFR_DISPLAY_INT_DEC = 0,   /* minimum, maximum and default are signed: two's complement of the size, 251 for -5 at
                                  size 1 */
    VFR_DISPLAY_UINT_DEC = 1,
    VFR_DISPLAY_UINT_HEX = 2,
    VFR_SIZE_UNIT = 4
};

/* ---- Screens ---- */

/* The byte of a row: the sum of these for an item that is no condition, 0 for every other row. */
enum {
    VFR_HIDDEN = 1,  /* some suppressif or disableif round it is TRUE */
    VFR_GREY = 2     /* some grayoutif round it is TRUE */
};

/* ---- Answers of the calls ---- */

/* One layout for every call. Every number lent is written: a short answer gets the first of these, and what a longer
 * one has past them is 0. */
enum {
    VFR_ANSWER_NUMBER = 0,   /* VFR_ACCEPTED or a refusal number */
    VFR_ANSWER_PLACE = 1,    /* of a refusal: byte in the source, or at 15 which answer to a question, from 0; 0 if the
                                source or family is accepted */
    VFR_ANSWER_ROWS = 2,     /* row count, of a family all rows written, or the need at 6 and 13; 0 on other refusals */
    VFR_ANSWER_FREE = 3,     /* how many of 1 to 65,535 no question bears; 0 on a refusal, and of a family as a whole */
    VFR_ANSWER_LINE = 4,     /* of the place, from 1: one more than the LF bytes before it */
    VFR_ANSWER_COLUMN = 5,   /* of the place, from 1: one more than the bytes since the last LF or the start. Line and
                                column are 0 if the source or family is accepted, and at 1, 6, 13, 15, 17 and 30 */
    VFR_ANSWER_WRITTEN = 6,  /* bytes of the resolved text; 0 from the other calls and on a refusal */
    VFR_ANSWER = 7           /* numbers of an answer */
};

/* A family's list of answers has the first six of these numbers for each source, VFR_ANSWER_NUMBER to
 * VFR_ANSWER_COLUMN. */
enum {
    VFR_FAMILY_ANSWER = 6  /* numbers of the answer to one source */
};

/* ---- Tokens ---- */

/* The numbers that vfr_token gives. Every number lent is written, as in an answer. */
enum {
    VFR_SEEN_CLASS = 0,   /* see below */
    VFR_SEEN_START = 1,   /* byte in the source, from 0 */
    VFR_SEEN_END = 2,     /* one past its last byte; a bad token and the end have none, so that it is the start */
    VFR_SEEN_LINE = 3,    /* of the start */
    VFR_SEEN_COLUMN = 4,  /* of the start */
    VFR_SEEN_NEXT = 5,    /* the place at which to go on: the token's end; of a bad token and the end, `at` as it was */
    VFR_SEEN_LAST = 6,    /* 1 if there is no further token (this is a bad one or the end), else 0 */
    VFR_SEEN = 7          /* numbers of a token */
};

/* Classes. The 22 signs have the numbers 0 to 21 in document 01's order,
 *     { } ( ) , ; = | & == != < <= > >= << >> + - * / %
 * and the 57 reserved words 22 to 78 in the order of their bytes:
 *     AND DEFAULT DISPLAY_INT_DEC DISPLAY_UINT_DEC DISPLAY_UINT_HEX FALSE INTERACTIVE NOT NUMERIC_SIZE_1
 *     NUMERIC_SIZE_2 NUMERIC_SIZE_4 NUMERIC_SIZE_8 ONE ONES OR READ_ONLY RESET_REQUIRED STRING_TOKEN TRUE UNDEFINED
 *     ZERO checkbox default disableif endcheckbox endform endformset endif endnumeric endoneof endrule flags form
 *     formid formset goto grayoutif guid help label maximum minimum name numeric oneof option prompt questionid
 *     questionref rule ruleref step subtitle suppressif text title value */
enum {
    VFR_TOKEN_SIGN = 0,       /* the first sign */
    VFR_TOKEN_RESERVED = 22,  /* the first reserved word */
    VFR_TOKEN_NAME = 79,      /* a word that is not reserved */
    VFR_TOKEN_HEX = 80,       /* a number with 0x */
    VFR_TOKEN_DECIMAL = 81,   /* a number without */
    VFR_TOKEN_BAD = 82,       /* what is no token: refusal 2 */
    VFR_TOKEN_END = 83        /* the end of the source */
};

/* ---- Functions ---- */

/* Stages 1 to 5 alone, with 16 before 5: the refusal number times 2^32 plus the place, or 0. No line and column. */
uint64_t vfr_quick_check(const uint8_t *src, size_t src_len);

/* Reads a source into a table of table_len numbers, so table_len / VFR_COLUMNS rows. Afterwards
 * - the table holds the rows at its start and 0 past them if the source is accepted; on a refusal all of it is 0;
 * - the answer holds the numbers above, of which VFR_ANSWER_WRITTEN is 0, and 0 past them.
 * A source never has more rows than bytes, so src_len * VFR_COLUMNS numbers are always enough. */
void vfr_read(const uint8_t *src, size_t src_len, uint64_t *table, size_t table_len, uint64_t *answer,
              size_t answer_len);

/* Reads as vfr_read does, and writes the resolved text. Afterwards
 * - the table holds what vfr_read leaves there; if the output is too short (13), all of it is 0;
 * - the output holds the text at its start and 0 past it if the source is accepted; on a refusal all of it is 0;
 * - the answer holds the numbers above, and 0 past them. */
void vfr_resolve(const uint8_t *src, size_t src_len, uint64_t *table, size_t table_len, uint8_t *out,
                 size_t out_len, uint64_t *answer, size_t answer_len);

/* Reads as vfr_read does, and says which items are hidden or grey when the questions have these answers: two numbers
 * each, a question's number and its value, ascending by number; there may be none. Afterwards
 * - the answers to the questions are as they were;
 * - the table holds what vfr_read leaves there; if an answer is at fault (15) or the output too short (30), all of it
 *   is 0;
 * - the output holds one byte for each row at its start and 0 past them if the source is accepted; on a refusal all of
 *   it is 0;
 * - the answer holds the numbers above, of which VFR_ANSWER_WRITTEN is 0, and 0 past them.
 * An expression is worth TRUE, FALSE, a number of 64 bits, or it is undefined; only TRUE hides or makes grey. A
 * checkbox answers FALSE for 0 and TRUE otherwise, a numeric and a oneof their value, whatever it is; a goto, and a
 * question without an answer, are undefined. Each rule is evaluated once, however often it is referred to. */
void vfr_show(const uint8_t *src, size_t src_len, const uint64_t *answers, size_t answers_len, uint64_t *table,
              size_t table_len, uint8_t *out, size_t out_len, uint64_t *answer, size_t answer_len);

/* Reads up to VFR_MAX_FAMILY sources that are joined in one buffer. The ends say where each of them ends: a source is
 * the bytes from the end before its own, 0 for the first, to its own. Equal ends have an empty source between them, and
 * ends know nothing of tokens. Each source is read as vfr_read reads it alone, with the whole rows of the table that
 * the accepted sources before it left over; a refused source takes none, and does not refuse the call. Afterwards
 * - the ends are as they were;
 * - the table holds the rows of the accepted sources, one after another from its start on, and 0 past them. Parents and
 *   places count from the source's own start: the parent 0 is its form set, wherever in the table that stands;
 * - the answers hold VFR_FAMILY_ANSWER numbers for each source, in order, which are those of vfr_read, and 0 past them.
 *   The rows of an accepted source begin where those of the accepted ones before it end, by their row counts;
 * - if the call is refused (17), no source was read, and all of the table and of the answers is 0;
 * - the answer holds the numbers above, and 0 past them. If the call is accepted, VFR_ANSWER_ROWS counts all rows
 *   written, and all others are 0.
 * There may be no ends if there are no bytes. As many rows as bytes are always enough. */
void vfr_read_family(const uint8_t *buffer, size_t buffer_len, const uint64_t *ends, size_t ends_len, uint64_t *table,
                     size_t table_len, uint64_t *answers, size_t answers_len, uint64_t *answer, size_t answer_len);

/* The token that stands first from the place `at` on, after blanks and comments, where `at` has that line and column.
 * Afterwards the token holds the numbers above, and 0 past them. Line and column are counted on from those given over
 * the bytes between `at` and the token's start, and wrap at 2^64; they are the token's own if those given are the
 * place's own. A place past the length counts as the length: the token is then the end, with line and column as given.
 *
 * A token holds no LF. So an editor walks a whole source, in time that grows as its length does, by
 *
 *     uint64_t token[VFR_SEEN];
 *     size_t at = 0, line = 1, column = 1;
 *
 *     for (;;) {
 *         vfr_token(src, src_len, at, line, column, token, VFR_SEEN);
 *         ...
 *         if (token[VFR_SEEN_LAST] == 1) {
 *             break;
 *         }
 *         at = token[VFR_SEEN_NEXT];
 *         line = token[VFR_SEEN_LINE];
 *         column = token[VFR_SEEN_COLUMN] + (token[VFR_SEEN_END] - token[VFR_SEEN_START]);
 *     }
 *
 * At a bad token and at the end place, line and column stay as they are: each further call gives the same. */
void vfr_token(const uint8_t *src, size_t src_len, size_t at, size_t line, size_t column, uint64_t *token,
               size_t token_len);

#ifdef __cplusplus
}
#endif

#endif
