/* Checks the C interface of the library, and the header's constants against what the calls leave: a line for each
 * check, some under a heading, then the total. The exit status is 0 if all agree. */

#define _POSIX_C_SOURCE 200809L

#include "../../include/drnkavec.h"

#include <pthread.h>
#include <stdarg.h>
#include <stdbool.h>
#include <stdio.h>
#include <string.h>

#define ROWS 7000
#define NUMBERS (ROWS * VFR_COLUMNS)
#define OLD UINT64_C(0x5ea15ea15ea15ea1)
#define OLD_BYTE 0xa1

static int passed, failed;

static void check(const char *what, bool good)
{
    printf("%s: %s\n", good ? "ok" : "WRONG", what);
    if (good) {
        passed++;
    } else {
        failed++;
    }
}

/* ---- What is lent: each buffer holds something before a call, and has a guard past its end ---- */

#define MOST_ANSWER (VFR_ANSWER + 5)
#define MOST_TOKEN (VFR_SEEN + 2)
#define MOST_FAMILY ((VFR_MAX_FAMILY + 2) * VFR_FAMILY_ANSWER)

static uint64_t table[NUMBERS + 1];
static uint64_t answer[MOST_ANSWER + 1];
static uint64_t token[MOST_TOKEN + 1];
static uint64_t family[MOST_FAMILY + 1];
static uint8_t out[VFR_MAX_TEXT + 2];

static void fill(uint64_t *numbers, size_t count)
{
    for (size_t i = 0; i < count; i++) {
        numbers[i] = OLD;
    }
}

static bool all(const uint64_t *numbers, size_t from, size_t to, uint64_t value)
{
    for (size_t i = from; i < to; i++) {
        if (numbers[i] != value) {
            return false;
        }
    }
    return true;
}

static bool all_bytes(const uint8_t *bytes, size_t from, size_t to, uint8_t value)
{
    for (size_t i = from; i < to; i++) {
        if (bytes[i] != value) {
            return false;
        }
    }
    return true;
}

static void fill_all(void)
{
    fill(table, NUMBERS + 1);
    fill(answer, MOST_ANSWER + 1);
    fill(token, MOST_TOKEN + 1);
    fill(family, MOST_FAMILY + 1);
    memset(out, OLD_BYTE, sizeof out);
}

/* ---- Sources ---- */

#define GUID "guid={0x1,0x2,0x3,{0x4,0x5,0x6,0x7,0x8,0x9,0xA,0xB}}"
#define STRINGS "prompt=STRING_TOKEN(5),help=STRING_TOKEN(6)"
#define FRAME_START                                                             \
    "formset " GUID ",\r\n"                                                     \
    "\ttitle=STRING_TOKEN(2),help=STRING_TOKEN(3), // \xc3\xa9 \r\n\n"          \
    " form formid=1,title=STRING_TOKEN(4);\n\r\t"
#define SECOND_FORM "endform;form formid=2,title=STRING_TOKEN(4);"
#define FRAME_END "endform;endformset;"
#define LEVELS "1 OR 1 AND 1|1&1==1<1<<1+1"
#define FRAME_ROWS 2

static const char EXAMPLE[] =
    "formset " GUID ",title=STRING_TOKEN(2),help=STRING_TOKEN(3),\n"
    "form formid=0x10,title=STRING_TOKEN(4);\n"
    "checkbox name=Fan," STRINGS ",default=TRUE,endcheckbox;\n"
    "suppressif NOT questionref(Fan)OR 1+2*3==7;\n"
    "numeric questionid=1,prompt=STRING_TOKEN(7),help=STRING_TOKEN(8),flags=READ_ONLY,minimum=0,maximum=9,endnumeric;\n"
    "endif;\n"
    "endform;\n"
    "endformset;\n";

#define EXAMPLE_ROWS 15
#define EXAMPLE_FREE 65533

/* A place with its line and column; NOWHERE is what an answer without a place has. */
struct spot {
    uint64_t place, line, column;
};

static const struct spot START = {0, 1, 1};
static const struct spot NOWHERE = {0, 0, 0};

/* The place after one byte more. */
static struct spot after(struct spot spot, char byte)
{
    spot.place++;
    spot.column++;
    if (byte == '\n') {
        spot.line++;
        spot.column = 1;
    }
    return spot;
}

static struct spot spot_of(const char *bytes, size_t place)
{
    struct spot spot = START;

    for (size_t i = 0; i < place; i++) {
        spot = after(spot, bytes[i]);
    }
    return spot;
}

/* A source that is put together from parts, and where it is to be refused. */
static char source[VFR_MAX_SOURCE + 2];
static size_t length;
static struct spot fault;

/* Adds a part; `^` in it stands before the place of the fault. */
static void add(const char *part)
{
    for (; *part != '\0'; part++) {
        if (*part == '^') {
            fault = spot_of(source, length);
        } else if (length < sizeof source) {
            source[length++] = *part;
        }
    }
}

static void add_times(const char *part, size_t times)
{
    for (size_t i = 0; i < times; i++) {
        add(part);
    }
}

/* A source with these items, NULL after the last part, in one form. */
static void make(const char *part, ...)
{
    va_list parts;

    length = 0;
    fault = NOWHERE;
    add(FRAME_START);
    va_start(parts, part);
    for (; part != NULL; part = va_arg(parts, const char *)) {
        add(part);
    }
    va_end(parts);
    add(FRAME_END);
}

static void make_rules(size_t count)
{
    length = 0;
    add(FRAME_START);
    for (size_t i = 0; i < count; i++) {
        char rule[40];

        snprintf(rule, sizeof rule, "%srule A%zu,1 endrule;", i == VFR_MAX_RULES ? "^" : "", i);
        add(rule);
    }
    add(FRAME_END);
}

/* So many rules, each the sum of the next with itself, a last one that is 1, and a label that is hidden if the first is
 * 2 to the power of the count. */
static void make_doubling(size_t count)
{
    char part[100];

    length = 0;
    add(FRAME_START);
    for (size_t i = 0; i < count; i++) {
        snprintf(part, sizeof part, "rule R%zu,ruleref(R%zu)+ruleref(R%zu) endrule;", i, i + 1, i + 1);
        add(part);
    }
    snprintf(part, sizeof part, "rule R%zu,1 endrule;suppressif ruleref(R0)==1<<%zu;label 1;endif;", count, count);
    add(part);
    add(FRAME_END);
}

/* As many rules as there may be, each referring to the next, the last to this one, if it is a rule's name. */
static void make_chain(const char *last)
{
    char part[100];

    length = 0;
    fault = NOWHERE;
    add(FRAME_START);
    for (size_t i = 0; i + 1 < VFR_MAX_RULES; i++) {
        snprintf(part, sizeof part, "rule A%zu,ruleref(%sA%zu)endrule;", i, i == 0 ? "^" : "", i + 1);
        add(part);
    }
    snprintf(part, sizeof part, "rule A%d,%s endrule;suppressif ruleref(A0);label 1;endif;", VFR_MAX_RULES - 1, last);
    add(part);
    add(FRAME_END);
}

static void make_groups(size_t count)
{
    length = 0;
    add(FRAME_START "rule A,");
    add_times("(", VFR_MAX_GROUPS);
    add_times("^(", count - VFR_MAX_GROUPS);
    add("1");
    add_times(")", count);
    add(" endrule;" FRAME_END);
}

static void make_conditions(size_t count)
{
    length = 0;
    add(FRAME_START);
    add_times("suppressif 1;", VFR_MAX_CONDITIONS);
    add_times("^suppressif 1;", count - VFR_MAX_CONDITIONS);
    add_times("endif;", count);
    add(FRAME_END);
}

/* The deepest source: as many conditions as may be open, and in the innermost one as many groups, each entered from the
 * tightest of the nine levels of expressions, with all nine in the innermost. */
static void make_deepest(void)
{
    length = 0;
    add(FRAME_START);
    add_times("suppressif 1;", VFR_MAX_CONDITIONS - 1);
    add("suppressif ");
    add_times(LEVELS "*(", VFR_MAX_GROUPS);
    add(LEVELS "*1");
    add_times(")", VFR_MAX_GROUPS);
    add(";label 1;");
    add_times("endif;", VFR_MAX_CONDITIONS);
    add(FRAME_END);
}

/* A source of so many bytes. */
static void make_blanks(size_t bytes)
{
    make(NULL);
    memset(source + length, ' ', bytes - length);
    length = bytes;
    fault = NOWHERE;
}

/* So many labels, of which some have a digit more. */
static void make_labels(size_t count, size_t longer)
{
    length = 0;
    add(FRAME_START);
    add_times("label 0;", count - longer);
    add_times("label 10;", longer);
    add(FRAME_END);
}

/* ---- Calls ---- */

static void read_source(const char *bytes, size_t count, size_t table_len)
{
    fill_all();
    vfr_read((const uint8_t *)bytes, count, table, table_len, answer, VFR_ANSWER);
}

static void resolve_source(const char *bytes, size_t count, size_t table_len, size_t out_len)
{
    fill_all();
    vfr_resolve((const uint8_t *)bytes, count, table, table_len, out, out_len, answer, VFR_ANSWER);
}

/* Answers to questions: two numbers each. */
struct list {
    const uint64_t *numbers;
    size_t count;
};

#define LIST(...)                                                               \
    ((struct list){(const uint64_t[]){__VA_ARGS__}, sizeof((const uint64_t[]){__VA_ARGS__}) / sizeof(uint64_t)})

static const struct list NO_ANSWERS = {NULL, 0};

static void show_source(const char *bytes, size_t count, struct list answers, size_t table_len, size_t out_len)
{
    fill_all();
    vfr_show((const uint8_t *)bytes, count, answers.numbers, answers.count, table, table_len, out, out_len, answer,
             VFR_ANSWER);
}

static uint64_t quick(const char *bytes, size_t count)
{
    return vfr_quick_check((const uint8_t *)bytes, count);
}

/* The whole answer of a call that was lent one of VFR_ANSWER numbers, and nothing past it. */
static bool answered(uint64_t number, struct spot spot, uint64_t rows, uint64_t left, uint64_t written)
{
    return answer[VFR_ANSWER_NUMBER] == number && answer[VFR_ANSWER_PLACE] == spot.place &&
           answer[VFR_ANSWER_ROWS] == rows && answer[VFR_ANSWER_FREE] == left &&
           answer[VFR_ANSWER_LINE] == spot.line && answer[VFR_ANSWER_COLUMN] == spot.column &&
           answer[VFR_ANSWER_WRITTEN] == written && all(answer, VFR_ANSWER, MOST_ANSWER + 1, OLD);
}

/* Of an accepted source, of one that is refused somewhere, and of buffers that are too short. */
static bool has_read(uint64_t rows, uint64_t left)
{
    return answered(VFR_ACCEPTED, NOWHERE, rows, left, 0);
}

static bool has_resolved(uint64_t rows, uint64_t left, uint64_t written)
{
    return answered(VFR_ACCEPTED, NOWHERE, rows, left, written);
}

static bool has_refused(uint64_t number, struct spot spot)
{
    return answered(number, spot, 0, 0, 0);
}

static bool is_short(uint64_t number, uint64_t need)
{
    return answered(number, NOWHERE, need, 0, 0);
}

/* Zeros in all of a lent table, and what was there past it; the same of an output. */
static bool cleared_table(size_t table_len)
{
    return all(table, 0, table_len, 0) && all(table, table_len, NUMBERS + 1, OLD);
}

static bool cleared_out(size_t out_len)
{
    return all_bytes(out, 0, out_len, 0) && all_bytes(out, out_len, sizeof out, OLD_BYTE);
}

static bool row_is(size_t row, const uint64_t cells[VFR_COLUMNS])
{
    return memcmp(table + row * VFR_COLUMNS, cells, VFR_COLUMNS * sizeof *cells) == 0;
}

static uint64_t cell(size_t row, size_t column)
{
    return table[row * VFR_COLUMNS + column];
}

static uint64_t place_of(const char *bytes, const char *part)
{
    return (uint64_t)(strstr(bytes, part) - bytes);
}

/* ---- Rows: document 01's example, then every column, code and flag of the header ---- */

static void check_example(void)
{
    const uint64_t formset[VFR_COLUMNS] = {[VFR_COL_CODE] = VFR_FORMSET, [VFR_COL_FIRST] = 2, [VFR_COL_SECOND] = 3,
                                           [VFR_COL_A] = 0x0000000100020003, [VFR_COL_B] = 0x0405060708090a0b};
    const uint64_t form[VFR_COLUMNS] = {[VFR_COL_CODE] = VFR_FORM, [VFR_COL_NUMBER] = 16, [VFR_COL_FIRST] = 4,
                                        [VFR_COL_PLACE] = place_of(EXAMPLE, "form formid")};
    const uint64_t checkbox[VFR_COLUMNS] = {[VFR_COL_CODE] = VFR_CHECKBOX, [VFR_COL_PARENT] = 1,
                                            [VFR_COL_NUMBER] = 2, [VFR_COL_FIRST] = 5, [VFR_COL_SECOND] = 6,
                                            [VFR_COL_FLAGS] = VFR_DEFAULT_WRITTEN, [VFR_COL_D] = 1,
                                            [VFR_COL_NAME] = place_of(EXAMPLE, "Fan,") + 1,
                                            [VFR_COL_PLACE] = place_of(EXAMPLE, "checkbox")};
    const uint64_t reference[VFR_COLUMNS] = {[VFR_COL_CODE] = VFR_QUESTIONREF, [VFR_COL_PARENT] = 3, [VFR_COL_A] = 2,
                                             [VFR_COL_PLACE] = place_of(EXAMPLE, "questionref")};
    const uint64_t either[VFR_COLUMNS] = {[VFR_COL_CODE] = VFR_OR, [VFR_COL_PARENT] = 3,
                                          [VFR_COL_PLACE] = place_of(EXAMPLE, "OR 1")};
    const uint64_t numeric[VFR_COLUMNS] = {[VFR_COL_CODE] = VFR_NUMERIC, [VFR_COL_PARENT] = 3, [VFR_COL_NUMBER] = 1,
                                           [VFR_COL_FIRST] = 7, [VFR_COL_SECOND] = 8, [VFR_COL_FLAGS] = VFR_READ_ONLY,
                                           [VFR_COL_B] = 9, [VFR_COL_C] = 1,
                                           [VFR_COL_PLACE] = place_of(EXAMPLE, "numeric"),
                                           [VFR_COL_SIZE] = 8 * VFR_SIZE_UNIT + VFR_DISPLAY_UINT_DEC};
    const size_t count = sizeof EXAMPLE - 1;

    read_source(EXAMPLE, count, NUMBERS);
    check("the worked example is accepted with 15 rows and 65,533 numbers free",
          has_read(EXAMPLE_ROWS, EXAMPLE_FREE));
    check("its form set", row_is(0, formset));
    check("its form", row_is(1, form));
    check("its checkbox, which gets number 2", row_is(2, checkbox));
    check("its reference by name", row_is(4, reference));
    check("its OR, after both operands", row_is(13, either));
    check("its numeric, whose absent step is 1", row_is(14, numeric));
    check("past the rows the table is 0", all(table, EXAMPLE_ROWS * VFR_COLUMNS, NUMBERS, 0));
    check("past the table nothing is written", table[NUMBERS] == OLD);
    check("the quick check passes it", quick(EXAMPLE, count) == 0);
}

/* A numeric in which no two columns hold the same number. */
static void check_columns(void)
{
    make("numeric name=N,questionid=17,prompt=STRING_TOKEN(18),help=STRING_TOKEN(19),",
         "flags=DISPLAY_UINT_HEX|READ_ONLY|NUMERIC_SIZE_2,minimum=20,maximum=23,step=21,default=22,endnumeric;", NULL);
    read_source(source, length, NUMBERS);
    source[length] = '\0';

    const uint64_t numeric[VFR_COLUMNS] = {[VFR_COL_CODE] = VFR_NUMERIC, [VFR_COL_PARENT] = 1,
                                           [VFR_COL_NUMBER] = 17, [VFR_COL_FIRST] = 18, [VFR_COL_SECOND] = 19,
                                           [VFR_COL_FLAGS] = VFR_READ_ONLY + VFR_DEFAULT_WRITTEN,
                                           [VFR_COL_A] = 20, [VFR_COL_B] = 23, [VFR_COL_C] = 21, [VFR_COL_D] = 22,
                                           [VFR_COL_NAME] = place_of(source, "N,") + 1,
                                           [VFR_COL_PLACE] = place_of(source, "numeric"),
                                           [VFR_COL_SIZE] = 2 * VFR_SIZE_UNIT + VFR_DISPLAY_UINT_HEX};

    check("every column of a numeric", has_read(3, 65534) && row_is(2, numeric));
    read_source(source, length, 3 * VFR_COLUMNS);
    check("three rows are three times the header's row width", has_read(3, 65534));
    read_source(source, length, 3 * VFR_COLUMNS - 1);
    check("and a number fewer is refusal 6", is_short(VFR_TABLE_SHORT, 3));
}

/* Each statement, operator and atom once, and the codes of their rows. */
static void check_codes(void)
{
    static const uint64_t codes[] = {
        VFR_FORMSET, VFR_FORM,
        VFR_RULE, VFR_NUMBER, VFR_TRUE, VFR_MULTIPLY, VFR_FALSE, VFR_DIVIDE, VFR_ZERO, VFR_REMAINDER,
        VFR_RULE, VFR_ONE, VFR_ONES, VFR_ADD, VFR_UNDEFINED, VFR_SUBTRACT,
        VFR_RULE, VFR_QUESTIONREF, VFR_NOT, VFR_RULEREF, VFR_SHIFT_LEFT, VFR_NUMBER, VFR_SHIFT_RIGHT,
        VFR_RULE, VFR_NUMBER, VFR_NUMBER, VFR_LESS, VFR_NUMBER, VFR_LESS_EQUAL, VFR_NUMBER, VFR_GREATER, VFR_NUMBER,
        VFR_GREATER_EQUAL,
        VFR_RULE, VFR_NUMBER, VFR_NUMBER, VFR_EQUAL, VFR_NUMBER, VFR_NOT_EQUAL,
        VFR_RULE, VFR_NUMBER, VFR_NUMBER, VFR_BIT_AND, VFR_NUMBER, VFR_BIT_OR, VFR_NUMBER, VFR_AND, VFR_NUMBER, VFR_OR,
        VFR_SUBTITLE, VFR_TEXT, VFR_LABEL, VFR_GOTO, VFR_CHECKBOX, VFR_NUMERIC, VFR_ONEOF, VFR_OPTION,
        VFR_SUPPRESSIF, VFR_TRUE, VFR_GRAYOUTIF, VFR_TRUE, VFR_DISABLEIF, VFR_TRUE,
    };
    const size_t rows = sizeof codes / sizeof *codes;
    bool good = true;

    make("rule A,1*TRUE/FALSE%ZERO endrule;", "rule B,ONE+ONES-UNDEFINED endrule;",
         "rule C,NOT questionref(Q)<<ruleref(A)>>1 endrule;", "rule D,1<2<=3>4>=5 endrule;",
         "rule E,1==2!=3 endrule;", "rule F,1&2|3 AND 4 OR 5 endrule;", "subtitle text=STRING_TOKEN(1);",
         "text help=STRING_TOKEN(1),text=STRING_TOKEN(2);", "label 3;", "goto 1," STRINGS ";",
         "checkbox name=Q," STRINGS ",endcheckbox;", "numeric " STRINGS ",minimum=0,maximum=1,endnumeric;",
         "oneof " STRINGS ",option text=STRING_TOKEN(1),value=2,flags=0;endoneof;",
         "suppressif TRUE;grayoutif TRUE;disableif TRUE;endif;endif;endif;", NULL);
    read_source(source, length, NUMBERS);
    for (size_t row = 0; row < rows; row++) {
        if (cell(row, VFR_COL_CODE) != codes[row]) {
            printf("row %zu has code %#llx\n", row, (unsigned long long)cell(row, VFR_COL_CODE));
            good = false;
        }
    }
    check("the code of every statement, operator and atom", good && has_read(rows, 65531));
}

static void check_flags(void)
{
    make("goto 1," STRINGS ",flags=READ_ONLY;", "goto 1," STRINGS ",flags=INTERACTIVE;",
         "goto 1," STRINGS ",flags=RESET_REQUIRED;", "checkbox " STRINGS ",default=FALSE,endcheckbox;",
         "oneof " STRINGS ",option text=STRING_TOKEN(1),value=2,flags=DEFAULT;endoneof;", NULL);
    read_source(source, length, NUMBERS);
    check("every flag", cell(2, VFR_COL_FLAGS) == VFR_READ_ONLY && cell(3, VFR_COL_FLAGS) == VFR_INTERACTIVE &&
                            cell(4, VFR_COL_FLAGS) == VFR_RESET_REQUIRED &&
                            cell(5, VFR_COL_FLAGS) == VFR_DEFAULT_WRITTEN && cell(6, VFR_COL_FLAGS) == 0 &&
                            cell(7, VFR_COL_FLAGS) == VFR_OPTION_DEFAULT);
}

/* ---- Refusals: of the made source by every call that can give it ---- */

static void check_refusal(const char *what, uint64_t number)
{
    const bool is_early = number < VFR_TABLE_SHORT || number == VFR_SECOND_WORD;
    bool good = quick(source, length) == (is_early ? number << 32 | fault.place : 0);

    read_source(source, length, NUMBERS);
    good = good && has_refused(number, fault) && cleared_table(NUMBERS);
    resolve_source(source, length, NUMBERS, VFR_MAX_TEXT);
    good = good && has_refused(number, fault) && cleared_table(NUMBERS) && cleared_out(VFR_MAX_TEXT);
    show_source(source, length, LIST(0), NUMBERS, VFR_MAX_TEXT);
    good = good && has_refused(number, fault) && cleared_table(NUMBERS) && cleared_out(VFR_MAX_TEXT);
    check(what, good);
}

static void check_accepted(const char *what, uint64_t rows)
{
    bool good = quick(source, length) == 0;

    read_source(source, length, NUMBERS);
    check(what, good && has_read(rows, 65535));
}

static void check_refusals(void)
{
    make("label ^0X10;", NULL);
    check_refusal("a bad token is refusal 2", VFR_BAD_TOKEN);
    make("label ^;", NULL);
    check_refusal("a token that cannot follow is refusal 3", VFR_NOT_GRAMMAR);
    make("endform;form formid=^1,title=STRING_TOKEN(4);", NULL);
    check_refusal("a repeated form number is refusal 7", VFR_FORM_REPEATED);
    make("goto 1,questionid=0x1A0," STRINGS ";", "goto 1,questionid=^416," STRINGS ";", NULL);
    check_refusal("a repeated question number is refusal 8", VFR_QUESTION_REPEATED);
    make("rule A,1 endrule;rule ^A,1 endrule;", NULL);
    check_refusal("a repeated rule name is refusal 9", VFR_NAME_REPEATED);
    make("goto 1,name=A," STRINGS ";", "goto 1,name=^A," STRINGS ";", NULL);
    check_refusal("a repeated question name is refusal 9", VFR_NAME_REPEATED);
    make("goto ^17," STRINGS ";", NULL);
    check_refusal("a goto that finds nothing is refusal 11", VFR_NOT_FOUND);
    make("rule A,questionref(^A) endrule;", NULL);
    check_refusal("a questionref that finds nothing is refusal 11", VFR_NOT_FOUND);
    make("rule A,ruleref(^B) endrule;", NULL);
    check_refusal("a ruleref that finds nothing is refusal 11", VFR_NOT_FOUND);
    make("rule A,1 endrule;" SECOND_FORM "suppressif 1;grayoutif ruleref(\n^A);endif;endif;rule B,1 endrule;", NULL);
    check_refusal("a ruleref whose rule stands in another form is refusal 11 at the name", VFR_NOT_FOUND);
    make("rule A,ruleref(^B) endrule;" SECOND_FORM "rule B,ruleref(A) endrule;", NULL);
    check_refusal("and so it is where the rule stands in a later form, before circles are looked for", VFR_NOT_FOUND);
    make("numeric " STRINGS ",minimum=5,maximum=^4,endnumeric;", NULL);
    check_refusal("a maximum below its minimum is refusal 12", VFR_BAD_CHOICE);
    make("numeric " STRINGS ",minimum=5,maximum=5,default=^6,endnumeric;", NULL);
    check_refusal("a default outside is refusal 12", VFR_BAD_CHOICE);
    make("oneof " STRINGS ",option text=STRING_TOKEN(1),value=2,flags=0;option text=STRING_TOKEN(1),value=^2,flags=0;",
         "endoneof;", NULL);
    check_refusal("a repeated value is refusal 12", VFR_BAD_CHOICE);
    make("oneof " STRINGS ",option text=STRING_TOKEN(1),value=2,flags=DEFAULT;",
         "option text=STRING_TOKEN(1),value=3,flags=^DEFAULT;endoneof;", NULL);
    check_refusal("a second DEFAULT is refusal 12", VFR_BAD_CHOICE);
    make("rule A,ruleref(A) endrule;", "numeric " STRINGS ",minimum=5,maximum=^4,endnumeric;", NULL);
    check_refusal("and comes before refusal 14", VFR_BAD_CHOICE);
    make("rule A,NOT ruleref(\n^A) endrule;", NULL);
    check_refusal("a rule that refers to itself is refusal 14 at the name", VFR_RULE_CIRCLE);
    make("suppressif ruleref(C);endif;rule C,ruleref(A) endrule;", "rule A,ruleref(D)+ruleref(^B) endrule;",
         "rule B,ruleref(A) endrule;rule D,1 endrule;", NULL);
    check_refusal("its place is a step of the circle: none leads only to it, or out of it", VFR_RULE_CIRCLE);
    make_chain("ruleref(A0)");
    check_refusal("255 rules on one circle are refusal 14", VFR_RULE_CIRCLE);
    check("a cut source is refusal 3 at its length",
          quick(EXAMPLE, 100) == ((uint64_t)VFR_NOT_GRAMMAR << 32 | 100));
}

/* Rules of the own form, earlier and later, deep in conditions too: their numbers count through the form set, and each
 * hides by its own value. Questions and forms are found in every form. */
static void check_forms(void)
{
    make("suppressif ruleref(B);label 1;endif;rule A,FALSE endrule;rule B,NOT ruleref(A) endrule;goto 2," STRINGS ";",
         SECOND_FORM "rule C,questionref(Q) endrule;suppressif ruleref(D);grayoutif ruleref(C);label 2;endif;endif;",
         "rule D,NOT ruleref(C) endrule;", "endform;form formid=3,title=STRING_TOKEN(4);",
         "checkbox name=Q,questionid=9," STRINGS ",endcheckbox;goto 1," STRINGS ";", NULL);
    read_source(source, length, NUMBERS);
    check("a ruleref finds a rule of its own form, earlier or later, by its number in the form set",
          has_read(25, 65532) && cell(3, VFR_COL_A) == 2 && cell(8, VFR_COL_A) == 1 && cell(15, VFR_COL_A) == 4 &&
              cell(17, VFR_COL_A) == 3 && cell(20, VFR_COL_A) == 3 && cell(19, VFR_COL_NUMBER) == 4);
    show_source(source, length, LIST(9, 0), NUMBERS, 100);
    check("and hides by it",
          has_read(25, 65532) && out[4] == VFR_HIDDEN && out[18] == VFR_HIDDEN && all_bytes(out, 5, 18, 0));
    show_source(source, length, LIST(9, 1), NUMBERS, 100);
    check("or makes grey", has_read(25, 65532) && out[4] == VFR_HIDDEN && out[18] == VFR_GREY);
}

/* The limits of the header: each kept, and passed by one. */
static void check_limits(void)
{
    char label[40];

    make_blanks(VFR_MAX_SOURCE);
    check_accepted("a source of 65,536 bytes is accepted", FRAME_ROWS);
    make_blanks(VFR_MAX_SOURCE + 1);
    check_refusal("a byte more is refusal 1", VFR_TOO_LONG);
    make_groups(VFR_MAX_GROUPS);
    check_accepted("32 parentheses are accepted", FRAME_ROWS + 2);
    make_groups(VFR_MAX_GROUPS + 1);
    check_refusal("a 33rd is refusal 4", VFR_TOO_DEEP);
    make_conditions(VFR_MAX_CONDITIONS);
    check_accepted("16 conditions are accepted", FRAME_ROWS + 2 * VFR_MAX_CONDITIONS);
    make_conditions(VFR_MAX_CONDITIONS + 1);
    check_refusal("a 17th is refusal 4", VFR_TOO_DEEP);
    make_rules(VFR_MAX_RULES);
    check_accepted("255 rules are accepted", FRAME_ROWS + 2 * VFR_MAX_RULES);
    make_rules(VFR_MAX_RULES + 1);
    check_refusal("a 256th is refusal 10", VFR_TOO_MANY_RULES);
    snprintf(label, sizeof label, "label ^%d;", VFR_MAX_ID);
    make(label, NULL);
    check_accepted("label 65,535 is accepted", FRAME_ROWS + 1);
    snprintf(label, sizeof label, "label ^%d;", VFR_MAX_ID + 1);
    make(label, NULL);
    check_refusal("label 65,536 is refusal 5", VFR_OUT_OF_RANGE);
}

/* ---- Tables that are too short, or not there ---- */

static void check_short_tables(void)
{
    const size_t count = sizeof EXAMPLE - 1;
    const size_t exact = EXAMPLE_ROWS * VFR_COLUMNS;

    read_source(EXAMPLE, count, exact);
    check("a table of just 15 rows is enough", has_read(EXAMPLE_ROWS, EXAMPLE_FREE));
    read_source(EXAMPLE, count, exact - 1);
    check("one number fewer is refusal 6 with the need", is_short(VFR_TABLE_SHORT, EXAMPLE_ROWS));
    check("and the table is all zeros", cleared_table(exact - 1));
    resolve_source(EXAMPLE, count, exact - 1, VFR_MAX_TEXT);
    check("so it is for resolving, with zeros in the output too",
          is_short(VFR_TABLE_SHORT, EXAMPLE_ROWS) && cleared_table(exact - 1) &&
              cleared_out(VFR_MAX_TEXT));
    read_source(EXAMPLE, count, 0);
    check("an empty table is refusal 6 with the need", is_short(VFR_TABLE_SHORT, EXAMPLE_ROWS));
    check("and is not touched", cleared_table(0));
    read_source(EXAMPLE, count, count * VFR_COLUMNS);
    check("a row for each byte of the source is always enough",
          has_read(EXAMPLE_ROWS, EXAMPLE_FREE));
}

/* A length of 0 may come with a null pointer, in every argument of every call. */
static void check_null(void)
{
    const uint64_t empty = (uint64_t)VFR_NOT_GRAMMAR << 32;
    const size_t count = sizeof EXAMPLE - 1;

    check("quick check: no source", vfr_quick_check(NULL, 0) == empty);
    read_source(NULL, 0, NUMBERS);
    check("reading: no source is refusal 3 at 0, line 1, column 1",
          has_refused(VFR_NOT_GRAMMAR, START) && cleared_table(NUMBERS));
    resolve_source(NULL, 0, NUMBERS, VFR_MAX_TEXT);
    check("resolving: no source is refusal 3 at 0, line 1, column 1",
          has_refused(VFR_NOT_GRAMMAR, START) && cleared_table(NUMBERS) && cleared_out(VFR_MAX_TEXT));
    show_source(NULL, 0, NO_ANSWERS, NUMBERS, VFR_MAX_TEXT);
    check("showing: no source is refusal 3 at 0, line 1, column 1",
          has_refused(VFR_NOT_GRAMMAR, START) && cleared_table(NUMBERS) && cleared_out(VFR_MAX_TEXT));
    fill_all();
    vfr_read((const uint8_t *)EXAMPLE, count, NULL, 0, answer, VFR_ANSWER);
    check("reading: no table is refusal 6 with the need", is_short(VFR_TABLE_SHORT, EXAMPLE_ROWS));
    fill_all();
    vfr_resolve((const uint8_t *)EXAMPLE, count, NULL, 0, out, VFR_MAX_TEXT, answer, VFR_ANSWER);
    check("resolving: no table is refusal 6 with the need",
          is_short(VFR_TABLE_SHORT, EXAMPLE_ROWS) && cleared_out(VFR_MAX_TEXT));
    resolve_source(EXAMPLE, count, NUMBERS, VFR_MAX_TEXT);
    const uint64_t need = answer[VFR_ANSWER_WRITTEN];
    fill_all();
    vfr_resolve((const uint8_t *)EXAMPLE, count, table, NUMBERS, NULL, 0, answer, VFR_ANSWER);
    check("resolving: no output is refusal 13 with the need",
          is_short(VFR_OUTPUT_SHORT, need) && cleared_table(NUMBERS));
    fill_all();
    vfr_read((const uint8_t *)EXAMPLE, count, table, NUMBERS, NULL, 0);
    check("reading: no answer, and the rows all the same", cell(0, VFR_COL_CODE) == VFR_FORMSET);
    fill_all();
    vfr_resolve((const uint8_t *)EXAMPLE, count, table, NUMBERS, out, VFR_MAX_TEXT, NULL, 0);
    check("resolving: no answer, and the text all the same", memcmp(out, "formset ", 8) == 0);
    vfr_read(NULL, 0, NULL, 0, NULL, 0);
    vfr_resolve(NULL, 0, NULL, 0, NULL, 0, NULL, 0);
    vfr_show(NULL, 0, NULL, 0, NULL, 0, NULL, 0, NULL, 0);
    check("nothing at all is lent, and the calls return", true);
}

/* An answer of any length: the first numbers of the whole one, 0 past its layout, and nothing past what is lent. */
static bool answer_of_length(const uint64_t whole[VFR_ANSWER], size_t room)
{
    const size_t told = room < VFR_ANSWER ? room : VFR_ANSWER;

    return memcmp(answer, whole, told * sizeof *whole) == 0 && all(answer, told, room, 0) &&
           all(answer, room, MOST_ANSWER + 1, OLD);
}

/* What is lent in a call of showing, and the source and answers it is given; reading and resolving take some of it. */
struct call {
    const char *bytes;
    size_t count;
    struct list answers;
    size_t table_len, out_len;
};

/* Reading, resolving and showing with answers of all lengths. */
static void check_answer_lengths(const char *what, struct call call)
{
    const uint8_t *bytes = (const uint8_t *)call.bytes;
    uint64_t read[VFR_ANSWER], resolved[VFR_ANSWER], shown[VFR_ANSWER];
    bool good = true;

    read_source(call.bytes, call.count, call.table_len);
    memcpy(read, answer, sizeof read);
    resolve_source(call.bytes, call.count, call.table_len, call.out_len);
    memcpy(resolved, answer, sizeof resolved);
    show_source(call.bytes, call.count, call.answers, call.table_len, call.out_len);
    memcpy(shown, answer, sizeof shown);
    for (size_t room = 0; room <= MOST_ANSWER; room++) {
        fill_all();
        vfr_read(bytes, call.count, table, call.table_len, answer, room);
        good = good && answer_of_length(read, room);
        fill_all();
        vfr_resolve(bytes, call.count, table, call.table_len, out, call.out_len, answer, room);
        good = good && answer_of_length(resolved, room);
        fill_all();
        vfr_show(bytes, call.count, call.answers.numbers, call.answers.count, table, call.table_len, out, call.out_len,
                 answer, room);
        good = good && answer_of_length(shown, room);
    }
    check(what, good);
}

static void check_answers(void)
{
    const size_t count = sizeof EXAMPLE - 1;

    check_answer_lengths("answers of 0 to 12 numbers: accepted",
                         (struct call){EXAMPLE, count, LIST(1, 5, 2, 1), NUMBERS, VFR_MAX_TEXT});
    check_answer_lengths("answers of 0 to 12 numbers: refused on a later line",
                         (struct call){EXAMPLE, 153, NO_ANSWERS, NUMBERS, VFR_MAX_TEXT});
    check_answer_lengths("answers of 0 to 12 numbers: too few rows",
                         (struct call){EXAMPLE, count, NO_ANSWERS, VFR_COLUMNS, VFR_MAX_TEXT});
    check_answer_lengths("answers of 0 to 12 numbers: too short an output",
                         (struct call){EXAMPLE, count, NO_ANSWERS, NUMBERS, EXAMPLE_ROWS - 1});
    check_answer_lengths("answers of 0 to 12 numbers: an answer to a question at fault",
                         (struct call){EXAMPLE, count, LIST(1, 5, 2), NUMBERS, VFR_MAX_TEXT});
}

/* ---- Lines and columns: document 02, W-201, with the numbers written out ---- */

static void check_spot(const char *what, const char *bytes, size_t count, uint64_t number, struct spot spot)
{
    bool good;

    read_source(bytes, count, NUMBERS);
    good = has_refused(number, spot) && cleared_table(NUMBERS);
    resolve_source(bytes, count, NUMBERS, VFR_MAX_TEXT);
    good = good && has_refused(number, spot) && cleared_table(NUMBERS) && cleared_out(VFR_MAX_TEXT);
    check(what, good && quick(bytes, count) == (number << 32 | spot.place));
}

#define CHECK_SPOT(what, bytes, number, ...) \
    check_spot(what, bytes, sizeof bytes - 1, number, (struct spot){__VA_ARGS__})

static void check_lines(void)
{
    static char feeds[VFR_MAX_SOURCE + 1];

    CHECK_SPOT("the empty source: line 1, column 1", "", VFR_NOT_GRAMMAR, 0, 1, 1);
    CHECK_SPOT("a bad token at 0: line 1, column 1", "@", VFR_BAD_TOKEN, 0, 1, 1);
    CHECK_SPOT("the end of the source has a line and column", "formset", VFR_NOT_GRAMMAR, 7, 1, 8);
    CHECK_SPOT("after a last LF it is on a new line", "formset\n", VFR_NOT_GRAMMAR, 8, 2, 1);
    CHECK_SPOT("after a last comment it is on the comment's line", "formset\n//ab", VFR_NOT_GRAMMAR, 12, 2, 5);
    CHECK_SPOT("CR LF is one line, a lone CR none, a tab one byte", "\r\nformset\r\r\n\t@", VFR_BAD_TOKEN, 13, 3, 2);
    CHECK_SPOT("a column counts bytes", "//\xc3\xa9 \n \xc3", VFR_BAD_TOKEN, 7, 2, 2);
    CHECK_SPOT("those of a comment too", "formset //\xc3\xa9", VFR_NOT_GRAMMAR, 12, 1, 13);
    CHECK_SPOT("LF in blanks and after comments count alike", "//a\n \n\n//\n\n  endif", VFR_NOT_GRAMMAR, 13, 6, 3);
    memset(feeds, '\n', sizeof feeds);
    check_spot("65,536 LF bytes are 65,537 lines", feeds, VFR_MAX_SOURCE, VFR_NOT_GRAMMAR,
               (struct spot){65536, 65537, 1});
    check_spot("a source that is too long has no line and column", feeds, VFR_MAX_SOURCE + 1, VFR_TOO_LONG, NOWHERE);
    check("the quick check has neither", quick("\n@", 2) == UINT64_C(8589934593));
    check_spot("a cut source of several lines: the line and column of its end", EXAMPLE, 153, VFR_NOT_GRAMMAR,
               (struct spot){153, 3, 9});
}

/* ---- Resolving ---- */

/* The worked output, with these flags and this step of its numeric. */
#define OUTPUT(flags, step)                                                                                            \
    "formset guid = { 0x00000001 , 0x0002 , 0x0003 , { 0x04 , 0x05 , 0x06 , 0x07 , 0x08 , 0x09 , 0x0a , 0x0b } } , "   \
    "title = STRING_TOKEN ( 2 ) , help = STRING_TOKEN ( 3 ) , form formid = 16 , title = STRING_TOKEN ( 4 ) ;\n"       \
    "checkbox questionid = 2 , prompt = STRING_TOKEN ( 5 ) , help = STRING_TOKEN ( 6 ) , default = TRUE , "            \
    "endcheckbox ;\n"                                                                                                  \
    "suppressif NOT questionref ( 2 ) OR 1 + 2 * 3 == 7 ;\n"                                                           \
    "numeric questionid = 1 , prompt = STRING_TOKEN ( 7 ) , help = STRING_TOKEN ( 8 ) , "                              \
    "flags = " flags " , minimum = 0 , maximum = 9 , step = " step " , endnumeric ;\n"                                 \
    "endif ;\n"                                                                                                        \
    "endform ;\n"                                                                                                      \
    "endformset ;\n"

static const char RESOLVED[] = OUTPUT("READ_ONLY | NUMERIC_SIZE_8 | DISPLAY_UINT_DEC", "1");

static void check_resolve(void)
{
    const size_t need = sizeof RESOLVED - 1;
    const size_t count = sizeof EXAMPLE - 1;

    resolve_source(EXAMPLE, count, NUMBERS, VFR_MAX_TEXT);
    check("the worked example resolves", has_resolved(EXAMPLE_ROWS, EXAMPLE_FREE, need));
    check("to the worked output, with 0 past it",
          memcmp(out, RESOLVED, need) == 0 && all_bytes(out, need, VFR_MAX_TEXT, 0) && out[VFR_MAX_TEXT] == OLD_BYTE);
    check("with the rows of reading in the table", cell(EXAMPLE_ROWS - 1, VFR_COL_CODE) == VFR_NUMERIC &&
                                                       all(table, EXAMPLE_ROWS * VFR_COLUMNS, NUMBERS, 0));
    resolve_source(EXAMPLE, count, NUMBERS, need);
    check("an output of just its bytes is enough",
          has_resolved(EXAMPLE_ROWS, EXAMPLE_FREE, need) && out[need] == OLD_BYTE);
    resolve_source(EXAMPLE, count, NUMBERS, need - 1);
    check("one byte short is refusal 13 with the need",
          is_short(VFR_OUTPUT_SHORT, need) && cleared_table(NUMBERS) && cleared_out(need - 1));
}

/* The longest text there may be, and one byte more, for which no output is enough. */
static void check_longest_text(void)
{
    make(NULL);
    resolve_source(source, length, NUMBERS, VFR_MAX_TEXT);

    const size_t bytes = VFR_MAX_TEXT - answer[VFR_ANSWER_WRITTEN];
    const size_t label = strlen("label 0 ;\n");
    const size_t labels = bytes / label;
    const size_t longer = bytes % label;

    make_labels(labels, longer);
    resolve_source(source, length, NUMBERS, VFR_MAX_TEXT);
    check("a text of 65,536 bytes is given",
          has_resolved(FRAME_ROWS + labels, 65535, VFR_MAX_TEXT) && out[VFR_MAX_TEXT - 1] == '\n');
    make_labels(labels, longer + 1);
    resolve_source(source, length, NUMBERS, VFR_MAX_TEXT + 1);
    check("one byte more is refusal 13, although the output lent has room for it",
          is_short(VFR_OUTPUT_SHORT, VFR_MAX_TEXT + 1) && cleared_table(NUMBERS) &&
              cleared_out(VFR_MAX_TEXT + 1));
}

/* ---- Numerics: document 02, W-204 ---- */

#define NUMERIC "numeric " STRINGS ",flags="
#define LIMITS ",minimum=0,maximum=1,endnumeric;"

/* A size: its word, how many bytes it is, the largest number that fits it and the one past it; then the largest signed
 * number, and the least, which follows it. */
static const struct size {
    const char *word;
    uint64_t bytes;
    const char *most, *past, *largest, *least;
} SIZES[] = {
    {"NUMERIC_SIZE_1", 1, "255", "256", "127", "128"},
    {"NUMERIC_SIZE_2", 2, "65535", "65536", "32767", "32768"},
    {"NUMERIC_SIZE_4", 4, "4294967295", "4294967296", "2147483647", "2147483648"},
    {"NUMERIC_SIZE_8", 8, "18446744073709551615", "18446744073709551616", "9223372036854775807", "9223372036854775808"},
};

/* A display's word, its number, and whether it is signed. */
static const struct display {
    const char *word;
    uint64_t number;
    bool is_signed;
} DISPLAYS[] = {
    {"DISPLAY_INT_DEC", VFR_DISPLAY_INT_DEC, true},
    {"DISPLAY_UINT_DEC", VFR_DISPLAY_UINT_DEC, false},
    {"DISPLAY_UINT_HEX", VFR_DISPLAY_UINT_HEX, false},
};

/* The made source, which has one question, is read. */
static bool reads_question(void)
{
    read_source(source, length, NUMBERS);
    return quick(source, length) == 0 && has_read(FRAME_ROWS + 1, 65534);
}

/* Of one size and display: the format; numbers that fit and numbers that do not; the order about the highest bit. */
static void check_format(const struct size *size, const struct display *display)
{
    const char *const lower = display->is_signed ? size->least : size->largest;
    const char *const upper = display->is_signed ? size->largest : size->least;
    bool good;

    printf("%s with %s:\n", size->word, display->word);
    make(NUMERIC, size->word, "|", display->word, ",minimum=", size->most, ",maximum=", size->most,
         ",step=", size->most, ",default=", size->most, ",endnumeric;", NULL);
    good = reads_question();
    check("the format, and all four numbers as large as they may be",
          good && cell(2, VFR_COL_SIZE) == size->bytes * VFR_SIZE_UNIT + display->number &&
              cell(2, VFR_COL_FLAGS) == VFR_DEFAULT_WRITTEN &&
              all(table + 2 * VFR_COLUMNS, VFR_COL_A, VFR_COL_D + 1, UINT64_MAX >> (64 - 8 * size->bytes)));
    make(NUMERIC, display->word, "|", size->word, ",minimum=^", size->past, ",maximum=", size->past, ",endnumeric;",
         NULL);
    check_refusal("a minimum over the size is refusal 5", VFR_OUT_OF_RANGE);
    make(NUMERIC, display->word, "|", size->word, ",minimum=0,maximum=^", size->past, ",step=", size->past,
         ",endnumeric;", NULL);
    check_refusal("so is a maximum", VFR_OUT_OF_RANGE);
    make(NUMERIC, display->word, "|", size->word, ",minimum=1,maximum=0,step=^", size->past, ",endnumeric;", NULL);
    check_refusal("so is a step, before refusal 12", VFR_OUT_OF_RANGE);
    make(NUMERIC, display->word, "|", size->word, ",minimum=0,maximum=0,default=^", size->past, ",endnumeric;", NULL);
    check_refusal("so is a default", VFR_OUT_OF_RANGE);
    make(NUMERIC, size->word, "|", display->word, ",minimum=", lower, ",maximum=", upper, ",default=", lower,
         ",endnumeric;", NULL);
    check("limits about the highest bit in their order", reads_question());
    make(NUMERIC, size->word, "|", display->word, ",minimum=", upper, ",maximum=^", lower, ",endnumeric;", NULL);
    check_refusal("the other way round they are refusal 12", VFR_BAD_CHOICE);
    make(NUMERIC, size->word, "|", display->word, ",minimum=", lower, ",maximum=", lower, ",default=^", upper,
         ",endnumeric;", NULL);
    check_refusal("and so is such a default", VFR_BAD_CHOICE);
    make(NUMERIC, size->word, "|", display->word, ",minimum=0,maximum=0,endnumeric;", NULL);
    good = reads_question();
    check("an absent step is 1, with limits below it", good && cell(2, VFR_COL_C) == 1);
}

static void check_formats(void)
{
    for (size_t i = 0; i < sizeof SIZES / sizeof *SIZES; i++) {
        for (size_t j = 0; j < sizeof DISPLAYS / sizeof *DISPLAYS; j++) {
            check_format(&SIZES[i], &DISPLAYS[j]);
        }
    }
    make("numeric " STRINGS LIMITS, NUMERIC "NUMERIC_SIZE_2" LIMITS, NUMERIC "DISPLAY_INT_DEC|READ_ONLY" LIMITS,
         "checkbox " STRINGS ",endcheckbox;", NULL);
    read_source(source, length, NUMBERS);
    check("absent words mean eight bytes and DISPLAY_UINT_DEC; other rows have no format",
          has_read(6, 65531) && cell(2, VFR_COL_SIZE) == 33 && cell(3, VFR_COL_SIZE) == 9 &&
              cell(4, VFR_COL_SIZE) == 32 && cell(4, VFR_COL_FLAGS) == VFR_READ_ONLY &&
              cell(5, VFR_COL_SIZE) == 0 && cell(1, VFR_COL_SIZE) == 0 && cell(0, VFR_COL_SIZE) == 0);
}

static void check_second_words(void)
{
    make(NUMERIC "NUMERIC_SIZE_1|\n  ^NUMERIC_SIZE_1" LIMITS, NULL);
    check_refusal("a second size is refusal 16 at that word, even the same", VFR_SECOND_WORD);
    make(NUMERIC "DISPLAY_INT_DEC|READ_ONLY|^DISPLAY_UINT_HEX|DISPLAY_INT_DEC" LIMITS, NULL);
    check_refusal("a second display too, not a third", VFR_SECOND_WORD);
    make(NUMERIC "NUMERIC_SIZE_1|DISPLAY_INT_DEC|^DISPLAY_UINT_HEX|NUMERIC_SIZE_1" LIMITS, NULL);
    check_refusal("of two seconds the earlier", VFR_SECOND_WORD);
    make("label 65536;", NUMERIC "NUMERIC_SIZE_1|^NUMERIC_SIZE_2,minimum=0,maximum=256,endnumeric;", NULL);
    check_refusal("it comes before a refusal 5 that stands earlier", VFR_SECOND_WORD);
    make(NUMERIC "NUMERIC_SIZE_1|NUMERIC_SIZE_1" LIMITS "label ^;", NULL);
    check_refusal("and after a refusal 3 that stands later", VFR_NOT_GRAMMAR);
    make(NUMERIC "NUMERIC_SIZE_1|NUMERIC_SIZE_1" LIMITS, NULL);
    read_source(source, length, 0);
    check("and before refusal 6", answer[VFR_ANSWER_NUMBER] == VFR_SECOND_WORD);
    make(NUMERIC "READ_ONLY|NUMERIC_SIZE_1|READ_ONLY|DISPLAY_INT_DEC" LIMITS, NULL);
    check("one of each is none, nor is a flag twice", reads_question());
    make("checkbox " STRINGS ",flags=READ_ONLY|^NUMERIC_SIZE_1,endcheckbox;", NULL);
    check_refusal("a size among the flags of another question is refusal 3", VFR_NOT_GRAMMAR);
    make("goto 1," STRINGS ",flags=^DISPLAY_UINT_DEC;", NULL);
    check_refusal("so is a display", VFR_NOT_GRAMMAR);
    make("rule ^NUMERIC_SIZE_4,1 endrule;", NULL);
    check_refusal("and so are both as names", VFR_NOT_GRAMMAR);
}

/* From -5 to 5 in one byte: the row, the text and the screen. */
static void check_signed(void)
{
    static const char line[] =
        "\nnumeric questionid = 1 , prompt = STRING_TOKEN ( 5 ) , help = STRING_TOKEN ( 6 ) , "
        "flags = READ_ONLY | RESET_REQUIRED | NUMERIC_SIZE_1 | DISPLAY_INT_DEC , "
        "minimum = 251 , maximum = 5 , step = 1 , default = 255 , endnumeric ;\n";

    make("numeric questionid=1," STRINGS ",flags=DISPLAY_INT_DEC|RESET_REQUIRED|NUMERIC_SIZE_1|READ_ONLY,",
         "minimum=0xFB,maximum=5,default=255,endnumeric;suppressif questionref(1)==251;label 1;endif;", NULL);
    resolve_source(source, length, NUMBERS, VFR_MAX_TEXT);
    check("numbers below zero stay as they are written in the row, and in the text",
          answer[VFR_ANSWER_NUMBER] == VFR_ACCEPTED && cell(2, VFR_COL_A) == 251 && cell(2, VFR_COL_B) == 5 &&
              cell(2, VFR_COL_D) == 255 && cell(2, VFR_COL_SIZE) == VFR_SIZE_UNIT + VFR_DISPLAY_INT_DEC &&
              strstr((const char *)out, line) != NULL);
    show_source(source, length, LIST(1, 251), NUMBERS, 100);
    check("and so they are answered", answer[VFR_ANSWER_NUMBER] == VFR_ACCEPTED && out[7] == VFR_HIDDEN);
    show_source(source, length, LIST(1, UINT64_MAX - 4), NUMBERS, 100);
    check("and not in 64 bits", answer[VFR_ANSWER_NUMBER] == VFR_ACCEPTED && out[7] == 0);
}

/* ---- Steps: document 02, W-208 ---- */

#define ZEROS "numeric " STRINGS ",minimum=0,maximum=0,"

/* The made source is resolved; the row of its first item has this step, and this part stands in the text. */
static bool resolves_step(uint64_t step, const char *part)
{
    resolve_source(source, length, NUMBERS, VFR_MAX_TEXT);
    return answer[VFR_ANSWER_NUMBER] == VFR_ACCEPTED && cell(2, VFR_COL_C) == step &&
           strstr((const char *)out, part) != NULL;
}

/* A text of the worked example is resolved to this one, and has this step in its row. */
static bool resolves_again(const char *text, const char *wanted, uint64_t step)
{
    const size_t need = strlen(wanted);

    resolve_source(text, strlen(text), NUMBERS, VFR_MAX_TEXT);
    return has_resolved(EXAMPLE_ROWS, EXAMPLE_FREE, need) && memcmp(out, wanted, need) == 0 &&
           cell(EXAMPLE_ROWS - 1, VFR_COL_C) == step;
}

static void check_steps(void)
{
    static const char before_sizes[] = OUTPUT("READ_ONLY", "0");
    static const char before_steps[] = OUTPUT("READ_ONLY | NUMERIC_SIZE_8 | DISPLAY_UINT_DEC", "0");

    make(ZEROS "endnumeric;", NULL);
    check("an absent step is 1 in the row and in the text", resolves_step(1, " , step = 1 , endnumeric ;\n"));
    make(ZEROS "step=1,endnumeric;", NULL);
    check("so is a written 1", resolves_step(1, " , step = 1 , endnumeric ;\n"));
    make(ZEROS "step=0,endnumeric;", NULL);
    check("a written 0 stays 0", resolves_step(0, " , step = 0 , endnumeric ;\n"));
    make(ZEROS "default=0,endnumeric;", NULL);
    check("a default is no step", resolves_step(1, " , step = 1 , default = 0 , endnumeric ;\n"));
    make(ZEROS "endnumeric;", ZEROS "step=0,endnumeric;", ZEROS "step=7,endnumeric;", ZEROS "endnumeric;",
         "checkbox " STRINGS ",endcheckbox;", NULL);
    read_source(source, length, NUMBERS);
    check("each numeric has its own, and another question none",
          has_read(7, 65530) && cell(2, VFR_COL_C) == 1 && cell(3, VFR_COL_C) == 0 && cell(4, VFR_COL_C) == 7 &&
              cell(5, VFR_COL_C) == 1 && cell(6, VFR_COL_C) == 0);
    make(ZEROS "default=^1,endnumeric;", NULL);
    check_refusal("an absent step allows no default", VFR_BAD_CHOICE);
    check("the worked output resolves to itself", resolves_again(RESOLVED, RESOLVED, 1));
    check("older text keeps the 0 that it writes", resolves_again(before_steps, before_steps, 0));
    check("so does text without size and display, and gets both", resolves_again(before_sizes, before_steps, 0));
}

/* ---- Showing: document 02, W-202 ---- */

/* These bytes for the first rows of a lent output, 0 for all past them, and nothing past what is lent. */
static bool has_shown(const uint8_t *bytes, size_t rows, size_t out_len)
{
    return memcmp(out, bytes, rows) == 0 && all_bytes(out, rows, out_len, 0) &&
           all_bytes(out, out_len, sizeof out, OLD_BYTE);
}

#define SHOWN(out_len, ...) \
    has_shown((const uint8_t[]){__VA_ARGS__}, sizeof((const uint8_t[]){__VA_ARGS__}), out_len)

/* The table that reading leaves. */
static uint64_t rows_read[NUMBERS];

static bool has_table_of_reading(void)
{
    return memcmp(table, rows_read, sizeof rows_read) == 0 && table[NUMBERS] == OLD;
}

static void check_show(void)
{
    const size_t count = sizeof EXAMPLE - 1;

    read_source(EXAMPLE, count, NUMBERS);
    memcpy(rows_read, table, sizeof rows_read);
    show_source(EXAMPLE, count, LIST(1, 5, 2, 1), NUMBERS, VFR_MAX_TEXT);
    check("the worked example is shown, and counts rows and free numbers alone", has_read(EXAMPLE_ROWS, EXAMPLE_FREE));
    check("its numeric is hidden", SHOWN(VFR_MAX_TEXT, 0, 0, 0, 0, 0, 0, 0, 0, 0, 0, 0, 0, 0, 0, VFR_HIDDEN));
    check("the table is as reading leaves it", has_table_of_reading());
    show_source(EXAMPLE, count, NO_ANSWERS, NUMBERS, EXAMPLE_ROWS);
    check("without answers nothing is hidden, and a byte a row is enough",
          has_read(EXAMPLE_ROWS, EXAMPLE_FREE) && SHOWN(EXAMPLE_ROWS, 0) && has_table_of_reading());
    show_source(EXAMPLE, count, NO_ANSWERS, NUMBERS, EXAMPLE_ROWS - 1);
    check("a byte fewer is refusal 30, with no need told",
          has_refused(VFR_SCREEN_SHORT, NOWHERE) && cleared_table(NUMBERS) && cleared_out(EXAMPLE_ROWS - 1));
    show_source(EXAMPLE, count, NO_ANSWERS, EXAMPLE_ROWS * VFR_COLUMNS, EXAMPLE_ROWS);
    check("a table of just its rows is enough", has_read(EXAMPLE_ROWS, EXAMPLE_FREE));
    show_source(EXAMPLE, count, LIST(0), EXAMPLE_ROWS * VFR_COLUMNS - 1, 0);
    check("a number fewer is refusal 6 with the need",
          is_short(VFR_TABLE_SHORT, EXAMPLE_ROWS) && cleared_table(EXAMPLE_ROWS * VFR_COLUMNS - 1) && cleared_out(0));
    show_source(EXAMPLE, count, LIST(0), NUMBERS, 0);
    check("refusal 15 comes before refusal 30",
          has_refused(VFR_BAD_ANSWER, NOWHERE) && cleared_table(NUMBERS) && cleared_out(0));
}

/* Every item round which conditions are TRUE; conditions, their expressions, options and rules have 0. */
static void check_bytes(void)
{
    make("suppressif TRUE;subtitle text=STRING_TOKEN(1);", "text help=STRING_TOKEN(1),text=STRING_TOKEN(2);",
         "label 1;goto 1," STRINGS ";", "checkbox " STRINGS ",endcheckbox;",
         "numeric " STRINGS ",minimum=0,maximum=9,endnumeric;",
         "oneof " STRINGS ",option text=STRING_TOKEN(1),value=1,flags=0;endoneof;endif;", "rule A,TRUE endrule;", NULL);
    show_source(source, length, NO_ANSWERS, NUMBERS, 100);
    check("every item in a suppressif that is TRUE is hidden, and nothing else",
          has_read(14, 65531) && SHOWN(100, 0, 0, 0, 0, 1, 1, 1, 1, 1, 1, 1, 0, 0, 0));
    make("suppressif TRUE;grayoutif TRUE;label 1;endif;label 2;endif;label 3;", "disableif TRUE;label 4;endif;",
         "grayoutif TRUE;suppressif UNDEFINED;disableif FALSE;suppressif 1;label 5;endif;endif;endif;endif;", NULL);
    show_source(source, length, NO_ANSWERS, NUMBERS, 100);
    check("hidden, grey, both and neither",
          has_read(21, 65535) &&
              SHOWN(100, 0, 0, 0, 0, 0, 0, VFR_HIDDEN + VFR_GREY, VFR_HIDDEN, 0, 0, 0, VFR_HIDDEN, 0, 0, 0, 0, 0, 0, 0,
                    0, VFR_GREY));
}

/* A label in a condition of this expression, after a question of each sort, numbered 1 to 4. */
static bool is_hidden(const char *expression, struct list answers)
{
    make("checkbox questionid=1," STRINGS ",default=TRUE,endcheckbox;",
         "numeric questionid=2," STRINGS ",minimum=0,maximum=9,default=7,endnumeric;",
         "oneof questionid=3," STRINGS ",option text=STRING_TOKEN(1),value=1,flags=DEFAULT;endoneof;",
         "goto 1,questionid=4," STRINGS ";", "suppressif ", expression, ";label 1;endif;", NULL);
    show_source(source, length, answers, NUMBERS, 100);

    const size_t rows = answer[VFR_ANSWER_ROWS];

    if (!has_read(rows, 65531) || !all_bytes(out, 0, rows - 1, 0) || out[rows - 1] > VFR_HIDDEN) {
        printf("the screen of %s is wrong\n", expression);
        return false;
    }
    return out[rows - 1] == VFR_HIDDEN;
}

static void check_questions(void)
{
    check("a checkbox answers TRUE for every value but 0",
          is_hidden("questionref(1)", LIST(1, 2)) && !is_hidden("questionref(1)", LIST(1, 0)) &&
              is_hidden("NOT questionref(1)", LIST(1, 0)));
    check("a numeric and a oneof answer their value, whatever it is",
          is_hidden("questionref(2)==400", LIST(2, 400)) && is_hidden("questionref(3)==ONES", LIST(3, UINT64_MAX)));
    check("a goto answers nothing", !is_hidden("questionref(4)==questionref(4)", LIST(4, 1)));
    check("a missing answer is undefined, and a default is none",
          !is_hidden("questionref(1)", NO_ANSWERS) && !is_hidden("NOT questionref(1)", NO_ANSWERS) &&
              !is_hidden("questionref(2)==7", NO_ANSWERS) && !is_hidden("questionref(2)!=7", NO_ANSWERS));
    check("numbers wrap, shifts of 64 and more give 0, a zero divisor is undefined",
          is_hidden("ONES+2==1 AND 1-2==ONES AND ONES*ONES==1 AND 3<<63==1<<63 AND 1<<64==0 AND ONES>>ONES==0",
                    NO_ANSWERS) && !is_hidden("1/0==1/0 OR TRUE", NO_ANSWERS));
    check("no sort is turned into another, and nothing is cut short",
          !is_hidden("TRUE==1 OR TRUE", NO_ANSWERS) && !is_hidden("1", NO_ANSWERS) &&
              !is_hidden("TRUE OR UNDEFINED", NO_ANSWERS) && !is_hidden("NOT 0", NO_ANSWERS));
}

/* Questions 1, 5 and 9. The first of these answers that is at fault. */
static void check_fault(struct list answers, uint64_t place)
{
    char what[80];

    make("checkbox questionid=5," STRINGS ",endcheckbox;", "checkbox questionid=9," STRINGS ",endcheckbox;",
         "goto 1," STRINGS ";", NULL);
    show_source(source, length, answers, NUMBERS, 5);
    snprintf(what, sizeof what, "%zu numbers of answers are refusal 15 at answer %llu", answers.count,
             (unsigned long long)place);
    check(what, has_refused(VFR_BAD_ANSWER, (struct spot){place, 0, 0}) && cleared_table(NUMBERS) && cleared_out(5));
}

static void check_faults(void)
{
    check_fault(LIST(5), 0);
    check_fault(LIST(0, 1), 0);
    check_fault(LIST(65541, 1), 0);
    check_fault(LIST(UINT64_MAX, 1), 0);
    check_fault(LIST(2, 0, 1), 0);
    check_fault(LIST(5, 1, 5, 1), 1);
    check_fault(LIST(5, 1, 8, 1), 1);
    check_fault(LIST(5, 1, 9), 1);
    check_fault(LIST(9, 1, 5, 1, 9), 1);
    check_fault(LIST(1, 1, 5, 1, 9, 0, 9, 0), 3);
    show_source(source, length, LIST(1, 1, 5, 1, 9, 0), NUMBERS, 5);
    check("a goto and an unnumbered question bear numbers too", has_read(5, 65532) && SHOWN(5, 0));
}

static void check_shown_rules(void)
{
    make_doubling(60);
    show_source(source, length, NO_ANSWERS, NUMBERS, VFR_MAX_TEXT);

    const size_t rows = answer[VFR_ANSWER_ROWS];

    check("sixty rules, each the sum of the next with itself, are evaluated at once",
          has_read(FRAME_ROWS + 60 * 4 + 2 + 6 + 1, 65535) && out[rows - 1] == VFR_HIDDEN &&
              all_bytes(out, 0, rows - 1, 0) && all_bytes(out, rows, VFR_MAX_TEXT, 0));
    make_chain("TRUE");
    show_source(source, length, NO_ANSWERS, NUMBERS, VFR_MAX_TEXT);
    check("a chain of 255 rules", has_read(FRAME_ROWS + 2 * VFR_MAX_RULES + 3, 65535) &&
                                      out[answer[VFR_ANSWER_ROWS] - 1] == VFR_HIDDEN);
}

/* A length of 0 may come with a null pointer. */
static void check_show_null(void)
{
    const uint8_t *bytes = (const uint8_t *)EXAMPLE;
    const size_t count = sizeof EXAMPLE - 1;

    fill_all();
    vfr_show(bytes, count, NULL, 0, NULL, 0, out, VFR_MAX_TEXT, answer, VFR_ANSWER);
    check("showing: no table is refusal 6 with the need",
          is_short(VFR_TABLE_SHORT, EXAMPLE_ROWS) && cleared_out(VFR_MAX_TEXT));
    fill_all();
    vfr_show(bytes, count, NULL, 0, table, NUMBERS, NULL, 0, answer, VFR_ANSWER);
    check("showing: no output is refusal 30", has_refused(VFR_SCREEN_SHORT, NOWHERE) && cleared_table(NUMBERS));
    fill_all();
    vfr_show(bytes, count, (const uint64_t[]){1, 5, 2, 1}, 4, table, NUMBERS, out, VFR_MAX_TEXT, NULL, 0);
    check("showing: no answer, and the bytes all the same",
          out[EXAMPLE_ROWS - 1] == VFR_HIDDEN && all(answer, 0, MOST_ANSWER + 1, OLD));
}

/* ---- Families: document 02, W-206 ---- */

/* The frame of the readings, on one line: the items begin at 140. */
#define FRAMED(items) \
    "formset " GUID ",title=STRING_TOKEN(2),help=STRING_TOKEN(3),form formid=1,title=STRING_TOKEN(4);" items FRAME_END

/* Sources of 3 rows and of 5, and what they are answered with; one that is refused when its rows are there. */
#define THREE FRAMED("label 1;")
#define FIVE FRAMED("checkbox " STRINGS ",endcheckbox;" SECOND_FORM "label 2;")
#define LOST FRAMED("goto 7," STRINGS ";label 2;")
#define OF_EXAMPLE 0, 0, EXAMPLE_ROWS, EXAMPLE_FREE, 0, 0
#define OF_THREE 0, 0, 3, 65535, 0, 0
#define OF_FIVE 0, 0, 5, 65534, 0, 0
#define OF_LOST VFR_NOT_FOUND, 145, 0, 0, 1, 146
#define OF_NOTHING VFR_NOT_GRAMMAR, 0, 0, 0, 1, 1
#define SHORT_OF(rows) VFR_TABLE_SHORT, 0, rows, 0, 0, 0

/* Where the sources end that are put together. */
static uint64_t ends[VFR_MAX_FAMILY + 2];
static size_t end_count;

/* A family of these sources, NULL after the last. */
static void join(const char *part, ...)
{
    va_list parts;

    length = 0;
    end_count = 0;
    va_start(parts, part);
    for (; part != NULL; part = va_arg(parts, const char *)) {
        add(part);
        ends[end_count++] = length;
    }
    va_end(parts);
}

/* A family of so many sources, all the same. */
static void join_times(const char *part, size_t times)
{
    length = 0;
    for (end_count = 0; end_count < times; end_count++) {
        add(part);
        ends[end_count] = length;
    }
}

/* A buffer of so many blanks, with these ends. */
static void join_blanks(size_t bytes, struct list list)
{
    memset(source, ' ', bytes);
    length = bytes;
    end_count = list.count;
    memcpy(ends, list.numbers, list.count * sizeof *ends);
}

static void read_family(size_t table_len, size_t answers_len)
{
    fill_all();
    vfr_read_family((const uint8_t *)source, length, ends, end_count, table, table_len, family, answers_len, answer,
                    VFR_ANSWER);
}

/* These numbers at the start of the lent answers, 0 past them, and nothing past what is lent. */
static bool has_told(struct list told, size_t answers_len)
{
    return memcmp(family, told.numbers, told.count * sizeof *family) == 0 && all(family, told.count, answers_len, 0) &&
           all(family, answers_len, MOST_FAMILY + 1, OLD);
}

/* Reads each source alone, with the rows that are left for it: the same answers, the same rows one after another, 0
 * past them, and nothing past the table. */
static bool each_alone(size_t table_len)
{
    static uint64_t joined[NUMBERS + 1], told[MOST_FAMILY];
    size_t start = 0, used = 0;
    bool good = true;

    memcpy(joined, table, sizeof joined);
    memcpy(told, family, sizeof told);
    for (size_t i = 0; i < end_count; i++) {
        read_source(source + start, ends[i] - start, table_len - used);
        good = good && memcmp(told + i * VFR_FAMILY_ANSWER, answer, VFR_FAMILY_ANSWER * sizeof *told) == 0;
        if (answer[VFR_ANSWER_NUMBER] == VFR_ACCEPTED) {
            const size_t numbers = answer[VFR_ANSWER_ROWS] * VFR_COLUMNS;

            good = good && memcmp(joined + used, table, numbers * sizeof *joined) == 0;
            used += numbers;
        }
        start = ends[i];
    }
    return good && all(joined, used, table_len, 0) && all(joined, table_len, NUMBERS + 1, OLD);
}

/* The call is accepted with so many rows and these answers. The other buffers are lent anew for each source alone, so
 * this comes last. */
static bool has_joined(uint64_t rows, struct list told, size_t table_len, size_t answers_len)
{
    return has_read(rows, 0) && has_told(told, answers_len) && each_alone(table_len);
}

static bool has_refused_family(size_t table_len, size_t answers_len)
{
    return has_refused(VFR_BAD_FAMILY, NOWHERE) && cleared_table(table_len) && all(family, 0, answers_len, 0) &&
           all(family, answers_len, MOST_FAMILY + 1, OLD);
}

static void check_family(void)
{
    static const uint64_t parents[] = {0, 0, 1, 0, 3};
    bool good = true;

    join(THREE, "formset\n @", FIVE, NULL);
    read_family(122, 20);
    for (size_t i = 0; i < 5; i++) {
        good = good && cell(3 + i, VFR_COL_PARENT) == parents[i];
    }
    check("parents count from the source's own form set", good && cell(3, VFR_COL_CODE) == VFR_FORMSET);
    check("and places from its own start", cell(3, VFR_COL_PLACE) == 0 && cell(5, VFR_COL_PLACE) == 140);
    check("a family of three, the second refused, with numbers over: each as if it were alone",
          has_joined(8, LIST(OF_THREE, VFR_BAD_TOKEN, 9, 0, 0, 2, 2, OF_FIVE), 122, 20));
    join("\n\n\n", "\n" FRAMED("\n  rule A,ruleref(A) endrule;"), THREE, NULL);
    read_family(NUMBERS, MOST_FAMILY);
    check("lines and columns count from the source's own start",
          has_joined(3, LIST(VFR_NOT_GRAMMAR, 3, 0, 0, 4, 1, VFR_RULE_CIRCLE, 159, 0, 0, 3, 18, OF_THREE), NUMBERS,
                     MOST_FAMILY));
    join(EXAMPLE, EXAMPLE, NULL);
    read_family(NUMBERS, 12);
    check("nothing goes from one source to another",
          has_joined(2 * EXAMPLE_ROWS, LIST(OF_EXAMPLE, OF_EXAMPLE), NUMBERS, 12));
}

static void check_family_rows(void)
{
    const size_t rows = 11 * VFR_COLUMNS;

    join(THREE, FIVE, THREE, NULL);
    read_family(rows, 18);
    check("a table of just the rows of all", has_joined(11, LIST(OF_THREE, OF_FIVE, OF_THREE), rows, 18));
    read_family(rows - 1, 18);
    check("a number fewer: the last is refusal 6 with the need",
          has_joined(8, LIST(OF_THREE, OF_FIVE, SHORT_OF(3)), rows - 1, 18));
    read_family(7 * VFR_COLUMNS, 18);
    check("one that does not fit takes no rows, and a smaller one behind it is accepted",
          has_joined(6, LIST(OF_THREE, SHORT_OF(5), OF_THREE), 7 * VFR_COLUMNS, 18));
    read_family(0, 18);
    check("without a table each has its need", has_joined(0, LIST(SHORT_OF(3), SHORT_OF(5), SHORT_OF(3)), 0, 18));
    join(THREE, FIVE, NULL);
    read_family(103, 12);
    check("numbers that make no row are not lent", has_joined(3, LIST(OF_THREE, SHORT_OF(5)), 103, 12));
    join(THREE, LOST, NULL);
    read_family(7 * VFR_COLUMNS, 12);
    check("a source that is refused late leaves no trace", has_joined(3, LIST(OF_THREE, OF_LOST), 7 * VFR_COLUMNS, 12));
    join(LOST, THREE, LOST, FIVE, LOST, NULL);
    read_family(9 * VFR_COLUMNS, 31);
    check("nor among others",
          has_joined(8, LIST(OF_LOST, OF_THREE, OF_LOST, OF_FIVE, SHORT_OF(4)), 9 * VFR_COLUMNS, 31));
}

static void check_family_ends(void)
{
    join("", "", NULL);
    read_family(100, 12);
    check("equal ends part an empty source: refusal 3 at 0, line 1, column 1",
          has_joined(0, LIST(OF_NOTHING, OF_NOTHING), 100, 12));
    join("", THREE, "", "", THREE, "", NULL);
    read_family(NUMBERS, 40);
    check("among others too",
          has_joined(6, LIST(OF_NOTHING, OF_THREE, OF_NOTHING, OF_NOTHING, OF_THREE, OF_NOTHING), NUMBERS, 40));
    join(THREE, NULL);
    ends[0] = 20;
    ends[end_count++] = 167;
    read_family(100, 12);
    check("a source ends where its end says, in a token too",
          has_joined(0, LIST(VFR_BAD_TOKEN, 18, 0, 0, 1, 19, OF_NOTHING), 100, 12));
    end_count = 0;
    length = 0;
    read_family(100, 10);
    check("no ends with no bytes are accepted",
          has_read(0, 0) && cleared_table(100) && all(family, 0, 10, 0) && all(family, 10, MOST_FAMILY + 1, OLD));
}

/* Ends that do not part so many blanks. */
static void check_bad_ends(const char *what, size_t bytes, struct list list)
{
    join_blanks(bytes, list);
    read_family(100, MOST_FAMILY);
    check(what, has_refused_family(100, MOST_FAMILY));
}

static void check_family_refusals(void)
{
    check_bad_ends("ends that fall are refusal 17", 5, LIST(3, 2, 5));
    check_bad_ends("so they are at the last", 5, LIST(5, 4));
    check_bad_ends("and from past the buffer", 5, LIST(6, 5));
    check_bad_ends("a last end past the buffer is refusal 17", 5, LIST(6));
    check_bad_ends("however far", 5, LIST(2, UINT64_MAX));
    check_bad_ends("and by 2^32", 5, LIST(5 + (UINT64_C(1) << 32)));
    check_bad_ends("a last end short of the buffer is refusal 17", 5, LIST(4));
    check_bad_ends("bytes without an end are refusal 17", 1, (struct list){ends, 0});
    check_bad_ends("a buffer of 65,537 bytes is refusal 17", VFR_MAX_SOURCE + 1, LIST(VFR_MAX_SOURCE + 1));
    check_bad_ends("however it is parted", VFR_MAX_SOURCE + 1, LIST(1, 2, VFR_MAX_SOURCE + 1));
    join_times("", VFR_MAX_FAMILY + 1);
    read_family(100, MOST_FAMILY);
    check("65 ends are refusal 17", has_refused_family(100, MOST_FAMILY));
    join(THREE, FIVE, NULL);
    read_family(NUMBERS, 11);
    check("a number fewer than the answers need is refusal 17, and nothing is read", has_refused_family(NUMBERS, 11));
    read_family(NUMBERS, 0);
    check("so are no answers", has_refused_family(NUMBERS, 0));
}

/* The most sources and the most bytes. */
static void check_family_limits(void)
{
    const size_t answers_len = VFR_MAX_FAMILY * VFR_FAMILY_ANSWER;
    bool good = true;

    join_times(THREE, VFR_MAX_FAMILY);
    read_family(NUMBERS, answers_len);
    for (size_t i = 0; i < VFR_MAX_FAMILY; i++) {
        good = good && memcmp(family + i * VFR_FAMILY_ANSWER, (const uint64_t[]){OF_THREE}, 48) == 0;
    }
    good = good && has_read(3 * VFR_MAX_FAMILY, 0) && all(family, answers_len, MOST_FAMILY + 1, OLD);
    check("64 sources are accepted", good && each_alone(NUMBERS));
    join_times("", VFR_MAX_FAMILY);
    read_family(0, answers_len);
    check("empty ones too", has_read(0, 0) && each_alone(0));
    join_blanks(VFR_MAX_SOURCE, LIST(VFR_MAX_SOURCE));
    read_family(100, 6);
    check("a buffer of 65,536 bytes is accepted",
          has_joined(0, LIST(VFR_NOT_GRAMMAR, 65536, 0, 0, 1, 65537), 100, 6));
    make_blanks(VFR_MAX_SOURCE - 167);
    ends[0] = length;
    ends[1] = VFR_MAX_SOURCE;
    end_count = 2;
    add(THREE);
    read_family(NUMBERS, 12);
    check("in two sources too", has_joined(5, LIST(0, 0, FRAME_ROWS, 65535, 0, 0, OF_THREE), NUMBERS, 12));
}

/* Answers of any length: the first numbers of the whole one, 0 past its layout, and nothing past what is lent. */
static void check_family_lengths(const char *what, size_t answers_len)
{
    const uint8_t *bytes = (const uint8_t *)source;
    uint64_t whole[VFR_ANSWER], told[MOST_FAMILY + 1];
    bool good = true;

    read_family(NUMBERS, answers_len);
    memcpy(whole, answer, sizeof whole);
    memcpy(told, family, sizeof told);
    for (size_t room = 0; room <= MOST_ANSWER; room++) {
        fill_all();
        vfr_read_family(bytes, length, ends, end_count, table, NUMBERS, family, answers_len, answer, room);
        good = good && answer_of_length(whole, room) && memcmp(told, family, sizeof told) == 0;
    }
    check(what, good);
}

/* A family lent the middle of every buffer, 122 numbers for rows and so many for answers; the marks on both sides. */
static bool keeps_marks(size_t answers_len)
{
    fill_all();
    vfr_read_family((const uint8_t *)source, length, ends, end_count, table + 5, 122, family + 3, answers_len,
                    answer + 2, VFR_ANSWER);
    return all(table, 0, 5, OLD) && all(table, 5 + 122, NUMBERS + 1, OLD) && all(family, 0, 3, OLD) &&
           all(family, 3 + answers_len, MOST_FAMILY + 1, OLD) && all(answer, 0, 2, OLD) &&
           all(answer, 2 + VFR_ANSWER, MOST_ANSWER + 1, OLD);
}

static void check_family_marks(void)
{
    join(LOST, THREE, LOST, FIVE, THREE, NULL);
    check("families: nothing is written before what is lent, or past it",
          keeps_marks(31) && answer[2 + VFR_ANSWER_NUMBER] == VFR_ACCEPTED && answer[2 + VFR_ANSWER_ROWS] == 8);
    check("nor is it where the call is refused", keeps_marks(29) && answer[2 + VFR_ANSWER_NUMBER] == VFR_BAD_FAMILY);
}

/* A length of 0 may come with a null pointer, in every argument. */
static void check_family_null(void)
{
    const uint8_t *const bytes = (const uint8_t *)THREE;
    const uint64_t end = sizeof THREE - 1;

    join(THREE, NULL);
    fill_all();
    vfr_read_family(NULL, 0, NULL, 0, table, 100, family, 10, answer, VFR_ANSWER);
    check("families: no bytes and no ends are accepted", has_read(0, 0) && cleared_table(100) && all(family, 0, 10, 0));
    fill_all();
    vfr_read_family(NULL, 0, (const uint64_t[]){0}, 1, NULL, 0, family, 6, answer, VFR_ANSWER);
    check("families: no bytes with an end", has_read(0, 0) && has_told(LIST(OF_NOTHING), 6));
    fill_all();
    vfr_read_family(bytes, end, &end, 1, NULL, 0, family, 6, answer, VFR_ANSWER);
    check("families: no table is refusal 6 of the source", has_read(0, 0) && has_told(LIST(SHORT_OF(3)), 6));
    fill_all();
    vfr_read_family(bytes, end, &end, 1, table, 100, NULL, 0, answer, VFR_ANSWER);
    check("families: no answers are refusal 17", has_refused_family(100, 0));
    fill_all();
    vfr_read_family(bytes, end, NULL, 0, table, 100, family, 6, answer, VFR_ANSWER);
    check("families: no ends are refusal 17", has_refused_family(100, 6));
    fill_all();
    vfr_read_family(bytes, end, &end, 1, table, NUMBERS, family, 6, NULL, 0);
    check("families: no answer of the call, and those of the sources all the same",
          all(answer, 0, MOST_ANSWER + 1, OLD) && has_told(LIST(OF_THREE), 6) && each_alone(NUMBERS));
    vfr_read_family(NULL, 0, NULL, 0, NULL, 0, NULL, 0, NULL, 0);
    check("families: nothing at all is lent, and the call returns", true);
}

/* All of these; last that what is lent to be read is as it was. */
static void check_families(void)
{
    static char copy[sizeof source];
    uint64_t copied[sizeof ends / sizeof *ends];

    check_family();
    check_family_rows();
    check_family_ends();
    check_family_refusals();
    check_family_limits();
    check_family_marks();
    check_family_null();
    join(THREE, "\n\n@", FIVE, NULL);
    memcpy(copy, source, sizeof copy);
    memcpy(copied, ends, sizeof copied);
    check_family_lengths("families: answers of 0 to 12 numbers: accepted", 18);
    check_family_lengths("families: answers of 0 to 12 numbers: refused", 17);
    check("the buffer of a family is untouched", memcmp(copy, source, sizeof copy) == 0);
    check("and so are its ends", memcmp(copied, ends, sizeof copied) == 0);
}

/* ---- Tokens ---- */

static void token_from(const char *bytes, size_t count, size_t at, size_t line, size_t column)
{
    fill_all();
    vfr_token((const uint8_t *)bytes, count, at, line, column, token, VFR_SEEN);
}

/* The whole token of a call that was lent one of VFR_SEEN numbers, and nothing past it. */
static bool has_seen(uint64_t class, struct spot start, uint64_t end, uint64_t next, uint64_t last)
{
    return token[VFR_SEEN_CLASS] == class && token[VFR_SEEN_START] == start.place && token[VFR_SEEN_END] == end &&
           token[VFR_SEEN_LINE] == start.line && token[VFR_SEEN_COLUMN] == start.column &&
           token[VFR_SEEN_NEXT] == next && token[VFR_SEEN_LAST] == last && all(token, VFR_SEEN, MOST_TOKEN + 1, OLD);
}

/* A token that is wanted: class, start with line and column, end. */
struct wanted {
    uint64_t class;
    struct spot start;
    uint64_t end;
};

/* Walks a source by the rule of the header; answers how many tokens it has, the bad one or the end too. What is wanted
 * of them, if anything, and whether all agreed, stand in the last two arguments. */
static size_t walk_wanted(const char *bytes, size_t count, const struct wanted *wanted, bool *good)
{
    size_t at = 0, line = 1, column = 1;

    for (size_t i = 0;; i++) {
        token_from(bytes, count, at, line, column);

        const bool is_last = token[VFR_SEEN_CLASS] >= VFR_TOKEN_BAD;
        const uint64_t next = is_last ? at : token[VFR_SEEN_END];

        if (wanted != NULL) {
            *good = *good && has_seen(wanted[i].class, wanted[i].start, wanted[i].end, next, is_last);
        } else {
            *good = *good && has_seen(token[VFR_SEEN_CLASS], spot_of(bytes, token[VFR_SEEN_START]), token[VFR_SEEN_END],
                                      next, is_last);
        }
        if (token[VFR_SEEN_LAST] != 0 || !*good) {
            return i + 1;
        }
        at = token[VFR_SEEN_NEXT];
        line = token[VFR_SEEN_LINE];
        column = token[VFR_SEEN_COLUMN] + (token[VFR_SEEN_END] - token[VFR_SEEN_START]);
    }
}

static size_t walk_source(const char *bytes, size_t count)
{
    bool good = true;
    size_t tokens = walk_wanted(bytes, count, NULL, &good);

    return good ? tokens : 0;
}

#define LINES "Fan\r\n\t// \xc3\xa9 x\r\n\n  form=0x1F,// y\n\r12>=\t>>;\r\n"

static void check_walk(void)
{
    static const struct wanted six_lines[] = {
        {VFR_TOKEN_NAME, {0, 1, 1}, 3},
        {54, {18, 4, 3}, 22},
        {6, {22, 4, 7}, 23},
        {VFR_TOKEN_HEX, {23, 4, 8}, 27},
        {4, {27, 4, 12}, 28},
        {VFR_TOKEN_DECIMAL, {34, 5, 2}, 36},
        {14, {36, 5, 4}, 38},
        {16, {39, 5, 7}, 41},
        {5, {41, 5, 9}, 42},
        {VFR_TOKEN_END, {44, 6, 1}, 44},
    };
    static const struct wanted to_a_bad_one[] = {
        {VFR_TOKEN_NAME, {0, 1, 1}, 1},
        {VFR_TOKEN_BAD, {3, 2, 2}, 3},
    };
    bool good = true;
    bool ends_badly = true;

    check("a walk over a source of six lines, numbers written out",
          walk_wanted(LINES, sizeof LINES - 1, six_lines, &good) == 10 && good);
    check("a walk that ends at a bad token", walk_wanted("a\n @", 4, to_a_bad_one, &ends_badly) == 2 && ends_badly);
    check("every token of the worked example has its own line and column",
          walk_source(EXAMPLE, sizeof EXAMPLE - 1) == 135);
    make("label 1;\n// \xff\n\n\tlabel 2;", NULL);
    check("and every token of a source with CR LF and bytes over 127", walk_source(source, length) == 66);
}

/* The numbers of the classes: signs in document 01's order, reserved words in the order of their bytes. */
static void check_classes(void)
{
    static const char *const words[] = {
        "{", "}", "(", ")", ",", ";", "=", "|", "&", "==", "!=", "<", "<=", ">", ">=", "<<", ">>", "+", "-", "*", "/",
        "%", "AND", "DEFAULT", "DISPLAY_INT_DEC", "DISPLAY_UINT_DEC", "DISPLAY_UINT_HEX", "FALSE", "INTERACTIVE", "NOT",
        "NUMERIC_SIZE_1", "NUMERIC_SIZE_2", "NUMERIC_SIZE_4", "NUMERIC_SIZE_8", "ONE", "ONES", "OR", "READ_ONLY",
        "RESET_REQUIRED", "STRING_TOKEN", "TRUE", "UNDEFINED", "ZERO", "checkbox", "default", "disableif",
        "endcheckbox", "endform", "endformset", "endif", "endnumeric", "endoneof", "endrule", "flags", "form", "formid",
        "formset", "goto", "grayoutif", "guid", "help", "label", "maximum", "minimum", "name", "numeric", "oneof",
        "option", "prompt", "questionid", "questionref", "rule", "ruleref", "step", "subtitle", "suppressif", "text",
        "title", "value", "other", "0x0", "0",
    };
    const size_t count = sizeof words / sizeof *words;
    bool good = count == VFR_TOKEN_BAD;

    for (size_t i = 0; i < count; i++) {
        const size_t bytes = strlen(words[i]);

        token_from(words[i], bytes, 0, 1, 1);
        good = good && has_seen(i, START, bytes, bytes, 0);
    }
    check("the class of every sign and reserved word, of a name and of both sorts of numbers", good);
    check("the first sign and the first reserved word", strcmp(words[VFR_TOKEN_SIGN], "{") == 0 &&
                                                            strcmp(words[VFR_TOKEN_RESERVED], "AND") == 0);
}

/* At a bad token and at the end place, line and column stay, and the answer repeats. */
static void check_last(void)
{
    bool good = true;

    for (int i = 0; i < 3; i++) {
        token_from("a\n @", 4, 1, 1, 2);
        good = good && has_seen(VFR_TOKEN_BAD, (struct spot){3, 2, 2}, 3, 1, 1);
        token_from("a\n //b", 6, 1, 1, 2);
        good = good && has_seen(VFR_TOKEN_END, (struct spot){6, 2, 5}, 6, 1, 1);
    }
    check("a bad token and the end repeat, with the place that was given", good);
    token_from("a //\xc3\xa9", 6, 1, 1, 2);
    check("a column counts the bytes of a comment", has_seen(VFR_TOKEN_END, (struct spot){6, 1, 7}, 6, 1, 1));
    token_from("a\n b", 4, 4, 2, 3);
    check("at the length the token is the end", has_seen(VFR_TOKEN_END, (struct spot){4, 2, 3}, 4, 4, 1));
    token_from("a\n b", 4, 5, 7, 9);
    check("past the length too, with line and column as given",
          has_seen(VFR_TOKEN_END, (struct spot){4, 7, 9}, 4, 5, 1));
    token_from("a\n b", 4, SIZE_MAX, 7, 9);
    check("at the largest place too", has_seen(VFR_TOKEN_END, (struct spot){4, 7, 9}, 4, SIZE_MAX, 1));
    token_from("formset", 7, 4, 1, 5);
    check("a place inside a word is the start of another", has_seen(VFR_TOKEN_NAME, (struct spot){4, 1, 5}, 7, 7, 0));
}

static void check_wrapping(void)
{
    token_from("  a", 3, 0, 7, 100);
    check("columns count on from the one given", has_seen(VFR_TOKEN_NAME, (struct spot){2, 7, 102}, 3, 3, 0));
    token_from("   a", 4, 0, SIZE_MAX, SIZE_MAX);
    check("columns wrap at 2^64", has_seen(VFR_TOKEN_NAME, (struct spot){3, UINT64_MAX, 2}, 4, 4, 0));
    token_from("\n\r\n  a", 6, 0, SIZE_MAX, SIZE_MAX);
    check("lines wrap at 2^64", has_seen(VFR_TOKEN_NAME, (struct spot){5, 1, 3}, 6, 6, 0));
    token_from("\n@", 2, 0, 0, 0);
    check("a line and column of 0 are taken too", has_seen(VFR_TOKEN_BAD, (struct spot){1, 1, 1}, 1, 0, 1));
}

/* Tokens of any length: the first numbers of the whole one, 0 past its layout, and nothing past what is lent. */
static void check_token_lengths(void)
{
    uint64_t whole[VFR_SEEN];
    bool good = true;

    token_from("a\n  @", 5, 1, 3, 4);
    memcpy(whole, token, sizeof whole);
    for (size_t room = 0; room <= MOST_TOKEN; room++) {
        const size_t told = room < VFR_SEEN ? room : VFR_SEEN;

        fill_all();
        vfr_token((const uint8_t *)"a\n  @", 5, 1, 3, 4, token, room);
        good = good && memcmp(token, whole, told * sizeof *whole) == 0 && all(token, told, room, 0) &&
               all(token, room, MOST_TOKEN + 1, OLD);
    }
    check("tokens of 0 to 9 numbers", good);
    token_from(NULL, 0, 0, 1, 1);
    check("no source: the end at 0, line 1, column 1", has_seen(VFR_TOKEN_END, START, 0, 0, 1));
    token_from(NULL, 0, 9, 3, 4);
    check("no source, and a place past it", has_seen(VFR_TOKEN_END, (struct spot){0, 3, 4}, 0, 9, 1));
    vfr_token((const uint8_t *)"a", 1, 0, 1, 1, NULL, 0);
    vfr_token(NULL, 0, 0, 1, 1, NULL, 0);
    check("no token is lent, and the call returns", true);
}

/* ---- The stack that the header asks for; a call that wants more ends the program ---- */

static void *quick_deepest(void *unused)
{
    quick(source, length);
    return unused;
}

static void *read_deepest(void *unused)
{
    read_source(source, length, NUMBERS);
    return unused;
}

static void *read_deepest_family(void *unused)
{
    const uint64_t ends[] = {length};

    vfr_read_family((const uint8_t *)source, length, ends, 1, table, NUMBERS, family, VFR_FAMILY_ANSWER, answer,
                    VFR_ANSWER);
    return unused;
}

static void *resolve_deepest(void *unused)
{
    resolve_source(source, length, NUMBERS, VFR_MAX_TEXT);
    return unused;
}

static void *show_deepest(void *unused)
{
    show_source(source, length, NO_ANSWERS, NUMBERS, VFR_MAX_TEXT);
    return unused;
}

/* Runs a call in a thread with so many bytes of stack, with all that was checked before printed. */
static bool ran(void *(*call)(void *), size_t stack)
{
    pthread_attr_t attributes;
    pthread_t thread;
    bool good = fflush(stdout) == 0 && pthread_attr_init(&attributes) == 0;

    good = good && pthread_attr_setstacksize(&attributes, stack) == 0;
    good = good && pthread_create(&thread, &attributes, call, NULL) == 0;
    return good && pthread_join(thread, NULL) == 0 && pthread_attr_destroy(&attributes) == 0;
}

static void check_stack(void)
{
    make_deepest();
    check("the quick check of the deepest source in a thread of 190 KB", ran(quick_deepest, 190 * 1024));
    check("reading it in a thread of 320 KB", ran(read_deepest, 320 * 1024) && answer[0] == VFR_ACCEPTED);
    check("reading it as a family there", ran(read_deepest_family, 320 * 1024) && answer[0] == VFR_ACCEPTED);
    check("resolving it there", ran(resolve_deepest, 320 * 1024) && answer[0] == VFR_ACCEPTED);
    check("showing it in a thread of 370 KB", ran(show_deepest, 370 * 1024) && answer[0] == VFR_ACCEPTED);
}

static void check_source_untouched(void)
{
    char copy[sizeof EXAMPLE];
    const uint64_t answers[] = {1, 5, 2, 1};
    uint64_t lent[sizeof answers / sizeof *answers];

    memcpy(copy, EXAMPLE, sizeof copy);
    memcpy(lent, answers, sizeof lent);
    read_source(copy, sizeof copy - 1, NUMBERS);
    resolve_source(copy, sizeof copy - 1, NUMBERS, VFR_MAX_TEXT);
    quick(copy, sizeof copy - 1);
    walk_source(copy, sizeof copy - 1);
    show_source(copy, sizeof copy - 1, (struct list){lent, 4}, NUMBERS, VFR_MAX_TEXT);
    check("the source is untouched", memcmp(copy, EXAMPLE, sizeof copy) == 0);
    check("and so are the answers to its questions", memcmp(lent, answers, sizeof lent) == 0);
}

int main(void)
{
    check_example();
    check_columns();
    check_codes();
    check_flags();
    check_refusals();
    check_forms();
    check_limits();
    check_short_tables();
    check_null();
    check_answers();
    check_lines();
    check_walk();
    check_classes();
    check_last();
    check_wrapping();
    check_token_lengths();
    check_resolve();
    check_longest_text();
    check_formats();
    check_second_words();
    check_signed();
    check_steps();
    check_show();
    check_bytes();
    check_questions();
    check_faults();
    check_shown_rules();
    check_show_null();
    check_families();
    check_stack();
    check_source_untouched();
    printf("%d checks passed, %d failed\n", passed, failed);
    return failed != 0;
}
