/*
 * Tests of both checks for left recursion by the header's inline functions, as C and as C++. Linked with --wrap for the
 * archive's two functions, so that every pointer that reaches them is seen here. Prints what does not hold, and leaves with
 * status 1 if anything does.
 */
#include "sejimakpu.h"

#include <stdio.h>
#include <string.h>

/* Cells for a capture of one byte and a grammar of 31 rules: 5 * (1 + 2) * (2 * 31 + 1). */
enum { CELLS = 945, OLD = 7, MOST = 31 };

static int faults = 0;

static void expect(int holds, const char *name, const char *what)
{
    if (!holds) {
        printf("header_recursion.c: %s: %s\n", name, what);
        faults++;
    }
}

#ifdef __cplusplus
extern "C" {
#endif

/* The archive's functions by the names that the linker's --wrap gives them; a call by the proper name comes to __wrap_. */
uint32_t __real_sejimakpu_check_recursion_nonnull(const uint8_t *, size_t, sejimakpu_answer *);
uint32_t __real_sejimakpu_check_text_recursion_nonnull(const uint8_t *, size_t, sejimakpu_answer *);

static int calls = 0, made = 0;

static void arrives(const void *pointer, size_t alignment, const char *name)
{
    expect(pointer != NULL, name, "a null pointer reaches the archive");
    expect((uintptr_t)pointer % alignment == 0, name, "an unaligned pointer reaches the archive");
}

uint32_t __wrap_sejimakpu_check_recursion_nonnull(const uint8_t *grammar, size_t length, sejimakpu_answer *answer)
{
    calls++;
    arrives(grammar, 1, "grammar of check_recursion");
    arrives(answer, sizeof answer->place, "answer of check_recursion");
    return __real_sejimakpu_check_recursion_nonnull(grammar, length, answer);
}

uint32_t __wrap_sejimakpu_check_text_recursion_nonnull(const uint8_t *text, size_t length, sejimakpu_answer *answer)
{
    calls++;
    arrives(text, 1, "text of check_text_recursion");
    arrives(answer, sizeof answer->place, "answer of check_text_recursion");
    return __real_sejimakpu_check_text_recursion_nonnull(text, length, answer);
}

#ifdef __cplusplus
}
#endif

static sejimakpu_answer dirty(void)
{
    sejimakpu_answer answer;
    memset(&answer, OLD, sizeof answer);
    return answer;
}

/* The number returned and the whole answer: place and count, and 0 in every other field. */
static void same(const char *name, uint32_t got, const sejimakpu_answer *answer, uint32_t number, uint64_t place,
                 uint64_t count)
{
    expect(got == number, name, "another number");
    expect(answer->place == place, name, "another place");
    expect(answer->count == count, name, "another count");
    expect(answer->verdict == 0 && answer->state == 0 && answer->head == 0 && answer->symbol == 0, name,
           "a field that says nothing is not 0");
}

/* A grammar's check: this number and place, with an answer that was written before, and without one. */
static void grammar(const char *name, uint32_t number, uint64_t place, const uint8_t *bytes, size_t length)
{
    sejimakpu_answer answer = dirty();
    made += 2;
    same(name, sejimakpu_check_recursion(bytes, length, &answer), &answer, number, place, 0);
    expect(sejimakpu_check_recursion(bytes, length, NULL) == number, name, "another number without an answer");
}

#define GRAMMAR(name, number, place, ...) \
    do { \
        static const uint8_t bytes[] = {__VA_ARGS__}; \
        grammar(name, number, place, bytes, sizeof bytes); \
    } while (0)

/* A text's check, in the same way; and beside it what reading the text gives, and the check of the grammar that is read. */
static void bytes_of_text(const char *name, uint32_t number, uint64_t place, uint64_t count, const uint8_t *bytes,
                          size_t length)
{
    uint8_t read[SEJIMAKPU_MAX_GRAMMAR];
    sejimakpu_answer answer = dirty();
    made += 2;
    same(name, sejimakpu_check_text_recursion(bytes, length, &answer), &answer, number, place, count);
    expect(sejimakpu_check_text_recursion(bytes, length, NULL) == number, name, "another number without an answer");
    uint32_t refusal = sejimakpu_read_grammar(bytes, length, read, &answer);
    if (refusal == SEJIMAKPU_ANSWERED)
        grammar(name, number, place, read, (size_t)answer.count);
    else
        expect(refusal == number && answer.place == place, name, "refused otherwise than reading it is");
}

static void text(const char *name, uint32_t number, uint64_t place, uint64_t count, const char *letters)
{
    bytes_of_text(name, number, place, count, (const uint8_t *)letters, strlen(letters));
}

/* The largest grammar, rule by rule. */
static uint8_t most[4 * (MOST + 1)];

static void put_rule(size_t k, uint8_t kind, size_t b, size_t c)
{
    const uint8_t rule[4] = {kind, (uint8_t)b, (uint8_t)c, 0};
    memcpy(most + 4 * k, rule, sizeof rule);
}

static void refusals_of_grammars(void)
{
    static const uint8_t zeros[128] = {0};
    grammar("no grammar", SEJIMAKPU_GRAMMAR_LENGTH, 0, NULL, 0);
    grammar("a length of 0", SEJIMAKPU_GRAMMAR_LENGTH, 0, zeros, 0);
    grammar("32 rules", SEJIMAKPU_GRAMMAR_LENGTH, 128, zeros, 128);
    GRAMMAR("a part of a rule", SEJIMAKPU_GRAMMAR_LENGTH, 3, 1, 0, 0);
    GRAMMAR("a part of a rule, after one that leads back", SEJIMAKPU_GRAMMAR_LENGTH, 5, 1, 0, 0, 0, 1);
    GRAMMAR("a rule that is not there", SEJIMAKPU_GRAMMAR_RULE, 0, 1, 0, 1, 0);
    GRAMMAR("no kind", SEJIMAKPU_GRAMMAR_RULE, 0, 0, 0, 0, 0);
    GRAMMAR("a bad rule, after one that leads back", SEJIMAKPU_GRAMMAR_RULE, 4, 1, 0, 0, 0, 9, 0, 0, 0);
    GRAMMAR("a bad rule, before one that leads back", SEJIMAKPU_GRAMMAR_RULE, 0, 4, 1, 0, 0, 3, 1, 0, 0);
}

static void small_grammars(void)
{
    const uint32_t back = SEJIMAKPU_LEFT_RECURSION, passes = SEJIMAKPU_ANSWERED;
    GRAMMAR("nothing", passes, 0, 4, 0, 0, 0);
    GRAMMAR("a range", passes, 0, 5, 'a', 'z', 0);
    GRAMMAR("itself, twice", back, 0, 1, 0, 0, 0);
    GRAMMAR("not itself", back, 0, 3, 0, 0, 0);
    GRAMMAR("itself, or else itself", back, 0, 2, 0, 0, 0);
    GRAMMAR("itself, or else a byte", back, 0, 2, 0, 1, 0, 5, 'a', 'a', 0);
    GRAMMAR("a byte, or else itself", back, 0, 2, 1, 0, 0, 5, 'a', 'a', 0);
    GRAMMAR("itself, then a byte", back, 0, 1, 0, 1, 0, 5, 'a', 'a', 0);
    /* second parts: what comes after a byte is met further on, what comes after nothing is not */
    GRAMMAR("a byte, then itself", passes, 0, 1, 1, 0, 0, 5, 'a', 'a', 0);
    GRAMMAR("what always fails, then itself", passes, 0, 1, 1, 0, 0, 5, 255, 0, 0);
    GRAMMAR("nothing, then itself", back, 0, 1, 1, 0, 0, 4, 0, 0, 0);
    GRAMMAR("not a byte, then itself", back, 0, 1, 1, 0, 0, 3, 2, 0, 0, 5, 'a', 'a', 0);
    GRAMMAR("a byte or nothing, then itself", back, 0, 1, 1, 0, 0, 2, 2, 3, 0, 5, 'a', 'a', 0, 4, 0, 0, 0);
    GRAMMAR("nothing or a byte, then itself", back, 0, 1, 1, 0, 0, 2, 3, 2, 0, 5, 'a', 'a', 0, 4, 0, 0, 0);
    GRAMMAR("a byte and nothing, then itself", passes, 0, 1, 1, 0, 0, 1, 2, 3, 0, 5, 'a', 'a', 0, 4, 0, 0, 0);
    GRAMMAR("nothing and a byte, then itself", passes, 0, 1, 1, 0, 0, 1, 3, 2, 0, 5, 'a', 'a', 0, 4, 0, 0, 0);
    GRAMMAR("nothing and nothing, then itself", back, 0, 1, 1, 0, 0, 1, 2, 2, 0, 4, 0, 0, 0);
    GRAMMAR("a range whose bytes are no rules", passes, 0, 1, 1, 1, 0, 5, 0, 0, 0);
    /* rule 0 leads to 1 and 2; rule 1 to 0, and to itself, since 0 may match nothing */
    GRAMMAR("two that lead to each other", back, 0, 2, 1, 2, 0, 1, 0, 1, 0, 4, 0, 0, 0);
    /* rule 1 leads back, and would be needed to show that it may match nothing: so it may not, and 0 does not lead to itself */
    GRAMMAR("the least set", back, 1, 1, 1, 0, 0, 1, 1, 1, 0);
    GRAMMAR("led to, and not back", back, 1, 2, 1, 1, 0, 3, 1, 0, 0);
    GRAMMAR("a rule that is never met", back, 1, 5, 'a', 'a', 0, 3, 1, 0, 0);
    GRAMMAR("the lowest of two", back, 1, 4, 0, 0, 0, 3, 1, 0, 0, 3, 2, 0, 0);
}

static void largest_grammars(void)
{
    const uint32_t back = SEJIMAKPU_LEFT_RECURSION, passes = SEJIMAKPU_ANSWERED;
    for (size_t k = 0; k < MOST; k++)
        put_rule(k, 2, (k + 1) % MOST, (k + 1) % MOST);
    grammar("a circle of 31", back, 0, most, 4 * MOST);
    put_rule(30, 5, 0, 255);
    grammar("30 in a row, then a byte", passes, 0, most, 4 * MOST);
    put_rule(30, 3, 30, 0);
    grammar("30 in a row, the last leads back", back, 30, most, 4 * MOST);
    put_rule(30, 3, 17, 0);
    grammar("a circle at the end", back, 17, most, 4 * MOST);
    /* that rule 1 may match nothing is known only after all the others below it */
    put_rule(0, 1, 1, 0);
    put_rule(30, 4, 0, 0);
    grammar("nothing at the end of a row", back, 0, most, 4 * MOST);
    put_rule(30, 5, 'a', 'a');
    grammar("a byte at the end of a row", passes, 0, most, 4 * MOST);
}

static void refusals_of_texts(void)
{
    bytes_of_text("no text", SEJIMAKPU_TEXT_SYNTAX, 0, 0, NULL, 0);
    text("a length of 0", SEJIMAKPU_TEXT_SYNTAX, 0, 0, "");
    text("a name that is not defined", SEJIMAKPU_TEXT_SYNTAX, 2, 0, "a=b;");
    text("a text that ends early, after a line that leads back", SEJIMAKPU_TEXT_SYNTAX, 5, 0, "a=a;b");
    text("a name that is not defined, after such a line", SEJIMAKPU_TEXT_SYNTAX, 6, 0, "a=a;b=c;");
    text("too many rules", SEJIMAKPU_TEXT_RULES, 12, 0, "a=.++++++++;");
    text("too many rules, and one leads back", SEJIMAKPU_TEXT_RULES, 16, 0, "a=a;b=.++++++++;");
    text("too deep", SEJIMAKPU_TEXT_DEPTH, 18, 0, "a=(((((((((((((((((");
    text("too deep, after a line that leads back", SEJIMAKPU_TEXT_DEPTH, 22, 0, "a=a;b=(((((((((((((((((");
}

/* The place is the rule's number, the count the offset of a line's name. */
static void texts(void)
{
    const uint32_t back = SEJIMAKPU_LEFT_RECURSION, passes = SEJIMAKPU_ANSWERED;
    text("nothing, typed", passes, 0, 0, "a=empty;");
    text("a table of lines", passes, 0, 0, "table = line table / line; line = '0-9'+ '\n-\n';");
    text("a star that reads on", passes, 0, 0, "a=.*;");
    text("a plus that reads on", passes, 0, 0, "a=(.?.)+;");
    text("a name alone", back, 0, 0, "a=a;");
    text("a name after a sign", back, 0, 0, "a=&a.;");
    text("a name after a star", back, 0, 0, "a='x-x'*a;");
    text("a name after a plus", passes, 0, 0, "a='x-x'+a;");
    text("blanks before the name", back, 0, 4, " \n\n item = item ',-,' / '0-9';");
    /* a = (b, then nothing): rules 0 and 2. b's star is its line's rule, 1; then . 3, empty 4, .? 5, and b again 6, empty 7. */
    text("a star that reads nothing", back, 1, 6, "a=b;\n b=(.?)*;");
    /* the first . is 3, .? as before 4 to 6; the star is 7, then 8 and 9 */
    text("a helper rule", back, 7, 5, "a=b;\nb=.(.?)*;");
    text("a helper rule of a plus", back, 5, 0, "a=(.?)+;b=.;");
    text("a first helper rule", back, 3, 4, "a=.;b=x*.;x=.?;");
    text("helper rules before others", back, 4, 0, "a=.x*;b=..;x=.?;");
    text("helper rules between others", back, 11, 8, "a=.(..);b=.(.?)*;c=.(..);");
    text("a line before an earlier line's helper rule", back, 1, 9, "a=.(.?)*;b=b;");
    text("a line that is never met", back, 1, 4, "a=.;zz=zz;");
    text("a name that begins another", back, 1, 5, "a=ab;ab=ab;");
    text("signs in a range", back, 1, 8, "a=';-x';b=b;");
    text("both parts of a circle", back, 1, 7, "a=.b ; b=c;c=b;");
    text("a reserved word's letters", back, 1, 9, "a=empty; emptyx=emptyx;");
    text("31 rules", back, 0, 0, "a=!!!!!!!!!!!!!!!!!!!!!!!!!!!!!!!a;");
    static uint8_t far_off[70004];
    memset(far_off, ' ', sizeof far_off);
    memcpy(far_off + 70000, "b=b;", 4);
    bytes_of_text("a name past 16 bits", back, 0, 70000, far_off, sizeof far_off);
    memcpy(far_off, "a=.;", 4);
    bytes_of_text("a line far before it", back, 1, 70000, far_off, sizeof far_off);
}

/* A typed grammar's verdicts, on no byte and on one, with whole matching: judge_text has no other. */
static void judged(const char *letters, uint64_t on_none, uint64_t on_one)
{
    static uint8_t image[SEJIMAKPU_MAX_BUILT_IMAGE];
    static uint32_t notes[CELLS], work[CELLS];
    const uint8_t *bytes = (const uint8_t *)letters;
    const uint64_t expected[2] = {on_none, on_one};
    for (size_t n = 0; n < 2; n++) {
        sejimakpu_answer answer;
        uint32_t refusal = sejimakpu_judge_text(bytes, strlen(letters), bytes, n, image, sizeof image, notes, CELLS,
                                                work, CELLS, &answer);
        expect(refusal == SEJIMAKPU_ANSWERED && answer.verdict == expected[n], letters, "judged otherwise");
    }
}

/* 19 is no verdict: some of these grammars loop on no capture. */
static void verdicts(void)
{
    const uint64_t accepted = SEJIMAKPU_ACCEPTED, stuck = SEJIMAKPU_STUCK, looping = SEJIMAKPU_LOOPING;
    text("loops on some captures", SEJIMAKPU_LEFT_RECURSION, 1, 6, "a=./b;b=b;");
    judged("a=./b;b=b;", looping, accepted);
    text("loops on none: a part that is never tried", SEJIMAKPU_LEFT_RECURSION, 0, 0, "a=empty/a;");
    judged("a=empty/a;", accepted, stuck);
    text("loops on none: a line that is never met", SEJIMAKPU_LEFT_RECURSION, 1, 4, "a=.;b=b;");
    judged("a=.;b=b;", stuck, accepted);
    text("loops on none: it passes", SEJIMAKPU_ANSWERED, 0, 0, "a=./b;b=.b/empty;");
    judged("a=./b;b=.b/empty;", accepted, accepted);
}

int main(void)
{
    refusals_of_grammars();
    small_grammars();
    largest_grammars();
    refusals_of_texts();
    texts();
    verdicts();
    /* two calls for a grammar or a text that is refused, four for a text that is read */
    expect(calls == made && calls == 2 * (38 + 9) + 4 * 28, "the linker", "did not lead every call through this file");
    expect(strcmp(sejimakpu_refusal_meaning(SEJIMAKPU_LEFT_RECURSION),
                  "a rule of the grammar leads back to itself before anything is consumed") == 0,
           "refusal 19", "in other words");
    return faults == 0 ? 0 : 1;
}
