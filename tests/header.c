/*
 * Tests of the header's inline functions, as C and as C++, but for building, which header_build.c tests, bundles, which
 * header_bundle.c and header_packing.c test, and left recursion, which header_recursion.c tests; of rules that halt, by
 * hand-made machines; and of the version. Linked with --wrap for each of the archive's functions that takes a pointer, so
 * that every pointer that reaches the archive is seen here. Prints what does not hold, and leaves with status 1 if anything
 * does.
 */
#include "sejimakpu.h"

#include <stdio.h>
#include <string.h>

enum { CELLS = 45, IMAGE = 468, OLD = 7 };

/* The grammar of the worked capture C1, and an empty slice that is not null. */
static const uint8_t grammar[4] = {4, 0, 0, 0};
static const uint8_t empty[1] = {0};

/* The same grammar as text, and one with a name that no line defines. */
static const uint8_t text[8] = {'a', '=', 'e', 'm', 'p', 't', 'y', ';'};
static const uint8_t undefined[4] = {'a', '=', 'b', ';'};

static int faults = 0;

static void expect(int holds, const char *name, const char *what)
{
    if (!holds) {
        printf("header.c: %s: %s\n", name, what);
        faults++;
    }
}

#ifdef __cplusplus
extern "C" {
#endif

/* The archive's functions by the names that the linker's --wrap gives them; a call by the proper name comes to __wrap_. */
uint32_t __real_sejimakpu_check_nonnull(const uint8_t *, size_t, sejimakpu_answer *);
uint32_t __real_sejimakpu_cells_nonnull(const uint8_t *, size_t, size_t, sejimakpu_answer *);
uint32_t __real_sejimakpu_judge_nonnull(const uint8_t *, size_t, const uint8_t *, size_t, uint32_t *, size_t,
                                        uint32_t *, size_t, sejimakpu_answer *);
uint32_t __real_sejimakpu_plain_run_nonnull(const uint8_t *, size_t, const uint8_t *, size_t, uint32_t,
                                            uint32_t *, size_t, sejimakpu_answer *);
uint32_t __real_sejimakpu_read_grammar_nonnull(const uint8_t *, size_t, uint8_t *, sejimakpu_answer *);
uint32_t __real_sejimakpu_build_text_nonnull(const uint8_t *, size_t, uint8_t *, size_t, sejimakpu_answer *);
uint32_t __real_sejimakpu_judge_text_nonnull(const uint8_t *, size_t, const uint8_t *, size_t, uint8_t *, size_t,
                                             uint32_t *, size_t, uint32_t *, size_t, sejimakpu_answer *);

static int calls = 0;

static void arrives(const void *pointer, size_t alignment, const char *name)
{
    expect(pointer != NULL, name, "a null pointer reaches the archive");
    expect((uintptr_t)pointer % alignment == 0, name, "an unaligned pointer reaches the archive");
}

uint32_t __wrap_sejimakpu_check_nonnull(const uint8_t *image, size_t image_length, sejimakpu_answer *answer)
{
    calls++;
    arrives(image, 1, "image of check");
    arrives(answer, sizeof answer->place, "answer of check");
    return __real_sejimakpu_check_nonnull(image, image_length, answer);
}

uint32_t __wrap_sejimakpu_cells_nonnull(const uint8_t *image, size_t image_length, size_t n, sejimakpu_answer *answer)
{
    calls++;
    arrives(image, 1, "image of cells");
    arrives(answer, sizeof answer->place, "answer of cells");
    return __real_sejimakpu_cells_nonnull(image, image_length, n, answer);
}

uint32_t __wrap_sejimakpu_judge_nonnull(const uint8_t *image, size_t image_length,
                                        const uint8_t *capture, size_t capture_length,
                                        uint32_t *notes, size_t notes_length,
                                        uint32_t *work, size_t work_length, sejimakpu_answer *answer)
{
    calls++;
    arrives(image, 1, "image of judge");
    arrives(capture, 1, "capture of judge");
    arrives(notes, sizeof *notes, "notes of judge");
    arrives(work, sizeof *work, "work cells of judge");
    arrives(answer, sizeof answer->place, "answer of judge");
    return __real_sejimakpu_judge_nonnull(image, image_length, capture, capture_length, notes, notes_length,
                                          work, work_length, answer);
}

uint32_t __wrap_sejimakpu_plain_run_nonnull(const uint8_t *image, size_t image_length,
                                            const uint8_t *capture, size_t capture_length, uint32_t budget,
                                            uint32_t *stack, size_t stack_length, sejimakpu_answer *answer)
{
    calls++;
    arrives(image, 1, "image of plain_run");
    arrives(capture, 1, "capture of plain_run");
    arrives(stack, sizeof *stack, "stack of plain_run");
    arrives(answer, sizeof answer->place, "answer of plain_run");
    return __real_sejimakpu_plain_run_nonnull(image, image_length, capture, capture_length, budget, stack,
                                              stack_length, answer);
}

uint32_t __wrap_sejimakpu_read_grammar_nonnull(const uint8_t *bytes, size_t length, uint8_t *lent, sejimakpu_answer *answer)
{
    calls++;
    arrives(bytes, 1, "text of read_grammar");
    arrives(lent, 1, "grammar of read_grammar");
    arrives(answer, sizeof answer->place, "answer of read_grammar");
    return __real_sejimakpu_read_grammar_nonnull(bytes, length, lent, answer);
}

uint32_t __wrap_sejimakpu_build_text_nonnull(const uint8_t *bytes, size_t length, uint8_t *image, size_t image_length,
                                             sejimakpu_answer *answer)
{
    calls++;
    arrives(bytes, 1, "text of build_text");
    arrives(image, 1, "image of build_text");
    arrives(answer, sizeof answer->place, "answer of build_text");
    return __real_sejimakpu_build_text_nonnull(bytes, length, image, image_length, answer);
}

uint32_t __wrap_sejimakpu_judge_text_nonnull(const uint8_t *bytes, size_t length,
                                             const uint8_t *capture, size_t capture_length,
                                             uint8_t *image, size_t image_length,
                                             uint32_t *notes, size_t notes_length,
                                             uint32_t *work, size_t work_length, sejimakpu_answer *answer)
{
    calls++;
    arrives(bytes, 1, "text of judge_text");
    arrives(capture, 1, "capture of judge_text");
    arrives(image, 1, "image of judge_text");
    arrives(notes, sizeof *notes, "notes of judge_text");
    arrives(work, sizeof *work, "work cells of judge_text");
    arrives(answer, sizeof answer->place, "answer of judge_text");
    return __real_sejimakpu_judge_text_nonnull(bytes, length, capture, capture_length, image, image_length,
                                               notes, notes_length, work, work_length, answer);
}

#ifdef __cplusplus
}
#endif

/* One call's result: the number returned, and the answer. */
typedef struct result {
    uint32_t number;
    sejimakpu_answer answer;
} result;

/* The number must be the expected one, and number and answer those that the archive's function gives. */
static void same(const char *name, uint32_t expected, const result *got, const result *archive)
{
    expect(got->number == expected, name, "another number than expected");
    expect(archive->number == expected, name, "another number from the archive's own function");
    expect(memcmp(&got->answer, &archive->answer, sizeof got->answer) == 0, name, "another answer than the archive's own");
}

static result unwritten(void)
{
    result r;
    memset(&r, 0xff, sizeof r);
    return r;
}

/* For the archive's own function: an empty slice that is not null. */
static const uint8_t *or_empty(const uint8_t *bytes)
{
    return bytes == NULL ? empty : bytes;
}

/* Each test below makes a call twice, by the inline function and by the archive's own, with null for what has length 0 in
   the first and an empty slice in the second; then once more without an answer. Lent memory must end the same. */

static void check(const char *name, uint32_t expected, const uint8_t *image, size_t length)
{
    result got = unwritten(), archive = unwritten();
    got.number = sejimakpu_check(image, length, &got.answer);
    archive.number = __real_sejimakpu_check_nonnull(or_empty(image), length, &archive.answer);
    same(name, expected, &got, &archive);
    expect(sejimakpu_check(image, length, NULL) == expected, name, "another number without an answer");
}

static void cells(const char *name, uint32_t expected, const uint8_t *image, size_t length, size_t n)
{
    result got = unwritten(), archive = unwritten();
    got.number = sejimakpu_cells(image, length, n, &got.answer);
    archive.number = __real_sejimakpu_cells_nonnull(or_empty(image), length, n, &archive.answer);
    same(name, expected, &got, &archive);
    expect(sejimakpu_cells(image, length, n, NULL) == expected, name, "another number without an answer");
}

static void judge(const char *name, uint32_t expected, const uint8_t *image, size_t image_length,
                  const uint8_t *capture, size_t n, size_t notes, size_t work)
{
    result got = unwritten(), archive = unwritten();
    uint32_t lent[2][CELLS], archive_lent[2][CELLS];
    memset(lent, OLD, sizeof lent);
    memset(archive_lent, OLD, sizeof archive_lent);
    uint32_t *a = notes == 0 ? NULL : lent[0], *b = work == 0 ? NULL : lent[1];
    got.number = sejimakpu_judge(image, image_length, capture, n, a, notes, b, work, &got.answer);
    archive.number = __real_sejimakpu_judge_nonnull(or_empty(image), image_length, or_empty(capture), n,
                                                    archive_lent[0], notes, archive_lent[1], work, &archive.answer);
    same(name, expected, &got, &archive);
    expect(memcmp(lent, archive_lent, sizeof lent) == 0, name, "other notes or work cells");
    expect(sejimakpu_judge(image, image_length, capture, n, a, notes, b, work, NULL) == expected, name,
           "another number without an answer");
}

static void plain_run(const char *name, uint32_t expected, const uint8_t *image, size_t image_length,
                      const uint8_t *capture, size_t n, uint32_t budget, size_t stack)
{
    result got = unwritten(), archive = unwritten();
    uint32_t lent[CELLS], archive_lent[CELLS];
    memset(lent, OLD, sizeof lent);
    memset(archive_lent, OLD, sizeof archive_lent);
    uint32_t *a = stack == 0 ? NULL : lent;
    got.number = sejimakpu_plain_run(image, image_length, capture, n, budget, a, stack, &got.answer);
    archive.number = __real_sejimakpu_plain_run_nonnull(or_empty(image), image_length, or_empty(capture), n, budget,
                                                        archive_lent, stack, &archive.answer);
    same(name, expected, &got, &archive);
    expect(memcmp(lent, archive_lent, sizeof lent) == 0, name, "other stack cells");
    expect(sejimakpu_plain_run(image, image_length, capture, n, budget, a, stack, NULL) == expected, name,
           "another number without an answer");
}

static void read_grammar(const char *name, uint32_t expected, const uint8_t *bytes, size_t length)
{
    result got = unwritten(), archive = unwritten();
    uint8_t lent[SEJIMAKPU_MAX_GRAMMAR], archive_lent[SEJIMAKPU_MAX_GRAMMAR];
    memset(lent, OLD, sizeof lent);
    memset(archive_lent, OLD, sizeof archive_lent);
    got.number = sejimakpu_read_grammar(bytes, length, lent, &got.answer);
    archive.number = __real_sejimakpu_read_grammar_nonnull(or_empty(bytes), length, archive_lent, &archive.answer);
    same(name, expected, &got, &archive);
    expect(memcmp(lent, archive_lent, sizeof lent) == 0, name, "another grammar");
    expect(sejimakpu_read_grammar(bytes, length, lent, NULL) == expected, name, "another number without an answer");
}

static void build_text(const char *name, uint32_t expected, const uint8_t *bytes, size_t length, size_t room)
{
    result got = unwritten(), archive = unwritten();
    uint8_t lent[IMAGE], archive_lent[IMAGE];
    memset(lent, OLD, sizeof lent);
    memset(archive_lent, OLD, sizeof archive_lent);
    uint8_t *a = room == 0 ? NULL : lent;
    got.number = sejimakpu_build_text(bytes, length, a, room, &got.answer);
    archive.number = __real_sejimakpu_build_text_nonnull(or_empty(bytes), length, archive_lent, room, &archive.answer);
    same(name, expected, &got, &archive);
    expect(memcmp(lent, archive_lent, sizeof lent) == 0, name, "another image");
    expect(sejimakpu_build_text(bytes, length, a, room, NULL) == expected, name, "another number without an answer");
}

static void judge_text(const char *name, uint32_t expected, const uint8_t *bytes, size_t length,
                       const uint8_t *capture, size_t n, size_t room, size_t notes, size_t work)
{
    result got = unwritten(), archive = unwritten();
    uint8_t lent_image[IMAGE], archive_image[IMAGE];
    uint32_t lent[2][CELLS], archive_lent[2][CELLS];
    memset(lent_image, OLD, sizeof lent_image);
    memset(archive_image, OLD, sizeof archive_image);
    memset(lent, OLD, sizeof lent);
    memset(archive_lent, OLD, sizeof archive_lent);
    uint8_t *image = room == 0 ? NULL : lent_image;
    uint32_t *a = notes == 0 ? NULL : lent[0], *b = work == 0 ? NULL : lent[1];
    got.number = sejimakpu_judge_text(bytes, length, capture, n, image, room, a, notes, b, work, &got.answer);
    archive.number = __real_sejimakpu_judge_text_nonnull(or_empty(bytes), length, or_empty(capture), n,
                                                         archive_image, room, archive_lent[0], notes,
                                                         archive_lent[1], work, &archive.answer);
    same(name, expected, &got, &archive);
    expect(memcmp(lent_image, archive_image, sizeof lent_image) == 0, name, "another image");
    expect(memcmp(lent, archive_lent, sizeof lent) == 0, name, "other notes or work cells");
    expect(sejimakpu_judge_text(bytes, length, capture, n, image, room, a, notes, b, work, NULL) == expected, name,
           "another number without an answer");
}

static int is_refusal(uint32_t r)
{
    return r <= 13 || (15 <= r && r <= 19);
}

static void words(void)
{
    static const char *const verdicts[] = {"none", "accepted", "ended", "stuck", "looping", "spent", "deep", "halted"};
    for (uint64_t v = 0; v < 8; v++) {
        expect(strcmp(sejimakpu_verdict_word(v), verdicts[v]) == 0, verdicts[v], "another word");
    }
    expect(SEJIMAKPU_HALTED == 7, "halted", "another number");
    expect(strcmp(sejimakpu_verdict_word(8), "unknown") == 0, "verdict 8", "has a word");
    expect(strcmp(sejimakpu_verdict_word(UINT64_C(0x100000001)), "unknown") == 0, "verdict 2^32 + 1", "has a word");
    for (uint32_t r = 0; r < 100; r++) {
        int has_meaning = strcmp(sejimakpu_refusal_meaning(r), "unknown refusal") != 0;
        expect(has_meaning || !is_refusal(r), "a refusal up to 19 but for 14", "has no meaning");
        expect(!has_meaning || is_refusal(r), "14, or a number above 19", "has a meaning");
        for (uint32_t other = 0; other < r && has_meaning; other++) {
            expect(strcmp(sejimakpu_refusal_meaning(r), sejimakpu_refusal_meaning(other)) != 0,
                   sejimakpu_refusal_meaning(r), "stands for two refusals");
        }
    }
    expect(strcmp(sejimakpu_refusal_meaning(UINT32_MAX), "unknown refusal") == 0, "the last refusal", "has a meaning");
}

/* Header and archive belong together, and the header's number is made of its three parts. */
static void version(void)
{
    expect(sejimakpu_version() == SEJIMAKPU_VERSION, "the archive's version", "is not the header's");
    expect(SEJIMAKPU_VERSION ==
               1000000 * SEJIMAKPU_VERSION_MAJOR + 1000 * SEJIMAKPU_VERSION_MINOR + SEJIMAKPU_VERSION_PATCH,
           "the header's version", "is not made of its three parts");
}

/* A hand-made machine of one state, one class and one symbol. Its three rules are that on a byte, which halts, that on the
   left marker, which goes right, and that on the right marker, which is missing. */
enum { HAND_MADE = 300, ON_BYTE = 288, ON_LEFT = 292, ON_RIGHT = 296, TAPE = 3 };

static uint8_t machine[HAND_MADE];

/* Another rule in its place, and the others as above. */
static void make_machine(size_t offset, uint8_t kind, uint8_t state, uint8_t symbol, uint8_t move)
{
    static const uint8_t head[32] = {24, 0, 0, 0, 8, 0, 0, 0, 32, 0, 0, 0, 0, 1, 0, 0, 32, 1, 0, 0, 12, 0, 0, 0, 1, 1, 1};
    static const uint8_t rules[12] = {4, 0, 0, 0, 1, 0, 0, 1, 0, 0, 0, 0};
    const uint8_t rule[4] = {kind, state, symbol, move};
    memcpy(machine, head, sizeof head);
    memcpy(machine + ON_BYTE, rules, sizeof rules);
    memcpy(machine + offset, rule, sizeof rule);
}

static int is_answer(const sejimakpu_answer *answer, uint64_t verdict, uint64_t count, uint64_t head)
{
    const sejimakpu_answer expected = {0, verdict, count, 0, head, 0};
    return memcmp(answer, &expected, sizeof expected) == 0;
}

/* The machine judges a capture of one byte with this verdict, after one step or in the first configuration. Its notes are
   those of a run that stops: 1 for each configuration up to the end, and 0 for the others. */
static void stops(const char *name, uint64_t verdict, uint32_t steps)
{
    sejimakpu_answer answer;
    uint32_t lent[2][TAPE + 1], expected[2][TAPE + 1];
    memset(lent, OLD, sizeof lent);
    memset(expected, OLD, sizeof expected);
    for (uint32_t place = 0; place < TAPE; place++) {
        expected[0][place] = place <= steps;
        expected[1][place] = 0;
    }
    expect(sejimakpu_judge(machine, HAND_MADE, grammar, 1, lent[0], TAPE + 1, lent[1], TAPE, &answer) == SEJIMAKPU_ANSWERED,
           name, "is refused");
    expect(is_answer(&answer, verdict, steps + 1, steps), name, "judged otherwise");
    expect(memcmp(lent, expected, sizeof lent) == 0, name, "other notes or work cells");
}

/* A plain run of the machine, on one cell, leaves with this verdict after so many steps; each goes a place to the right. */
static void runs(const char *name, uint64_t verdict, uint32_t steps, uint32_t budget)
{
    sejimakpu_answer answer;
    uint32_t stack[1] = {OLD};
    expect(sejimakpu_plain_run(machine, HAND_MADE, grammar, 1, budget, stack, 1, &answer) == SEJIMAKPU_ANSWERED, name,
           "is refused");
    expect(is_answer(&answer, verdict, steps, steps), name, "run otherwise");
    expect(stack[0] == 0, name, "another cell than 0");
}

/* Every call that takes an image refuses the machine for the rule at this offset, and changes no cell. */
static void bad_rule(const char *name, size_t offset)
{
    const sejimakpu_answer expected = {offset, 0, 0, 0, 0, 0};
    sejimakpu_answer answers[4];
    uint32_t lent[2][TAPE], old[2][TAPE];
    memset(lent, OLD, sizeof lent);
    memset(old, OLD, sizeof old);
    memset(answers, OLD, sizeof answers);
    expect(sejimakpu_check(machine, HAND_MADE, &answers[0]) == SEJIMAKPU_IMAGE_RULE &&
               sejimakpu_cells(machine, HAND_MADE, 1, &answers[1]) == SEJIMAKPU_IMAGE_RULE &&
               sejimakpu_judge(machine, HAND_MADE, grammar, 1, lent[0], TAPE, lent[1], TAPE, &answers[2]) ==
                   SEJIMAKPU_IMAGE_RULE &&
               sejimakpu_plain_run(machine, HAND_MADE, grammar, 1, 0, lent[0], TAPE, &answers[3]) == SEJIMAKPU_IMAGE_RULE,
           name, "another number than 6");
    for (size_t i = 0; i < 4; i++)
        expect(memcmp(&answers[i], &expected, sizeof expected) == 0, name, "another place");
    expect(memcmp(lent, old, sizeof lent) == 0, name, "a cell changed");
}

/* A rule that halts beside a missing one: only the verdict differs. To halt is no step, and comes before spent. */
static void halting(void)
{
    make_machine(ON_BYTE, 4, 0, 0, 0);
    stops("halted on a byte", SEJIMAKPU_HALTED, 1);
    runs("halted within the budget", SEJIMAKPU_HALTED, 1, UINT32_MAX);
    runs("halted as the budget ends", SEJIMAKPU_HALTED, 1, 1);
    runs("spent before it halts", SEJIMAKPU_SPENT, 0, 0);
    make_machine(ON_BYTE, 0, 0, 0, 0);
    stops("stuck on a byte", SEJIMAKPU_STUCK, 1);
    runs("stuck as the budget ends", SEJIMAKPU_STUCK, 1, 1);
    make_machine(ON_LEFT, 4, 0, 0, 0);
    stops("halted at once", SEJIMAKPU_HALTED, 0);
    runs("halted with no budget", SEJIMAKPU_HALTED, 0, 0);
    make_machine(ON_LEFT, 0, 0, 0, 0);
    stops("stuck at once", SEJIMAKPU_STUCK, 0);
    runs("stuck with no budget", SEJIMAKPU_STUCK, 0, 0);

    for (size_t offset = ON_BYTE; offset <= ON_RIGHT; offset += 4) {
        make_machine(offset, 4, 0, 0, 0);
        expect(sejimakpu_check(machine, HAND_MADE, NULL) == SEJIMAKPU_ANSWERED, "a rule that halts", "is refused");
        make_machine(offset, 3, 0, 0, 0);
        expect(sejimakpu_check(machine, HAND_MADE, NULL) == SEJIMAKPU_ANSWERED, "a rule of kind 3", "is refused");
        for (uint8_t byte = 255; byte > 0; byte--) {
            make_machine(offset, 4, byte, 0, 0);
            bad_rule("kind 4 with a state", offset);
            make_machine(offset, 4, 0, byte, 0);
            bad_rule("kind 4 with a symbol", offset);
            make_machine(offset, 4, 0, 0, byte);
            bad_rule("kind 4 with a move", offset);
        }
        for (uint8_t kind = 255; kind > 4; kind--) {
            make_machine(offset, kind, 0, 0, 0);
            bad_rule("a kind above 4", offset);
        }
    }
    make_machine(ON_RIGHT, 5, 0, 0, 0);
    machine[ON_BYTE + 3] = 1;
    bad_rule("two bad rules", ON_BYTE);
}

int main(void)
{
    static uint8_t image[IMAGE];
    expect(sejimakpu_build_whole(grammar, sizeof grammar, image, IMAGE, NULL) == 0, "the image", "is refused");

    check("check", SEJIMAKPU_ANSWERED, image, IMAGE);
    check("check, no image", SEJIMAKPU_IMAGE_SHORT, NULL, 0);
    cells("cells", SEJIMAKPU_ANSWERED, image, IMAGE, 1);
    cells("cells, no image", SEJIMAKPU_IMAGE_SHORT, NULL, 0, 1);
    judge("judge", SEJIMAKPU_ANSWERED, image, IMAGE, grammar, 1, CELLS, CELLS);
    judge("judge, no image", SEJIMAKPU_IMAGE_SHORT, NULL, 0, grammar, 1, CELLS, CELLS);
    judge("judge, no capture", SEJIMAKPU_ANSWERED, image, IMAGE, NULL, 0, CELLS, CELLS);
    judge("judge, a note too few", SEJIMAKPU_NOTES_SHORT, image, IMAGE, grammar, 1, CELLS - 1, CELLS);
    judge("judge, no notes", SEJIMAKPU_NOTES_SHORT, image, IMAGE, grammar, 1, 0, CELLS);
    judge("judge, a work cell too few", SEJIMAKPU_WORK_SHORT, image, IMAGE, grammar, 1, CELLS, CELLS - 1);
    judge("judge, no work cells", SEJIMAKPU_WORK_SHORT, image, IMAGE, grammar, 1, CELLS, 0);
    judge("judge, nothing", SEJIMAKPU_IMAGE_SHORT, NULL, 0, NULL, 0, 0, 0);
    plain_run("plain run", SEJIMAKPU_ANSWERED, image, IMAGE, grammar, 1, 1, 2);
    plain_run("plain run, no image", SEJIMAKPU_IMAGE_SHORT, NULL, 0, grammar, 1, 3, 2);
    plain_run("plain run, no capture", SEJIMAKPU_ANSWERED, image, IMAGE, NULL, 0, 3, 2);
    plain_run("plain run, no stack", SEJIMAKPU_STACK_EMPTY, image, IMAGE, NULL, 0, 3, 0);
    plain_run("plain run, nothing", SEJIMAKPU_IMAGE_SHORT, NULL, 0, NULL, 0, 3, 0);
    read_grammar("read grammar", SEJIMAKPU_ANSWERED, text, sizeof text);
    read_grammar("read grammar, a name that is not defined", SEJIMAKPU_TEXT_SYNTAX, undefined, sizeof undefined);
    read_grammar("read grammar, no text", SEJIMAKPU_TEXT_SYNTAX, NULL, 0);
    build_text("build text", SEJIMAKPU_ANSWERED, text, sizeof text, IMAGE);
    build_text("build text, no text", SEJIMAKPU_TEXT_SYNTAX, NULL, 0, IMAGE);
    build_text("build text, a byte too few", SEJIMAKPU_IMAGE_BUFFER_SHORT, text, sizeof text, IMAGE - 1);
    build_text("build text, no image", SEJIMAKPU_IMAGE_BUFFER_SHORT, text, sizeof text, 0);
    build_text("build text, nothing", SEJIMAKPU_TEXT_SYNTAX, NULL, 0, 0);
    judge_text("judge text", SEJIMAKPU_ANSWERED, text, sizeof text, grammar, 1, IMAGE, CELLS, CELLS);
    judge_text("judge text, no text", SEJIMAKPU_TEXT_SYNTAX, NULL, 0, grammar, 1, IMAGE, CELLS, CELLS);
    judge_text("judge text, no capture", SEJIMAKPU_ANSWERED, text, sizeof text, NULL, 0, IMAGE, CELLS, CELLS);
    judge_text("judge text, no image", SEJIMAKPU_IMAGE_BUFFER_SHORT, text, sizeof text, grammar, 1, 0, CELLS, CELLS);
    judge_text("judge text, a note too few", SEJIMAKPU_NOTES_SHORT, text, sizeof text, grammar, 1, IMAGE, CELLS - 1, CELLS);
    judge_text("judge text, no notes", SEJIMAKPU_NOTES_SHORT, text, sizeof text, grammar, 1, IMAGE, 0, CELLS);
    judge_text("judge text, no work cells", SEJIMAKPU_WORK_SHORT, text, sizeof text, grammar, 1, IMAGE, CELLS, 0);
    judge_text("judge text, nothing", SEJIMAKPU_TEXT_SYNTAX, NULL, 0, NULL, 0, 0, 0, 0);
    expect(calls == 2 * 33, "the linker", "did not lead every call through this file");
    words();
    version();
    halting();
    return faults == 0 ? 0 : 1;
}
