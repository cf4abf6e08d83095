/*
 * Tests of judging a bundle by the header's inline function, as C and as C++. Linked with --wrap for the archive's function,
 * so that every pointer that reaches it is seen here. Prints what does not hold, and leaves with status 1 if anything does.
 */
#include "sejimakpu.h"

#include <stdio.h>
#include <string.h>

/* By the image below N = 2 * (n + 2): 8 cells for two bytes. */
enum { CELLS = 12, IMAGE = 344, OLD = 7, MOST = SEJIMAKPU_MAX_CAPTURES };

/* A hand-made machine that has a capture for each verdict: it goes right over d, loops at a, is stuck at b, ends at c, halts
   at e, and accepts at the end. Two states, of which 1 is final, five classes, one symbol. */
static uint8_t image[IMAGE];
static const uint8_t accepted[] = {'d', 'd'}, looping[] = {'d', 'a'}, stuck[] = {'b'}, ended[] = {'c'}, halted[] = {'e'};

/* The classes of a to e are 0 to 4, and those of the markers follow. */
enum { CLASS_HALTS = 4, LEFT_MARKER = 5, RIGHT_MARKER = 6 };

static int faults = 0;

static void expect(int holds, const char *name, const char *what)
{
    if (!holds) {
        printf("header_bundle.c: %s: %s\n", name, what);
        faults++;
    }
}

static void put_rule(size_t class_, uint8_t kind, uint8_t state, uint8_t move)
{
    const uint8_t rule[4] = {kind, state, 0, move};
    memcpy(image + 288 + 4 * class_, rule, sizeof rule);
}

static void make_image(void)
{
    static const uint8_t head[32] = {24, 0, 0, 0, 8, 0, 0, 0, 32, 0, 0, 0, 0, 1, 0, 0, 32, 1, 0, 0, 56, 0, 0, 0,
                                     2, 5, 1, 0, 2, 0, 0, 0};
    memcpy(image, head, sizeof head);
    for (uint8_t i = 0; i < 5; i++)
        image[32 + 'a' + i] = i;
    put_rule(0, 1, 0, 0);
    put_rule(2, 3, 0, 0);
    put_rule(3, 1, 0, 1);
    put_rule(CLASS_HALTS, 4, 0, 0);
    put_rule(LEFT_MARKER, 1, 0, 1);
    put_rule(RIGHT_MARKER, 3, 1, 0);
    expect(sejimakpu_check(image, IMAGE, NULL) == SEJIMAKPU_ANSWERED, "the image", "is refused");
}

#ifdef __cplusplus
extern "C" {
#endif

/* The archive's function by the name that the linker's --wrap gives it; a call by the proper name comes to __wrap_. */
uint32_t __real_sejimakpu_judge_bundle_nonnull(const uint8_t *, size_t, const uint8_t *, size_t, uint32_t *, size_t,
                                               uint32_t *, size_t, sejimakpu_line *, sejimakpu_totals *, sejimakpu_answer *);

static int calls = 0, made = 0;

static void arrives(const void *pointer, size_t alignment, const char *name)
{
    expect(pointer != NULL, name, "a null pointer reaches the archive");
    expect((uintptr_t)pointer % alignment == 0, name, "an unaligned pointer reaches the archive");
}

uint32_t __wrap_sejimakpu_judge_bundle_nonnull(const uint8_t *by, size_t by_length, const uint8_t *bundle, size_t length,
                                               uint32_t *notes, size_t notes_length, uint32_t *work, size_t work_length,
                                               sejimakpu_line *lines, sejimakpu_totals *totals, sejimakpu_answer *answer)
{
    calls++;
    arrives(by, 1, "image");
    arrives(bundle, 1, "bundle");
    arrives(notes, sizeof *notes, "notes");
    arrives(work, sizeof *work, "work cells");
    arrives(lines, sizeof lines->refusal, "lines");
    arrives(totals, sizeof totals->refusals, "totals");
    arrives(answer, sizeof answer->place, "answer");
    return __real_sejimakpu_judge_bundle_nonnull(by, by_length, bundle, length, notes, notes_length, work, work_length,
                                                 lines, totals, answer);
}

#ifdef __cplusplus
}
#endif

/* Everything that a call may write, and the number that it returned. */
typedef struct report {
    uint32_t number;
    uint32_t notes[CELLS], work[CELLS];
    sejimakpu_line lines[MOST];
    sejimakpu_totals totals;
    sejimakpu_answer answer;
} report;

/* A call's report, on memory that was OLD before; what is not among the wanted (1 lines, 2 totals, 4 answer) is null. */
static report call(const uint8_t *by, size_t by_length, const uint8_t *bundle, size_t length,
                   size_t notes, size_t work, int wanted)
{
    report r;
    memset(&r, OLD, sizeof r);
    made++;
    r.number = sejimakpu_judge_bundle(by, by_length, bundle, length, notes == 0 ? NULL : r.notes, notes,
                                      work == 0 ? NULL : r.work, work, wanted & 1 ? r.lines : NULL,
                                      wanted & 2 ? &r.totals : NULL, wanted & 4 ? &r.answer : NULL);
    return r;
}

/* How many lines the totals count: with a verdict or refused. */
static uint64_t counted(const sejimakpu_totals *totals)
{
    uint64_t lines = totals->refusals;
    for (size_t verdict = 0; verdict < 8; verdict++)
        lines += totals->verdicts[verdict];
    return lines;
}

/* The same call must be as expected whatever is wanted, and leave what is not. Its totals count every capture once. */
static void gives(const char *name, const report *expected, const uint8_t *by, size_t by_length,
                  const uint8_t *bundle, size_t length, size_t notes, size_t work)
{
    report old;
    memset(&old, OLD, sizeof old);
    for (int wanted = 0; wanted < 8; wanted++) {
        const report got = call(by, by_length, bundle, length, notes, work, wanted);
        const report *lines = wanted & 1 ? expected : &old, *totals = wanted & 2 ? expected : &old;
        const report *answer = wanted & 4 ? expected : &old;
        expect(got.number == expected->number, name, "another number");
        expect(memcmp(got.notes, expected->notes, sizeof got.notes) == 0, name, "other notes");
        expect(memcmp(got.work, expected->work, sizeof got.work) == 0, name, "other work cells");
        expect(memcmp(got.lines, lines->lines, sizeof got.lines) == 0, name, "other lines");
        expect(memcmp(&got.totals, &totals->totals, sizeof got.totals) == 0, name, "other totals");
        if (wanted == 7 && got.number == 0)
            expect(counted(&got.totals) == got.answer.count, name, "a capture counted twice or not at all");
        expect(memcmp(&got.answer, &answer->answer, sizeof got.answer) == 0, name, "another answer");
    }
}

/* A refused call: this number and place, and nothing else is written. */
static void refused(const char *name, uint32_t number, uint64_t place, const uint8_t *by, size_t by_length,
                    const uint8_t *bundle, size_t length)
{
    report expected;
    memset(&expected, OLD, sizeof expected);
    memset(&expected.answer, 0, sizeof expected.answer);
    expected.number = number;
    expected.answer.place = place;
    gives(name, &expected, by, by_length, bundle, length, CELLS, CELLS);
}

/* A bundle that is judged: its captures one after another by sejimakpu_judge give the lines and the cells. Answers the
   report, for what is expected by hand. */
static report judged(const char *name, const uint8_t *bundle, size_t length, const uint8_t *const *captures,
                     const size_t *lengths, size_t count, size_t notes, size_t work)
{
    report expected;
    memset(&expected, OLD, sizeof expected);
    memset(&expected.totals, 0, sizeof expected.totals);
    memset(&expected.answer, 0, sizeof expected.answer);
    expected.number = 0;
    expected.answer.count = count;
    for (size_t i = 0; i < count; i++) {
        sejimakpu_answer alone;
        sejimakpu_line *line = &expected.lines[i];
        line->refusal = sejimakpu_judge(image, IMAGE, captures[i], lengths[i], notes == 0 ? NULL : expected.notes, notes,
                                        work == 0 ? NULL : expected.work, work, &alone);
        memcpy(&line->place, &alone, sizeof alone); /* the six fields of an answer follow the refusal, in their order */
        expected.totals.refusals += line->refusal != 0;
        expected.totals.verdicts[alone.verdict] += line->refusal == 0;
        expected.totals.readings += alone.count;
    }
    gives(name, &expected, image, IMAGE, bundle, length, notes, work);
    return expected;
}

/* Room for the largest bundle of these tests: one capture that is too long, and two others. */
static uint8_t room[70000];

/* Packs captures, and judges the bundle. */
static report packed(const char *name, const uint8_t *const *captures, const size_t *lengths, size_t count,
                     size_t notes, size_t work)
{
    memset(room, OLD, sizeof room);
    size_t length = sejimakpu_pack_bundle(captures, lengths, count, room, sizeof room);
    expect(length != 0 && length <= sizeof room && room[length] == OLD, name, "packed with another length");
    return judged(name, room, length, captures, lengths, count, notes, work);
}

static int is_line(const sejimakpu_line *line, uint64_t verdict, uint64_t count, uint64_t head)
{
    const sejimakpu_line expected = {0, 0, verdict, count, 0, head, 0};
    return memcmp(line, &expected, sizeof expected) == 0;
}

static int is_refused(const sejimakpu_line *line, uint64_t refusal, uint64_t place)
{
    const sejimakpu_line expected = {refusal, place, 0, 0, 0, 0, 0};
    return memcmp(line, &expected, sizeof expected) == 0;
}

static void judging(void)
{
    static const uint8_t zeros[65536] = {0};
    enum { SHIFT = 7 };
    const uint8_t *const shift[SHIFT] = {accepted, NULL, looping, stuck, halted, ended, accepted};
    const size_t lengths[SHIFT] = {2, 0, 2, 1, 1, 1, 1};
    report r = packed("every verdict", shift, lengths, SHIFT, CELLS, CELLS);
    expect(is_line(&r.lines[0], SEJIMAKPU_ACCEPTED, 4, 3) && is_line(&r.lines[1], SEJIMAKPU_ACCEPTED, 2, 1) &&
               is_line(&r.lines[2], SEJIMAKPU_LOOPING, 3, 2) && is_line(&r.lines[3], SEJIMAKPU_STUCK, 2, 1) &&
               is_line(&r.lines[4], SEJIMAKPU_HALTED, 2, 1) && is_line(&r.lines[5], SEJIMAKPU_ENDED, 2, 1) &&
               is_line(&r.lines[6], SEJIMAKPU_ACCEPTED, 3, 2),
           "every verdict", "judged otherwise");
    const sejimakpu_totals totals = {{0, 3, 1, 1, 1, 0, 0, 1}, 0, 18};
    expect(memcmp(&r.totals, &totals, sizeof totals) == 0, "every verdict", "added up otherwise");

    const uint8_t *const halting[4] = {halted, stuck, halted, halted};
    r = packed("three halted, one stuck", halting, lengths + 3, 4, CELLS, CELLS);
    expect(r.totals.verdicts[SEJIMAKPU_HALTED] == 3 && r.totals.verdicts[SEJIMAKPU_STUCK] == 1, "three halted, one stuck",
           "added up otherwise");

    r = packed("a note too few", shift, lengths, SHIFT, 7, CELLS);
    expect(is_refused(&r.lines[0], SEJIMAKPU_NOTES_SHORT, 8) && r.totals.refusals == 2 && r.totals.readings == 11,
           "a note too few", "is no line");
    r = packed("a work cell too few", shift, lengths, SHIFT, CELLS, 7);
    expect(is_refused(&r.lines[2], SEJIMAKPU_WORK_SHORT, 8) && r.totals.refusals == 2, "a work cell too few", "is no line");
    r = packed("no cells", shift, lengths, SHIFT, 0, 0);
    expect(is_refused(&r.lines[1], SEJIMAKPU_NOTES_SHORT, 4) && r.totals.refusals == SHIFT, "no cells", "are no lines");

    const uint8_t *const with_long[3] = {stuck, zeros, accepted};
    const size_t with_long_lengths[3] = {1, sizeof zeros, 2};
    r = packed("a capture that is too long", with_long, with_long_lengths, 3, CELLS, CELLS);
    expect(is_refused(&r.lines[1], SEJIMAKPU_CAPTURE_LONG, 65536) && is_line(&r.lines[2], SEJIMAKPU_ACCEPTED, 4, 3),
           "a capture that is too long", "is no line");

    const uint8_t *many[MOST];
    size_t many_lengths[MOST];
    for (size_t i = 0; i < MOST; i++) {
        many[i] = accepted;
        many_lengths[i] = i % 3;
    }
    packed("one capture", many + 2, many_lengths + 2, 1, CELLS, CELLS);
    r = packed("the most captures", many, many_lengths, MOST, CELLS, CELLS);
    expect(r.totals.verdicts[SEJIMAKPU_ACCEPTED] == 64 && r.totals.readings == 191, "the most captures", "added up otherwise");
}

/* A bundle by hand: the count, and up to two pairs, in 28 bytes. */
static const uint8_t *by_hand(uint32_t count, size_t offset, size_t length, size_t offset2, size_t length2)
{
    static uint8_t bundle[28];
    memset(bundle, 'd', sizeof bundle);
    sejimakpu_put_number(bundle, count);
    sejimakpu_put_number(bundle + 4, offset);
    sejimakpu_put_number(bundle + 8, length);
    if (count > 1) {
        sejimakpu_put_number(bundle + 12, offset2);
        sejimakpu_put_number(bundle + 16, length2);
    }
    return bundle;
}

static void refusals(void)
{
    const uint32_t wrong = SEJIMAKPU_BUNDLE;
    refused("no image", SEJIMAKPU_IMAGE_SHORT, 0, NULL, 0, by_hand(1, 12, 0, 0, 0), 28);
    refused("no image and no bundle", SEJIMAKPU_IMAGE_SHORT, 0, NULL, 0, NULL, 0);
    refused("an image cut short, and a wrong count", SEJIMAKPU_IMAGE_DIRECTORY, 16, image, IMAGE - 1, by_hand(0, 0, 0, 0, 0), 28);
    uint8_t bad[IMAGE];
    memcpy(bad, image, IMAGE);
    bad[288 + 4 * CLASS_HALTS + 3] = 1;
    refused("a halting rule that moves", SEJIMAKPU_IMAGE_RULE, 288 + 4 * CLASS_HALTS, bad, IMAGE, by_hand(1, 12, 0, 0, 0), 28);
    refused("no bundle", wrong, 0, image, IMAGE, NULL, 0);
    refused("a part of the count", wrong, 0, image, IMAGE, by_hand(1, 12, 0, 0, 0), 3);
    refused("a part of the pair", wrong, 0, image, IMAGE, by_hand(1, 12, 0, 0, 0), 11);
    refused("a part of the second pair", wrong, 0, image, IMAGE, by_hand(2, 0, 0, 0, 0), 19);
    refused("no capture", wrong, 0, image, IMAGE, by_hand(0, 12, 0, 0, 0), 28);
    refused("a count in its highest byte", wrong, 0, image, IMAGE, by_hand(UINT32_C(0x01000001), 12, 0, 0, 0), 28);
    refused("within the pairs", wrong, 4, image, IMAGE, by_hand(1, 11, 0, 0, 0), 28);
    refused("past the end", wrong, 4, image, IMAGE, by_hand(1, 28, 1, 0, 0), 28);
    refused("after the end", wrong, 4, image, IMAGE, by_hand(1, 29, 0, 0, 0), 28);
    refused("the longest", wrong, 4, image, IMAGE, by_hand(1, 12, UINT32_MAX, 0, 0), 28);
    refused("the last offset", wrong, 4, image, IMAGE, by_hand(1, UINT32_MAX, 1, 0, 0), 28);
    refused("both wrong", wrong, 4, image, IMAGE, by_hand(2, 12, 1, 12, 1), 28);
    refused("two that overlap", wrong, 12, image, IMAGE, by_hand(2, 20, 2, 21, 2), 28);
    refused("the second before the first", wrong, 12, image, IMAGE, by_hand(2, 22, 2, 20, 2), 28);
    refused("the second past the end", wrong, 12, image, IMAGE, by_hand(2, 20, 2, 27, 2), 28);

    /* with room for all pairs of 65 too, and with one byte less than those of 64 ask for */
    memset(room, 0, sizeof room);
    for (size_t i = 0; i < 65; i++)
        sejimakpu_put_number(room + 4 + 8 * i, 600);
    sejimakpu_put_number(room, 65);
    refused("a capture too many", wrong, 0, image, IMAGE, room, 600);
    sejimakpu_put_number(room, 64);
    refused("a byte too few for the pairs", wrong, 0, image, IMAGE, room, 515);
    refused("the pairs alone, and captures past the end", wrong, 4, image, IMAGE, room, 516);
    sejimakpu_put_number(room + 4 + 8 * 63, 599);
    refused("the last pair", wrong, 508, image, IMAGE, room, 600);

    /* what is not wrong */
    const uint8_t *const two[2] = {accepted, accepted};
    const size_t none[2] = {0, 0}, both[2] = {2, 2}, second[2] = {0, 2};
    judged("an empty capture at the end", by_hand(1, 28, 0, 0, 0), 28, two, none, 1, CELLS, CELLS);
    judged("nothing but the pair", by_hand(1, 12, 0, 0, 0), 12, two, none, 1, CELLS, CELLS);
    judged("bytes between and after", by_hand(2, 21, 2, 24, 2), 28, two, both, 2, CELLS, CELLS);
    judged("the same offset after an empty one", by_hand(2, 20, 0, 20, 2), 28, two, second, 2, CELLS, CELLS);
}

/* The archive's function takes both as arrays of 64-bit cells. */
static void layout(void)
{
    expect(sizeof(sejimakpu_line) == 56 && offsetof(sejimakpu_line, place) == 8 && offsetof(sejimakpu_line, symbol) == 48,
           "a line", "is not seven cells");
    expect(sizeof(sejimakpu_totals) == 80 && offsetof(sejimakpu_totals, verdicts) == 0 &&
               offsetof(sejimakpu_totals, refusals) == 64 && offsetof(sejimakpu_totals, readings) == 72,
           "the totals", "are not ten cells");
}

int main(void)
{
    make_image();
    layout();
    judging();
    refusals();
    expect(calls == made && calls == 8 * 35, "the linker", "did not lead every call through this file");
    return faults == 0 ? 0 : 1;
}
