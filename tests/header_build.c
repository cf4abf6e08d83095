/*
 * Tests of building by the header's two inline functions, for leading and for whole matching, as C and as C++: what reaches
 * the archive, how the two images differ, and the verdicts by them. Linked with --wrap for the archive's two functions, so
 * that every call is seen here, and which of the two it is. Prints what does not hold, and leaves with status 1 if anything
 * does.
 */
#include "sejimakpu.h"

#include <stdio.h>
#include <string.h>

/* The image of a grammar of one rule without a range, and cells for the longest capture by one rule: 5 * (n + 2) * 3. */
enum { IMAGE = 468, CELLS = 5 * (SEJIMAKPU_MAX_CAPTURE + 2) * 3, OLD = 7 };

/* The two matchings, as places in the lists below. */
enum { LEADING = 0, WHOLE = 1 };
static const char *const matchings[2] = {"leading", "whole"};

/* Grammars: nothing; one byte a; what always fails; itself for ever; a rule of no kind; a, then b. */
static const uint8_t nothing[4] = {4, 0, 0, 0}, one_a[4] = {5, 'a', 'a', 0}, never[4] = {5, 255, 0, 0};
static const uint8_t endless[4] = {1, 0, 0, 0}, bad[4] = {9, 0, 0, 0};
static const uint8_t both[12] = {1, 1, 2, 0, 5, 'a', 'a', 0, 5, 'b', 'b', 0};

static int faults = 0;

static void expect(int holds, const char *name, const char *what)
{
    if (!holds) {
        printf("header_build.c: %s: %s\n", name, what);
        faults++;
    }
}

#ifdef __cplusplus
extern "C" {
#endif

/* The archive's functions by the names that the linker's --wrap gives them; a call by the proper name comes to __wrap_. */
uint32_t __real_sejimakpu_build_nonnull(const uint8_t *, size_t, uint8_t *, size_t, sejimakpu_answer *);
uint32_t __real_sejimakpu_build_whole_nonnull(const uint8_t *, size_t, uint8_t *, size_t, sejimakpu_answer *);

/* How often each was called, and with what the last time. */
static int calls[2] = {0, 0};
static const uint8_t *seen_grammar, *seen_image;
static size_t seen_grammar_length, seen_image_length;

static void arrives(int matching, const uint8_t *bytes, size_t length, const uint8_t *image, size_t image_length,
                    const sejimakpu_answer *answer)
{
    calls[matching]++;
    seen_grammar = bytes;
    seen_image = image;
    seen_grammar_length = length;
    seen_image_length = image_length;
    expect(bytes != NULL && image != NULL && answer != NULL, matchings[matching], "a null pointer reaches the archive");
    expect((uintptr_t)answer % sizeof answer->place == 0, matchings[matching], "an unaligned answer reaches the archive");
}

uint32_t __wrap_sejimakpu_build_nonnull(const uint8_t *bytes, size_t length, uint8_t *image, size_t image_length,
                                        sejimakpu_answer *answer)
{
    arrives(LEADING, bytes, length, image, image_length, answer);
    return __real_sejimakpu_build_nonnull(bytes, length, image, image_length, answer);
}

uint32_t __wrap_sejimakpu_build_whole_nonnull(const uint8_t *bytes, size_t length, uint8_t *image, size_t image_length,
                                              sejimakpu_answer *answer)
{
    arrives(WHOLE, bytes, length, image, image_length, answer);
    return __real_sejimakpu_build_whole_nonnull(bytes, length, image, image_length, answer);
}

#ifdef __cplusplus
}
#endif

typedef uint32_t building(const uint8_t *, size_t, uint8_t *, size_t, sejimakpu_answer *);
static building *const inline_functions[2] = {sejimakpu_build, sejimakpu_build_whole};
static building *const archive_functions[2] = {__real_sejimakpu_build_nonnull, __real_sejimakpu_build_whole_nonnull};

/* A call by the inline function, with or without an answer: it reaches the archive's function of the same matching once, the
   other one never, with the lengths given and the pointers given; a null pointer with length 0 becomes another. */
static uint32_t call(int matching, const char *name, const uint8_t *bytes, size_t length, uint8_t *image, size_t room,
                     sejimakpu_answer *answer)
{
    const int same = calls[matching], other = calls[!matching];
    const uint32_t number = inline_functions[matching](bytes, length, image, room, answer);
    expect(calls[matching] == same + 1 && calls[!matching] == other, name, "another function of the archive is called");
    expect(seen_grammar_length == length && seen_image_length == room, name, "other lengths reach the archive");
    expect(length == 0 || seen_grammar == bytes, name, "another grammar reaches the archive");
    expect(room == 0 || seen_image == image, name, "another image buffer reaches the archive");
    return number;
}

/* For both matchings: the number and the place or length expected, and number, answer and buffer as the archive's own
   function leaves them. Where the number is a refusal the buffer is as before; else the bytes after the image are. */
static void build(const char *name, uint32_t expected, uint64_t place, uint64_t count, const uint8_t *bytes, size_t length,
                  size_t room)
{
    for (int matching = LEADING; matching <= WHOLE; matching++) {
        static const uint8_t empty[1] = {0};
        uint8_t lent[IMAGE + 1], archive_lent[IMAGE + 1], old[IMAGE + 1];
        sejimakpu_answer answer, archive_answer;
        const sejimakpu_answer expected_answer = {place, 0, count, 0, 0, 0};
        memset(lent, OLD, sizeof lent);
        memset(archive_lent, OLD, sizeof archive_lent);
        memset(old, OLD, sizeof old);
        memset(&answer, OLD, sizeof answer);
        uint8_t *image = room == 0 ? NULL : lent;
        expect(call(matching, name, bytes, length, image, room, &answer) == expected, name, "another number");
        expect(memcmp(&answer, &expected_answer, sizeof answer) == 0, name, "another answer");
        expect(archive_functions[matching](bytes == NULL ? empty : bytes, length, archive_lent, room, &archive_answer) ==
                   expected,
               name, "another number from the archive's own function");
        expect(memcmp(&answer, &archive_answer, sizeof answer) == 0, name, "another answer than the archive's own");
        expect(memcmp(lent, archive_lent, sizeof lent) == 0, name, "another image than the archive's own");
        expect(memcmp(lent + count, old, sizeof old - count) == 0, name, "a byte changed that is not the image's");
        expect(call(matching, name, bytes, length, image, room, NULL) == expected, name, "another number without an answer");
    }
}

static void calling(void)
{
    static const uint8_t zeros[125] = {0};
    build("a grammar", SEJIMAKPU_ANSWERED, 0, IMAGE, nothing, sizeof nothing, IMAGE);
    build("room for more", SEJIMAKPU_ANSWERED, 0, IMAGE, nothing, sizeof nothing, IMAGE + 1);
    build("no grammar", SEJIMAKPU_GRAMMAR_LENGTH, 0, 0, NULL, 0, IMAGE);
    build("a length of 0", SEJIMAKPU_GRAMMAR_LENGTH, 0, 0, nothing, 0, IMAGE);
    build("a part of a rule", SEJIMAKPU_GRAMMAR_LENGTH, 3, 0, nothing, 3, IMAGE);
    build("a grammar that is too long", SEJIMAKPU_GRAMMAR_LENGTH, 125, 0, zeros, sizeof zeros, IMAGE);
    build("a bad rule", SEJIMAKPU_GRAMMAR_RULE, 0, 0, bad, sizeof bad, IMAGE);
    build("a bad rule, no image", SEJIMAKPU_GRAMMAR_RULE, 0, 0, bad, sizeof bad, 0);
    build("a byte too few", SEJIMAKPU_IMAGE_BUFFER_SHORT, IMAGE, 0, nothing, sizeof nothing, IMAGE - 1);
    build("no image", SEJIMAKPU_IMAGE_BUFFER_SHORT, IMAGE, 0, nothing, sizeof nothing, 0);
    build("nothing", SEJIMAKPU_GRAMMAR_LENGTH, 0, 0, NULL, 0, 0);
    expect(calls[LEADING] == 2 * 11 && calls[WHOLE] == 2 * 11, "the linker", "did not lead every call through this file");
}

/* The images of a grammar by both matchings. */
static uint8_t images[2][SEJIMAKPU_MAX_BUILT_IMAGE];

static size_t make_images(const char *name, const uint8_t *bytes, size_t length)
{
    sejimakpu_answer answers[2];
    for (int matching = LEADING; matching <= WHOLE; matching++) {
        memset(images[matching], OLD, sizeof images[matching]);
        expect(call(matching, name, bytes, length, images[matching], sizeof images[matching], &answers[matching]) ==
                   SEJIMAKPU_ANSWERED,
               name, "is refused");
    }
    expect(answers[LEADING].count == answers[WHOLE].count, name, "images of two lengths");
    return (size_t)answers[WHOLE].count;
}

/* The images differ in the rules of state 2 (rule 0 has succeeded), symbol 0 and a class of bytes alone: with whole they are
   missing, with leading they change to state 2 and symbol 0 and go right. */
static void differ(const char *name, const uint8_t *bytes, size_t length)
{
    static const uint8_t missing[4] = {0, 0, 0, 0}, goes_right[4] = {1, 2, 0, 1};
    const size_t size = make_images(name, bytes, length);
    const size_t classes = images[WHOLE][25], symbols = images[WHOLE][26];
    for (size_t class_ = 0; class_ < classes; class_++) {
        const size_t rule = 288 + 4 * (2 * (classes + 2) + class_) * symbols;
        expect(memcmp(images[WHOLE] + rule, missing, sizeof missing) == 0, name, "whole goes on after the match");
        expect(memcmp(images[LEADING] + rule, goes_right, sizeof goes_right) == 0, name, "leading does not go right");
        memcpy(images[LEADING] + rule, missing, sizeof missing);
    }
    expect(memcmp(images[LEADING], images[WHOLE], size) == 0, name, "the images differ in another byte");
}

/* The line of each matching: verdict, readings, state, head, symbol. */
static void judged(const char *name, const uint8_t *bytes, size_t length, const uint8_t *capture, size_t n,
                   const uint64_t leading[5], const uint64_t whole[5])
{
    static uint32_t notes[CELLS], work[CELLS];
    const uint64_t *const lines[2] = {leading, whole};
    const size_t size = make_images(name, bytes, length);
    for (int matching = LEADING; matching <= WHOLE; matching++) {
        const uint64_t *line = lines[matching];
        const sejimakpu_answer expected = {0, line[0], line[1], line[2], line[3], line[4]};
        sejimakpu_answer answer;
        expect(sejimakpu_judge(images[matching], size, capture, n, notes, CELLS, work, CELLS, &answer) == SEJIMAKPU_ANSWERED,
               name, "is not judged");
        expect(memcmp(&answer, &expected, sizeof answer) == 0, name, matching == LEADING ? "another answer with leading"
                                                                                         : "another answer with whole");
    }
}

static void judging(void)
{
    static const uint8_t longest[SEJIMAKPU_MAX_CAPTURE] = {0}, capture[2] = {'a', 'b'};
    const uint64_t stuck_1[5] = {SEJIMAKPU_STUCK, 3, 2, 1, 0}, accepted_1[5] = {SEJIMAKPU_ACCEPTED, 3, 2, 1, 0};
    const uint64_t accepted_2[5] = {SEJIMAKPU_ACCEPTED, 4, 2, 2, 0}, stuck_2[5] = {SEJIMAKPU_STUCK, 4, 2, 2, 0};
    const uint64_t accepted_3[5] = {SEJIMAKPU_ACCEPTED, 5, 2, 3, 0}, failed[5] = {SEJIMAKPU_STUCK, 3, 3, 1, 0};
    const uint64_t looping[5] = {SEJIMAKPU_LOOPING, 2, 1, 1, 1};
    const uint64_t last[5] = {SEJIMAKPU_ACCEPTED, 3 + SEJIMAKPU_MAX_CAPTURE, 2, SEJIMAKPU_MAX_CAPTURE + 1, 0};
    judged("nothing before a byte", nothing, sizeof nothing, capture, 1, accepted_2, stuck_1);
    judged("nothing on an empty capture", nothing, sizeof nothing, NULL, 0, accepted_1, accepted_1);
    judged("nothing before the longest capture", nothing, sizeof nothing, longest, sizeof longest, last, stuck_1);
    judged("a byte that is all", one_a, sizeof one_a, capture, 1, accepted_2, accepted_2);
    judged("a byte before another", one_a, sizeof one_a, capture, 2, accepted_3, stuck_2);
    judged("another byte", one_a, sizeof one_a, capture + 1, 1, failed, failed);
    judged("no byte", one_a, sizeof one_a, NULL, 0, failed, failed);
    judged("what always fails", never, sizeof never, capture, 2, failed, failed);
    judged("looping", endless, sizeof endless, capture, 2, looping, looping);
    judged("looping on an empty capture", endless, sizeof endless, NULL, 0, looping, looping);
}

/* Of a text: build_text and judge_text are whole, and leading is read_grammar and then build. */
static void texts(void)
{
    static const uint8_t text[6] = {'a', '=', '.', '.', '?', ';'}, capture[3] = {'a', 'b', 'c'};
    static uint8_t image[SEJIMAKPU_MAX_BUILT_IMAGE];
    static uint32_t notes[CELLS], work[CELLS];
    uint8_t grammar[SEJIMAKPU_MAX_GRAMMAR];
    sejimakpu_answer answer;
    expect(sejimakpu_read_grammar(text, sizeof text, grammar, &answer) == SEJIMAKPU_ANSWERED, "the text", "is refused");
    const size_t size = make_images("the text", grammar, (size_t)answer.count);
    expect(sejimakpu_build_text(text, sizeof text, image, sizeof image, &answer) == SEJIMAKPU_ANSWERED &&
               answer.count == size && memcmp(image, images[WHOLE], size) == 0,
           "build_text", "is not as build_whole");
    expect(sejimakpu_judge_text(text, sizeof text, capture, 3, image, sizeof image, notes, CELLS, work, CELLS, &answer) ==
                   SEJIMAKPU_ANSWERED &&
               answer.verdict == SEJIMAKPU_STUCK && answer.state == 2 && answer.head == 3,
           "judge_text", "is not whole");
    expect(sejimakpu_judge(images[LEADING], size, capture, 3, notes, CELLS, work, CELLS, &answer) == SEJIMAKPU_ANSWERED &&
               answer.verdict == SEJIMAKPU_ACCEPTED && answer.state == 2 && answer.head == 4,
           "read_grammar, then build", "is not leading");
}

int main(void)
{
    calling();
    differ("nothing", nothing, sizeof nothing);
    differ("one byte a", one_a, sizeof one_a);
    differ("what always fails", never, sizeof never);
    differ("a, then b", both, sizeof both);
    judging();
    texts();
    return faults == 0 ? 0 : 1;
}
