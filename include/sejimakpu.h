/*
 * Sejimakpu: judges console captures by two-way pointer pushdown machines. For C99 and C++11.
 *
 * Link libsejimakpu.a (made by `./make_proved library`). Its thirteen functions are proved against their contracts in
 * crates/sejimakpu_c: each returns on every input, and what it answers is what the definitions in crates/NAME/specs say.
 * Call them by the inline functions below, which only replace null pointers; sejimakpu_version, which takes no pointer, has
 * none.
 *
 * What C must keep to, because no function can test it:
 *   - a pointer with a length above 0 points to that many elements, aligned as its type asks;
 *   - memory that a call may write (grammar of read_grammar, image of build, build_whole, build_text and judge_text, notes,
 *     work, stack, lines and totals of judge_bundle, bundle of pack_bundle, answer) overlaps nothing else that the call is
 *     given;
 *   - the grammar that read_grammar writes has room for SEJIMAKPU_MAX_GRAMMAR bytes, and the lines that judge_bundle
 *     writes are an array of SEJIMAKPU_MAX_CAPTURES.
 * A pointer with length 0 is not used, and may be null. So may the answer, the lines and the totals, where they are not
 * wanted. Everything else that can be passed is answered or refused.
 */
#ifndef SEJIMAKPU_H
#define SEJIMAKPU_H

#include <stddef.h>
#include <stdint.h>

#ifdef __cplusplus
extern "C" {
#endif

/* The version that this header belongs to, by its three parts and as the one number that sejimakpu_version gives. */
#define SEJIMAKPU_VERSION_MAJOR 0
#define SEJIMAKPU_VERSION_MINOR 1
#define SEJIMAKPU_VERSION_PATCH 0
#define SEJIMAKPU_VERSION 1000

/*
 * Verdicts. Only SEJIMAKPU_ACCEPTED passes a unit.
 *
 * SEJIMAKPU_HALTED came last. A program written before it, which switches over the verdicts or adds up their counts, meets
 * this number only with an image that has a rule of kind 4. Such an image was refused before; every other is answered as it
 * was.
 */
enum {
    SEJIMAKPU_NO_VERDICT = 0, /* the call was refused, or it is one that gives no verdict */
    SEJIMAKPU_ACCEPTED = 1,   /* the run removed its last entry, in a final state, with the head at the end of the capture */
    SEJIMAKPU_ENDED = 2,      /* the run removed its last entry otherwise */
    SEJIMAKPU_STUCK = 3,      /* the run came to a configuration that has no rule */
    SEJIMAKPU_LOOPING = 4,    /* the run has no end; said by judging alone */
    SEJIMAKPU_SPENT = 5,      /* the budget was used up before the run's end; said by sejimakpu_plain_run alone */
    SEJIMAKPU_DEEP = 6,       /* a push found no stack cell; said by sejimakpu_plain_run alone */
    SEJIMAKPU_HALTED = 7      /* the run came to a rule that is written to halt it; never said of a grammar's image */
};

/* Refusals: the number that a function returns. The place, in answer->place, is what stands after the colon. */
enum {
    SEJIMAKPU_ANSWERED = 0,          /* not refused */
    SEJIMAKPU_IMAGE_SHORT = 1,       /* an image under 32 bytes: its length */
    SEJIMAKPU_IMAGE_DIRECTORY = 2,   /* a wrong pair of offset and length: 0, 8 or 16, the first */
    SEJIMAKPU_IMAGE_COUNTS = 3,      /* a wrong count, byte 27 or the final states: 24 to 28, the first */
    SEJIMAKPU_IMAGE_LENGTH = 4,      /* rules of another length than the counts ask for: 20 */
    SEJIMAKPU_IMAGE_CLASS = 5,       /* a class that is not there: the offset of the first */
    SEJIMAKPU_IMAGE_RULE = 6,        /* a bad rule, as one of kind 5 and above, or one of kind 0 or 4 with another byte that
                                        is not 0: the offset of the first */
    SEJIMAKPU_CAPTURE_LONG = 7,      /* a capture of over 65,535 bytes: its length */
    SEJIMAKPU_NOTES_SHORT = 8,       /* fewer notes than configurations: the cells needed */
    SEJIMAKPU_WORK_SHORT = 9,        /* fewer work cells than configurations: the cells needed */
    SEJIMAKPU_STACK_EMPTY = 10,      /* no stack cell: 0 */
    SEJIMAKPU_GRAMMAR_LENGTH = 11,   /* a grammar of 0 or over 124 bytes, or with a part of a rule: its length */
    SEJIMAKPU_GRAMMAR_RULE = 12,     /* a wrong grammar rule (a range with b above c is right): the offset of the first */
    SEJIMAKPU_IMAGE_BUFFER_SHORT = 13, /* an image buffer too short for the image: the bytes needed */
    SEJIMAKPU_TEXT_SYNTAX = 15,      /* a token that cannot stand where it is, bytes that form no token, a name that is
                                        repeated or never defined: its offset; or the text ends early: its length */
    SEJIMAKPU_TEXT_RULES = 16,       /* a typed grammar that needs over 31 rules: the text's length */
    SEJIMAKPU_TEXT_DEPTH = 17,       /* a seventeenth open parenthesis: its offset */
    SEJIMAKPU_BUNDLE = 18,           /* a bundle's count, or a bundle too short for its count and pairs: 0; else a wrong pair
                                        of offset and length: its place, 4 + 8 * i for pair i, the first */
    SEJIMAKPU_LEFT_RECURSION = 19    /* a grammar rule that leads back to itself before anything is consumed: its number, the
                                        lowest; said by the two checks of a grammar alone */
};

/* The longest capture, in bytes, and the longest grammar. */
#define SEJIMAKPU_MAX_CAPTURE 65535
#define SEJIMAKPU_MAX_GRAMMAR 124

/* The most captures of a bundle. */
#define SEJIMAKPU_MAX_CAPTURES 64

/* A length of image buffer that no grammar's image passes: 31 rules and 63 classes. */
#define SEJIMAKPU_MAX_BUILT_IMAGE 82188

/* A call's answer. Every call writes every field; a field that says nothing is 0. */
typedef struct sejimakpu_answer {
    uint64_t place;   /* of a refusal */
    uint64_t verdict; /* SEJIMAKPU_ACCEPTED to SEJIMAKPU_HALTED; SEJIMAKPU_NO_VERDICT where refused */
    uint64_t count;   /* readings of a judging, steps of a plain run, bytes of an image or a grammar, cells needed,
                         captures of a bundle; of refusal 19 of a text the offset of a name */
    uint64_t state;   /* of the end configuration, or of the one reached; and so its head and symbol */
    uint64_t head;
    uint64_t symbol;
} sejimakpu_answer;

/* A capture's line in the report on a bundle: what sejimakpu_judge returns and answers for that capture alone. */
typedef struct sejimakpu_line {
    uint64_t refusal; /* 0 where the capture was judged; else 7, 8 or 9, and all but the place are 0 */
    uint64_t place;   /* of the refusal */
    uint64_t verdict; /* SEJIMAKPU_ACCEPTED to SEJIMAKPU_LOOPING, or SEJIMAKPU_HALTED; SEJIMAKPU_NO_VERDICT where refused */
    uint64_t count;   /* readings */
    uint64_t state;   /* of the end configuration; and so its head and symbol */
    uint64_t head;
    uint64_t symbol;
} sejimakpu_line;

/* The last line of that report: the sums over the captures' lines. */
typedef struct sejimakpu_totals {
    uint64_t verdicts[8]; /* at a verdict's number: how many lines have it, those halted at [SEJIMAKPU_HALTED]; a refusal is
                             no verdict, so that [0] is 0, and no line is spent or deep, so that [5] and [6] are 0 */
    uint64_t refusals;    /* how many lines are refusals */
    uint64_t readings;    /* the sum of the readings */
} sejimakpu_totals;

/*
 * The archive's own functions. They take what the inline functions below take, and no pointer may be null, even with
 * length 0: the proved code takes slices, and a slice is never null.
 */
uint32_t sejimakpu_check_nonnull(const uint8_t *image, size_t image_length, sejimakpu_answer *answer);
uint32_t sejimakpu_cells_nonnull(const uint8_t *image, size_t image_length, size_t capture_length,
                                 sejimakpu_answer *answer);
uint32_t sejimakpu_judge_nonnull(const uint8_t *image, size_t image_length,
                                 const uint8_t *capture, size_t capture_length,
                                 uint32_t *notes, size_t notes_length,
                                 uint32_t *work, size_t work_length,
                                 sejimakpu_answer *answer);
uint32_t sejimakpu_plain_run_nonnull(const uint8_t *image, size_t image_length,
                                     const uint8_t *capture, size_t capture_length,
                                     uint32_t budget,
                                     uint32_t *stack, size_t stack_length,
                                     sejimakpu_answer *answer);
uint32_t sejimakpu_build_nonnull(const uint8_t *grammar, size_t grammar_length,
                                 uint8_t *image, size_t image_length,
                                 sejimakpu_answer *answer);
uint32_t sejimakpu_build_whole_nonnull(const uint8_t *grammar, size_t grammar_length,
                                       uint8_t *image, size_t image_length,
                                       sejimakpu_answer *answer);
uint32_t sejimakpu_read_grammar_nonnull(const uint8_t *text, size_t text_length, uint8_t *grammar,
                                        sejimakpu_answer *answer);
uint32_t sejimakpu_build_text_nonnull(const uint8_t *text, size_t text_length,
                                      uint8_t *image, size_t image_length,
                                      sejimakpu_answer *answer);
uint32_t sejimakpu_judge_text_nonnull(const uint8_t *text, size_t text_length,
                                      const uint8_t *capture, size_t capture_length,
                                      uint8_t *image, size_t image_length,
                                      uint32_t *notes, size_t notes_length,
                                      uint32_t *work, size_t work_length,
                                      sejimakpu_answer *answer);
uint32_t sejimakpu_judge_bundle_nonnull(const uint8_t *image, size_t image_length,
                                        const uint8_t *bundle, size_t bundle_length,
                                        uint32_t *notes, size_t notes_length,
                                        uint32_t *work, size_t work_length,
                                        sejimakpu_line *lines, sejimakpu_totals *totals,
                                        sejimakpu_answer *answer);
uint32_t sejimakpu_check_recursion_nonnull(const uint8_t *grammar, size_t grammar_length, sejimakpu_answer *answer);
uint32_t sejimakpu_check_text_recursion_nonnull(const uint8_t *text, size_t text_length, sejimakpu_answer *answer);

/*
 * The version of the archive that is linked: 1000000 * major + 1000 * minor + patch. Compare it with SEJIMAKPU_VERSION, the
 * header's, to see that header and archive belong together. In an acceptance record it names the archive that judged.
 */
uint32_t sejimakpu_version(void);

/*
 * For the inline functions: the pointer, or one to an element that nobody reads or writes where the length is 0. A null
 * pointer with a length above 0 stays null, so that this mistake is met at the first access.
 */
static inline const uint8_t *sejimakpu_input_bytes(const uint8_t *bytes, size_t length)
{
    static const uint8_t unused = 0;
    return length == 0 ? &unused : bytes;
}

static inline uint8_t *sejimakpu_lent_bytes(uint8_t *bytes, size_t length)
{
    static uint8_t unused;
    return length == 0 ? &unused : bytes;
}

static inline uint32_t *sejimakpu_lent_cells(uint32_t *cells, size_t length)
{
    static uint32_t unused;
    return length == 0 ? &unused : cells;
}

/*
 * Checks an image: refusals 1 to 6.
 *
 * Two kinds of rule stop a run, and have no byte but their kind: the others are 0, or the rule has refusal 6. Kind 0 is a
 * missing rule, where the run is stuck. Kind 4 halts the run on purpose. They differ in the verdict and in nothing else. No
 * image that the library builds has kind 4.
 */
static inline uint32_t sejimakpu_check(const uint8_t *image, size_t image_length, sejimakpu_answer *answer)
{
    sejimakpu_answer unread;
    return sejimakpu_check_nonnull(sejimakpu_input_bytes(image, image_length), image_length,
                                   answer ? answer : &unread);
}

/*
 * How many notes and how many work cells judging needs, for this image and any capture of so many bytes:
 * answer->count is N = states * (capture_length + 2) * symbols. Refusals 1 to 7.
 */
static inline uint32_t sejimakpu_cells(const uint8_t *image, size_t image_length, size_t capture_length,
                                       sejimakpu_answer *answer)
{
    sejimakpu_answer unread;
    return sejimakpu_cells_nonnull(sejimakpu_input_bytes(image, image_length), image_length, capture_length,
                                   answer ? answer : &unread);
}

/*
 * Judges a capture by an image: answer->verdict (accepted, ended, stuck, looping or halted), the readings in
 * answer->count, and the end configuration. A halted run has it, its readings and its notes as one that is stuck at the same
 * rule. Refusals 1 to 9; a refused call changes no note and no work cell.
 *
 * After an answer the note of the configuration (state, head, symbol) stands at
 * (state * (capture_length + 2) + head) * symbols + symbol: 0 if the run never enters it, 1 if the run enters it and
 * never removes the entry then on top, else 2 + the number of the configuration that removes it. The first N work cells
 * are 0. Later cells are as they were, and what stood in the first N before does not matter.
 */
static inline uint32_t sejimakpu_judge(const uint8_t *image, size_t image_length,
                                       const uint8_t *capture, size_t capture_length,
                                       uint32_t *notes, size_t notes_length,
                                       uint32_t *work, size_t work_length,
                                       sejimakpu_answer *answer)
{
    sejimakpu_answer unread;
    return sejimakpu_judge_nonnull(sejimakpu_input_bytes(image, image_length), image_length,
                                   sejimakpu_input_bytes(capture, capture_length), capture_length,
                                   sejimakpu_lent_cells(notes, notes_length), notes_length,
                                   sejimakpu_lent_cells(work, work_length), work_length,
                                   answer ? answer : &unread);
}

/*
 * Runs the machine step by step, at most budget steps, on a stack of lent cells, one an entry: answer->verdict (accepted,
 * ended, stuck, halted, spent or deep), the steps taken in answer->count, and the configuration reached. To be stuck or
 * halted is no step, and comes first: before each step the run is stuck or halted, then spent, then deep. So a run that
 * halts after as many steps as the budget has is halted, and not spent. Refusals 1 to 7 and 10; a refused call changes no
 * cell, and after an answer all cells are 0.
 */
static inline uint32_t sejimakpu_plain_run(const uint8_t *image, size_t image_length,
                                           const uint8_t *capture, size_t capture_length,
                                           uint32_t budget,
                                           uint32_t *stack, size_t stack_length,
                                           sejimakpu_answer *answer)
{
    sejimakpu_answer unread;
    return sejimakpu_plain_run_nonnull(sejimakpu_input_bytes(image, image_length), image_length,
                                       sejimakpu_input_bytes(capture, capture_length), capture_length,
                                       budget,
                                       sejimakpu_lent_cells(stack, stack_length), stack_length,
                                       answer ? answer : &unread);
}

/*
 * Builds the image of a grammar at the start of a buffer, for leading matching: answer->count is its length, and later bytes
 * stay. Refusals 11 to 13; a refused call changes no byte.
 *
 * THIS FUNCTION HAS CHANGED: IT BUILT FOR WHOLE MATCHING, AND NOW IT BUILDS FOR LEADING MATCHING. A CALLER OF BEFORE WHO
 * WANTS THE VERDICTS OF BEFORE MUST CALL sejimakpu_build_whole. BY AN IMAGE OF sejimakpu_build A CAPTURE IS NOW ACCEPTED
 * WHERE SOMETHING FOLLOWS THE MATCH; IT WAS STUCK BEFORE. NOTHING REFUSES OR WARNS: ARGUMENTS, LENGTHS AND REFUSALS ARE THE
 * SAME, AND COMPILER AND LINKER ARE SILENT. THE SAME HOLDS OF sejimakpu_build_nonnull.
 *
 * Leading: a capture is accepted exactly if rule 0 succeeds at its start, whatever follows; stuck exactly if it fails;
 * looping where parsing has no result. Whole: accepted exactly if rule 0 succeeds and consumes the whole capture; stuck
 * where parsing has another result; looping as with leading. What is accepted with whole is accepted with leading.
 *
 * Use whole where nothing may follow, or where the grammar describes all that follows. Use leading where the grammar does
 * not describe what follows, such as a banner after a dump; and then let the grammar end with what must stand after the
 * dump. Without that a dump that is broken in the middle is accepted if the grammar succeeds on the part before.
 *
 * Readings of n bytes and m rules: at most 6 * m * (n + 1) + 2 with whole, 6 * m * (n + 1) + n + 2 with leading.
 *
 * A rule of kind 5 matches one byte from b to c. With b above c it always fails: it is legal, matches no byte anywhere,
 * consumes nothing, and adds no class to the image.
 */
static inline uint32_t sejimakpu_build(const uint8_t *grammar, size_t grammar_length,
                                       uint8_t *image, size_t image_length,
                                       sejimakpu_answer *answer)
{
    sejimakpu_answer unread;
    return sejimakpu_build_nonnull(sejimakpu_input_bytes(grammar, grammar_length), grammar_length,
                                   sejimakpu_lent_bytes(image, image_length), image_length,
                                   answer ? answer : &unread);
}

/*
 * Builds the image of a grammar at the start of a buffer, for whole matching, as sejimakpu_build did before: the comment
 * there says what whole and leading are, and when to use which. Length and refusals are the same; so is the image, but for
 * the rules on a byte after rule 0 has succeeded.
 */
static inline uint32_t sejimakpu_build_whole(const uint8_t *grammar, size_t grammar_length,
                                             uint8_t *image, size_t image_length,
                                             sejimakpu_answer *answer)
{
    sejimakpu_answer unread;
    return sejimakpu_build_whole_nonnull(sejimakpu_input_bytes(grammar, grammar_length), grammar_length,
                                         sejimakpu_lent_bytes(image, image_length), image_length,
                                         answer ? answer : &unread);
}

/*
 * Reads a typed grammar: answer->count is the length of its bytes, which are put at the start of the SEJIMAKPU_MAX_GRAMMAR
 * bytes lent; later ones stay. They are as sejimakpu_build and sejimakpu_build_whole take them: to judge by a text with
 * leading, read it and give these bytes to sejimakpu_build. A text may have any length. Refusals 15 and 17, whichever comes
 * first in the text, then 16; a refused call changes no byte.
 *
 * A text is lines: a name, =, an expression and ; each, and the first line is where parsing starts. A name is the longest
 * run of letters a to z; spaces and line feeds around tokens are skipped. An expression has names, . for any byte, ranges
 * such as 'a-z' (quote, any byte, minus, any byte, quote), the words empty and fail, and parentheses, 16 open at once at
 * most. Suffixes * + and ? bind first, then prefixes ! and &, then sequence, then /; the last two group to the right.
 */
static inline uint32_t sejimakpu_read_grammar(const uint8_t *text, size_t text_length, uint8_t *grammar,
                                              sejimakpu_answer *answer)
{
    sejimakpu_answer unread;
    return sejimakpu_read_grammar_nonnull(sejimakpu_input_bytes(text, text_length), text_length, grammar,
                                          answer ? answer : &unread);
}

/*
 * Builds the image of a typed grammar at the start of a buffer, for whole matching, as sejimakpu_build_whole does of the
 * bytes that sejimakpu_read_grammar gives: answer->count is its length, and later bytes stay. Refusals 15 to 17 as there,
 * then 13; a refused call changes no byte. For leading matching: sejimakpu_read_grammar, then sejimakpu_build.
 */
static inline uint32_t sejimakpu_build_text(const uint8_t *text, size_t text_length,
                                            uint8_t *image, size_t image_length,
                                            sejimakpu_answer *answer)
{
    sejimakpu_answer unread;
    return sejimakpu_build_text_nonnull(sejimakpu_input_bytes(text, text_length), text_length,
                                        sejimakpu_lent_bytes(image, image_length), image_length,
                                        answer ? answer : &unread);
}

/*
 * Judges a capture by a typed grammar: builds its image for whole matching at the start of a buffer, as
 * sejimakpu_build_text does, and judges by that as sejimakpu_judge does, with the same answer, notes and work cells; the
 * verdict is never halted. The image stays in the buffer, and later bytes are as they were. For leading matching:
 * sejimakpu_read_grammar, then sejimakpu_build and sejimakpu_judge. Refusals 15 to 17 as of sejimakpu_read_grammar, then
 * 13, then 7 to 9; a refused call changes no byte and no cell.
 *
 * Of n bytes and m rules, N = 5 * (n + 2) * (2 * m + 1) notes and as many work cells are needed.
 */
static inline uint32_t sejimakpu_judge_text(const uint8_t *text, size_t text_length,
                                            const uint8_t *capture, size_t capture_length,
                                            uint8_t *image, size_t image_length,
                                            uint32_t *notes, size_t notes_length,
                                            uint32_t *work, size_t work_length,
                                            sejimakpu_answer *answer)
{
    sejimakpu_answer unread;
    return sejimakpu_judge_text_nonnull(sejimakpu_input_bytes(text, text_length), text_length,
                                        sejimakpu_input_bytes(capture, capture_length), capture_length,
                                        sejimakpu_lent_bytes(image, image_length), image_length,
                                        sejimakpu_lent_cells(notes, notes_length), notes_length,
                                        sejimakpu_lent_cells(work, work_length), work_length,
                                        answer ? answer : &unread);
}

/*
 * Judges every capture of a bundle by one image, in order: lines[i] is what sejimakpu_judge gives for capture i, the
 * totals are the sums over these lines, and answer->count is the number of captures. Lines from that number on stay. The
 * notes and work cells end as after judging the captures one after another; lend what sejimakpu_cells asks for the longest.
 *
 * A bundle is a count, 1 to SEJIMAKPU_MAX_CAPTURES, then that many pairs of offset and length, then the captures; numbers
 * have 32 bits, the lowest byte first, and pair i stands at 4 + 8 * i. Each capture starts no earlier than the end of the
 * one before, the first no earlier than the end of the pairs, and all end inside the bundle. Bytes between and after them
 * are not looked at. sejimakpu_pack_bundle makes one.
 *
 * Refusals 1 to 6, then 18, before anything is judged; a refused call changes no note, no work cell, no line and no total.
 * A capture's own refusal, 7 to 9, is its line: the others are judged, and the call is not refused.
 */
static inline uint32_t sejimakpu_judge_bundle(const uint8_t *image, size_t image_length,
                                              const uint8_t *bundle, size_t bundle_length,
                                              uint32_t *notes, size_t notes_length,
                                              uint32_t *work, size_t work_length,
                                              sejimakpu_line *lines, sejimakpu_totals *totals,
                                              sejimakpu_answer *answer)
{
    sejimakpu_line unread_lines[SEJIMAKPU_MAX_CAPTURES];
    sejimakpu_totals unread_totals;
    sejimakpu_answer unread;
    return sejimakpu_judge_bundle_nonnull(sejimakpu_input_bytes(image, image_length), image_length,
                                          sejimakpu_input_bytes(bundle, bundle_length), bundle_length,
                                          sejimakpu_lent_cells(notes, notes_length), notes_length,
                                          sejimakpu_lent_cells(work, work_length), work_length,
                                          lines ? lines : unread_lines, totals ? totals : &unread_totals,
                                          answer ? answer : &unread);
}

/*
 * Checks a grammar for left recursion, before any capture is judged: refusals 11 and 12, then 19 with the number of the
 * lowest rule that leads back to itself before anything is consumed.
 *
 * A rule may match nothing if it is empty, a not, a sequence of two such, or a choice with one such; these are the least
 * such set. A sequence leads to its first part, and to its second if the first may match nothing; a choice leads to both
 * parts, a not to its own.
 *
 * A grammar that passes never gives the verdict looping, on any capture. One with 19 need not give it on any: it may be that
 * no capture takes that way back, as where the rule is never met. So 19 is a warning: no other call refuses such a grammar.
 */
static inline uint32_t sejimakpu_check_recursion(const uint8_t *grammar, size_t grammar_length, sejimakpu_answer *answer)
{
    sejimakpu_answer unread;
    return sejimakpu_check_recursion_nonnull(sejimakpu_input_bytes(grammar, grammar_length), grammar_length,
                                             answer ? answer : &unread);
}

/*
 * Checks a typed grammar for left recursion, as sejimakpu_check_recursion does the bytes that sejimakpu_read_grammar gives:
 * refusals 15 to 17 as there, then 19 with the rule's number in that grammar. With 19 answer->count is the offset in the
 * text of the name of the line that the rule is of: a named rule's own line, and for a helper rule the line for whose
 * expression it was made. Otherwise the count is 0.
 */
static inline uint32_t sejimakpu_check_text_recursion(const uint8_t *text, size_t text_length, sejimakpu_answer *answer)
{
    sejimakpu_answer unread;
    return sejimakpu_check_text_recursion_nonnull(sejimakpu_input_bytes(text, text_length), text_length,
                                                  answer ? answer : &unread);
}

/*
 * For sejimakpu_pack_bundle: a number of 32 bits, the lowest byte first.
 */
static inline void sejimakpu_put_number(uint8_t *bytes, size_t number)
{
    for (int i = 0; i < 4; i++)
        bytes[i] = (uint8_t)(number >> (8 * i) & 0xff);
}

/*
 * The length of the bundle of these captures, one after another with nothing between them; where bundle_length is enough,
 * the bundle is written, and later bytes stay. With less nothing is written, so that a first call with null and 0 asks for
 * the length. 0 where there is no such bundle: no capture, over SEJIMAKPU_MAX_CAPTURES, or an offset or a length passes 32
 * bits (or the whole passes a size_t); then nothing is written either. A capture of length 0 may be null. This function is
 * not in the archive, and is not proved.
 */
static inline size_t sejimakpu_pack_bundle(const uint8_t *const *captures, const size_t *lengths, size_t count,
                                           uint8_t *bundle, size_t bundle_length)
{
    if (count < 1 || count > SEJIMAKPU_MAX_CAPTURES)
        return 0;
    /* in 64 bits, because a size_t may have 32, which none of these numbers would pass */
    uint64_t end = 4 + 8 * (uint64_t)count;
    for (size_t i = 0; i < count; i++) {
        const uint64_t offset = end, length = lengths[i];
        if (offset > UINT32_MAX || length > UINT32_MAX || length > SIZE_MAX - offset)
            return 0;
        end += length;
    }
    if (bundle_length < end)
        return (size_t)end;
    sejimakpu_put_number(bundle, count);
    size_t offset = 4 + 8 * count;
    for (size_t i = 0; i < count; i++) {
        sejimakpu_put_number(bundle + 4 + 8 * i, offset);
        sejimakpu_put_number(bundle + 8 + 8 * i, lengths[i]);
        for (size_t j = 0; j < lengths[i]; j++)
            bundle[offset + j] = captures[i][j];
        offset += lengths[i];
    }
    return (size_t)end;
}

/*
 * A verdict's word, as the program `judge` prints it; never null.
 */
static inline const char *sejimakpu_verdict_word(uint64_t verdict)
{
    switch (verdict) {
    case SEJIMAKPU_NO_VERDICT: return "none";
    case SEJIMAKPU_ACCEPTED: return "accepted";
    case SEJIMAKPU_ENDED: return "ended";
    case SEJIMAKPU_STUCK: return "stuck";
    case SEJIMAKPU_LOOPING: return "looping";
    case SEJIMAKPU_SPENT: return "spent";
    case SEJIMAKPU_DEEP: return "deep";
    case SEJIMAKPU_HALTED: return "halted";
    default: return "unknown";
    }
}

/*
 * What a refusal's number means, in a few words for a person; never null.
 */
static inline const char *sejimakpu_refusal_meaning(uint32_t refusal)
{
    switch (refusal) {
    case SEJIMAKPU_ANSWERED: return "not refused";
    case SEJIMAKPU_IMAGE_SHORT: return "the image is shorter than 32 bytes";
    case SEJIMAKPU_IMAGE_DIRECTORY: return "a pair of offset and length in the image's directory is wrong";
    case SEJIMAKPU_IMAGE_COUNTS: return "a count, byte 27 or the final states of the image are wrong";
    case SEJIMAKPU_IMAGE_LENGTH: return "the image's rules are not as long as its counts ask for";
    case SEJIMAKPU_IMAGE_CLASS: return "the image's class map names a class that is not there";
    case SEJIMAKPU_IMAGE_RULE: return "a rule of the image is bad";
    case SEJIMAKPU_CAPTURE_LONG: return "the capture is longer than 65,535 bytes";
    case SEJIMAKPU_NOTES_SHORT: return "there are fewer notes than judging needs";
    case SEJIMAKPU_WORK_SHORT: return "there are fewer work cells than judging needs";
    case SEJIMAKPU_STACK_EMPTY: return "there is no stack cell";
    case SEJIMAKPU_GRAMMAR_LENGTH: return "the grammar has no rule, over 31 rules, or a part of a rule";
    case SEJIMAKPU_GRAMMAR_RULE: return "a rule of the grammar is wrong";
    case SEJIMAKPU_IMAGE_BUFFER_SHORT: return "the image buffer is too short for the image";
    case SEJIMAKPU_TEXT_SYNTAX: return "the text is wrong at that place, or ends early";
    case SEJIMAKPU_TEXT_RULES: return "the typed grammar needs over 31 rules";
    case SEJIMAKPU_TEXT_DEPTH: return "over 16 parentheses are open at once";
    case SEJIMAKPU_BUNDLE: return "a bundle's count or a pair of offset and length is wrong";
    case SEJIMAKPU_LEFT_RECURSION: return "a rule of the grammar leads back to itself before anything is consumed";
    default: return "unknown refusal";
    }
}

#ifdef __cplusplus
}
#endif

#endif
