/*
 * Judges a shift's captures by one grammar, in one call:
 *
 *     shift [--leading] GRAMMAR-FILE CAPTURE-FILE..
 *
 * takes 1 to 64 captures, prints a line for each with the file's name, then the totals, and leaves with status 0 if all
 * are accepted, 1 if one is not, 2 if one or the call was refused, a file could not be read or the lines not be written. A
 * grammar file whose name ends in .peg is a typed grammar; any other is a grammar's bytes. A grammar by which some capture
 * may be looping has a warning first. The grammar must match a whole capture; with --leading it must match at the start, and
 * anything may follow. Compile it with -I include, and link libsejimakpu.a.
 */
#include "sejimakpu.h"

#include <inttypes.h>
#include <stdio.h>
#include <stdlib.h>
#include <string.h>

/* This program's own limit: the library takes a text of any length. */
#define MAX_TEXT 65536

enum { PASSED = 0, NOT_PASSED = 1, NOT_JUDGED = 2 };

static void unreadable(const char *name)
{
    fprintf(stderr, "shift: cannot read %s\n", name);
    exit(NOT_JUDGED);
}

/* A file's bytes, at most limit + 1 of them: one more than allowed is enough to be refused. */
static size_t bytes_of(const char *name, uint8_t *bytes, size_t limit)
{
    FILE *file = fopen(name, "rb");
    if (file == NULL)
        unreadable(name);
    size_t length = fread(bytes, 1, limit + 1, file);
    if (ferror(file)) /* what was read before is not the file */
        unreadable(name);
    fclose(file);
    return length;
}

/* Ends the program where a call was refused: what that means for a person, then the line with number and place. */
static void or_stop(uint32_t refusal, const sejimakpu_answer *answer)
{
    if (refusal != SEJIMAKPU_ANSWERED) {
        fprintf(stderr, "shift: %s\n", sejimakpu_refusal_meaning(refusal));
        printf("refused %" PRIu32 " %" PRIu64 "\n", refusal, answer->place);
        exit(NOT_JUDGED);
    }
}

static int is_typed(const char *name)
{
    size_t length = strlen(name);
    return length >= 4 && strcmp(name + length - 4, ".peg") == 0;
}

/* Warns where a rule leads back to itself, by the number of the rule or the name of its line: the captures are judged all
   the same. What else the checks refuse is refused by building too, which ends the program. */
static void warn_grammar(const uint8_t *grammar, size_t length)
{
    sejimakpu_answer answer;
    uint32_t refusal = sejimakpu_check_recursion(grammar, length, &answer);
    if (refusal == SEJIMAKPU_LEFT_RECURSION)
        fprintf(stderr, "shift: warning: rule %" PRIu64 ": %s\n", answer.place, sejimakpu_refusal_meaning(refusal));
}

static void warn_text(const uint8_t *text, size_t length)
{
    sejimakpu_answer answer;
    uint32_t refusal = sejimakpu_check_text_recursion(text, length, &answer);
    if (refusal == SEJIMAKPU_LEFT_RECURSION) {
        const char *name = (const char *)text + answer.count; /* which = follows, after blanks or none */
        int letters = (int)strspn(name, "abcdefghijklmnopqrstuvwxyz");
        fprintf(stderr, "shift: warning: line %.*s: %s\n", letters, name, sejimakpu_refusal_meaning(refusal));
    }
}

/* Builds the image of the grammar in a file, for leading or for whole matching, and answers its length. */
static size_t image_of(const char *name, int leading, uint8_t *image, size_t room)
{
    static uint8_t text[MAX_TEXT + 1];
    static uint8_t grammar[SEJIMAKPU_MAX_GRAMMAR + 1];
    sejimakpu_answer answer;
    if (is_typed(name)) {
        size_t length = bytes_of(name, text, MAX_TEXT);
        if (length > MAX_TEXT) {
            fprintf(stderr, "shift: %s is longer than %d bytes\n", name, MAX_TEXT);
            exit(NOT_JUDGED);
        }
        warn_text(text, length);
        if (leading) { /* build_text is whole, so the text is read first */
            or_stop(sejimakpu_read_grammar(text, length, grammar, &answer), &answer);
            or_stop(sejimakpu_build(grammar, answer.count, image, room, &answer), &answer);
        } else {
            or_stop(sejimakpu_build_text(text, length, image, room, &answer), &answer);
        }
    } else {
        size_t length = bytes_of(name, grammar, SEJIMAKPU_MAX_GRAMMAR);
        warn_grammar(grammar, length);
        if (leading)
            or_stop(sejimakpu_build(grammar, length, image, room, &answer), &answer);
        else
            or_stop(sejimakpu_build_whole(grammar, length, image, room, &answer), &answer);
    }
    return answer.count;
}

static void *memory_of(size_t count, size_t size)
{
    void *memory = calloc(count, size);
    if (memory == NULL) {
        fprintf(stderr, "shift: no memory for %zu times %zu bytes\n", count, size);
        exit(NOT_JUDGED);
    }
    return memory;
}

/* How many cells the longest capture needs. One that is longer than any may be needs none: it is refused. */
static size_t cells_of(const uint8_t *image, size_t image_length, const size_t *lengths, size_t count)
{
    size_t longest = 0;
    sejimakpu_answer answer;
    for (size_t i = 0; i < count; i++) {
        if (lengths[i] > longest && lengths[i] <= SEJIMAKPU_MAX_CAPTURE)
            longest = lengths[i];
    }
    or_stop(sejimakpu_cells(image, image_length, longest, &answer), &answer);
    return answer.count;
}

/* A file's name, with # for each byte that is not printed, so that no name can look like a line of its own. */
static void print_name(const char *name)
{
    for (; *name != '\0'; name++)
        putchar(*name >= ' ' && *name <= '~' ? *name : '#');
    putchar('\n');
}

static void print_line(const sejimakpu_line *line, const char *name)
{
    if (line->refusal != SEJIMAKPU_ANSWERED)
        printf("refused %" PRIu64 " %" PRIu64 " ", line->refusal, line->place);
    else
        printf("%s %" PRIu64 " %" PRIu64 " %" PRIu64 " %" PRIu64 " ",
               sejimakpu_verdict_word(line->verdict), line->count, line->state, line->head, line->symbol);
    print_name(name);
}

/* The verdicts that judging gives, in the order of the totals; those of the plain run alone are not among them. */
static const uint32_t judged[] = {SEJIMAKPU_ACCEPTED, SEJIMAKPU_ENDED, SEJIMAKPU_STUCK, SEJIMAKPU_LOOPING, SEJIMAKPU_HALTED};

static void print_totals(const sejimakpu_totals *totals)
{
    printf("totals");
    for (size_t i = 0; i < sizeof judged / sizeof judged[0]; i++)
        printf(" %s %" PRIu64, sejimakpu_verdict_word(judged[i]), totals->verdicts[judged[i]]);
    printf(" refused %" PRIu64 " readings %" PRIu64 "\n", totals->refusals, totals->readings);
}

int main(int words_count, char **words)
{
    static uint8_t files[SEJIMAKPU_MAX_CAPTURES][SEJIMAKPU_MAX_CAPTURE + 1];
    static uint8_t image[SEJIMAKPU_MAX_BUILT_IMAGE];
    const uint8_t *captures[SEJIMAKPU_MAX_CAPTURES];
    size_t lengths[SEJIMAKPU_MAX_CAPTURES];
    sejimakpu_line lines[SEJIMAKPU_MAX_CAPTURES];
    sejimakpu_totals totals;
    sejimakpu_answer answer;

    int leading = words_count > 1 && strcmp(words[1], "--leading") == 0;
    int files_count = words_count - 1 - leading;
    if (files_count < 2 || files_count > 1 + SEJIMAKPU_MAX_CAPTURES) {
        fprintf(stderr, "usage: shift [--leading] GRAMMAR-FILE CAPTURE-FILE.., up to %d captures\n", SEJIMAKPU_MAX_CAPTURES);
        return NOT_JUDGED;
    }
    size_t count = (size_t)files_count - 1;
    const char *grammar = words[1 + leading];
    char **names = words + 2 + leading;
    for (size_t i = 0; i < count; i++) {
        captures[i] = files[i];
        lengths[i] = bytes_of(names[i], files[i], SEJIMAKPU_MAX_CAPTURE);
    }
    size_t image_length = image_of(grammar, leading, image, sizeof image);

    size_t bundle_length = sejimakpu_pack_bundle(captures, lengths, count, NULL, 0);
    uint8_t *bundle = memory_of(bundle_length, 1);
    sejimakpu_pack_bundle(captures, lengths, count, bundle, bundle_length);
    size_t cells = cells_of(image, image_length, lengths, count);
    uint32_t *notes = memory_of(cells, sizeof *notes), *work = memory_of(cells, sizeof *work);

    or_stop(sejimakpu_judge_bundle(image, image_length, bundle, bundle_length, notes, cells, work, cells,
                                   lines, &totals, &answer), &answer);
    for (size_t i = 0; i < count; i++)
        print_line(&lines[i], names[i]);
    print_totals(&totals);
    free(bundle);
    free(notes);
    free(work);
    if (fflush(stdout) != 0 || ferror(stdout)) { /* a line that was not written passes no unit */
        fprintf(stderr, "shift: the lines could not be written\n");
        return NOT_JUDGED;
    }
    if (totals.refusals != 0)
        return NOT_JUDGED;
    return totals.verdicts[SEJIMAKPU_ACCEPTED] == count ? PASSED : NOT_PASSED;
}
