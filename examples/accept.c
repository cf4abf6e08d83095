/*
 * Judges a capture by a grammar, as a bench program would:
 *
 *     accept [--leading] GRAMMAR-FILE CAPTURE-FILE
 *
 * prints the answer's line, and leaves with status 0 if the capture is accepted, 1 if it is not, 2 if a call was refused
 * or a file could not be read. A grammar file whose name ends in .peg is a typed grammar; any other is a grammar's bytes.
 * The grammar must match the whole capture; with --leading it must match at the start, and anything may follow.
 * Compile it with -I include, and link libsejimakpu.a.
 */
#include "sejimakpu.h"

#include <inttypes.h>
#include <stdio.h>
#include <stdlib.h>
#include <string.h>

/* This program's own limit: the library takes a text of any length. */
#define MAX_TEXT 65536

enum { PASSED = 0, NOT_PASSED = 1, NOT_JUDGED = 2 };

static void unreadable(const char *name)
{
    fprintf(stderr, "accept: cannot read %s\n", name);
    exit(NOT_JUDGED);
}

/* A file's bytes, at most limit + 1 of them: one more than allowed is enough to be refused. */
static size_t bytes_of(const char *name, uint8_t *bytes, size_t limit)
{
    FILE *file = fopen(name, "rb");
    if (file == NULL)
        unreadable(name);
    size_t length = fread(bytes, 1, limit + 1, file);
    if (ferror(file)) /* what was read before is not the file */
        unreadable(name);
    fclose(file);
    return length;
}

/* Ends the program where a call was refused: what that means for a person, then the line with number and place. */
static void or_stop(uint32_t refusal, const sejimakpu_answer *answer)
{
    if (refusal != SEJIMAKPU_ANSWERED) {
        fprintf(stderr, "accept: %s\n", sejimakpu_refusal_meaning(refusal));
        printf("refused %" PRIu32 " %" PRIu64 "\n", refusal, answer->place);
        exit(NOT_JUDGED);
    }
}

static int is_typed(const char *name)
{
    size_t length = strlen(name);
    return length >= 4 && strcmp(name + length - 4, ".peg") == 0;
}

/* Builds the image of the grammar in a file, for leading or for whole matching, and answers its length. */
static size_t image_of(const char *name, int leading, uint8_t *image, size_t room)
{
    static uint8_t text[MAX_TEXT + 1];
    static uint8_t grammar[SEJIMAKPU_MAX_GRAMMAR + 1];
    sejimakpu_answer answer;
    if (is_typed(name)) {
        size_t length = bytes_of(name, text, MAX_TEXT);
        if (length > MAX_TEXT) {
            fprintf(stderr, "accept: %s is longer than %d bytes\n", name, MAX_TEXT);
            exit(NOT_JUDGED);
        }
        if (leading) { /* build_text is whole, so the text is read first */
            or_stop(sejimakpu_read_grammar(text, length, grammar, &answer), &answer);
            or_stop(sejimakpu_build(grammar, answer.count, image, room, &answer), &answer);
        } else {
            or_stop(sejimakpu_build_text(text, length, image, room, &answer), &answer);
        }
    } else {
        size_t length = bytes_of(name, grammar, SEJIMAKPU_MAX_GRAMMAR);
        if (leading)
            or_stop(sejimakpu_build(grammar, length, image, room, &answer), &answer);
        else
            or_stop(sejimakpu_build_whole(grammar, length, image, room, &answer), &answer);
    }
    return answer.count;
}

static uint32_t *cells_of(uint64_t count)
{
    uint32_t *cells = calloc(count, sizeof *cells);
    if (cells == NULL) {
        fprintf(stderr, "accept: no memory for %" PRIu64 " cells\n", count);
        exit(NOT_JUDGED);
    }
    return cells;
}

int main(int count, char **words)
{
    static uint8_t capture[SEJIMAKPU_MAX_CAPTURE + 1];
    static uint8_t image[SEJIMAKPU_MAX_BUILT_IMAGE];
    sejimakpu_answer answer;

    int leading = count > 1 && strcmp(words[1], "--leading") == 0;
    if (count != 3 + leading) {
        fprintf(stderr, "usage: accept [--leading] GRAMMAR-FILE CAPTURE-FILE\n");
        return NOT_JUDGED;
    }
    char **files = words + 1 + leading;
    size_t capture_length = bytes_of(files[1], capture, SEJIMAKPU_MAX_CAPTURE);
    size_t image_length = image_of(files[0], leading, image, sizeof image);

    or_stop(sejimakpu_cells(image, image_length, capture_length, &answer), &answer);
    size_t cells = answer.count;
    uint32_t *notes = cells_of(cells), *work = cells_of(cells);

    or_stop(sejimakpu_judge(image, image_length, capture, capture_length, notes, cells, work, cells, &answer), &answer);
    printf("%s %" PRIu64 " %" PRIu64 " %" PRIu64 " %" PRIu64 "\n",
           sejimakpu_verdict_word(answer.verdict), answer.count, answer.state, answer.head, answer.symbol);
    free(notes);
    free(work);
    return answer.verdict == SEJIMAKPU_ACCEPTED ? PASSED : NOT_PASSED;
}
