/*
 * Tests of packing a bundle by the header's function, as C and as C++; header_bundle.c judges what is packed. It needs no
 * archive. Prints what does not hold, and leaves with status 1 if anything does.
 */
#include "sejimakpu.h"

#include <stdio.h>
#include <string.h>

enum { OLD = 7 };

static int faults = 0;

static void expect(int holds, const char *name, const char *what)
{
    if (!holds) {
        printf("header_packing.c: %s: %s\n", name, what);
        faults++;
    }
}

/* The length that is answered where nothing is written: asked with null, and with room that must stay as it was. */
static void asked(const char *name, size_t expected, const size_t *lengths, size_t count, size_t bundle_length)
{
    uint8_t bundle[34], old[34];
    memset(bundle, OLD, sizeof bundle);
    memset(old, OLD, sizeof old);
    expect(sejimakpu_pack_bundle(NULL, lengths, count, NULL, 0) == expected, name, "another length");
    expect(sejimakpu_pack_bundle(NULL, lengths, count, bundle, bundle_length) == expected, name, "another length with room");
    expect(memcmp(bundle, old, sizeof old) == 0, name, "bytes are written");
}

int main(void)
{
    static const uint8_t expected[35] = {3, 0, 0, 0, 28, 0, 0, 0, 2, 0, 0, 0, 30, 0, 0, 0, 0, 0, 0, 0,
                                         30, 0, 0, 0, 4, 0, 0, 0, 'd', 'a', 'w', 'x', 'y', 'z', OLD};
    static const uint8_t first[2] = {'d', 'a'}, third[4] = {'w', 'x', 'y', 'z'}, number[4] = {0xf1, 0xf2, 0xf3, 0xf4};
    const uint8_t *const captures[3] = {first, NULL, third};
    const size_t lengths[3] = {2, 0, 4}, zeros[65] = {0};
    uint8_t bundle[35];
    memset(bundle, OLD, sizeof bundle);
    expect(sejimakpu_pack_bundle(captures, lengths, 3, bundle, sizeof bundle) == 34, "packing", "another length");
    expect(memcmp(bundle, expected, sizeof expected) == 0, "packing", "other bytes");
    memset(bundle, OLD, sizeof bundle);
    expect(sejimakpu_pack_bundle(captures, lengths, 3, bundle, 34) == 34, "just enough room", "another length");
    expect(memcmp(bundle, expected, sizeof expected) == 0, "just enough room", "other bytes");
    sejimakpu_put_number(bundle, UINT32_C(0xf4f3f2f1));
    expect(memcmp(bundle, number, sizeof number) == 0, "a number of 32 bits", "other bytes");

    asked("a byte too few", 34, lengths, 3, 33);
    asked("no capture", 0, NULL, 0, 34);
    asked("the most captures, empty", 516, zeros, 64, 34);
    asked("a capture too many", 0, zeros, 65, 34);
    asked("far too many captures", 0, zeros, SIZE_MAX, 34);

    const size_t most = UINT32_MAX;
    const size_t largest[1] = {SIZE_MAX}, wraps[2] = {1, SIZE_MAX - 20}, last[2] = {most - 20, 0}, past[2] = {most - 19, 0};
    asked("a length that no size holds", 0, largest, 1, 34);
    asked("lengths that no size holds", 0, wraps, 2, 34);
    asked("the last offset", most, last, 2, 34);
    asked("an offset past 32 bits", 0, past, 2, 34);
#if SIZE_MAX > UINT32_MAX
    const size_t longest[1] = {most}, longer[1] = {most + 1}, both[2] = {most - 20, most};
    asked("the last length", most + 12, longest, 1, 34);
    asked("a length past 32 bits", 0, longer, 1, 34);
    asked("the last offset and length", most + most, both, 2, 34);
#endif
    return faults == 0 ? 0 : 1;
}
