/*
 * Compares Mezgalt's check with the plain reader on many inputs from a fixed seed: random
 * octets, good messages, good messages with one octet changed, cut off, with gaps.
 *
 *   compare COUNT        prints the inputs and the answers by number, and the differences
 *   compare COUNT time   times both on good messages, in turn, and prints ns a message
 */
#include <inttypes.h>
#include <stdio.h>
#include <stdlib.h>
#include <string.h>
#include <time.h>

#include "mezgalt.h"
#include "plain_reader.h"

static uint64_t state = 0x9E3779B97F4A7C15u;

static uint32_t any(void)
{
    state ^= state << 13;
    state ^= state >> 7;
    state ^= state << 17;
    return (uint32_t)(state >> 32);
}

static uint32_t below(uint32_t n) { return any() % n; }

/* a good address of at most `most` octets, at least 2 */
static size_t some_address(uint8_t *a)
{
    size_t n = 1;
    uint32_t kind = below(4) == 0 ? below(16) : (below(2) ? 0 : 4);
    uint32_t bits = below(4) | (kind << 2) | (below(2) << 6) | (below(8) == 0 ? 0x80 : 0);
    size_t title, i;
    if (kind == 0 && (bits & 3) == 0)
        bits |= 2;
    a[0] = (uint8_t)bits;
    if (bits & 1) {
        a[n++] = (uint8_t)any();
        a[n++] = (uint8_t)any();
    }
    if (bits & 2)
        a[n++] = (uint8_t)any();
    title = kind == 0 ? 0 : 4 + below(8);
    for (i = 0; i < title; i++)
        a[n++] = (uint8_t)any();
    return n;
}

static size_t put_gap(uint8_t *x, size_t n, int gaps)
{
    size_t k = gaps ? below(4) : 0;
    while (k--)
        x[n++] = (uint8_t)any();
    return n;
}

/* a good message with its label, perhaps with gaps between its parts; 0 where it does not fit */
static size_t some_message(uint8_t *x, int gaps)
{
    static const uint8_t types[] = {0x09, 0x0A, 0x11, 0x12};
    uint8_t type = types[below(4)];
    int extended = type >= 0x11, segmented = 0;
    size_t at = 4 + (extended ? 3 : 2), n = 4 + (extended ? 7 : 5), i, k, part;
    uint8_t address[40];
    for (i = 0; i < 4; i++)
        x[i] = (uint8_t)any();
    x[4] = type;
    x[5] = (uint8_t)((type & 1) ? below(2) | (below(2) << 7) : any());
    if (extended) {
        x[6] = (uint8_t)(1 + below(15));
        x[10] = 0;
    }
    for (part = 0; part < 3; part++) {
        n = put_gap(x, n, gaps);
        x[at + part] = (uint8_t)(n - at - part);
        if (part < 2) {
            k = some_address(address);
            if (part == 1 && below(8) == 0) {
                address[0] = 0;
                k = 1;
                segmented = 1; /* an empty calling address: no segmentation below */
            }
        } else {
            k = 1 + below(100);
            for (i = 0; i < k && i < sizeof address; i++)
                address[i] = (uint8_t)any();
        }
        x[n++] = (uint8_t)k;
        for (i = 0; i < k; i++)
            x[n++] = part < 2 ? address[i] : (uint8_t)any();
    }
    if (extended && below(2)) {
        n = put_gap(x, n, gaps);
        if (n - at - 3 > 255)
            return 0;
        x[at + 3] = (uint8_t)(n - at - 3);
        if (!segmented && below(2)) {
            x[n++] = 0x10;
            x[n++] = 4;
            for (i = 0; i < 4; i++)
                x[n++] = (uint8_t)any();
        }
        if (below(2)) {
            x[n++] = 0x12;
            x[n++] = 1;
            x[n++] = (uint8_t)any();
        }
        x[n++] = 0;
    }
    if (gaps)
        n = put_gap(x, n, 1);
    return n <= 272 ? n : 0;
}

enum { RANDOM, GOOD, CHANGED, CUT, GAPS, KINDS };
static const char *const kind_names[KINDS] = {"random", "good", "changed", "cut", "gaps"};

static size_t some_input(uint8_t *x, int kind)
{
    size_t n, i;
    if (kind == RANDOM) {
        n = below(290);
        for (i = 0; i < n; i++)
            x[i] = (uint8_t)(below(3) ? any() : below(8));
        if (n > 4 && below(4)) {
            static const uint8_t types[] = {0x09, 0x0A, 0x11, 0x12};
            x[4] = types[below(4)];
        }
        return n;
    }
    do
        n = some_message(x, kind == GAPS);
    while (n == 0);
    if (kind == CHANGED)
        x[below((uint32_t)n)] = (uint8_t)any();
    if (kind == CUT)
        n = below((uint32_t)n);
    return n;
}

static double now_ns(void)
{
    struct timespec t;
    timespec_get(&t, TIME_UTC);
    return (double)t.tv_sec * 1e9 + (double)t.tv_nsec;
}

static int timed(size_t count)
{
    enum { KEPT = 4096, ROUNDS = 15 };
    static uint8_t kept[KEPT][512];
    static size_t sizes[KEPT];
    double best[2] = {1e30, 1e30};
    uint32_t sum = 0, offset;
    size_t octets = 0, turns = count / KEPT + 1, i, t;
    int round, which;
    for (i = 0; i < KEPT; i++) {
        sizes[i] = some_input(kept[i], GOOD);
        octets += sizes[i];
    }
    for (round = 0; round < ROUNDS; round++)
        for (which = 0; which < 2; which++) {
            double began = now_ns(), took;
            for (t = 0; t < turns; t++)
                for (i = 0; i < KEPT; i++)
                    sum += which ? plain_check(kept[i], sizes[i], &offset) : mezgalt_check(kept[i], sizes[i], &offset);
            took = (now_ns() - began) / (double)(turns * KEPT);
            if (took < best[which])
                best[which] = took;
        }
    printf("good messages of %.1f octets: mezgalt %.1f ns, plain C %.1f ns a message, ratio %.2f (%" PRIu32 ")\n",
           (double)octets / KEPT, best[0], best[1], best[0] / best[1], sum);
    return 0;
}

int main(int argc, char **argv)
{
    static uint8_t x[512];
    size_t count = argc > 1 ? (size_t)strtoull(argv[1], NULL, 10) : 1000000, i;
    uint64_t inputs[KINDS] = {0}, answers[KINDS][19] = {{0}}, differences = 0;
    uint32_t number;
    int kind;
    if (argc > 2 && strcmp(argv[2], "time") == 0)
        return timed(count);
    for (i = 0; i < count; i++) {
        uint32_t here = 99, there = 98, a, b;
        size_t n;
        kind = (int)(i % KINDS);
        n = some_input(x, kind);
        a = mezgalt_check(x, n, &here);
        b = plain_check(x, n, &there);
        inputs[kind]++;
        if (a != b || here != there) {
            differences++;
            printf("difference at input %zu: mezgalt %" PRIu32 " at %" PRIu32 ", plain %" PRIu32 " at %" PRIu32 "\n", i, a, here, b, there);
        }
        if (b < 19)
            answers[kind][b]++;
    }
    for (kind = 0; kind < KINDS; kind++) {
        printf("%-8s %8" PRIu64 " inputs:", kind_names[kind], inputs[kind]);
        for (number = 0; number < 19; number++)
            if (answers[kind][number] != 0)
                printf(" %" PRIu32 "=%" PRIu64, number, answers[kind][number]);
        printf("\n");
    }
    printf("compared %zu inputs, %" PRIu64 " differences\n", count, differences);
    return differences != 0;
}
