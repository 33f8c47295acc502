/* A host program: checks some line messages and tells how a unit would be cut. */
#include <inttypes.h>
#include <stdio.h>

#include "mezgalt.h"

static void check(const char *what, const uint8_t *octets, size_t length)
{
    uint32_t offset = 0;
    uint32_t number = mezgalt_check(octets, length, &offset);
    if (number == 0)
        printf("%s: a message\n", what);
    else
        printf("%s: fault %" PRIu32 " at %" PRIu32 "\n", what, number, offset);
}

static void cut(uint32_t called, uint32_t calling, uint32_t length)
{
    uint32_t count = mezgalt_piece_count(called, calling, length);
    printf("%" PRIu32 " octets between addresses of %" PRIu32 " and %" PRIu32 ": %" PRIu32, length, called, calling, count);
    for (uint32_t i = 0; i < count; i++)
        printf("%s%" PRIu32, i == 0 ? ", " : "+", mezgalt_piece_length(called, calling, length, i));
    printf("\n");
}

int main(void)
{
    static const uint8_t good[] = {0x05, 0x40, 0x02, 0x30, 0x09, 0x00, 0x03, 0x05, 0x07, 0x02,
                                   0x42, 0x08, 0x02, 0x42, 0x06, 0x03, 0xA1, 0xA2, 0xA3};
    uint8_t bad[sizeof good];

    check("a UDT to 8 from 6", good, sizeof good);
    check("the same, cut off", good, sizeof good - 1);
    check("its label alone", good, 4);
    check("nothing", good, 0);
    for (size_t i = 0; i < sizeof good; i++)
        bad[i] = good[i];
    bad[5] = 2;
    check("the same of class 2", bad, sizeof bad);
    bad[5] = 0;
    bad[8] = 0x3f;
    check("the same with its data past the end", bad, sizeof bad);
    cut(2, 2, 254);
    cut(2, 2, 255);
    cut(2, 2, 3952);
    cut(4, 7, 600);
    cut(32, 32, 3952);
    cut(1, 2, 10);
    return 0;
}
