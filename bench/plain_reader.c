/* An independent reader of line messages, written from FORMATS.md and REFUSALS.md alone. */
#include "plain_reader.h"

#include <stdbool.h>

enum {
    LABEL = 4,
    LINE_LEAST = 5,
    LINE_MOST = 272,
    TITLE_MOST = 28,
    SEGMENTATION = 0x10,
    SEGMENTATION_LENGTH = 4
};

static uint32_t fault(uint32_t number, size_t at, uint32_t *offset)
{
    *offset = (uint32_t)at;
    return number;
}

/* A lone octet with bits 1 to 7 zero. `part` is at the length octet, and is whole. */
static bool is_empty_address(const uint8_t *part)
{
    return part[0] == 1 && (part[1] & 0x7F) == 0;
}

/* Whether the part holds exactly what its indicator tells. `part` is as above. */
static bool is_address(const uint8_t *part)
{
    size_t length = part[0];
    if (length < 2)
        return false;

    uint8_t indicator = part[1];
    size_t before_title = 1;
    if (indicator & 0x01)
        before_title += 2; /* point code */
    if (indicator & 0x02)
        before_title += 1; /* subsystem number */
    if (length < before_title)
        return false;

    /* The rest is the title. With at most 28 octets of it an address has at most 32. */
    size_t title = length - before_title;
    if (title > TITLE_MOST)
        return false;
    switch ((indicator >> 2) & 0x0F) {
    case 0:
        return title == 0;
    case 2:
        return title >= 2;
    case 4:
        return title >= 4;
    default:
        return title >= 1;
    }
}

/*
 * Walks the options from offset `at` to their end mark. True if all are right, and then
 * `segmented` tells whether one is segmentation; else `wrong` is the offset of the fault.
 */
static bool read_options(const uint8_t *message, size_t n, size_t at, bool *segmented,
                         size_t *wrong)
{
    bool seen = false;
    *segmented = false;
    while (at < n) {
        if (message[at] == 0x00) { /* end mark; what follows is a tail */
            *segmented = seen;
            return true;
        }
        *wrong = at;
        if (n - at < 2) /* no length octet */
            return false;
        size_t length = message[at + 1];
        if (n - at - 2 < length) /* contents cut off */
            return false;
        if (message[at] == SEGMENTATION) {
            if (length != SEGMENTATION_LENGTH || seen)
                return false;
            seen = true;
        }
        at += 2 + length;
    }
    *wrong = n; /* no end mark */
    return false;
}

uint32_t plain_check(const uint8_t *octets, size_t length, uint32_t *offset)
{
    /* 11: the length of the line message. */
    if (length < LINE_LEAST || length > LINE_MOST)
        return fault(11, 0, offset);

    /* Every label is right; from here on offsets and lengths count from the type octet. */
    const uint8_t *message = octets + LABEL;
    size_t n = length - LABEL;

    /* 12: the type. UDT and XUDT have a class, XUDT and XUDTS a hop counter and options. */
    uint8_t type = message[0];
    if (type != 0x09 && type != 0x0A && type != 0x11 && type != 0x12)
        return fault(12, 0, offset);
    bool has_class = type == 0x09 || type == 0x11;
    bool extended = type == 0x11 || type == 0x12;

    /* 13: the fixed part and the pointers are there. */
    size_t first_pointer = extended ? 3 : 2;
    size_t pointers_end = extended ? 7 : 5;
    if (n < pointers_end)
        return fault(13, 0, offset);

    /* 14: protocol class, then hop counter. */
    if (has_class && (message[1] & 0x0F) > 1)
        return fault(14, 1, offset);
    if (extended && (message[2] < 1 || message[2] > 15))
        return fault(14, 2, offset);

    /* 15: each pointer names a place inside the message, not before the end so far. */
    size_t parts[4] = {0}; /* called, calling, data, options */
    size_t end = pointers_end;
    for (size_t i = first_pointer; i < pointers_end; i++) {
        size_t which = i - first_pointer;
        if (which == 3 && message[i] == 0)
            break; /* no options */
        size_t place = i + message[i];
        if (place < end || place >= n)
            return fault(15, i, offset);
        parts[which] = place;
        end = place + 1 + message[place]; /* of no meaning behind options, nor used */
    }
    size_t called = parts[0], calling = parts[1], data = parts[2], options = parts[3];

    /* The options are walked now, as an empty calling address hangs on segmentation. */
    bool segmented = false, options_right = true;
    size_t wrong = 0;
    if (options != 0)
        options_right = read_options(message, n, options, &segmented, &wrong);

    /* 16: the addresses. Both are whole, since a right pointer stands behind each. */
    if (!is_address(message + called))
        return fault(16, called, offset);
    if (is_empty_address(message + calling) ? segmented : !is_address(message + calling))
        return fault(16, calling, offset);

    /* 17: the data is neither empty nor cut off. */
    if (message[data] == 0 || message[data] > n - data - 1)
        return fault(17, data, offset);

    /* 18: the options. */
    if (!options_right)
        return fault(18, wrong, offset);
    return fault(0, 0, offset);
}
