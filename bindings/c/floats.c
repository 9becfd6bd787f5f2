/* Floating-point numbers by chance, and their texts in records. */
#include "columns.h"

#include <stdio.h>
#include <string.h>

/* A number by its bits, and its text. */
typedef struct {
    uint64_t bits;
    const char *text;
} Known;

enum { KNOWN_COUNT = 16, NAN_INDEX = 4 };

/* Of 4 and of 8 bytes: zeros, infinities and NaNs, the ends, whole numbers, and some with the fewest digits that tell
   them from the next one. */
static const Known KNOWN[][KNOWN_COUNT] = {
    {
        {0x00000000, "0.0"},
        {0x80000000, "-0.0"},
        {0x7f800000, "\"inf\""},
        {0xff800000, "\"-inf\""},
        {0x7fc00000, "\"nan\""},
        {0xff800001, "\"nan\""},
        {0x7fa00000, "\"nan\""},
        {0x7f7fffff, "\"0x7f7fffff\""},
        {0x00000001, "\"0x00000001\""},
        {0x7149f2ca, "1000000015047466219876688855040.0"},
        {0x4b800000, "16777216.0"},
        {0xcb7fffff, "-16777215.0"},
        {0x3dcccccd, "0.1"},
        {0x411fd70a, "9.99"},
        {0x411fd70b, "9.990001"},
        {0x33d6bf95, "0.0000001"},
    },
    {
        {0x0000000000000000, "0.0"},
        {0x8000000000000000, "-0.0"},
        {0x7ff0000000000000, "\"inf\""},
        {0xfff0000000000000, "\"-inf\""},
        {0x7ff8000000000000, "\"nan\""},
        {0xfff0000000000001, "\"nan\""},
        {0x7ff4000000000000, "\"nan\""},
        {0x7fefffffffffffff, "\"0x7fefffffffffffff\""},
        {0x0000000000000001, "\"0x0000000000000001\""},
        {0x444b1ae4d6e2ef50, "1000000000000000000000.0"},
        {0x4340000000000000, "9007199254740992.0"},
        {0xc33fffffffffffff, "-9007199254740991.0"},
        {0x3fb999999999999a, "0.1"},
        {0x4023fae147ae147b, "9.99"},
        {0x3fd3333333333334, "0.30000000000000004"},
        {0x4310000000000001, "1125899906842624.3"},
    },
};

static const Known *known_of(size_t size)
{
    return KNOWN[size == 8];
}

void put_float(char *at, size_t size)
{
    double eighths = ((double)by_chance(20000) - 10000) / 8;
    float narrow = (float)eighths;
    uint64_t bits = known_of(size)[by_chance(KNOWN_COUNT)].bits;
    if (by_chance(2))
        memcpy(at, size == 8 ? (void *)&eighths : (void *)&narrow, size);
    else
        for (size_t i = 0; i < size; i++)
            at[i] = (char)(bits >> 8 * i);
}

/* The number, of 4 or of 8 bytes. */
static double number_at(const char *at, size_t size)
{
    double number;
    float narrow;
    memcpy(size == 8 ? (void *)&number : (void *)&narrow, at, size);
    return size == 8 ? number : (double)narrow;
}

const char *text_of_float(const char *at, size_t size, char room[FLOAT_ROOM])
{
    const Known *known = known_of(size);
    double number = number_at(at, size);
    uint64_t bits = 0;
    for (size_t i = 0; i < size; i++)
        bits |= (uint64_t)(unsigned char)at[i] << 8 * i;
    if (number != number)
        return known[NAN_INDEX].text;
    for (size_t i = 0; i < KNOWN_COUNT; i++)
        if (known[i].bits == bits)
            return known[i].text;
    size_t length = (size_t)snprintf(room, FLOAT_ROOM, "%.3f", number);
    while (room[length - 1] == '0' && room[length - 2] != '.')
        room[--length] = 0;
    return room;
}
