// Numbers by chance.
#include "fuzz.h"

#include <float.h>
#include <math.h>

static uint64_t position;

// Steps of a fixed odd number, each mixed into 64 bits (splitmix64).
uint64_t any_word(void)
{
    uint64_t x = position += 0x9e3779b97f4a7c15u;
    x = (x ^ x >> 30) * 0xbf58476d1ce4e5b9u;
    x = (x ^ x >> 27) * 0x94d049bb133111ebu;
    return x ^ x >> 31;
}

void chance_begin(uint64_t seed, uint64_t number)
{
    position = seed;
    position = any_word() + number;
    position = any_word();
}

size_t below(size_t n)
{
    return n == 0 ? 0 : (size_t)(any_word() % n);
}

bool one_in(size_t n)
{
    return below(n) == 0;
}

double between(double low, double high)
{
    return low + (high - low) * (double)(any_word() >> 11) / 9007199254740992.0;
}

// ---- numbers that are odd in some way

static double bits_double(uint64_t bits)
{
    return kistovab_number(bits);
}

double odd_double(void)
{
    static const double odd[] = {0.0, -0.0, 1.0, -1.0, 0.5, 20.0, 89.99999999999999, 90.0, 1000.0,
                                 1e12, -1e12, 1000000000000.0001, -1000000000000.0001, 1e13, -1e13,
                                 1.1e13, 1e300, DBL_MAX, -DBL_MAX, DBL_MIN, 4.9e-324, -4.9e-324,
                                 65535.0, 1.8446744073709552e19, -9.223372036854775807e18};
    switch (below(6)) {
    case 0:
        return bits_double(any_word());
    case 1: // a NaN with any sign and payload, or an infinity
        return bits_double(0x7ff0000000000000u | (one_in(3) ? any_word() & 1u << 31 : any_word()));
    case 2:
        return one_in(2) ? (double)INFINITY : -(double)INFINITY;
    case 3:
        return between(-3000.0, 3000.0);
    default:
        return odd[below(sizeof odd / sizeof *odd)];
    }
}

float odd_float(void)
{
    static const float odd[] = {0.0f, -0.0f, 1.0f, -1.0f, FLT_MAX, -FLT_MAX, FLT_MIN, 1e-45f,
                                -1e-45f, 0.375f, 16777216.0f, INFINITY, -INFINITY, NAN};
    if (one_in(2)) {
        return odd[below(sizeof odd / sizeof *odd)];
    }
    uint32_t bits = (uint32_t)any_word();
    float number;
    memcpy(&number, &bits, sizeof number);
    return number;
}

uint64_t odd_word(void)
{
    switch (below(4)) {
    case 0:
        return below(13);
    case 1:
        return any_word();
    case 2:
        return odd_count();
    default: {
        double number = odd_double();
        uint64_t word;
        memcpy(&word, &number, sizeof word);
        return word;
    }
    }
}

size_t odd_count(void)
{
    static const size_t odd[] = {0, 1, 2, 3, 4, 63, 64, 65, 1023, 1024, 1025, 65534, 65535, 65536,
                                 65537, 131071, (size_t)1 << 32, SIZE_MAX / 64, SIZE_MAX / 2,
                                 SIZE_MAX - 1, SIZE_MAX};
    return one_in(4) ? below(70000) : odd[below(sizeof odd / sizeof *odd)];
}

// ---- lengths

size_t enough(size_t exact)
{
    switch (below(8)) {
    case 0:
        return exact + below(TAIL_MOST + 1);
    case 1:
        return exact + below(10);
    case 2:
    case 3:
        return exact + 1;
    default:
        return exact;
    }
}

size_t shorter(size_t exact)
{
    switch (below(4)) {
    case 0:
        return 0;
    case 1:
        return below(exact);
    default:
        return exact == 0 ? 0 : exact - 1;
    }
}
