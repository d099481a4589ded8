// Covering decided on exact powers, one multiplication and one comparison of big numbers for each question.
#ifndef COMPARE_POWERS_H
#define COMPARE_POWERS_H

#include <stdint.h>

// R <= scale·((over/under)^K - 1) when (R + scale)·under^K <= scale·over^K

enum { BIG_LIMBS = 26 };

typedef uint32_t big[BIG_LIMBS];

static void times(big product, const big number, uint32_t factor)
{
    uint64_t carry = 0;
    for (int i = 0; i < BIG_LIMBS; i++) {
        carry += (uint64_t)number[i] * factor;
        product[i] = (uint32_t)carry;
        carry >>= 32;
    }
}

static void plus(big sum, const big other)
{
    uint64_t carry = 0;
    for (int i = 0; i < BIG_LIMBS; i++) {
        carry += (uint64_t)sum[i] + other[i];
        sum[i] = (uint32_t)carry;
        carry >>= 32;
    }
}

static int at_most(const big left, const big right)
{
    for (int i = BIG_LIMBS - 1; i >= 0; i--)
        if (left[i] != right[i])
            return left[i] < right[i];
    return 1;
}

struct rule {
    big scale_over[128]; // scale·over^K
    big under[128]; // under^K
    big scale_under[128]; // scale·under^K
};

static void prepare_rule(struct rule *rule, uint32_t scale, uint32_t over, uint32_t under)
{
    rule->scale_over[0][0] = scale;
    rule->under[0][0] = 1;
    for (int k = 0; k < 128; k++) {
        if (k > 0) {
            times(rule->scale_over[k], rule->scale_over[k - 1], over);
            times(rule->under[k], rule->under[k - 1], under);
        }
        times(rule->scale_under[k], rule->under[k], scale);
    }
}

static int covers(const struct rule *rule, uint32_t code, uint32_t r)
{
    big left;
    times(left, rule->under[code], r);
    plus(left, rule->scale_under[code]);
    return at_most(left, rule->scale_over[code]);
}

#endif
