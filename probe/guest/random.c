/* SPDX-License-Identifier: MIT OR Apache-2.0 */
/* A sequence of numbers for each processor, by a seed. */
#include "probe.h"

static uint64_t states[MOST_PROCESSORS];

uint64_t random_bits(void)
{
    uint64_t state = states[own_number()];

    state ^= state >> 12;
    state ^= state << 25;
    state ^= state >> 27;
    states[own_number()] = state;
    return (state * 0x2545F4914F6CDD1Du) >> 11;
}

void seed_random(uint64_t seed)
{
    unsigned k;

    states[own_number()] = seed * 0x9E3779B97F4A7C15u + 0x1234567;
    for (k = 0; k < 16; k++)
        random_bits();
}

/* For another processor, which has not begun to take numbers. Processor 0 goes on with its own. */
void seed_random_of(uint32_t number, uint64_t seed)
{
    const uint64_t own = states[own_number()];

    if (number == own_number())
        return;
    seed_random(seed + ((uint64_t)number << 32));
    states[number] = states[own_number()];
    states[own_number()] = own;
}

uint64_t below(uint64_t count)
{
    return random_bits() % count;
}

int percent(uint64_t chance)
{
    return below(100) < chance;
}
