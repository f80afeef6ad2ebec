/* SPDX-License-Identifier: MIT OR Apache-2.0 */
/*
 * record: writes a record of a million events to standard output. Most are reads of users with four
 * moments, in an order that a branch predictor can't learn. No machine answers so: it is to be read, and
 * not to be judged.
 */
#include "../record.h"

enum { EVENTS = 1000000, SEGMENT = 65536, PROCESSORS = 4 };

static uint8_t buffer[PCID_RECORD_BYTES(1, SEGMENT)];

static uint64_t low_bits(uint64_t bits, unsigned count)
{
    return bits & ((UINT64_C(1) << count) - 1);
}

/* Five bits pick the kind of the event, and the others its addresses. */
static void add(uint32_t number)
{
    const uint64_t bits = number * UINT64_C(0x9e3779b97f4a7c15);
    const uint32_t p = (uint32_t)(bits % PROCESSORS);
    const uint32_t moments[4] = {number, number, number, number};

    switch (bits >> 59) {
    case 0:
        taken(pcid_record_mov_cr3(&record, p, low_bits(bits, 40)));
        break;
    case 1:
        taken(pcid_record_invlpg(&record, p, low_bits(bits, 47)));
        break;
    case 2:
    case 3:
    case 4:
    case 5:
        taken(pcid_record_write(&record, p, low_bits(bits, 30) << 3, (low_bits(bits, 28) << 12) + 7));
        break;
    default:
        taken(pcid_record_answer(&record, p, PCID_RECORD_USER, low_bits(bits, 47), low_bits(bits, 40), moments, 4));
    }
}

int main(void)
{
    static const struct pcid_record_start start[PROCESSORS] = {{0x1000, 1}, {0x1000, 1}, {0x1000, 1}, {0x1000, 1}};
    const struct pcid_record_header header = {
        1, 40, PCID_RECORD_WP | PCID_RECORD_NXE, PROCESSORS, SEGMENT, start};
    uint32_t number;

    taken(pcid_record_begin(&record, &header, buffer, sizeof buffer, put, stdout));
    for (number = 0; number < EVENTS; number++)
        add(number);
    return finish();
}
