/* SPDX-License-Identifier: MIT OR Apache-2.0 */
/* Events: each is carried out by the acting processor, and then recorded. */
#include "probe.h"

struct pcid_record record;
struct machine machine;
struct rules rules;
uint32_t acting;
int is_self_mapped;

/* The pool's words that were ever written in this record. */
static struct {
    uint16_t word[MOST_TABLES * 512];
    uint8_t is_listed[MOST_TABLES * 512];
    uint32_t count;
} written FAR;

void clear_words(void)
{
    uint32_t k;

    written.count = 0;
    for (k = 0; k < MOST_TABLES * 512; k++)
        written.is_listed[k] = 0;
}

void begin_words(void)
{
    while (written.count > 0)
        written.is_listed[written.word[--written.count]] = 0;
}

static void list_word(uint32_t frame, uint64_t index)
{
    const uint16_t word = (uint16_t)(frame * 512 + index);

    if (!written.is_listed[word])
        written.word[written.count++] = word;
    written.is_listed[word] = 1;
}

/* The next written word, from number *at on, that memory has otherwise than the record. */
int next_changed(uint32_t *at, uint32_t *frame, uint64_t *index)
{
    for (; *at < written.count; ++*at) {
        *frame = written.word[*at] / 512;
        *index = written.word[*at] % 512;
        if (*word_at(POOL_FRAME(*frame) + 8 * *index) != held[*frame][*index])
            return 1;
    }
    return 0;
}

int allows(uint64_t kind)
{
    return (settings.left_out & kind) == 0;
}

void taken(enum pcid_record_status status)
{
    if (status != PCID_RECORD_TAKEN)
        stop("stopped: the emitter answers", (uint64_t)status);
}

void write_word(uint32_t frame, uint64_t index, uint64_t value)
{
    const uint64_t address = POOL_FRAME(frame) + 8 * index;

    carry_out_by(acting, STORE, address, value, 0, 0, 0, 0);
    held[frame][index] = value;
    list_word(frame, index);
    taken(pcid_record_write(&record, acting, address, value));
}

void load_cr3(uint64_t operand)
{
    struct processor *const processor = &processors[acting].processor;

    processor->cr3 = operand & ~(1ull << 63);
    carry_out_by(acting, MOV_CR3, operand, 0, 0, 0, 0, 0);
    taken(pcid_record_mov_cr3(&record, acting, operand));
    if (processor->rax != processor->cr3)
        stop("stopped: CR3 reads as", processor->rax);
}

void invalidate_page(uint64_t linear)
{
    carry_out_by(acting, INVLPG, linear, 0, 0, 0, 0, 0);
    taken(pcid_record_invlpg(&record, acting, linear));
}

void invalidate_pcid(uint64_t type, uint64_t pcid, uint64_t linear)
{
    carry_out_by(acting, INVPCID, type, pcid, linear, 0, 0, 0);
    taken(pcid_record_invpcid(&record, acting, type, pcid, linear));
}

void set_pge(uint64_t pge)
{
    processors[acting].processor.pge = pge;
    carry_out_by(acting, SET_PGE, pge, 0, 0, 0, 0, 0);
    taken(pcid_record_mov_cr4(&record, acting, (uint32_t)pge));
}
