/* SPDX-License-Identifier: MIT OR Apache-2.0 */
/* Names every call of emit/pcid_record.h and emit/pcid_log.h, so that each is compiled: as C99 and as C++, and for a
 * kernel, where nothing may be left for a library. */
#include "../../emit/pcid_log.h"

void every_call(struct pcid_record *record, const struct pcid_record_header *header,
                uint8_t *buffer, pcid_record_put put, void *context, const uint32_t *moments);
void every_call_of_logs(struct pcid_log *log, const struct pcid_log_header *header,
                        pcid_record_put put, void *context);

void every_call_of_logs(struct pcid_log *log, const struct pcid_log_header *header,
                        pcid_record_put put, void *context)
{
    if (pcid_log_begin(log, header, put, context))
        return;
    pcid_log_span(log, 1, 2);
    pcid_record_invlpg(&log->record, 0, 0);
    pcid_record_end(&log->record);
}

void every_call(struct pcid_record *record, const struct pcid_record_header *header,
                uint8_t *buffer, pcid_record_put put, void *context, const uint32_t *moments)
{
    static uint8_t constant[PCID_RECORD_BYTES(1, 4)];
    static uint8_t spanned[PCID_RECORD_BYTES(4, 4)];

    if (pcid_record_begin(record, header, buffer, sizeof constant, put, context))
        return;
    if (pcid_record_begin(record, header, spanned, sizeof spanned, put, context))
        return;
    pcid_record_began(record, 0);
    pcid_record_write(record, 0, 0x1000, pcid_record_moment(record));
    pcid_record_answer(record, 0, PCID_RECORD_WRITE | PCID_RECORD_AC, 0, 0, moments, 4);
    pcid_record_fault(record, 0, PCID_RECORD_READ | PCID_RECORD_USER, 0, 4, moments, 4);
    pcid_record_mov_cr3(record, 0, 0x1001);
    pcid_record_invlpg(record, 0, 0);
    pcid_record_invpcid(record, 0, 2, 0, 0);
    pcid_record_mov_cr4(record, 0, 1);
    pcid_record_assist(record, 0, PCID_RECORD_WRITE | PCID_RECORD_DIRTY, 0, 0x1000, moments, 1);
    pcid_record_answer_unnamed(record, 0, PCID_RECORD_READ, 0, 0);
    pcid_record_fault_unnamed(record, 0, PCID_RECORD_FETCH, 0, 4);
    pcid_record_assist_unnamed(record, 0, PCID_RECORD_READ, 0, 0x1000);
    pcid_record_end(record);
}
