/* SPDX-License-Identifier: MIT OR Apache-2.0 */
/* Names every call of emit/pcid_tables.h and emit/pcid_seen.h, so that each is compiled: as C99 and
 * as C++, and for a kernel, where nothing may be left for a library. */
#include "../../emit/pcid_seen.h"
#include "../../emit/pcid_tables.h"

unsigned every_call_of_tables(struct pcid_tables *tables, struct pcid_record *record,
                              const struct pcid_tables_source *source,
                              struct pcid_tables_frame *frames, uint64_t *roots);
int every_call_of_seen(struct pcid_seen *seen, struct pcid_seen_slot *slots);

unsigned every_call_of_tables(struct pcid_tables *tables, struct pcid_record *record,
                              const struct pcid_tables_source *source,
                              struct pcid_tables_frame *frames, uint64_t *roots)
{
    pcid_tables_begin(tables, record, source, frames, 32, roots);
    pcid_tables_root(tables, 0, 0x1000);
    return pcid_tables_store(tables, 0, 0x1000, 8) + pcid_tables_settle(tables, 0) +
           pcid_tables_read(tables, 0, 4, 0x1000, 0x2007) +
           pcid_tables_assist(tables, 0, PCID_RECORD_READ, 0, 0x1000);
}

int every_call_of_seen(struct pcid_seen *seen, struct pcid_seen_slot *slots)
{
    pcid_seen_begin(seen, slots, 16, PCID_SEEN_1GB, 0x1001);
    pcid_seen_fault(seen, 0x5000);
    pcid_seen_mov_cr3(seen, 0x1002);
    pcid_seen_invlpg(seen, 0x5000);
    pcid_seen_invpcid(seen, 1, 1, 0);
    pcid_seen_mov_cr4(seen);
    return pcid_seen_answer(seen, PCID_RECORD_READ, 0x5123, 0x9123);
}
