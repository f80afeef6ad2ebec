/* SPDX-License-Identifier: MIT OR Apache-2.0 */
/*
 * Compiled before a source that uses the emitter, it has each access and each assist recorded without
 * the moments that it names.
 */
#include "../../emit/pcid_record.h"

#define pcid_record_answer(record, processor, flags, linear, physical, moments, count) \
    pcid_record_answer_unnamed(record, processor, flags, linear, physical)
#define pcid_record_fault(record, processor, flags, linear, code, moments, count) \
    pcid_record_fault_unnamed(record, processor, flags, linear, code)
#define pcid_record_assist(record, processor, flags, linear, entry, moments, count) \
    pcid_record_assist_unnamed(record, processor, flags, linear, entry)
