/* SPDX-License-Identifier: MIT OR Apache-2.0 */
/* Processor 0 begins here, and carries out the seeds that the settings ask for. */
#include "machine.h"
#include "probe.h"

static void clear(void *from, const void *to)
{
    volatile uint8_t *at;

    for (at = (volatile uint8_t *)from; at < (const volatile uint8_t *)to; at++)
        *at = 0;
}

static void look_at_machine(void)
{
    const struct cpuid basic = cpuid(1), more = cpuid(7), extended = cpuid(0x80000001u);

    machine.pcid = basic.ecx >> 17 & 1;
    machine.invpcid = more.ebx >> 10 & 1;
    machine.smep = more.ebx >> 7 & 1;
    machine.smap = more.ebx >> 20 & 1;
    machine.no_execute = extended.edx >> 20 & 1;
    machine.gigabyte_pages = extended.edx >> 26 & 1;
    machine.m = cpuid(0x80000008u).eax & 255;
    say("MAXPHYADDR", machine.m);
    say("PCID, INVPCID, SMEP, SMAP, NX, 1-GB pages, a bit each, from above",
        (uint64_t)(machine.pcid << 5 | machine.invpcid << 4 | machine.smep << 3 |
                   machine.smap << 2 | machine.no_execute << 1 | machine.gigabyte_pages));
    if (!machine.no_execute || machine.m < 36 || machine.m > 52)
        stop("stopped: a machine without NX, or with another MAXPHYADDR", machine.m);
}

/* Processor 0, on the boot tables. */
void first_starts(void)
{
    extern uint8_t bss_begin[], bss_end[];
    uint64_t seed;
    uint32_t number;

    clear(bss_begin, bss_end);
    for (number = 0; number < MOST_PROCESSORS; number++)
        clear(&processors[number].processor, &processors[number].processor + 1);
    lay_out_home();
    lay_out_gates();
    write_cr3(physical_of(home_root));
    load_descriptors(&processors[0].processor);
    if (!(settings.ways & DOORBELL))
        begin_output();
    look_at_machine();
    if (settings.processors < 1 || settings.processors > MOST_PROCESSORS)
        stop("stopped: processors", settings.processors);
    start_processors();
    lay_out_frames();
    clear_words();
    count_of_tables = POOL;
    for (seed = settings.seed; seed < settings.seed + settings.seeds; seed++) {
        if (acts_at_once()) {
            run_at_once(seed);
            continue;
        }
        if (settings.ways & REPLAY) {
            run_replay(seed);
        } else {
            begin_record(seed);
            if (settings.script != 0)
                run_script(settings.script);
            else
                run_random(seed);
        }
        pcid_record_end(&record);
        hand_over();
    }
    say("done: seeds", settings.seeds);
    shut_down();
}
