/* SPDX-License-Identifier: MIT OR Apache-2.0 */
/*
 * Runs the probe's guest on /dev/kvm.
 *
 *     loader GUEST SECONDS RUN..
 *
 * GUEST is the guest's ELF file. Each RUN is ten numbers, by colons, in the order of struct
 * settings (guest/probe.h): seed, seeds, events, processors, version, kinds left out, ways, script,
 * burst, focus.
 * Of the ways, 8 gives all processors their turns by one thread; without it each has a thread of
 * its own. Records go to standard output, all else to standard error.
 *
 * As the first process of an initramfs it mounts what it needs, loads the modules that /modules
 * names, writes records to port 0xE9, and powers the machine off at the end.
 *
 * Exit status: 0 where each run ended, 1 where one failed, 2 where one hung.
 */
#define _GNU_SOURCE
#include <elf.h>
#include <errno.h>
#include <fcntl.h>
#include <linux/kvm.h>
#include <pthread.h>
#include <signal.h>
#include <stdarg.h>
#include <stdint.h>
#include <stdio.h>
#include <stdlib.h>
#include <string.h>
#include <sys/io.h>
#include <sys/ioctl.h>
#include <sys/mman.h>
#include <sys/mount.h>
#include <sys/reboot.h>
#include <sys/stat.h>
#include <sys/syscall.h>
#include <time.h>
#include <unistd.h>

enum {
    DOORBELL_PORT = 0xEA,
    START_PORT = 0xEB,
    TURN_PORT = 0xED,
    BACK_PORT = 0xEE,
    EXIT_PORT = 0xF4,
    TEXT_PORT = 0x3F8,
    RECORD_PORT = 0xE9
};
enum { MOST_PROCESSORS = 8, SETTINGS = 10, WAYS = 6, PROCESSORS = 3 };
enum { DOORBELL = 1, LOADER_STARTS = 4, LOADER_TURNS = 8, AT_ONCE = 32 };
/* Where the guest has the logs of processors that act at once (guest/logs.c). */
enum { LOGS_ADDRESS = 0x1000000, LOG_SIZE = 0x200000, LOG_BYTES = 64 };
enum end { GOES_ON, GIVES_BACK, ENDED, FAILED, HUNG };

#define MEMORY_SIZE (1152ull << 20)
#define ROOT 0x2000ull
#define SETTINGS_ADDRESS 0x10010ull

static struct {
    uint64_t magic, value[SETTINGS], log_address, log_length;
} *settings;

static struct virtual_processor {
    int file;
    struct kvm_run *run;
    pthread_t thread;
    int has_thread;
} processors[MOST_PROCESSORS];

static int kvm, machine, is_first_process;
static size_t run_size;
static uint8_t *memory;
static uint64_t entry;
static volatile sig_atomic_t is_late;
static volatile int is_over; /* a processor ended the run */
static struct {
    struct kvm_cpuid2 head;
    struct kvm_cpuid_entry2 entries[256];
} cpuid;

static void say(const char *form, ...)
{
    va_list words;

    va_start(words, form);
    vfprintf(stderr, form, words);
    va_end(words);
}

static int fails(const char *what)
{
    say("loader: %s: %s\n", what, strerror(errno));
    return 0;
}

static void write_record(const uint8_t *bytes, size_t count)
{
    ssize_t written;

    if (is_first_process) {
        __asm__ volatile("rep outsb"
                         : "+S"(bytes), "+c"(count)
                         : "d"((uint16_t)RECORD_PORT)
                         : "memory");
        return;
    }
    for (; count > 0; count -= (size_t)written, bytes += written)
        if ((written = write(1, bytes, count)) <= 0)
            exit(1);
}

/* What the guest has put into its log. */
static void take_log(void)
{
    const uint64_t address = settings->log_address, length = settings->log_length;

    if (address < MEMORY_SIZE && length <= MEMORY_SIZE - address)
        write_record(memory + address, length);
    settings->log_length = 0;
}

/* The logs that the guest did not come to hand over: as far as they came. */
static void take_logs_at_once(void)
{
    uint64_t number, length;

    for (number = 0; number < MOST_PROCESSORS && number < settings->value[PROCESSORS]; number++) {
        const uint8_t *const log = memory + LOGS_ADDRESS + LOG_SIZE * number;

        memcpy(&length, log, sizeof length);
        if (length <= LOG_SIZE - LOG_BYTES)
            write_record(log + LOG_BYTES, length);
    }
}

/* Long mode on the boot tables, at the guest's entry, with the number in RDI. */
static int set_registers(struct virtual_processor *processor, unsigned number)
{
    const struct kvm_segment code = {.limit = 0xFFFFFFFF, .selector = 8, .type = 11, .present = 1,
                                     .s = 1, .l = 1, .g = 1};
    const struct kvm_segment data = {.limit = 0xFFFFFFFF, .selector = 16, .type = 3, .present = 1,
                                     .s = 1, .db = 1, .g = 1};
    const struct kvm_segment task = {.limit = 103, .type = 11, .present = 1};
    const struct kvm_segment none = {.unusable = 1};
    const struct kvm_regs registers = {.rip = entry, .rflags = 2, .rdi = number};
    struct kvm_sregs special;

    if (ioctl(processor->file, KVM_GET_SREGS, &special) != 0)
        return fails("KVM_GET_SREGS");
    special.cs = code;
    special.ds = special.es = special.fs = special.gs = special.ss = data;
    special.tr = task;
    special.ldt = none;
    special.cr0 = 0x80000031;
    special.cr3 = ROOT;
    special.cr4 = 0x20;
    special.efer = 0x500;
    if (ioctl(processor->file, KVM_SET_SREGS, &special) != 0)
        return fails("KVM_SET_SREGS");
    if (ioctl(processor->file, KVM_SET_REGS, &registers) != 0)
        return fails("KVM_SET_REGS");
    return 1;
}

static int make_processor(unsigned number)
{
    struct virtual_processor *const processor = &processors[number];

    processor->file = ioctl(machine, KVM_CREATE_VCPU, number);
    if (processor->file < 0)
        return fails("KVM_CREATE_VCPU");
    processor->run = mmap(NULL, run_size, PROT_READ | PROT_WRITE, MAP_SHARED, processor->file, 0);
    if (processor->run == MAP_FAILED)
        return fails("the processor's page");
    if (ioctl(processor->file, KVM_SET_CPUID2, &cpuid) != 0)
        return fails("KVM_SET_CPUID2");
    return set_registers(processor, number);
}

static void tell_state(unsigned number, const char *what)
{
    struct virtual_processor *const processor = &processors[number];
    const struct kvm_run *const run = processor->run;
    struct kvm_regs registers;
    struct kvm_sregs special;

    ioctl(processor->file, KVM_GET_REGS, &registers);
    ioctl(processor->file, KVM_GET_SREGS, &special);
    say("loader: processor %u %s: exit %u, RIP %llx, RSP %llx, CR2 %llx, CR3 %llx, CR4 %llx\n",
        number, what, run->exit_reason, registers.rip, registers.rsp, special.cr2, special.cr3,
        special.cr4);
    if (run->exit_reason == KVM_EXIT_INTERNAL_ERROR)
        say("loader: internal error %u\n", run->internal.suberror);
}

static void *run_in_thread(void *number);
static enum end run_processor(unsigned number);

static enum end start_processor(unsigned number)
{
    struct virtual_processor *const processor = &processors[number];

    if (number >= MOST_PROCESSORS || !make_processor(number))
        return FAILED;
    if (settings->value[WAYS] & LOADER_TURNS)
        return GOES_ON;
    processor->has_thread =
        pthread_create(&processor->thread, NULL, run_in_thread, (void *)(uintptr_t)number) == 0;
    return processor->has_thread ? GOES_ON : FAILED;
}

static enum end answer_port(unsigned number)
{
    const struct kvm_run *const run = processors[number].run;
    const uint8_t value = ((const uint8_t *)run)[run->io.data_offset];
    enum end end;

    switch (run->io.port) {
    case DOORBELL_PORT:
        take_log();
        return GOES_ON;
    case START_PORT:
        return start_processor(value);
    case TURN_PORT:
        end = run_processor(value);
        return end == GIVES_BACK ? GOES_ON : end;
    case BACK_PORT:
        return GIVES_BACK;
    case EXIT_PORT:
        return ENDED;
    case TEXT_PORT:
        fputc(value, stderr);
        return GOES_ON;
    default:
        return GOES_ON;
    }
}

/* Runs a processor until the run ends in some way, or it gives its turn back. */
static enum end run_processor(unsigned number)
{
    const struct virtual_processor *const processor = &processors[number];
    enum end end = GOES_ON;

    while (end == GOES_ON) {
        if (is_over)
            return ENDED;
        if (is_late) {
            tell_state(number, "did not come to an end");
            return HUNG;
        }
        if (ioctl(processor->file, KVM_RUN, 0) < 0) {
            if (errno == EINTR || errno == EAGAIN)
                continue;
            fails("KVM_RUN");
            tell_state(number, "failed");
            return FAILED;
        }
        if (processor->run->exit_reason == KVM_EXIT_IO &&
            processor->run->io.direction == KVM_EXIT_IO_OUT) {
            end = answer_port(number);
        } else {
            tell_state(number, "stopped");
            return FAILED;
        }
    }
    return end;
}

static void *run_in_thread(void *number)
{
    if (run_processor((unsigned)(uintptr_t)number) == FAILED)
        is_late = 1; /* processor 0 waits for this one: it is told to give up */
    return NULL;
}

static void come_late(int signal)
{
    if (signal == SIGALRM)
        is_late = 1;
}

static int load_guest(const char *path)
{
    const int file = open(path, O_RDONLY);
    Elf64_Ehdr head;
    Elf64_Phdr part;
    unsigned k;

    if (file < 0)
        return fails(path);
    if (pread(file, &head, sizeof head, 0) != sizeof head || memcmp(head.e_ident, ELFMAG, 4) != 0)
        return fails("no ELF file");
    entry = head.e_entry;
    for (k = 0; k < head.e_phnum; k++) {
        if (pread(file, &part, sizeof part, (off_t)(head.e_phoff + k * sizeof part)) != sizeof part)
            return fails("the guest is cut off");
        if (part.p_type == PT_LOAD && (part.p_paddr > 8 << 20 || part.p_filesz > 1 << 20))
            return fails("the guest is out of place");
        if (part.p_type == PT_LOAD && pread(file, memory + part.p_paddr, part.p_filesz,
                                            (off_t)part.p_offset) != (ssize_t)part.p_filesz)
            return fails("the guest is cut off");
    }
    close(file);
    return 1;
}

/* The first GB at 0 and in slot 256, by 2-MB pages whose flags A and D are set. */
static void lay_out_tables(void)
{
    uint64_t *const tables = (uint64_t *)(memory + ROOT);
    uint64_t k;

    tables[0] = tables[256] = (ROOT + 0x1000) | 0x23;
    tables[512] = (ROOT + 0x2000) | 0x23;
    for (k = 0; k < 512; k++)
        tables[1024 + k] = k << 21 | 0xE3;
}

static int make_machine(const char *guest)
{
    struct kvm_userspace_memory_region region = {.memory_size = MEMORY_SIZE};
    uint64_t identity = 0xFFFBC000;

    machine = ioctl(kvm, KVM_CREATE_VM, 0);
    if (machine < 0)
        return fails("KVM_CREATE_VM");
    memory = mmap(NULL, MEMORY_SIZE, PROT_READ | PROT_WRITE,
                  MAP_PRIVATE | MAP_ANONYMOUS | MAP_NORESERVE, -1, 0);
    if (memory == MAP_FAILED)
        return fails("memory");
    settings = (void *)(memory + SETTINGS_ADDRESS);
    ioctl(machine, KVM_SET_TSS_ADDR, 0xFFFBD000); /* asked for by some processors alone */
    ioctl(machine, KVM_SET_IDENTITY_MAP_ADDR, &identity);
    region.userspace_addr = (uintptr_t)memory;
    if (ioctl(machine, KVM_SET_USER_MEMORY_REGION, &region) != 0)
        return fails("KVM_SET_USER_MEMORY_REGION");
    lay_out_tables();
    return load_guest(guest);
}

static int tells_file(const char *name, const char *path)
{
    FILE *const file = fopen(path, "r");
    char line[400];

    if (file == NULL)
        return 0;
    if (fgets(line, sizeof line, file) != NULL)
        say("loader: %s %s", name, line);
    fclose(file);
    return 1;
}

/* Counts of KVM since the machine was made: a processor that hangs and one that exits to KVM again
 * and again differ in them. */
static void tell_exits(void)
{
    static const char *const counts[] = {"exits", "pf_taken", "pf_fixed", "pf_spurious"};
    char path[64];
    unsigned k;

    for (k = 0; k < sizeof counts / sizeof counts[0]; k++) {
        snprintf(path, sizeof path, "/sys/kernel/debug/kvm/%s", counts[k]);
        tells_file(counts[k], path);
    }
}

static void end_threads(void)
{
    unsigned k;

    is_over = 1;
    for (k = 0; k < MOST_PROCESSORS; k++) {
        if (processors[k].has_thread) {
            pthread_kill(processors[k].thread, SIGUSR1);
            pthread_join(processors[k].thread, NULL);
        }
        processors[k].has_thread = 0;
    }
}

static void let_machine_go(void)
{
    unsigned k;

    for (k = 0; k < MOST_PROCESSORS; k++) {
        if (processors[k].file > 0) {
            munmap(processors[k].run, run_size);
            close(processors[k].file);
        }
    }
    memset(processors, 0, sizeof processors);
    munmap(memory, MEMORY_SIZE);
    close(machine);
}

static double now(void)
{
    struct timespec time;

    clock_gettime(CLOCK_MONOTONIC, &time);
    return (double)time.tv_sec + (double)time.tv_nsec * 1e-9;
}

/* One run, as its ten numbers tell. */
static enum end carry_out(const char *guest, unsigned seconds, const char *text)
{
    const double start = now();
    enum end end = FAILED;
    unsigned k;
    char *rest = (char *)text;

    is_over = 0;
    is_late = 0;
    if (make_machine(guest)) {
        for (k = 0; k < SETTINGS && *rest != 0; k++) {
            settings->value[k] = strtoull(rest, &rest, 0);
            rest += *rest == ':';
        }
        settings->value[WAYS] |= DOORBELL | LOADER_STARTS;
        alarm(seconds);
        if (make_processor(0))
            end = run_processor(0);
        alarm(0);
        if (end == HUNG)
            tell_exits();
        end_threads();
        take_log();
        if (end != ENDED && (settings->value[WAYS] & AT_ONCE))
            take_logs_at_once();
    }
    end_threads();
    let_machine_go();
    say("loader: run %s %s, %.2f s\n", text,
        end == ENDED ? "ended" : end == HUNG ? "hung" : "failed", now() - start);
    return end;
}

/* A processor of AMD's name would reserve bits that the manual ignores. */
static void name_intel(void)
{
    unsigned k;

    for (k = 0; k < cpuid.head.nent; k++) {
        struct kvm_cpuid_entry2 *const leaf = &cpuid.entries[k];

        if (leaf->function == 0 || leaf->function == 0x80000000) {
            memcpy(&leaf->ebx, "Genu", 4);
            memcpy(&leaf->edx, "ineI", 4);
            memcpy(&leaf->ecx, "ntel", 4);
        }
    }
}

/* Whether KVM keeps shadow tables here. */
static void tell_paging(void)
{
    tells_file("system", "/proc/version");
    if (tells_file("kvm_intel.ept (N: shadow tables)", "/sys/module/kvm_intel/parameters/ept"))
        return;
    if (tells_file("kvm_amd.npt (0 or N: shadow tables)", "/sys/module/kvm_amd/parameters/npt"))
        return;
    say("loader: neither kvm_intel nor kvm_amd: which tables KVM keeps is not known%s\n",
        access("/sys/module/kvm_pvm", F_OK) == 0 ? "; kvm_pvm keeps shadow tables" : "");
}

/* /modules has a line for each: its file and its parameters. */
static void load_modules(void)
{
    FILE *const list = fopen("/modules", "r");
    char line[200], *parameters;
    int file;

    while (list != NULL && fgets(line, sizeof line, list) != NULL) {
        line[strcspn(line, "\n")] = 0;
        parameters = strchr(line, ' ');
        if (parameters != NULL)
            *parameters++ = 0;
        file = open(line, O_RDONLY);
        if (file < 0 || syscall(SYS_finit_module, file, parameters == NULL ? "" : parameters, 0))
            fails(line);
    }
}

static void begin_system(void)
{
    mkdir("/proc", 0755);
    mkdir("/sys", 0755);
    mkdir("/dev", 0755);
    mount("none", "/proc", "proc", 0, NULL);
    mount("none", "/sys", "sysfs", 0, NULL);
    mount("none", "/dev", "devtmpfs", 0, NULL);
    mount("none", "/sys/kernel/debug", "debugfs", 0, NULL);
    if (iopl(3) != 0)
        fails("iopl");
    load_modules();
}

static int open_kvm(void)
{
    kvm = open("/dev/kvm", O_RDWR);
    if (kvm < 0)
        return fails("/dev/kvm");
    run_size = (size_t)ioctl(kvm, KVM_GET_VCPU_MMAP_SIZE, 0);
    cpuid.head.nent = 256;
    if (ioctl(kvm, KVM_GET_SUPPORTED_CPUID, &cpuid) != 0)
        return fails("KVM_GET_SUPPORTED_CPUID");
    name_intel();
    tell_paging();
    return 1;
}

static void end_system(void)
{
    outb(0, EXIT_PORT);
    __asm__ volatile("rep outsb" ::"S"("Shutdown"), "c"(8), "d"(0x8900) : "memory");
    reboot(RB_POWER_OFF);
    for (;;)
        pause();
}

int main(int count, char **word)
{
    struct sigaction action = {.sa_handler = come_late};
    int k, status = 0;
    enum end end;

    sigaction(SIGALRM, &action, NULL);
    sigaction(SIGUSR1, &action, NULL);
    is_first_process = getpid() == 1;
    if (is_first_process)
        begin_system();
    if (count < 4) {
        say("usage: loader GUEST SECONDS RUN..\n");
        status = 1;
    } else if (!open_kvm()) {
        status = 1;
    }
    for (k = 3; k < count && status != 1; k++) {
        end = carry_out(word[1], (unsigned)atoi(word[2]), word[k]);
        status = end == ENDED ? status : end == HUNG ? 2 : 1;
    }
    if (is_first_process)
        end_system();
    return status;
}
