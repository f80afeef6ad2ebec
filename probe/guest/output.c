/* SPDX-License-Identifier: MIT OR Apache-2.0 */
/*
 * Where the record goes: to port 0xE9, or to the first serial line, or to memory, from where a
 * loader takes it at the doorbell. Lines for a person go to the serial line, where no record does.
 * A case has no record.
 */
#include "machine.h"
#include "probe.h"

enum {
    RECORD_PORT = 0xE9,
    DOORBELL_PORT = 0xEA,
    EXIT_PORT = 0xF4,
    BOCHS_EXIT_PORT = 0x8900,
    SERIAL_PORT = 0x3F8,
    SERIAL_STATUS = SERIAL_PORT + 5
};
#define LOG_ADDRESS 0x800000u
#define LOG_SIZE 0x800000u
static enum exit_status exit_status;

/* The serial line at 115,200 baud, 8 bits, no parity. */
void begin_output(void)
{
    out_byte(SERIAL_PORT + 1, 0);
    out_byte(SERIAL_PORT + 3, 0x80);
    out_byte(SERIAL_PORT, 1);
    out_byte(SERIAL_PORT + 1, 0);
    out_byte(SERIAL_PORT + 3, 3);
}

static void send_serial(const uint8_t *bytes, size_t count)
{
    for (; count > 0; count--) {
        while (!(settings.ways & DOORBELL) && (in_byte(SERIAL_STATUS) & 0x20) == 0)
            pause();
        out_byte(SERIAL_PORT, *bytes++);
    }
}

void hand_over(void)
{
    if (settings.ways & DOORBELL) {
        out_byte(DOORBELL_PORT, 0);
        settings.log_length = 0;
    }
}

/* For pcid_record_begin. */
int put(void *context, const uint8_t *bytes, size_t count)
{
    volatile uint8_t *const log = (volatile uint8_t *)word_at(LOG_ADDRESS);
    size_t k;

    (void)context;
    if (is_case())
        return 0; /* nobody judges the record */
    if (settings.ways & SERIAL) {
        send_serial(bytes, count);
    } else if (settings.ways & DOORBELL) {
        settings.log_address = LOG_ADDRESS;
        if (settings.log_length + count > LOG_SIZE)
            hand_over();
        for (k = 0; k < count; k++)
            log[settings.log_length + k] = bytes[k];
        settings.log_length += count;
    } else {
        out_bytes(RECORD_PORT, bytes, count);
    }
    return 0;
}

/* Lines for a person. Those of a case go to the port too. */
void tell_text(const char *text)
{
    const uint8_t *const bytes = (const uint8_t *)text;
    size_t count = 0;

    if ((settings.ways & SERIAL) && !is_case())
        return; /* the record goes there */
    while (text[count] != 0)
        count++;
    send_serial(bytes, count);
    if (is_case() && !(settings.ways & DOORBELL))
        out_bytes(RECORD_PORT, bytes, count);
}

void tell_number(uint64_t number)
{
    static const char digits[] = "0123456789abcdef";
    char text[19] = "0x";
    size_t used = 2;
    int shift = 60;

    while (shift > 0 && number >> shift == 0)
        shift -= 4;
    for (; shift >= 0; shift -= 4)
        text[used++] = digits[number >> shift & 15];
    text[used] = 0;
    tell_text(text);
}

void say(const char *text, uint64_t number)
{
    tell_text(text);
    tell_text(" ");
    tell_number(number);
    tell_text("\n");
}

void shut_down(void)
{
    const char *word = "Shutdown";

    hand_over();
    while (!(settings.ways & DOORBELL) && (in_byte(SERIAL_STATUS) & 0x40) == 0)
        pause(); /* the last byte is still on its way */
    out_byte(EXIT_PORT, exit_status);
    while (*word != 0)
        out_byte(BOCHS_EXIT_PORT, (uint8_t)*word++);
    for (;;)
        __asm__ volatile("cli; hlt");
}

void shut_down_with(enum exit_status status)
{
    exit_status = status;
    shut_down();
}

void stop(const char *why, uint64_t number)
{
    if (acts_at_once())
        hand_out_logs(0);
    else
        pcid_record_end(&record);
    hand_over();
    say(why, number);
    shut_down_with(is_case() ? STOPPED : PASSED);
}

/* An exception that no access gave: a slip of the guest, or of the machine. */
void stray(uint64_t vector, uint64_t error, uint64_t rip, uint64_t address)
{
    say("stopped: stray exception, vector", vector);
    say("  error code", error);
    say("  RIP", rip);
    say("  CR2", address);
    stop("  at event", pcid_record_moment(&record));
}
