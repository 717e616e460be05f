/* Document 01 with requests L2, L3, L5 and L6 of document 02, and of L8 the settings, the enabling and the host's verdict, in plain C99,
 * written from the papers alone: what the proved libraries are timed against. Answers are packed as in oskorbine.h, a pointer and the
 * length behind it are one buffer, and a refusal leaves every lent buffer as it was.
 */
#ifndef PLAIN_H
#define PLAIN_H

#include <stddef.h>
#include <stdint.h>

/* ---- check words over any byte string: one table step a byte, and bit by bit; and the check of a payload by shifts */

uint16_t plain_command_pec(const uint8_t *bytes, size_t length);
uint16_t plain_command_pec_bits(const uint8_t *bytes, size_t length);
uint16_t plain_data_pec10(const uint8_t *bytes, size_t length, uint8_t counter);
uint16_t plain_data_pec10_bits(const uint8_t *bytes, size_t length, uint8_t counter);
uint32_t plain_check_by_shifts(const uint8_t *payload, size_t payload_length, uint8_t expected);

/* ---- the chain */

uint32_t plain_frame(uint8_t *table, size_t table_length, const uint8_t *frame, size_t frame_length, uint8_t *reply, size_t reply_length);
uint32_t plain_load(uint8_t *table, size_t table_length, size_t position, const int16_t *codes, size_t codes_length);
uint32_t plain_discharge(const uint8_t *table, size_t table_length, size_t position, uint8_t events, uint8_t phase, uint8_t *out,
                         size_t out_length);

/* ---- the host: plain_door.c, all that a door controller links */

uint32_t plain_host_frame(uint16_t command, size_t monitors, const uint8_t *values, size_t values_length, uint8_t *out, size_t out_length);
uint32_t plain_check(const uint8_t *payload, size_t payload_length, uint8_t expected);
uint32_t plain_two_ports(const uint8_t *a, size_t a_length, const uint8_t *b, size_t b_length, size_t monitors, size_t position,
                         uint8_t expected);
uint32_t plain_verdict(const uint8_t *message, size_t message_length, uint8_t time_ran_out);
int32_t plain_microvolts(int16_t code);
double plain_volts(int16_t code);
uint32_t plain_summary(const int16_t *codes, size_t codes_length, double *out, size_t out_length);

/* ---- the clocked engine */

/* The chain of windows is one shift register of 8N bytes, or 4N of a CLRCMFLAG, so it is kept as one ring: of the bytes that came in a
 * write, of the bytes still to leave in a read. No byte then costs more at a long chain than at a short one, except byte four, which looks at the table.
 */
struct plain_clock {
    uint8_t ring[256];
    uint32_t count;   /* bytes clocked in, no further than a length that is wrong for every command */
    uint32_t moved;   /* bytes after the fourth: in a write modulo 2^32, in a read at most 8N */
    uint16_t code;
    uint8_t kind;     /* of a known command, else none */
    uint8_t number;   /* the refusal that byte four settled, 0 for a known command */
    uint8_t monitors; /* 0 until byte four, and after it where the table was not sound */
    uint8_t head[4];
};

void plain_clock_start(struct plain_clock *clock);
uint32_t plain_clock_byte(struct plain_clock *clock, const uint8_t *table, size_t table_length, uint8_t byte);
uint32_t plain_clock_window(const struct plain_clock *clock, size_t position, uint8_t *out, size_t out_length);
uint32_t plain_clock_release(struct plain_clock *clock, uint8_t *table, size_t table_length);

/* So that a caller who cannot read this header can tell whether it has lent enough. */
size_t plain_clock_size(void);

#endif
