/* Document 01, L2, L3, L6 and of L8 the settings and the enabling, in plain C99: the chain and the clocked engine. The host is plain_door.c.
 * See plain.h.
 */
#include "plain.h"

#include "plain_commands.h"

/* ---- check words */

uint16_t plain_command_pec(const uint8_t *bytes, size_t length)
{
    uint16_t pec = START;
    for (size_t i = 0; i < length; i++)
        pec = command_step(pec, bytes[i]);
    return pec;
}

uint16_t plain_data_pec10(const uint8_t *bytes, size_t length, uint8_t counter)
{
    return data_pec_of_any(bytes, length, counter);
}

uint16_t plain_command_pec_bits(const uint8_t *bytes, size_t length)
{
    uint32_t pec = START;
    for (size_t i = 0; i < length; i++)
        pec = command_bits(pec, bytes[i]);
    return (uint16_t)pec;
}

uint16_t plain_data_pec10_bits(const uint8_t *bytes, size_t length, uint8_t counter)
{
    uint32_t pec = START;
    for (size_t i = 0; i < length; i++)
        pec = data_bits(pec, bytes[i], 8);
    return (uint16_t)data_bits(pec, counter, 6);
}

/* ---- the table */

/* N, or 0 for a table that is not sound. */
static inline size_t monitors_of(const uint8_t *table, size_t length)
{
    size_t n = length / RECORD;
    if (n * RECORD != length || n < 1 || n > MONITORS)
        return 0;
    for (size_t i = 0; i < n; i++)
        if (table[i * RECORD + COUNTER] > MOST_COUNT || table[i * RECORD + UNLOCKED] > 1)
            return 0;
    return n;
}

static inline void raise_counter(uint8_t *record)
{
    record[COUNTER] = record[COUNTER] == MOST_COUNT ? 1 : (uint8_t)(record[COUNTER] + 1);
}

/* ---- what a chain does with an accepted frame */

/* Three of twelve bits, and zeros after them. */
static inline void thresholds(uint8_t *held, const uint8_t *sent)
{
    memcpy(held, sent, 4);
    held[4] = sent[4] & 0x0f;
    held[5] = 0;
}

static inline void store(uint8_t *record, uint16_t code, const uint8_t *sent)
{
    uint8_t *flags;
    switch (code) {
    case WRCFGA:
        record[0] = sent[0] & 0x87;
        record[1] = sent[1];
        record[2] = sent[2] & 0xf8;
        record[3] = sent[3];
        record[4] = sent[4] & 0x03;
        record[5] = (uint8_t)((record[5] & (SNAP_ST | MUTE_ST)) | (sent[5] & 0x0f));
        break;
    case WRCFGB:
        memcpy(record + CONFIG_B, sent, 6);
        break;
    case WRRR:
        if (record[UNLOCKED])
            memcpy(record + RETENTION, sent, 6);
        break;
    case CLOVUV:
        flags = record + STATUS_D;
        for (int i = 0; i < 4; i++)
            flags[i] &= (uint8_t)~sent[i];
        break;
    case WRPWMA:
        memcpy(record + PWM_A, sent, 6);
        break;
    case WRPWMB: /* the memory map has ones after the four duties */
        memcpy(record + PWM_B, sent, 2);
        memset(record + PWM_B + 2, 0xff, 4);
        break;
    case WRCMCFG:
        memcpy(record + CM_CONFIG, sent, 6);
        break;
    case WRCMCELLT:
        thresholds(record + CM_CELLT, sent);
        break;
    case WRCMGPIOT:
        thresholds(record + CM_GPIOT, sent);
        break;
    case CLRCMFLAG: /* the second byte does nothing */
        record[CMF0] &= (uint8_t)~sent[0];
        break;
    default: /* CLRFLAG */
        flags = record + STATUS_C;
        flags[0] &= (uint8_t)~sent[0];
        flags[1] &= (uint8_t)~sent[1];
        flags[4] &= (uint8_t)~sent[4];
        flags[5] &= (uint8_t)~(sent[5] & 0xdf);
        break;
    }
}

static inline size_t take_payloads(uint8_t *table, size_t n, uint16_t code, const uint8_t *payloads, size_t size)
{
    size_t taken = 0;
    for (size_t i = 0; i < n; i++) {
        uint8_t *record = table + i * RECORD;
        const uint8_t *payload = payloads + (size + SEAL) * (n - 1 - i);
        bool in_lpcm = record[CMF1] & CMC_EN; /* where no write is accepted */
        if (!in_lpcm && (code == WRRR || right(payload, size))) { /* the chip executes WRRR whatever its check */
            store(record, code, payload);
            raise_counter(record);
            taken++;
        }
        record[UNLOCKED] = 0;
    }
    return taken;
}

static size_t take_write(uint8_t *table, size_t n, uint16_t code, const uint8_t *payloads)
{
    return data_size(code) == TWO ? take_payloads(table, n, code, payloads, TWO) : take_payloads(table, n, code, payloads, SIX);
}

static void take_bare(uint8_t *table, size_t n, uint16_t code)
{
    for (size_t i = 0; i < n; i++) {
        uint8_t *record = table + i * RECORD;
        raise_counter(record);
        record[UNLOCKED] = 0;
        switch (code) {
        case MUTE:
            record[5] |= MUTE_ST;
            break;
        case UNMUTE:
            record[5] &= (uint8_t)~MUTE_ST;
            break;
        case SNAP: /* a second one keeps the first copy */
            if (!(record[5] & SNAP_ST))
                memcpy(record + COPY, record + CELLS, CELL_BYTES);
            record[5] |= SNAP_ST;
            break;
        case UNSNAP:
            record[5] &= (uint8_t)~SNAP_ST;
            break;
        case CMEN: /* a second one keeps the last cells */
            if (!(record[CMF1] & CMC_EN)) {
                memcpy(record + LAST, record + CELLS, CELL_BYTES);
                record[CMF1] = CMC_EN | 3;
            }
            break;
        case CMDIS:
            record[CMF1] &= (uint8_t)~CMC_EN;
            break;
        case RSTCC:
            record[COUNTER] = 0;
            break;
        case ULRR:
            record[UNLOCKED] = 1;
            break;
        default: /* CLRCELL */
            for (int cell = 0; cell < 16; cell++) {
                record[CELLS + 2 * cell] = 0x00;
                record[CELLS + 2 * cell + 1] = 0x80;
            }
            break;
        }
    }
}

/* While SNAP_ST is set the cells are shown by their copy. Two places to seal from, since one that is picked by byte 5 makes each payload
 * wait for that byte. */
static inline void read_out(const uint8_t *table, size_t n, uint16_t code, uint8_t at, uint8_t *reply)
{
    bool cells = at >= CELLS && at < CELLS + CELL_BYTES;
    for (size_t i = 0; i < n; i++) {
        const uint8_t *record = table + i * RECORD;
        if (code == RDCVF) {
            const uint8_t *last = record + at + (record[5] & SNAP_ST ? COPY - CELLS : 0);
            const uint8_t six[6] = { last[0], last[1], 0xff, 0xff, 0xff, 0xff };
            seal(reply + 8 * i, six, SIX, record[COUNTER]);
        } else if (cells && (record[5] & SNAP_ST)) {
            seal(reply + 8 * i, record + at + (COPY - CELLS), SIX, record[COUNTER]);
        } else {
            seal(reply + 8 * i, record + at, SIX, record[COUNTER]);
        }
    }
}

static inline void lock(uint8_t *table, size_t n)
{
    for (size_t i = 0; i < n; i++)
        table[i * RECORD + UNLOCKED] = 0;
}

uint32_t plain_frame(uint8_t *table, size_t table_length, const uint8_t *frame, size_t frame_length, uint8_t *reply, size_t reply_length)
{
    size_t n = monitors_of(table, table_length);
    if (n == 0)
        return 1;
    if (frame_length < 4)
        return 2;
    if (!command_right(frame))
        return 3;
    uint16_t code = (uint16_t)(frame[0] << 8 | frame[1]);
    struct command command = command_of(code);
    if (command.kind == NONE)
        return 4;
    if (frame_length != frame_size(command.kind, code, n))
        return 5;
    if (command.kind == WRITE)
        return answer(take_write(table, n, code, frame + 4), 0);
    if (command.kind == BARE) {
        take_bare(table, n, code);
        return answer(n, 0);
    }
    if (reply_length < 8 * n)
        return 6;
    read_out(table, n, code, command.at, reply);
    lock(table, n);
    return answer(n, 8 * n);
}

/* 12 bits of two's complement, as codes: a threshold counts steps of 16. */
static inline int threshold(unsigned twelve) { return ((int)(twelve ^ 0x800) - 0x800) * 16; }

uint32_t plain_load(uint8_t *table, size_t table_length, size_t position, const int16_t *codes, size_t codes_length)
{
    size_t n = monitors_of(table, table_length);
    if (n == 0)
        return 1;
    if (position < 1 || position > n)
        return 7;
    if (codes_length != 16)
        return 8;
    for (int i = 0; i < 16; i++)
        if (codes[i] == INT16_MIN)
            return 9;
    uint8_t *record = table + (position - 1) * RECORD;
    int uv = threshold(record[CONFIG_B] | (record[CONFIG_B + 1] & 0x0fu) << 8);
    int ov = threshold(record[CONFIG_B + 1] >> 4 | (unsigned)record[CONFIG_B + 2] << 4);
    for (int i = 0; i < 16; i++) {
        record[CELLS + 2 * i] = (uint8_t)codes[i];
        record[CELLS + 2 * i + 1] = (uint8_t)((uint16_t)codes[i] >> 8);
    }
    for (int byte = 0; byte < 4; byte++) {
        unsigned flags = 0;
        for (int i = 0; i < 4; i++) {
            int code = codes[4 * byte + i];
            flags |= ((code < uv) | (unsigned)(code > ov) << 1) << 2 * i;
        }
        record[STATUS_D + byte] |= (uint8_t)flags;
    }
    return 0;
}

/* The sheet's Table 27. Rows 7 to 5 decide all outputs at once and leave them off; of the others row 4 is the cell's own. */
uint32_t plain_discharge(const uint8_t *table, size_t table_length, size_t position, uint8_t events, uint8_t phase, uint8_t *out,
                         size_t out_length)
{
    enum { SHUTDOWN = 1, MEASUREMENT = 2, WRITING_CFGB = 4, WRITING_PWM = 8, ON = 0x80 };
    size_t n = monitors_of(table, table_length);
    if (n == 0)
        return 1;
    if (position < 1 || position > n || phase > 14)
        return 7;
    if (out_length < 16)
        return 6;
    const uint8_t *record = table + (position - 1) * RECORD;
    uint8_t off = events & SHUTDOWN ? 7 : record[5] & MUTE_ST ? 6 : events & WRITING_CFGB ? 5 : 0;
    if (off != 0) {
        memset(out, off, 16);
        return answer(0, 0);
    }
    unsigned dcc = record[CONFIG_B + 4] | (unsigned)record[CONFIG_B + 5] << 8;
    uint8_t held = events & MEASUREMENT ? 3 : events & WRITING_PWM ? 2 : 0;
    size_t on = 0;
    for (int i = 0; i < 16; i++) {
        uint8_t pair = i < 12 ? record[PWM_A + i / 2] : record[PWM_B + (i - 12) / 2];
        uint8_t by_pwm = phase < (pair >> 4 * (i % 2) & 0x0f) ? 1 | ON : 1;
        out[i] = dcc >> i & 1 ? 4 | ON : held != 0 ? held : by_pwm;
        on += out[i] >> 7;
    }
    return answer(on, 0);
}

/* ---- the check of a payload by shifts */

/* The library's own way, in C: the payload as one number is divided by the polynomial, by shifts alone, and 0x4c is what the start
 * value leaves of 64 zero bits. */
uint32_t plain_check_by_shifts(const uint8_t *payload, size_t payload_length, uint8_t expected)
{
    if (expected > MOST_COUNT)
        return 7;
    if (payload_length != 8)
        return 5;
    uint64_t m = 0;
    for (int i = 0; i < 8; i++)
        m = m << 8 | payload[i];
    m ^= m >> 3 ^ m >> 7 ^ m >> 8 ^ m >> 9 ^ m >> 10;
    m ^= m >> 6 ^ m >> 14 ^ m >> 16 ^ m >> 18 ^ m >> 20;
    m ^= m >> 12 ^ m >> 28 ^ m >> 32 ^ m >> 36 ^ m >> 40;
    m ^= m >> 24 ^ m >> 56;
    m ^= m >> 48;
    m &= 0x3ff;
    m ^= m << 1 ^ m << 2 ^ m << 3 ^ m << 7;
    return verdict((m & 0x3ff) == 0x4c, payload, expected);
}

/* ---- the clocked engine */

/* Longer than every frame, so a count that stops here is refused for its length. */
enum { COUNT_END = 4 + 8 * MONITORS + 1 };

void plain_clock_start(struct plain_clock *clock)
{
    clock->count = 0;
    clock->moved = 0;
    clock->kind = NONE;
    clock->number = 0;
    clock->monitors = 0;
}

static void fourth_byte(struct plain_clock *clock, const uint8_t *table, size_t table_length)
{
    size_t n = monitors_of(table, table_length);
    clock->code = (uint16_t)(clock->head[0] << 8 | clock->head[1]);
    clock->monitors = (uint8_t)n;
    struct command command = command_of(clock->code);
    clock->number = n == 0 ? 1 : !command_right(clock->head) ? 3 : command.kind == NONE ? 4 : 0;
    if (clock->number != 0)
        return;
    clock->kind = command.kind;
    if (command.kind == READ)
        read_out(table, n, clock->code, command.at, clock->ring);
}

uint32_t plain_clock_byte(struct plain_clock *clock, const uint8_t *table, size_t table_length, uint8_t byte)
{
    uint8_t out = 0xff;
    if (clock->count >= 4) {
        if (clock->kind == WRITE)
            clock->ring[clock->moved++ % sizeof clock->ring] = byte;
        else if (clock->kind == READ && clock->moved < 8u * clock->monitors)
            out = clock->ring[clock->moved++];
        if (clock->count < COUNT_END)
            clock->count++;
    } else {
        clock->head[clock->count++] = byte;
        if (clock->count == 4)
            fourth_byte(clock, table, table_length);
    }
    return answer(out, 0);
}

uint32_t plain_clock_window(const struct plain_clock *clock, size_t position, uint8_t *out, size_t out_length)
{
    if (position < 1 || position > clock->monitors)
        return 7;
    size_t width = data_size(clock->code) + SEAL, past = width * (position - 1), held = 0;
    uint8_t window[EIGHT];
    if (clock->kind == READ) {
        size_t end = 8u * clock->monitors;
        for (; held < EIGHT; held++) {
            size_t at = clock->moved + past + held;
            window[held] = at < end ? clock->ring[at] : 0xff;
        }
    } else if (clock->kind == WRITE) {
        size_t came = clock->count - 4; /* stops above 8N, where every window is full */
        held = came <= past ? 0 : came - past < width ? came - past : width;
        for (size_t i = 0; i < held; i++)
            window[i] = clock->ring[(clock->moved - past - held + i) % sizeof clock->ring];
    }
    if (out_length < held)
        return 6;
    memcpy(out, window, held);
    return answer(0, held);
}

uint32_t plain_clock_release(struct plain_clock *clock, uint8_t *table, size_t table_length)
{
    size_t n = monitors_of(table, table_length);
    uint32_t given = 0;
    if (n == 0 || (clock->count >= 4 && clock->monitors != n))
        given = 1;
    else if (clock->count < 4)
        given = 2;
    else if (clock->number != 0)
        given = clock->number;
    else if (clock->count != frame_size(clock->kind, clock->code, n))
        given = 5;
    else if (clock->kind == WRITE)
        given = answer(take_write(table, n, clock->code, clock->ring), 0);
    else if (clock->kind == BARE) {
        take_bare(table, n, clock->code);
        given = answer(n, 0);
    } else {
        lock(table, n);
        given = answer(n, 8 * n);
    }
    plain_clock_start(clock);
    return given;
}

size_t plain_clock_size(void) { return sizeof(struct plain_clock); }
