/* The commands of document 01, L2, L6 and L8, where a record has their bytes, and L5's verdict, in plain C99, for plain.c and
 * plain_door.c.
 */
#ifndef PLAIN_COMMANDS_H
#define PLAIN_COMMANDS_H

#include "plain_words.h"

enum { CONFIG_A = 0, CONFIG_B = 6, CELLS = 12, STATUS_C = 44, STATUS_D = 50, RETENTION = 56, SERIAL = 62, COUNTER = 68, UNLOCKED = 69,
       PWM_A = 70, PWM_B = 76, COPY = 82, CM_CONFIG = 114, CM_CELLT = 120, CM_GPIOT = 126, CMF0 = 132, CMF1 = 133, LAST = 138,
       CELL_BYTES = 32, RECORD = LAST + CELL_BYTES, MONITORS = 32, MOST_COUNT = 63 };

enum { MUTE_ST = 0x10, SNAP_ST = 0x20 }; /* in byte 5 */
enum { CMC_EN = 0x80 };                  /* in CMF1 */

enum { NONE, READ, WRITE, BARE };

enum { WRCFGA = 0x0001, WRCFGB = 0x0024, MUTE = 0x0028, UNMUTE = 0x0029, RSTCC = 0x002e, ULRR = 0x0038, WRRR = 0x0039,
       CLRCELL = 0x0711, CLOVUV = 0x0715, CLRFLAG = 0x0717, RDCVF = 0x000b, WRPWMA = 0x0020, WRPWMB = 0x0021, SNAP = 0x002d,
       UNSNAP = 0x002f, CMDIS = 0x0040, CMEN = 0x0041, WRCMCFG = 0x0058, WRCMCELLT = 0x005a, WRCMGPIOT = 0x005c, CLRCMFLAG = 0x005e };

struct command { uint8_t kind, at; }; /* `at` says where a read finds its six bytes, cells where no snapshot is on */

static const struct command low_codes[96] = {
    [0x02] = { READ, CONFIG_A },   [0x26] = { READ, CONFIG_B },   [0x04] = { READ, CELLS },      [0x06] = { READ, CELLS + 6 },
    [0x08] = { READ, CELLS + 12 }, [0x0a] = { READ, CELLS + 18 }, [0x09] = { READ, CELLS + 24 }, [RDCVF] = { READ, CELLS + 30 },
    [0x32] = { READ, STATUS_C },   [0x33] = { READ, STATUS_D },   [0x2c] = { READ, SERIAL },     [0x3a] = { READ, RETENTION },
    [0x22] = { READ, PWM_A },      [0x23] = { READ, PWM_B },      [WRCFGA] = { WRITE, 0 },       [WRCFGB] = { WRITE, 0 },
    [WRRR] = { WRITE, 0 },         [WRPWMA] = { WRITE, 0 },       [WRPWMB] = { WRITE, 0 },
    [MUTE] = { BARE, 0 },          [UNMUTE] = { BARE, 0 },        [RSTCC] = { BARE, 0 },         [ULRR] = { BARE, 0 },
    [SNAP] = { BARE, 0 },          [UNSNAP] = { BARE, 0 },
    [0x59] = { READ, CM_CONFIG },  [0x5b] = { READ, CM_CELLT },   [0x5d] = { READ, CM_GPIOT },   [0x5f] = { READ, CMF0 },
    [WRCMCFG] = { WRITE, 0 },      [WRCMCELLT] = { WRITE, 0 },    [WRCMGPIOT] = { WRITE, 0 },    [CLRCMFLAG] = { WRITE, 0 },
    [CMEN] = { BARE, 0 },          [CMDIS] = { BARE, 0 },
};

static inline struct command command_of(uint16_t code)
{
    static const struct command write = { WRITE, 0 }, bare = { BARE, 0 }, none = { NONE, 0 };
    if (code < 96)
        return low_codes[code];
    if (code == CLRFLAG || code == CLOVUV)
        return write;
    return code == CLRCELL ? bare : none;
}

static inline size_t data_size(uint16_t code) { return code == CLRCMFLAG ? TWO : SIX; }

static inline size_t frame_size(uint8_t kind, uint16_t code, size_t n) { return kind == BARE ? 4 : 4 + (data_size(code) + SEAL) * n; }

static inline uint32_t answer(size_t first, size_t second) { return (uint32_t)(first << 8 | second << 16); }

static inline uint8_t counter_in(const uint8_t *eight) { return eight[SIX] >> 2; }

/* On eight bytes whose check is right, or is not: a wrong one tells nothing of the counter. */
static inline uint32_t verdict(bool is_right, const uint8_t *eight, uint8_t expected)
{
    if (!is_right)
        return answer(2, 0);
    return counter_in(eight) == expected ? answer(1, 0) : answer(3, counter_in(eight));
}

#endif
