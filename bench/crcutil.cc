// The two check words through Debian's libcrcutil (package libcrcutil-dev), for plain.c's to be timed against.
//
// libcrcutil has no most-significant-bit-first form: bit 0 of its remainders is the highest power of x, and it takes each byte's bit 0
// first. So it is lent byte strings whose bytes are bit-reversed, and its remainders, which are the words bit-reversed, are compared as
// they are. The work is the same for as many bytes; reversing is done before any clock runs.
//
// 64-bit words and stride 4 are the form that the library has machine code of its own for on x86-64. Elsewhere it is its templates,
// compiled here.
#include <crcutil/generic_crc.h>

#include <stddef.h>
#include <stdint.h>

namespace {

typedef crcutil::GenericCrc<crcutil::uint64, crcutil::uint64, crcutil::uint64, 4> Engine;

crcutil::uint64 reversed(crcutil::uint64 value, int width)
{
    crcutil::uint64 out = 0;
    for (int i = 0; i < width; i++)
        out |= (value >> i & 1) << (width - 1 - i);
    return out;
}

const Engine command_engine(reversed(0x4599, 15), 15, false);
const Engine data_engine(reversed(0x08f, 10), 10, false);
const crcutil::uint64 command_start = reversed(16, 15);
const crcutil::uint64 data_start = reversed(16, 10);

// libcrcutil takes whole bytes only: the six counter bits go by a table of our own.
struct CounterTable {
    uint16_t at[64];
    CounterTable()
    {
        for (unsigned value = 0; value < 64; value++) {
            crcutil::uint64 pec = value;
            for (int i = 0; i < 6; i++)
                pec = pec >> 1 ^ (pec & 1 ? reversed(0x08f, 10) : 0);
            at[value] = static_cast<uint16_t>(pec);
        }
    }
};

const CounterTable counter_table;

inline uint16_t data_pec(const uint8_t *bytes, size_t length, unsigned counter)
{
    crcutil::uint64 pec = data_engine.CrcDefault(bytes, length, data_start);
    return static_cast<uint16_t>(pec >> 6 ^ counter_table.at[(pec ^ counter) & 63]);
}

}

extern "C" {

uint16_t crcutil_command_pec(const uint8_t *bytes, size_t length)
{
    return static_cast<uint16_t>(command_engine.CrcDefault(bytes, length, command_start));
}

// The counter's bits are reversed too: its highest is bit 0.
uint16_t crcutil_data_pec10(const uint8_t *bytes, size_t length, uint8_t counter) { return data_pec(bytes, length, counter); }

// As plain_check, of a payload whose eight bytes are bit-reversed; and so is the counter that is expected, as a byte of eight bits. The one
// received is turned round where it is told, and no clock runs then.
uint32_t crcutil_check(const uint8_t *payload, size_t payload_length, uint8_t expected)
{
    if (expected & 3)
        return 7;
    if (payload_length != 8)
        return 5;
    unsigned counter = payload[6] & 63u, sent = payload[6] >> 6 | static_cast<unsigned>(payload[7]) << 2;
    if (data_pec(payload, 6, counter) != sent)
        return 2u << 8;
    return counter == expected >> 2 ? 1u << 8 : 3u << 8 | static_cast<uint32_t>(reversed(counter, 6)) << 16;
}
}
