"""Payloads and frames as the paper has them, for the tests. Nothing here asks the library.

A remainder is had by long division of the whole bit string, start word in front, and not by a register or a table of bytes.
"""

RECORD = 170

COMMAND_POLYNOMIAL = 1 << 15 | 1 << 14 | 1 << 10 | 1 << 8 | 1 << 7 | 1 << 4 | 1 << 3 | 1
DATA_POLYNOMIAL = 1 << 10 | 1 << 7 | 1 << 3 | 1 << 2 | 1 << 1 | 1
START = 16

RDCFGA, RDCFGB, RDCVA, RDCVB, RDCVC, RDCVD, RDCVE, RDCVF = 0x0002, 0x0026, 0x0004, 0x0006, 0x0008, 0x000A, 0x0009, 0x000B
RDSTATC, RDSTATD, RDSID, RDRR, RDPWMA, RDPWMB = 0x0032, 0x0033, 0x002C, 0x003A, 0x0022, 0x0023
WRCFGA, WRCFGB, WRRR, CLRFLAG, CLOVUV, WRPWMA, WRPWMB = 0x0001, 0x0024, 0x0039, 0x0717, 0x0715, 0x0020, 0x0021
MUTE, UNMUTE, RSTCC, ULRR, CLRCELL, SNAP, UNSNAP = 0x0028, 0x0029, 0x002E, 0x0038, 0x0711, 0x002D, 0x002F
WRCMCFG, WRCMCELLT, WRCMGPIOT, CLRCMFLAG = 0x0058, 0x005A, 0x005C, 0x005E
RDCMCFG, RDCMCELLT, RDCMGPIOT, RDCMFLAG = 0x0059, 0x005B, 0x005D, 0x005F
CMDIS, CMEN, CMHB = 0x0040, 0x0041, 0x0043  # CMHB is sent by devices, and is not listed

READS = (RDCFGA, RDCFGB, RDCVA, RDCVB, RDCVC, RDCVD, RDCVE, RDCVF, RDSTATC, RDSTATD, RDSID, RDRR, RDPWMA, RDPWMB, RDCMCFG, RDCMCELLT,
         RDCMGPIOT, RDCMFLAG)
WRITES = WRCFGA, WRCFGB, WRRR, CLRFLAG, CLOVUV, WRPWMA, WRPWMB, WRCMCFG, WRCMCELLT, WRCMGPIOT, CLRCMFLAG
BARE = MUTE, UNMUTE, RSTCC, ULRR, CLRCELL, SNAP, UNSNAP, CMEN, CMDIS
LISTED = READS + WRITES + BARE


def own_bytes(command):
    """How many bytes of a frame each monitor has."""
    return 0 if command in BARE else 4 if command == CLRCMFLAG else 8


def data_bytes(command):
    """How many of them are data in a write: the other two are their check."""
    return own_bytes(command) - 2


def remainder(width, polynomial, value, bits):
    """What is left of the start word, the bits and `width` zero bits after division by the polynomial."""
    dividend = START << bits ^ value << width
    while dividend.bit_length() > width:
        dividend ^= polynomial << dividend.bit_length() - 1 - width
    return dividend


def command_bytes(command):
    """The four bytes that a frame starts with."""
    return (command << 16 | remainder(15, COMMAND_POLYNOMIAL, command, 16) << 1).to_bytes(4, "big")


def payload(some_bytes, counter=0):
    """Data (six bytes, and two in a CLRCMFLAG), then six counter bits and the ten bits of the data PEC over both."""
    checked = int.from_bytes(some_bytes, "big") << 6 | counter
    check = remainder(10, DATA_POLYNOMIAL, checked, 8 * len(some_bytes) + 6)
    return (checked << 10 | check).to_bytes(len(some_bytes) + 2, "big")


def damaged(payload_bytes):
    """The same payload with its last bit wrong."""
    return payload_bytes[:-1] + bytes([payload_bytes[-1] ^ 1])


def write(command, *payloads):
    """A write's frame: payloads given nearest monitor first, on the wire the far one's first."""
    return command_bytes(command) + b"".join(reversed(payloads))


def read(command, monitors, filler=0xFF):
    """A read's frame."""
    return command_bytes(command) + bytes([filler]) * 8 * monitors
