#!/usr/bin/env python3
"""Works a chain of two monitors: thresholds written, the same write clocked, readings loaded, flags and cells read back, the cells of one
moment read by a snapshot, the highest cell balanced, and a write found out that one monitor missed.

Both monitors get the same readings but not the same thresholds, so what differs in their flags comes from configuration B alone.
It ends non-zero where the library refuses, where a reply that is read is damaged or has another counter than the host expects, and where
the clocked write leaves another table.
"""

import array
import sys

import oskorbine as osk

MONITORS = 2
WRCFGB = 0x0024
WRPWMA = 0x0020
MUTE = 0x0028
SNAP = 0x002D
UNSNAP = 0x002F
RSTCC = 0x002E
RDCFGB = 0x0026
RDSTATD = 0x0033
RDCV = {"RDCVA": 0x0004, "RDCVB": 0x0006, "RDCVC": 0x0008, "RDCVD": 0x000A, "RDCVE": 0x0009, "RDCVF": 0x000B}

# VUV and VOV of each monitor in steps of 16 codes. A step is 2.4 mV and step 0 stands at 1.5 V.
THRESHOLDS = [(625, 1125), (500, 1000)]

READINGS = [14000] * 16
READINGS[2] = 9000
READINGS[6] = 17000
READINGS[11] = 10000
READINGS[15] = 6000

# What both monitors measure later, while the cells are being read.
LATER = [13000] * 16

# How many of the fifteen phases of the PWM cell 7, the highest, is to be discharged for at each monitor.
DUTIES = [6, 9]
PHASES = 15

# Other thresholds, the same for both monitors. The far one misses the first write of them.
NARROWER = [(650, 1100)] * 2


def accepted(name, answer):
    """The answer, where nothing was refused."""
    if answer.number != osk.OSK_ACCEPTED:
        sys.exit(f"example: {name} was refused with number {answer.number}")
    return answer


def configuration_b(lower, upper):
    """Six bytes: VUV is byte 0 with the low half of byte 1 above it, VOV the high half of byte 1 with byte 2 above it."""
    lower, upper = lower & 0xFFF, upper & 0xFFF
    return bytes([lower & 0xFF, lower >> 8 | (upper & 0xF) << 4, upper >> 4, 0, 0, 0])


def host_frame(command, values=b""):
    """The frame of a command for the whole chain."""
    out = bytearray(4 + 8 * MONITORS)
    answer = accepted(f"the host's frame for command {command:04X}", osk.osk_host_frame(command, MONITORS, values, out))
    return bytes(out[:answer.second])


class Host:
    """It counts what it sends, as each monitor counts what it takes. So it knows which counter a reply carries where nothing was missed."""

    def __init__(self, table):
        self.table, self.expected = table, 0

    def send(self, name, frame):
        """A write or a bare command. After 63 comes 1, and RSTCC makes it 0."""
        answer = accepted(name, osk.osk_frame(self.table, frame, bytearray()))
        self.expected = 0 if frame == host_frame(RSTCC) else self.expected % 63 + 1
        return answer

    def reply(self, name, command):
        """The eight bytes of each monitor, nearest first."""
        reply = bytearray(8 * MONITORS)
        answer = accepted(name, osk.osk_frame(self.table, host_frame(command), reply))
        return [bytes(reply[start:start + 8]) for start in range(0, answer.second, 8)]

    def read(self, name, command):
        """The six register bytes of each monitor, nearest first, each reply checked."""
        payloads = self.reply(name, command)
        for number, payload in enumerate(payloads, 1):
            check = accepted("a check", osk.osk_check(payload, self.expected))
            if check.first == osk.OSK_DAMAGED:
                sys.exit(f"example: {name}: the reply of monitor {number} is damaged")
            if check.first == osk.OSK_COUNTER_DIFFERS:
                sys.exit(f"example: {name}: monitor {number} has counter {check.second}, and {self.expected} was expected")
        return [payload[:6] for payload in payloads]

    def read_cells(self):
        """The sixteen codes of each monitor, nearest first, by six reads."""
        cells = [array.array("h") for _ in range(MONITORS)]
        for name, command in RDCV.items():
            for codes, register in zip(cells, self.read(name, command)):
                codes.extend(int.from_bytes(register[at:at + 2], "little", signed=True) for at in (0, 2, 4))
        for codes in cells:
            del codes[16:]  # RDCVF shows cell 16 and then four bytes FF, which are no cells
        return cells

    def two_ports_line(self, a, b, number):
        """What the replies at both ends of the chain tell of a monitor."""
        answer = accepted("the question to two ports", osk.osk_two_ports(a, b, MONITORS, number, self.expected))
        port, reply = ("A", a) if answer.first in (osk.OSK_PORT_A, osk.OSK_PORT_A_DIFFERS) else ("B", b)
        eight = reply[answer.second:answer.second + 8]
        if answer.first in (osk.OSK_PORT_A_DIFFERS, osk.OSK_PORT_B_DIFFERS):
            told = f"with counter {eight[6] >> 2} where {self.expected} is expected: it missed a command"
        else:
            told = f"with counter {self.expected}, as is expected"
        return f"monitor {number} by port {port}: {hexadecimal(eight[:6])}, {told}"


def flagged(status_d, above):
    """The cells that status D flags: UV of cell c at bit 2((c-1) mod 4) of byte (c-1)/4, OV one above."""
    cells = [cell for cell in range(1, 17) if status_d[(cell - 1) // 4] >> 2 * ((cell - 1) % 4) + above & 1]
    return ", ".join(f"cell {cell}" for cell in cells) or "none"


def hexadecimal(some_bytes):
    """Bytes as the paper writes them."""
    return some_bytes.hex(" ").upper()


def struck(some_bytes, at):
    """The same with two bits of a byte turned over."""
    return some_bytes[:at] + bytes([some_bytes[at] ^ 0x18]) + some_bytes[at + 1:]


def summary_line(codes):
    """The summary of some cells in words."""
    volts = array.array("d", [0.0] * 3)
    answer = accepted("a summary", osk.osk_summary(codes, volts))
    if answer.first == 0:
        return "every cell is cleared"
    return f"{answer.second} cells, lowest {volts[0]} V, highest {volts[1]} V, total {volts[2]} V"


def balancing_line(table, number, cell):
    """For how many phases the output of a cell is on, and which rows of the sheet's Table 27 decided that."""
    seen = []
    for phase in range(PHASES):
        outputs = bytearray(16)
        accepted("the question of discharge", osk.osk_discharge(table, number, 0, phase, outputs))
        seen.append(outputs[cell - 1])
    rows = ", ".join(str(row) for row in sorted({output & ~osk.OSK_OUTPUT_ON for output in seen}))
    return f"cell {cell} is discharged in {sum(output >= osk.OSK_OUTPUT_ON for output in seen)} of {PHASES} phases, by row {rows}"


def clock(frame, table):
    """The same frame a byte at a time; the table changes at the release."""
    state = bytearray(osk.OSK_CLOCK_STATE)
    osk.osk_clock_start(state)
    for byte in frame:
        accepted("a clocked byte", osk.osk_clock_byte(state, table, byte))
    return accepted("the release", osk.osk_clock_release(state, table))


def main():
    table = bytearray(MONITORS * osk.OSK_RECORD_SIZE)
    clocked_table = bytearray(table)

    host = Host(table)
    frame = host_frame(WRCFGB, b"".join(configuration_b(lower, upper) for lower, upper in THRESHOLDS))
    print(f"WRCFGB for {MONITORS} monitors, the far one first: {hexadecimal(frame)}")
    answer = host.send("WRCFGB", frame)
    print(f"WRCFGB was taken by {answer.first} monitors")
    for number, (lower, upper) in enumerate(THRESHOLDS, 1):
        print(f"monitor {number} flags a cell below {osk.osk_volts(16 * lower)} V or above {osk.osk_volts(16 * upper)} V")

    answer = clock(frame, clocked_table)
    if clocked_table != table:
        sys.exit("example: the clocked write left another table")
    print(f"the same {len(frame)} bytes clocked one at a time: taken by {answer.first} monitors, the same table")

    for number in range(1, MONITORS + 1):
        accepted(f"the load of monitor {number}", osk.osk_load(table, number, READINGS))
    for number, status_d in enumerate(host.read("RDSTATD", RDSTATD), 1):
        print(f"monitor {number} has status D {hexadecimal(status_d)}; UV: {flagged(status_d, 0)}; OV: {flagged(status_d, 1)}")

    near, far = host.read_cells()
    for number, codes in enumerate((near, far), 1):
        print(f"monitor {number} reads {summary_line(codes)}")
    print(f"the pack reads {summary_line(near + far)}")

    # Six reads take their time, and the monitors go on measuring. From SNAP to UNSNAP the reads show the cells of one moment.
    host.send("SNAP", host_frame(SNAP))
    for number in range(1, MONITORS + 1):
        accepted(f"the store of monitor {number}", osk.osk_store(table, number, LATER))
    near, far = host.read_cells()
    print(f"after SNAP and other readings, the pack reads {summary_line(near + far)}")
    host.send("UNSNAP", host_frame(UNSNAP))
    near, far = host.read_cells()
    print(f"after UNSNAP, the pack reads {summary_line(near + far)}")

    # Cells 7 and 8 share byte 3 of PWM group A, cell 7 in its low half.
    duties = host_frame(WRPWMA, b"".join(bytes([0, 0, 0, duty, 0, 0]) for duty in DUTIES))
    for name, frame in ("WRPWMA", duties), ("MUTE", host_frame(MUTE)):
        host.send(name, frame)
        for number in range(1, MONITORS + 1):
            print(f"after {name}, monitor {number}: {balancing_line(table, number, 7)}")

    # The far monitor's bytes come first, and a spike strikes them: it does not take the write, nor count it. Another strikes what port A
    # replies of the near one.
    frame = host_frame(WRCFGB, b"".join(configuration_b(lower, upper) for lower, upper in NARROWER))
    answer = host.send("a WRCFGB that was struck", struck(frame, 4))
    print(f"WRCFGB, struck on its way to monitor 2, was taken by {answer.first} of {MONITORS} monitors")
    payloads = host.reply("RDCFGB", RDCFGB)
    a, b = struck(b"".join(payloads), 0), b"".join(reversed(payloads))
    for number in range(1, MONITORS + 1):
        print(host.two_ports_line(a, b, number))

    # RSTCC brings all counters and the host's together again.
    host.send("RSTCC", host_frame(RSTCC))
    host.send("WRCFGB", frame)
    near, far = host.read("RDCFGB", RDCFGB)
    print(f"after RSTCC and WRCFGB again, both have counter {host.expected} and read {hexadecimal(near)} and {hexadecimal(far)}")


if __name__ == "__main__":
    main()
