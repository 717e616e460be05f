/* The bench chain for C and C++: 1 to 32 battery monitors (ADBMS6830B) in a table that the caller lends, the host that writes their
 * frames and reads their replies, a second engine that clocks the same frames a byte at a time, and readings of cells.
 *
 * Link with liboskorbine.a; a controller that holds no chain links libdoor.a in its place, which has the host's functions alone
 * (osk_host_frame, osk_check, osk_two_ports, osk_verdict, osk_microvolts, osk_volts, osk_summary), the same and as proved, and no table
 * of the data check. Every function is proved: it ends, for every input of any length, with the answer and the bytes that the
 * definitions of the project say. It keeps nothing between calls and asks nothing of the bytes it is lent.
 *
 * A pointer and the length behind it are one buffer, and the length counts elements. The caller owes what C cannot check: the pointer
 * is valid and aligned for so many elements, also where the length is 0 (then the address of any object of that type will do), and a
 * buffer that is written overlaps no other one of the same call.
 */
#ifndef OSKORBINE_H
#define OSKORBINE_H

#include <stddef.h>
#include <stdint.h>

#ifdef __cplusplus
extern "C" {
#endif

/* ---- answers */

/* Bits 0 to 7: the number of the refusal, and 0 where nothing is refused. Bits 8 to 15: the first value. Bits 16 to 31: the second.
 * A refusal is its number only, and every lent buffer then keeps all its bytes (the state of a release starts anew all the same). A
 * value that a function does not have is 0.
 */
typedef uint32_t osk_answer;

static inline unsigned osk_number(osk_answer answer) { return (unsigned)(answer & 0xffu); }
static inline unsigned osk_first(osk_answer answer) { return (unsigned)(answer >> 8 & 0xffu); }
static inline unsigned osk_second(osk_answer answer) { return (unsigned)(answer >> 16); }

/* The refusals. A number is given exactly when its condition is the first to hold, in the order that each function names. */
enum {
    OSK_ACCEPTED = 0,
    OSK_TABLE_NOT_SOUND = 1, /* the table is not sound; at a release also: it was not, or had another N, at byte four */
    OSK_FRAME_SHORT = 2,     /* frame under 4 bytes */
    OSK_COMMAND_WRONG = 3,   /* command PEC wrong */
    OSK_CODE_NOT_LISTED = 4, /* code not listed */
    OSK_LENGTH_WRONG = 5,    /* length not the one for this command and N; a reply, payload or message of the wrong length */
    OSK_NO_ROOM = 6,         /* the buffer to be written is too small */
    OSK_POSITION_WRONG = 7,  /* N not 1 to 32, position not 1 to N, phase not 0 to 14, or an expected counter above 63 */
    OSK_COUNT_WRONG = 8,     /* wrong number of codes or value bytes */
    OSK_CODE_CLEARED = 9,    /* a code to store or load is -32768 */
    OSK_BOTH_DAMAGED = 10    /* both ports' bytes are damaged */
};

/* ---- the chain: a table of N records, nearest monitor first, each laid out as document 01 has it, with more behind its byte 69: the groups
 * PWM A and PWM B of six bytes each; the copy of the cells, 32 bytes; and low power cell monitoring (LPCM): its configuration at byte 114, the
 * thresholds of the cells at 120 and of the GPIOs at 126, the flags CMF0 to CMF5 at 132, six bytes each, and the cells of the last measurement at
 * 138, 32 bytes. Zero bytes are a sound table.
 * WRPWMB stores two bytes of its six and makes the other four FF; until then they are as they were lent.
 * SNAP (002D) copies the cells and sets SNAP_ST (byte 5, bit 5), so that a read in several frames shows one moment; where it is set already
 * SNAP changes neither. UNSNAP (002F) clears it. While SNAP_ST is set, also in a record that was lent so, RDCVA to RDCVF show the copy, and
 * everything else goes by the live record: every other read, stores, compares, loads, CLRCELL. The sheet freezes bytes of status C and D too;
 * this chain does not.
 * WRCMCFG (0058) stores the LPCM configuration whole; WRCMCELLT (005A) and WRCMGPIOT (005C) store bytes 0 to 3 of their thresholds and the low half
 * of byte 4, and every other bit becomes 0. RDCMCFG (0059), RDCMCELLT (005B) and RDCMGPIOT (005D) show these three, RDCMFLAG (005F) the flags.
 * CLRCMFLAG (005E) has two data bytes for each monitor and not six, so a frame of 4 + 4N bytes and windows of four: each bit of the first that is 1
 * clears that bit of CMF0; the second does nothing. CMHB (0043) is sent by monitors: a frame of it is refused with 4.
 * CMEN (0041) where CMC_EN (CMF1, byte 133, bit 7) is clear makes CMF1 83 hex and takes the live cells as the last measurement; where it is set
 * CMEN changes neither. CMDIS (0040) clears CMC_EN. Both leave CMF0. While CMC_EN is set, also in a record that was lent so, a monitor takes no
 * write: it stores nothing and does not count, and its byte 69 becomes 0. Reads and bare commands go on */

/* The bytes of one monitor's record. */
#define OSK_RECORD_SIZE 170

/* Handles a frame. The table becomes what the monitors keep of it; the reply to a read, nearest monitor first, goes to the start of
 * `reply`, and bytes past it stay.
 * First: how many monitors took the frame: N for a read or a bare command; for a WRRR the monitors that are not in LPCM; and for any other
 * write those of them that found the data PEC of their own bytes right. A WRRR is executed whatever its data PEC: every monitor that is not in
 * LPCM takes and counts it, and stores its own six bytes only where its retention was unlocked (byte 69 was 1, as ULRR leaves it); each is locked
 * after it.
 * Second: the length of the reply (8N for a read, else 0).
 * Refusals: 1, 2, 3, 4, 5, 6 (6 only for reads).
 */
osk_answer osk_frame(uint8_t *table, size_t table_length, const uint8_t *frame, size_t frame_length, uint8_t *reply, size_t reply_length);

/* Stores 16 codes of 150 microvolts as the cells of the monitor at a position, 1 to N, and compares nothing: no other byte changes.
 * Refusals: 1, 7, 8, 9.
 */
osk_answer osk_store(uint8_t *table, size_t table_length, size_t position, const int16_t *codes, size_t codes_length);

/* Compares the stored cells of the monitor at a position, 1 to N, with its thresholds VUV and VOV (configuration B, 16 codes a step): sets
 * in status D UV for each cell below the lower one and OV for each above the upper one. Cells at -32768 are skipped. A compare only ever
 * sets flags, and no other byte changes.
 * Refusals: 1, 7.
 */
osk_answer osk_compare(uint8_t *table, size_t table_length, size_t position);

/* Loads 16 codes of 150 microvolts into the monitor at a position, 1 to N: osk_store and, where that is accepted, osk_compare in one call.
 * Refusals: 1, 7, 8, 9.
 */
osk_answer osk_load(uint8_t *table, size_t table_length, size_t position, const int16_t *codes, size_t codes_length);

/* ---- discharge */

/* What goes on at a monitor while its outputs are asked for, or-ed together. Bits above these are not looked at. MUTE_ST, the DCC bits and
 * the duties are in the table.
 */
enum {
    OSK_EVENT_SHUTDOWN = 1,    /* thermal shutdown */
    OSK_EVENT_MEASUREMENT = 2, /* a measurement that pauses discharge */
    OSK_EVENT_WRCFGB = 4,      /* configuration B is being written */
    OSK_EVENT_WRPWM = 8        /* a PWM group is being written */
};

/* Set in an output's byte where the output is on; the other bits are the row that decided it. */
#define OSK_OUTPUT_ON 0x80

/* Which of the sixteen discharge outputs of the monitor at a position, 1 to N, are on in a phase of the PWM, 0 to 14, and which row of the
 * sheet's Table 27 decided each: out[c - 1] is cell c's; bytes past the sixteenth stay. The table is only read.
 * A row is called by its priority: 7 thermal shutdown, 6 MUTE_ST, 5 configuration B being written, 4 the cell's own DCC bit, 3 a measurement,
 * 2 a PWM group being written, 1 PWM. The highest whose event holds decides, also where there was nothing to hold off; row 1 is left with
 * the rest. Row 4 turns the output on, row 1 turns it on while the phase is below the cell's duty, every other row off. DCTO is not looked at.
 * First: how many are on. Refusals: 1, 7 (the position, or a phase above 14), 6 (`out` under sixteen).
 */
osk_answer osk_discharge(const uint8_t *table, size_t table_length, size_t position, uint8_t events, uint8_t phase, uint8_t *out, size_t out_length);

/* ---- the heartbeat of LPCM: what passes from monitor to monitor while CMC_EN is set. Elementary, so that a message can be damaged on any hop: a
 * manager wakes, a message reaches a monitor, the time runs out; and the whole of it in one call. No heartbeat is a frame: counters and bytes 69 stay.
 * A monitor measures: for each of its cells that CMM_C does not leave out (bytes 2 and 3 of its configuration), by its thresholds and the code that the
 * last measurement left: CUV (bit 0 of CMF0) below 16 x CUV codes, COV (bit 1) above 16 x COV, CDVN (bit 2) where it has fallen by more than 8 x CDV and
 * CDVP (bit 3) where it has risen so. A cleared cell is the code -32768 like any other. A diagnostic that is pending in status C (byte 4 mask F0, byte 5
 * mask D3) makes all eight flags. They join CMF0, where they stay until CLRCMFLAG, and the live cells, those left out too, become the last measurement. It
 * passes where CMF0 is then 0. GPIOs are not measured.
 * A message is eight bytes (see osk_verdict). Its counter bits are 0 when sent, and taken as they stand when it is checked */

/* The ends of the chain: port A is monitor 1's, port B that of monitor N. */
enum { OSK_PORT_A = 1, OSK_PORT_B = 2 };

/* The monitor at a position, 1 to N, wakes. A manager (CMC_EN, and CMC_MAN: configuration byte 0, bit 7) measures and starts a heartbeat: its count is
 * CMC_NDEV (byte 1) less one if it passes, else CMC_NDEV, in eight bits, its flags are CMF0, and it is sent towards port A where CMC_DIR (byte 4, bit 5) is
 * set, else towards port B. The message goes to the start of `out`; bytes past it stay. At any other monitor nothing changes, nothing is sent, and `out` stays.
 * First: OSK_PORT_A or OSK_PORT_B, the end it is sent towards, and 0 where nothing is sent. Second: 8 or 0.
 * Refusals: 1, 7, 6 (`out` under eight, also where nothing would be sent).
 */
osk_answer osk_wake(uint8_t *table, size_t table_length, size_t position, uint8_t *out, size_t out_length);

/* A message reaches the monitor at a position, 1 to N. One in LPCM that is no manager takes in a message that is right: it measures, counts one down (in
 * eight bits) if it passes, joins its CMF0 to the flags, and sends on what it sealed anew, at the start of `out`; bytes past it stay. A timeout monitor
 * (CMC_EN, and CMC_BTM: configuration byte 0, bit 3; a manager is none) takes its own step and sends nothing on: where that leaves count 42 hex and flags 00
 * it clears bits 0 and 1 of CMF1, else it sets bit 0. A message that is not right, and any at a manager or at a monitor not in LPCM, is ignored: nothing
 * changes. Where nothing is sent `out` stays.
 * First: 1 where it is sent on, else 0. Second: 8 or 0. Refusals: 1, 7, 5 (a message of another length than eight), 6 (as osk_wake).
 */
osk_answer osk_relay(uint8_t *table, size_t table_length, size_t position, const uint8_t *message, size_t message_length, uint8_t *out, size_t out_length);

/* A whole heartbeat: the manager at a position wakes, and its message goes from monitor to monitor, nearest to it first, until it leaves the chain or
 * stops. The table and the message are those that osk_wake and osk_relay leave in turn (proved). What leaves the chain goes to the start of `out`, and bytes
 * past it stay; where nothing does, all of `out` stays.
 * First: the port it left at, and 0 where nothing left the chain. Second: 8 or 0. Refusals: 1, 7, 6 (as osk_wake).
 */
osk_answer osk_heartbeat(uint8_t *table, size_t table_length, size_t position, uint8_t *out, size_t out_length);

/* The time runs out at the monitor in a position, 1 to N: a timeout monitor in LPCM sets bit 1 of CMF1, and at any other nothing changes.
 * First: 1 where it is a timeout monitor in LPCM, else 0. Refusals: 1, 7.
 */
osk_answer osk_time_out(uint8_t *table, size_t table_length, size_t position);

/* ---- the host */

/* Builds the frame for a command and so many monitors at the start of `out`; bytes past it stay. The values are six bytes for each
 * monitor in a write (in a CLRCMFLAG two), nearest monitor first, and none otherwise.
 * What a spike on the wire can do to such a frame, at a chain of so many monitors (proved, for both engines), where it turns over at least
 * one bit:
 * - all within ten places in a row, and none in the first four bytes: a write is accepted. Each monitor whose own bytes were hit keeps
 *   its record, counter included, but for its unlock byte (byte 69), which becomes 0; each other one does as without the spike. So fewer than
 *   N take it. Not so a WRRR, which needs no data PEC: every monitor that is not in LPCM takes it, and an unlocked one of them stores what came.
 * - all within fifteen places in a row, and some in the first four bytes: the frame, of any command, is refused with 3.
 * Eleven places behind the first four bytes, and sixteen in them, may get through.
 * Second: the length of the frame. Refusals: 4, 7, 8, 6.
 */
osk_answer osk_host_frame(uint16_t command, size_t monitors, const uint8_t *values, size_t values_length, uint8_t *out, size_t out_length);

/* A monitor counts the writes and bare commands that it takes: after 63 comes 1, RSTCC (002E) makes it 0, reads leave it. Each reply carries the
 * counter as it stands, in the six high bits of the seventh of its eight bytes (payload[6] >> 2). A host that keeps the same count knows what to expect:
 * after a write or a bare command the next counter, and of a monitor that missed it the reply has the old one. An RSTCC hides what was missed before it,
 * and so do 63 missed in a row, but from 0. A WRRR is counted whatever its check, so a damaged one does not show; in LPCM no write is taken, which shows
 * as one that was missed.
 */
enum { OSK_RIGHT = 1, OSK_DAMAGED = 2, OSK_COUNTER_DIFFERS = 3 };

/* Checks one monitor's reply of eight bytes against the counter that the host expects, 0 to 63. One whose data PEC is wrong is damaged, whatever counter
 * it carries; else it is right, or right but for its counter.
 * First: OSK_RIGHT, OSK_DAMAGED or OSK_COUNTER_DIFFERS. Second: the counter received where it differs, else 0. Refusals: 7 (an expected counter above
 * 63), 5.
 */
osk_answer osk_check(const uint8_t *payload, size_t payload_length, uint8_t expected);

/* What two ports answer beside OSK_PORT_A and OSK_PORT_B: that port's bytes, and their counter differs. */
enum { OSK_PORT_A_DIFFERS = 3, OSK_PORT_B_DIFFERS = 4 };

/* The chain was read from both ends: port A's reply `a` has monitor 1 first, port B's `b` has monitor N first. Asked for the monitor at
 * a position: its eight bytes as they lie in one of the two, A's if right (data PEC and counter, as osk_check has it), else B's if right, else A's if
 * only their counter differs, else B's likewise.
 * First: OSK_PORT_A, OSK_PORT_B, OSK_PORT_A_DIFFERS or OSK_PORT_B_DIFFERS. Second: the byte of that reply that the eight start at. Refusals: 7 (an
 * expected counter above 63), 7 (N or position), 5 (either reply not 8N bytes), 10.
 */
osk_answer osk_two_ports(const uint8_t *a, size_t a_length, const uint8_t *b, size_t b_length, size_t monitors, size_t position, uint8_t expected);

/* The host's verdict on a heartbeat in LPCM: passed; failed; damaged; timed out. */
enum { OSK_PASSED = 1, OSK_FAILED = 2, OSK_MESSAGE_DAMAGED = 3, OSK_TIMED_OUT = 4 };

/* Judges what came to the host of a heartbeat, and whether the time ran out: there is no clock here, so that is given, 0 for no and any other
 * value for yes. A message has eight bytes: 00 43 47 B2, the count, the flags (as in CMF0), and two of data PEC over these two bytes and the six
 * counter bits as they stand. Where the time ran out eight bytes are OSK_TIMED_OUT, whatever they are; else a message that is not right in
 * command, command PEC or data PEC is OSK_MESSAGE_DAMAGED, count 42 hex and flags 00 are OSK_PASSED, and any other OSK_FAILED. Nothing at all,
 * with the time run out, is timed out too.
 * First: one of the four. Second: where it failed, 256 x count + flags. Refusals: 5 (another length than eight, late or not; but for nothing where
 * the time ran out).
 */
osk_answer osk_verdict(const uint8_t *message, size_t message_length, uint8_t time_ran_out);

/* ---- the clocked engine: the same frames, a byte at a time */

/* The bytes of one clock's state. Two clocks used in turn do not disturb each other. */
#define OSK_CLOCK_STATE 264

/* Before a frame: the windows are empty. It takes any bytes for the state, and gives up a frame that had begun, at any byte. */
void osk_clock_start(uint8_t state[OSK_CLOCK_STATE]);

/* Clocks one byte in. N, and whether the command is known, are taken from the table lent with byte four; the table is only read.
 * First: the byte answered: what leaves monitor 1 in a known read, otherwise FF. Nothing is refused.
 */
osk_answer osk_clock_byte(uint8_t state[OSK_CLOCK_STATE], const uint8_t *table, size_t table_length, uint8_t byte);

/* The window of the monitor at a position as it stands, oldest byte first, at the start of `out`; bytes past it stay. N is known from
 * byte four on, where the table lent then was sound; before that no position is one.
 * Second: how many bytes the window holds. Refusals: 7, 6.
 */
osk_answer osk_clock_window(const uint8_t state[OSK_CLOCK_STATE], size_t position, uint8_t *out, size_t out_length);

/* Releases: each monitor acts on its own window, and the table becomes what they keep. The next frame starts empty, refused or not.
 * Values as for osk_frame; the bytes answered after the fourth are the reply if a read is accepted. Refusals: 1, 2, 3, 4, 5.
 */
osk_answer osk_clock_release(uint8_t state[OSK_CLOCK_STATE], uint8_t *table, size_t table_length);

/* ---- readings */

/* The microvolts of a code: 1,500,000 + 150 code. */
int32_t osk_microvolts(int16_t code);

/* A code in volts: the quotient of the microvolts by 1,000,000, rounded once. NaN where the cell is cleared (code -32768). */
double osk_volts(int16_t code);

/* The summary of 1 to 512 codes, over the cells not cleared: the lowest, the highest and the total in volts go to out[0], out[1] and
 * out[2]; what lies past them stays. If all are cleared there is none, and all of `out` stays.
 * First: 1 a summary, 0 none. Second: the number of cells not cleared. Refusals: 8, 6 (`out` under three, also where there would be none).
 */
osk_answer osk_summary(const int16_t *codes, size_t codes_length, double *out, size_t out_length);

#ifdef __cplusplus
}
#endif

#endif
