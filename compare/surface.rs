//! The twenty functions of include/oskorbine.h, behind safe wrappers: a slice is a pointer and a length that belong together, and Rust
//! sees to it that a written one overlaps no other. An empty slice must still have a real address (the header asks for it), so callers
//! take theirs from `Lent`.

pub const CLOCK_STATE: usize = 264;

/// First values: of a check, and of two ports, where a port's counter may differ.
pub const RIGHT: u32 = 1;
pub const DAMAGED: u32 = 2;
pub const COUNTER_DIFFERS: u32 = 3;
pub const PORT_A: u32 = 1;
pub const PORT_B: u32 = 2;
pub const PORT_A_DIFFERS: u32 = 3;
pub const PORT_B_DIFFERS: u32 = 4;

/// The functions by number: the order of the tallies.
#[derive(Clone, Copy, Debug, PartialEq, Eq)]
pub enum Function {
    Frame,
    Store,
    Compare,
    Load,
    Discharge,
    Wake,
    Relay,
    Heartbeat,
    TimeOut,
    HostFrame,
    Check,
    TwoPorts,
    Verdict,
    ClockStart,
    ClockByte,
    ClockWindow,
    ClockRelease,
    Microvolts,
    Volts,
    Summary,
}

impl Function {
    pub const ALL: [Function; 20] = [
        Function::Frame,
        Function::Store,
        Function::Compare,
        Function::Load,
        Function::Discharge,
        Function::Wake,
        Function::Relay,
        Function::Heartbeat,
        Function::TimeOut,
        Function::HostFrame,
        Function::Check,
        Function::TwoPorts,
        Function::Verdict,
        Function::ClockStart,
        Function::ClockByte,
        Function::ClockWindow,
        Function::ClockRelease,
        Function::Microvolts,
        Function::Volts,
        Function::Summary,
    ];

    pub fn name(self) -> &'static str {
        match self {
            Function::Frame => "osk_frame",
            Function::Store => "osk_store",
            Function::Compare => "osk_compare",
            Function::Load => "osk_load",
            Function::Discharge => "osk_discharge",
            Function::Wake => "osk_wake",
            Function::Relay => "osk_relay",
            Function::Heartbeat => "osk_heartbeat",
            Function::TimeOut => "osk_time_out",
            Function::HostFrame => "osk_host_frame",
            Function::Check => "osk_check",
            Function::TwoPorts => "osk_two_ports",
            Function::Verdict => "osk_verdict",
            Function::ClockStart => "osk_clock_start",
            Function::ClockByte => "osk_clock_byte",
            Function::ClockWindow => "osk_clock_window",
            Function::ClockRelease => "osk_clock_release",
            Function::Microvolts => "osk_microvolts",
            Function::Volts => "osk_volts",
            Function::Summary => "osk_summary",
        }
    }

    /// The refusals that the function can give.
    pub fn refusals(self) -> &'static [usize] {
        match self {
            Function::Frame => &[1, 2, 3, 4, 5, 6],
            Function::Store | Function::Load => &[1, 7, 8, 9],
            Function::Compare | Function::TimeOut => &[1, 7],
            Function::Discharge | Function::Wake | Function::Heartbeat => &[1, 6, 7],
            Function::Relay => &[1, 5, 6, 7],
            Function::HostFrame => &[4, 6, 7, 8],
            Function::Check => &[5, 7],
            Function::Verdict => &[5],
            Function::TwoPorts => &[5, 7, 10],
            Function::ClockWindow => &[6, 7],
            Function::ClockRelease => &[1, 2, 3, 4, 5],
            Function::Summary => &[6, 8],
            Function::ClockStart | Function::ClockByte | Function::Microvolts | Function::Volts => &[],
        }
    }
}

mod c {
    extern "C" {
        pub fn osk_frame(
            table: *mut u8,
            table_length: usize,
            frame: *const u8,
            frame_length: usize,
            reply: *mut u8,
            reply_length: usize,
        ) -> u32;
        pub fn osk_store(table: *mut u8, table_length: usize, position: usize, codes: *const i16, codes_length: usize) -> u32;
        pub fn osk_compare(table: *mut u8, table_length: usize, position: usize) -> u32;
        pub fn osk_load(table: *mut u8, table_length: usize, position: usize, codes: *const i16, codes_length: usize) -> u32;
        pub fn osk_discharge(
            table: *const u8,
            table_length: usize,
            position: usize,
            events: u8,
            phase: u8,
            out: *mut u8,
            out_length: usize,
        ) -> u32;
        pub fn osk_wake(table: *mut u8, table_length: usize, position: usize, out: *mut u8, out_length: usize) -> u32;
        pub fn osk_relay(
            table: *mut u8,
            table_length: usize,
            position: usize,
            message: *const u8,
            message_length: usize,
            out: *mut u8,
            out_length: usize,
        ) -> u32;
        pub fn osk_heartbeat(table: *mut u8, table_length: usize, position: usize, out: *mut u8, out_length: usize) -> u32;
        pub fn osk_time_out(table: *mut u8, table_length: usize, position: usize) -> u32;
        pub fn osk_host_frame(
            command: u16,
            monitors: usize,
            values: *const u8,
            values_length: usize,
            out: *mut u8,
            out_length: usize,
        ) -> u32;
        pub fn osk_check(payload: *const u8, payload_length: usize, expected: u8) -> u32;
        pub fn osk_two_ports(
            a: *const u8,
            a_length: usize,
            b: *const u8,
            b_length: usize,
            monitors: usize,
            position: usize,
            expected: u8,
        ) -> u32;
        pub fn osk_verdict(message: *const u8, message_length: usize, time_ran_out: u8) -> u32;
        pub fn osk_clock_start(state: *mut u8);
        pub fn osk_clock_byte(state: *mut u8, table: *const u8, table_length: usize, byte: u8) -> u32;
        pub fn osk_clock_window(state: *const u8, position: usize, out: *mut u8, out_length: usize) -> u32;
        pub fn osk_clock_release(state: *mut u8, table: *mut u8, table_length: usize) -> u32;
        pub fn osk_microvolts(code: i16) -> i32;
        pub fn osk_volts(code: i16) -> f64;
        pub fn osk_summary(codes: *const i16, codes_length: usize, out: *mut f64, out_length: usize) -> u32;
    }
}

pub fn frame(table: &mut [u8], frame: &[u8], reply: &mut [u8]) -> u32 {
    unsafe { c::osk_frame(table.as_mut_ptr(), table.len(), frame.as_ptr(), frame.len(), reply.as_mut_ptr(), reply.len()) }
}

pub fn store(table: &mut [u8], position: usize, codes: &[i16]) -> u32 {
    unsafe { c::osk_store(table.as_mut_ptr(), table.len(), position, codes.as_ptr(), codes.len()) }
}

pub fn compare(table: &mut [u8], position: usize) -> u32 {
    unsafe { c::osk_compare(table.as_mut_ptr(), table.len(), position) }
}

pub fn load(table: &mut [u8], position: usize, codes: &[i16]) -> u32 {
    unsafe { c::osk_load(table.as_mut_ptr(), table.len(), position, codes.as_ptr(), codes.len()) }
}

pub fn discharge(table: &[u8], position: usize, events: u8, phase: u8, out: &mut [u8]) -> u32 {
    unsafe { c::osk_discharge(table.as_ptr(), table.len(), position, events, phase, out.as_mut_ptr(), out.len()) }
}

pub fn wake(table: &mut [u8], position: usize, out: &mut [u8]) -> u32 {
    unsafe { c::osk_wake(table.as_mut_ptr(), table.len(), position, out.as_mut_ptr(), out.len()) }
}

pub fn relay(table: &mut [u8], position: usize, message: &[u8], out: &mut [u8]) -> u32 {
    unsafe { c::osk_relay(table.as_mut_ptr(), table.len(), position, message.as_ptr(), message.len(), out.as_mut_ptr(), out.len()) }
}

pub fn heartbeat(table: &mut [u8], position: usize, out: &mut [u8]) -> u32 {
    unsafe { c::osk_heartbeat(table.as_mut_ptr(), table.len(), position, out.as_mut_ptr(), out.len()) }
}

pub fn time_out(table: &mut [u8], position: usize) -> u32 {
    unsafe { c::osk_time_out(table.as_mut_ptr(), table.len(), position) }
}

pub fn host_frame(command: u16, monitors: usize, values: &[u8], out: &mut [u8]) -> u32 {
    unsafe { c::osk_host_frame(command, monitors, values.as_ptr(), values.len(), out.as_mut_ptr(), out.len()) }
}

pub fn check(payload: &[u8], expected: u8) -> u32 {
    unsafe { c::osk_check(payload.as_ptr(), payload.len(), expected) }
}

pub fn two_ports(a: &[u8], b: &[u8], monitors: usize, position: usize, expected: u8) -> u32 {
    unsafe { c::osk_two_ports(a.as_ptr(), a.len(), b.as_ptr(), b.len(), monitors, position, expected) }
}

pub fn verdict(message: &[u8], time_ran_out: u8) -> u32 {
    unsafe { c::osk_verdict(message.as_ptr(), message.len(), time_ran_out) }
}

/// The state's length is part of the surface and not checked by the library: a wrong one must not reach it.
fn whole(state: &[u8]) {
    assert_eq!(state.len(), CLOCK_STATE, "the state of a clock");
}

pub fn clock_start(state: &mut [u8]) {
    whole(state);
    unsafe { c::osk_clock_start(state.as_mut_ptr()) }
}

pub fn clock_byte(state: &mut [u8], table: &[u8], byte: u8) -> u32 {
    whole(state);
    unsafe { c::osk_clock_byte(state.as_mut_ptr(), table.as_ptr(), table.len(), byte) }
}

pub fn clock_window(state: &[u8], position: usize, out: &mut [u8]) -> u32 {
    whole(state);
    unsafe { c::osk_clock_window(state.as_ptr(), position, out.as_mut_ptr(), out.len()) }
}

pub fn clock_release(state: &mut [u8], table: &mut [u8]) -> u32 {
    whole(state);
    unsafe { c::osk_clock_release(state.as_mut_ptr(), table.as_mut_ptr(), table.len()) }
}

pub fn microvolts(code: i16) -> i32 {
    unsafe { c::osk_microvolts(code) }
}

pub fn volts(code: i16) -> f64 {
    unsafe { c::osk_volts(code) }
}

pub fn summary(codes: &[i16], out: &mut [f64]) -> u32 {
    unsafe { c::osk_summary(codes.as_ptr(), codes.len(), out.as_mut_ptr(), out.len()) }
}
