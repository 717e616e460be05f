//! The contestants: the same functions of the surface from each implementation, all reached through a pointer to an extern "C"
//! function, so that the loops that time them are the same code and nothing is inlined into them.

use crate::doors::Door;

#[derive(Clone, Copy)]
pub struct Side {
    pub name: &'static str,
    pub door: Door,
    pub frame: unsafe extern "C" fn(*mut u8, usize, *const u8, usize, *mut u8, usize) -> u32,
    pub load: unsafe extern "C" fn(*mut u8, usize, usize, *const i16, usize) -> u32,
    pub discharge: unsafe extern "C" fn(*const u8, usize, usize, u8, u8, *mut u8, usize) -> u32,
    pub clock_start: unsafe extern "C" fn(*mut u8),
    pub clock_byte: unsafe extern "C" fn(*mut u8, *const u8, usize, u8) -> u32,
    pub clock_window: unsafe extern "C" fn(*const u8, usize, *mut u8, usize) -> u32,
    pub clock_release: unsafe extern "C" fn(*mut u8, *mut u8, usize) -> u32,
}

/// Room for any contestant's clock. All of them take zero bytes for the state at `clock_start`.
pub const CLOCK_ROOM: usize = 1024;

macro_rules! linked {
    ($module:ident, $name:literal, $door:path, $frame:ident $load:ident $discharge:ident
     $clock_start:ident $clock_byte:ident $clock_window:ident $clock_release:ident) => {
        mod $module {
            unsafe extern "C" {
                fn $frame(table: *mut u8, tl: usize, frame: *const u8, fl: usize, reply: *mut u8, rl: usize) -> u32;
                fn $load(table: *mut u8, tl: usize, position: usize, codes: *const i16, cl: usize) -> u32;
                fn $discharge(table: *const u8, tl: usize, position: usize, events: u8, phase: u8, out: *mut u8, ol: usize) -> u32;
                fn $clock_start(state: *mut u8);
                fn $clock_byte(state: *mut u8, table: *const u8, tl: usize, byte: u8) -> u32;
                fn $clock_window(state: *const u8, position: usize, out: *mut u8, ol: usize) -> u32;
                fn $clock_release(state: *mut u8, table: *mut u8, tl: usize) -> u32;
            }
            pub const SIDE: super::Side = super::Side {
                name: $name,
                door: $door,
                frame: $frame,
                load: $load,
                discharge: $discharge,
                clock_start: $clock_start,
                clock_byte: $clock_byte,
                clock_window: $clock_window,
                clock_release: $clock_release,
            };
        }
    };
}

linked!(osk, "osk", crate::doors::osk::DOOR, osk_frame osk_load osk_discharge
        osk_clock_start osk_clock_byte osk_clock_window osk_clock_release);
linked!(plain_c, "plain C", crate::doors::plain_c::DOOR, plain_frame plain_load plain_discharge
        plain_clock_start plain_clock_byte plain_clock_window plain_clock_release);

/// The crate of compare/model, given the same face.
#[cfg(model)]
mod plain_rust {
    use super::{Side, CLOCK_ROOM};
    use crate::doors::plain_rust::DOOR;
    use model::Clock;
    use std::slice::{from_raw_parts, from_raw_parts_mut};

    // A clock's bytes are copied to try one state again and again.
    const _: () = assert!(size_of::<Clock>() <= CLOCK_ROOM && align_of::<Clock>() <= 16 && !std::mem::needs_drop::<Clock>());

    #[inline(never)]
    unsafe extern "C" fn frame(table: *mut u8, tl: usize, frame: *const u8, fl: usize, reply: *mut u8, rl: usize) -> u32 {
        unsafe { model::frame(from_raw_parts_mut(table, tl), from_raw_parts(frame, fl), from_raw_parts_mut(reply, rl)) }
    }

    #[inline(never)]
    unsafe extern "C" fn load(table: *mut u8, tl: usize, position: usize, codes: *const i16, cl: usize) -> u32 {
        unsafe { model::load(from_raw_parts_mut(table, tl), position, from_raw_parts(codes, cl)) }
    }

    #[inline(never)]
    unsafe extern "C" fn discharge(table: *const u8, tl: usize, position: usize, events: u8, phase: u8, out: *mut u8, ol: usize) -> u32 {
        unsafe { model::discharge(from_raw_parts(table, tl), position, events, phase, from_raw_parts_mut(out, ol)) }
    }

    /// Bytes of any value are no Clock yet, so a new one is put in their place: what `Clock::start` does to an old one.
    #[inline(never)]
    unsafe extern "C" fn clock_start(state: *mut u8) {
        unsafe { state.cast::<Clock>().write(Clock::new()) }
    }

    #[inline(never)]
    unsafe extern "C" fn clock_byte(state: *mut u8, table: *const u8, tl: usize, byte: u8) -> u32 {
        unsafe { (*state.cast::<Clock>()).byte(from_raw_parts(table, tl), byte) }
    }

    #[inline(never)]
    unsafe extern "C" fn clock_window(state: *const u8, position: usize, out: *mut u8, ol: usize) -> u32 {
        unsafe { (*state.cast::<Clock>()).window(position, from_raw_parts_mut(out, ol)) }
    }

    #[inline(never)]
    unsafe extern "C" fn clock_release(state: *mut u8, table: *mut u8, tl: usize) -> u32 {
        unsafe { (*state.cast::<Clock>()).release(from_raw_parts_mut(table, tl)) }
    }

    pub const SIDE: Side = Side { name: "Rust", door: DOOR, frame, load, discharge, clock_start, clock_byte, clock_window, clock_release };
}

/// The library first; every other one is a plain program that it is compared with.
pub fn all() -> Vec<Side> {
    assert!(unsafe { words::plain_clock_size() } <= CLOCK_ROOM);
    vec![
        osk::SIDE,
        plain_c::SIDE,
        #[cfg(model)]
        plain_rust::SIDE,
    ]
}

/// The bare check words, which the library's surface does not have.
pub mod words {
    unsafe extern "C" {
        pub fn plain_clock_size() -> usize;
        pub fn plain_check_by_shifts(payload: *const u8, length: usize, expected: u8) -> u32;
        pub fn plain_command_pec(bytes: *const u8, length: usize) -> u16;
        pub fn plain_data_pec10(bytes: *const u8, length: usize, counter: u8) -> u16;
        fn plain_command_pec_bits(bytes: *const u8, length: usize) -> u16;
        fn plain_data_pec10_bits(bytes: *const u8, length: usize, counter: u8) -> u16;
    }

    /// One way to both words. The data PEC is over the bytes and six counter bits 0.
    pub struct Way {
        pub name: &'static str,
        /// It is lent bytes whose bits are reversed.
        pub reversed: bool,
        pub command: fn(&[u8]) -> u16,
        pub data: fn(&[u8]) -> u16,
    }

    pub fn ways() -> Vec<Way> {
        vec![
            Way {
                name: "plain C by table",
                reversed: false,
                command: |bytes| unsafe { plain_command_pec(bytes.as_ptr(), bytes.len()) },
                data: |bytes| unsafe { plain_data_pec10(bytes.as_ptr(), bytes.len(), 0) },
            },
            Way {
                name: "plain C bit by bit",
                reversed: false,
                command: |bytes| unsafe { plain_command_pec_bits(bytes.as_ptr(), bytes.len()) },
                data: |bytes| unsafe { plain_data_pec10_bits(bytes.as_ptr(), bytes.len(), 0) },
            },
            #[cfg(crcutil)]
            linked::WAY,
        ]
    }

    /// The functions of libcrcutil, where it was found.
    pub struct Crcutil {
        /// Of a payload whose bits are reversed, and so are those of the counter that is expected.
        pub check: crate::doors::Check,
    }

    pub fn crcutil() -> Option<Crcutil> {
        #[cfg(crcutil)]
        return Some(Crcutil { check: linked::crcutil_check });
        #[cfg(not(crcutil))]
        return None;
    }

    #[cfg(crcutil)]
    mod linked {
        unsafe extern "C" {
            fn crcutil_command_pec(bytes: *const u8, length: usize) -> u16;
            fn crcutil_data_pec10(bytes: *const u8, length: usize, counter: u8) -> u16;
            pub fn crcutil_check(payload: *const u8, length: usize, expected: u8) -> u32;
        }

        /// Turning a result round is two instructions, and it lets the results be compared.
        pub const WAY: super::Way = super::Way {
            name: "crcutil",
            reversed: true,
            command: |bytes| unsafe { crcutil_command_pec(bytes.as_ptr(), bytes.len()).reverse_bits() >> 1 },
            data: |bytes| unsafe { crcutil_data_pec10(bytes.as_ptr(), bytes.len(), 0).reverse_bits() >> 6 },
        };
    }
}
