//! The host's seven functions from each implementation, which is all that a door controller links. They are reached as the functions of
//! a side are. The two that bench/run gave other names are the copy in libdoor.a and plain C without tables.

pub type Check = unsafe extern "C" fn(*const u8, usize, u8) -> u32;

#[derive(Clone, Copy)]
pub struct Door {
    pub name: &'static str,
    pub host_frame: unsafe extern "C" fn(u16, usize, *const u8, usize, *mut u8, usize) -> u32,
    pub check: Check,
    pub two_ports: unsafe extern "C" fn(*const u8, usize, *const u8, usize, usize, usize, u8) -> u32,
    pub verdict: unsafe extern "C" fn(*const u8, usize, u8) -> u32,
    pub microvolts: unsafe extern "C" fn(i16) -> i32,
    pub volts: unsafe extern "C" fn(i16) -> f64,
    pub summary: unsafe extern "C" fn(*const i16, usize, *mut f64, usize) -> u32,
}

macro_rules! linked {
    ($module:ident, $name:literal, $host_frame:ident $check:ident $two_ports:ident $verdict:ident
     $microvolts:ident $volts:ident $summary:ident) => {
        pub mod $module {
            unsafe extern "C" {
                fn $host_frame(command: u16, monitors: usize, values: *const u8, vl: usize, out: *mut u8, ol: usize) -> u32;
                fn $check(payload: *const u8, pl: usize, expected: u8) -> u32;
                fn $two_ports(a: *const u8, al: usize, b: *const u8, bl: usize, monitors: usize, position: usize, expected: u8) -> u32;
                fn $verdict(message: *const u8, ml: usize, time_ran_out: u8) -> u32;
                fn $microvolts(code: i16) -> i32;
                fn $volts(code: i16) -> f64;
                fn $summary(codes: *const i16, cl: usize, out: *mut f64, ol: usize) -> u32;
            }
            pub const DOOR: super::Door = super::Door {
                name: $name,
                host_frame: $host_frame,
                check: $check,
                two_ports: $two_ports,
                verdict: $verdict,
                microvolts: $microvolts,
                volts: $volts,
                summary: $summary,
            };
        }
    };
}

linked!(osk, "liboskorbine.a", osk_host_frame osk_check osk_two_ports osk_verdict osk_microvolts osk_volts osk_summary);
linked!(door, "libdoor.a", door_host_frame door_check door_two_ports door_verdict door_microvolts door_volts door_summary);
linked!(plain_c, "plain C with its tables", plain_host_frame plain_check plain_two_ports plain_verdict
        plain_microvolts plain_volts plain_summary);
linked!(small_c, "plain C without tables", small_host_frame small_check small_two_ports small_verdict
        small_microvolts small_volts small_summary);

/// The crate of compare/model, given the same face.
#[cfg(model)]
pub mod plain_rust {
    use super::Door;
    use std::slice::{from_raw_parts, from_raw_parts_mut};

    #[inline(never)]
    unsafe extern "C" fn host_frame(command: u16, monitors: usize, values: *const u8, vl: usize, out: *mut u8, ol: usize) -> u32 {
        unsafe { model::host_frame(command, monitors, from_raw_parts(values, vl), from_raw_parts_mut(out, ol)) }
    }

    #[inline(never)]
    unsafe extern "C" fn check(payload: *const u8, pl: usize, expected: u8) -> u32 {
        unsafe { model::check(from_raw_parts(payload, pl), expected) }
    }

    #[inline(never)]
    unsafe extern "C" fn two_ports(
        a: *const u8,
        al: usize,
        b: *const u8,
        bl: usize,
        monitors: usize,
        position: usize,
        expected: u8,
    ) -> u32 {
        unsafe { model::two_ports(from_raw_parts(a, al), from_raw_parts(b, bl), monitors, position, expected) }
    }

    #[inline(never)]
    unsafe extern "C" fn verdict(message: *const u8, ml: usize, time_ran_out: u8) -> u32 {
        unsafe { model::verdict(from_raw_parts(message, ml), time_ran_out) }
    }

    #[inline(never)]
    unsafe extern "C" fn microvolts(code: i16) -> i32 {
        model::microvolts(code)
    }

    #[inline(never)]
    unsafe extern "C" fn volts(code: i16) -> f64 {
        model::volts(code)
    }

    #[inline(never)]
    unsafe extern "C" fn summary(codes: *const i16, cl: usize, out: *mut f64, ol: usize) -> u32 {
        unsafe { model::summary(from_raw_parts(codes, cl), from_raw_parts_mut(out, ol)) }
    }

    pub const DOOR: Door = Door { name: "Rust", host_frame, check, two_ports, verdict, microvolts, volts, summary };
}

/// Those that are counted and timed: both libraries, then plain C with its tables and without.
pub const TIMED: [Door; 4] = [osk::DOOR, door::DOOR, plain_c::DOOR, small_c::DOOR];

pub fn all() -> Vec<Door> {
    let doors = [
        &TIMED[..],
        #[cfg(model)]
        &[plain_rust::DOOR],
    ];
    doors.concat()
}
