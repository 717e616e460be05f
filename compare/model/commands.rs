//! "Commands": the list of codes, the lengths of their frames and payloads, and which writes need their check (L3).

use crate::check_words::command_bytes;
use crate::numbers::Refusal;

#[derive(Clone, Copy, Debug, PartialEq, Eq)]
pub enum Command {
    Read(Read),
    Write(Write),
    Bare(Bare),
}

/// What a read shows of a record.
#[derive(Clone, Copy, Debug, PartialEq, Eq)]
pub enum Read {
    /// The six bytes from this one on.
    SixFrom(usize),
    /// RDCVA to RDCVE: six bytes of the cells from this one on, or of their copy (L6).
    CellsFrom(usize),
    /// RDCVF: cell 16, or its copy, and then four bytes FF.
    Cell16,
}

#[derive(Clone, Copy, Debug, PartialEq, Eq)]
pub enum Write {
    Wrcfga,
    Wrcfgb,
    Wrrr,
    Clrflag,
    Clovuv,
    Wrpwma,
    Wrpwmb,
    Wrcmcfg,
    Wrcmcellt,
    Wrcmgpiot,
    Clrcmflag,
}

#[derive(Clone, Copy, Debug, PartialEq, Eq)]
pub enum Bare {
    Mute,
    Unmute,
    Rstcc,
    Ulrr,
    Clrcell,
    Snap,
    Unsnap,
    Cmen,
    Cmdis,
}

/// The places of a record, as the paper's table has them and, after byte 69, L2, L6 and L8.
pub mod at {
    pub const CONFIGURATION_A: usize = 0;
    pub const CONFIGURATION_B: usize = 6;
    pub const CELLS: usize = 12;
    pub const STATUS_C: usize = 44;
    pub const STATUS_D: usize = 50;
    pub const RETENTION: usize = 56;
    pub const SERIAL_ID: usize = 62;
    pub const COUNTER: usize = 68;
    pub const UNLOCKED: usize = 69;
    pub const PWM_A: usize = 70;
    pub const PWM_B: usize = 76;
    pub const COPY: usize = 82;
    pub const LPCM_CONFIGURATION: usize = 114;
    pub const LPCM_CELL_THRESHOLDS: usize = 120;
    pub const LPCM_GPIO_THRESHOLDS: usize = 126;
    /// CMF0 to CMF5.
    pub const LPCM_FLAGS: usize = 132;
    /// The cells of the last measurement.
    pub const LAST: usize = 138;
}

pub fn listed(code: u16) -> Option<Command> {
    use Command::{Bare as B, Read as R, Write as W};
    Some(match code {
        0x0002 => R(Read::SixFrom(at::CONFIGURATION_A)),
        0x0026 => R(Read::SixFrom(at::CONFIGURATION_B)),
        0x0004 => R(Read::CellsFrom(0)),
        0x0006 => R(Read::CellsFrom(6)),
        0x0008 => R(Read::CellsFrom(12)),
        0x000A => R(Read::CellsFrom(18)),
        0x0009 => R(Read::CellsFrom(24)),
        0x000B => R(Read::Cell16),
        0x0032 => R(Read::SixFrom(at::STATUS_C)),
        0x0033 => R(Read::SixFrom(at::STATUS_D)),
        0x002C => R(Read::SixFrom(at::SERIAL_ID)),
        0x003A => R(Read::SixFrom(at::RETENTION)),
        0x0022 => R(Read::SixFrom(at::PWM_A)),
        0x0023 => R(Read::SixFrom(at::PWM_B)),
        0x0059 => R(Read::SixFrom(at::LPCM_CONFIGURATION)),
        0x005B => R(Read::SixFrom(at::LPCM_CELL_THRESHOLDS)),
        0x005D => R(Read::SixFrom(at::LPCM_GPIO_THRESHOLDS)),
        0x005F => R(Read::SixFrom(at::LPCM_FLAGS)),
        0x0001 => W(Write::Wrcfga),
        0x0024 => W(Write::Wrcfgb),
        0x0039 => W(Write::Wrrr),
        0x0717 => W(Write::Clrflag),
        0x0715 => W(Write::Clovuv),
        0x0020 => W(Write::Wrpwma),
        0x0021 => W(Write::Wrpwmb),
        0x0058 => W(Write::Wrcmcfg),
        0x005A => W(Write::Wrcmcellt),
        0x005C => W(Write::Wrcmgpiot),
        0x005E => W(Write::Clrcmflag),
        0x0028 => B(Bare::Mute),
        0x0029 => B(Bare::Unmute),
        0x002E => B(Bare::Rstcc),
        0x0038 => B(Bare::Ulrr),
        0x0711 => B(Bare::Clrcell),
        0x002D => B(Bare::Snap),
        0x002F => B(Bare::Unsnap),
        0x0041 => B(Bare::Cmen),
        0x0040 => B(Bare::Cmdis),
        _ => return None,
    })
}

/// The command of a frame's first four bytes: refusals 3 and 4. A 1 after the PEC makes it wrong, since all 16 bits are compared.
pub fn received(head: [u8; 4]) -> Result<Command, Refusal> {
    let code = u16::from_be_bytes([head[0], head[1]]);
    if head != command_bytes(code) {
        return Err(Refusal::CommandWrong);
    }
    listed(code).ok_or(Refusal::CodeNotListed)
}

impl Write {
    /// Whether a monitor takes it only with a right data PEC. The chip executes WRRR even if that does not match the data (L3).
    pub fn needs_check(self) -> bool {
        self != Write::Wrrr
    }

    /// How many data bytes each monitor is sent. The sheet's CLRCMFLAG has two (its example of an LPCM configuration).
    pub fn data_bytes(self) -> usize {
        match self {
            Write::Clrcmflag => 2,
            _ => 6,
        }
    }

    /// With the two bytes of the check.
    pub fn payload_bytes(self) -> usize {
        self.data_bytes() + 2
    }
}

impl Command {
    /// How many bytes follow the first four.
    pub fn length_after_four(self, monitors: usize) -> usize {
        match self {
            Command::Read(_) => 8 * monitors,
            Command::Write(write) => write.payload_bytes() * monitors,
            Command::Bare(_) => 0,
        }
    }
}
