//! What came up, so that a run which tried too little fails instead of passing.

use crate::inputs::{needs_check, part_shown, shape, Shape, LISTED};
use crate::surface::Function;
use std::collections::BTreeMap;

/// Each answer that a function can give must come up so often.
const AT_LEAST: u64 = 50;

/// Its answers are not compared, so they do not count as tried.
pub const NEVER_STARTED: &str = "never started";

macro_rules! situations {
    ($kind:ident: $($name:ident: $words:literal,)*) => {
        #[derive(Clone, Copy, PartialEq, Eq, PartialOrd, Ord, Debug)]
        pub enum $kind {
            $($name),*
        }

        impl $kind {
            const ALL: &[($kind, &'static str)] = &[$(($kind::$name, $words)),*];
        }
    };
}

// What a frame did, mostly an accepted one, that its answer alone does not show. Each must come up in both engines.
situations! { Effect:
    TakenBySome: "a write taken by some monitors only",
    TakenByNone: "a write taken by none",
    TakenWithCounter: "a write taken with counter bits that are neither 0 nor the monitor's own counter",
    CounterAfter63: "a counter of 63 becomes 1",
    WrcfgaWhileMuted: "WRCFGA taken while muted",
    WrrrStores: "WRRR stores a right payload",
    WrrrLocked: "WRRR with a right payload taken while locked",
    WrrrDamagedStores: "WRRR stores a damaged payload",
    WrrrDamagedLocked: "WRRR with a damaged payload taken while locked",
    WrrrDamagedAfter63: "WRRR with a damaged payload makes 1 of a counter of 63",
    WrrrAllDamaged: "WRRR with damaged payloads only, taken by several monitors",
    WrrrDamagedBoth: "WRRR with a right payload, and damaged ones at a locked and at an unlocked monitor",
    WrpwmbSentOther: "WRPWMB taken with something other than FF for bytes 2 to 5",
    WrpwmbMakesFf: "WRPWMB makes FF of bytes 2 to 5 that were something else",
    CellThresholdsMasked: "WRCMCELLT taken with bits sent that are not kept, and 0 made of such bits that stood",
    GpioThresholdsMasked: "WRCMGPIOT taken with bits sent that are not kept, and 0 made of such bits that stood",
    ClrcmflagClearsAll: "CLRCMFLAG clears all flags of CMF0 that stand",
    ClrcmflagClearsSome: "CLRCMFLAG clears flags of CMF0 and leaves others",
    ClrcmflagClearsNone: "CLRCMFLAG taken that clears none of the flags that stand",
    ClrcmflagSecondByte: "CLRCMFLAG taken with bits of its second byte that stand in CMF1, which stays",
    ClrcmflagOfEight: "CLRCMFLAG with eight bytes for each monitor refused with 5",
    WriteOfFour: "another write with four bytes for each monitor refused with 5",
    CmhbRefused: "CMHB refused with 4",
    CmenEnables: "CMEN where CMC_EN is clear makes another last measurement",
    CmenOtherBits: "CMEN where CMC_EN is clear makes 83 of a CMF1 with other bits",
    CmenKeepsLast: "CMEN where CMC_EN is set keeps a last measurement that differs from the live cells",
    CmenKeepsCmf1: "CMEN where CMC_EN is set leaves a CMF1 that is not 83",
    CmenBoth: "CMEN where CMC_EN is clear at one monitor and set at another",
    CmenKeepsCmf0: "CMEN where CMC_EN is clear leaves flags of CMF0",
    CmenInSnapshot: "CMEN while a snapshot is on takes the live cells and not the copy, which stays",
    SecondCmenAfter63: "CMEN where CMC_EN is set makes 1 of a counter of 63",
    SecondCmenLocks: "CMEN where CMC_EN is set ends an unlocking",
    CmdisEnds: "CMDIS where CMC_EN is set leaves other bits of CMF1, flags of CMF0 and a last measurement unlike the live cells",
    CmdisOfNone: "CMDIS where CMC_EN is clear",
    CmdisBoth: "CMDIS where CMC_EN is clear at one monitor and set at another",
    CmdisLocks: "CMDIS ends an unlocking",
    SnapInLpcm: "SNAP in LPCM makes another copy, and leaves a last measurement that differs from it",
    ClrcellInLpcm: "CLRCELL in LPCM leaves a last measurement that is not cleared",
    UlrrInLpcm: "ULRR in LPCM unlocks a locked monitor",
    LpcmNone: "a write taken by all of several monitors, none in LPCM",
    LpcmSome: "a write not taken by some monitors, as they are in LPCM, and taken by others",
    LpcmAll: "a write to several monitors, all in LPCM",
    LpcmLocks: "a write with a right payload to an unlocked monitor in LPCM locks it",
    LpcmAt63: "a write with a right payload to a monitor in LPCM leaves a counter of 63",
    WrrrInLpcm: "WRRR with a right payload stores nothing at an unlocked monitor in LPCM",
    WrrrDamagedInLpcm: "WRRR with a damaged payload stores nothing at an unlocked monitor in LPCM",
    WrrrBesideLpcm: "WRRR stores at an unlocked monitor, and nothing at an unlocked one in LPCM",
    SnapCopies: "SNAP where SNAP_ST is clear makes another copy",
    SnapKeepsCopy: "SNAP where SNAP_ST is set keeps a copy that differs from the live cells",
    SnapBoth: "SNAP where SNAP_ST is clear at one monitor and set at another",
    SecondSnapAfter63: "SNAP where SNAP_ST is set makes 1 of a counter of 63",
    SecondSnapLocks: "SNAP where SNAP_ST is set ends an unlocking",
    UnsnapEnds: "UNSNAP where SNAP_ST is set, with a copy that differs from the live cells",
    UnsnapOfNone: "UNSNAP where SNAP_ST is clear, with a copy that differs from the live cells",
    UnsnapLocks: "UNSNAP ends an unlocking",
    ClrcellInSnapshot: "CLRCELL while a snapshot is on leaves a copy that is not cleared",
    WrcfgaInSnapshot: "WRCFGA taken while a snapshot is on, sent with SNAP_ST clear",
    WrcfgaSendsSnapSt: "WRCFGA taken while no snapshot is on, sent with SNAP_ST set",
    StatusCInSnapshot: "RDSTATC while a snapshot is on",
    StatusDInSnapshot: "RDSTATD while a snapshot is on",
    SpikeInOnly: "a spike hits the payload of the only monitor, which keeps its record",
    SpikeInOne: "a spike hits one payload of several, and each other monitor takes its own",
    SpikeAtNearest: "a spike hits the nearest monitor alone of several",
    SpikeAtFarthest: "a spike hits the farthest monitor alone of several",
    SpikeOverBorder: "a spike over the border of two payloads, and neither is taken",
    SpikeOverBorderBesideOthers: "a spike over the border of two payloads, and each other monitor takes its own",
    SpikeInData: "a spike hits data bits alone, and the payload is not taken",
    SpikeInCounter: "a spike hits the six counter bits alone, and the payload is not taken",
    SpikeInCheck: "a spike hits check bits alone, and the payload is not taken",
    SpikeInHighestOfCheck: "a spike hits the two highest check bits alone, and the payload is not taken",
    SpikeOfTen: "a spike of exactly ten places hits one payload",
    SpikeOfTenOverBorder: "a spike of exactly ten places hits two payloads",
    SpikeLocks: "an unlocked monitor is locked by the spike that hits it",
    SpikeAt63: "a counter of 63 is left by the spike that hits its monitor",
    SpikeInBulk: "a spike of the list of all within eleven places of two payloads",
    SpikeInLpcm: "a spike hits the payload of a monitor in LPCM alone",
    SpikeBesideLpcm: "a spike hits one payload, not taken, of a chain with a monitor in LPCM that is not hit",
    SpikeOverBorderOfLpcm: "a spike over the border of two payloads, one of them of a monitor in LPCM",
    ShortSpikeInFirst: "a spike hits the first byte of a CLRCMFLAG payload alone, and it is not taken",
    ShortSpikeInSecond: "a spike hits the second byte of a CLRCMFLAG payload alone, and it is not taken",
    ShortSpikeInCounter: "a spike hits the six counter bits of a CLRCMFLAG payload alone, and it is not taken",
    ShortSpikeInCheck: "a spike hits check bits of a CLRCMFLAG payload alone, and it is not taken",
    ShortSpikeInHighestOfCheck: "a spike hits the two highest check bits of a CLRCMFLAG payload alone, and it is not taken",
    ShortSpikeOfTen: "a spike of exactly ten places hits one payload of a CLRCMFLAG",
    ShortSpikeOfTenOverBorder: "a spike of exactly ten places hits two payloads of a CLRCMFLAG",
    ShortSpikeInBulk: "a spike of the list of all within eleven places of two payloads of a CLRCMFLAG",
    WrrrSpikeStores: "WRRR hit by a spike while unlocked stores what came",
    WrrrSpikeLocked: "WRRR hit by a spike while locked stores nothing and is counted",
    WrrrSpikeInLpcm: "WRRR hit by a spike at an unlocked monitor in LPCM stores nothing and is not counted",
    WrrrSpikeOverBorder: "WRRR hit by a spike over the border of two payloads is taken by both",
    ElevenBesideData: "eleven places of counter and check bits get through, and the data are stored as sent",
    ElevenInLpcm: "eleven places that get through are nothing to a monitor in LPCM",
    CommandSpikeInCode: "a spike hits the code alone, refused with 3",
    CommandSpikeInCheck: "a spike hits the command's check alone, refused with 3",
    CommandSpikeInBoth: "a spike hits the code and its check, refused with 3",
    CommandSpikeAtLastPlace: "a spike hits the 0 after the command's check alone, refused with 3",
    CommandSpikeOfFifteen: "a spike of exactly fifteen places in the command, refused with 3",
    CommandSpikeToListed: "a spike makes the code of another listed command of that length, refused with 3",
    CommandSpikeOverBorder: "a spike over the border of the command and the first payload, refused with 3",
    CommandSpikeKeepsUnlocked: "a spike in a command that would lock leaves a monitor unlocked",
    CommandSpikeInBulk: "a spike of the list of all within sixteen places of a command",
    SixteenUnlisted: "sixteen places make a code with a right check that is not listed",
    SixteenLength: "sixteen places make a listed command of another length",
    SixteenObeyed: "sixteen places make another write or bare command, which is obeyed",
    SixteenReadForWrite: "sixteen places make a read of a write, which is answered",
    SixteenWriteForRead: "sixteen places make a write of a read, which is accepted",
}

// What a question to the host was, whatever the chain: its answer alone does not show it.
situations! { OfHost:
    SixForTwo: "CLRCMFLAG with six values for each monitor refused by the host with 8",
    TwoForSix: "another write with two values for each monitor refused by the host with 8",
    Cmhb: "CMHB refused by the host with 4",
    PayloadRight: "a payload is right",
    PayloadRightAt0: "a payload is right, with the counter 0",
    PayloadRightAt63: "a payload is right, with the counter 63",
    CounterDiffers: "a payload is right but for its counter",
    Counter0Received: "a payload is right but for its counter, which is 0",
    Counter0Expected: "a payload is right but for its counter, where 0 is expected",
    CounterBitAway: "a payload is right but for one bit of its counter",
    CounterOneBehind: "a payload is right but for its counter, which is one less than expected",
    Counter63Before1: "a payload is right but for its counter, which is 63 where 1 is expected",
    DamagedAtExpected: "a payload is damaged, and carries the expected counter",
    DamagedAtOther: "a payload is damaged, and carries another counter than expected",
    CheckCounter: "a check refused with 7 of a payload that is not damaged",
    CheckCounterLowBits: "a check refused with 7, and the six low bits expected are the payload's counter",
    CheckCounterDamaged: "a check refused with 7 of a damaged payload",
    CheckCounterAndLength: "a check refused with 7 of a payload of another length",
    CheckLength: "a check refused with 5",
    ABesideRight: "port A is chosen, and B is right too",
    ABesideDiffering: "port A is chosen, and B's counter differs",
    ABesideDamaged: "port A is chosen, and B is damaged",
    BForDiffering: "port B is chosen, as A's counter differs",
    BForDamaged: "port B is chosen, as A is damaged",
    ADiffersBesideDiffering: "port A is chosen though its counter differs, as B's does too",
    ADiffersBesideDamaged: "port A is chosen though its counter differs, as B is damaged",
    BDiffersForDamaged: "port B is chosen though its counter differs, as A is damaged",
    BothDamaged: "both ports are damaged",
    TwoOtherCounters: "both ports' counters differ, and from one another",
    OneOtherCounter: "both ports' counters differ, and are the same",
    BDiffersForExpected: "port B is chosen though its counter differs, as A is damaged, which carries the expected one",
    ADiffersBesideExpected: "port A is chosen though its counter differs, as B is damaged, which carries the expected one",
    BothDamagedAtExpected: "both ports are damaged, and carry the expected counter",
    BothDamagedAtOther: "both ports are damaged, and carry other counters than expected",
    PortsCounter: "two ports refused with 7 for the expected counter alone",
    PortsCounterAndN: "two ports refused with 7 for the expected counter, with a wrong N",
    PortsCounterAndPosition: "two ports refused with 7 for the expected counter, with a wrong position",
    PortsCounterAndLength: "two ports refused with 7 for the expected counter, with a reply of another length",
    PortsCounterDamaged: "two ports refused with 7 for the expected counter, and both are damaged",
    PortsN: "two ports refused with 7 for N",
    PortsPosition: "two ports refused with 7 for the position alone",
    PortsPositionAndLength: "two ports refused with 7 for the position, with a reply of another length",
    PortsLengthA: "two ports refused with 5 for A's length alone",
    PortsLengthB: "two ports refused with 5 for B's length alone",
    PortsLengthBoth: "two ports refused with 5 for both lengths",
    PortsLengthDamaged: "two ports refused with 5, and both are damaged",
    Passed: "a heartbeat passed with counter bits 0",
    PassedWithCounter: "a heartbeat passed with other counter bits",
    FailedByCount: "a heartbeat failed by its count alone",
    FailedByFlags: "a heartbeat failed by its flags alone",
    FailedByBoth: "a heartbeat failed by its count and its flags",
    DamagedInCommand: "a heartbeat damaged in its command alone",
    DamagedInData: "a heartbeat damaged behind its command alone",
    DamagedInBoth: "a heartbeat damaged in its command and behind it",
    NothingCame: "a heartbeat timed out, and nothing came",
    LateRight: "a heartbeat timed out, and a right message came",
    LateDamaged: "a heartbeat timed out, and a damaged message came",
    LateByEven: "a heartbeat timed out by an even number",
    VerdictOfNothing: "a verdict on nothing refused with 5 in time",
    LengthInTime: "a verdict on another length refused with 5 in time",
    LengthLate: "a verdict on another length refused with 5 late",
    Summary: "a summary",
    SummaryOfNone: "a summary of none",
}

// Other situations that the answers alone do not show.
situations! { Situation:
    StoreFlagsNothing: "a store of a code past a threshold, where no flag stands",
    StoreKeepsFlag: "a store leaves a flag of a cell within its thresholds",
    CompareSetsUv: "a compare sets UV",
    CompareSetsOv: "a compare sets OV",
    CompareKeepsFlag: "a compare leaves a flag of a cell within its thresholds",
    CompareSkipsCleared: "a compare skips a cleared cell that lies below the lower threshold",
    CompareChangesNothing: "a compare changes nothing",
    CompareByLaterThresholds: "a compare goes by thresholds written after the store",
    CompareAfterClrcell: "a compare finds the stored cells cleared",
    LoadSetsUv: "a load sets UV",
    LoadSetsOv: "a load sets OV",
    LoadKeepsFlag: "a load leaves a flag of a cell within its thresholds",
    StoreInSnapshot: "a store of codes other than the copy's while a snapshot is on",
    CompareInSnapshot: "a compare while a snapshot is on flags otherwise than the copy calls for",
    LoadInSnapshot: "a load while a snapshot is on flags otherwise than the copy calls for",
    Row7: "row 7 decides an output",
    Row6: "row 6 decides an output",
    Row5: "row 5 decides an output",
    Row4: "row 4 decides an output, which is on",
    Row3: "row 3 decides an output",
    Row2: "row 2 decides an output",
    Row1On: "row 1 decides an output, which is on",
    Row1Off: "row 1 decides an output, which is off",
    Row7WhileMuted: "row 7 decides while MUTE_ST is set",
    MuteHoldsDcc: "a mute holds off an output that row 4 would have on",
    MuteHoldsPwm: "a mute holds off an output that row 1 would have on",
    WrcfgbHoldsDcc: "row 5 holds off an output that row 4 would have on",
    DccInMeasurement: "row 4 decides in a measurement",
    DccInWrpwm: "row 4 decides while a PWM group is being written",
    DccOfOthersOnly: "rows 3 to 1 decide where only other cells have their DCC bits set",
    PwmHeldOff: "row 3 or 2 holds off an output that row 1 would have on",
    NothingToHoldOff: "row 3 or 2 decides where the duty is 0",
    PhaseAtDuty: "row 1 decides in the phase that equals the duty",
    PhaseOneBelow: "row 1 decides in the phase one below the duty",
    Duty0: "row 1 decides a duty of 0",
    Duty15InLastPhase: "row 1 decides a duty of 15 in phase 14",
    HalfMatters: "row 1 decides otherwise than by the other half of the byte",
    GroupMatters: "row 1 decides cell 13 to 16 otherwise than by group A",
    EventBitsAbove: "a question with bits set above its events",
    QuestionPosition: "a question refused for its position alone",
    QuestionPhase: "a question refused for its phase alone",
    QuestionPositionAndPhase: "a question refused for its position, with a wrong phase",
    QuestionBeforeRoom: "a question refused with 7, with too little room",
    QuestionUnsoundBeforeAll: "a question refused with 1, with a wrong phase and too little room",
    MutedAndUnmuted: "outputs on before MUTE, none after it, and the same as before after UNMUTE",
    AnswerByWrpwma: "a question is answered otherwise after WRPWMA",
    AnswerByWrpwmb: "a question is answered otherwise after WRPWMB",
    AnswerByWrcfgb: "a question is answered otherwise after WRCFGB",
    WindowPartlyFull: "a window of eight bytes holds 1 to 7",
    ShortWindowPartlyFull: "a window of a CLRCMFLAG holds 1 to 3 bytes",
    ShortWindowFull: "a window of a CLRCMFLAG holds four bytes, though more have come",
    ShortWindowPassedOn: "a window of a CLRCMFLAG holds what the one before it passed on",
    ShortWindowInTightRoom: "a full window of a CLRCMFLAG goes into a buffer of 4 to 7 bytes",
    OtherNAtRelease: "a release with a table of another N",
    UnsoundAtByteFour: "a release after an unsound table at byte four",
    DamagedRetentionShown: "ULRR, a damaged WRRR, and RDRR shows the bytes sent",
    DamagedRetentionAfterRefusal: "ULRR, a refused frame, a damaged WRRR, and RDRR shows the bytes sent",
    DamagedRetentionLocked: "ULRR, another command, a damaged WRRR, and RDRR shows what stood",
    DamagedRetentionTwice: "ULRR, two damaged WRRRs, and RDRR shows the bytes of the first",
    LongRead: "SNAP and six cell reads of one moment, with a store, CLRCELL and a second SNAP between them",
    LongReadOfLent: "a second SNAP on a lent snapshot, and six cell reads of the lent copy",
    RefusedUnsnap: "a refused UNSNAP between cell reads, and the next one shows the copy",
    LiveAfterUnsnap: "after UNSNAP six cell reads of live cells that differ from the copy",
    SnappedAgain: "SNAP, a store, UNSNAP, SNAP, and the cell reads show another moment",
    FlagsSetInSnapshot: "RDSTATD shows flags that a compare set after SNAP",
    FlagsClearedInSnapshot: "RDSTATD shows flags as CLOVUV cleared them after SNAP",
    StatusCClearedInSnapshot: "RDSTATC shows flags as CLRFLAG cleared them after SNAP",
    SettingsShown: "settings of LPCM written by the host, and a read shows other ones than stood",
    SettingsKept: "settings of LPCM written by the host in LPCM, and a read shows what stood",
    FlagsShown: "CLRCMFLAG by the host, and RDCMFLAG shows fewer flags",
    FlagsKept: "CLRCMFLAG by the host in LPCM, and RDCMFLAG shows what stood",
    AsleepAndAwake: "a write taken, CMEN, the write not taken, CMDIS, and it is taken again",
    RetentionInLpcm: "CMEN, ULRR, WRRR, and RDRR shows what stood",
    LastOfFirstCmen: "CMEN, a store, CMEN, and the last measurement is of the first",
    LastOfLaterCmen: "CMEN, a store, CMDIS, CMEN, and the last measurement is another",
    LiveInSnapshot: "SNAP, a store, CMEN: the last measurement is of the store, and the cell reads show the copy",
    CuvAlone: "a measurement makes CUV alone of no flag",
    CovAlone: "a measurement makes COV alone of no flag",
    CdvnAlone: "a measurement makes CDVN alone of no flag",
    CdvpAlone: "a measurement makes CDVP alone of no flag",
    AtCuv: "the lowest cell is at 16 CUV, and CUV stays clear",
    BelowCuv: "the lowest cell is one code below 16 CUV, and CUV is set",
    AtCov: "the highest cell is at 16 COV, and COV stays clear",
    AboveCov: "the highest cell is one code above 16 COV, and COV is set",
    FallOfCdv: "the farthest fall is of 8 CDV, and CDVN stays clear",
    FallOfMore: "the farthest fall is of one code more than 8 CDV, and CDVN is set",
    RiseOfCdv: "the farthest rise is of 8 CDV, and CDVP stays clear",
    RiseOfMore: "the farthest rise is of one code more than 8 CDV, and CDVP is set",
    CuvBelowZero: "a CUV below 0, and CUV stays clear",
    CovBelowZero: "a COV below 0, and COV is set",
    CdvWithoutSign: "a CDV of 800 or more (hex), and neither CDVN nor CDVP is set",
    CdvBitsAbove: "bits stand above CDV, and CDVN or CDVP is set",
    WideJump: "a jump of more than 32767 codes is flagged",
    AllLeftOut: "all cells are left out, and the monitor passes",
    LeftOut: "a cell that is left out is past a limit whose flag stays clear",
    LeftOutKept: "the code of a cell that is left out becomes another last measurement",
    ClearedIsLow: "CUV is set for cleared cells alone",
    ClearedPasses: "a cleared cell passes",
    NotTheCopy: "a measurement while a snapshot is on flags otherwise than the copy calls for",
    NotByVuvAndVov: "a measurement does not flag what VUV and VOV would call for",
    SameMeasurement: "a measurement of the cells of the last one",
    DiagnosticPending: "a pending diagnostic makes all eight flags of none",
    OtherStatusBits: "other bits of both bytes of status C are set, and the monitor passes",
    FlagsStay: "flags that stood are all that stand after a measurement",
    FlagsJoin: "a measurement joins flags to others that stood",
    WokeToA: "a manager wakes and sends towards port A",
    WokeToB: "a manager wakes and sends towards port B",
    ManagerPasses: "a manager wakes and passes",
    ManagerFails: "a manager wakes and fails",
    ManagerFromZero: "a manager with CMC_NDEV 0 wakes and passes",
    ManagerOfBoth: "a manager with CMC_BTM set wakes",
    NoManager: "a monitor in LPCM that is no manager wakes, which a measurement would change",
    NoManagerButTimeout: "a timeout monitor wakes, which a measurement would change",
    ManagerAwake: "a manager that is not in LPCM wakes, which a measurement would change",
    RelayPasses: "a message without flags reaches a monitor that passes",
    RelayPassesFailed: "a message with flags reaches a monitor that passes",
    RelayFails: "a message without flags reaches a monitor that fails",
    RelayJoins: "a message reaches a monitor, and each has flags that the other has not",
    RelayFromZero: "a message of count 0 reaches a monitor that passes",
    RelayCounter: "a message with other counter bits than 0 is sent on",
    IgnoredForCommand: "a message is ignored for its command alone by a monitor that a measurement would change",
    IgnoredForData: "a message is ignored for its data alone by a monitor that a measurement would change",
    IgnoredForBoth: "a message is ignored for its command and its data by a monitor that a measurement would change",
    IgnoredByTimeout: "a message that is not right is ignored by a timeout monitor that a measurement would change",
    ManagerIgnores: "a right message is ignored by a manager that a measurement would change",
    AwakeIgnores: "a right message is ignored by a monitor not in LPCM that a measurement would change",
    TimeoutClears: "a timeout monitor passes a heartbeat and clears both flags",
    TimeoutClearsOne: "a timeout monitor passes a heartbeat and clears one flag",
    TimeoutByCount: "a timeout monitor that passes fails a heartbeat by its count alone",
    TimeoutByFlags: "a timeout monitor that passes fails a heartbeat by its flags alone",
    TimeoutByOwn: "a timeout monitor fails a heartbeat by its own measurement alone",
    TimeoutBeforeItsStep: "a timeout monitor that passes fails a heartbeat that came as 42 and 00",
    TimeoutSets: "a timeout monitor fails a heartbeat and sets its flag of that, where none stood",
    TimeoutKeepsLate: "a timeout monitor fails a heartbeat where its flag of the time stood",
    TimeRanOut: "the time runs out at a timeout monitor",
    TimeRanOutAgain: "the time runs out at a timeout monitor whose flag of it stood",
    NoTimeoutMonitor: "the time runs out at a monitor in LPCM that is no timeout monitor",
    TimeOutAtManager: "the time runs out at a manager with CMC_BTM set",
    TimeOutAwake: "the time runs out at a monitor with CMC_BTM set that is not in LPCM",
    NoHeartbeat: "a heartbeat of no manager in LPCM, which a measurement would change",
    LeftAtA: "a heartbeat passes others and leaves the chain at port A",
    LeftAtB: "a heartbeat passes others and leaves the chain at port B",
    LeftAtOnce: "a heartbeat leaves the chain at the manager's own end",
    OtherSide: "a heartbeat leaves alone a monitor on the other side, which a measurement would change",
    AllPassed: "a heartbeat of several that all pass",
    OneFailed: "a heartbeat of several of which one fails",
    SomeFailed: "a heartbeat of several of which some fail, with other flags, and some pass",
    StoppedByManager: "a heartbeat is stopped by a second manager, behind others",
    StoppedByTimeout: "a heartbeat is stopped by a timeout monitor, behind others",
    StoppedByAwake: "a heartbeat is stopped by a monitor not in LPCM, behind others",
    NotReached: "a heartbeat leaves alone a monitor behind the one that stopped it, which a measurement would change",
    InTurn: "a heartbeat that leaves the chain, and the same by a wake and several relays",
    InTurnStopped: "a heartbeat that is stopped, and the same by a wake and several relays",
    HostPassed: "a heartbeat from one end to the other, and the host's verdict is passed",
    HostFailed: "a heartbeat from one end to the other, and the host's verdict is failed",
    HostOtherCount: "a heartbeat that all pass, with another CMC_NDEV, and the host's verdict is failed",
    HostDamaged: "a heartbeat struck by a spike on the last hop, and the host's verdict is damaged",
    HopStruck: "a heartbeat struck by a spike between monitors, and none from that hop on changes",
    BridgelessPassed: "a heartbeat to a timeout monitor nearest the host, and its flags are clear",
    BridgelessFailed: "a heartbeat to a timeout monitor nearest the host that not all pass, and its flag is set",
    NightPassed: "settings by the host, CMEN, a heartbeat, and the host's verdict is passed",
    NightFailed: "in LPCM a store past a limit, a heartbeat, and the host's verdict is failed",
    NightJump: "in LPCM a store of a jump, and its flag stays in the next heartbeat",
    BridgelessNightPassed: "RDCMFLAG shows a timeout monitor's flags after CMEN, a heartbeat that passes, the end of the time, and another",
    BridgelessNightFailed: "RDCMFLAG shows a timeout monitor's flags after CMEN, a heartbeat that fails, the end of the time, and another",
    NightCleared: "CMDIS, CLRCMFLAG, CMEN, a heartbeat, and the host's verdict is passed again",
    MissedByNone: "a write to several monitors with one counter that is not hit, and the next read is right at all",
    MissedByOnly: "a write hit at the only monitor, and the next read shows its old counter",
    MissedByOne: "a write hit at one of several monitors with one counter, and the next read shows its old counter alone",
    MissedByNearest: "a write hit at the nearest of several monitors with one counter, which alone shows it",
    MissedByFarthest: "a write hit at the farthest of several monitors with one counter, which alone shows it",
    MissedBySeveral: "a write hit at some of the monitors with one counter, two or more, and they alone show it",
    MissedByAll: "a write hit at all of several monitors with one counter, and all show it",
    MissedOverBorder: "a write hit over the border of two payloads, and both monitors alone show it",
    MissedAt63: "a write hit at a monitor whose counter of 63 shows where 1 is expected",
    MissedAt0: "a write hit at a monitor whose counter of 0 shows where 1 is expected",
    MissedOtherCounters: "a write hit at some monitors of a chain with several counters and taken by others, and the counters show which",
    MissedInLpcm: "a monitor in LPCM that was not hit shows that it missed a write, and another took it",
    MissedAllInLpcm: "a write to several monitors in LPCM, and all show that they missed it",
    MissedHitAndInLpcm: "a write hit at one monitor, missed by another in LPCM and taken by a third, and the counters show which",
    WrrrNotSeen: "WRRR hit at a monitor that takes it all the same, and the next read is right there",
    WrrrInLpcmSeen: "WRRR hit at a monitor where it does not show, and missed by one in LPCM where it does",
    MissedRefused: "a write refused for its command, and all of several monitors show it",
    MissedBare: "a bare command refused for its command, and all of several monitors show it",
    MissedRstcc: "RSTCC refused for its command, and a monitor shows it by another counter than 0",
    MissedRstccAt0: "RSTCC refused for its command, which does not show at a counter of 0",
    EarlierAtA: "port A read before a write and port B after it, and B is chosen where it was taken",
    EarlierMissed: "port A read before a write and port B after it, and A is chosen, with the old counter, where it was missed",
    MissedAllRound: "63 writes missed in a row, each of which shows but the last",
}

// What must come up for each operation of the heartbeat that it can come up for.
situations! { OfOperation:
    UnsoundBeforePosition: "refused with 1, with a wrong position",
    UnsoundBeforeRoom: "refused with 1, with too little room",
    PositionNone: "refused with 7 for position 0",
    PositionBehind: "refused with 7 for position N + 1",
    PositionLargest: "refused with 7 for the largest position",
    PositionBeforeRoom: "refused with 7, with too little room",
    PositionBeforeLength: "refused with 7, with a message of another length",
    LengthBeforeRoom: "refused with 5, with too little room",
    NoMessage: "refused with 5 for no message",
    MessageOfSeven: "refused with 5 for a message of seven bytes",
    MessageOfNine: "refused with 5 for a message of nine bytes",
    RoomToSend: "refused with 6 by a monitor that would send",
    RoomForNothing: "refused with 6 by a monitor that would not send",
    RoomOfSeven: "refused with 6 for seven bytes",
    RoomOfEight: "sends into exactly eight bytes",
    RoomOfMore: "sends into more than eight bytes",
    NothingSent: "accepted with nothing done",
    Only: "done by the only monitor",
    Nearest: "done by the nearest monitor of several",
    Farthest: "done by the farthest monitor of several",
    Between: "done by a monitor between others",
    OfMost: "done by a monitor of 32",
}

impl OfOperation {
    const OPERATIONS: [Function; 4] = [Function::Wake, Function::Relay, Function::Heartbeat, Function::TimeOut];

    fn concerns(self, function: Function) -> bool {
        match self {
            OfOperation::PositionBeforeLength | OfOperation::LengthBeforeRoom => function == Function::Relay,
            OfOperation::NoMessage | OfOperation::MessageOfSeven | OfOperation::MessageOfNine => function == Function::Relay,
            OfOperation::UnsoundBeforeRoom | OfOperation::PositionBeforeRoom => function != Function::TimeOut,
            OfOperation::RoomToSend | OfOperation::RoomForNothing | OfOperation::RoomOfSeven => function != Function::TimeOut,
            OfOperation::RoomOfEight | OfOperation::RoomOfMore => function != Function::TimeOut,
            _ => true,
        }
    }
}

// What must come up for each command that it can come up for. Each must come up in both engines.
situations! { OfCommand:
    Accepted: "accepted",
    NotTaken: "with a damaged payload not taken",
    NotTakenInLpcm: "with a right payload not taken in LPCM",
    TakenInLpcm: "accepted where a monitor is in LPCM",
    ShowedCopy: "shows a copy that differs from the live cells",
    ShowedLive: "shows live cells that differ from the copy",
    Struck: "hit by a spike in its command refused",
    Hit: "with one payload hit by a spike not taken there",
    HitOverBorder: "with two payloads hit by a spike not taken there",
    HitInLpcm: "hit by a spike at a monitor in LPCM that keeps its record",
    Slipped: "with eleven places that get through stored",
    Missed: "hit by a spike, and the next read shows the old counter",
    MissedInLpcm: "not hit, and the next read shows the old counter in LPCM",
    MissedWhole: "refused for its command, and the next read shows the old counter",
    ShowedMissed: "shows the old counter of a monitor that missed a frame",
}

impl OfCommand {
    fn concerns(self, code: u16) -> bool {
        let write = shape(code) == Some(Shape::Write);
        match self {
            OfCommand::Accepted | OfCommand::Struck => true,
            OfCommand::NotTaken | OfCommand::Hit | OfCommand::HitOverBorder => needs_check(code),
            OfCommand::Missed => needs_check(code),
            OfCommand::MissedWhole => shape(code) != Some(Shape::Read),
            OfCommand::ShowedMissed => shape(code) == Some(Shape::Read),
            OfCommand::NotTakenInLpcm | OfCommand::HitInLpcm | OfCommand::Slipped | OfCommand::MissedInLpcm => write,
            OfCommand::TakenInLpcm => !write,
            OfCommand::ShowedCopy | OfCommand::ShowedLive => part_shown(code).is_some(),
        }
    }
}

/// Accepted calls at 0, refusals at their number.
type Answers = [u64; 11];

/// The two ways for a frame to come.
#[derive(Clone, Copy)]
pub enum Engine {
    Whole,
    Clocked,
}

impl Engine {
    pub const BOTH: [Engine; 2] = [Engine::Whole, Engine::Clocked];
}

/// What came up of one engine's frames: of each command, the refusals of each, and the effects. Commands by their place in the list.
#[derive(Default)]
struct Frames {
    of_command: BTreeMap<(usize, OfCommand), u64>,
    refused: BTreeMap<(usize, usize), u64>,
    effects: BTreeMap<Effect, u64>,
}

/// The refusals that each command's frame can get, whatever its engine: its code is listed, and only a read needs room.
const FRAME_REFUSALS: [usize; 4] = [1, 2, 3, 5];
const NO_ROOM: usize = 6;
/// The answers that the host can give to each listed command.
const HOST_ANSWERS: [usize; 4] = [0, 6, 7, 8];

const WHOLE: &str = "as a whole frame";

#[derive(Default)]
pub struct Tally {
    kinds: Vec<(&'static str, [Answers; Function::ALL.len()])>,
    frames: [Frames; 2],
    host: BTreeMap<(usize, usize), u64>,
    of_host: BTreeMap<OfHost, u64>,
    operations: BTreeMap<(usize, OfOperation), u64>,
    situations: BTreeMap<Situation, u64>,
    kind: usize,
}

impl Tally {
    /// What follows is counted under this kind of case.
    pub fn begin(&mut self, kind: &'static str) {
        self.kind = match self.kinds.iter().position(|(name, _)| *name == kind) {
            Some(found) => found,
            None => {
                self.kinds.push((kind, Default::default()));
                self.kinds.len() - 1
            }
        };
    }

    pub fn kind(&self) -> &'static str {
        self.kinds[self.kind].0
    }

    pub fn count(&mut self, function: Function, number: usize) {
        self.kinds[self.kind].1[function as usize][number] += 1;
    }

    pub fn saw(&mut self, situation: Situation) {
        *self.situations.entry(situation).or_default() += 1;
    }

    pub fn saw_if(&mut self, situation: Situation, came_up: bool) {
        if came_up {
            self.saw(situation);
        }
    }

    /// Of a command that is listed.
    pub fn of_command_if(&mut self, engine: Engine, code: u16, what: OfCommand, came_up: bool) {
        if came_up {
            let place = place_of(code).expect("a command that is counted is listed");
            *self.frames[engine as usize].of_command.entry((place, what)).or_default() += 1;
        }
    }

    /// Where the code that the frame begins with is listed.
    pub fn refused(&mut self, engine: Engine, code: u16, number: usize) {
        if let Some(place) = place_of(code) {
            *self.frames[engine as usize].refused.entry((place, number)).or_default() += 1;
        }
    }

    pub fn host(&mut self, code: u16, number: usize) {
        if let Some(place) = place_of(code) {
            *self.host.entry((place, number)).or_default() += 1;
        }
    }

    pub fn of_host_if(&mut self, what: OfHost, came_up: bool) {
        if came_up {
            *self.of_host.entry(what).or_default() += 1;
        }
    }

    pub fn of_operation_if(&mut self, function: Function, what: OfOperation, came_up: bool) {
        if came_up {
            *self.operations.entry((function as usize, what)).or_default() += 1;
        }
    }

    pub fn did_if(&mut self, engine: Engine, effect: Effect, came_up: bool) {
        if came_up {
            *self.frames[engine as usize].effects.entry(effect).or_default() += 1;
        }
    }

    fn answers_of(&self, function: Function) -> Answers {
        let mut sum = Answers::default();
        for (_, functions) in self.kinds.iter().filter(|(kind, _)| *kind != NEVER_STARTED) {
            for (total, count) in sum.iter_mut().zip(functions[function as usize]) {
                *total += count;
            }
        }
        sum
    }

    pub fn print(&self) {
        println!("{:<16} {:<18} {:>9} {:>9}  refused, by number", "kind", "function", "calls", "accepted");
        for (kind, functions) in &self.kinds {
            for function in Function::ALL {
                let answers = &functions[function as usize];
                let calls: u64 = answers.iter().sum();
                if calls > 0 {
                    let refusals: Vec<String> = (1..11).filter(|&no| answers[no] > 0).map(|no| format!("{no}: {}", answers[no])).collect();
                    println!("{kind:<16} {:<18} {calls:>9} {:>9}  {}", function.name(), answers[0], refusals.join(", "));
                }
            }
        }
    }

    /// What came up too seldom for the run to say anything about a library with these functions.
    pub fn too_seldom(&self, functions: &[Function]) -> Vec<String> {
        let mut seldom = Vec::new();
        let mut want = |count: u64, what: String| {
            if count < AT_LEAST {
                seldom.push(format!("{what}: {count} times, not {AT_LEAST}"));
            }
        };
        for &function in functions {
            let answers = self.answers_of(function);
            want(answers[0], format!("{} accepted", function.name()));
            for &number in function.refusals() {
                want(answers[number], format!("{} refused with {number}", function.name()));
            }
        }
        for ((place, (code, name)), number) in LISTED.iter().enumerate().flat_map(|listed| HOST_ANSWERS.map(|number| (listed, number))) {
            want(self.host.get(&(place, number)).copied().unwrap_or(0), format!("{name} ({code:04X}) answered by the host with {number}"));
        }
        for (what, words) in OfHost::ALL {
            want(self.of_host.get(what).copied().unwrap_or(0), words.to_string());
        }
        // The rest is of the chain.
        if !functions.contains(&Function::Frame) {
            return seldom;
        }
        for (frames, how) in self.frames.iter().zip([WHOLE, "at a release"]) {
            for (place, (code, name)) in LISTED.iter().enumerate() {
                for (what, words) in OfCommand::ALL.iter().filter(|(what, _)| what.concerns(*code)) {
                    want(frames.of_command.get(&(place, *what)).copied().unwrap_or(0), format!("{name} ({code:04X}) {words} {how}"));
                }
                let room = shape(*code) == Some(Shape::Read) && how == WHOLE;
                for number in FRAME_REFUSALS.into_iter().chain(room.then_some(NO_ROOM)) {
                    let count = frames.refused.get(&(place, number)).copied().unwrap_or(0);
                    want(count, format!("{name} ({code:04X}) refused with {number} {how}"));
                }
            }
            for (effect, name) in Effect::ALL {
                want(frames.effects.get(effect).copied().unwrap_or(0), format!("{name}, {how}"));
            }
        }
        for (what, words) in OfOperation::ALL {
            for function in OfOperation::OPERATIONS.into_iter().filter(|function| what.concerns(*function)) {
                let count = self.operations.get(&(function as usize, *what)).copied().unwrap_or(0);
                want(count, format!("{} {words}", function.name()));
            }
        }
        for (situation, name) in Situation::ALL {
            want(self.situations.get(situation).copied().unwrap_or(0), name.to_string());
        }
        seldom
    }
}

fn place_of(code: u16) -> Option<usize> {
    LISTED.iter().position(|(listed, _)| *listed == code)
}
