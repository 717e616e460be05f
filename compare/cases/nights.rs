//! Nights of a chain (L8): the host's settings, and heartbeats with what is stored between them; and heartbeats among all other events. By
//! both engines.

use crate::asleep::{self, at_position, set_role, Role, PORT_A, PORT_B};
use crate::chain::Chain;
use crate::difference::Difference;
use crate::events::{any_frame, clrcell, compare, heartbeat, load, relay, store, time_out, wake, Event};
use crate::host::verdict;
use crate::inputs::{head, CLRCMFLAG, CMDIS, CMEN, CMF0, MOST, RDCMFLAG, WRCMCELLT, WRCMCFG};
use crate::messages::{sealed, PASS_COUNT};
use crate::run::{expect, Done, Run};
use crate::surface::Function;
use crate::tally::Situation;

const CLRFLAG: u16 = 0x0717;
const PASSED: u32 = 1 << 8;

/// 2.5 V, 4.2 V and 0.2 V, in codes 6672, 18000 and 1336.
const THRESHOLDS: [u8; 6] = [0xA1, 0x51, 0x46, 0xA7, 0x00, 0x00];
const USUAL: i16 = 14000;

/// What is stored in the night, and the flags that come of it: too low, which is a fall as well; a rise, and a fall, by one code too much.
const FAULTS: [(i16, u8, Situation); 3] =
    [(6671, 0x05, Situation::NightFailed), (15337, 0x08, Situation::NightJump), (12663, 0x04, Situation::NightJump)];

pub fn cases(run: &mut Run) -> Done {
    for (turn, fault) in (0..10).flat_map(|turn| FAULTS.map(|fault| (turn, fault))) {
        for monitors in [1, 2, 3, run.random.within(4, MOST)] {
            night(run, monitors, if turn % 2 == 0 { PORT_A } else { PORT_B }, fault)?;
        }
    }
    for (monitors, fails) in (2..=MOST).flat_map(|monitors| [false, true].map(|fails| (monitors, fails))) {
        without_a_bridge(run, monitors, fails)?;
    }
    among_other_events(run)
}

/// A frame of the host that all take.
fn host(run: &mut Run, chain: &mut Chain, code: u16, values: &[u8]) -> Done {
    let monitors = chain.monitors();
    let (answer, _) = chain.host(run, code, values)?;
    expect(run, Function::Frame, (answer, (monitors as u32) << 8), chain.table(), monitors)
}

/// A heartbeat from the manager to the other end of the chain, which comes with this count and these flags. Gives the verdict.
fn beat(run: &mut Run, chain: &mut Chain, port: u32, count: u8, flags: u8) -> Result<u32, Box<Difference>> {
    let position = if port == PORT_A { chain.monitors() } else { 1 };
    let sent = chain.heartbeat(run, position)?;
    expect(run, Function::Heartbeat, (&sent, &(8 << 16 | port << 8, sealed(count, flags))), chain.table(), position)?;
    verdict(run, &sent.1, 0)
}

/// Every monitor's cells are these, but for one cell of one monitor.
fn store_all(run: &mut Run, chain: &mut Chain, place: usize, cell: usize, code: i16) -> Done {
    for position in 1..=chain.monitors() {
        let mut codes = [USUAL; 16];
        if position == place {
            codes[cell] = code;
        }
        chain.store(run, position, &codes)?;
    }
    Ok(())
}

/// A chain of any bytes goes to sleep by the host's frames, all pass, something is wrong in two heartbeats, and after the flags are cleared
/// all pass again.
fn night(run: &mut Run, monitors: usize, port: u32, (code, flags, situation): (i16, u8, Situation)) -> Done {
    let mut chain = Chain::out_of_lpcm(run, monitors)?;
    let manager = if port == PORT_A { monitors } else { 1 };
    let settings = |position: usize| {
        let role = if position == manager { 0x80 } else { 0x00 };
        [role, 0x42 + monitors as u8, 0x00, 0x00, if port == PORT_A { 0x20 } else { 0x00 }, 0x00]
    };
    let settings: Vec<u8> = (1..=monitors).flat_map(settings).collect();
    host(run, &mut chain, CLRFLAG, &vec![0xFF; 6 * monitors])?;
    host(run, &mut chain, WRCMCELLT, &THRESHOLDS.repeat(monitors))?;
    host(run, &mut chain, WRCMCFG, &settings)?;
    host(run, &mut chain, CLRCMFLAG, &vec![0xFF; 2 * monitors])?;
    let (place, cell) = (run.random.within(1, monitors), run.random.below(16));
    store_all(run, &mut chain, place, cell, USUAL)?;
    host(run, &mut chain, CMEN, &[])?;
    let found = beat(run, &mut chain, port, PASS_COUNT, 0x00)?;
    run.tally.saw_if(Situation::NightPassed, found == PASSED);

    store_all(run, &mut chain, place, cell, code)?;
    for _ in 0..2 {
        // A second CMEN hides nothing.
        host(run, &mut chain, CMEN, &[])?;
        let found = beat(run, &mut chain, port, PASS_COUNT + 1, flags)?;
        run.tally.saw_if(situation, found & 0xFFFF == 2 << 8);
    }

    host(run, &mut chain, CMDIS, &[])?;
    host(run, &mut chain, CLRCMFLAG, &vec![0xFF; 2 * monitors])?;
    store_all(run, &mut chain, place, cell, USUAL)?;
    host(run, &mut chain, CMEN, &[])?;
    let found = beat(run, &mut chain, port, PASS_COUNT, 0x00)?;
    run.tally.saw_if(Situation::NightCleared, found == PASSED);
    Ok(())
}

/// A timeout monitor nearest the host, whose flags RDCMFLAG shows: once it is enabled, after a heartbeat, after the time has run out, and after
/// one more heartbeat. Where a flag stood at some monitor none of them passes, and both of the timeout monitor's stay.
fn without_a_bridge(run: &mut Run, monitors: usize, fails: bool) -> Done {
    let mut bytes = asleep::chain(&mut run.random, monitors, monitors, PORT_A);
    set_role(&mut run.random, at_position(&mut bytes, 1), Role::TimeoutMonitor);
    if fails {
        let place = run.random.within(1, monitors);
        at_position(&mut bytes, place)[CMF0] = 1 << run.random.below(8);
    }
    let mut chain = Chain::of(run, &bytes)?;
    host(run, &mut chain, CMDIS, &[])?;
    let events: [(Event, u8); 4] = [(enable, 0x83), (from_farthest, 0x80), (at_nearest, 0x82), (from_farthest, 0x80)];
    for (event, passing) in events {
        event(run, &mut chain)?;
        let cmf1 = chain.read(run, RDCMFLAG)?[0][1];
        expect(run, Function::Frame, (cmf1, if fails { 0x83 } else { passing }), chain.table(), 1)?;
    }
    run.tally.saw(if fails { Situation::BridgelessNightFailed } else { Situation::BridgelessNightPassed });
    Ok(())
}

fn enable(run: &mut Run, chain: &mut Chain) -> Done {
    host(run, chain, CMEN, &[])
}

fn from_farthest(run: &mut Run, chain: &mut Chain) -> Done {
    let position = chain.monitors();
    chain.heartbeat(run, position)?;
    Ok(())
}

fn at_nearest(run: &mut Run, chain: &mut Chain) -> Done {
    chain.time_out(run, 1)
}

/// Frames, stores, compares, loads, wakes, messages, heartbeats and ends of the time in any order, on monitors that are mostly in LPCM.
fn among_other_events(run: &mut Run) -> Done {
    for (monitors, events) in [(1, 600), (2, 600), (3, 400), (6, 200), (MOST, 40)] {
        let bytes = asleep::table(&mut run.random, monitors);
        let mut chain = Chain::of(run, &bytes)?;
        for _ in 0..events {
            let event = run
                .random
                .pick(&[store, load, compare, clrcell, any_frame, any_frame, wake, wake, relay, relay, heartbeat, heartbeat, time_out]);
            event(run, &mut chain)?;
            if run.random.once_in(4) {
                let code = run.random.pick(&[CMEN, CMEN, CMDIS]);
                chain.frame(run, &head(code))?;
            }
        }
    }
    Ok(())
}
