//! What may come on a chain between the frames of a long read, and leaves the copy of a snapshot alone: other frames, stores, compares,
//! loads, and heartbeats. By both engines.

use crate::asleep::on_the_way;
use crate::chain::Chain;
use crate::difference::refused;
use crate::inputs::{self, damage, head, own_bytes, payload, UNSNAP};
use crate::messages::message;
use crate::run::{expect, Done, Run};
use crate::surface::Function;

const WRCFGA: u16 = 0x0001;
const CLRFLAG: u16 = 0x0717;
const CLOVUV: u16 = 0x0715;
const CLRCELL: u16 = 0x0711;

pub type Event = fn(&mut Run, &mut Chain) -> Done;

fn any_position(run: &mut Run, chain: &Chain) -> usize {
    run.random.within(1, chain.monitors())
}

pub fn store(run: &mut Run, chain: &mut Chain) -> Done {
    let position = any_position(run, chain);
    let codes = chain.codes_for(run, position);
    chain.store(run, position, &codes)
}

pub fn compare(run: &mut Run, chain: &mut Chain) -> Done {
    let position = any_position(run, chain);
    chain.compare(run, position)
}

pub fn load(run: &mut Run, chain: &mut Chain) -> Done {
    let position = any_position(run, chain);
    let codes = chain.codes_for(run, position);
    chain.load(run, position, &codes)
}

pub fn store_and_compare(run: &mut Run, chain: &mut Chain) -> Done {
    let position = any_position(run, chain);
    let codes = chain.codes_for(run, position);
    chain.store(run, position, &codes)?;
    chain.compare(run, position)
}

/// With right payloads only.
fn write(run: &mut Run, chain: &mut Chain, code: u16) -> Done {
    let payloads: Vec<u8> = (0..chain.monitors()).flat_map(|_| payload(&mut run.random, own_bytes(code))).collect();
    chain.frame(run, &[&head(code)[..], &payloads].concat())?;
    Ok(())
}

pub fn clovuv(run: &mut Run, chain: &mut Chain) -> Done {
    write(run, chain, CLOVUV)
}

pub fn clrflag(run: &mut Run, chain: &mut Chain) -> Done {
    write(run, chain, CLRFLAG)
}

pub fn clrcell(run: &mut Run, chain: &mut Chain) -> Done {
    chain.frame(run, &head(CLRCELL))?;
    Ok(())
}

pub fn wrcfga(run: &mut Run, chain: &mut Chain) -> Done {
    let frame = inputs::frame_of(&mut run.random, WRCFGA, chain.monitors());
    chain.frame(run, &frame)?;
    Ok(())
}

/// Good or bad, but no UNSNAP: nothing else may end a snapshot.
pub fn any_frame(run: &mut Run, chain: &mut Chain) -> Done {
    let frame = loop {
        let frame = inputs::frame(&mut run.random, chain.monitors());
        if frame != head(UNSNAP) {
            break frame;
        }
    };
    chain.frame(run, &frame)?;
    Ok(())
}

/// A wake, and where a message is sent the next monitor on its way is reached by it, struck now and then.
pub fn wake(run: &mut Run, chain: &mut Chain) -> Done {
    let position = any_position(run, chain);
    let (answer, mut message) = chain.wake(run, position)?;
    let way = on_the_way(chain.monitors(), position, answer >> 8 & 0xFF);
    if let Some(&next) = way.first().filter(|_| answer != 0) {
        if run.random.once_in(3) {
            damage(&mut run.random, &mut message);
        }
        chain.relay(run, next, &message)?;
    }
    Ok(())
}

/// Any message reaches any monitor.
pub fn relay(run: &mut Run, chain: &mut Chain) -> Done {
    let position = any_position(run, chain);
    let came = message(&mut run.random);
    chain.relay(run, position, &came)?;
    Ok(())
}

pub fn heartbeat(run: &mut Run, chain: &mut Chain) -> Done {
    let position = any_position(run, chain);
    chain.heartbeat(run, position)?;
    Ok(())
}

pub fn time_out(run: &mut Run, chain: &mut Chain) -> Done {
    let position = any_position(run, chain);
    chain.time_out(run, position)
}

/// With one wrong bit, which the check always tells, cut short, or with bytes after it.
pub fn refused_unsnap(run: &mut Run, chain: &mut Chain) -> Done {
    let mut frame = head(UNSNAP).to_vec();
    match run.random.below(4) {
        0 => frame.truncate(run.random.below(4)),
        1 => {
            let more = run.random.pick(&[1, 2, 8, 8 * chain.monitors()]);
            frame.extend(run.random.bytes(more));
        }
        _ => frame[run.random.below(4)] ^= 1 << run.random.below(8),
    }
    let before = chain.table().to_vec();
    let (answer, _) = chain.frame(run, &frame)?;
    expect(run, Function::Frame, (refused(answer), true), &before, chain.monitors())?;
    expect(run, Function::Frame, (chain.table(), &before), &before, chain.monitors())
}
