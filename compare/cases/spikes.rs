//! What a spike on the wire can do (L7): which bits of which frames are flipped. By both engines.

use crate::inputs::{self, own_bytes, writes, CLRCMFLAG, LISTED, MOST};
use crate::run::{Done, Run};
use crate::sent::{Sent, COMMAND};
use crate::spike::{Spike, COMMAND_PLACES, DATA_PLACES};

const WRCFGB: u16 = 0x0024;

/// The spike of one place more that each check does not tell.
const DATA_POLYNOMIAL: u16 = 0x48F;
const COMMAND_POLYNOMIAL: u16 = 0xC599;

pub fn cases(run: &mut Run) -> Done {
    every_write_at_every_n(run)?;
    each_border(run)?;
    ten_of_every_write(run)?;
    every_write_in_lpcm(run)?;
    each_part_of_a_payload(run)?;
    every_spike_of_eleven(run)?;
    eleven_at_each_place(run)?;
    every_command(run)?;
    each_other_code(run)?;
    every_spike_of_sixteen(run)?;
    sixteen_at_each_place(run)
}

/// At the farthest monitor and at the nearest, anywhere, and of exactly ten places.
fn every_write_at_every_n(run: &mut Run) -> Done {
    for (code, monitors) in writes().flat_map(|code| (1..=MOST).map(move |monitors| (code, monitors))) {
        let sent = Sent::new(run, code, monitors)?;
        let random = &mut run.random;
        let spikes = [
            Spike::any(random, sent.payload(0), DATA_PLACES),
            Spike::any(random, sent.payload(monitors - 1), DATA_PLACES),
            Spike::any(random, sent.payloads(), DATA_PLACES),
            Spike::of_width(random, sent.payloads(), DATA_PLACES),
        ];
        for spike in spikes {
            sent.strike(run, spike)?;
        }
    }
    Ok(())
}

/// Each border of each N with any write, and of a short chain with every write.
fn each_border(run: &mut Run) -> Done {
    let all: Vec<u16> = writes().collect();
    for (monitors, after) in (2..=MOST).flat_map(|monitors| (1..monitors).map(move |after| (monitors, after))) {
        let any = [run.random.pick(&all)];
        for &code in if monitors <= 6 { &all[..] } else { &any } {
            let sent = Sent::new(run, code, monitors)?;
            let width = if run.random.once_in(2) { DATA_PLACES } else { run.random.within(2, DATA_PLACES) };
            let spike = Spike::over(&mut run.random, sent.payload(after).start, width);
            sent.strike(run, spike)?;
        }
    }
    Ok(())
}

/// Exactly ten places of two payloads, and of one, where it shows that neither is taken.
fn ten_of_every_write(run: &mut Run) -> Done {
    for (code, _) in writes().flat_map(|code| (0..35).map(move |turn| (code, turn))) {
        let monitors = run.random.within(2, 4);
        let sent = Sent::telling(run, code, monitors)?;
        let after = run.random.within(1, monitors - 1);
        let over_border = Spike::over(&mut run.random, sent.payload(after).start, DATA_PLACES);
        sent.strike(run, over_border)?;
        let in_one = Spike::of_width(&mut run.random, sent.payload(after), DATA_PLACES);
        sent.strike(run, in_one)?;
    }
    Ok(())
}

/// A chain with all its monitors in LPCM, or all but one.
fn every_write_in_lpcm(run: &mut Run) -> Done {
    for (code, turn) in writes().flat_map(|code| (0..80).map(move |turn| (code, turn))) {
        let monitors = run.random.within(1, 3);
        let but_for = (turn % 2 == 1).then(|| run.random.below(monitors));
        let sent = Sent::in_lpcm(run, code, monitors, but_for)?;
        let spike = Spike::any(&mut run.random, sent.payloads(), DATA_PLACES);
        sent.strike(run, spike)?;
    }
    Ok(())
}

/// The data, its first byte and its last, the counter bits, the check, and its two highest bits, which stand in another byte than the rest
/// of it.
fn each_part_of_a_payload(run: &mut Run) -> Done {
    let parts = |code: u16| {
        let data = 8 * own_bytes(code) - 16;
        [0..data, 0..8, data - 8..data, data..data + 6, data + 6..data + 16, data + 6..data + 8].map(|part| (code, part))
    };
    for (code, part) in writes().flat_map(parts) {
        let short = code == CLRCMFLAG;
        for _ in 0..if short { 40 } else { 20 } {
            let monitors = run.random.pick(&[1, 2, 3, 6]);
            let sent = if short { Sent::telling(run, code, monitors)? } else { Sent::new(run, code, monitors)? };
            let first = sent.payload(run.random.below(monitors)).start;
            let spike = Spike::any(&mut run.random, first + part.start..first + part.end, DATA_PLACES);
            sent.strike(run, spike)?;
        }
    }
    Ok(())
}

/// All spikes of up to ten places in the payloads of two monitors, and those of eleven: of them the polynomial gets through wherever it
/// lies in one payload, and no other. With payloads of eight bytes, and of four.
fn every_spike_of_eleven(run: &mut Run) -> Done {
    for (code, all_told, all_slipped) in [(WRCFGB, 61_439, 2 * 54), (CLRCMFLAG, 28_671, 2 * 22)] {
        let sent = Sent::out_of_lpcm(run, code, 2)?.in_bulk();
        let (mut told, mut slipped) = (0, 0);
        for spike in Spike::every(sent.payloads(), DATA_PLACES + 1) {
            if [0, 1].iter().any(|&after| spike.is(DATA_POLYNOMIAL, sent.payload(after))) {
                sent.slip(run, spike)?;
                slipped += 1;
            } else {
                sent.strike(run, spike)?;
                told += usize::from(spike.width() <= DATA_PLACES);
            }
        }
        sent.expect(run, ([told, slipped], [all_told, all_slipped]))?;
    }
    Ok(())
}

/// The polynomial over eleven places of a payload.
fn eleven_at_each_place(run: &mut Run) -> Done {
    let places = |code: u16| (0..8 * own_bytes(code) - DATA_PLACES).map(move |place| (code, place));
    for (code, place) in writes().flat_map(places) {
        for _ in 0..if code == CLRCMFLAG { 24 } else { 8 } {
            let monitors = run.random.pick(&[1, 1, 2, 3]);
            let sent = Sent::new(run, code, monitors)?;
            let first = sent.payload(run.random.below(monitors)).start;
            sent.slip(run, Spike::of(first + place, DATA_POLYNOMIAL))?;
        }
    }
    Ok(())
}

/// In the code, in its check, at the last place, of exactly fifteen places, anywhere, and over the border to the first payload.
fn every_command(run: &mut Run) -> Done {
    for ((code, _), turn) in LISTED.into_iter().flat_map(|listed| (0..8).map(move |turn| (listed, turn))) {
        let monitors = if turn == 0 { MOST } else { run.random.within(1, 6) };
        let sent = Sent::new(run, code, monitors)?;
        let random = &mut run.random;
        let mut spikes = vec![
            Spike::any(random, 0..16, COMMAND_PLACES),
            Spike::any(random, 16..31, COMMAND_PLACES),
            Spike::of(31, 1),
            Spike::of_width(random, COMMAND, COMMAND_PLACES),
            Spike::any(random, COMMAND, COMMAND_PLACES),
        ];
        if !sent.payloads().is_empty() {
            let width = run.random.within(2, COMMAND_PLACES);
            spikes.push(Spike::over(&mut run.random, COMMAND.end, width));
        }
        for spike in spikes {
            sent.strike(run, spike)?;
        }
    }
    Ok(())
}

/// Each command with the code of each other one, to which its check does not belong.
fn each_other_code(run: &mut Run) -> Done {
    let pairs = LISTED.iter().flat_map(|(code, _)| LISTED.iter().map(move |(other, _)| (*code, code ^ other)));
    for (code, flips) in pairs.filter(|(_, flips)| *flips != 0) {
        let monitors = run.random.pick(&[1, 1, 2, 5]);
        let sent = Sent::new(run, code, monitors)?;
        sent.strike(run, Spike::of(flips.leading_zeros() as usize, flips))?;
    }
    Ok(())
}

/// All spikes of up to fifteen places in one command, and those of sixteen: of them the polynomial gets through wherever it leaves the last
/// place alone, and no other.
fn every_spike_of_sixteen(run: &mut Run) -> Done {
    let code = inputs::any_listed(&mut run.random);
    let sent = Sent::new(run, code, 1)?.in_bulk();
    let (mut told, mut mistaken) = (0, 0);
    for spike in Spike::every(COMMAND, COMMAND_PLACES + 1) {
        if spike.is(COMMAND_POLYNOMIAL, COMMAND.start..COMMAND.end - 1) {
            sent.mistake(run, spike)?;
            mistaken += 1;
        } else {
            sent.strike(run, spike)?;
            told += usize::from(spike.width() <= COMMAND_PLACES);
        }
    }
    sent.expect(run, ([told, mistaken], [311_295, 16]))
}

/// The polynomial over sixteen places of a command.
fn sixteen_at_each_place(run: &mut Run) -> Done {
    for ((code, _), place) in LISTED.into_iter().flat_map(|listed| (0..16).map(move |place| (listed, place))) {
        for _ in 0..7 {
            let monitors = run.random.pick(&[1, 1, 2, 3, 6]);
            let sent = Sent::new(run, code, monitors)?;
            sent.mistake(run, Spike::of(place, COMMAND_POLYNOMIAL))?;
        }
    }
    Ok(())
}
