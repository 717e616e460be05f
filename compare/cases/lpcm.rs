//! Low power cell monitoring (L8): its settings and flags as the host writes and reads them, what CMEN and CMDIS leave, and that from the one
//! to the other a monitor takes no write. By both engines.

use crate::chain::Chain;
use crate::difference::Difference;
use crate::events::{any_frame, clrcell, heartbeat, load, relay, store};
use crate::host::built;
use crate::inputs::{
    self, at, data_of, head, in_lpcm, own_bytes, part_shown, payload, values_owed, writes, CELLS, CELL_READS, CLRCMFLAG, CMDIS, CMEN, CMF0,
    CMF1, CMHB, COPY, LAST, MOST, RDCMCELLT, RDCMCFG, RDCMFLAG, RDCMGPIOT, RECORD, SNAP, UNSNAP, WRCMCELLT, WRCMCFG, WRCMGPIOT, WRRR,
};
use crate::run::{expect, Done, Run, Written};
use crate::surface::Function;
use crate::tally::Situation;

const ULRR: u16 = 0x0038;
const RDRR: u16 = 0x003A;

/// What is kept of six bytes: the whole LPCM configuration, and of thresholds three numbers of twelve bits.
const ALL_BITS: [u8; 6] = [0xFF; 6];
const THRESHOLD_BITS: [u8; 6] = [0xFF, 0xFF, 0xFF, 0xFF, 0x0F, 0x00];

pub fn cases(run: &mut Run) -> Done {
    settings(run)?;
    flags(run)?;
    in_any_order(run)?;
    asleep_and_awake(run)?;
    but_for_one(run)?;
    retention(run)?;
    last_measurement(run)?;
    in_a_snapshot(run)?;
    other_lengths(run)?;
    heartbeats(run)
}

/// The host's frame of a write with any values. Gives what the chain answers, and each monitor's values, nearest first.
fn written(run: &mut Run, chain: &mut Chain, code: u16) -> Result<(u32, Vec<Vec<u8>>), Box<Difference>> {
    let monitors = chain.monitors();
    let values = run.random.bytes(values_owed(code, monitors));
    let frame = built(run, code, monitors, &values)?;
    let (answer, _) = chain.frame(run, &frame)?;
    Ok((answer, values.chunks(own_bytes(code) - 2).map(<[u8]>::to_vec).collect()))
}

/// The answer of a write that all monitors take but those in LPCM.
fn out_of_lpcm(table: &[u8]) -> u32 {
    (table.chunks(RECORD).filter(|record| !in_lpcm(record)).count() as u32) << 8
}

/// Six bytes from this one on of each record.
fn sixes(table: &[u8], first: usize) -> Vec<Vec<u8>> {
    table.chunks(RECORD).map(|record| record[first..first + 6].to_vec()).collect()
}

/// A write by the host and a read. Each monitor shows what is due of what stood and was sent, and in LPCM what stood. `situations` are for a
/// monitor out of LPCM and in LPCM, where what is due is not what stood.
fn written_and_read(
    run: &mut Run,
    chain: &mut Chain,
    [write, show]: [u16; 2],
    (first, due): (usize, &dyn Fn(&[u8], &[u8]) -> Vec<u8>),
    situations: [Situation; 2],
) -> Done {
    let before = chain.table().to_vec();
    let stood = sixes(&before, first);
    let (answer, sent) = written(run, chain, write)?;
    expect(run, Function::Frame, (answer, out_of_lpcm(&before)), &before, chain.monitors())?;

    let due: Vec<Vec<u8>> = stood.iter().zip(&sent).map(|(stood, sent)| due(stood, sent)).collect();
    let lpcm: Vec<bool> = before.chunks(RECORD).map(in_lpcm).collect();
    let expected = (0..chain.monitors()).map(|index| if lpcm[index] { &stood[index] } else { &due[index] }.clone()).collect();
    let found = chain.read(run, show)?;
    expect(run, Function::Frame, (found, expected), &before, chain.monitors())?;
    for (situation, on) in situations.into_iter().zip([false, true]) {
        run.tally.saw_if(situation, (0..chain.monitors()).any(|index| lpcm[index] == on && due[index] != stood[index]));
    }
    Ok(())
}

/// Each group of settings at each N.
fn settings(run: &mut Run) -> Done {
    let groups = [
        ([WRCMCFG, RDCMCFG], at::LPCM_CONFIGURATION, ALL_BITS),
        ([WRCMCELLT, RDCMCELLT], at::LPCM_CELL_THRESHOLDS, THRESHOLD_BITS),
        ([WRCMGPIOT, RDCMGPIOT], at::LPCM_GPIO_THRESHOLDS, THRESHOLD_BITS),
    ];
    for (monitors, (codes, first, kept)) in (1..=MOST).flat_map(|monitors| groups.map(|group| (monitors, group))) {
        let masked = |_: &[u8], sent: &[u8]| sent.iter().zip(kept).map(|(sent, kept)| sent & kept).collect();
        let mut chain = Chain::new(run, monitors)?;
        written_and_read(run, &mut chain, codes, (first, &masked), [Situation::SettingsShown, Situation::SettingsKept])?;
    }
    Ok(())
}

/// CLRCMFLAG and RDCMFLAG at each N: CMF0 alone changes, by the first of two bytes.
fn flags(run: &mut Run) -> Done {
    let cleared = |stood: &[u8], sent: &[u8]| [&[stood[0] & !sent[0]], &stood[1..]].concat();
    for (monitors, _) in (1..=MOST).flat_map(|monitors| (0..4).map(move |turn| (monitors, turn))) {
        let mut chain = Chain::new(run, monitors)?;
        let codes = [CLRCMFLAG, RDCMFLAG];
        written_and_read(run, &mut chain, codes, (CMF0, &cleared), [Situation::FlagsShown, Situation::FlagsKept])?;
    }
    Ok(())
}

/// CMEN or CMDIS. Every monitor takes it, counts it and is locked after it, and no other byte changes than these rules say.
fn send(run: &mut Run, chain: &mut Chain, code: u16) -> Done {
    let before = chain.table().to_vec();
    let mut expected = before.clone();
    for record in expected.chunks_mut(RECORD) {
        record[at::COUNTER] = record[at::COUNTER] % 63 + 1;
        record[at::UNLOCKED] = 0;
        if code == CMDIS {
            record[CMF1] &= 0x7F;
        } else if !in_lpcm(record) {
            record[CMF1] = 0x83;
            record.copy_within(CELLS, LAST.start);
        }
    }
    let monitors = chain.monitors();
    let (answer, _) = chain.frame(run, &head(code))?;
    expect(run, Function::Frame, (answer, (monitors as u32) << 8), &before, monitors)?;
    expect(run, Function::Frame, (chain.table(), &expected), &before, monitors)
}

fn bare(run: &mut Run, chain: &mut Chain, code: u16) -> Written {
    chain.frame(run, &head(code))
}

/// Each of the two on any table of each N, and then one event after another with now and then one of them.
fn in_any_order(run: &mut Run) -> Done {
    for (monitors, code) in (1..=MOST).flat_map(|monitors| [CMEN, CMDIS].map(|code| (monitors, code))) {
        for _ in 0..4 {
            let mut chain = Chain::new(run, monitors)?;
            send(run, &mut chain, code)?;
        }
    }
    for (monitors, events) in [(1, 200), (2, 200), (3, 100), (6, 60), (MOST, 15)] {
        let mut chain = Chain::new(run, monitors)?;
        for _ in 0..events {
            let event = run.random.pick(&[store, load, clrcell, any_frame, any_frame, heartbeat, relay]);
            event(run, &mut chain)?;
            if run.random.once_in(3) {
                let code = run.random.pick(&[CMEN, CMDIS, CMDIS]);
                send(run, &mut chain, code)?;
            }
        }
    }
    Ok(())
}

/// Each write out of LPCM, in LPCM, where it leaves the table as ULRR or nothing before it would without it, and out of LPCM again.
fn asleep_and_awake(run: &mut Run) -> Done {
    for (code, turn) in writes().flat_map(|code| (0..8).map(move |turn| (code, turn))) {
        let monitors = run.random.pick(&[1, 2, 3, 5]);
        let mut chain = Chain::out_of_lpcm(run, monitors)?;
        let all = (monitors as u32) << 8;
        let (answer, _) = written(run, &mut chain, code)?;
        expect(run, Function::Frame, (answer, all), chain.table(), monitors)?;

        send(run, &mut chain, CMEN)?;
        if turn % 2 == 1 {
            bare(run, &mut chain, ULRR)?;
        }
        let mut asleep = chain.table().to_vec();
        asleep.chunks_mut(RECORD).for_each(|record| record[at::UNLOCKED] = 0);
        let (answer, _) = written(run, &mut chain, code)?;
        expect(run, Function::Frame, (answer, 0), &asleep, monitors)?;
        expect(run, Function::Frame, (chain.table(), &asleep), &asleep, monitors)?;

        send(run, &mut chain, CMDIS)?;
        let (answer, _) = written(run, &mut chain, code)?;
        expect(run, Function::Frame, (answer, all), chain.table(), monitors)?;
        run.tally.saw(Situation::AsleepAndAwake);
    }
    Ok(())
}

/// All monitors in LPCM but one, at each place of a short chain: it takes its own payload of each write, and no other one does.
fn but_for_one(run: &mut Run) -> Done {
    let places = (2..=6).flat_map(|monitors| (0..monitors).map(move |one| (monitors, one)));
    for ((monitors, one), code) in places.flat_map(|place| writes().map(move |code| (place, code))) {
        let before = inputs::table_in_lpcm(&mut run.random, monitors, Some(one));
        let mut chain = Chain::of(run, &before)?;
        let (answer, _) = written(run, &mut chain, code)?;
        expect(run, Function::Frame, (answer, 1 << 8), &before, monitors)?;
        for (index, (before, after)) in before.chunks(RECORD).zip(chain.table().chunks(RECORD)).enumerate() {
            let mut kept = before.to_vec();
            kept[at::UNLOCKED] = 0;
            expect(run, Function::Frame, (after == kept, index != one), before, index + 1)?;
        }
    }
    Ok(())
}

/// CMEN, ULRR, WRRR, right or damaged, and RDRR.
fn retention(run: &mut Run) -> Done {
    for _ in 0..60 {
        let monitors = run.random.pick(&[1, 1, 2, 3]);
        let mut chain = Chain::new(run, monitors)?;
        send(run, &mut chain, CMEN)?;
        bare(run, &mut chain, ULRR)?;
        let stood = sixes(chain.table(), at::RETENTION);
        let frame = inputs::frame_of(&mut run.random, WRRR, monitors);
        let (answer, _) = chain.frame(run, &frame)?;
        expect(run, Function::Frame, (answer, 0), chain.table(), monitors)?;
        let sent: Vec<Vec<u8>> = frame[4..].chunks(8).rev().map(|eight| data_of(eight).to_vec()).collect();
        let found = chain.read(run, RDRR)?;
        run.tally.saw_if(Situation::RetentionInLpcm, sent != stood);
        expect(run, Function::Frame, (found, stood), chain.table(), monitors)?;
    }
    Ok(())
}

fn last(chain: &Chain) -> Vec<u8> {
    chain.table().chunks(RECORD).flat_map(|record| record[LAST].to_vec()).collect()
}

/// Enabling twice must not hide a jump; enabling anew takes the cells of its own moment.
fn last_measurement(run: &mut Run) -> Done {
    for _ in 0..60 {
        let monitors = run.random.pick(&[1, 1, 2, 3]);
        let mut chain = Chain::new(run, monitors)?;
        send(run, &mut chain, CMDIS)?;
        store(run, &mut chain)?;
        send(run, &mut chain, CMEN)?;
        let first = last(&chain);
        store(run, &mut chain)?;
        let jumped = chain.table().chunks(RECORD).any(|record| record[LAST] != record[CELLS]);
        send(run, &mut chain, CMEN)?;
        expect(run, Function::Frame, (last(&chain), first.clone()), chain.table(), monitors)?;
        run.tally.saw_if(Situation::LastOfFirstCmen, jumped);

        send(run, &mut chain, CMDIS)?;
        send(run, &mut chain, CMEN)?;
        run.tally.saw_if(Situation::LastOfLaterCmen, last(&chain) != first);
    }
    Ok(())
}

/// SNAP, a store and CMEN: what is enabled goes by the live cells, and what is read by the copy.
fn in_a_snapshot(run: &mut Run) -> Done {
    for _ in 0..60 {
        let monitors = run.random.pick(&[1, 1, 2, 3]);
        let mut chain = Chain::new(run, monitors)?;
        for code in [UNSNAP, CMDIS, SNAP] {
            bare(run, &mut chain, code)?;
        }
        store(run, &mut chain)?;
        send(run, &mut chain, CMEN)?;
        let code = run.random.pick(&CELL_READS);
        let part = part_shown(code).expect("a cell read");
        let of_copy = chain.table().chunks(RECORD).map(|record| {
            let mut six = record[COPY][part.clone()].to_vec();
            six.resize(6, 0xFF);
            six
        });
        let expected = of_copy.collect();
        let found = chain.read(run, code)?;
        expect(run, Function::Frame, (found, expected), chain.table(), monitors)?;
        run.tally.saw_if(Situation::LiveInSnapshot, chain.table().chunks(RECORD).any(|record| record[LAST] != record[COPY]));
    }
    Ok(())
}

/// Each write at each N with the other number of bytes for each monitor: CLRCMFLAG with eight, and the others with four.
fn other_lengths(run: &mut Run) -> Done {
    for (monitors, code) in (1..=MOST).flat_map(|monitors| writes().map(move |code| (monitors, code))) {
        for _ in 0..if code == CLRCMFLAG { 4 } else { 1 } {
            let other = if own_bytes(code) == 4 { 8 } else { 4 };
            let payloads: Vec<u8> = (0..monitors).flat_map(|_| payload(&mut run.random, other)).collect();
            refused_with(run, 5, monitors, &[&head(code)[..], &payloads].concat())?;
        }
    }
    Ok(())
}

/// CMHB alone, as the message of a heartbeat, and with bytes for each monitor.
fn heartbeats(run: &mut Run) -> Done {
    for (turn, bytes) in (0..30).flat_map(|turn| [0, 4, 8].map(|bytes| (turn, bytes))) {
        let monitors = run.random.pick(&[1, 2, 3, 6]);
        let messages = if turn % 2 == 0 { 1 } else { monitors };
        let rest: Vec<u8> = (0..messages).filter(|_| bytes > 0).flat_map(|_| payload(&mut run.random, bytes)).collect();
        refused_with(run, 4, monitors, &[&head(CMHB)[..], &rest].concat())?;
    }
    Ok(())
}

/// By any table, which keeps every byte.
fn refused_with(run: &mut Run, number: u32, monitors: usize, frame: &[u8]) -> Done {
    let before = inputs::table(&mut run.random, monitors);
    let mut chain = Chain::of(run, &before)?;
    let (answer, _) = chain.frame(run, frame)?;
    expect(run, Function::Frame, (answer, number), &before, monitors)?;
    expect(run, Function::Frame, (chain.table(), &before), &before, monitors)
}
