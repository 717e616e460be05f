//! A clock's state that was never started is any bytes. The paper says nothing of it, so no answer is compared: each call must come
//! back, leave what it may only read, and keep within the buffers that it was lent.

use crate::difference::{listed, Faults};
use crate::inputs;
use crate::lent::Lent;
use crate::run::{Done, Run};
use crate::surface::{self, Function, CLOCK_STATE};

pub fn cases(run: &mut Run) -> Done {
    for _ in 0..400 {
        let filled = match run.random.below(3) {
            0 => vec![run.random.byte(); CLOCK_STATE],
            _ => run.random.bytes(CLOCK_STATE),
        };
        let mut state = Lent::new(&mut run.random, &filled);
        for _ in 0..run.random.within(1, 20) {
            one_call(run, &mut state)?;
        }
    }
    Ok(())
}

fn one_call(run: &mut Run, state: &mut Lent<u8>) -> Done {
    let before = state.part().to_vec();
    let monitors = run.random.within(1, inputs::MOST);
    let sound = !run.random.once_in(4);
    let holds = if sound { inputs::table(&mut run.random, monitors) } else { inputs::unsound(&mut run.random) };
    let mut table = Lent::new(&mut run.random, &holds);
    let out_holds = run.random.bytes(monitors % 12);
    let mut out = Lent::new(&mut run.random, &out_holds);
    let byte = run.random.byte();
    let position = run.random.below(36);

    let mut faults = Faults::new();
    run.begin();
    let (function, answer) = match run.random.below(4) {
        0 => (Function::ClockRelease, surface::clock_release(state.part_mut(), table.part_mut())),
        1 => {
            let answer = surface::clock_window(state.part(), position, out.part_mut());
            faults.kept("state", state, &before);
            (Function::ClockWindow, answer)
        }
        _ => {
            let answer = surface::clock_byte(state.part_mut(), table.part(), byte);
            faults.kept("table", &table, &holds);
            (Function::ClockByte, answer)
        }
    };
    faults.canaries("state", state);
    faults.canaries("table", &table);
    faults.canaries("out", &out);
    run.settle(function, answer, faults, || {
        vec![
            ("state", listed(&before)),
            ("table", listed(&holds)),
            ("out", listed(&out_holds)),
            ("byte", format!("{byte:02X}")),
            ("position", position.to_string()),
        ]
    })?;
    Ok(())
}
