//! A smaller case that still differs: whatever may be zero, or short, is made so.

use crate::case::{Call, Case};
use crate::compare::compare;
use crate::lent::Window;
use crate::opcodes::is_transfer;
use crate::reference::Reference;
use crate::state::{RG, RO, RS, STACK_START};
use crate::subject::Subject;

/// Shrink a case that differs. At most `PASSES` times over all its parts.
pub fn shrink(reference: &mut Reference, subjects: &[Box<dyn Subject>], case: &Case) -> Case {
    const PASSES: usize = 4;
    let mut small = case.clone();
    for _ in 0..PASSES {
        let before = small.clone();
        for change in changes(&small) {
            let mut next = small.clone();
            change(&mut next);
            if next != small && compare(reference, subjects, &next).is_err() {
                small = next;
            }
        }
        if small == before {
            break;
        }
    }
    small
}

type Change = Box<dyn Fn(&mut Case)>;

fn changes(case: &Case) -> Vec<Change> {
    let mut list: Vec<Change> = vec![
        Box::new(|c| c.state.general.fill(0)),
        Box::new(|c| c.partly = 0),
        Box::new(|c| c.state.pc = 0),
        Box::new(|c| c.state.halt = 0),
        Box::new(|c| c.state.marks = 0),
        Box::new(|c| c.state.mask = 0),
        Box::new(|c| c.state.special[RG] = 32),
        Box::new(|c| c.state.special[RS] = c.state.special[RO]),
        Box::new(|c| {
            let by = c.windows.b.base.wrapping_sub(STACK_START);
            c.windows.a.base = c.windows.a.base.wrapping_sub(by);
            c.windows.b.base = c.windows.b.base.wrapping_sub(by);
            c.state.special[RO] = c.state.special[RO].wrapping_sub(by);
            if let Call::Step(i) = c.call
                && is_transfer(i.op)
            {
                let pointer = &mut c.state.general[i.y as usize];
                *pointer = pointer.wrapping_sub(by);
            }
        }),
    ];
    for k in 0..256 {
        list.push(Box::new(move |c| c.state.general[k] = 0));
        list.push(Box::new(move |c| c.state.general[k] = c.state.general[k].min(1)));
    }
    for k in 0..32 {
        list.push(Box::new(move |c| c.state.special[k] = 0));
    }
    of_window(&mut list, &case.windows.a, |c| &mut c.windows.a);
    of_window(&mut list, &case.windows.b, |c| &mut c.windows.b);
    list.push(Box::new(|c| c.windows.a = Window::default()));
    for zeroed in 0..3 {
        list.push(Box::new(move |c| match &mut c.call {
            Call::Step(i) | Call::Exceptions { of: i, .. } => match zeroed {
                0 => i.x = 0,
                1 => i.y = 0,
                _ => i.z = 0,
            },
            _ => {}
        }));
    }
    for by in (0..20).rev() {
        list.push(Box::new(move |c| {
            if let Call::Run { grant } = &mut c.call {
                *grant = grant.saturating_sub(1 << by);
            }
        }));
    }
    for by in (2..64).rev() {
        list.push(Box::new(move |c| {
            if let Call::Field { from, to, .. } = &mut c.call
                && *from >> by != 0
            {
                (*from, *to) = (from.wrapping_sub(1 << by), to.wrapping_sub(1 << by));
            }
        }));
    }
    list
}

/// The changes of one window.
fn of_window(list: &mut Vec<Change>, window: &Window, of: fn(&mut Case) -> &mut Window) {
    list.push(Box::new(move |c| of(c).bytes.fill(0)));
    for part in [2, 4, 8] {
        list.push(Box::new(move |c| {
            let bytes = &mut of(c).bytes;
            let keep = bytes.len() - bytes.len() / 8 / part * 8;
            bytes.truncate(keep);
        }));
        list.push(Box::new(move |c| {
            let window = of(c);
            let drop = window.bytes.len() / 8 / part * 8;
            window.bytes.drain(..drop);
            window.base = window.base.wrapping_add(drop as u64);
        }));
    }
    list.push(Box::new(move |c| {
        let keep = of(c).bytes.len().saturating_sub(8);
        of(c).bytes.truncate(keep);
    }));
    for k in (0..window.bytes.len() / 8).filter(|k| window.bytes[8 * k..8 * k + 8] != [0; 8]) {
        list.push(Box::new(move |c| {
            if let Some(bytes) = of(c).bytes.get_mut(8 * k..8 * k + 8) {
                bytes.fill(0);
            }
        }));
    }
}
