//! The octabytes touched on this thread since the last `start`, in the order of their first touch.

use std::cell::RefCell;

/// One octabyte, by its first byte's address.
#[derive(Clone, Copy, PartialEq, Eq, Debug)]
pub struct Touch {
    pub octabyte: u64,
    pub written: bool,
}

thread_local! {
    static TOUCHES: RefCell<(bool, Vec<Touch>)> = const { RefCell::new((false, Vec::new())) };
}

/// Forget what was noted and note from here on.
pub fn start() {
    TOUCHES.with_borrow_mut(|(on, list)| {
        *on = true;
        list.clear();
    });
}

/// Stop noting, and hand over what was noted. Neighbouring bytes of one octabyte give one entry.
pub fn stop(into: &mut Vec<Touch>) {
    TOUCHES.with_borrow_mut(|(on, list)| {
        *on = false;
        into.clear();
        into.extend_from_slice(list);
    });
}

/// A key of a map: an address is noted, any other key is not.
pub trait Key {
    fn note(&self, _written: bool) {}
}

impl Key for u64 {
    fn note(&self, written: bool) {
        let touch = Touch { octabyte: self & !7, written };
        TOUCHES.with_borrow_mut(|(on, list)| {
            if *on && list.last() != Some(&touch) {
                list.push(touch);
            }
        });
    }
}

impl Key for u8 {}
impl Key for String {}
