//! One end's calls in the middle of the other's: before an access to shared words the other end may run. Threads seldom meet at the
//! places that matter; here they do, and in the same way in each run.
mod device;
mod revision1;
mod ring;

use super::Shared;
use std::cell::RefCell;
use std::rc::Rc;
use std::sync::atomic::AtomicU32;

type OtherEnd = Box<dyn FnMut()>;

thread_local! {
    static OTHER_END: RefCell<Option<OtherEnd>> = const { RefCell::new(None) };
}

/// The other end's chance, unless it is itself what runs.
pub(super) fn pause() {
    if let Some(mut other_end) = OTHER_END.take() {
        other_end();
        OTHER_END.set(Some(other_end));
    }
}

/// Which end is interrupted by calls of the other.
#[derive(Clone, Copy)]
enum Interrupted {
    Writer,
    Reader,
}

/// Calls one end, and meanwhile the other: often for some time, then seldom.
fn interleave(calls: u32, mut one: impl FnMut(), mut other: impl FnMut() + 'static) {
    let mut state = 1_u32;
    let mut pauses = 0_u32;
    OTHER_END.set(Some(Box::new(move || {
        state = state.wrapping_mul(1_664_525).wrapping_add(1_013_904_223);
        pauses += 1;
        let one_in = if pauses & 4096 == 0 { 2 } else { 32 };
        if (state >> 16).is_multiple_of(one_in) {
            other();
        }
    })));
    for _ in 0..calls {
        one();
    }
    OTHER_END.set(None);
}

/// Makes a call of one end, and one of the other before that access of the first, counted from 1.
fn interrupt<T>(access: u32, one: impl FnOnce() -> T, other: impl FnOnce() + 'static) -> T {
    let mut accesses = 0;
    let mut other = Some(other);
    OTHER_END.set(Some(Box::new(move || {
        accesses += 1;
        if accesses == access {
            other.take().expect("the only time")();
        }
    })));
    let answer = one();
    OTHER_END.set(None);
    answer
}

/// Both ends' calls, one within the other.
fn run<W: 'static, R: 'static>(
    writer: W,
    write: fn(&mut W),
    reader: R,
    read: fn(&mut R),
    which: Interrupted,
) -> (W, R) {
    let writer = Rc::new(RefCell::new(writer));
    let reader = Rc::new(RefCell::new(reader));
    let (lent_writer, lent_reader) = (writer.clone(), reader.clone());
    let write = move || write(&mut lent_writer.borrow_mut());
    let read = move || read(&mut lent_reader.borrow_mut());
    match which {
        Interrupted::Writer => interleave(20_000, write, read),
        Interrupted::Reader => interleave(20_000, read, write),
    }
    let only = "both closures are gone";
    (
        Rc::into_inner(writer).expect(only).into_inner(),
        Rc::into_inner(reader).expect(only).into_inner(),
    )
}

fn shared_words(bytes: usize) -> Shared<'static> {
    let words: Vec<AtomicU32> = (0..bytes / 4).map(|_| AtomicU32::new(0)).collect();
    Shared::new(Vec::leak(words))
}
