//! What a call answers where Rust's allocator refuses the room for its text or list. The library
//! has its memory from `malloc`, and still gets it.
use qtree::{Device, Error, EventKind, Settings, Show};
use std::alloc::{GlobalAlloc, Layout, System};
use std::cell::Cell;
use std::ptr;

thread_local! {
    static REFUSES: Cell<bool> = const { Cell::new(false) };
}

struct Refusing;

// SAFETY: it is the system's allocator, or gives nothing.
unsafe impl GlobalAlloc for Refusing {
    unsafe fn alloc(&self, layout: Layout) -> *mut u8 {
        if REFUSES.get() {
            return ptr::null_mut();
        }
        // SAFETY: the caller keeps to what `GlobalAlloc` asks.
        unsafe { System.alloc(layout) }
    }

    unsafe fn dealloc(&self, place: *mut u8, layout: Layout) {
        // SAFETY: the place is the system's, since `alloc` gave it.
        unsafe { System.dealloc(place, layout) }
    }
}

#[global_allocator]
static ALLOCATOR: Refusing = Refusing;

#[test]
fn a_text_whose_room_is_refused_is_memory() -> Result<(), Error> {
    let mut device = Device::open(Settings {
        recorder: 10,
        ..Settings::default()
    })?;
    device.command("tc qdisc add dev wan root handle 1: drr", 0)?;
    REFUSES.set(true);
    let shown = device.show(Show::Counters);
    let script = device.recorded_script();
    let recorded = device.recorded(0);
    REFUSES.set(false);
    assert_eq!(shown, Err(Error::Memory));
    assert_eq!(script, Err(Error::Memory));
    assert_eq!(recorded.err(), Some(Error::Memory));
    assert!(
        device
            .show(Show::Counters)?
            .starts_with("qdisc drr 1: root")
    );
    Ok(())
}

#[test]
fn last_events_whose_room_is_refused_are_memory() -> Result<(), Error> {
    let mut device = Device::open(Settings::default())?;
    device.keep_last(2)?;
    device.command("tc qdisc add dev wan root handle 1: drr", 0)?;
    device.poll(3)?;
    REFUSES.set(true);
    let command = device.last_event(0);
    let poll = device.last_event(1);
    let both = device.last_events();
    REFUSES.set(false);
    assert_eq!(command, Err(Error::Memory));
    assert_eq!(poll?.map(|it| it.kind), Some(EventKind::Polled));
    assert_eq!(both, Err(Error::Memory));
    assert_eq!(device.last_events()?.len(), 2);
    Ok(())
}

#[test]
fn a_list_of_polls_whose_room_is_refused_is_memory() -> Result<(), Error> {
    let mut device = Device::open(Settings::default())?;
    device.keep_last(2)?;
    device.poll(3)?;
    REFUSES.set(true);
    let polls = device.last_events();
    REFUSES.set(false);
    assert_eq!(polls, Err(Error::Memory));
    Ok(())
}
