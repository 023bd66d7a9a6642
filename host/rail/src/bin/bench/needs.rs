//! How much stack a call takes, and how many bytes it copies. The call is made on a thread whose stack was filled with one byte before: what is overwritten
//! afterwards was in use.

use crate::checksum;
use crate::clock::copied;
use crate::ends::{open, Opened};
use crate::filling::{fill, Filled, Lone};
use oilwhisper::ffi::BOOK_9260;
use oilwhisper::library::{Echoed, Lent, Library, Proved};
use std::alloc::{alloc, dealloc, Layout};
use std::ffi::c_void;

const STACK: usize = 1 << 20;
const PAINT: u8 = 0xa5;

#[repr(C, align(16))]
struct Attributes([u8; 64]);

type Start = extern "C" fn(*mut c_void) -> *mut c_void;

extern "C" {
    fn pthread_attr_init(attributes: *mut Attributes) -> i32;
    fn pthread_attr_setstack(attributes: *mut Attributes, lowest: *mut u8, size: usize) -> i32;
    fn pthread_create(thread: *mut usize, attributes: *const Attributes, start: Start, argument: *mut c_void) -> i32;
    fn pthread_join(thread: usize, answer: *mut *mut c_void) -> i32;
}

type Call<'a> = &'a mut dyn FnMut();

extern "C" fn run(argument: *mut c_void) -> *mut c_void {
    let call = unsafe { &mut *argument.cast::<Call>() };
    call();
    argument
}

/// What a call needs, with the answer.
pub struct Needs {
    pub name: &'static str,
    pub stack: usize,
    /// Bytes given to memcpy and memset.
    pub copied: u64,
}

fn needs(name: &'static str, empty: &Needs, call: Call) -> Needs {
    let before = copied();
    let stack = overwritten(call);
    Needs { name, stack: stack - empty.stack, copied: copied() - before - empty.copied }
}

/// Bytes of a painted stack that were written on while a thread made the call.
fn overwritten(mut call: Call) -> usize {
    let layout = Layout::from_size_align(STACK, 4096).expect("a stack has a layout");
    unsafe {
        let lowest = alloc(layout);
        assert!(!lowest.is_null());
        lowest.write_bytes(PAINT, STACK);
        let mut attributes = Attributes([0; 64]);
        let (mut thread, mut answer) = (0, std::ptr::null_mut());
        assert_eq!(pthread_attr_init(&mut attributes), 0);
        assert_eq!(pthread_attr_setstack(&mut attributes, lowest, STACK), 0);
        assert_eq!(pthread_create(&mut thread, &attributes, run, (&mut call as *mut Call).cast()), 0);
        assert_eq!(pthread_join(thread, &mut answer), 0);
        let untouched = std::slice::from_raw_parts(lowest, STACK).iter().take_while(|byte| **byte == PAINT).count();
        dealloc(lowest, layout);
        STACK - untouched
    }
}

/// What each call needs beyond what a thread with no call does; the deepest first. Each call is made of an end of its own.
pub fn all() -> Vec<Needs> {
    let Filled { arriving, holding, handing_in, transmitting, sent, data, sack } = fill(127);
    let closed = Lone::new(Proved::closed(5001, BOOK_9260));
    let Opened { init, .. } = open();
    let unknown = checksum::packet(1472);
    let lent = Lent { tag: 2, tsn: 3, streams: 8, options: 0 };
    let empty = needs("", &Needs { name: "", stack: 0, copied: 0 }, &mut || ());
    let mut all = Vec::new();
    let mut measure = |name, end: &Lone, call: &dyn Fn(&mut Lone)| {
        let mut end = end.clone();
        all.push(needs(name, &empty, &mut || call(&mut end)));
    };
    measure("ow_arrive, a DATA", &arriving, &|end| end.arrive(&data));
    measure("ow_arrive, a SACK", &sent, &|end| end.arrive(&sack));
    measure("ow_arrive, an INIT", &closed, &|end| {
        _ = Proved::arrive(&mut end.record, &mut end.area, &init, lent, &[7; 32], Echoed::default(), &mut end.out)
    });
    measure("ow_take", &holding, &|end| end.take());
    measure("ow_sack", &holding, &|end| _ = end.sack());
    measure("ow_hand_in", &handing_in, &|end| end.hand_in());
    measure("ow_transmit", &transmitting, &|end| _ = end.transmit());
    measure("ow_t3", &sent, &|end| _ = Proved::t3(&mut end.record));
    measure("ow_rtt", &sent, &|end| _ = Proved::rtt(&mut end.record, 100));
    measure("ow_heartbeat", &sent, &|end| _ = Proved::heartbeat(&mut end.record, [0; 8], &mut end.out));
    measure("ow_shutdown", &sent, &|end| _ = Proved::shutdown(&mut end.record, &mut end.out));
    measure("ow_abort", &sent, &|end| _ = Proved::abort(&mut end.record, 12, 0, &mut end.out));
    measure("ow_associate", &closed, &|end| _ = Proved::associate(&mut end.record, 1, 1, 5000, 8, &mut end.out));
    measure("ow_peek", &closed, &|_| _ = Proved::peek(&unknown));
    all.sort_by_key(|needs| std::cmp::Reverse(needs.stack));
    all
}
