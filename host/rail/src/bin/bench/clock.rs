//! Processor time, bytes copied, and the least of several rounds.

const ROUNDS: usize = 9;
const ROUND: f64 = 0.02;

/// Seconds of processor time that this thread has used: what other programs use does not count.
pub fn used() -> f64 {
    #[repr(C)]
    struct Timespec {
        seconds: i64,
        nanoseconds: i64,
    }
    extern "C" {
        fn clock_gettime(clock: i32, time: *mut Timespec) -> i32;
    }
    const THREAD_CPUTIME: i32 = 3;
    let mut time = Timespec { seconds: 0, nanoseconds: 0 };
    assert_eq!(unsafe { clock_gettime(THREAD_CPUTIME, &mut time) }, 0);
    time.seconds as f64 + time.nanoseconds as f64 * 1e-9
}

/// Bytes that memcpy and memset were asked for by what is linked into this program.
pub fn copied() -> u64 {
    extern "C" {
        fn counted_bytes() -> u64;
    }
    unsafe { counted_bytes() }
}

/// Seconds of one call of each work: the least of rounds in which they take turns, so that a busy machine harms them alike.
pub fn seconds(works: &mut [&mut dyn FnMut()]) -> Vec<f64> {
    let counts: Vec<u32> = works.iter_mut().map(|work| enough(*work)).collect();
    let mut least = vec![f64::INFINITY; works.len()];
    for _ in 0..ROUNDS {
        for ((work, count), least) in works.iter_mut().zip(&counts).zip(&mut least) {
            *least = least.min(time(*work, *count) / f64::from(*count));
        }
    }
    least
}

/// How many calls fill a round.
fn enough(work: &mut dyn FnMut()) -> u32 {
    let mut count = 1;
    while time(work, count) < ROUND {
        count *= 2;
    }
    count
}

fn time(work: &mut dyn FnMut(), count: u32) -> f64 {
    let begin = used();
    for _ in 0..count {
        work();
    }
    used() - begin
}

/// The value, of which the compiler then knows nothing.
pub fn opaque<T: Copy>(value: T) -> T {
    unsafe { std::ptr::read_volatile(&value) }
}
