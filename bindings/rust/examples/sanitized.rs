//! Four threads that read one frozen index at once, for ThreadSanitizer. It knows the threads of the C library, and not what
//! the standard library's own do to wait for one another, since that is built without it.
use std::ffi::{c_int, c_void};
use std::mem::MaybeUninit;
use std::ptr;

use tree_index::TreeIndex;

const KEYS: u64 = 20_000;

unsafe extern "C" {
    fn pthread_create(thread: *mut usize, how: *const c_void, run: extern "C" fn(*mut c_void) -> *mut c_void, job: *mut c_void) -> c_int;
    fn pthread_join(thread: usize, answer: *mut *mut c_void) -> c_int;
}

type Job = Box<dyn FnOnce() + Send>;

extern "C" fn run(job: *mut c_void) -> *mut c_void {
    // SAFETY: `spawn` passes a job on to one thread.
    let job = unsafe { Box::from_raw(job.cast::<Job>()) };
    job();
    ptr::null_mut()
}

fn spawn(job: impl FnOnce() + Send + 'static) -> usize {
    let mut thread = MaybeUninit::uninit();
    let job: Job = Box::new(job);
    let started = unsafe { pthread_create(thread.as_mut_ptr(), ptr::null(), run, Box::into_raw(Box::new(job)).cast()) };
    assert_eq!(started, 0, "a thread could not be started");
    unsafe { thread.assume_init() }
}

fn main() {
    // Only even keys are present, each with three times itself.
    let index: TreeIndex = (0..KEYS).step_by(2).map(|key| (key, 3 * key)).collect();
    let frozen = index.freeze().expect("memory");
    let threads: Vec<usize> = (0..4)
        .map(|seed: u64| {
            let view = frozen.view().expect("memory");
            spawn(move || {
                let mut random = seed;
                for _ in 0..3_000 {
                    random = random.wrapping_mul(6_364_136_223_846_793_005).wrapping_add(1_442_695_040_888_963_407);
                    let key = (random >> 33) % KEYS;
                    assert_eq!(view.peek(key), (key % 2 == 0).then_some(3 * key));
                    assert!(view.range(key..).take(10).all(|(key, value)| value == 3 * key));
                }
            })
        })
        .collect();
    for thread in threads {
        unsafe { pthread_join(thread, ptr::null_mut()) };
    }
    assert_eq!(frozen.thaw().expect("no view is left").len(), KEYS as usize / 2);
    println!("Rust: 4 threads that read one frozen index of {} pairs, each of its answers as it should be", KEYS / 2);
}
