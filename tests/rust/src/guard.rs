//! Memory between two inaccessible parts, and a message on a fault.

#[cfg(target_os = "linux")]
mod pages {
    use std::ffi::c_void;
    use std::sync::atomic::{AtomicU64, Ordering};

    const PAGE: usize = 65_536;
    /// The inaccessible bytes on each side: more than the largest frame of a call.
    const GUARD: usize = 1 << 20;
    const NONE: i32 = 0;
    const READ_WRITE: i32 = 3;
    const PRIVATE_ANONYMOUS: i32 = 0x22;

    extern "C" {
        fn mmap(at: *mut c_void, len: usize, access: i32, flags: i32, file: i32, offset: i64) -> *mut c_void;
        fn mprotect(at: *mut c_void, len: usize, access: i32) -> i32;
        fn munmap(at: *mut c_void, len: usize) -> i32;
        fn sigaction(signal: i32, action: *const Action, old: *mut Action) -> i32;
        fn write(file: i32, bytes: *const u8, len: usize) -> isize;
        fn _exit(code: i32) -> !;
    }

    #[repr(C)]
    struct Action {
        handler: extern "C" fn(i32),
        mask: [u64; 16],
        flags: i32,
        restorer: usize,
    }

    /// Whole pages; the byte before the first and the one behind the last fault.
    pub struct Pages {
        base: *mut u8,
        len: usize,
    }

    impl Pages {
        /// At least as many bytes as asked for.
        pub fn new(len: usize) -> Pages {
            let len = len.div_ceil(PAGE) * PAGE;
            let whole = len + 2 * GUARD;
            // SAFETY: a fresh mapping, of which the inner pages are opened.
            unsafe {
                let base = mmap(std::ptr::null_mut(), whole, NONE, PRIVATE_ANONYMOUS, -1, 0);
                assert_ne!(base as isize, -1, "no memory");
                let base = base.cast::<u8>().add(GUARD);
                assert_eq!(mprotect(base.cast(), len, READ_WRITE), 0);
                Pages { base, len }
            }
        }

        pub fn bytes(&mut self) -> &mut [u8] {
            // SAFETY: the inner pages are mapped, written and owned by this value.
            unsafe { std::slice::from_raw_parts_mut(self.base, self.len) }
        }
    }

    impl Drop for Pages {
        fn drop(&mut self) {
            // SAFETY: the mapping of `new`, which nothing borrows any more.
            unsafe {
                munmap(self.base.sub(GUARD).cast(), self.len + 2 * GUARD);
            }
        }
    }

    static SEED: AtomicU64 = AtomicU64::new(0);
    static INDEX: AtomicU64 = AtomicU64::new(0);

    /// Names the text that is being compared.
    pub fn now(seed: u64, index: u64) {
        SEED.store(seed, Ordering::Relaxed);
        INDEX.store(index, Ordering::Relaxed);
    }

    fn put(out: &mut [u8; 160], at: &mut usize, bytes: &[u8]) {
        for byte in bytes {
            out[*at] = *byte;
            *at += 1;
        }
    }

    fn put_number(out: &mut [u8; 160], at: &mut usize, mut number: u64) {
        let mut digits = [0_u8; 20];
        let mut first = digits.len();
        loop {
            first -= 1;
            digits[first] = b'0' + (number % 10) as u8;
            number /= 10;
            if number == 0 {
                break;
            }
        }
        put(out, at, &digits[first..]);
    }

    extern "C" fn fault(_: i32) {
        let mut out = [0; 160];
        let mut at = 0;
        put(&mut out, &mut at, b"\nmemory fault inside the call: --seed ");
        put_number(&mut out, &mut at, SEED.load(Ordering::Relaxed));
        put(&mut out, &mut at, b" --only ");
        put_number(&mut out, &mut at, INDEX.load(Ordering::Relaxed));
        put(&mut out, &mut at, b"\n");
        // SAFETY: a message of known length, then the end of the process.
        unsafe {
            write(2, out.as_ptr(), at);
            _exit(101);
        }
    }

    /// Prints the text of `now` on a fault instead of ending without a word.
    pub fn report_faults() {
        const ON_STACK: i32 = 0x0800_0000;
        let action = Action { handler: fault, mask: [0; 16], flags: ON_STACK, restorer: 0 };
        for signal in [7, 11] {
            // SAFETY: the handler only writes a message and ends the process.
            unsafe {
                sigaction(signal, &action, std::ptr::null_mut());
            }
        }
    }
}

#[cfg(not(target_os = "linux"))]
mod pages {
    /// Plain memory.
    pub struct Pages(Vec<u8>);

    impl Pages {
        pub fn new(len: usize) -> Pages {
            Pages(vec![0; len])
        }

        pub fn bytes(&mut self) -> &mut [u8] {
            &mut self.0
        }
    }

    pub fn now(_: u64, _: u64) {}

    pub fn report_faults() {}
}

pub use pages::{now, report_faults, Pages};
