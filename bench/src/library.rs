//! The proved decoder, by the calls of its C header.

use crate::answers::{Answer, Beginning, Calls, ACCEPTED};
use std::ptr::{self, NonNull};

mod c {
    use crate::answers::Answer;

    /// The library alone knows what a reel holds.
    #[repr(C)]
    pub struct Reel {
        _private: [u8; 0],
    }

    extern "C" {
        pub fn desktern_new(format: u32, store: u32, transform: u32, reel: *mut *mut Reel, answer: *mut Answer);
        pub fn desktern_free(reel: *mut Reel);
        pub fn desktern_open(reel: *mut Reel, kind: u32, rounding: u32, layout: u32, answer: *mut Answer);
        pub fn desktern_deliver(reel: *mut Reel, segment: u32, bytes: *const u8, length: usize, answer: *mut Answer);
        pub fn desktern_close(reel: *mut Reel, answer: *mut Answer);
        pub fn desktern_sample(reel: *mut Reel, plane: u32, across: u32, down: u32, answer: *mut Answer);
        pub fn desktern_age(reel: *mut Reel, column: u32, row: u32, answer: *mut Answer);
        pub fn desktern_plane(reel: *mut Reel, plane: u32, samples: *mut u8, length: usize) -> usize;
        pub fn desktern_ages(reel: *mut Reel, ages: *mut u8, length: usize) -> usize;
    }
}

/// A reel of the library.
pub struct LibraryReel {
    reel: NonNull<c::Reel>,
}

impl LibraryReel {
    pub fn new(beginning: Beginning) -> Result<Self, Answer> {
        // Null would not show whether it was written.
        let before = NonNull::dangling();
        let (answer, after) = begin(beginning, before);
        if answer.outcome != ACCEPTED {
            assert_eq!(after, before.as_ptr(), "{beginning:?} is answered {answer:?}, and the place is not as it was");
            return Err(answer);
        }
        assert_eq!(answer, Answer::accepted(0, 0), "{beginning:?}");
        let reel = NonNull::new(after).filter(|&reel| reel != before);
        Ok(LibraryReel { reel: reel.unwrap_or_else(|| panic!("{beginning:?} is accepted, and gives no reel")) })
    }

    /// Gives back a null pointer, for which nothing is to be done.
    pub fn free_null() {
        // SAFETY: a null pointer may be given back.
        unsafe { c::desktern_free(ptr::null_mut()) }
    }

    /// The samples of a plane, asked for by a null pointer.
    pub fn plane_size(&mut self, plane: u32) -> usize {
        // SAFETY: as for all calls below; a buffer of no bytes may be null.
        unsafe { c::desktern_plane(self.reel.as_ptr(), plane, ptr::null_mut(), 0) }
    }

    /// The number of ages, asked for by a null pointer.
    pub fn ages_size(&mut self) -> usize {
        // SAFETY: as above.
        unsafe { c::desktern_ages(self.reel.as_ptr(), ptr::null_mut(), 0) }
    }

    fn call(&mut self, call: impl FnOnce(*mut c::Reel, *mut Answer)) -> Answer {
        answered(|answer| call(self.reel.as_ptr(), answer))
    }
}

/// Asks for a new reel at a place that holds a pointer, and gives what the place holds then.
fn begin(beginning: Beginning, before: NonNull<c::Reel>) -> (Answer, *mut c::Reel) {
    let Beginning { format, store, transform } = beginning;
    let mut place = before.as_ptr();
    // SAFETY: both pointers are to variables that outlive the call.
    let answer = answered(|answer| unsafe { c::desktern_new(format, store, transform, &mut place, answer) });
    (answer, place)
}

/// Begins with an answer that no call gives, so that a field which is not written shows.
fn answered(call: impl FnOnce(*mut Answer)) -> Answer {
    let mut answer = Answer {
        outcome: u32::MAX,
        number: u32::MAX,
        layer: u32::MAX,
        block: u32::MAX,
        word: u64::MAX,
        macroblock: u64::MAX,
        first: u64::MAX,
        second: u64::MAX,
    };
    call(&mut answer);
    answer
}

// SAFETY, of all calls below: the reel was made by `desktern_new` and is given back only by `drop`; `&mut self` keeps two calls on it apart; and what the
// other pointers point to is as long as is said; bytes may be null where there are none.
impl Calls for LibraryReel {
    fn ask_for_new(&mut self, beginning: Beginning) -> Answer {
        let (answer, after) = begin(beginning, self.reel);
        assert_eq!(after, self.reel.as_ptr(), "{beginning:?} is answered {answer:?}, and the reel in its place is not as it was");
        answer
    }

    fn open(&mut self, kind: u32, rounding: u32, layout: u32) -> Answer {
        self.call(|reel, answer| unsafe { c::desktern_open(reel, kind, rounding, layout, answer) })
    }

    fn deliver(&mut self, segment: u32, bytes: &[u8]) -> Answer {
        self.call(|reel, answer| unsafe { c::desktern_deliver(reel, segment, bytes.as_ptr(), bytes.len(), answer) })
    }

    fn deliver_null(&mut self, segment: u32) -> Answer {
        self.call(|reel, answer| unsafe { c::desktern_deliver(reel, segment, ptr::null(), 0, answer) })
    }

    fn close(&mut self) -> Answer {
        self.call(|reel, answer| unsafe { c::desktern_close(reel, answer) })
    }

    fn sample(&mut self, plane: u32, across: u32, down: u32) -> Answer {
        self.call(|reel, answer| unsafe { c::desktern_sample(reel, plane, across, down, answer) })
    }

    fn age(&mut self, column: u32, row: u32) -> Answer {
        self.call(|reel, answer| unsafe { c::desktern_age(reel, column, row, answer) })
    }

    fn copy_plane(&mut self, plane: u32, samples: &mut [u8]) -> usize {
        unsafe { c::desktern_plane(self.reel.as_ptr(), plane, samples.as_mut_ptr(), samples.len()) }
    }

    fn copy_ages(&mut self, ages: &mut [u8]) -> usize {
        unsafe { c::desktern_ages(self.reel.as_ptr(), ages.as_mut_ptr(), ages.len()) }
    }
}

impl Drop for LibraryReel {
    fn drop(&mut self) {
        // SAFETY: the reel is the library's, and nothing uses it after this.
        unsafe { c::desktern_free(self.reel.as_ptr()) }
    }
}
