//! A build of the library as a shared object, so that two builds can be called in one process.

use crate::cases::Files;
use exports::{Answer, ROWS, WEIGHTS};
use std::ffi::{c_void, CStr, CString};
use std::os::raw::{c_char, c_int};

/// All names are looked up when the library is opened, by the C library's number.
const NOW: c_int = 2;

extern "C" {
    fn dlopen(path: *const c_char, how: c_int) -> *mut c_void;
    fn dlsym(library: *mut c_void, name: *const c_char) -> *mut c_void;
    fn dlerror() -> *const c_char;
}

/// `lampreysong_run` of include/lampreysong.h.
type Run = unsafe extern "C" fn(
    *const u8,
    usize,
    *const u8,
    usize,
    u64,
    *mut u8,
    usize,
    *mut u8,
    usize,
) -> Answer;

/// A library, the memory that its run is lent, and what its last call answered.
pub struct Library {
    object: *mut c_void,
    run: Run,
    pub rows: Vec<u8>,
    pub weights: Vec<u8>,
    pub answer: Answer,
}

impl Library {
    /// Opens the shared object, which stays open.
    pub fn open(path: &str) -> Library {
        let path = CString::new(path).expect("a path");
        // SAFETY: the path ends with a zero byte, and opening a build of the library runs nothing.
        let object = unsafe { dlopen(path.as_ptr(), NOW) };
        assert!(!object.is_null(), "{}", said());
        let run = named(object, "lampreysong_run");
        Library {
            object,
            // SAFETY: it is the function that include/lampreysong.h declares.
            run: unsafe { std::mem::transmute::<*mut c_void, Run>(run) },
            rows: vec![0; ROWS],
            weights: vec![0; WEIGHTS],
            answer: Answer::default(),
        }
    }

    /// The function of this name; it must be there.
    pub fn function(&self, name: &str) -> *mut c_void {
        named(self.object, name)
    }

    /// The run to a stop minute.
    pub fn run(&mut self, files: &Files, stop: u32) {
        let (case, book) = (&files.case, &files.book);
        // SAFETY: each pointer comes with the length of its own slice; lent slices share no byte with any other, and all outlive the call.
        self.answer = unsafe {
            (self.run)(
                case.as_ptr(),
                case.len(),
                book.as_ptr(),
                book.len(),
                stop.into(),
                self.rows.as_mut_ptr(),
                self.rows.len(),
                self.weights.as_mut_ptr(),
                self.weights.len(),
            )
        };
    }
}

/// The function of this name in an object that is open.
fn named(object: *mut c_void, name: &str) -> *mut c_void {
    let name = CString::new(name).expect("a name");
    // SAFETY: the object is open, and the name ends with a zero byte.
    let function = unsafe { dlsym(object, name.as_ptr()) };
    assert!(!function.is_null(), "{}", said());
    function
}

/// What the C library says of an object that it could not open, or of a name that it did not find.
fn said() -> String {
    // SAFETY: after a failure it is a text that ends with a zero byte.
    let text = unsafe { CStr::from_ptr(dlerror()) };
    text.to_string_lossy().into_owned()
}
