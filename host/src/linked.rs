//! The exported C entries as an engine under test: those that this program is linked with, support's in the place of two of them, and those of another
//! archive beside them.

use std::ffi::{c_char, c_int, c_void, CStr, CString};
use std::path::Path;
use std::process::Command;

use uplink::entries::{
    uplink_ask, uplink_close, uplink_fullest, uplink_lead, uplink_next, uplink_open, uplink_park, uplink_put, uplink_sheet, uplink_start,
    uplink_term, uplink_unpark,
};

use crate::beside::Beside;
use crate::engine::Engine;
use crate::entries::{plain_next, plain_put};

/// The entries of one archive. Any lengths may be lent to them.
///
/// Each call is safe: pointer and length are those of a slice that is lent for the call alone, and two exclusive slices never overlap. Ask and Fullest too
/// are lent memory that they could write, and Sheet such lists, so that the comparer would see it.
#[derive(Clone, Copy)]
pub struct Entries {
    start: Start,
    open: Open,
    put: Put,
    close: Close,
    next: Next,
    ask: Ask,
    /// None in an archive from before document 02, §7.
    fullest: Option<Fullest>,
    /// None in an archive from before §6.
    park: Option<Park>,
    unpark: Option<Unpark>,
    lead: Lead,
    term: Term,
    /// None in an archive from before §9.
    sheet: Option<Sheet>,
}

type Start = unsafe extern "C" fn(*mut u8, usize, u32) -> u32;
type Open = unsafe extern "C" fn(*mut u8, usize, u32, *mut u8, usize) -> u32;
type Put = unsafe extern "C" fn(*mut u8, usize, u32, u32, u32, u32, *mut u8, usize) -> u32;
type Close = unsafe extern "C" fn(*mut u8, usize, u32, u32, *mut u8, usize) -> u32;
type Next = unsafe extern "C" fn(*mut u8, usize, *mut u8, usize) -> u32;
type Ask = unsafe extern "C" fn(*const u8, usize, u32, u32, *mut u8, usize) -> u32;
type Fullest = unsafe extern "C" fn(*const u8, usize, *mut u8, usize) -> u32;
type Park = unsafe extern "C" fn(*mut u8, usize, *mut u8, usize, *mut u8, usize) -> u32;
type Unpark = unsafe extern "C" fn(*mut u8, usize, *const u8, usize) -> u32;
type Lead = unsafe extern "C" fn(u32, u32, u32, u32, *mut u8, usize) -> u32;
type Term = unsafe extern "C" fn(u32, u32, *mut u8, usize) -> u32;
type Sheet = unsafe extern "C" fn(*const u32, usize, *const u32, usize, *mut u8, usize) -> u32;

/// The entries that this program is linked with.
pub const LINKED: Entries = Entries {
    start: uplink_start,
    open: uplink_open,
    put: uplink_put,
    close: uplink_close,
    next: uplink_next,
    ask: uplink_ask,
    fullest: Some(uplink_fullest),
    park: Some(uplink_park),
    unpark: Some(uplink_unpark),
    lead: uplink_lead,
    term: uplink_term,
    sheet: Some(uplink_sheet),
};

/// The same, with Put and Next of support's engine.
pub const PLAIN: Entries = Entries { put: plain_put, next: plain_next, ..LINKED };

extern "C" {
    fn dlopen(file: *const c_char, flags: c_int) -> *mut c_void;
    fn dlsym(library: *mut c_void, name: *const c_char) -> *mut c_void;
}

/// Both: support's engine is held against the adapter's, call by call.
pub fn both() -> Beside<Entries, Entries> {
    Beside::new(LINKED, PLAIN)
}

impl Entries {
    /// The entries of another libdriver.a, of the same interface: it is made a shared library (by `cc`) and loaded, for as long as the program runs.
    pub fn of_archive(archive: &Path) -> Result<Entries, String> {
        let shared = std::env::temp_dir().join(format!("libdriver-{}.so", std::process::id()));
        let mut link = Command::new("cc");
        link.args(["-shared", "-Wl,-Bsymbolic", "-o"]).arg(&shared).arg("-Wl,--whole-archive").arg(archive).arg("-Wl,--no-whole-archive");
        let status = link.status().map_err(|error| format!("cc: {error}"))?;
        if !status.success() {
            return Err(format!("{}: cc makes no shared library of it", archive.display()));
        }
        let file = CString::new(shared.as_os_str().as_encoded_bytes()).map_err(|error| error.to_string())?;
        const NOW: c_int = 2;
        let library = unsafe { dlopen(file.as_ptr(), NOW) };
        let _ = std::fs::remove_file(&shared);
        if library.is_null() {
            return Err(format!("{}: it cannot be loaded", archive.display()));
        }
        let symbol = |name: &CStr| match unsafe { dlsym(library, name.as_ptr()) } {
            none if none.is_null() => Err(format!("{}: no {}", archive.display(), name.to_string_lossy())),
            found => Ok(found),
        };
        // Each has the type that its name has in the header.
        unsafe {
            use std::mem::transmute as as_entry;
            Ok(Entries {
                start: as_entry::<*mut c_void, Start>(symbol(c"uplink_start")?),
                open: as_entry::<*mut c_void, Open>(symbol(c"uplink_open")?),
                put: as_entry::<*mut c_void, Put>(symbol(c"uplink_put")?),
                close: as_entry::<*mut c_void, Close>(symbol(c"uplink_close")?),
                next: as_entry::<*mut c_void, Next>(symbol(c"uplink_next")?),
                ask: as_entry::<*mut c_void, Ask>(symbol(c"uplink_ask")?),
                fullest: symbol(c"uplink_fullest").ok().map(|found| as_entry::<*mut c_void, Fullest>(found)),
                park: symbol(c"uplink_park").ok().map(|found| as_entry::<*mut c_void, Park>(found)),
                unpark: symbol(c"uplink_unpark").ok().map(|found| as_entry::<*mut c_void, Unpark>(found)),
                lead: as_entry::<*mut c_void, Lead>(symbol(c"uplink_lead")?),
                term: as_entry::<*mut c_void, Term>(symbol(c"uplink_term")?),
                sheet: symbol(c"uplink_sheet").ok().map(|found| as_entry::<*mut c_void, Sheet>(found)),
            })
        }
    }
}

impl Engine for Entries {
    fn start(&mut self, state: &mut [u8], edition: u32) -> u32 {
        unsafe { (self.start)(state.as_mut_ptr(), state.len(), edition) }
    }

    fn open(&mut self, state: &mut [u8], weight: u32, answer: &mut [u8]) -> u32 {
        unsafe { (self.open)(state.as_mut_ptr(), state.len(), weight, answer.as_mut_ptr(), answer.len()) }
    }

    fn put(&mut self, state: &mut [u8], slot: u32, ticket: u32, length: u32, reference: u32, answer: &mut [u8]) -> u32 {
        unsafe { (self.put)(state.as_mut_ptr(), state.len(), slot, ticket, length, reference, answer.as_mut_ptr(), answer.len()) }
    }

    fn close(&mut self, state: &mut [u8], slot: u32, ticket: u32, answer: &mut [u8]) -> u32 {
        unsafe { (self.close)(state.as_mut_ptr(), state.len(), slot, ticket, answer.as_mut_ptr(), answer.len()) }
    }

    fn next(&mut self, state: &mut [u8], answer: &mut [u8]) -> u32 {
        unsafe { (self.next)(state.as_mut_ptr(), state.len(), answer.as_mut_ptr(), answer.len()) }
    }

    fn ask(&mut self, state: &mut [u8], slot: u32, ticket: u32, answer: &mut [u8]) -> u32 {
        unsafe { (self.ask)(state.as_mut_ptr(), state.len(), slot, ticket, answer.as_mut_ptr(), answer.len()) }
    }

    fn fullest(&mut self, state: &mut [u8], answer: &mut [u8]) -> u32 {
        let fullest = self.fullest.expect("the archive lists the fullest");
        unsafe { fullest(state.as_mut_ptr(), state.len(), answer.as_mut_ptr(), answer.len()) }
    }

    fn park(&mut self, state: &mut [u8], image: &mut [u8], answer: &mut [u8]) -> u32 {
        let park = self.park.expect("the archive parks");
        unsafe { park(state.as_mut_ptr(), state.len(), image.as_mut_ptr(), image.len(), answer.as_mut_ptr(), answer.len()) }
    }

    fn unpark(&mut self, state: &mut [u8], image: &mut [u8]) -> u32 {
        let unpark = self.unpark.expect("the archive parks");
        unsafe { unpark(state.as_mut_ptr(), state.len(), image.as_ptr(), image.len()) }
    }

    fn lead(&mut self, w1: u32, v1: u32, w2: u32, v2: u32, answer: &mut [u8]) -> u32 {
        unsafe { (self.lead)(w1, v1, w2, v2, answer.as_mut_ptr(), answer.len()) }
    }

    fn term(&mut self, order: u32, position: u32, answer: &mut [u8]) -> u32 {
        unsafe { (self.term)(order, position, answer.as_mut_ptr(), answer.len()) }
    }

    fn sheet(&mut self, weights: &mut [u32], rows: &mut [u32], answer: &mut [u8]) -> u32 {
        let sheet = self.sheet.expect("the archive checks sheets");
        unsafe { sheet(weights.as_mut_ptr(), weights.len(), rows.as_mut_ptr(), rows.len(), answer.as_mut_ptr(), answer.len()) }
    }
}
