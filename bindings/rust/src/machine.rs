//! The library, which is linked into the program: its calls on a handle.

use crate::Fault;
use std::ffi::{c_char, c_void, CStr};
use std::ptr;

#[repr(C)]
struct Handle {
    is_set: bool,
    at: *mut c_void,
}

type Copy = unsafe extern "C" fn(*mut Handle, *mut u8, usize) -> usize;

extern "C" {
    fn llb_local(it: *mut Handle, name: *const u8, n: usize, text: *const u8, m: usize) -> u8;
    fn llb_open(it: *mut Handle, definition: *const u8, n: usize, workers: u32) -> u8;
    fn llb_line(it: *mut Handle, line: *const u8, n: usize) -> u8;
    fn llb_run(it: *mut Handle, definition: *const u8, n: usize) -> u8;
    fn llb_show(it: *mut Handle, definition: *const u8, n: usize) -> u8;
    fn llb_findings(it: *mut Handle, definition: *const u8, n: usize) -> u8;
    fn llb_plan(it: *mut Handle, definition: *const u8, n: usize) -> u8;
    fn llb_matches(it: *mut Handle, old: *const u8, n: usize, definition: *const u8, m: usize) -> u8;
    fn llb_script(it: *mut Handle, text: *const u8, n: usize) -> u8;
    fn llb_asm(it: *mut Handle, text: *const u8, n: usize) -> u8;
    fn llb_dis(it: *mut Handle, definition: *const u8, n: usize) -> u8;
    fn llb_ops(it: *mut Handle, definition: *const u8, n: usize) -> u8;
    fn llb_output(it: *mut Handle, out: *mut u8, room: usize) -> usize;
    fn llb_messages(it: *mut Handle, out: *mut u8, room: usize) -> usize;
    fn llb_close(it: *mut Handle);
    fn llb_version() -> *const c_char;
}

/// Returns the line that the program prints as its version; it says `not proved` if the library was compiled without proof.
pub fn version() -> String {
    // SAFETY: the library returns a text of its own, which ends with a zero and never changes.
    unsafe { CStr::from_ptr(llb_version()) }.to_string_lossy().into_owned()
}

/// Local trees, at most one session, and the calls of the library on them. Its pointer keeps it on the thread that made it.
pub struct Machine(Handle);

impl Default for Machine {
    fn default() -> Machine {
        Machine::new()
    }
}

// SAFETY, of each block below: the handle is zeroes or what a call left there, and `&mut self` is the only way to it; it is neither `Send` nor
// `Sync`. A slice has its length's bytes, which are borrowed for the call, and its pointer is not null.
impl Machine {
    /// Makes a machine without local trees.
    pub fn new() -> Machine {
        Machine(Handle { is_set: false, at: ptr::null_mut() })
    }

    /// Adds a local tree, by its text; of two under one name, the later holds.
    pub fn add_local(&mut self, name: &str, tree: &str) -> Result<(), Fault> {
        let status = unsafe { llb_local(&mut self.0, name.as_ptr(), name.len(), tree.as_ptr(), tree.len()) };
        self.checked(status)
    }

    /// Returns the text of the result of a definition, run by one worker on the local trees.
    pub fn run(&mut self, definition: &[u8]) -> Result<String, Fault> {
        let status = unsafe { llb_run(&mut self.0, definition.as_ptr(), definition.len()) };
        self.text(status)
    }

    /// Returns the text of the graph of a definition.
    pub fn show(&mut self, definition: &[u8]) -> Result<String, Fault> {
        let status = unsafe { llb_show(&mut self.0, definition.as_ptr(), definition.len()) };
        self.text(status)
    }

    /// Returns the line of each fault of a definition, in the order in which the program looks for them.
    pub fn findings(&mut self, definition: &[u8]) -> Result<Vec<String>, Fault> {
        match unsafe { llb_findings(&mut self.0, definition.as_ptr(), definition.len()) } {
            2 => Ok(String::from_utf8_lossy(&self.copied(llb_output)).split_terminator('\n').map(String::from).collect()),
            status => self.checked(status).map(|()| Vec::new()),
        }
    }

    /// Returns a line for each vertex of a definition: whether what it reads goes by value.
    pub fn plan(&mut self, definition: &[u8]) -> Result<String, Fault> {
        let status = unsafe { llb_plan(&mut self.0, definition.as_ptr(), definition.len()) };
        self.text(status)
    }

    /// Returns a line for each vertex of a definition: which vertex of an older definition it matches.
    pub fn matches(&mut self, old: &[u8], definition: &[u8]) -> Result<String, Fault> {
        let status = unsafe { llb_matches(&mut self.0, old.as_ptr(), old.len(), definition.as_ptr(), definition.len()) };
        self.text(status)
    }

    /// Returns the line of the fault of a text as a script, without its end; `None` if it is one.
    pub fn script(&mut self, text: &str) -> Result<Option<String>, Fault> {
        match unsafe { llb_script(&mut self.0, text.as_ptr(), text.len()) } {
            2 => Ok(Some(String::from_utf8_lossy(&self.copied(llb_output)).trim_end_matches('\n').to_string())),
            status => self.checked(status).map(|()| None),
        }
    }

    /// Returns the definition of a text.
    pub fn assemble(&mut self, text: &str) -> Result<Vec<u8>, Fault> {
        let status = unsafe { llb_asm(&mut self.0, text.as_ptr(), text.len()) };
        self.checked(status)?;
        Ok(self.copied(llb_output))
    }

    /// Returns the text of the entries of a definition.
    pub fn disassemble(&mut self, definition: &[u8]) -> Result<String, Fault> {
        let status = unsafe { llb_dis(&mut self.0, definition.as_ptr(), definition.len()) };
        self.text(status)
    }

    /// Returns the ops of the entries of a definition: each that can be read, in the words of `disassemble`, whatever its encoding is.
    pub fn ops(&mut self, definition: &[u8]) -> Result<String, Fault> {
        let status = unsafe { llb_ops(&mut self.0, definition.as_ptr(), definition.len()) };
        self.text(status)
    }

    /// Opens a session on a definition and the local trees, in the place of the one that was open.
    pub fn open(&mut self, definition: &[u8], workers: u32) -> Result<(), Fault> {
        let status = unsafe { llb_open(&mut self.0, definition.as_ptr(), definition.len(), workers) };
        self.checked(status)
    }

    /// Returns the reply to a line of the session; `None` if the line ended it.
    pub fn line(&mut self, line: &str) -> Result<Option<String>, Fault> {
        match unsafe { llb_line(&mut self.0, line.as_ptr(), line.len()) } {
            1 => Ok(None),
            status => self.text(status).map(Some),
        }
    }

    /// Frees the local trees and the session. The machine can be used again.
    pub fn close(&mut self) {
        unsafe { llb_close(&mut self.0) }
    }

    fn checked(&mut self, status: u8) -> Result<(), Fault> {
        if status == 0 {
            return Ok(());
        }
        let messages = String::from_utf8_lossy(&self.copied(llb_messages)).into_owned();
        Err(Fault::of(status, messages))
    }

    fn text(&mut self, status: u8) -> Result<String, Fault> {
        self.checked(status)?;
        Ok(String::from_utf8_lossy(&self.copied(llb_output)).into_owned())
    }

    fn copied(&mut self, copy: Copy) -> Vec<u8> {
        let mut bytes = vec![0; unsafe { copy(&mut self.0, [0].as_mut_ptr(), 0) }];
        unsafe { copy(&mut self.0, bytes.as_mut_ptr(), bytes.len()) };
        bytes
    }
}

impl Drop for Machine {
    fn drop(&mut self) {
        self.close();
    }
}
