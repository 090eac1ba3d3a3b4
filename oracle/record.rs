//! The record that K and I return across the C boundary, and how they are called, once for every Rust program here (by `#[path]`). The caller passes a pointer to it before
//! the arguments, since it has more than 16 bytes: so x86-64's calling convention has it, and so the archive for another processor has it too, since it is made of the same module.

#[repr(C)]
#[derive(Default)]
pub struct Answer {
    pub number: u32,
    pub zeros: i32,
    pub longest_sum: u32,
    pub rungs: u32,
    pub backward: u32,
}

pub type Entry = unsafe extern "C" fn(*mut Answer, u8, f64, f64, f64, *mut f64, usize) -> *mut Answer;
