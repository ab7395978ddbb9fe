//! The functions of the library (`bindings/c/lovendak.h`), and all that is `unsafe`. Those that take numbers and references are safe to
//! call. Those that take a pointer and a length have a safe function here that takes a slice. `bindings/agree` compares the declarations
//! with the header.

use crate::ids::RefId;
use std::ptr;

pub const OK: u32 = 0;
pub const ROOM: u32 = 103;
pub const NOTHING: u32 = 104;

/// A handle: made empty, moved as Rust moves values, and never copied.
#[repr(C)]
pub struct Lovendak {
    magic: u32,
    at: *mut u8,
}

// SAFETY: a vat may be used from whichever thread, by one at a time; this is proved of the handle's type in `lovendak_c`.
unsafe impl Send for Lovendak {}

impl Lovendak {
    pub const EMPTY: Lovendak = Lovendak { magic: 0, at: ptr::null_mut() };
}

#[repr(C)]
#[derive(Default)]
pub struct LovendakEvent {
    pub kind: u32,
    pub method: u32,
    pub is_exception: u32,
    pub exception: u32,
    pub place: u32,
    pub number: u64,
    pub object: u64,
    pub interface_id: u64,
    pub payload_len: usize,
    pub refs_len: usize,
}

#[repr(C)]
#[derive(Default)]
pub struct LovendakPlace {
    pub kind: u32,
    pub is_embargoed: u32,
    pub is_promise: u32,
    pub reason: u32,
    pub number: u64,
}

/// Functions that are safe to call, since they take numbers and references alone. Each is declared, and called by one of its name.
macro_rules! safe {
    ($(fn $name:ident($($given:ident: $kind:ty),*) -> u32;)*) => {
        $(
            pub fn $name($($given: $kind),*) -> u32 {
                extern "C" {
                    fn $name($($given: $kind),*) -> u32;
                }
                // SAFETY: it reads and writes no more than the references that it is given, and takes a handle as it was left.
                unsafe { $name($($given),*) }
            }
        )*
    };
}

safe! {
    fn lovendak_version() -> u32;
    fn lovendak_new(vat: &mut Lovendak, level: u32, has_root: u32, root: u64) -> u32;
    fn lovendak_free(vat: &mut Lovendak) -> u32;
    fn lovendak_ended(vat: &mut Lovendak) -> u32;
    fn lovendak_pending(vat: &mut Lovendak, bytes: &mut usize, has_event: &mut u32) -> u32;
    fn lovendak_load(vat: &mut Lovendak, words: &mut u64, bytes: &mut u64) -> u32;
    fn lovendak_set_limits(vat: &mut Lovendak, words: u64, bytes: u64) -> u32;
    fn lovendak_set_finishes(vat: &mut Lovendak, when: u32) -> u32;
    fn lovendak_wants_bytes(vat: &mut Lovendak, answer: &mut u32) -> u32;
    fn lovendak_leads_to(vat: &mut Lovendak, reference: u64, place: &mut LovendakPlace) -> u32;
    fn lovendak_table_sizes(
        vat: &mut Lovendak,
        questions: &mut usize,
        answers: &mut usize,
        exports: &mut usize,
        imports: &mut usize
    ) -> u32;
    fn lovendak_down(vat: &mut Lovendak, number: &mut u32) -> u32;
    fn lovendak_shares_nothing(vat: &mut Lovendak, answer: &mut u32) -> u32;
    fn lovendak_calls_made(vat: &mut Lovendak, reference: u64, made: &mut u64) -> u32;
    fn lovendak_bootstrap(vat: &mut Lovendak, call: &mut u64) -> u32;
    fn lovendak_result_of(vat: &mut Lovendak, call: u64, reference: &mut u64) -> u32;
    fn lovendak_host(vat: &mut Lovendak, object: u64, reference: &mut u64) -> u32;
    fn lovendak_clone_ref(vat: &mut Lovendak, reference: u64, made: &mut u64) -> u32;
    fn lovendak_drop_ref(vat: &mut Lovendak, reference: u64) -> u32;
    fn lovendak_finish(vat: &mut Lovendak, call: u64) -> u32;
    fn lovendak_promise(vat: &mut Lovendak, promise: &mut u64, reference: &mut u64) -> u32;
    fn lovendak_resolve(vat: &mut Lovendak, promise: u64, reference: u64) -> u32;
    fn lovendak_advance(vat: &mut Lovendak, reference: u64, advanced: &mut u32) -> u32;
    fn lovendak_shut(vat: &mut Lovendak, number: u32) -> u32;
}

extern "C" {
    fn lovendak_received(vat: &mut Lovendak, bytes: *const u8, len: usize) -> u32;
    fn lovendak_outgoing(vat: &mut Lovendak, out: *mut u8, room: usize, len: &mut usize) -> u32;
    fn lovendak_next_event(
        vat: &mut Lovendak,
        event: &mut LovendakEvent,
        payload: *mut u8,
        room: usize,
        refs: *mut u64,
        refs_room: usize,
    ) -> u32;
    fn lovendak_field(vat: &mut Lovendak, call: u64, path: *const u16, steps: usize, reference: &mut u64) -> u32;
    fn lovendak_call(
        vat: &mut Lovendak,
        reference: u64,
        interface_id: u64,
        method: u16,
        payload: *const u8,
        len: usize,
        refs: *const u64,
        refs_len: usize,
        call: &mut u64,
    ) -> u32;
    fn lovendak_answer(
        vat: &mut Lovendak,
        task: u64,
        payload: *const u8,
        len: usize,
        refs: *const u64,
        refs_len: usize,
    ) -> u32;
    fn lovendak_fail(vat: &mut Lovendak, task: u64, kind: u32, reason: *const u8, len: usize) -> u32;
    fn lovendak_reject(vat: &mut Lovendak, promise: u64, kind: u32, reason: *const u8, len: usize) -> u32;
    fn lovendak_contents(
        numbers: *const u64,
        count: usize,
        has_text: u32,
        text: *const u8,
        text_len: usize,
        caps: u32,
        out: *mut u8,
        room: usize,
        len: &mut usize,
    ) -> u32;
    fn lovendak_number_at(payload: *const u8, len: usize, caps: u32, index: usize, number: &mut u64) -> u32;
    fn lovendak_text_at(
        payload: *const u8,
        len: usize,
        caps: u32,
        pointer: u16,
        out: *mut u8,
        room: usize,
        text_len: &mut usize,
    ) -> u32;
    fn lovendak_ref_at(
        payload: *const u8,
        len: usize,
        caps: u32,
        path: *const u16,
        steps: usize,
        index: &mut usize,
    ) -> u32;
}

// SAFETY, of each function below: a slice's pointer is good for its length, it is read or written during the call alone, and what is
// borrowed `&mut` overlaps nothing. References have the layout of the numbers in them.

pub fn received(vat: &mut Lovendak, bytes: &[u8]) -> u32 {
    unsafe { lovendak_received(vat, bytes.as_ptr(), bytes.len()) }
}

pub fn outgoing(vat: &mut Lovendak, out: &mut [u8]) -> (u32, usize) {
    let mut len = 0;
    let code = unsafe { lovendak_outgoing(vat, out.as_mut_ptr(), out.len(), &mut len) };
    (code, len)
}

pub fn next_event(vat: &mut Lovendak, event: &mut LovendakEvent, payload: &mut [u8], refs: &mut [RefId]) -> u32 {
    let (payload, room) = (payload.as_mut_ptr(), payload.len());
    unsafe { lovendak_next_event(vat, event, payload, room, refs.as_mut_ptr().cast(), refs.len()) }
}

pub fn field(vat: &mut Lovendak, call: u64, path: &[u16]) -> (u32, u64) {
    let mut reference = 0;
    let code = unsafe { lovendak_field(vat, call, path.as_ptr(), path.len(), &mut reference) };
    (code, reference)
}

/// A method of an interface.
pub struct Method(pub u64, pub u16);

pub fn call(vat: &mut Lovendak, reference: u64, method: Method, payload: &[u8], refs: &[RefId]) -> (u32, u64) {
    let Method(interface, method) = method;
    let (refs, refs_len) = (refs.as_ptr().cast(), refs.len());
    let (payload, len) = (payload.as_ptr(), payload.len());
    let mut made = 0;
    let code = unsafe { lovendak_call(vat, reference, interface, method, payload, len, refs, refs_len, &mut made) };
    (code, made)
}

pub fn answer(vat: &mut Lovendak, task: u64, payload: &[u8], refs: &[RefId]) -> u32 {
    let (payload, len) = (payload.as_ptr(), payload.len());
    unsafe { lovendak_answer(vat, task, payload, len, refs.as_ptr().cast(), refs.len()) }
}

pub fn fail(vat: &mut Lovendak, task: u64, kind: u32, reason: &str) -> u32 {
    unsafe { lovendak_fail(vat, task, kind, reason.as_ptr(), reason.len()) }
}

pub fn reject(vat: &mut Lovendak, promise: u64, kind: u32, reason: &str) -> u32 {
    unsafe { lovendak_reject(vat, promise, kind, reason.as_ptr(), reason.len()) }
}

pub fn contents(numbers: &[u64], text: Option<&str>, caps: u32, out: &mut [u8]) -> (u32, usize) {
    let (has_text, text) = (u32::from(text.is_some()), text.unwrap_or(""));
    let (numbers, count) = (numbers.as_ptr(), numbers.len());
    let (text, text_len) = (text.as_ptr(), text.len());
    let (out, room) = (out.as_mut_ptr(), out.len());
    let mut len = 0;
    let code = unsafe { lovendak_contents(numbers, count, has_text, text, text_len, caps, out, room, &mut len) };
    (code, len)
}

pub fn number_at(payload: &[u8], caps: u32, index: usize) -> (u32, u64) {
    let mut number = 0;
    let code = unsafe { lovendak_number_at(payload.as_ptr(), payload.len(), caps, index, &mut number) };
    (code, number)
}

pub fn text_at(payload: &[u8], caps: u32, pointer: u16, out: &mut [u8]) -> (u32, usize) {
    let (payload, len) = (payload.as_ptr(), payload.len());
    let mut text_len = 0;
    let code = unsafe { lovendak_text_at(payload, len, caps, pointer, out.as_mut_ptr(), out.len(), &mut text_len) };
    (code, text_len)
}

pub fn ref_at(payload: &[u8], caps: u32, path: &[u16]) -> (u32, usize) {
    let (payload, len) = (payload.as_ptr(), payload.len());
    let mut index = 0;
    let code = unsafe { lovendak_ref_at(payload, len, caps, path.as_ptr(), path.len(), &mut index) };
    (code, index)
}
