//! The proved codec, through its exported functions. A slice crosses as a pointer and a length.

#[repr(C)]
#[derive(Clone, Copy, Debug, PartialEq, Eq)]
pub struct CallParts {
    pub refusal: u64,
    pub kind: u64,
    pub first: u64,
    pub second: u64,
    pub third: u64,
}

#[repr(C)]
#[derive(Clone, Copy, Debug, PartialEq, Eq)]
pub struct AnswerParts {
    pub case: u64,
    pub first: u64,
    pub second: u64,
}

#[repr(C)]
#[derive(Clone, Copy, Debug, PartialEq, Eq)]
pub struct FrameParts {
    pub state: u64,
    pub customer: u64,
    pub body: u64,
    pub after: u64,
}

unsafe extern "C" {
    fn wire_call(bytes: *const u8, len: usize) -> CallParts;
    fn wire_call_again(bytes: *const u8, len: usize, out: *mut u8, out_len: usize) -> usize;
    fn wire_answer(bytes: *const u8, len: usize) -> AnswerParts;
    fn wire_frame(bytes: *const u8, len: usize) -> FrameParts;
    fn wire_put_call(
        kind: u8,
        first: u64,
        second: u64,
        third: u64,
        content: *const u8,
        content_len: usize,
        out: *mut u8,
        out_len: usize,
    ) -> usize;
    fn wire_put_answer(
        case: u8,
        first: u64,
        second: u64,
        content: *const u8,
        content_len: usize,
        out: *mut u8,
        out_len: usize,
    ) -> usize;
    fn wire_put_frame(customer: u64, body: *const u8, body_len: usize, out: *mut u8, out_len: usize) -> usize;
}

pub fn call(bytes: &[u8]) -> CallParts {
    unsafe { wire_call(bytes.as_ptr(), bytes.len()) }
}

/// What a call's bytes encode to once they were decoded; nothing where they are no call.
pub fn call_again<'a>(bytes: &[u8], out: &'a mut [u8]) -> &'a [u8] {
    let n = unsafe { wire_call_again(bytes.as_ptr(), bytes.len(), out.as_mut_ptr(), out.len()) };
    &out[..n]
}

pub fn answer(bytes: &[u8]) -> AnswerParts {
    unsafe { wire_answer(bytes.as_ptr(), bytes.len()) }
}

pub fn frame(bytes: &[u8]) -> FrameParts {
    unsafe { wire_frame(bytes.as_ptr(), bytes.len()) }
}

/// What is put at the front of `out`; nothing where it is refused or does not fit.
pub fn put_call<'a>(kind: u8, numbers: [u64; 3], content: &[u8], out: &'a mut [u8]) -> &'a [u8] {
    let [first, second, third] = numbers;
    let n = unsafe {
        wire_put_call(kind, first, second, third, content.as_ptr(), content.len(), out.as_mut_ptr(), out.len())
    };
    &out[..n]
}

pub fn put_answer<'a>(case: u8, numbers: [u64; 2], content: &[u8], out: &'a mut [u8]) -> &'a [u8] {
    let [first, second] = numbers;
    let n =
        unsafe { wire_put_answer(case, first, second, content.as_ptr(), content.len(), out.as_mut_ptr(), out.len()) };
    &out[..n]
}

pub fn put_frame<'a>(customer: u64, body: &[u8], out: &'a mut [u8]) -> &'a [u8] {
    let n = unsafe { wire_put_frame(customer, body.as_ptr(), body.len(), out.as_mut_ptr(), out.len()) };
    &out[..n]
}
