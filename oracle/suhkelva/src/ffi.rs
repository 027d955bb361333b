//! What include/suhkelva.h declares, and every unsafe call of it. A slice goes as its pointer and its length, and a Rust slice is
//! what the header asks for: never null, aligned, and lent for writing to one parameter only. The functions have no condition on
//! their input and are proved to stay inside what they are lent.

use crate::Lists;

#[repr(C)]
pub struct Packed {
    pub number: u32,
    pub place: u32,
    pub packed: u32,
}

#[repr(C)]
pub struct Record {
    pub number: u32,
    pub place: u32,
    pub kind: u32,
    pub a: u32,
    pub b: u32,
    pub c: u32,
    pub d: u32,
}

#[repr(C)]
pub struct Block {
    pub number: u32,
    pub place: u32,
    pub good: u32,
}

#[repr(C)]
pub struct Sheet {
    pub number: u32,
    pub place: u64,
    pub records: u64,
    pub constraints: u64,
    pub interactions: u64,
    pub words: u64,
    pub start: u64,
}

#[repr(C)]
pub struct Number {
    pub number: u32,
    pub place: u64,
    pub value: u64,
}

#[repr(C)]
pub struct Written {
    pub number: u32,
    pub place: u64,
    pub count: u64,
}

#[repr(C)]
pub struct ConstraintLists {
    pub number: u32,
    pub place: u64,
    pub headers: u64,
    pub variables: u64,
    pub terms: u64,
}

#[repr(C)]
pub struct InteractionLists {
    pub number: u32,
    pub place: u64,
    pub headers: u64,
    pub variables: u64,
    pub terms: u64,
    pub denom_headers: u64,
    pub denom_variables: u64,
    pub denom_terms: u64,
    pub num_interactions: u64,
    pub max_fields_len: u64,
}

extern "C" {
    fn suhkelva_pack(kind: u32, a: u32, b: u32, c: u32, d: u32) -> Packed;
    fn suhkelva_unpack(packed: u32) -> Record;
    fn suhkelva_block_check(bytes: *const u8, bytes_len: usize, number: u32) -> Block;
    fn suhkelva_check_sheet(s: *const u32, s_len: usize) -> Sheet;
    fn suhkelva_max_rotation(s: *const u32, s_len: usize) -> Number;
    fn suhkelva_num_constraints(s: *const u32, s_len: usize) -> Number;
    fn suhkelva_convert(s: *const u32, s_len: usize, out: *mut u32, out_len: usize) -> Written;
    fn suhkelva_read_blocks(
        bytes: *const u8,
        bytes_len: usize,
        out: *mut u32,
        out_len: usize,
    ) -> Written;
    fn suhkelva_write_blocks(s: *const u32, s_len: usize, out: *mut u8, out_len: usize) -> Written;
    fn suhkelva_build(
        s: *const u32,
        s_len: usize,
        scratch: *mut u32,
        scratch_len: usize,
        out: *mut u32,
        out_len: usize,
    ) -> Written;
    fn suhkelva_expand_constraints(
        s: *const u32,
        s_len: usize,
        work: *mut u32,
        work_len: usize,
        pool: *mut u32,
        pool_len: usize,
        headers: *mut u32,
        headers_len: usize,
        variables: *mut u32,
        variables_len: usize,
        terms: *mut u32,
        terms_len: usize,
    ) -> ConstraintLists;
    fn suhkelva_expand_interactions(
        s: *const u32,
        s_len: usize,
        work: *mut u32,
        work_len: usize,
        pool: *mut u32,
        pool_len: usize,
        headers: *mut u32,
        headers_len: usize,
        variables: *mut u32,
        variables_len: usize,
        terms: *mut u32,
        terms_len: usize,
        denom_headers: *mut u32,
        denom_headers_len: usize,
        denom_variables: *mut u32,
        denom_variables_len: usize,
        denom_terms: *mut u32,
        denom_terms_len: usize,
    ) -> InteractionLists;
}

pub fn pack([kind, a, b, c, d]: [u32; 5]) -> Packed {
    unsafe { suhkelva_pack(kind, a, b, c, d) }
}

pub fn unpack(packed: u32) -> Record {
    unsafe { suhkelva_unpack(packed) }
}

pub fn block_check(bytes: &[u8], number: u32) -> Block {
    unsafe { suhkelva_block_check(bytes.as_ptr(), bytes.len(), number) }
}

pub fn check_sheet(s: &[u32]) -> Sheet {
    unsafe { suhkelva_check_sheet(s.as_ptr(), s.len()) }
}

pub fn max_rotation(s: &[u32]) -> Number {
    unsafe { suhkelva_max_rotation(s.as_ptr(), s.len()) }
}

pub fn num_constraints(s: &[u32]) -> Number {
    unsafe { suhkelva_num_constraints(s.as_ptr(), s.len()) }
}

pub fn convert(s: &[u32], out: &mut [u32]) -> Written {
    unsafe { suhkelva_convert(s.as_ptr(), s.len(), out.as_mut_ptr(), out.len()) }
}

pub fn read_blocks(bytes: &[u8], out: &mut [u32]) -> Written {
    unsafe { suhkelva_read_blocks(bytes.as_ptr(), bytes.len(), out.as_mut_ptr(), out.len()) }
}

pub fn write_blocks(s: &[u32], out: &mut [u8]) -> Written {
    unsafe { suhkelva_write_blocks(s.as_ptr(), s.len(), out.as_mut_ptr(), out.len()) }
}

pub fn build(s: &[u32], scratch: &mut [u32], out: &mut [u32]) -> Written {
    unsafe {
        suhkelva_build(
            s.as_ptr(),
            s.len(),
            scratch.as_mut_ptr(),
            scratch.len(),
            out.as_mut_ptr(),
            out.len(),
        )
    }
}

pub fn expand_constraints(
    s: &[u32],
    work: &mut [u32],
    pool: &mut [u32],
    lists: Lists,
) -> ConstraintLists {
    let Lists {
        headers,
        variables,
        terms,
    } = lists;
    unsafe {
        suhkelva_expand_constraints(
            s.as_ptr(),
            s.len(),
            work.as_mut_ptr(),
            work.len(),
            pool.as_mut_ptr(),
            pool.len(),
            headers.as_mut_ptr(),
            headers.len(),
            variables.as_mut_ptr(),
            variables.len(),
            terms.as_mut_ptr(),
            terms.len(),
        )
    }
}

pub fn expand_interactions(
    s: &[u32],
    work: &mut [u32],
    pool: &mut [u32],
    numerators: Lists,
    denominators: Lists,
) -> InteractionLists {
    let Lists {
        headers,
        variables,
        terms,
    } = numerators;
    unsafe {
        suhkelva_expand_interactions(
            s.as_ptr(),
            s.len(),
            work.as_mut_ptr(),
            work.len(),
            pool.as_mut_ptr(),
            pool.len(),
            headers.as_mut_ptr(),
            headers.len(),
            variables.as_mut_ptr(),
            variables.len(),
            terms.as_mut_ptr(),
            terms.len(),
            denominators.headers.as_mut_ptr(),
            denominators.headers.len(),
            denominators.variables.as_mut_ptr(),
            denominators.variables.len(),
            denominators.terms.as_mut_ptr(),
            denominators.terms.len(),
        )
    }
}
