//! "All arithmetic on values is modulo p, each kept as 0 to p − 1."

/// "p is 2013265921 (15 times 2^27, plus 1)."
pub const P: u32 = 2_013_265_921;

pub fn add(a: u32, b: u32) -> u32 {
    reduce(u64::from(a) + u64::from(b))
}

pub fn sub(a: u32, b: u32) -> u32 {
    add(a, neg(b))
}

pub fn mul(a: u32, b: u32) -> u32 {
    reduce(u64::from(a) * u64::from(b))
}

pub fn neg(a: u32) -> u32 {
    reduce(u64::from(P) - u64::from(a))
}

fn reduce(n: u64) -> u32 {
    (n % u64::from(P)) as u32
}
