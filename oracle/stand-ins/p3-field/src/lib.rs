//! Stand-in for `p3_field`: the traits that the Rust names, and BabyBear with canonical values.

use std::fmt::{self, Debug};
use std::hash::Hash;
use std::iter::{Product, Sum};
use std::ops::{Add, AddAssign, Mul, MulAssign, Neg, Sub, SubAssign};

pub trait PrimeCharacteristicRing:
    Sized
    + Default
    + Clone
    + Debug
    + Add<Output = Self>
    + AddAssign
    + Sub<Output = Self>
    + SubAssign
    + Neg<Output = Self>
    + Mul<Output = Self>
    + MulAssign
    + Sum
    + Product
{
    type PrimeSubfield;

    const ZERO: Self;
    const ONE: Self;
    const TWO: Self;
    const NEG_ONE: Self;

    fn from_prime_subfield(f: Self::PrimeSubfield) -> Self;
}

pub trait Algebra<F>:
    PrimeCharacteristicRing
    + From<F>
    + Add<F, Output = Self>
    + AddAssign<F>
    + Sub<F, Output = Self>
    + SubAssign<F>
    + Mul<F, Output = Self>
    + MulAssign<F>
{
}

pub trait Field: PrimeCharacteristicRing + Copy + Eq + Hash + Send + Sync + 'static {}

/// A value modulo 2013265921, kept as 0 to 2013265920.
#[derive(Clone, Copy, Default, PartialEq, Eq, Hash, PartialOrd, Ord)]
pub struct BabyBear(u32);

impl BabyBear {
    pub const ORDER: u32 = 15 * (1 << 27) + 1;

    /// The value of a word that is below the order already.
    pub fn new(canonical: u32) -> Self {
        assert!(canonical < Self::ORDER, "not a canonical value");
        Self(canonical)
    }

    pub fn value(self) -> u32 {
        self.0
    }
}

impl Debug for BabyBear {
    fn fmt(&self, f: &mut fmt::Formatter<'_>) -> fmt::Result {
        Debug::fmt(&self.0, f)
    }
}

impl Add for BabyBear {
    type Output = Self;

    fn add(self, rhs: Self) -> Self {
        let sum = self.0 + rhs.0; // below 2^32, for both are below 2^31
        Self(if sum >= Self::ORDER {
            sum - Self::ORDER
        } else {
            sum
        })
    }
}

impl Neg for BabyBear {
    type Output = Self;

    fn neg(self) -> Self {
        Self(if self.0 == 0 { 0 } else { Self::ORDER - self.0 })
    }
}

impl Sub for BabyBear {
    type Output = Self;

    fn sub(self, rhs: Self) -> Self {
        self + -rhs
    }
}

impl Mul for BabyBear {
    type Output = Self;

    fn mul(self, rhs: Self) -> Self {
        Self((u64::from(self.0) * u64::from(rhs.0) % u64::from(Self::ORDER)) as u32)
    }
}

impl AddAssign for BabyBear {
    fn add_assign(&mut self, rhs: Self) {
        *self = *self + rhs;
    }
}

impl SubAssign for BabyBear {
    fn sub_assign(&mut self, rhs: Self) {
        *self = *self - rhs;
    }
}

impl MulAssign for BabyBear {
    fn mul_assign(&mut self, rhs: Self) {
        *self = *self * rhs;
    }
}

impl Sum for BabyBear {
    fn sum<I: Iterator<Item = Self>>(iter: I) -> Self {
        iter.fold(Self::ZERO, Add::add)
    }
}

impl Product for BabyBear {
    fn product<I: Iterator<Item = Self>>(iter: I) -> Self {
        iter.fold(Self::ONE, Mul::mul)
    }
}

impl PrimeCharacteristicRing for BabyBear {
    type PrimeSubfield = Self;

    const ZERO: Self = Self(0);
    const ONE: Self = Self(1);
    const TWO: Self = Self(2);
    const NEG_ONE: Self = Self(Self::ORDER - 1);

    fn from_prime_subfield(f: Self) -> Self {
        f
    }
}

impl Field for BabyBear {}
