//! Stand-in for `p3_air`: the traits that the Rust implements, with the items it names.

use p3_field::{Algebra, Field};

pub trait AirBuilder: Sized {
    type F: Field;
    type Expr: Algebra<Self::F> + Algebra<Self::Var>;
    type Var: Into<Self::Expr> + Copy;
    type M;

    fn main(&self) -> Self::M;
    fn is_first_row(&self) -> Self::Expr;
    fn is_last_row(&self) -> Self::Expr;
    fn is_transition_window(&self, size: usize) -> Self::Expr;
    fn assert_zero<I: Into<Self::Expr>>(&mut self, x: I);
}

pub trait PairBuilder: AirBuilder {
    fn preprocessed(&self) -> Self::M;
}

pub trait ExtensionBuilder: AirBuilder {
    type EF;
    type ExprEF;
    type VarEF;

    fn assert_zero_ext<I>(&mut self, x: I)
    where
        I: Into<Self::ExprEF>;
}

pub trait AirBuilderWithPublicValues: AirBuilder {
    type PublicVar;

    fn public_values(&self) -> &[Self::PublicVar];
}

pub trait BaseAirWithPublicValues<F> {
    fn num_public_values(&self) -> usize;
}

pub trait Air<AB: AirBuilder> {
    fn eval(&self, builder: &mut AB);
}
