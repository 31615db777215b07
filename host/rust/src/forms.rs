//! The forms in which a call takes margins.

use crate::lent::Matrix;
use crate::Votes;
use std::rc::Rc;
use std::sync::Arc;

/// Margins in a form that [`thin`](crate::thin) takes: columns of doubles in a `Vec`, a slice or an array, or [`Votes`], one bit a margin;
/// and a reference, a `Box`, an `Rc` or an `Arc` of one of them. No other type can have it.
pub trait Margins: Lend {}

impl<M: Lend + ?Sized> Margins for M {}

/// Margins as the archive takes them.
pub enum Form<'a> {
    Doubles(Matrix<'a>),
    Bits(&'a Votes),
}

impl Form<'_> {
    pub fn columns(&self) -> usize {
        match self {
            Form::Doubles(matrix) => matrix.m,
            Form::Bits(votes) => votes.columns(),
        }
    }

    pub fn rows(&self) -> usize {
        match self {
            Form::Doubles(matrix) => matrix.n,
            Form::Bits(votes) => votes.rows(),
        }
    }
}

/// What can be lent to the archive.
pub trait Lend {
    fn lend(&self) -> Form<'_>;
}

impl Lend for [Vec<f64>] {
    fn lend(&self) -> Form<'_> {
        Form::Doubles(Matrix::new(self))
    }
}

impl<const M: usize> Lend for [Vec<f64>; M] {
    fn lend(&self) -> Form<'_> {
        self.as_slice().lend()
    }
}

impl Lend for Vec<Vec<f64>> {
    fn lend(&self) -> Form<'_> {
        self.as_slice().lend()
    }
}

impl Lend for Votes {
    fn lend(&self) -> Form<'_> {
        Form::Bits(self)
    }
}

impl<M: Lend + ?Sized> Lend for &M {
    fn lend(&self) -> Form<'_> {
        (**self).lend()
    }
}

impl<M: Lend + ?Sized> Lend for &mut M {
    fn lend(&self) -> Form<'_> {
        (**self).lend()
    }
}

impl<M: Lend + ?Sized> Lend for Box<M> {
    fn lend(&self) -> Form<'_> {
        (**self).lend()
    }
}

impl<M: Lend + ?Sized> Lend for Rc<M> {
    fn lend(&self) -> Form<'_> {
        (**self).lend()
    }
}

impl<M: Lend + ?Sized> Lend for Arc<M> {
    fn lend(&self) -> Form<'_> {
        (**self).lend()
    }
}
