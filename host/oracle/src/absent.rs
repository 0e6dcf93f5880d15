//! The same names where the text was not at hand: nothing can be lent, so nothing can be asked.

use crate::Verdict;
use requests::Request;

pub enum Lent {}

pub struct Ready<'a>(&'a Lent);

pub struct Variant;

impl Lent {
    pub fn over(_request: &Request) -> Option<Self> {
        None
    }

    pub fn ready(&self, _request: &Request) -> Ready<'_> {
        match *self {}
    }
}

impl Variant {
    pub fn of(_request: &Request) -> Self {
        Variant
    }
}

impl Ready<'_> {
    pub fn normalize(&self, _variant: &Variant) -> bool {
        match *self.0 {}
    }

    pub fn answer(&self, _variant: &Variant) -> Verdict {
        match *self.0 {}
    }
}
