//! Requests for one point.

use crate::elements::Stored;
use crate::numbers::*;
use crate::shapes::{Axes, Place};

pub(crate) const REQUEST: usize = 8;

/// Where each quantity stands among the elements.
mod ask_at {
    pub const PLACE: usize = 0;
    pub const ALTITUDE: usize = 2;
    pub const AXES: usize = 3;
    pub const ALTITUDE_UNCERTAINTY: usize = 6;
    pub const CONFIDENCE: usize = 7;
}

/// A point to be said to a receiver, with what is asked of its uncertainty.
#[derive(Clone, Copy, Debug, PartialEq, Eq, Hash)]
pub struct Request {
    pub place: Place,
    pub altitude: Option<AltitudeMillimetres>,
    pub horizontal: Option<Horizontal>,
    pub altitude_uncertainty: Option<Millimetres>,
    pub confidence: Option<Percent>,
}

/// A horizontal uncertainty.
#[derive(Clone, Copy, Debug, PartialEq, Eq, Hash)]
pub enum Horizontal {
    Circle(Millimetres),
    Ellipse(Axes),
}

impl Request {
    pub(crate) fn to_elements(self) -> [i64; REQUEST] {
        let mut elements = [MISSING; REQUEST];
        self.place.put(&mut elements[ask_at::PLACE..]);
        self.altitude.put(&mut elements[ask_at::ALTITUDE..]);
        match self.horizontal {
            Some(Horizontal::Circle(radius)) => radius.put(&mut elements[ask_at::AXES..]),
            Some(Horizontal::Ellipse(axes)) => axes.put(&mut elements[ask_at::AXES..]),
            None => {}
        }
        self.altitude_uncertainty.put(&mut elements[ask_at::ALTITUDE_UNCERTAINTY..]);
        self.confidence.put(&mut elements[ask_at::CONFIDENCE..]);
        elements
    }
}
