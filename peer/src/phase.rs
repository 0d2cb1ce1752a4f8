//! The phases of a plan.

/// Empty, steps, orders, running, over; and ready, between running and over,
/// which stands last so that the numbers of the others stay.
#[derive(Clone, Copy, Debug, PartialEq, Eq)]
pub enum Phase {
    Empty,
    Steps,
    Orders,
    Running,
    Over,
    Ready,
}
