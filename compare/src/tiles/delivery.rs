//! Where a stream delivers to. The Rust's visitor and document 01's model deliver in the same way.

use super::feature::{Head, Point, Way};

/// Takes what a stream delivers.
pub trait Delivery {
    fn point(&mut self, point: Point);
    /// A way's head; answers whether the way is accepted.
    fn head(&mut self, head: Head) -> bool;
    /// An accepted way.
    fn way(&mut self, way: Way);
}

/// Accepts all ways and looks at nothing.
pub struct Unread;

impl Delivery for Unread {
    fn point(&mut self, _point: Point) {}

    fn head(&mut self, _head: Head) -> bool {
        true
    }

    fn way(&mut self, _way: Way) {}
}
