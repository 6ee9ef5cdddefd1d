//! The two methods of `Transform` that release 0.8 lacks, in the words of those it has.

use super::notes;
use super::Transform;

pub trait Rotations {
    fn pre_rotate(&self, angle: f32) -> Self;
    fn pre_rotate_at(&self, angle: f32, x: f32, y: f32) -> Self;
}

impl Rotations for Transform {
    fn pre_rotate(&self, angle: f32) -> Self {
        self.pre_concat(Transform::from_rotate(angle))
    }

    fn pre_rotate_at(&self, angle: f32, x: f32, y: f32) -> Self {
        let turned = self.pre_concat(Transform::from_rotate_at(angle, x, y));
        notes::turned(angle, turned);
        turned
    }
}
