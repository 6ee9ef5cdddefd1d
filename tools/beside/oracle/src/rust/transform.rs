//! A transform that records its steps instead of composing a matrix.

use crate::steps::Step;

const MOST: usize = 4;

#[derive(Clone, Copy, Debug, Default)]
pub struct Transform {
    steps: [Option<Step>; MOST],
    /// The cluster that it belongs to, which a copy still tells.
    pub cluster: usize,
}

impl Transform {
    pub fn from_translate(x: f32, y: f32) -> Self {
        Transform::default().pre_translate(x, y)
    }

    pub fn pre_translate(self, x: f32, y: f32) -> Self {
        self.then(Step::Translate(x, y))
    }

    pub fn pre_scale(self, x: f32, y: f32) -> Self {
        self.then(Step::Scale(x, y))
    }

    pub fn pre_rotate(self, angle: f32) -> Self {
        self.then(Step::Rotate(angle))
    }

    pub fn pre_rotate_at(self, angle: f32, x: f32, y: f32) -> Self {
        self.then(Step::RotateAt(angle, x, y))
    }

    pub fn steps(&self) -> Vec<Step> {
        self.steps.iter().flatten().copied().collect()
    }

    fn then(mut self, step: Step) -> Self {
        let free = self.steps.iter().position(Option::is_none);
        self.steps[free.expect("more steps than a cluster takes")] = Some(step);
        self
    }
}
