//! The steps of a transform in 24 bytes, as many as a matrix has.

pub const UPRIGHT: u8 = 2;
pub const SIDEWAYS: u8 = 4;
pub const SCALED: u8 = 8;
pub const ROTATED: u8 = 16;
const MOVED: u8 = 1;

#[derive(Clone, Copy, Debug, Default)]
pub struct Transform {
    pub nudge: f32,
    pub scale: f32,
    pub x: f32,
    pub y: f32,
    pub angle: f32,
    steps: u8,
    /// The cluster that it belongs to, which a copy still tells.
    pub cluster: u16,
}

impl Transform {
    pub fn from_translate(x: f32, y: f32) -> Self {
        Transform::default().pre_translate(x, y)
    }

    /// The last translation is the shift; one before it is a nudge.
    pub fn pre_translate(mut self, x: f32, y: f32) -> Self {
        if self.steps & MOVED != 0 {
            self.nudge = self.y;
            self.steps |= SIDEWAYS;
        }
        self.steps |= MOVED;
        (self.x, self.y) = (x, y);
        self
    }

    pub fn pre_scale(mut self, x: f32, _y: f32) -> Self {
        self.scale = x;
        self.steps |= SCALED;
        self
    }

    pub fn pre_rotate(mut self, angle: f32) -> Self {
        self.angle = angle;
        self.steps |= ROTATED;
        self
    }

    /// After a translation by the nudge.
    pub fn pre_rotate_at(mut self, _angle: f32, _x: f32, _y: f32) -> Self {
        self.nudge = self.y;
        self.steps |= UPRIGHT;
        self
    }

    /// The answer's flags for the steps that were taken.
    pub fn flags(&self) -> u8 {
        self.steps & !MOVED
    }
}
