//! What the sources ask of animato-core's module `traits`. The blend is the rule book's, so it is not
//! compared with animato's own. The reports serve `introspect` alone, which is not ported.
use crate::Easing;
use core::any::Any;

pub trait Interpolate {
    fn lerp(&self, other: &Self, t: f32) -> Self;
}

impl Interpolate for f32 {
    #[inline]
    fn lerp(&self, other: &Self, t: f32) -> Self {
        self + (other - self) * t
    }
}

pub trait Animatable: Interpolate + Clone + 'static {}

impl<T: Interpolate + Clone + 'static> Animatable for T {}

pub trait Update {
    fn update(&mut self, dt: f32) -> bool;
}

pub trait Playable: Update {
    fn duration(&self) -> f32;
    fn reset(&mut self);
    fn seek_to(&mut self, progress: f32);
    fn is_complete(&self) -> bool;
    fn as_any(&self) -> &dyn Any;
    fn as_any_mut(&mut self) -> &mut dyn Any;
}

pub trait Inspectable {
    fn introspect(&self) -> AnimationIntrospection;
}

pub enum AnimationKind {
    Tween,
    Keyframe,
}

pub enum PlaybackState {
    Idle,
    Playing,
    Paused,
    Complete,
}

pub struct AnimationIntrospection;

impl AnimationIntrospection {
    pub fn new(
        _: AnimationKind,
        _: f32,
        _: f32,
        _: Option<f32>,
        _: PlaybackState,
        _: Option<Easing>,
    ) -> Self {
        Self
    }
}
