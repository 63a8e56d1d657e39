//! The same thing of the engine and of the twin.

#[derive(Debug, Clone, Copy, PartialEq)]
pub struct Pair<T> {
    pub engine: T,
    pub twin: T,
}

impl<T> Pair<T> {
    pub fn map<U>(self, change: impl Fn(T) -> U) -> Pair<U> {
        Pair { engine: change(self.engine), twin: change(self.twin) }
    }

    pub fn as_ref(&self) -> Pair<&T> {
        Pair { engine: &self.engine, twin: &self.twin }
    }
}
