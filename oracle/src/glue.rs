//! Stand-ins for what is not in docs/src. Nothing that is compared passes through them.

/// As much of the crate arrayvec as equation_solver.rs and its callers use.
#[derive(Debug, Clone)]
pub struct ArrayVec<T, const N: usize>(Vec<T>);

impl<T, const N: usize> ArrayVec<T, N> {
    pub fn new() -> Self {
        ArrayVec(Vec::new())
    }

    pub fn push(&mut self, x: T) {
        self.0.push(x);
    }
}

impl<T, const N: usize> std::ops::Deref for ArrayVec<T, N> {
    type Target = [T];
    fn deref(&self) -> &[T] {
        &self.0
    }
}

impl<T, const N: usize> std::ops::DerefMut for ArrayVec<T, N> {
    fn deref_mut(&mut self) -> &mut [T] {
        &mut self.0
    }
}
