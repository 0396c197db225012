//! The square root, and the norm of a residual.

exported! {
    fn square_root(x: f64) -> f64;
    fn compute_residual_norm(residual: &[f64]) -> f64;
}
