//! Same products as a yes or no.
use crate::{raw, Refusal};

/// Whether a times d equals b times c, exactly, for any four lists. Note the order: a, **d**, b, c.
///
/// The products are those of polynomials with exponents: x times x has the exponent 2, so it differs from x. The lists may
/// share variables.
///
/// ```
/// use apfelruder::same_products;
///
/// // (1 + x0) 1 = 1 (1 + x0)
/// assert_eq!(same_products(&[0, 1], &[0], &[0], &[0, 1]), Ok(true));
/// // x0 x0 is x0 squared, and x0 1 is x0
/// assert_eq!(same_products(&[1], &[1], &[1], &[0]), Ok(false));
/// ```
///
/// # Errors
///
/// [`Refusal::TooMany`] if one of the lists has more than 1,024 terms, else [`Refusal::Order`] if a term of one is not above
/// the one before it; for each, the first of a, d, b, c that gives cause (operands 1 to 4).
#[must_use = "nothing is changed; the answer is all there is"]
pub fn same_products(a: &[u64], d: &[u64], b: &[u64], c: &[u64]) -> Result<bool, Refusal> {
    Ok(raw::same_products(a, d, b, c).result()? == 1)
}
