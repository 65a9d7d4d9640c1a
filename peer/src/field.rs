//! The field GF(2^10) (specification, 7.1).
//!
//! An element is a number below 1024 whose bit i is the coefficient of x^i. Addition is exclusive or. Products go
//! through logarithms to the base α = 2, a root of the modulus x^10 + x^3 + 1.
//!
//! The functions in the first half are what the rest of the crate computes with; they take elements, and panic on
//! larger numbers. The *field calls* in the second half take any numbers and answer `None` where there is no answer.

/// Bits of an element: the specification's m, 10 in both sets.
pub const BITS: usize = 10;

/// How many elements there are.
pub const SIZE: usize = 1 << BITS;

/// How many non-zero elements there are; α to this power is 1.
pub const UNITS: usize = SIZE - 1;

/// x^10 + x^3 + 1 (specification, 7.1).
const MODULUS: u16 = 1 << 10 | 1 << 3 | 1;

struct Tables {
    /// `power[i]` is α^i. The 1023 powers stand twice, so that the sum of two logarithms is always a place.
    power: [u16; 2 * UNITS],
    /// `log[a]` is the i below 1023 with α^i = a. The entry of 0 is never used.
    log: [u16; SIZE],
}

static TABLES: Tables = Tables::new();

impl Tables {
    const fn new() -> Self {
        let mut tables = Tables {
            power: [0; 2 * UNITS],
            log: [0; SIZE],
        };
        let mut element = 1;
        let mut i = 0;
        while i < UNITS {
            tables.power[i] = element;
            tables.power[i + UNITS] = element;
            tables.log[element as usize] = i as u16;
            element = times_alpha(element);
            i += 1;
        }
        tables
    }
}

/// The element times x, reduced.
const fn times_alpha(element: u16) -> u16 {
    let shifted = element << 1;
    if shifted < SIZE as u16 {
        shifted
    } else {
        shifted ^ MODULUS
    }
}

fn log(a: u16) -> usize {
    TABLES.log[usize::from(a)].into()
}

/// The product of two elements.
pub fn mul(a: u16, b: u16) -> u16 {
    if a == 0 || b == 0 {
        0
    } else {
        TABLES.power[log(a) + log(b)]
    }
}

/// The inverse of an element.
///
/// # Panics
/// Zero has no inverse.
pub fn inv(a: u16) -> u16 {
    assert_ne!(a, 0, "zero has no inverse");
    TABLES.power[UNITS - log(a)]
}

/// The quotient a / b.
///
/// # Panics
/// If b is zero.
pub fn div(a: u16, b: u16) -> u16 {
    mul(a, inv(b))
}

/// α to any power.
pub fn alpha(exponent: usize) -> u16 {
    TABLES.power[exponent % UNITS]
}

/// Adds `factor` times `source` to `target`, element by element.
pub fn add_multiple(target: &mut [u16], factor: u16, source: &[u16]) {
    debug_assert_eq!(target.len(), source.len());
    if factor == 0 {
        return;
    }
    let multiples = &TABLES.power[log(factor)..];
    for (sum, &element) in target.iter_mut().zip(source) {
        if element != 0 {
            *sum ^= multiples[log(element)];
        }
    }
}

/// Multiplies every element of a row by `factor`.
pub fn scale(row: &mut [u16], factor: u16) {
    for element in row {
        *element = mul(*element, factor);
    }
}

/// The value of a polynomial, lowest coefficient first, at a point (Horner's rule).
pub fn evaluate(polynomial: &[u16], point: u16) -> u16 {
    let from_the_top = polynomial.iter().rev();
    from_the_top.fold(0, |value, &coefficient| mul(value, point) ^ coefficient)
}

/// Field call: the sum of two elements; `None` if a number is no element.
pub fn sum(a: u16, b: u16) -> Option<u16> {
    are_elements(&[a, b]).then_some(a ^ b)
}

/// Field call: the product of two elements; `None` if a number is no element.
pub fn product(a: u16, b: u16) -> Option<u16> {
    are_elements(&[a, b]).then(|| mul(a, b))
}

/// Field call: the inverse of an element; `None` for zero and for numbers that are no elements.
pub fn inverse(a: u16) -> Option<u16> {
    (a != 0 && are_elements(&[a])).then(|| inv(a))
}

/// Field call: α to a power from 0 to 1023; `None` above.
pub fn power(exponent: u16) -> Option<u16> {
    are_elements(&[exponent]).then(|| alpha(exponent.into()))
}

/// Field call: the logarithm, from 0 to 1022; `None` for zero and for numbers that are no elements.
pub fn logarithm(a: u16) -> Option<u16> {
    (a != 0 && are_elements(&[a])).then(|| TABLES.log[usize::from(a)])
}

/// Whether all numbers are elements, that is, below 1024.
pub fn are_elements(numbers: &[u16]) -> bool {
    numbers.iter().all(|&number| usize::from(number) < SIZE)
}

#[cfg(test)]
mod tests {
    use super::*;

    /// The product by shifts and exclusive ors, straight from the definition.
    fn long_product(a: u16, b: u16) -> u16 {
        let mut sum = 0;
        let mut multiple = a;
        for i in 0..BITS {
            if b >> i & 1 == 1 {
                sum ^= multiple;
            }
            multiple = times_alpha(multiple);
        }
        sum
    }

    #[test]
    fn product_is_polynomial_product_modulo_the_modulus() {
        for a in 0..SIZE as u16 {
            for b in 0..SIZE as u16 {
                assert_eq!(mul(a, b), long_product(a, b), "{a} times {b}");
            }
        }
    }

    #[test]
    fn alpha_generates_every_unit_once() {
        let mut seen = vec![false; SIZE];
        for i in 0..UNITS {
            assert!(!std::mem::replace(&mut seen[usize::from(alpha(i))], true));
            assert_eq!(logarithm(alpha(i)), Some(i as u16));
        }
        assert!(!seen[0]);
        assert_eq!(alpha(UNITS), 1);
    }

    #[test]
    fn every_unit_has_its_inverse() {
        for a in 1..SIZE as u16 {
            assert_eq!(mul(a, inv(a)), 1);
            assert_eq!(div(a, a), 1);
        }
    }

    #[test]
    fn field_calls_refuse_what_is_no_element() {
        assert_eq!(sum(1023, 1), Some(1022));
        assert_eq!(product(1024, 0), None);
        assert_eq!(product(0, 65535), None);
        assert_eq!(sum(0, 1024), None);
        assert_eq!(inverse(0), None);
        assert_eq!(inverse(1024), None);
        assert_eq!(inverse(2), Some(516));
        assert_eq!(logarithm(0), None);
        assert_eq!(logarithm(1024), None);
        assert_eq!(power(0), Some(1));
        assert_eq!(power(1023), Some(1));
        assert_eq!(power(1024), None);
    }

    #[test]
    fn rows_are_handled_element_by_element() {
        let mut row = [1, 0, 512, 7];
        add_multiple(&mut row, 2, &[512, 3, 0, 1]);
        assert_eq!(row, [1 ^ 9, 6, 512, 7 ^ 2]);
        add_multiple(&mut row, 0, &[1, 1, 1, 1]);
        assert_eq!(row, [8, 6, 512, 5]);
        scale(&mut row, 2);
        assert_eq!(row, [16, 12, 9, 10]);
    }

    #[test]
    fn polynomials_are_evaluated_lowest_coefficient_first() {
        assert_eq!(evaluate(&[], 5), 0);
        assert_eq!(evaluate(&[7], 5), 7);
        assert_eq!(evaluate(&[1, 1, 3], 2), 1 ^ 2 ^ mul(3, 4));
    }
}
