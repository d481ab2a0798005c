//! The exact operations against values worked by hand, and against the machine's, which IEEE 754 decides as well.

use inputs::{roots, Random};

use super::*;

/// A finite number of any size and sign.
fn number(random: &mut Random) -> f64 {
    loop {
        let x = f64::from_bits(roots::any(random) ^ random.below(2) << 63);
        if x.is_finite() {
            return x;
        }
    }
}

fn agrees(name: &str, ours: f64, machine: f64) {
    assert_eq!(
        ours.to_bits(),
        machine.to_bits(),
        "{name}: {ours:e} {machine:e}"
    );
}

#[test]
fn by_hand() {
    // 1 + 2⁻⁵³ lies halfway and goes to the even 1; a last place more goes up.
    let half = 2.0_f64.powi(-53);
    agrees("tie", add(1.0, half), 1.0);
    agrees(
        "above the tie",
        add(1.0, half + half * f64::EPSILON),
        1.0 + f64::EPSILON,
    );
    agrees(
        "odd tie",
        add(1.0 + f64::EPSILON, half),
        1.0 + 2.0 * f64::EPSILON,
    );
    agrees(
        "third",
        div(1.0, 3.0),
        f64::from_bits(0x3FD5_5555_5555_5555),
    );
    agrees("too large", mul(1e200, 1e200), f64::INFINITY);
    agrees("too small", mul(-1e-200, 1e-200), -0.0);
    agrees("cancelled", sub(3.0, 3.0), 0.0);
    agrees("zeros below zero", add(-0.0, -0.0), -0.0);
    agrees("zeros", sub(-0.0, -0.0), 0.0);
    agrees(
        "root of 2",
        root(2.0),
        f64::from_bits(0x3FF6_A09E_667F_3BCD),
    );
    agrees("smallest root", root(f64::from_bits(1)), 2.0_f64.powi(-537));
}

#[test]
fn as_the_machine() {
    let mut random = Random::new(1);
    for _ in 0..20_000 {
        let (a, b) = (number(&mut random), number(&mut random));
        agrees("add", add(a, b), a + b);
        agrees("sub", sub(a, b), a - b);
        agrees("mul", mul(a, b), a * b);
        if b != 0.0 {
            agrees("div", div(a, b), a / b);
        }
        if a != 0.0 {
            agrees("root", root(a.abs()), a.abs().sqrt());
        }
    }
}

#[test]
fn as_the_machine_where_digits_cancel() {
    let mut random = Random::new(2);
    for _ in 0..20_000 {
        let a = number(&mut random);
        let near = f64::from_bits(a.to_bits() ^ random.below(1 << 20));
        if near.is_finite() {
            agrees("sub", sub(a, near), a - near);
        }
    }
}
