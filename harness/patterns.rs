//! Reals on which leaves are compared: the edges that document 01 and the layout of an `f64`
//! name, and random ones about those edges.

use crate::items::H;
use crate::random::Random;

/// The float that is `steps` floats above x (below, where negative); the ends stay.
pub fn moved(x: f64, steps: i64) -> f64 {
    if x.is_nan() {
        return x;
    }
    // Sign and size as one whole number, in which neighbouring floats are neighbours and the two
    // zeros are one.
    let size = (x.to_bits() & (u64::MAX >> 1)) as i64;
    let limit = f64::INFINITY.to_bits() as i64;
    let at = (if x.is_sign_negative() { -size } else { size }) + steps;
    let at = at.clamp(-limit, limit);
    if at == 0 && x.is_sign_negative() {
        return -0.0;
    }
    let moved = f64::from_bits(at.unsigned_abs());
    if at < 0 { -moved } else { moved }
}

/// Every edge, with its neighbours and both signs.
pub fn edges() -> Vec<f64> {
    let mut out = vec![
        f64::NAN,
        f64::from_bits(0x7ff0_0000_0000_0001),
        f64::from_bits(0xfff8_0000_0000_0000),
        f64::from_bits(0xffff_ffff_ffff_ffff),
    ];
    let mut about = |x: f64, n: i64| {
        for steps in -n..=n {
            let near = moved(x, steps);
            out.push(near);
            out.push(-near);
        }
    };
    // Zero and the least subnormals; the largest subnormal and the least normal number; the
    // largest number and infinity.
    about(0.0, 8);
    about(f64::MIN_POSITIVE, 8);
    about(f64::MAX, 8);
    // Powers of two; from 2^51 to 2^54 the last halves, and the first even numbers.
    for exponent in -1074..=1023 {
        about(power_of_two(exponent), 2);
    }
    for exponent in 50..=64 {
        about(power_of_two(exponent), 16);
    }
    // Whole numbers and halves.
    for doubled in 0..4096 {
        about(f64::from(doubled) * 0.5, 2);
    }
    // Multiples of H, where sin or cos is least, and of H / 2, where round(t / H) steps.
    for doubled in 0..1300 {
        about(f64::from(doubled) * 0.5 * H, 4);
    }
    about(1000.0, 64);
    out
}

pub fn power_of_two(exponent: i32) -> f64 {
    if exponent < -1022 {
        f64::from_bits(1 << (exponent + 1074))
    } else {
        f64::from_bits(((exponent + 1023) as u64) << 52)
    }
}

/// Some edges, few enough for all their pairs to be tried.
pub fn few_edges() -> Vec<f64> {
    let mut out = vec![f64::INFINITY, f64::MAX, f64::MIN_POSITIVE, 1e-300, 1e-9, 1e9, 1e300, H];
    out.extend((0..4).map(|n| moved(0.0, n)));
    out.extend((-2..=2).flat_map(|n| [moved(1.0, n), moved(1000.0, n), moved(2.0 * H, n)]));
    let negative: Vec<f64> = out.iter().map(|x| -x).collect();
    out.extend(negative);
    out.push(f64::NAN);
    out
}

/// Any pattern, and now and then an edge.
pub fn number(random: &mut Random) -> f64 {
    if random.one_in(4) { random.choose(&few_edges()) } else { random.pattern() }
}

/// A real of any size about which rounding decides something: below 2^55, often near a half.
pub fn about_whole(random: &mut Random) -> f64 {
    let size = power_of_two(random.below(60) as i32 - 4);
    let x = random.between(0.0, size);
    let x = match random.below(4) {
        0 => x,
        1 => random.near(x.floor(), 2),
        2 => random.near(x.floor() + 0.5, 2),
        _ => random.near(x.ceil() * 0.5, 2),
    };
    random.signed(x)
}

/// A real whose root is about to be exact or half way between two floats.
pub fn about_square(random: &mut Random) -> f64 {
    let root = match random.below(3) {
        0 => random.below(1 << 26) as f64,
        1 => (1u64 << 26) as f64 + random.below(1 << 26) as f64 + 0.5,
        _ => f64::from_bits(random.below(f64::INFINITY.to_bits())).sqrt(),
    };
    let scale = power_of_two(2 * random.below(400) as i32 - 400);
    random.near(root * root * scale, 3)
}

/// An angle: of any size up to 1,100, often near a multiple of H or of H / 2.
pub fn angle(random: &mut Random) -> f64 {
    match random.below(4) {
        0 => random.between(-1100.0, 1100.0),
        1 => random.between(-64.0, 64.0),
        2 => {
            let size = random.scaled(1e-30, 1000.0);
            random.signed(size)
        }
        _ => {
            let multiple = random.below(1301) as f64 * 0.5 * H;
            let near = random.near(multiple, 1 << 20);
            random.signed(near)
        }
    }
}

/// A cosine: from -1 to 1 and a little past it, often one that some angle has to the bit.
pub fn cosine(random: &mut Random) -> f64 {
    match random.below(4) {
        0 => random.between(-1.01, 1.01),
        1 => {
            let size = random.scaled(1e-30, 1.0);
            random.signed(size)
        }
        2 => crate::items::Real::cosine(random.between(0.0, 2.0 * H)),
        _ => {
            let near = random.near(1.0, 1 << 30);
            random.signed(near)
        }
    }
}
