//! The two kinds of field, with symbols of up to two bytes.

/// A field, with its symbols as numbers.
pub enum Field {
    /// Numbers modulo a prime.
    Prime(u32),
    /// The field of 256 elements: the powers of 2 up to any sum of two logarithms, and the logarithm of each nonzero byte.
    Bytes { powers: Vec<u16>, logs: Vec<usize> },
}

impl Field {
    pub fn bytes() -> Field {
        let mut powers = Vec::new();
        let mut logs = vec![0; 256];
        let mut x: u32 = 1;
        for i in 0..510 {
            powers.push(x as u16);
            logs[x as usize] = i % 255;
            x <<= 1;
            if x >= 256 {
                x ^= 0x11d;
            }
        }
        Field::Bytes { powers, logs }
    }

    pub fn size(&self) -> u32 {
        match self {
            Field::Prime(p) => *p,
            Field::Bytes { .. } => 256,
        }
    }

    pub fn add(&self, a: u16, b: u16) -> u16 {
        match self {
            Field::Prime(p) => ((u32::from(a) + u32::from(b)) % p) as u16,
            Field::Bytes { .. } => a ^ b,
        }
    }

    pub fn sub(&self, a: u16, b: u16) -> u16 {
        match self {
            Field::Prime(p) => ((u32::from(a) + p - u32::from(b)) % p) as u16,
            Field::Bytes { .. } => a ^ b,
        }
    }

    pub fn mul(&self, a: u16, b: u16) -> u16 {
        match self {
            Field::Prime(p) => (u32::from(a) * u32::from(b) % p) as u16,
            Field::Bytes { powers, logs } => {
                if a == 0 || b == 0 {
                    0
                } else {
                    powers[logs[a as usize] + logs[b as usize]]
                }
            }
        }
    }

    /// By squares.
    pub fn power(&self, a: u16, e: usize) -> u16 {
        if e == 0 {
            return 1;
        }
        let half = self.power(a, e / 2);
        let square = self.mul(half, half);
        if e % 2 == 0 {
            square
        } else {
            self.mul(square, a)
        }
    }

    /// a^(q−2), which is 1/a in a field of q elements.
    pub fn inverse(&self, a: u16) -> u16 {
        self.power(a, self.size() as usize - 2)
    }

    /// The smallest number of factors a, up to 255, whose product is 1, or 0 where there is none.
    pub fn order(&self, a: u16) -> usize {
        let mut x = a;
        for e in 1..=255 {
            if x == 1 {
                return e;
            }
            x = self.mul(x, a);
        }
        0
    }
}

pub fn is_prime(p: u32) -> bool {
    p >= 2 && (2..p).take_while(|q| q * q <= p).all(|q| p % q != 0)
}
