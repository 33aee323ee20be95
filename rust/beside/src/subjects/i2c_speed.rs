//! The I2C speed of two register values: reference, a, b.
use crate::answer::Answer;
use crate::bench::Timed;
use crate::generate::{Numbers, around, grid};
use crate::rng::Rng;
use crate::subject::{About, Subject};

pub struct I2cSpeed;

impl Subject for I2cSpeed {
    fn about(&self) -> About {
        About {
            name: "i2c-speed",
            stream: 3,
            list: Some([usize::MAX, 200, 200]),
        }
    }

    fn edges(&self) -> Vec<Numbers> {
        let mut all = Vec::new();
        let pairs = grid([0..=4, 0..=4]).into_iter();
        for pair in pairs.chain(grid([254..=255, 254..=255])) {
            let divisor = 22 * u64::from(pair[0] + 1) * u64::from(pair[1] + 1);
            for times in [1, 2, 90_000] {
                let inputs = around(divisor * times).into_iter();
                all.extend(inputs.map(|input| vec![input, pair[0], pair[1]]));
            }
        }
        all
    }

    fn small(&self) -> Vec<Numbers> {
        grid([u32::MAX - 1..=u32::MAX, 0..=255, 0..=255])
    }

    fn random(&self, rng: &Rng) -> Numbers {
        vec![rng.magnitude(32), rng.below(256), rng.below(256)]
    }

    fn ruled(&self, _n: &[u32]) -> Option<Answer> {
        None
    }

    fn original(&self, n: &[u32]) -> Answer {
        Answer::given([original::i2c_speed(n[0], n[1] as u8, n[2] as u8)])
    }

    #[cfg(archive)]
    fn ours(&self, n: &[u32]) -> Answer {
        let speed = ogruspinu::raw::i2c_speed(n[0], n[1] as u8, n[2] as u8);
        Answer::given([speed])
    }

    fn rust_timed(&self) -> Option<Timed> {
        Some(|inputs| inputs.each(|n| original::i2c_speed(n[0], n[1] as u8, n[2] as u8)))
    }

    #[cfg(archive)]
    fn ours_timed(&self) -> Option<Timed> {
        use ogruspinu::i2c::{ClockConfig, calculate_i2c_speed};
        use ogruspinu::time::Hertz;
        Some(|inputs| {
            inputs.each(|n| {
                let config = ClockConfig::new(n[1] as u8, n[2] as u8);
                calculate_i2c_speed(Hertz::from_raw(n[0]), config).to_raw()
            })
        })
    }
}
