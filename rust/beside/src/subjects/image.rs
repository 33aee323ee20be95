//! For the subjects of an image: a crystal and the image's words, with every field at its limits.
use super::bypass::{self, every_way, multiplier};
use crate::answer::Answer;
use crate::generate::Numbers;
use crate::rng::Rng;
use original::WORDS;

/// A field of an image: its word, lowest bit and width.
pub type Place = (usize, u32, u32);

/// The multipliers of the ARM, DDR and IO PLLs.
pub const FDIV: [Place; 3] = [(0, 12, 7), (1, 12, 7), (2, 12, 7)];

/// Every divisor and multiplier that evaluation checks, in document 01's order of checks, then GEM's.
const CHECKED: [Place; 27] = [
    (0, 12, 7),
    (2, 12, 7),
    (1, 12, 7),
    (8, 8, 6),
    (9, 20, 6),
    (9, 26, 6),
    (18, 8, 6),
    (19, 8, 6),
    (20, 8, 6),
    (21, 8, 6),
    (22, 8, 6),
    (26, 8, 6),
    (23, 8, 6),
    (23, 20, 6),
    (25, 8, 6),
    (28, 8, 6),
    (28, 20, 6),
    (32, 8, 6),
    (32, 20, 6),
    (36, 8, 6),
    (36, 20, 6),
    (40, 8, 6),
    (40, 20, 6),
    (16, 8, 6),
    (16, 20, 6),
    (17, 8, 6),
    (17, 20, 6),
];
/// Every field that selects something, the low bits of the PLLs, and bits that nothing may follow: GEM's EMIO, status.
const SELECTING: [Place; 20] = [
    (8, 4, 2),
    (18, 4, 2),
    (19, 4, 2),
    (20, 4, 2),
    (21, 4, 2),
    (22, 4, 2),
    (23, 4, 2),
    (25, 4, 3),
    (26, 4, 2),
    (28, 4, 2),
    (32, 4, 2),
    (36, 4, 2),
    (40, 4, 2),
    (49, 0, 1),
    (16, 4, 3),
    (17, 4, 3),
    (0, 0, 5),
    (1, 0, 5),
    (2, 0, 5),
    (3, 0, 3),
];

/// A crystal and the image of a board that has been started, with divisors and sources of many kinds.
pub fn typical() -> Numbers {
    let mut numbers = vec![0; 1 + WORDS];
    numbers[0] = 33_333_333;
    let words = [
        (0, 0x0002_8008),
        (1, 0x0002_0008),
        (2, 0x0001_E008),
        (3, 0x0000_003F),
        (4, 0x000F_A220),
        (5, 0x0012_C220),
        (6, 0x0014_52C0),
        (8, 0x1F00_0200),
        (9, 0x0C20_0003),
        (16, 0x0050_0801),
        (17, 0x0010_0441),
        (18, 0x0000_3C21),
        (19, 0x0000_0501),
        (20, 0x0000_1401),
        (21, 0x0000_1402),
        (22, 0x0000_0A33),
        (23, 0x0030_0E03),
        (25, 0x0000_0F22),
        (26, 0x0000_0501),
        (28, 0x01B0_0300),
        (32, 0x0020_0520),
        (36, 0x0010_1430),
        (40, 0x03F0_3F10),
        (49, 0x0000_0001),
    ];
    for (word, value) in words {
        numbers[1 + word] = value;
    }
    numbers
}

pub fn typical_emio() -> Numbers {
    changed(&typical(), (25, 4, 3), 5)
}

pub fn changed(numbers: &[u32], (word, lowest, width): Place, value: u32) -> Numbers {
    let mut numbers = numbers.to_vec();
    let mask = ((1 << width) - 1) << lowest;
    let word = &mut numbers[1 + word];
    *word = *word & !mask | value << lowest & mask;
    numbers
}

/// Every single field of the typical image at each of its values, and each multiplier with any PLLs bypassed.
pub fn small() -> Vec<Numbers> {
    let base = typical();
    let values = |&place: &Place| {
        let base = &base;
        (0..1 << place.2).map(move |value| changed(base, place, value))
    };
    let fields = CHECKED.iter().chain(&SELECTING).flat_map(values);
    fields.chain(bypass::small(&base)).collect()
}

pub fn edges() -> Vec<Numbers> {
    let base = typical();
    let mut all = vec![base.clone(), typical_emio()];
    all.push(changed(&typical_emio(), (25, 8, 6), 0));
    // Two zeros: the one that is checked first is blamed.
    for (i, &first) in CHECKED.iter().enumerate() {
        for &second in &CHECKED[i + 1..] {
            all.push(changed(&changed(&base, first, 0), second, 0));
        }
    }
    for numbers in at_the_limit(&base) {
        all.extend(every_way(&numbers));
    }
    let mut dark = base.clone();
    dark[0] = 0;
    // An image one word short or long is refused before anything else.
    all.extend([dark, base[..WORDS].to_vec(), [&base[..], &[0]].concat()]);
    all
}

/// The largest crystal whose product fits, and one more; then with a zero somewhere as well.
fn at_the_limit(base: &[u32]) -> Vec<Numbers> {
    let ones = FDIV.iter().fold(base.to_vec(), |n, &at| changed(&n, at, 1));
    let mut all = Vec::new();
    for fdiv in [1, 2, 3, 40, 63, 64, 126, 127] {
        for pll in 0..3 {
            for crystal in [u32::MAX / fdiv, (u32::MAX / fdiv).wrapping_add(1)] {
                let mut numbers = changed(&ones, FDIV[pll], fdiv);
                numbers[0] = crystal;
                all.push(changed(&numbers, (8, 8, 6), 0));
                all.push(changed(&numbers, FDIV[(pll + 1) % 3], 0));
                all.push(numbers);
            }
        }
    }
    all
}

pub fn random(rng: &Rng) -> Numbers {
    let mut numbers = typical();
    match rng.below(4) {
        0 => numbers.iter_mut().for_each(|word| *word = rng.word()),
        1 => {
            for _ in 0..rng.within(1, 3) {
                numbers[1 + rng.below(WORDS as u32) as usize] = rng.word();
            }
        }
        _ => {
            numbers.iter_mut().for_each(|word| *word = rng.word());
            for (word, lowest, width) in CHECKED {
                let divisor = rng.within(1, (1 << width) - 1);
                let divisor = if rng.one_in(60) { 0 } else { divisor };
                numbers = changed(&numbers, (word, lowest, width), divisor);
            }
        }
    }
    numbers[0] = match rng.below(8) {
        0 => rng.magnitude(32),
        // The product of one of the image's own PLLs at the limit.
        1 => rng.near(u32::MAX / multiplier(numbers[1 + rng.below(3) as usize]).max(1)),
        _ => rng.magnitude(25),
    };
    numbers
}

/// Document 01's refusals of a crystal and an image that the original has not.
pub fn ruled(n: &[u32]) -> Option<Answer> {
    let (crystal, words) = (n[0], &n[1..]);
    if words.len() != WORDS {
        return Some(Answer::refused(1));
    }
    let multipliers = [words[0], words[1], words[2]].map(multiplier);
    let fits = |&by: &u32| crystal.checked_mul(by).is_some();
    let refused = !multipliers.contains(&0) && !multipliers.iter().all(fits);
    refused.then(|| Answer::carrying(3, 0))
}

/// The words of what is not ruled.
pub fn words(words: &[u32]) -> &[u32; WORDS] {
    words.try_into().expect("any other length is ruled")
}

/// The original's numbers, or the module whose divisor is 0.
pub fn evaluated<const N: usize>(found: Result<[u32; N], u32>) -> Answer {
    match found {
        Ok(numbers) => Answer::given(numbers),
        Err(module) => Answer::carrying(2, module),
    }
}
