//! Document 01's cases, on the original: they say whether the stand-ins are what the original stands on.
#![cfg(original)]
use original::i2c::Speed;
use original::{Access, Pll, Refused};

#[test]
fn two_stage() {
    let cases = [
        ((1_000_000_000, 12_288_000, 63), (3, 27)),
        ((8, 3, 4), (1, 2)),
        ((5, 1, 63), (1, 5)),
        ((10, 100, 63), (1, 1)),
        ((1_000_000, 1, 10), (10, 10)),
        ((0, 7, 9), (1, 1)),
    ];
    for ((reference, target, largest), pair) in cases {
        assert_eq!(original::two_stage(reference, target, largest), Some(pair));
    }
    assert_eq!(original::two_stage(u32::MAX, 1, u32::MAX), None);
}

#[test]
fn i2c() {
    assert_eq!(original::i2c(111_111_111, false), Some((0, 55)));
    assert_eq!(original::i2c(506_880_000, false), Some((3, 63)));
    assert_eq!(original::i2c(506_880_001, false), None);
    assert!(original::i2c(2_166_067_200, true).is_some());
    assert_eq!(original::i2c(2_166_067_201, true), None);
    assert_eq!(original::i2c_speed(22 * 256 * 256, 255, 255), 1);
    let nominal = |speed: Speed| speed.frequency_full_number().to_raw();
    assert_eq!(nominal(Speed::Normal100kHz), 100_000);
    assert_eq!(nominal(Speed::HighSpeed400KHz), 400_000);
}

#[test]
fn ttc() {
    let interval = original::ttc_interval;
    assert_eq!(interval(u32::MAX, 1), (Some(15), 65_535));
    assert_eq!(interval(65_535, 1), (None, 65_535));
    assert_eq!(interval(65_536, 1), (Some(0), 32_768));
    assert_eq!(interval(10, 11), (None, 0));
}

#[test]
fn uart() {
    assert_eq!(original::uart(48_000, 9_600), Some((1, 4, 0)));
    let half = 0.5f32.to_bits();
    assert_eq!(original::uart(24_000, 9_600), Some((1, 4, half)));
    assert_eq!(original::uart(23_999, 9_600), None);
    let above = original::uart(36_578_418, 14_631_367).expect("there is a pair");
    assert_eq!(above.2, half + 1);
    assert!(original::uart_list(48_000, 0).is_empty());
}

#[test]
fn pll_settings() {
    let by_target = |target| original::target_setting(33_333_333, target).map(original::fields);
    assert_eq!(by_target(1_333_333_320), Ok([40, 2, 2, 250]));
    assert_eq!(by_target(1_333_333_319), Ok([39, 2, 2, 250]));
    for outside in [12, 67] {
        let refused = original::mul_setting(outside).map(original::fields);
        assert_eq!(refused, Err(Refused::Multiplier(outside)));
    }
    let refused = original::target_setting(0, 5).map(original::fields);
    assert_eq!(refused, Err(Refused::ZeroInput));
}

/// Every used word set as in the plain example of document 02: all PLLs times 1, every divisor 1.
fn plain_image() -> [u32; 50] {
    let mut image = [0; 50];
    image[..3].fill(0x1000);
    for word in [8, 16, 17, 18, 19, 20, 21, 22, 23, 25, 26, 28, 32, 36, 40] {
        image[word] = 0x0010_0100;
    }
    image[9] = 0x0410_0000;
    image
}

#[test]
fn evaluation() {
    let mut image = plain_image();
    let clocks = original::clocks(1_000, &image).expect("no divisor is 0");
    assert_eq!(clocks[5..9], [250, 500, 500, 1_000]);
    assert_eq!(clocks[original::EMIO], 0);
    image[25] |= 4 << 4;
    let clocks = original::clocks(1_000, &image).expect("no divisor is 0");
    assert_eq!((clocks[20], clocks[original::EMIO]), (0, 1));
    image[25] = 4 << 4;
    assert_eq!(original::clocks(1_000, &image), Err(11));
    image[28] = 0x01B0_0300;
    image[25] = 0x100;
    let clocks = original::clocks(1_000_000_000, &image).expect("no divisor is 0");
    assert_eq!(clocks[original::EMIO + 1], 12_345_679);
    image[17] = 0x0010_0000;
    assert_eq!(original::gem(true, 1_000, &image), Err(13));
    assert_eq!(original::gem(false, 1_000, &image), Ok(1_000));
}

#[test]
fn three_plls_are_told_apart() {
    let mut image = plain_image();
    image[..3].copy_from_slice(&[0x2000, 0x3000, 0x5000]);
    let clocks = original::clocks(100, &image).expect("no divisor is 0");
    assert_eq!(clocks[..4], [200, 500, 300, 200]);
    assert_eq!((clocks[9], clocks[12]), (300, 500));
}

/// Where W-205 differs: ours gives the crystal for this image, as tests/c/calls.c has it.
#[test]
fn the_original_knows_no_bypass() {
    let mut image = plain_image();
    image[0] = 0x2010;
    let clocks = original::clocks(1, &image).expect("no divisor is 0");
    assert_eq!(clocks[..3], [2, 1, 1]);
    image[0] = 0x0010;
    assert_eq!(original::clocks(1, &image), Err(0));
}

#[test]
fn sequence() {
    let reads = [0xFFFF_FFFF, 0xFFFF_FFFF, 0xFFFF_FFFF, 0, 0b101, 0b010, 0x10];
    let (log, locked) = original::run(Pll::Ddr, true, [40, 2, 2, 250], &reads);
    let read = |word, value| Access::Read { word, value };
    let write = |word, value| Access::Write { word, value };
    assert!(locked);
    assert_eq!(
        log,
        [
            read(1, 0xFFFF_FFFF),
            write(1, 0xFFFA_8FFF),
            read(5, 0xFFFF_FFFF),
            write(5, 0xFFCF_A22F),
            read(1, 0xFFFF_FFFF),
            write(1, 0xFFFF_FFF5),
            read(1, 0),
            write(1, 1),
            write(1, 0),
            read(3, 0b101),
            read(3, 0b010),
            read(1, 0x10),
            write(1, 0),
        ]
    );
}

#[test]
fn a_start_is_once_only() {
    original::new_device();
    let setting = [13, 2, 6, 750];
    let start = |pll| {
        original::start(pll, false, setting, &[0, 0, 0, 0, 7, 0])
            .0
            .len()
    };
    assert_eq!(
        (start(Pll::Io), start(Pll::Io), start(Pll::Arm)),
        (12, 0, 12)
    );
    assert_eq!(original::marks(), 0b101);
    original::new_device();
    assert_eq!((original::marks(), start(Pll::Io)), (0, 12));
    assert_eq!((start(Pll::Ddr), original::marks()), (12, 0b110));
}
