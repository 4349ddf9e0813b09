//! The generator: the same seed gives the same bytes, and it reaches what it
//! should.

use wheat_delivery::reading::answers::printed;
use wheat_delivery::reading::file::events_in;
use wheat_delivery::reading::listing::listing;
use wheat_delivery::trial::examples::examples;
use wheat_delivery::trial::generate::lists::calls;
use wheat_delivery::trial::generate::{Kind, file, kind, sized, trading};
use wheat_delivery::trial::random::Random;
use wheat_delivery::trial::reach::Reach;

/// FNV-1a over the files of some seeds.
fn digest(seeds: std::ops::Range<u64>) -> u64 {
    let mut digest = 0xCBF2_9CE4_8422_2325_u64;
    for byte in seeds.flat_map(file) {
        digest = (digest ^ u64::from(byte)).wrapping_mul(0x0100_0000_01B3);
    }
    digest
}

#[test]
fn the_same_seed_gives_the_same_bytes() {
    for seed in (0..200).chain([u64::MAX, 1 << 40]) {
        assert_eq!(file(seed), file(seed));
        assert_eq!(calls(seed, &file(seed)), calls(seed, &file(seed)));
    }
}

#[test]
fn the_first_files_have_the_bytes_they_always_had() {
    assert_eq!(
        digest(0..64),
        DIGEST,
        "a change of the generator changes every seed's file"
    );
}

const DIGEST: u64 = 867_019_560_117_780_685;

#[test]
fn neighbouring_seeds_give_different_files() {
    for seed in 0..200 {
        assert_ne!(file(seed), file(seed + 16));
    }
}

#[test]
fn the_random_numbers_are_those_of_splitmix64() {
    let mut random = Random::new(1_234_567);
    let first: [u64; 3] = std::array::from_fn(|_| random.bits());
    assert_eq!(
        first,
        [
            6_457_827_717_110_365_317,
            3_203_168_211_198_807_973,
            9_817_491_932_198_370_423
        ]
    );
}

#[test]
fn every_stretch_of_sixteen_seeds_has_the_four_kinds() {
    for start in 0..40 {
        let kinds: Vec<Kind> = (start..start + 16).map(kind).collect();
        for wanted in [Kind::Small, Kind::Medium, Kind::Limits, Kind::Damaged] {
            assert!(kinds.contains(&wanted));
        }
    }
}

#[test]
fn files_that_are_not_damaged_have_the_right_size_or_one_event_too_many() {
    for seed in (0..800).filter(|&seed| kind(seed) != Kind::Damaged) {
        let bytes = file(seed);
        let one_too_many = bytes.len() == 16 + 17 * 3_801;
        assert!(events_in(&bytes).is_ok() || one_too_many, "seed {seed}");
    }
}

#[test]
fn the_generator_reaches_every_refusal_of_a_file_and_every_turn_of_expiry() {
    let mut reach = Reach::default();
    for seed in 0..6_400 {
        reach.add(kind(seed), &file(seed));
    }
    assert_eq!(reach.missing(), [""; 0], "{reach}");
    let removed = reach.turns["removed: a line"];
    assert!(2 * removed > reach.accepted, "{reach}");
    let kept = reach.turns["removed: none of several lines"];
    assert!(4 * kept > reach.accepted, "{reach}");
}

#[test]
fn a_sized_file_has_its_events_and_sections_and_as_many_lines_as_may_be() {
    for sections in [16, 32, 64, 128] {
        let (sellers, notices) = (sections / 16, 2 * sections);
        let least = 2 * sections + notices + (sections - sellers) + 2;
        for events in [least, 950, 951, 3_800] {
            let bytes = sized(sections, events).unwrap();
            assert_eq!(events_in(&bytes), Ok(events));
            let listing = listing(&bytes);
            let lines = sections - sellers + notices - 1;
            assert!(listing.starts_with(&format!("register {lines}\n")));
            assert_eq!(listing.lines().count(), 1 + lines + sections);
        }
        assert_eq!(sized(sections, least - 1), None);
    }
}

#[test]
fn a_trading_file_is_accepted_throughout() {
    let bytes = trading(64, 3_800).unwrap();
    assert_eq!(events_in(&bytes), Ok(3_800));
    let (margins, numbers): (Vec<String>, Vec<String>) = printed(&bytes)
        .lines()
        .map(str::to_string)
        .partition(|row| row.starts_with("margins "));
    assert!(numbers.iter().all(|row| row.ends_with(" 0")));
    assert_eq!((margins.len(), numbers.len()), (2, 3_800));
    assert_eq!(trading(0, 0).unwrap().len(), 16);
    assert_eq!(trading(64, 63), None);
}

#[test]
fn the_examples_are_the_files_of_their_folder_and_print_what_is_said_of_them() {
    let folder = concat!(env!("CARGO_MANIFEST_DIR"), "/../examples/");
    let first = [
        "register 3",
        "refused 20 14",
        "register 2",
        "register 7",
        "register 375",
    ];
    for ((name, bytes), first) in examples().into_iter().zip(first) {
        assert_eq!(listing(&bytes).lines().next(), Some(first));
        let kept = std::fs::read(format!("{folder}{name}")).unwrap();
        assert!(kept == bytes, "{name} is another file");
    }
}
