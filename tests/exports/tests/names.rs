//! The exported calls with station names beside the model: the number of the
//! lists' first fault, and whole buffers.

use cavindorum_exports::{named_register_in, named_register_text_in, names_fault, STACK};
use cavindorum_tests::examples::examples;
use cavindorum_tests::image::write_image;
use cavindorum_tests::names::by_hand::longest;
use cavindorum_tests::names::generate::{faulty_list, list};
use cavindorum_tests::names::{names_by, Names};
use cavindorum_tests::random::Random;
use cavindorum_tests::register::{register_named, register_text_named};

/// A byte that no register has.
const KEPT: u8 = 0xEE;

/// Fails unless a buffer that is just long enough, a longer one and two that
/// are too short are left as the register says.
fn compare(expected: &str, write: impl Fn(&mut [u8]) -> usize) {
    let length = expected.len();
    for room in [length, length + 3, length - 1, 0] {
        let mut found = vec![KEPT; room];
        let mut wanted = expected.as_bytes().to_vec();
        wanted.resize(room, KEPT);
        let written = if room < length { 0 } else { length };
        assert_eq!(write(&mut found), written);
        assert!(found == wanted, "{expected}");
    }
}

/// Fails unless the calls name the nodes of every example as the model does.
fn compare_lists(site: &[u8], office: &[u8]) -> u8 {
    let number = Names::of(site, office).err().unwrap_or(0);
    let lists = [site, office];
    assert_eq!(names_fault(lists), number, "{lists:02X?}");
    let (names, _) = names_by(site, office);
    for example in examples() {
        let picks: Vec<u8> = example.picks.iter().map(|(pick, _)| *pick).collect();
        let image = write_image(&example.net);
        compare(&register_named(&image, &picks, &names), |out| {
            named_register_in(&image, &picks, lists, out)
        });
        let text = example.text.as_bytes();
        compare(&register_text_named(text, &picks, &names), |out| {
            named_register_text_in(text, &picks, lists, out)
        });
    }
    number
}

#[test]
fn random_lists() {
    let mut random = Random::new(604);
    let mut met = [0; 54];
    for _ in 0..500 {
        let [good, other] = [list(&mut random), list(&mut random)];
        let bad = faulty_list(&mut random);
        for (site, office) in [(&good, &other), (&bad, &other), (&good, &bad)] {
            met[compare_lists(site, office) as usize] += 1;
        }
    }
    assert!(met[0] > 50, "{met:?}");
    assert!(met[51..].iter().all(|count| *count > 50), "{met:?}");
}

#[test]
fn long_lists_within_the_stated_stack() {
    let thread = std::thread::Builder::new().stack_size(STACK);
    let calls = || {
        let [site, office] = longest();
        compare_lists(&site, &office);
    };
    let thread = thread.spawn(calls).expect("it starts");
    thread.join().expect("the calls give what the model gives");
}
