//! The program `unpack` beside the model's writer of texts: its whole output
//! for images of both formats, and that `pack` makes the same image of it.

use cavindorum_tests::by_hand::{longest, longest_of_format_2, longest_without_sets};
use cavindorum_tests::by_hand::{ONE_STOP, PAPER_IMAGE};
use cavindorum_tests::faulty::faulty_images;
use cavindorum_tests::generate::{
    by_origin_net, damaged, damaged_image, set_image_net, valid_net_of,
};
use cavindorum_tests::image::{read_image, write_image};
use cavindorum_tests::net::*;
use cavindorum_tests::notation::longest::longest_net;
use cavindorum_tests::notation::unpacked;
use cavindorum_tests::program::{on_two_threads, printed_by, TestDirectory};
use cavindorum_tests::random::Random;
use cavindorum_tests::stack::{busy, busy_of_format_2};
use std::fs;

/// What the program prints of an image, which is what the model does.
fn compare(image: &[u8]) -> Vec<u8> {
    let here = TestDirectory::holding([("net.bin", image)]);
    let printed = printed_by("unpack", &here.path);
    let expected = unpacked(image);
    if printed != expected {
        let shown = |text: &[u8]| String::from_utf8_lossy(text).into_owned();
        let (printed, expected) = (shown(&printed), shown(&expected));
        let both = printed.lines().zip(expected.lines());
        let differing = both.enumerate().find(|(_, (one, other))| one != other);
        let lengths = (printed.len(), expected.len());
        panic!("line from 0, program, model {differing:?}; lengths {lengths:?}; {image:02X?}");
    }
    // The image stays as it is, and nothing is left beside it.
    let left = fs::read(here.path.join("net.bin")).expect("it is there");
    let files = fs::read_dir(&here.path).expect("it is a directory").count();
    assert!(left == image && files == 1);
    printed
}

/// Unpacks the image of a net, and packs it again.
fn and_back(net: &Net) {
    let image = write_image(net);
    let text = compare(&image);
    let here = TestDirectory::holding([("net.txt", &text[..])]);
    let says = format!("packed {}\n", image.len());
    let printed = printed_by("pack", &here.path);
    assert_eq!(String::from_utf8_lossy(&printed), says, "{image:02X?}");
    let packed = fs::read(here.path.join("net.bin")).expect("it is there");
    assert!(packed == image, "{packed:02X?} {image:02X?}");
}

// By hand.

#[test]
fn the_paper_s_net() {
    let text = "0 has 0:o\nA0 = out(5)@self.A1\nA1 = nil\n0 :: A0\n";
    assert_eq!(compare(&PAPER_IMAGE), text.as_bytes());
    let mut image = PAPER_IMAGE;
    image[0] ^= 0x30;
    let text = text.replace("0 has", "0 from 0 has");
    assert_eq!(compare(&image), text.as_bytes());
    assert_eq!(compare(&ONE_STOP), b"0 has\nA0 = nil\n");
}

/// Nets with every action, and the longest images and texts.
#[test]
fn the_largest_nets() {
    for net in [busy(), busy_of_format_2()] {
        and_back(&net);
    }
    for net in [longest(), longest_without_sets(), longest_of_format_2()] {
        and_back(&net);
    }
    for (format, length) in [(SINGLE_ROW, 53_104), (ROW_BY_ORIGIN, 102_730)] {
        let net = longest_net(format);
        assert_eq!(compare(&write_image(&net)).len(), length);
        and_back(&net);
    }
}

/// A missing image counts as an empty one.
#[test]
fn no_image() {
    let here = TestDirectory::holding([]);
    assert_eq!(printed_by("unpack", &here.path), b"refused 28 at 0\n");
    assert_eq!(compare(&[]), b"refused 28 at 0\n");
}

/// Each number in the ways the paper names.
#[test]
fn each_refusal() {
    for (image, fault) in faulty_images() {
        let says = format!("refused {} at {}\n", fault.number, fault.bit);
        assert_eq!(compare(&image), says.as_bytes());
    }
}

/// Files longer than the longest image.
#[test]
fn long_images() {
    let longest = [longest(), longest_of_format_2()].map(|net| write_image(&net));
    for image in [&longest[0][..], &longest[1], &PAPER_IMAGE] {
        assert!(compare(&image[..image.len() - 1]).starts_with(b"refused 28 at "));
        for length in [17_340, 20_000, 70_000, 1_000_000] {
            let mut longer = image.to_vec();
            longer.resize(length, 0);
            assert!(compare(&longer).starts_with(b"refused 29 at "));
        }
    }
}

// Random images.

// A net whose image is accepted.
fn accepted(random: &mut Random, format: u8) -> Net {
    loop {
        let net = match random.below(5) {
            0 if format == ROW_BY_ORIGIN => by_origin_net(random),
            1 if format == ROW_BY_ORIGIN => set_image_net(random),
            _ => valid_net_of(random, format),
        };
        if read_image(&write_image(&net)).is_ok() {
            return net;
        }
    }
}

/// 5,000 images of both formats: what is printed, and what it is packed to.
#[test]
fn random_images() {
    for (seed, format) in [(1_301, SINGLE_ROW), (1_302, ROW_BY_ORIGIN)] {
        let mut random = Random::new(seed);
        for _ in 0..10 {
            let nets: Vec<Net> = (0..250).map(|_| accepted(&mut random, format)).collect();
            on_two_threads(&nets, and_back);
        }
    }
}

/// Images that are damaged, most of which are refused.
#[test]
fn damaged_images() {
    let mut random = Random::new(1_303);
    let mut some = || match random.below(4) {
        0 => {
            let net = set_image_net(&mut random);
            damaged(&mut random, net)
        }
        _ => damaged_image(&mut random),
    };
    let images: Vec<Vec<u8>> = (0..1_000).map(|_| some()).collect();
    let printed = on_two_threads(&images, |image| compare(image));
    let refused = printed.iter().filter(|text| text.starts_with(b"refused "));
    let refused = refused.count();
    assert!((500..980).contains(&refused), "{refused}");
}
