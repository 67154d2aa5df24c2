//! The proved writer beside the model's: `repack` reads an image of either
//! format and writes its net as an image again.

use cavindorum_tests::by_hand::{longest, longest_of_format_2, longest_without_sets};
use cavindorum_tests::examples::examples;
use cavindorum_tests::generate::{damaged, damaged_image, set_image_net, valid_image};
use cavindorum_tests::image::{read_image, write_image};
use cavindorum_tests::program::{printed_by, TestDirectory};
use cavindorum_tests::random::Random;

fn repacked(image: &[u8]) -> Vec<u8> {
    let directory = TestDirectory::with(Some(image), None);
    printed_by("repack", &directory.path)
}

/// What the model writes for a net is what the proved writer writes for it.
#[test]
fn random_nets() {
    let mut random = Random::new(0x5EED_0006);
    let mut accepted = [0; 2];
    while accepted[0] < 500 || accepted[1] < 500 {
        let image = valid_image(&mut random);
        if let Ok(net) = read_image(&image) {
            assert!(repacked(&image) == image, "{image:02X?}");
            accepted[net.format as usize - 1] += 1;
        }
    }
}

/// With outs to a set, of all members and of none.
#[test]
fn nets_with_sets() {
    let mut random = Random::new(0x5EED_0206);
    for _ in 0..300 {
        let image = write_image(&set_image_net(&mut random));
        assert!(repacked(&image) == image, "{image:02X?}");
    }
}

/// The examples' images are those that the proved writer makes.
#[test]
fn the_examples() {
    for example in examples() {
        let image = write_image(&example.net);
        assert!(repacked(&image) == image, "{}", example.name);
    }
}

/// The longest image there is of each format.
#[test]
fn the_longest_images() {
    for (net, length) in [
        (longest(), 14_749),
        (longest_without_sets(), 16_699),
        (longest_of_format_2(), 17_339),
    ] {
        let image = write_image(&net);
        assert_eq!(image.len(), length);
        assert!(repacked(&image) == image);
    }
}

/// A refused image gives the empty net, which no image has.
#[test]
fn refused_images() {
    let mut random = Random::new(0x5EED_0106);
    for index in 0..400 {
        let image = match index % 4 {
            0 => {
                let net = set_image_net(&mut random);
                damaged(&mut random, net)
            }
            _ => damaged_image(&mut random),
        };
        let expected = if read_image(&image).is_ok() {
            image.clone()
        } else {
            Vec::new()
        };
        assert!(repacked(&image) == expected, "{image:02X?}");
    }
}
