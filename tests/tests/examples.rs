//! The examples: that the stored files are the model's, that the programs
//! print the stored registers, write the stored images, write them as texts
//! and check the stored listing, that they read the images of format 2, and
//! that the tenant's fence holds.

use cavindorum_tests::examples::{damaged, examples, stored_files, Example};
use cavindorum_tests::image::read_image;
use cavindorum_tests::net::*;
use cavindorum_tests::notation::unpacked;
use cavindorum_tests::program::{printed_by, printed_given, TestDirectory};
use cavindorum_tests::season::{printed, runs};
use cavindorum_tests::step::{pick, pick_address};
use cavindorum_tests::stored::{self, repository};
use std::fs;
use std::path::{Path, PathBuf};

#[test]
fn the_stored_files_are_the_model_s() {
    stored::compare(&stored_files(), "write_examples");
}

/// The directories of the examples, that of the refused image among them.
fn directories() -> Vec<PathBuf> {
    let all = fs::read_dir(repository().join("examples")).expect("they are stored");
    let all: Vec<_> = all.map(|one| one.expect("it can be read").path()).collect();
    assert_eq!(all.len(), examples().len() + 1);
    all
}

/// The directories of the examples that have a text: all but that of the
/// refused image.
fn with_text() -> Vec<PathBuf> {
    let mut all = directories();
    all.retain(|one| one.join("net.txt").exists());
    assert_eq!(all.len(), examples().len());
    all
}

fn file(directory: &Path, name: &str) -> Vec<u8> {
    fs::read(directory.join(name)).expect("a stored file")
}

/// A directory with these of the stored files.
fn directory_with(names: &[&str], stored: &Path) -> TestDirectory {
    let files = names.iter().map(|name| (*name, file(stored, name)));
    let files: Vec<(&str, Vec<u8>)> = files.collect();
    TestDirectory::holding(files.iter().map(|(name, bytes)| (*name, &bytes[..])))
}

/// Fails unless a program that reads this file of a net, and the lists of
/// names if there are any, prints the register that is stored beside it.
fn compare_register(program: &str, net: &str, stored: &Path) {
    let mut names = vec![net, "picks.bin"];
    let lists = ["site.bin", "office.bin"].into_iter();
    names.extend(lists.filter(|list| stored.join(list).exists()));
    let here = directory_with(&names, stored);
    let printed = printed_by(program, &here.path);
    let register = file(stored, "register.txt");
    assert!(printed == register, "{program} in {}", stored.display());
}

/// From the image and from the text.
#[test]
fn the_programs_print_the_stored_register() {
    for stored in directories() {
        compare_register("register", "net.bin", &stored);
    }
    for stored in with_text() {
        compare_register("register_text", "net.txt", &stored);
    }
}

/// The image that a text is packed to.
fn packed(text: &[u8]) -> Vec<u8> {
    let here = TestDirectory::holding([("net.txt", text)]);
    let printed = printed_by("pack", &here.path);
    let image = file(&here.path, "net.bin");
    let says = format!("packed {}\n", image.len());
    assert_eq!(String::from_utf8_lossy(&printed), says);
    image
}

/// Byte for byte what the text is packed to.
#[test]
fn the_program_writes_the_stored_image() {
    for stored in with_text() {
        let (text, image) = (file(&stored, "net.txt"), file(&stored, "net.bin"));
        assert!(packed(&text) == image, "{}", stored.display());
    }
}

/// And the image as a text again, which is packed to the same; of the refused
/// image the refusal.
#[test]
fn the_program_writes_the_stored_image_as_a_text() {
    for stored in directories() {
        let here = directory_with(&["net.bin"], &stored);
        let text = printed_by("unpack", &here.path);
        let image = file(&stored, "net.bin");
        assert!(text == unpacked(&image), "{}", stored.display());
        if stored.ends_with(damaged::NAME) {
            assert_eq!(text, file(&stored, "register.txt"));
        } else {
            assert!(packed(&text) == image, "{}", stored.display());
        }
    }
}

/// Without its lists the register of the named stations has no names, and
/// nothing else of it is different.
#[test]
fn the_register_without_the_lists() {
    let stored = repository().join("examples/named_stations");
    for (program, net) in [("register", "net.bin"), ("register_text", "net.txt")] {
        let here = directory_with(&[net, "picks.bin"], &stored);
        let printed = printed_by(program, &here.path);
        let named = String::from_utf8(file(&stored, "register.txt")).expect("it is text");
        let names = [" upper-gate", " pump-house", " spillway"];
        let plain = names
            .iter()
            .fold(named, |text, name| text.replace(name, ""));
        assert_eq!(String::from_utf8_lossy(&printed), plain, "{program}");
    }
}

/// The old program's listing of put_and_take: an old one, and at its tenth
/// line, the tuple without a mark, no new one.
#[test]
fn the_stored_listing_is_an_old_one() {
    let stored = repository().join("examples/put_and_take");
    let here = directory_with(&["net.bin", "picks.bin", "listing.txt"], &stored);
    for (age, prints) in [("old", "0\n"), ("new", "41 10\n")] {
        let printed = printed_given("check_listing", &[age], &here.path);
        assert_eq!(String::from_utf8_lossy(&printed), prints, "{age}");
    }
}

/// The other programs that read images read those of format 2 as well.
#[test]
fn the_programs_read_format_2() {
    for name in ["rows_by_origin", "flood_warning"] {
        read_by_other_programs(&repository().join("examples").join(name));
    }
}

fn read_by_other_programs(stored: &Path) {
    let (image, picks) = (file(stored, "net.bin"), file(stored, "picks.bin"));
    let register = file(stored, "register.txt");
    let files: [(&str, &[u8]); 3] = [
        ("net.bin", &image),
        ("picks.bin", &picks),
        ("listing.txt", &register),
    ];
    let here = TestDirectory::holding(files);
    assert!(printed_by("repack", &here.path) == image);
    let checked = printed_given("check_listing", &["new"], &here.path);
    assert_eq!(String::from_utf8_lossy(&checked), "0\n");
    let shares = printed_given("shares", &["."], &here.path);
    let expected = printed(&runs([(&image[..], &picks[..])]));
    assert_eq!(String::from_utf8_lossy(&shares), expected);
}

const TENANT: Locality = Locality(2);

fn tenant() -> Example {
    let found = examples().into_iter().find(|one| one.name == "tenant");
    found.expect("the example is there")
}

/// What demand 3 asks of the rows. In it i is more than read, though it
/// includes r.
#[test]
fn the_tenant_is_fenced() {
    let net = tenant().net;
    let (ours, theirs) = (&net.nodes[..2], &net.nodes[2]);
    let mut rows = ours.iter().flat_map(|node| &node.rows);
    assert!(rows.all(|row| row.over(TENANT) == Rights::NONE));
    let at_most_read = |rights: Rights| !(rights.take || rights.put || rights.send);
    for row in &theirs.rows {
        assert!(!row.create);
        assert!((0..2).all(|address| at_most_read(row.over(Locality(address)))));
    }
}

// The answers to our picks, and our nodes at the end.
fn what_we_see(image: &[u8], picks: &[u8]) -> (Vec<u8>, Vec<Node>) {
    let mut net = read_image(image).expect("an example's image is accepted");
    let mut answers = Vec::new();
    for byte in picks {
        let answer = pick(&mut net, *byte);
        if pick_address(*byte) != TENANT {
            answers.push(answer);
        }
    }
    assert_eq!(net.address_count, 3);
    (answers, net.nodes[..2].to_vec())
}

#[test]
fn the_tenant_s_picks_do_not_show() {
    let (image, picks) = (tenant().image(), tenant().pick_bytes());
    let seen = what_we_see(&image, &picks);
    let of_the_tenant = |pick: &u8| pick_address(*pick) == TENANT;
    let struck: Vec<u8> = picks
        .iter()
        .copied()
        .filter(|pick| !of_the_tenant(pick))
        .collect();
    assert!(struck.len() < picks.len());
    assert_eq!(what_we_see(&image, &struck), seen);
    let more: Vec<u8> = struck.iter().flat_map(|pick| [0x20, *pick, 0x20]).collect();
    assert_eq!(what_we_see(&image, &more), seen);
}
