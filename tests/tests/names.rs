//! Registers with station names: what the programs `register` and
//! `register_text` print beside lists of names, and what they say of lists
//! that are refused.

use cavindorum_tests::by_hand::{longest, stops, PAPER_IMAGE};
use cavindorum_tests::generate::{damaged_image, picks, valid_image};
use cavindorum_tests::image::{read_image, write_image};
use cavindorum_tests::listing::{check_listing, printed, Age};
use cavindorum_tests::names::by_hand::{all, longest as longest_lists, Stated};
use cavindorum_tests::names::generate::{lists, Lists};
use cavindorum_tests::names::{entries, names_by, Names};
use cavindorum_tests::net::Net;
use cavindorum_tests::notation::from_net::from_net;
use cavindorum_tests::notation::generate::damage::faulty_text;
use cavindorum_tests::notation::generate::valid_text;
use cavindorum_tests::notation::print::text;
use cavindorum_tests::notation::read_text;
use cavindorum_tests::program::{on_two_threads, printed_given, run_on, TestDirectory};
use cavindorum_tests::random::Random;
use cavindorum_tests::register::{register_named, register_text_named, MOST_PICKS};
use std::fs;
use std::process::Stdio;

/// A program, the file of its net, the model's register, and how a net is
/// written into that file.
struct Form {
    program: &'static str,
    file: &'static str,
    register: fn(&[u8], &[u8], &Names) -> String,
    write: fn(&Net) -> Vec<u8>,
}

const IMAGE: Form = Form {
    program: "register",
    file: "net.bin",
    register: register_named,
    write: write_image,
};

const TEXT: Form = Form {
    program: "register_text",
    file: "net.txt",
    register: register_text_named,
    write: |net| text(&from_net(net)),
};

const FORMS: [Form; 2] = [IMAGE, TEXT];

/// What is in a directory.
struct Files {
    net: Vec<u8>,
    picks: Vec<u8>,
    lists: Lists,
}

// Comparing.

/// What a program prints, and what it says on standard error.
#[derive(Clone, PartialEq, Eq, Debug)]
struct Said {
    register: String,
    errors: String,
}

/// What a program says with these files, which is what the model says. It
/// ends well in any case.
fn compare(form: &Form, files: &Files) -> Said {
    let nets: [(&str, &[u8]); 2] = [(form.file, &files.net), ("picks.bin", &files.picks)];
    let here = TestDirectory::holding(nets.into_iter().chain(files.lists.files()));
    let output = run_on(form.program, &here.path, Stdio::null(), Stdio::piped());
    let text = |bytes| String::from_utf8(bytes).expect("it is text");
    let found = Said {
        register: text(output.stdout),
        errors: text(output.stderr),
    };
    let expected = model(form, files);
    let start = |list: &[u8]| list[..list.len().min(300)].to_vec();
    let lists = files.lists.bytes().map(start);
    let program = form.program;
    assert!(
        found == expected,
        "{program} {found:?}, model {expected:?}; lists {lists:02X?}"
    );
    assert!(output.status.success(), "{program}: {}", output.status);
    found
}

fn model(form: &Form, Files { net, picks, lists }: &Files) -> Said {
    let [site, office] = lists.bytes();
    let (names, errors) = names_by(site, office);
    let register = (form.register)(net, picks, &names);
    Said { register, errors }
}

// Lists by hand.

// The net of 16 addresses, so that each name is in the register.
fn beside_16(form: &Form, site: &[u8], office: &[u8]) -> Files {
    let (site, office) = (Some(site.to_vec()), Some(office.to_vec()));
    Files {
        net: (form.write)(&stops(16, 1)),
        picks: vec![0, 0xF0],
        lists: Lists { site, office },
    }
}

// The register of that net, by the names that are stated.
fn stated_register(stated: &Stated) -> String {
    let node = |address: u8| match stated.name(address) {
        "" => format!("node {address} 0 0\n"),
        name => format!("node {address} 0 0 {name}\n"),
    };
    let nodes: String = (0..16).map(node).collect();
    format!("net 16 1\npick 1 0 0 7\npick 2 15 0 7\n{nodes}total 0\n")
}

#[test]
fn stated_lists() {
    for form in FORMS {
        on_two_threads(&all(), |stated| {
            let said = compare(&form, &beside_16(&form, &stated.site, &stated.office));
            assert_eq!(said.register, stated_register(stated));
            assert_eq!(said.errors, stated.says());
        });
    }
}

/// As many bytes as are read of both lists, as many picks as are made, and
/// everything full.
#[test]
fn the_longest_register() {
    let [site, office] = longest_lists();
    for form in FORMS {
        let files = Files {
            net: (form.write)(&longest()),
            picks: vec![0xFD; MOST_PICKS],
            ..beside_16(&form, &site, &office)
        };
        let said = compare(&form, &files);
        let named = said.register.matches(" longest-name-").count();
        assert_eq!((named, &said.errors[..]), (16, ""));
    }
}

/// Files that are longer still.
#[test]
fn lists_longer_than_what_is_read() {
    let [site, office] = longest_lists();
    for form in FORMS {
        for more in [vec![0; 1], vec![0xFF; 70_000], vec![b'a'; 1_000_000]] {
            let longer = |list: &[u8]| [list, &more].concat();
            let both = beside_16(&form, &longer(&site), &longer(&office));
            assert_eq!(compare(&form, &both).errors, "");
            let missing = beside_16(&form, &longer(&site[1..]), &office);
            assert!(!compare(&form, &missing).errors.is_empty());
        }
    }
}

// Files that are missing or empty, and nets that are refused.

/// With neither file, or with empty ones, the register is what it was.
#[test]
fn neither_file() {
    let plain = "net 1 2\npick 1 0 0 0\npick 2 0 0 1\npick 3 0 0 7\nnode 0 1 0\n\
        tuple 0 5 from 0\ntotal 1\n";
    let paper = read_image(&PAPER_IMAGE).expect("it is accepted");
    for form in FORMS {
        for site in [None, Some(vec![])] {
            for office in [None, Some(vec![])] {
                let site = site.clone();
                let files = Files {
                    net: (form.write)(&paper),
                    picks: vec![0; 3],
                    lists: Lists { site, office },
                };
                let said = compare(&form, &files);
                assert_eq!((&said.register[..], &said.errors[..]), (plain, ""));
            }
        }
    }
}

/// One file alone names what it names.
#[test]
fn one_file_alone() {
    let list = b"\x01a\x12bb".to_vec();
    for form in FORMS {
        for of_site in [true, false] {
            let mut files = beside_16(&form, &[], &[]);
            files.lists = Lists::NEITHER;
            match of_site {
                true => files.lists.site = Some(list.clone()),
                false => files.lists.office = Some(list.clone()),
            }
            let said = compare(&form, &files);
            assert!(said
                .register
                .contains("node 0 0 0 a\nnode 1 0 0 bb\nnode 2 0 0\n"));
        }
    }
}

/// A refused net has no names, and a fault of the lists is said all the same.
#[test]
fn refused_nets() {
    let refused = ["refused 28 at 0\n", "refused 31\n"];
    let rows: [(&[u8], &[u8], &str); 4] = [
        (b"\x01a", b"\x01b", ""),
        (b"\x00", b"\x01b", "names refused 51\n"),
        (b"\x01a", b"\x02b", "names refused 52\n"),
        (b"\x01 ", b"\x02b", "names refused 53\n"),
    ];
    for (form, refused) in FORMS.into_iter().zip(refused) {
        for (site, office, says) in rows {
            let mut files = beside_16(&form, site, office);
            files.net = Vec::new();
            let said = compare(&form, &files);
            assert_eq!((&said.register[..], &said.errors[..]), (refused, says));
        }
    }
}

// Random registers.

/// What many registers met.
#[derive(Default, Debug)]
struct Met {
    /// Registers of refused nets.
    refused: usize,
    /// Registers with a name in some line.
    named: usize,
    /// 51, 52 and 53 in the site's list, and in the office's.
    faults: [[usize; 3]; 2],
    /// `node` lines without a name, with the site's and with the office's.
    nodes: [usize; 3],
    /// Those with the site's, though the office has another.
    preferred: usize,
}

impl Met {
    fn count(&mut self, Said { register, .. }: &Said, lists: &Lists) {
        let [site, office] = lists.bytes();
        self.refused += usize::from(register.starts_with("refused "));
        let names = match Names::of(site, office) {
            Ok(names) => names,
            Err(number) => {
                let of_office = usize::from(entries(site).is_ok());
                self.faults[of_office][usize::from(number - 51)] += 1;
                return;
            }
        };
        let nodes = register.lines().filter(|line| line.starts_with("node "));
        let named = nodes.clone().any(|line| line.split(' ').count() > 4);
        self.named += usize::from(named);
        for address in 0..nodes.count() as u8 {
            let of_site = names.site.iter().any(|entry| entry.address == address);
            let of_office = names.office.iter().any(|entry| entry.address == address);
            let kind = if of_site {
                1
            } else {
                2 * usize::from(of_office)
            };
            self.nodes[kind] += 1;
            self.preferred += usize::from(of_site && of_office);
        }
    }
}

/// Registers of random nets beside random lists, so many.
fn random_registers(
    form: &Form,
    seed: u64,
    count: usize,
    net: fn(&mut Random) -> (Vec<u8>, Vec<u8>),
) {
    let mut random = Random::new(seed);
    let mut files = || {
        let ((net, picks), lists) = (net(&mut random), lists(&mut random));
        Files { net, picks, lists }
    };
    let all: Vec<Files> = (0..count).map(|_| files()).collect();
    let said = on_two_threads(&all, |files| compare(form, files));
    let mut met = Met::default();
    for (said, files) in said.iter().zip(&all) {
        met.count(said, &files.lists);
    }
    println!("{count} registers by {}: {met:?}", form.program);
    assert!(met.named >= 2_500, "{met:?}");
    assert!(met.refused > 100 && met.preferred > 300, "{met:?}");
    assert!(
        met.faults.iter().flatten().all(|count| *count > 20),
        "{met:?}"
    );
    assert!(met.nodes.iter().all(|count| *count > 1_000), "{met:?}");
}

// Few picks: names are what is looked at.
fn some_picks<F>(random: &mut Random, read: Result<Net, F>) -> Vec<u8> {
    let count = random.choose(&[0, 3, 20]);
    read.map_or(vec![0; 2], |net| picks(random, &net, count))
}

#[test]
fn random_registers_of_images() {
    random_registers(&IMAGE, 1_401, 5_000, |random| {
        let image = match random.below(10) {
            0 => damaged_image(random),
            _ => valid_image(random),
        };
        let picks = some_picks(random, read_image(&image));
        (image, picks)
    });
}

#[test]
fn random_registers_of_texts() {
    random_registers(&TEXT, 1_402, 5_000, |random| {
        let text = match random.below(10) {
            0 => faulty_text(random),
            _ => valid_text(random),
        };
        let picks = some_picks(random, read_text(&text));
        (text, picks)
    });
}

// The checker of listings.

/// It knows no names: lists beside it are not read, a register without names
/// agrees, and one with them differs at its first name.
#[test]
fn listings_have_no_names() {
    let (image, picks) = (PAPER_IMAGE, [0; 3]);
    let [plain, named] = [&[][..], b"\x01a"].map(|site| {
        let (names, _) = names_by(site, &[]);
        register_named(&image, &picks, &names)
    });
    for site in [&b"\x01a"[..], b"\x00", b""] {
        for (listing, prints) in [(&plain, "0\n"), (&named, "41 5\n")] {
            let files: [(&str, &[u8]); 4] = [
                ("net.bin", &image),
                ("picks.bin", &picks),
                ("site.bin", site),
                ("listing.txt", listing.as_bytes()),
            ];
            let here = TestDirectory::holding(files);
            fs::create_dir(here.path.join("office.bin")).expect("it can be made");
            let found = printed_given("check_listing", &["new"], &here.path);
            let checked = check_listing(&image, &picks, listing.as_bytes(), Age::New);
            assert_eq!(String::from_utf8_lossy(&found), printed(checked));
            assert_eq!(String::from_utf8_lossy(&found), prints);
        }
    }
}
