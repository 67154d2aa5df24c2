//! A season as the program `shares` is given it: folders, and the order in
//! which they are named.

use super::{run, Run};

/// A folder of a run; none is a missing file.
#[derive(Clone, PartialEq, Eq, Debug)]
pub struct Folder {
    pub image: Option<Vec<u8>>,
    pub picks: Option<Vec<u8>>,
}

impl Folder {
    pub fn of(image: &[u8], picks: &[u8]) -> Folder {
        Folder {
            image: Some(image.to_vec()),
            picks: Some(picks.to_vec()),
        }
    }

    /// Its run. A missing file counts as empty.
    pub fn run(&self) -> Option<Run> {
        let [image, picks] = [&self.image, &self.picks].map(|file| file.as_deref());
        run(image.unwrap_or_default(), picks.unwrap_or_default())
    }

    /// Its files, each with its path in a folder of this name.
    pub fn files(&self, name: &str) -> Vec<(String, &[u8])> {
        let all = [("net.bin", &self.image), ("picks.bin", &self.picks)];
        let there = all.into_iter().filter_map(|(file, content)| {
            let path = format!("{name}/{file}");
            Some((path, content.as_deref()?))
        });
        there.collect()
    }
}

/// Folders, and which of them are named one after another, some of them more
/// than once.
#[derive(Clone, PartialEq, Eq, Debug)]
pub struct Season {
    pub folders: Vec<Folder>,
    pub named: Vec<usize>,
}

impl Season {
    /// Each folder named once, in order.
    pub fn of(folders: &[Folder]) -> Season {
        Season {
            folders: folders.to_vec(),
            named: (0..folders.len()).collect(),
        }
    }

    /// The runs, each made as often as its folder is named.
    pub fn runs(&self) -> Vec<Run> {
        let runs: Vec<_> = self.folders.iter().map(Folder::run).collect();
        self.named.iter().filter_map(|index| runs[*index]).collect()
    }
}
