//! Files of the repository that the model writes and tests compare.

use std::fs;
use std::path::{Path, PathBuf};

/// A file with a path below the repository, and what it must hold.
pub struct Stored {
    pub path: String,
    pub content: Vec<u8>,
}

/// The repository's directory.
pub fn repository() -> PathBuf {
    let tests = Path::new(env!("CARGO_MANIFEST_DIR"));
    tests.parent().expect("it holds the tests").to_path_buf()
}

/// Writes the files, and says which.
pub fn write(files: &[Stored]) {
    for file in files {
        let path = repository().join(&file.path);
        let directory = path.parent().expect("it holds the file");
        fs::create_dir_all(directory).expect("the directory can be made");
        fs::write(&path, &file.content).expect("the file can be written");
        println!("{} ({} bytes)", file.path, file.content.len());
    }
}

/// Fails unless each file holds what it must.
pub fn compare(files: &[Stored], writer: &str) {
    for file in files {
        let found = fs::read(repository().join(&file.path)).unwrap_or_default();
        let path = &file.path;
        assert!(
            found == file.content,
            "{path} is missing or old; `cargo run --bin {writer}` writes it"
        );
    }
}
