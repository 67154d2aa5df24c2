//! Writes the directories below `examples`.

fn main() {
    cavindorum_tests::stored::write(&cavindorum_tests::examples::stored_files());
}
