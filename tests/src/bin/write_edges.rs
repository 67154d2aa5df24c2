//! Writes the edges of document 01 and their registers for the program
//! `edges`.

fn main() {
    cavindorum_tests::stored::write(&cavindorum_tests::edges::stored_files());
}
