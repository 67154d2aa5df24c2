//! The proved code and the model, called in the same way.

use cavindorum_exports as exported;
use cavindorum_tests::image::{answer, read_image};
use cavindorum_tests::notation::read_text;
use cavindorum_tests::register;
use cavindorum_tests::step::step;

/// One of the two, by what it can be asked.
pub struct Machine {
    /// Reads and judges an image. Gives the place of a refusal, or 0.
    pub open: fn(image: &[u8]) -> usize,
    /// Reads an image and makes the picks. Gives 0 or the number of a
    /// refusal, and leaves the answer to each pick.
    pub run: fn(image: &[u8], picks: &[u8], answers: &mut [u8]) -> u8,
    /// The whole register.
    pub register: fn(image: &[u8], picks: &[u8]) -> Vec<u8>,
    /// Reads a text. Gives 0 or the number of a refusal.
    pub read_text: fn(text: &[u8]) -> u8,
}

pub const PROVED: Machine = Machine {
    open: exported::refusal_place,
    run: exported::run,
    register: exported::register,
    // A run without picks: a call of the engine is in it besides.
    read_text: |text| exported::run_text(text, &[], &mut []),
};

pub const MODEL: Machine = Machine {
    open: |image| answer(image).1,
    run: model_run,
    register: |image, picks| register::register(image, picks).into_bytes(),
    read_text: |text| read_text(text).err().unwrap_or(0),
};

// An accepted net is sound and steps keep it so: no test before each pick.
fn model_run(image: &[u8], picks: &[u8], answers: &mut [u8]) -> u8 {
    let mut net = match read_image(image) {
        Ok(net) => net,
        Err(fault) => return fault.number,
    };
    for (pick, answer) in picks.iter().zip(answers) {
        *answer = step(&mut net, *pick);
    }
    0
}
