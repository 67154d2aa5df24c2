//! The exported calls of the proved code (include/cavindorum.h) as safe
//! functions: slices bring their lengths, and what is written overlaps
//! nothing.

extern "C" {
    fn cavindorum_run(
        image: *const u8,
        image_length: usize,
        picks: *const u8,
        picks_length: usize,
        answers: *mut u8,
        answers_length: usize,
    ) -> u8;
    fn cavindorum_run_text(
        text: *const u8,
        text_length: usize,
        picks: *const u8,
        picks_length: usize,
        answers: *mut u8,
        answers_length: usize,
    ) -> u8;
    fn cavindorum_register(
        image: *const u8,
        image_length: usize,
        picks: *const u8,
        picks_length: usize,
        out: *mut u8,
        out_length: usize,
    ) -> usize;
    fn cavindorum_register_text(
        text: *const u8,
        text_length: usize,
        picks: *const u8,
        picks_length: usize,
        out: *mut u8,
        out_length: usize,
    ) -> usize;
    fn cavindorum_named_register(
        image: *const u8,
        image_length: usize,
        picks: *const u8,
        picks_length: usize,
        site: *const u8,
        site_length: usize,
        office: *const u8,
        office_length: usize,
        out: *mut u8,
        out_length: usize,
    ) -> usize;
    fn cavindorum_named_register_text(
        text: *const u8,
        text_length: usize,
        picks: *const u8,
        picks_length: usize,
        site: *const u8,
        site_length: usize,
        office: *const u8,
        office_length: usize,
        out: *mut u8,
        out_length: usize,
    ) -> usize;
    fn cavindorum_names_fault(
        site: *const u8,
        site_length: usize,
        office: *const u8,
        office_length: usize,
    ) -> u8;
    fn cavindorum_refusal_place(image: *const u8, image_length: usize) -> usize;
}

/// Bytes of stack that are enough for a call, as the header says.
pub const STACK: usize = 1 << 20;

/// No register is longer, as the header says.
pub const LONGEST_REGISTER: usize = 1_300_000;

/// A call: two slices to read, one to write.
type Exported<T> = unsafe extern "C" fn(*const u8, usize, *const u8, usize, *mut u8, usize) -> T;

fn call<T>(function: Exported<T>, net: &[u8], picks: &[u8], out: &mut [u8]) -> T {
    let (net, net_length) = (net.as_ptr(), net.len());
    let (picks, picks_length) = (picks.as_ptr(), picks.len());
    // SAFETY: each pointer goes with the length of its own slice, the
    // slices outlive the call, and the one that is written is borrowed alone.
    unsafe {
        function(
            net,
            net_length,
            picks,
            picks_length,
            out.as_mut_ptr(),
            out.len(),
        )
    }
}

/// Reads an image and makes the picks. Gives 0 or the number of what kept
/// the run from being made, and leaves the answer to each pick.
pub fn run(image: &[u8], picks: &[u8], answers: &mut [u8]) -> u8 {
    call(cavindorum_run, image, picks, answers)
}

/// The same for a text.
pub fn run_text(text: &[u8], picks: &[u8], answers: &mut [u8]) -> u8 {
    call(cavindorum_run_text, text, picks, answers)
}

/// Writes the register of an image and picks. Gives its length, or 0 where
/// there is no room for it.
pub fn register_in(image: &[u8], picks: &[u8], out: &mut [u8]) -> usize {
    call(cavindorum_register, image, picks, out)
}

/// The same for a text.
pub fn register_text_in(text: &[u8], picks: &[u8], out: &mut [u8]) -> usize {
    call(cavindorum_register_text, text, picks, out)
}

/// A call with the lists of names between the picks and the slice to write.
type Named = unsafe extern "C" fn(
    *const u8,
    usize,
    *const u8,
    usize,
    *const u8,
    usize,
    *const u8,
    usize,
    *mut u8,
    usize,
) -> usize;

fn call_named(
    function: Named,
    net: &[u8],
    picks: &[u8],
    [site, office]: [&[u8]; 2],
    out: &mut [u8],
) -> usize {
    // SAFETY: as in `call`.
    unsafe {
        function(
            net.as_ptr(),
            net.len(),
            picks.as_ptr(),
            picks.len(),
            site.as_ptr(),
            site.len(),
            office.as_ptr(),
            office.len(),
            out.as_mut_ptr(),
            out.len(),
        )
    }
}

/// Writes the register of an image and picks with the names of a site's list
/// and the office's. Gives its length, or 0 where there is no room for it.
pub fn named_register_in(image: &[u8], picks: &[u8], lists: [&[u8]; 2], out: &mut [u8]) -> usize {
    call_named(cavindorum_named_register, image, picks, lists, out)
}

/// The same for a text.
pub fn named_register_text_in(
    text: &[u8],
    picks: &[u8],
    lists: [&[u8]; 2],
    out: &mut [u8],
) -> usize {
    call_named(cavindorum_named_register_text, text, picks, lists, out)
}

/// The number that the test of both lists gives.
pub fn names_fault([site, office]: [&[u8]; 2]) -> u8 {
    // SAFETY: each pointer goes with the length of its slice, which outlives
    // the call.
    unsafe { cavindorum_names_fault(site.as_ptr(), site.len(), office.as_ptr(), office.len()) }
}

/// The bit at which the field at fault of a refused image begins, 0 where the
/// image is accepted.
pub fn refusal_place(image: &[u8]) -> usize {
    // SAFETY: the pointer goes with the length of its slice, which outlives
    // the call.
    unsafe { cavindorum_refusal_place(image.as_ptr(), image.len()) }
}

/// The whole register.
pub fn register(image: &[u8], picks: &[u8]) -> Vec<u8> {
    let mut out = vec![0; LONGEST_REGISTER];
    let written = register_in(image, picks, &mut out);
    out.truncate(written);
    out
}
