//! Measures the stack that each program needs, in kilobytes: the least
//! limit (`ulimit -s`) with which it does what it has to.

use cavindorum_tests::stack::{jobs, least, BOUNDS};

fn main() {
    for (name, _) in BOUNDS {
        let jobs = jobs(name);
        let enough = |kilobytes| jobs.iter().all(|job| job.done_by(name, kilobytes));
        println!("{name}: {} KB", least(enough));
    }
}
