//! Each program within a stack of a stated size, which nothing proves.

use cavindorum_tests::stack::{jobs, BOUNDS};

#[test]
fn each_program_runs_within_its_bound() {
    for (name, kilobytes) in BOUNDS {
        for job in jobs(name) {
            let done = job.done_by(name, kilobytes);
            assert!(done, "{name} in {kilobytes} KB");
        }
    }
}

/// With too little the programs do not run, so that the bounds are tried.
#[test]
fn no_program_runs_with_next_to_nothing() {
    for (name, _) in BOUNDS {
        let jobs = jobs(name);
        assert!(jobs.iter().all(|job| !job.done_by(name, 64)), "{name}");
    }
}
