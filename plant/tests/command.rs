//! The command line.

use std::process::{Command, Output, Stdio};

fn plant(words: &str) -> Output {
    Command::new(env!("CARGO_BIN_EXE_plant")).args(words.split_whitespace()).output().unwrap()
}

fn said(output: &Output) -> (Option<i32>, String, String) {
    let text = |bytes: &[u8]| String::from_utf8_lossy(bytes).into_owned();
    (output.status.code(), text(&output.stdout), text(&output.stderr))
}

#[test]
fn help_names_each_command_and_kind() {
    for words in ["--help", "", "run --help", "seeds -h", "shrink --help"] {
        let (status, out, errors) = said(&plant(words));
        assert_eq!((status, errors.as_str()), (Some(0), ""), "{words}");
        for word in
            ["plant run", "plant seeds", "plant shrink", "partitions", "beyond", "--records", "[--seed N]", "--calls"]
        {
            assert!(out.contains(word), "{words}: {word}");
        }
    }
}

#[test]
fn what_is_not_understood_is_told_in_a_line() {
    let wrong = [
        ("walk", "there is no command 'walk'"),
        ("run", "--kind is missing"),
        ("run --kind wet", "there is no kind 'wet'"),
        ("run --kind all --members 17", "--members wants a number from 1 to 16, not '17'"),
        ("run --kind all --seed", "--seed wants a value"),
        ("seeds --kind all --steps 5", "there is no option '--steps'"),
        ("seeds --kind all --count -1", "--count wants a number"),
        ("shrink kind all", "there is no option 'kind'"),
        ("shrink --kind all --calls x", "there is no option '--calls'"),
    ];
    for (words, line) in wrong {
        let (status, out, errors) = said(&plant(words));
        assert_eq!((status, out.as_str()), (Some(2), ""), "{words}");
        assert!(errors.contains(line) && errors.lines().count() == 1, "{words}: {errors}");
    }
}

#[test]
fn a_reader_that_goes_is_told_in_a_line() {
    let mut run = Command::new(env!("CARGO_BIN_EXE_plant"));
    run.args(["run", "--kind", "lossy", "--members", "4", "--ceiling", "8"]);
    let mut child = run.stdout(Stdio::piped()).stderr(Stdio::piped()).spawn().unwrap();
    drop(child.stdout.take());
    let (status, _, errors) = said(&child.wait_with_output().unwrap());
    assert_eq!(status, Some(2));
    assert!(errors.starts_with("plant: cannot write the result: ") && errors.lines().count() == 1, "{errors}");
}

#[test]
fn runs_seeds_and_a_short_fork() {
    let (status, out, _) = said(&plant("run --kind lossy --seed 1 --members 4 --ceiling 8"));
    assert_eq!(status, Some(0));
    assert!(out.starts_with("lossy: 1 runs, 0 failed\n"), "{out}");
    let (status, out, _) = said(&plant("seeds --kind guests --from 3 --count 4"));
    assert_eq!(status, Some(0));
    assert!(out.starts_with("guests: 4 runs, 0 failed\n"), "{out}");
    let (status, out, _) = said(&plant("seeds --kind beyond --from 1 --count 4 --members 5 --ceiling 9"));
    assert_eq!(status, Some(0));
    assert!(out.contains("\nbeyond: 4 runs, 4 failed, 4 by a fork, after "), "{out}");
    assert!(out.contains("\n5 to 5 members, ceilings 9 to 9\n"), "{out}");
    let folder = std::env::temp_dir().join(format!("plant-records-{}", std::process::id()));
    let words = format!("shrink --kind beyond --seed 5 --records {}", folder.display());
    let (status, out, _) = said(&plant(&words));
    assert_eq!(status, Some(0), "{out}");
    assert!(out.contains("are enough\n1. member ") && out.contains("a fork: the chains of members "), "{out}");
    let streams: Vec<_> = std::fs::read_dir(&folder).unwrap().map(|entry| entry.unwrap().path()).collect();
    assert_eq!(streams.len(), 2);
    for stream in streams {
        let records = std::fs::read_to_string(stream).unwrap();
        assert!(records.starts_with("open,") && records.ends_with("chain\r\n"));
    }
    std::fs::remove_dir_all(folder).unwrap();
}

/// The list of a run's calls, and what is to be told of it.
#[test]
fn the_calls_of_a_run() {
    let folder = std::env::temp_dir().join(format!("plant-calls-{}", std::process::id()));
    let words = format!("run --kind crashes --seed 1 --members 4 --ceiling 8 --calls {}", folder.display());
    let (status, out, _) = said(&plant(&words));
    assert_eq!(status, Some(0), "{out}");
    assert!(out.contains("calls.list\n") && out.contains("calls.told\n"), "{out}");
    let list = std::fs::read(folder.join("calls.list")).unwrap();
    assert!(list.starts_with(b"FLC1") && list.len() % 4 == 0);
    let told = std::fs::read(folder.join("calls.told")).unwrap();
    // Four members' states and tables, behind eight bytes for each call.
    assert_eq!((told.len() - 4 * 4 * (39 + 272 * 9)) % 8, 0);
    std::fs::remove_dir_all(folder).unwrap();
}

#[test]
fn a_run_that_does_not_fail_is_not_made_short() {
    let (status, out, _) = said(&plant("shrink --kind crashes --seed 2"));
    assert_eq!(status, Some(0));
    assert!(out.starts_with("seed 2 does not fail: "), "{out}");
}
