//! The generated lists tell every wrong version from the right one. A wrong
//! version is an edit in `wrong/`.

mod weave;

use reference::claim;
use reference::compare::{self, first_difference, Counts, ANSWERS};
use reference::compare_desk::{self, DeskCounts};
use reference::desk;
use reference::generate;
use reference::previews;
use reference::session;
use std::io::{self, Write};
use std::sync::atomic::{AtomicUsize, Ordering};
use std::sync::OnceLock;
use std::thread;
use weave::{edits, Edit, Versions};

const SEED: u64 = 1;
const LISTS: u64 = 200;
const DESK_LISTS: u64 = 60;
/// So many versions run at a time.
const AT_A_TIME: usize = 2;
/// In an edit: where trains follow the orders of this version, the claim too
/// must refuse its answers.
const BREAKS_CLAIM: &str = "claim: broken";
/// In an edit: the lists for the desk tell this version, and those for the
/// session need not.
const TOLD_BY_DESK: &str = "told by: desk";

/// A list of calls and the right answers.
struct List {
    input: Vec<u8>,
    right: Vec<u8>,
}

/// A program, and lists for it.
struct Lists {
    program: &'static str,
    lists: Vec<List>,
}

impl Lists {
    fn of_session() -> Lists {
        let list = |number| {
            let input = generate::numbered(SEED, number);
            let right = session::run(&input);
            List { input, right }
        };
        Lists {
            program: "reference",
            lists: (0..LISTS).map(list).collect(),
        }
    }

    fn of_desk() -> Lists {
        let list = |number| {
            let input = previews::numbered(SEED, number);
            let right = desk::run(&input);
            List { input, right }
        };
        Lists {
            program: "reference_desk",
            lists: (0..DESK_LISTS).map(list).collect(),
        }
    }

    /// The number of the first list that a version does not answer as the right
    /// one does.
    fn telling(&self, version: usize) -> Result<Option<usize>, String> {
        let versions = versions()?;
        for (number, list) in self.lists.iter().enumerate() {
            let mut program = versions.program(version, self.program);
            let output = compare::run_command(&mut program, &list.input)?;
            if first_difference(&list.right, &output).is_some() {
                return Ok(Some(number));
            }
        }
        Ok(None)
    }
}

/// All wrong versions, built once for the tests that run them.
fn versions() -> Result<&'static Versions, String> {
    static BUILT: OnceLock<Result<Versions, String>> = OnceLock::new();
    let built = BUILT.get_or_init(|| Versions::built(&edits()));
    built.as_ref().map_err(String::clone)
}

fn says(edit: &Edit, what: &str) -> bool {
    edit.text.lines().any(|line| line == what)
}

/// Tells which list shows that a wrong version is wrong; an error where it
/// passes for the right one.
fn try_edit(edit: &Edit, session: &Lists, desk: &Lists) -> Result<String, String> {
    let (lists, name) = if says(edit, TOLD_BY_DESK) {
        (desk, "desk list")
    } else {
        (session, "list")
    };
    let number = lists.telling(edit.number)?.ok_or("it is not told apart")?;
    if says(edit, BREAKS_CLAIM) && !breaks_claim(edit.number)? {
        return Err("the claim holds with it".to_string());
    }
    Ok(format!("told by {name} {number}"))
}

/// Whether the claim refuses some answers of a version to lists in which its
/// own table runs along.
fn breaks_claim(version: usize) -> Result<bool, String> {
    let versions = versions()?;
    for number in 0..LISTS {
        let mut generate = versions.program(version, "generate");
        generate.args([SEED.to_string(), number.to_string()]);
        let input = compare::run_command(&mut generate, &[])?;
        let mut program = versions.program(version, "reference");
        let output = compare::run_command(&mut program, &input)?;
        if claim::check(&input, &output).is_err() {
            return Ok(true);
        }
    }
    Ok(false)
}

#[test]
fn right_version_does_not_differ_from_itself() {
    let mut counts = Counts::default();
    for List { input, right } in Lists::of_session().lists {
        assert_eq!(compare::check(&input, &right, &mut counts), Ok(()));
    }
    assert_eq!(counts.lists, LISTS);
    let missing: Vec<usize> = (0..ANSWERS).filter(|&n| counts.by_number(n) == 0).collect();
    assert!(missing.is_empty(), "answers {missing:?} do not occur");
    assert!(counts.lists_held_moving > 10, "{counts:?}");
    let seen = counts.penalties;
    let each = [
        seen.without_hold,
        seen.under_hold,
        seen.stood,
        seen.extended,
        seen.lifted,
    ];
    assert!(each.iter().all(|&count| count > 100), "{seen:?}");
    assert!(seen.together > 2, "{seen:?}");
    let rare = counts.turned_away.rare(50);
    assert!(rare.is_empty(), "callers without the right: {rare:?}");
    let rare = counts.pendings.rare(40);
    assert!(rare.is_empty(), "pending call backs: {rare:?}");
    let rare = counts.orders.rare(200);
    assert!(rare.is_empty(), "caps found by trials: {rare:?}");
    assert!(counts.long_runs > 10, "{counts:?}");
}

#[test]
fn right_desk_does_not_differ_from_itself() {
    let mut counts = DeskCounts::default();
    for List { input, right } in Lists::of_desk().lists {
        assert_eq!(compare_desk::check(&input, &right, &mut counts), Ok(()));
    }
    assert_eq!(counts.calls.lists, DESK_LISTS);
    let rare = counts.rare(20);
    assert!(rare.is_empty(), "previews and their calls: {rare:?}");
    assert!(counts.long_runs > 2, "{counts:?}");
}

/// So it is the edit that makes a wrong version differ.
#[test]
fn version_without_an_edit_does_not_differ() {
    for lists in [Lists::of_session(), Lists::of_desk()] {
        assert_eq!(lists.telling(0), Ok(None), "{}", lists.program);
    }
}

#[test]
fn every_wrong_version_is_told_apart() {
    let edits = edits();
    let (session, desk) = (Lists::of_session(), Lists::of_desk());
    let (next, done) = (AtomicUsize::new(0), AtomicUsize::new(0));
    let work = || {
        let mut unseen = Vec::new();
        while let Some(edit) = edits.get(next.fetch_add(1, Ordering::Relaxed)) {
            let told = match try_edit(edit, &session, &desk) {
                Ok(told) => told,
                Err(why) => {
                    unseen.push(format!("{}: {why}", edit.label));
                    why
                }
            };
            let count = done.fetch_add(1, Ordering::Relaxed) + 1;
            show(&format!(
                "{count} of {}, {}: {told}",
                edits.len(),
                edit.label
            ));
        }
        unseen
    };
    let unseen: Vec<String> = thread::scope(|scope| {
        let workers: Vec<_> = (0..AT_A_TIME).map(|_| scope.spawn(work)).collect();
        workers
            .into_iter()
            .flat_map(|worker| worker.join().expect("a worker ends"))
            .collect()
    });
    assert!(unseen.is_empty(), "{}", unseen.join("\n"));
}

/// Says how far a long test has come, though the output of tests is kept back.
fn show(line: &str) {
    // It is news, and no part of the test.
    let _ = writeln!(io::stderr(), "wrong version {line}");
}
