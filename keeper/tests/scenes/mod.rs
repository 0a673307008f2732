//! What a line must come through, with the keeper that it is given: a wrong one
//! fails in one of these scenes. The second implementation says what has to be
//! answered, as if nothing had ever stopped.

mod kept;

use kept::{as_kept, as_lines, line, Kept, Running, Stopped, ANSWER};
use reference::compare::first_difference;
use reference::generate::{list, Kind};
use reference::random::Random;
use reference::session;
use std::fs::{self, File};
use std::io::{self, Read, Write};
use std::net::Shutdown;
use std::os::fd::OwnedFd;
use std::os::unix::net::UnixStream;
use std::path::Path;
use std::process::{Command, Stdio};
use std::thread;
use std::time::Duration;

/// A scene, by its name in an edit.
pub type Scene = fn(&Path);

pub const SCENES: &[(&str, Scene)] = &[
    ("kills", kills),
    ("kills_while_logs_begin_anew", kills_while_logs_begin_anew),
    ("full_disk_for_calls", full_disk_for_calls),
    ("full_disk_for_answers", full_disk_for_answers),
    ("small_file_system", small_file_system),
    ("closed_output", closed_output),
    ("second_start", second_start),
    ("torn_call", torn_call),
    ("torn_answer", torn_answer),
    ("answers_ahead", answers_ahead),
    ("answers_of_another_program", answers_of_another_program),
    ("answers_lost", answers_lost),
    ("ends_that_do_not_block", ends_that_do_not_block),
    ("input_that_cannot_be_read", input_that_cannot_be_read),
    ("input_ends_in_a_line", input_ends_in_a_line),
    ("lines_in_pieces", lines_in_pieces),
    ("long_line", long_line),
    (
        "call_is_kept_before_it_is_made",
        call_is_kept_before_it_is_made,
    ),
    ("program_that_fails", program_that_fails),
    ("long_replay_is_shown", long_replay_is_shown),
    ("logs_begin_anew", logs_begin_anew),
    ("new_pair_half_begun", new_pair_half_begun),
    ("looks", looks),
];

const UNREADABLE: &[u8] = b" 1             0             0             0\n";
const OPENING: [u64; 5] = [200_000_000_000, 8_000_000_000, 26_822_400, 3726, 0];
const HEAD: u64 = 14_295_120_000;

/// An opened line with a train that has no track.
fn some_calls() -> Vec<u8> {
    let mut calls = [line(1, OPENING, 0), entering(7)].concat();
    for _ in 0..8 {
        calls.extend(line(3, [7, HEAD, 0, 0, 0], 7));
    }
    calls
}

fn entering(id: u64) -> Vec<u8> {
    line(2, [id, HEAD, 2345, 1, 0], 70000)
}

/// A line on which trains come and go, one after another.
fn coming_and_going(trains: u64) -> Vec<u8> {
    let mut calls = line(1, OPENING, 0);
    for id in 1..=trains {
        calls.extend(entering(id));
        calls.extend(line(3, [id, HEAD, 0, 0, 0], id));
        calls.extend(line(4, [id, 1, 20_000_000_000, 0, 0], id));
        calls.extend(line(6, [id, 0, 0, 0, 0], 0));
        calls.extend(line(3, [id, HEAD, 0, 0, 0], id));
        calls.extend(b"garbage\n");
        calls.extend(line(8, [id, 0, 0, 0, 0], 70000));
        calls.extend(line(8, [id, 0, 0, 0, 0], 70000));
    }
    calls
}

/// Sends a list through many stops. Each run must go on just behind the last
/// answer that was kept, and all logs together must tell the whole list.
fn stopped_often(keep: &Path, name: &str, calls: &[u8], stops: u64) {
    let mut random = Random::new(stops);
    let kept = Kept::new(keep, name);
    let calls = as_lines(calls);
    let mut torn: Vec<Vec<u8>> = Vec::new();
    let mut programs_killed = 0;
    for stop in 0..stops {
        let [taken, before] = kept.told();
        let next = as_lines(&taken).len() - torn.len();
        let end = (next + random.below(60) as usize).min(calls.len() - 1);
        let mut run = kept.start();
        send(&mut run, &calls[next..end].concat(), &mut random);
        if random.once_in(2) {
            // However slow it is, some stops come between answers.
            run.has_answered(random.below((end - next) as u64 + 1) as usize);
        }
        let run = match stop % 4 {
            0 => run.killed(),
            1 => run.program_killed(),
            2 => run.both_killed(),
            _ => {
                // A line that nobody sends again, so that it can be told.
                let part = format!(" 6 {stop}");
                torn.push(format!("{part}x\n").into_bytes());
                run.write(part.as_bytes()).expect("it reads");
                run.ended()
            }
        };
        programs_killed += u64::from(run.told.contains("ended by itself: signal: 9"));
        let when = |what: &str| format!("stop {stop}: {what}");
        let [taken, there] = kept.told();
        let right = session::run(&taken);
        same(&there, &right[..there.len()], &when("answers kept"));
        let sent = before.len() + run.received.len();
        assert!(sent <= there.len(), "{}", when("sent, and not kept"));
        same(
            &run.received,
            &right[before.len()..sent],
            &when("answers sent"),
        );
        let keeper_killed = matches!(stop % 4, 0 | 2);
        assert!(sent == there.len() || keeper_killed, "{}", when(&run.told));

        // A start mends what is left of a line, and gives the answers that are owed.
        let next = kept.start().ended();
        assert_eq!(next.status, Some(0), "{}", when(&next.told));
        same(&next.received, &right[there.len()..], &when("answers owed"));
        let [still, all] = kept.told();
        same(&still, &taken, &when("calls after a start"));
        same(&all, &right, &when("answers after a start"));
    }
    assert!(
        programs_killed > stops / 16,
        "{programs_killed} programs killed"
    );
    let is_call = |line: &Vec<u8>| !torn.contains(line);
    let count = as_lines(&kept.told()[0]).len() - torn.len();
    let last = kept.sent(&calls[count..].concat());
    assert_eq!(last.status, Some(0), "{}", last.told);
    let [taken, answers] = kept.told();
    same(&answers, &session::run(&taken), "answers");
    let whole: Vec<Vec<u8>> = as_lines(&taken).into_iter().filter(is_call).collect();
    let sent: Vec<Vec<u8>> = calls.iter().map(|call| as_kept(call)).collect();
    same(&whole.concat(), &sent.concat(), "calls");
    assert!(
        count > 3 * stops as usize,
        "only {count} calls before the last stop"
    );
}

/// Says in which line two texts differ.
fn same(found: &[u8], right: &[u8], what: &str) {
    if let Some(differ) = first_difference(right, found) {
        let [right, found] =
            [differ.expected, differ.found].map(|line| line.escape_ascii().to_string());
        panic!("{what}, line {}: {found} in place of {right}", differ.line);
    }
}

/// All at once, or in pieces that cut lines, and quickly or slowly.
fn send(run: &mut Running, calls: &[u8], random: &mut Random) {
    let whole = random.once_in(2);
    let wait = Duration::from_micros(random.below(1000));
    let mut left = calls;
    while !left.is_empty() {
        let most = if whole { left.len() } else { 200 };
        let size = random.between(1, most as u64).min(left.len() as u64) as usize;
        if run.write(&left[..size]).is_err() {
            return;
        }
        left = &left[size..];
        thread::sleep(wait);
    }
    thread::sleep(wait);
}

fn kills(keep: &Path) {
    let lists = [Kind::Tight, Kind::Garbage, Kind::Running].map(|kind| list(9, kind));
    stopped_often(keep, "kills", &lists.concat(), 120);
}

fn kills_while_logs_begin_anew(keep: &Path) {
    stopped_often(keep, "anew", &coming_and_going(600), 120);
}

/// Sends calls one by one until it stops by itself.
fn until_it_stops(mut run: Running, calls: &[Vec<u8>]) -> Stopped {
    for (count, call) in calls.iter().enumerate() {
        if run.write(call).is_err() || !run.has_answered(count + 1) {
            break;
        }
    }
    run.stopped()
}

/// It stopped for want of space. What was answered was kept, and once there is
/// space it goes on.
fn stops_and_goes_on(kept: &Kept, run: &Stopped, calls: &[Vec<u8>], full: &str) {
    assert_eq!(run.status, Some(1), "{}", run.told);
    assert!(
        run.told.contains(full) && run.told.contains("free space"),
        "{}",
        run.told
    );
    let right = session::run(&calls.concat());
    same(&run.received, &right[..run.received.len()], "answers sent");
    let [taken, answers] = kept.told();
    same(&answers, &run.received, "answers kept");
    assert!(answers.len() > 10 * ANSWER);
    let rest = kept.sent(&calls[as_lines(&taken).len()..].concat());
    assert_eq!(rest.status, Some(0), "{}", rest.told);
    same(
        &[run.received.clone(), rest.received].concat(),
        &right,
        "all answers",
    );
}

fn full_disk_for_calls(keep: &Path) {
    let kept = Kept::new(keep, "full-calls");
    let calls = as_lines(&list(9, Kind::Tight));
    let run = Running::of(&mut kept.limited(4));
    let run = until_it_stops(run, &calls);
    stops_and_goes_on(&kept, &run, &calls, "calls.log");
}

/// Empty lines, whose answers are longer than they are.
fn full_disk_for_answers(keep: &Path) {
    let kept = Kept::new(keep, "full-answers");
    let calls = vec![b"\n".to_vec(); 200];
    let run = Running::of(&mut kept.limited(4));
    let run = until_it_stops(run, &calls);
    stops_and_goes_on(&kept, &run, &calls, "answers.log");
}

/// A file system of its own, where one may be mounted; elsewhere the limit of the
/// two scenes before this has to do. It fills with one pair of logs, and with many
/// old ones.
fn small_file_system(keep: &Path) {
    let mount = |options: &str, folder: &Path| {
        let mut command = Command::new("mount");
        command.args(["-t", "tmpfs", "-o", options, "none"]);
        let status = command.arg(folder).stderr(Stdio::null()).status();
        status.is_ok_and(|status| status.success())
    };
    for calls in [list(9, Kind::Tight), coming_and_going(100)] {
        let kept = Kept::new(keep, "small");
        fs::create_dir_all(&kept.folder).expect("a folder");
        if !mount("size=64k", &kept.folder) {
            // Said, though the output of tests is kept back.
            let _ = writeln!(io::stderr(), "no file system may be mounted here");
            return;
        }
        let calls = as_lines(&calls);
        let run = until_it_stops(kept.start(), &calls);
        assert!(mount("remount,size=4m", &kept.folder));
        stops_and_goes_on(&kept, &run, &calls, "No space left on device");
        let unmounted = Command::new("umount").arg(&kept.folder).status();
        assert!(unmounted.is_ok_and(|status| status.success()));
    }
}

/// Nobody takes the answers: the one that could not go out is in the log, and
/// does not go out later.
fn closed_output(keep: &Path) {
    let kept = Kept::new(keep, "closed");
    let calls = as_lines(&some_calls());
    let mut child = kept
        .command()
        .stdin(Stdio::piped())
        .stdout(Stdio::piped())
        .stderr(Stdio::piped())
        .spawn()
        .expect("it starts");
    drop(child.stdout.take());
    let mut input = child.stdin.take().expect("its input");
    input.write_all(&calls[0]).expect("it reads");
    let output = child.wait_with_output().expect("it ends");
    let told = String::from_utf8_lossy(&output.stderr);
    assert_eq!(output.status.code(), Some(1), "{told}");
    assert!(told.contains("standard output cannot be written"), "{told}");
    let rest = kept.sent(&calls[1..].concat());
    let right = session::run(&calls.concat());
    same(&rest.received, &right[ANSWER..], "the other answers");
}

fn second_start(keep: &Path) {
    let kept = Kept::new(keep, "second");
    let calls = as_lines(&some_calls());
    let mut first = kept.start();
    first.write(&calls[0]).expect("it reads");
    assert!(first.has_answered(1));
    let second = kept.sent(&calls[1]);
    assert_eq!(second.status, Some(3), "{}", second.told);
    assert_eq!(second.received, b"");
    let files = fs::read_dir(&kept.folder).expect("a folder");
    for file in files.map(|file| file.expect("a file").path()) {
        let name = file.file_name().expect("a name").to_string_lossy();
        if !name.ends_with(".log") {
            // Whatever looks like a stale lock may be cleared away.
            fs::remove_file(&file).expect("it is there");
        }
    }
    assert_eq!(kept.sent(&calls[1]).status, Some(3));
    let holder = format!("held by process {}", first.id());
    assert!(second.told.contains(&holder), "{}", second.told);
    first.write(&calls[1]).expect("it reads");
    let right = session::run(&calls[..2].concat());
    same(&first.ended().received, &right, "answers of the first");
}

fn torn_call(keep: &Path) {
    let kept = Kept::new(keep, "torn-call");
    let calls = as_lines(&some_calls());
    let (before, after) = calls.split_at(5);
    // All of a call but its line feed is no call.
    for torn in [&calls[5][..86], &b" 6"[..], b"\0\0\0"] {
        kept.put("calls.log", &[&before.concat(), torn].concat());
        kept.put("answers.log", &session::run(&before.concat()));
        let run = kept.sent(&after.concat());
        assert_eq!(run.status, Some(0), "{}", run.told);
        assert!(
            run.told.contains("calls.log: its last line, cut by a stop"),
            "{}",
            run.told
        );
        same(&kept.read("calls.log"), &calls.concat(), "calls");
        let right = session::run(&calls.concat());
        same(&run.received, &right[5 * ANSWER..], "answers");
    }
}

fn torn_answer(keep: &Path) {
    let kept = Kept::new(keep, "torn-answer");
    let calls = as_lines(&some_calls());
    let right = session::run(&calls.concat());
    for bytes in [5 * ANSWER + 1, 6 * ANSWER - 1] {
        kept.put("calls.log", &calls[..7].concat());
        kept.put("answers.log", &right[..bytes]);
        let run = kept.sent(&calls[7..].concat());
        assert_eq!(run.status, Some(0), "{}", run.told);
        assert!(
            run.told
                .contains("answers.log: its last line, cut by a stop"),
            "{}",
            run.told
        );
        assert!(
            run.told.contains("had no answer at the stop: 2"),
            "{}",
            run.told
        );
        same(&run.received, &right[5 * ANSWER..], "answers sent");
        same(&kept.read("answers.log"), &right, "answers kept");
    }
}

/// It answers nothing, and says what these words say.
fn is_refused(run: &Stopped, words: &[&str]) {
    assert_eq!(run.status, Some(3), "{}", run.told);
    same(&run.received, b"", "answers");
    for word in words {
        assert!(run.told.contains(word), "{word}: {}", run.told);
    }
}

/// So does a look; and the logs stay as they are.
fn refuses(kept: &Kept, words: &[&str]) {
    let logs = ["calls.log", "answers.log"];
    let before = logs.map(|name| kept.read(name));
    is_refused(&kept.sent(b"\n"), words);
    is_refused(&kept.look("--check"), words);
    for (name, before) in logs.iter().zip(&before) {
        same(&kept.read(name), before, name);
    }
}

fn answers_ahead(keep: &Path) {
    let kept = Kept::new(keep, "ahead");
    let calls = as_lines(&some_calls());
    let right = session::run(&calls.concat());
    kept.put("calls.log", &calls[..4].concat());
    let answer = String::from_utf8_lossy(&right[4 * ANSWER..5 * ANSWER - 1]).into_owned();
    for bytes in [5 * ANSWER, 9 * ANSWER, 6 * ANSWER - 1] {
        kept.put("answers.log", &right[..bytes]);
        refuses(&kept, &["line 5", "(none)", &answer, "open the line anew"]);
    }
}

fn answers_of_another_program(keep: &Path) {
    let kept = Kept::new(keep, "another");
    let calls = some_calls();
    let right = session::run(&calls);
    let text = String::from_utf8(right.clone()).expect("text");
    kept.put("calls.log", &calls);
    kept.put("answers.log", text.replace("  263 ", "  264 ").as_bytes());
    let call = String::from_utf8(entering(7)).expect("text");
    refuses(
        &kept,
        &[
            "line 2",
            call.trim_end(),
            "  263 ",
            "  264 ",
            "open the line anew",
        ],
    );
    // Lines of another length.
    kept.put("answers.log", b" 0\n 0\n");
    refuses(&kept, &["line 1", "open the line anew"]);
}

/// More calls without an answer than the keeper takes at once: answers that went
/// out are missing, and must not go out a second time.
fn answers_lost(keep: &Path) {
    let kept = Kept::new(keep, "lost");
    let calls = [some_calls(), line(3, [7, HEAD, 0, 0, 0], 7).repeat(1000)].concat();
    kept.put("calls.log", &calls);
    for bytes in [0, 10 * ANSWER] {
        kept.put("answers.log", &session::run(&calls)[..bytes]);
        is_refused(&kept.sent(b"\n"), &["lacks answers that went out"]);
    }
    fs::remove_file(kept.path("answers.log")).expect("it was there");
    is_refused(&kept.sent(b"\n"), &["answers.log is missing"]);
}

/// Neither end blocks, as where a service manager opens them: it waits.
fn ends_that_do_not_block(keep: &Path) {
    let kept = Kept::new(keep, "ready");
    let (mut here, there) = UnixStream::pair().expect("a pair");
    there.set_nonblocking(true).expect("a flag");
    let output = there.try_clone().expect("an end");
    let mut command = kept.command();
    command.stdin(Stdio::from(OwnedFd::from(there)));
    command.stdout(Stdio::from(OwnedFd::from(output)));
    let mut child = command.spawn().expect("it starts");
    drop(command);
    let calls = list(9, Kind::Tight).repeat(20);
    let mut writer = here.try_clone().expect("an end");
    let sent = calls.clone();
    let sender = thread::spawn(move || {
        thread::sleep(Duration::from_millis(50));
        writer.write_all(&sent).expect("it reads");
        writer.shutdown(Shutdown::Write).expect("an end");
    });
    // Its answers wait for a while, and fill the socket.
    thread::sleep(Duration::from_millis(300));
    let mut received = Vec::new();
    here.read_to_end(&mut received).expect("it writes");
    sender.join().expect("all is sent");
    assert!(child.wait().expect("a status").success());
    assert!(received == session::run(&calls), "{} bytes", received.len());
}

fn input_that_cannot_be_read(keep: &Path) {
    let kept = Kept::new(keep, "unreadable");
    let folder = File::open(".").expect("a folder");
    let output = kept.command().stdin(folder).output().expect("it runs");
    let told = String::from_utf8_lossy(&output.stderr);
    assert_eq!(output.status.code(), Some(1), "{told}");
    assert!(told.contains("standard input cannot be read"), "{told}");
}

/// A last line without its line feed is answer 1, also where all of a call is
/// there, and a replay reads no call in it.
fn input_ends_in_a_line(keep: &Path) {
    let kept = Kept::new(keep, "cut");
    let hold = line(6, [7, 0, 0, 0, 0], 0);
    assert_eq!(kept.sent(&some_calls()).status, Some(0));
    for bytes in [1, 50, 85, 86] {
        let run = kept.sent(&hold[..bytes]);
        assert_eq!(run.status, Some(0), "{}", run.told);
        same(&run.received, UNREADABLE, &format!("{bytes} bytes"));
    }
    let report = line(3, [7, HEAD, 0, 0, 0], 7);
    let run = kept.sent(&report);
    assert!(
        run.received.starts_with(b" 0             1"),
        "it is not held"
    );
    let [calls, answers] = kept.told();
    same(&answers, &session::run(&calls), "answers");
}

fn lines_in_pieces(keep: &Path) {
    let kept = Kept::new(keep, "pieces");
    let calls = some_calls();
    let mut run = kept.start();
    run.write(b"\n").expect("it reads");
    assert!(run.has_answered(1));
    for byte in &calls {
        run.write(&[*byte]).expect("it reads");
        thread::sleep(Duration::from_micros(50));
    }
    let run = run.ended();
    let all = [b"\n", &calls[..]].concat();
    same(&run.received, &session::run(&all), "answers");
    same(&kept.read("calls.log"), &all, "calls");
}

/// It fills neither memory nor disk, and is answered once.
fn long_line(keep: &Path) {
    let kept = Kept::new(keep, "long");
    let mut run = kept.start();
    run.write(&some_calls()).expect("it reads");
    for _ in 0..50 {
        run.write(&[b' '; 1_000_000]).expect("it reads");
    }
    run.write(b"\n").expect("it reads");
    assert!(run.has_answered(11));
    let status = fs::read_to_string(format!("/proc/{}/status", run.id())).expect("it runs");
    let peak = status.lines().find_map(|line| line.strip_prefix("VmHWM:"));
    let peak = peak.and_then(|text| text.trim().strip_suffix(" kB")?.parse::<u64>().ok());
    assert!(peak.is_some_and(|peak| peak < 16_000), "{peak:?} kB");
    let run = run.ended();
    assert!(run.received.ends_with(UNREADABLE));
    assert_eq!(kept.read("calls.log").len(), some_calls().len() + 88);
    assert_eq!(kept.look("--check").status, Some(0));
}

/// A made-up session program, in the shell. A process of its own writes it: had this one written
/// it, a child that another scene starts meanwhile could hold it open, and a file that is open to
/// write does not start ("Text file busy").
fn made_up(kept: &mut Kept, script: &str) {
    let text = kept.beside("script");
    fs::write(&text, format!("#!/usr/bin/env bash\n{script}\n")).expect("a file");
    kept.session = kept.beside("program");
    let installed = Command::new("install")
        .args([&text, &kept.session])
        .status();
    assert!(installed.expect("install runs").success());
}

/// A program that looks for each call in the log, and answers 1 where it is there.
fn call_is_kept_before_it_is_made(keep: &Path) {
    let mut kept = Kept::new(keep, "before");
    let log = kept.path("calls.log");
    let look = format!(
        "while IFS= read -r call; do
            if grep -qxF -e \"$call\" '{}'; then answer=1; else answer=0; fi
            printf '%2d%14d%14d%14d\\n' $answer 0 0 0
        done",
        log.display()
    );
    made_up(&mut kept, &look);
    let mut run = kept.start();
    for call in 1..=3 {
        run.write(&line(6, [call, 0, 0, 0, 0], 0))
            .expect("it reads");
        assert!(run.has_answered(call as usize));
    }
    let run = run.ended();
    same(&run.received, &UNREADABLE.repeat(3), "answers");
}

/// It ends, says something else, or is not there.
fn program_that_fails(keep: &Path) {
    let mut kept = Kept::new(keep, "fails");
    let cases = [
        ("exit 7", 1, "ended by itself: exit status: 7"),
        (
            "read -r call; kill -SEGV $$",
            1,
            "ended by itself: signal: 11",
        ),
        (
            "read -r call; printf '%44s\\n' ''; exit 5",
            1,
            "ended by itself: exit status: 5",
        ),
        ("read -r call; yes", 3, "wrote \"y\", no answer"),
    ];
    for (script, status, word) in cases {
        made_up(&mut kept, script);
        let run = kept.sent(b"\n");
        assert_eq!(run.status, Some(status), "{script}: {}", run.told);
        assert!(run.told.contains(word), "{script}: {}", run.told);
        fs::remove_dir_all(&kept.folder).expect("a folder");
    }
    kept.session = kept.beside("nothing");
    let run = kept.sent(b"\n");
    assert_eq!(run.status, Some(3), "{}", run.told);
    assert!(run.told.contains("./session --build"), "{}", run.told);
}

fn long_replay_is_shown(keep: &Path) {
    let mut kept = Kept::new(keep, "long-replay");
    let slow = r"sleep 1.1; while read -r call; do printf '%2d%14d%14d%14d\n' 1 0 0 0; done";
    made_up(&mut kept, slow);
    kept.put("calls.log", b"1\n2\n3\n");
    kept.put("answers.log", &UNREADABLE.repeat(3));
    let run = kept.sent(b"4\n");
    assert_eq!(run.status, Some(0), "{}", run.told);
    assert!(run.told.contains("replaying: 6 of 6 bytes"), "{}", run.told);
    same(&run.received, UNREADABLE, "answers");
}

/// Each time the last train has left. The archive has every line, and what
/// follows is answered as if there were one log.
fn logs_begin_anew(keep: &Path) {
    let kept = Kept::new(keep, "anew-quietly");
    let calls = as_lines(&coming_and_going(5));
    let right = session::run(&calls.concat());
    let mut run = kept.start();
    for (count, call) in calls.iter().enumerate() {
        run.write(call).expect("it reads");
        assert!(run.has_answered(count + 1));
    }
    let run = run.ended();
    assert_eq!(run.status, Some(0), "{}", run.told);
    same(&run.received, &right, "answers");
    assert_eq!(
        run.told.matches("a new pair of logs begins").count(),
        5,
        "{}",
        run.told
    );
    // Of the open pair: the opening, and a taking off of a train that is gone.
    let open = [&calls[0][..], &calls[40]].concat();
    same(&kept.read("calls.log"), &open, "calls of the open pair");
    let open = [&right[..ANSWER], &right[40 * ANSWER..]].concat();
    same(&kept.read("answers.log"), &open, "answers of the open pair");
    let first = calls[..8].concat();
    same(
        &kept.read("archive/000001/calls.log"),
        &first,
        "calls of the first pair",
    );
    let answers = kept.read("archive/000001/answers.log");
    same(&answers, &session::run(&first), "answers of the first pair");
    let [all, answers] = kept.told();
    same(&all, &calls.concat(), "all calls");
    same(&answers, &right, "all answers");
    // With a train on the line they go on, whatever leaves.
    let further = line(2, [1, HEAD + 10_000_000_000, 2345, 1, 0], 70000);
    let behind = line(2, [2, 1_000_000_000, 100, 1, 0], 70000);
    let run = kept.sent(&[further, behind, line(8, [1, 0, 0, 0, 0], 70000)].concat());
    let accepted = |answer: &Vec<u8>| answer.starts_with(b" 0");
    assert!(as_lines(&run.received).iter().all(accepted), "{}", run.told);
    assert!(!kept.path("archive/000006").exists());
    assert!(kept
        .look("--status")
        .received
        .starts_with(b"trains on the line: 1\n"));
}

/// Whatever step a stop came after, a start takes the others.
fn new_pair_half_begun(keep: &Path) {
    let leaving = [
        line(6, [7, 0, 0, 0, 0], 0),
        line(3, [7, HEAD, 0, 0, 0], 7),
        line(8, [7, 0, 0, 0, 0], 70000),
    ];
    let calls = [some_calls(), leaving.concat()].concat();
    let answers = session::run(&calls);
    let (opening, opened) = (line(1, OPENING, 0), &answers[..ANSWER]);
    let [old_calls, new_calls, old_answers, new_answers] = [
        "calls.log",
        "next-calls.log",
        "answers.log",
        "next-answers.log",
    ]
    .map(|name| format!("archive/000001/{name}"));
    // Where the old calls, the new ones, the old answers and the new ones are by then.
    let steps = [
        [
            "calls.log",
            "archive/part/next-calls.log",
            "answers.log",
            "archive/part/next-answers.log",
        ],
        ["calls.log", &new_calls, "answers.log", &new_answers],
        [&old_calls, &new_calls, "answers.log", &new_answers],
        [&old_calls, "calls.log", "answers.log", &new_answers],
        [&old_calls, "calls.log", &old_answers, &new_answers],
        [&old_calls, "calls.log", &old_answers, "answers.log"],
    ];
    for (number, step) in steps.iter().enumerate() {
        let kept = Kept::new(keep, "half");
        for (name, lines) in step.iter().zip([&calls[..], &opening, &answers, opened]) {
            kept.put(name, lines);
        }
        if step.contains(&&new_answers[..]) {
            let look = kept.look("--check");
            assert_eq!(look.status, Some(1), "step {number}: {}", look.told);
        }
        let run = kept.sent(&entering(8));
        assert_eq!(run.status, Some(0), "step {number}: {}", run.told);
        let entered = b" 0        133303           263   14295120000\n";
        same(&run.received, entered, &format!("step {number}: answers"));
        let now = [&opening[..], &entering(8)].concat();
        same(
            &kept.read("calls.log"),
            &now,
            &format!("step {number}: calls"),
        );
        same(
            &kept.read(&old_calls),
            &calls,
            &format!("step {number}: old calls"),
        );
        same(
            &kept.read(&old_answers),
            &answers,
            &format!("step {number}: old answers"),
        );
        assert_eq!(kept.look("--check").status, Some(0), "step {number}");
    }
}

/// While it runs and after it.
fn looks(keep: &Path) {
    let kept = Kept::new(keep, "looks");
    let mut run = kept.start();
    run.write(&some_calls()).expect("it reads");
    assert!(run.has_answered(10));
    let hold = line(6, [9, 0, 0, 0, 0], 0);
    let told = [
        "trains on the line: 1\n",
        "their ids:   7\n",
        "calls: 10; not answered yet: 0\n",
        "last call:   \" 3             7",
        "its answer:  \" 0             1",
        "calls.log: 870 bytes; answers.log: 450 bytes; pairs in the archive: 0\n",
    ];
    for _ in 0..2 {
        let check = kept.look("--check");
        assert_eq!(check.status, Some(0), "{}", check.told);
        assert_eq!(
            check.received,
            b"10 calls, all as answered; not answered yet: 0\n"
        );
        let status = kept.look("--status");
        assert_eq!(status.status, Some(0), "{}", status.told);
        let text = String::from_utf8_lossy(&status.received).into_owned();
        told.iter()
            .for_each(|word| assert!(text.contains(word), "{word}: {text}"));
    }
    run.write(&hold).expect("it reads");
    assert!(run.has_answered(11), "it is not disturbed");
    assert_eq!(run.ended().status, Some(0));
    assert_eq!(
        kept.look("--check").received,
        b"11 calls, all as answered; not answered yet: 0\n"
    );
    // Calls without an answer are no difference.
    kept.put("answers.log", &kept.read("answers.log")[..10 * ANSWER]);
    assert_eq!(
        kept.look("--check").received,
        b"11 calls, all as answered; not answered yet: 1\n"
    );
    let none = Kept::new(keep, "none").look("--status");
    assert_eq!(
        (none.status, none.received),
        (Some(3), Vec::new()),
        "{}",
        none.told
    );
}
