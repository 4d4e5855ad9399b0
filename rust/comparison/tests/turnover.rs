//! The proved program `turnover` against the independent implementation, and
//! both against the expected outputs in the folder `examples`. `rt run` in
//! `crates/turnover` builds the program, and so does `rt ci`.

use std::fs;
use std::io::{Read, Write};
use std::path::{Path, PathBuf};
use std::process::{Command, Stdio};
use std::thread;

use comparison::cases;
use reference::at_bounds::{check_refusals, full_links};
use reference::generate::{mutated_script, network, pairs_of, run_of, script, script_text};
use reference::generate::{step_text, NetworkWish, Shape};
use reference::header::Header;
use reference::network::{State, Step};
use reference::random::Rng;
use reference::turnover::turnover;

fn root() -> PathBuf {
    Path::new(env!("CARGO_MANIFEST_DIR")).join("../..")
}

/// The proved program.
fn program() -> PathBuf {
    let path = root().join("crates/turnover/out/turnover");
    assert!(
        path.exists(),
        "crates/turnover/out/turnover is not there: run `rt run < /dev/null` in crates/turnover"
    );
    path
}

/// What the program writes for an input.
fn run(program: &Path, input: &[u8]) -> Vec<u8> {
    let mut child = Command::new(program)
        .stdin(Stdio::piped())
        .stdout(Stdio::piped())
        .spawn()
        .expect("the program starts");
    let mut stdin = child.stdin.take().expect("a pipe");
    let mut stdout = child.stdout.take().expect("a pipe");
    let mut output = Vec::new();
    thread::scope(|scope| {
        scope.spawn(move || {
            // A refused setup ends the program before it has read everything.
            let _ = stdin.write_all(input);
        });
        stdout.read_to_end(&mut output).expect("its output");
    });
    assert!(child.wait().expect("it ends").success());
    output
}

/// What both write for an input.
fn compare(program: &Path, input: &[u8]) -> Vec<u8> {
    let (ours, theirs) = (run(program, input), turnover(input));
    if ours != theirs {
        println!("input:\n{}", String::from_utf8_lossy(input));
        println!("library:\n{}", String::from_utf8_lossy(&ours));
        println!("reference:\n{}", String::from_utf8_lossy(&theirs));
        panic!("the outputs differ");
    }
    check_refusals(&ours);
    ours
}

#[test]
fn scripts() {
    let program = program();
    cases("scripts", 400, |rng| {
        let lines = script(rng, 300);
        let last_feed = rng.chance(3, 4);
        compare(&program, &script_text(&lines, last_feed));
        compare(&program, &mutated_script(rng, 60));
    });
}

#[test]
fn long_script() {
    let program = program();
    cases("long_script", 1, |rng: &mut Rng| {
        let lines = script(rng, 30_000);
        compare(&program, &script_text(&lines, true));
    });
}

/// The lines of a header whose links have one limit both ways.
fn settings(header: &Header) -> String {
    let mut text = format!("net {} {}\n", header.stations, header.ceiling);
    for (i, allowance) in header.allowances[..header.n()].iter().enumerate() {
        text += &format!("allow {i} {allowance}\n");
        for j in header.neighbours(i).filter(|&j| j < i) {
            text += &format!("link {i} {j} {}\n", header.limits[i][j]);
        }
    }
    text
}

/// How many entries of an output have an own count of t.
fn entries_at(output: &[u8], t: u16) -> usize {
    let output = String::from_utf8_lossy(output);
    let at = output.lines().filter(|line| {
        let words: Vec<&str> = line.split(' ').collect();
        // A number, "entry", phase and station stand before the counts.
        let own = |station: usize| words[4 + station].parse() == Ok(t);
        words.get(1) == Some(&"entry") && words[3].parse().is_ok_and(own)
    });
    at.count()
}

/// How many states of a list of steps have a full link.
fn states_with_full_links(header: &Header, steps: &[Step]) -> usize {
    let mut state = State::initial(header).expect("a network");
    let full = |&&step: &&Step| state.step(step).is_ok() && !full_links(&state).is_empty();
    steps.iter().filter(full).count()
}

/// Networks with the least ceiling that the sums allow: counts reach it and
/// links fill up, and refused steps print 4 to 8.
#[test]
fn scripts_at_the_least_ceiling() {
    let program = program();
    let mut rng = Rng::new(1);
    let (mut at_ceiling, mut full) = (0, 0);
    for _ in 0..150 {
        let wish = NetworkWish {
            symmetric: true,
            small: true,
            tight: true,
            fewest: 2,
            most: 4,
            ..NetworkWish::default()
        };
        let header = network(&mut rng, wish);
        let steps = run_of(&mut rng, &header, 400).steps;
        let lines: Vec<String> = steps.iter().map(step_text).collect();
        let input = settings(&header) + &lines.join("\n");
        let output = compare(&program, input.as_bytes());
        at_ceiling += entries_at(&output, header.ceiling);
        full += states_with_full_links(&header, &steps);
    }
    println!("scripts_at_the_least_ceiling: {at_ceiling} entries there, {full} times a full link");
    assert!(at_ceiling > 100 && full > 100);
}

/// Networks whose links write their limit or leave it out, with the least
/// ceiling that the sums allow and with one less. The sums are made here.
#[test]
fn default_limits() {
    let program = program();
    cases("default_limits", 150, |rng| {
        let shape = rng.pick(&[Shape::Tree, Shape::Ring, Shape::Star, Shape::Mixed]);
        let n = rng.range(2, 8) as usize;
        let mut sums = vec![0; n];
        let mut settings = String::new();
        for (i, sum) in sums.iter_mut().enumerate() {
            *sum = rng.below(4);
            settings += &format!("allow {i} {sum}\n");
        }
        for (i, j) in pairs_of(rng, shape, n) {
            let any = rng.range(1, 32);
            let limit = rng.pick(&[None, None, Some(8), Some(any)]);
            let written = limit.map_or(String::new(), |limit| format!(" {limit}"));
            settings += &format!("link {i} {j}{written}\n");
            for station in [i, j] {
                sums[station] += 2 * limit.unwrap_or(16);
            }
        }
        let least = sums.into_iter().max().expect("two stations or more");
        for (ceiling, printed) in [(least, ""), (least - 1, "no 3\n")] {
            let input = format!("net {n} {ceiling}\n{settings}");
            assert_eq!(turnover(input.as_bytes()), printed.as_bytes(), "{input}");
            compare(&program, input.as_bytes());
        }
    });
}

/// How many sends in a phase a link takes: sixteen where its line has no limit,
/// the written limit where it has one, by the last line for the two stations.
#[test]
fn sends_up_to_the_limit() {
    let program = program();
    for (links, limit) in [
        ("link 0 1\n", 16),
        ("link 1 0\n", 16),
        ("link 0 1 8\n", 8),
        ("link 0 1 8\nlink 1 0\n", 16),
        ("link 0 1\nlink 1 0 8\n", 8),
        ("link 0 1 \nlink 0 1 3\n", 3),
        ("link 0 1 3\nlink 0 1 \n", 3),
    ] {
        for (i, j) in [(0, 1), (1, 0)] {
            let input = format!("net 2 64\n{links}") + &format!("send {i} {j} 9\n").repeat(20);
            let printed = compare(&program, input.as_bytes());
            let printed = String::from_utf8(printed).expect("a text");
            let entries = printed.lines().filter(|line| line.contains("entry"));
            assert_eq!(entries.count(), limit, "{input}");
        }
    }
}

/// A message that is sent on along a path of stations, in any order of them:
/// each receipt is news of one station more. What the first sent straight to the
/// last, which takes it behind all that, is no news.
#[test]
fn news_along_a_path() {
    let program = program();
    cases("news_along_a_path", 40, |rng| {
        let n = rng.range(3, 8) as usize;
        let mut path: Vec<usize> = (0..n).collect();
        rng.shuffle(&mut path);
        let (first, last) = (path[0], path[n - 1]);
        let mut input = format!("net {n} 20\nlink {first} {last} 2\n");
        for pair in path.windows(2) {
            input += &format!("link {} {} 2\n", pair[0], pair[1]);
        }
        input += &format!("send {first} {last} 1\n");
        for pair in path.windows(2) {
            let (from, to) = (pair[0], pair[1]);
            input += &format!("send {from} {to} 2\nrecv {to} {from}\n");
        }
        input += &format!("recv {last} {first}\n");
        let printed = compare(&program, input.as_bytes());
        let printed = String::from_utf8(printed).expect("a text");
        // A number, "entry", phase, station and n counts stand before it.
        let news = |line: &str| line.split(' ').nth(4 + n).map(str::to_owned);
        let printed: Vec<Option<String>> = printed.lines().map(news).collect();
        let mut right = vec![None];
        for news in 1..n {
            right.extend([None, Some(news.to_string())]);
        }
        right.push(Some("0".into()));
        assert_eq!(printed, right, "{input}");
    });
}

#[test]
fn odd_inputs() {
    let program = program();
    for input in [
        "",
        "\n",
        "\n\n",
        "net 1 5",
        "net 1 5\n",
        "net 9 5",
        "start 0",
        "\0",
    ] {
        compare(&program, input.as_bytes());
    }
    let long_line = "enter 0 ".to_owned() + &"1".repeat(200_000);
    compare(
        &program,
        format!("net 1 5\n{long_line}\nstart 0\n").as_bytes(),
    );
}

#[test]
fn examples() {
    let program = program();
    let mut count = 0;
    for entry in fs::read_dir(root().join("examples")).expect("the folder") {
        let path = entry.expect("a file").path();
        if path.extension() != Some("in".as_ref()) {
            continue;
        }
        count += 1;
        let input = fs::read(&path).expect("the input");
        let expected = fs::read(path.with_extension("out")).expect("the output");
        assert_eq!(compare(&program, &input), expected, "{}", path.display());
    }
    assert!(count >= 40, "{count} examples");
}
