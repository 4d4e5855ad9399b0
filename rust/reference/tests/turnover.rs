//! The program: 'turnover' of document 01.

use std::collections::BTreeSet;

use reference::at_bounds::{check_refusals, full_links};
use reference::generate::{self, ScriptLine};
use reference::header::Header;
use reference::network::{State, Step};
use reference::random::Rng;
use reference::turnover::{answer_line, lines, parse, turnover, Line, DEFAULT_LIMIT};

/// The output as text, with the input given as lines.
fn run(lines: &[&str]) -> String {
    let mut input = lines.join("\n");
    input.push('\n');
    let with_feed = turnover(input.as_bytes());
    input.pop();
    if !input.is_empty() && !input.ends_with('\n') {
        // The last line feed may be missing.
        assert_eq!(turnover(input.as_bytes()), with_feed);
    }
    String::from_utf8(with_feed).unwrap()
}

const LISTING: [&str; 15] = [
    "net 2 7",
    "allow 0 3",
    "allow 1 3",
    "link 0 1 2",
    "enter 0 501",
    "send 0 1 502",
    "start 1",
    "recv 1 0",
    "recv 0 1",
    "recv 1 0",
    "recv 1 0",
    "send 1 0 503",
    "recv 0 1",
    "recv 0 1",
    "recv 0 1",
];

#[test]
fn worked_listing() {
    let want = "\
1 entry 0 0 1 0
2 entry 0 0 2 0
3 mode 0 1 mute
4 entry 0 1 2 1 1
5 mode 1 0 stand-by
6 mode 1 1 stand-by
7 mode 1 1 normal
8 entry 1 1 0 1
9 mode 1 0 normal
10 entry 1 0 1 1 1
11 no 7
";
    assert_eq!(run(&LISTING), want);
}

#[test]
fn others() {
    let mut lines = LISTING;
    lines[0] = "net 2 6";
    assert_eq!(run(&lines), "no 3\n");
    let mut lines = LISTING[..4].to_vec();
    lines.extend([
        "send 0 1 1",
        "send 0 1 2",
        "send 0 1 3",
        "start 0",
        "send 0 1 4",
        "start 0",
    ]);
    assert_eq!(
        run(&lines),
        "1 entry 0 0 1 0\n2 entry 0 0 2 0\n3 no 6\n4 mode 0 0 mute\n5 no 5\n6 no 5\n"
    );
}

#[test]
fn setup_at_first_step_or_end() {
    assert_eq!(run(&["net 1 1"]), "");
    assert_eq!(run(&["net 2 1"]), "no 3\n");
    assert_eq!(run(&["net 2 1", "bogus"]), "bad\nno 3\n");
    assert_eq!(run(&["net 2 1", "start 0", "bogus", "start 0"]), "no 3\n");
    assert_eq!(run(&["net 1 5", "start 0"]), "1 mode 1 0 normal\n");
    // A refused step sets up as well.
    assert_eq!(
        run(&["net 1 5", "start 1", "allow 0 1", "enter 0 1"]),
        "1 no 4\nbad\n2 no 6\n"
    );
    // A bad line sets nothing up.
    assert_eq!(
        run(&["net 1 5", "start 8", "allow 0 1", "enter 0 1"]),
        "bad\n1 entry 0 0 1\n"
    );
    // Without a net not at all.
    assert_eq!(turnover(b""), b"");
    assert_eq!(turnover(b"\n"), b"bad\n");
    assert_eq!(turnover(b"\n\n"), b"bad\nbad\n");
    assert_eq!(
        run(&["start 0", "link 0 1", "allow 0 1", "recv 0 1"]),
        "bad\nbad\nbad\nbad\n"
    );
    assert_eq!(
        run(&["start 0", "net 1 5", "start 0"]),
        "bad\n1 mode 1 0 normal\n"
    );
    // The last line feed may be missing; bytes after it are a line.
    assert_eq!(turnover(b"net 1 5\nstart 0"), b"1 mode 1 0 normal\n");
    assert_eq!(
        turnover(b"net 1 5\nstart 0\n "),
        b"1 mode 1 0 normal\nbad\n"
    );
    assert_eq!(
        turnover(b"net 1 5\nstart 0\n\n"),
        b"1 mode 1 0 normal\nbad\n"
    );
    assert_eq!(turnover(b"net 2 5"), b"no 3\n");
}

#[test]
fn ranges_of_setup() {
    for net in [
        "net 9 5",
        "net 0 5",
        "net 1 0",
        "net 255 5",
        "net 0 0",
        "net 9 65535",
    ] {
        assert_eq!(run(&[net]), "no 1\n", "{net}");
        assert_eq!(run(&[net, "start 0"]), "no 1\n", "{net}");
    }
    for net in [
        "net 256 5",
        "net 1 65536",
        "net 1 100000000000000000000",
        "net 1 -1",
    ] {
        assert_eq!(run(&[net]), "bad\n", "{net}");
    }
    assert_eq!(run(&["net 2 65535", "link 0 1 33"]), "no 1\n");
    assert_eq!(run(&["net 2 65535", "link 0 1 255"]), "no 1\n");
    assert_eq!(run(&["net 2 65535", "link 0 1 256"]), "bad\nno 3\n");
    assert_eq!(run(&["net 1 5", "allow 0 65536"]), "bad\n");
    assert_eq!(run(&["net 1 5", "allow 0 65535"]), "no 3\n");
    assert_eq!(
        run(&["net 1 65535", "allow 0 65535", "enter 0 4294967295"]),
        "1 entry 0 0 1\n"
    );
    assert_eq!(
        run(&["net 1 65535", "allow 0 65535", "enter 0 4294967296"]),
        "bad\n"
    );
    // 1 before 3.
    assert_eq!(run(&["net 2 1", "link 0 1 33"]), "no 1\n");
    assert_eq!(run(&["net 0 5", "allow 7 5"]), "no 1\n");
}

#[test]
fn replaced_and_removed() {
    // The later line wins, whichever way it is written; 0 takes a link away.
    assert_eq!(run(&["net 2 4", "link 0 1 33", "link 1 0 2"]), "");
    assert_eq!(run(&["net 2 4", "link 0 1 2", "link 1 0"]), "no 3\n");
    assert_eq!(
        run(&["net 2 32", "link 0 1 2", "link 1 0", "send 0 1 5"]),
        "1 entry 0 0 1 0\n"
    );
    assert_eq!(run(&["net 2 31", "link 0 1 2", "link 1 0"]), "no 3\n");
    assert_eq!(run(&["net 1 9", "link 0 1 2", "link 1 0 0"]), "");
    assert_eq!(run(&["net 1 9", "link 0 1 2"]), "no 3\n");
    assert_eq!(run(&["net 2 9", "link 0 1 2", "link 0 1 0"]), "no 3\n");
    assert_eq!(run(&["net 1 9", "allow 0 10", "allow 0 9"]), "");
    assert_eq!(run(&["net 1 9", "allow 0 9", "allow 0 10"]), "no 3\n");
    // The diagonal, and stations n to 7.
    assert_eq!(run(&["net 1 9", "link 0 0 1"]), "no 3\n");
    assert_eq!(run(&["net 1 9", "link 0 0 0"]), "");
    assert_eq!(
        run(&["net 1 9", "link 7 7 0", "link 6 7 0", "allow 7 0"]),
        ""
    );
    assert_eq!(run(&["net 1 9", "allow 7 1"]), "no 3\n");
    assert_eq!(run(&["net 1 9", "allow 8 0", "link 0 8 0"]), "bad\nbad\n");
    // A second net is bad and changes nothing.
    assert_eq!(
        run(&["net 1 9", "net 2 1", "start 0"]),
        "bad\n1 mode 1 0 normal\n"
    );
    assert_eq!(
        run(&["net 1 09", "net 1 9", "start 0"]),
        "bad\n1 mode 1 0 normal\n"
    );
}

/// A link line without a limit means 16, and one that writes a limit means
/// that: the ceiling tells them apart.
#[test]
fn default_limit() {
    assert_eq!(run(&["net 2 32", "link 0 1"]), "");
    assert_eq!(run(&["net 2 31", "link 0 1"]), "no 3\n");
    assert_eq!(run(&["net 2 16", "link 0 1 8"]), "");
    assert_eq!(run(&["net 2 15", "link 0 1 8"]), "no 3\n");
    assert_eq!(run(&["net 2 16", "link 0 1"]), "no 3\n");
    assert_eq!(run(&["net 2 32", "link 0 1 17"]), "no 3\n");
    // Allowances count too, and a station in the middle has two links.
    assert_eq!(run(&["net 2 35", "allow 1 3", "link 1 0"]), "");
    assert_eq!(run(&["net 2 34", "allow 1 3", "link 1 0"]), "no 3\n");
    assert_eq!(run(&["net 3 64", "link 0 1", "link 2 1"]), "");
    assert_eq!(run(&["net 3 63", "link 0 1", "link 2 1"]), "no 3\n");
    assert_eq!(run(&["net 3 48", "link 0 1", "link 2 1 8"]), "");
    assert_eq!(run(&["net 3 47", "link 0 1", "link 2 1 8"]), "no 3\n");
    // The later line counts, with a limit or without.
    assert_eq!(run(&["net 2 16", "link 0 1", "link 1 0 8"]), "");
    assert_eq!(run(&["net 2 16", "link 0 1 8", "link 1 0"]), "no 3\n");
    // Sixteen sends in a phase, either way.
    for (i, j) in [(0, 1), (1, 0)] {
        let send = format!("send {i} {j} 5");
        let mut lines = vec!["net 2 32", "link 0 1"];
        lines.resize(lines.len() + 17, &send);
        let printed = run(&lines);
        let last: Vec<&str> = printed.lines().skip(15).collect();
        let entry = if i == 0 {
            "16 entry 0 0 16 0"
        } else {
            "16 entry 0 1 0 16"
        };
        assert_eq!(last, [entry, "17 no 6"]);
    }
}

#[test]
fn wrong_side_of_setup() {
    let want = "1 mode 1 0 normal\nbad\nbad\nbad\n2 no 6\n";
    assert_eq!(
        run(&[
            "net 1 9",
            "start 0",
            "net 1 9",
            "allow 0 1",
            "link 0 0 0",
            "enter 0 1"
        ]),
        want
    );
}

#[test]
fn bad_lines() {
    let lines: &[&[u8]] = &[
        b"",
        b" ",
        b"  ",
        b"start",
        b"start ",
        b" start 0",
        b"start  0",
        b"start 0 ",
        b"start\t0",
        b"start 0\r",
        b"start 0\0",
        b"\0start 0",
        b"start 00",
        b"start 01",
        b"start +0",
        b"start -0",
        b"start 0 0",
        b"start 8",
        b"start 10",
        b"start 18446744073709551616",
        b"start 340282366920938463463374607431768211456",
        b"start 4294967296",
        b"start 256",
        b"start x",
        b"start 0x0",
        b"start 0.",
        b"start \xff",
        b"start\xa00",
        b"Start 0",
        b"START 0",
        b"star 0",
        b"starts 0",
        b"start0",
        b"enter",
        b"enter 0",
        b"enter 0 ",
        b"enter 0  1",
        b"enter 0 1 2",
        b"enter 0 01",
        b"enter 0 4294967296",
        b"enter 0 18446744073709551617",
        b"enter 8 1",
        b"enter 0 -1",
        b"enter 1",
        b"send 0 1",
        b"send 0 1 2 3",
        b"send 0 8 1",
        b"send 8 0 1",
        b"send 0 1 4294967296",
        b"recv 0",
        b"recv 0 1 2",
        b"recv 0 8",
        b"recv 8 0",
        b"recv",
        b"send",
        b"net",
        b"net 1",
        b"net 1 2 3",
        b"net 01 2",
        b"net 1 02",
        b"net 256 2",
        b"allow",
        b"allow 0",
        b"allow 8 1",
        b"allow 0 65536",
        b"allow 0 1 2",
        b"allow 0 00",
        b"link",
        b"link 0",
        b"link 0 1 2 3",
        b"link 0 8",
        b"link 8 0",
        b"link 0 1 256",
        b"link 0 1 ",
        b"link 0 1 02",
        b"rest",
        b"0",
        b"\xef\xbb\xbfstart 0",
        b"#",
        b"enter 0 1;",
    ];
    for line in lines {
        assert_eq!(parse(line), None, "{:?}", String::from_utf8_lossy(line));
        // Before net, before setup, and after it.
        let input = [
            b"",
            *line,
            b"net 1 5",
            *line,
            b"allow 0 5",
            *line,
            b"enter 0 1",
            *line,
        ]
        .join(&b'\n');
        let mut want = b"bad\nbad\nbad\nbad\n1 entry 0 0 1\n".to_vec();
        // Nothing after the last line feed is no line.
        if !line.is_empty() {
            want.extend(b"bad\n");
        }
        assert_eq!(
            turnover(&input),
            want,
            "{:?}",
            String::from_utf8_lossy(line)
        );
    }
}

/// The counts of the network are printed, not eight, and behind those of a
/// receipt its news.
#[test]
fn printed_counts() {
    assert_eq!(
        run(&[
            "net 3 64",
            "allow 2 1",
            "link 0 1",
            "link 1 2",
            "enter 2 7",
            "start 1"
        ]),
        "1 entry 0 2 0 0 1\n2 mode 0 1 mute\n"
    );
    let links: Vec<String> = (1..8).map(|i| format!("link 0 {i} 1")).collect();
    let mut lines = vec!["net 8 65535", "allow 7 65"];
    lines.extend(links.iter().map(String::as_str));
    lines.extend(["enter 7 0", "send 7 0 0", "recv 0 7"]);
    assert_eq!(
        run(&lines),
        "1 entry 0 7 0 0 0 0 0 0 0 1\n2 entry 0 7 0 0 0 0 0 0 0 2\n3 entry 0 0 1 0 0 0 0 0 0 2 1\n"
    );
}

/// A receipt's line ends in its news, also where that is 0; no other line has
/// such a field.
#[test]
fn printed_news() {
    let printed = run(&[
        "net 3 10",
        "allow 0 2",
        "link 0 1 2",
        "link 0 2 2",
        "link 1 2 2",
        "send 1 0 1",
        "send 1 2 2",
        "recv 2 1",
        "send 2 0 3",
        "recv 0 2",
        "recv 0 1",
        "enter 0 4",
        "recv 0 1",
        "start 1",
        "recv 0 1",
    ]);
    let want = "\
1 entry 0 1 0 1 0
2 entry 0 1 0 2 0
3 entry 0 2 0 2 1 1
4 entry 0 2 0 2 2
5 entry 0 0 1 2 2 2
6 entry 0 0 2 2 2 0
7 entry 0 0 3 2 2
8 no 7
9 mode 0 1 mute
10 mode 0 0 mute
";
    assert_eq!(printed, want);
}

/// What a script comes to, from its lines as values: no text is read here.
fn expected(lines: &[ScriptLine]) -> Vec<u8> {
    let mut header: Option<Header> = None;
    let mut state: Option<State> = None;
    let mut output = String::new();
    let mut steps = 0;
    for line in lines {
        let good = match (line, &mut header) {
            (ScriptLine::Net(n, t), None) => {
                header = Some(Header::new(*n, *t));
                true
            }
            (ScriptLine::Allow(i, a), Some(header)) if state.is_none() => {
                header.allowances[*i] = *a;
                true
            }
            (ScriptLine::Link(i, j, limit), Some(header)) if state.is_none() => {
                let limit = limit.unwrap_or(DEFAULT_LIMIT);
                header.limits[*i][*j] = limit;
                header.limits[*j][*i] = limit;
                true
            }
            (ScriptLine::Step(step), Some(header)) => {
                if state.is_none() {
                    match State::initial(header) {
                        Ok(first) => state = Some(first),
                        Err(refusal) => {
                            output.push_str(&format!("no {refusal}\n"));
                            return output.into();
                        }
                    }
                }
                let state = state.as_mut().unwrap();
                steps += 1;
                let outcome = state.step(*step);
                output.push_str(&answer_line(steps, *step, &outcome, header.n()));
                output.push('\n');
                true
            }
            _ => false,
        };
        if !good {
            output.push_str("bad\n");
        }
    }
    if let (Some(header), None) = (header, state) {
        if let Err(refusal) = State::initial(&header) {
            output.push_str(&format!("no {refusal}\n"));
        }
    }
    output.into()
}

/// The header and the steps of a script of well-made lines.
fn told(input: &[u8]) -> (Header, Vec<Step>) {
    let (mut header, mut steps) = (Header::new(0, 0), Vec::new());
    for line in lines(input) {
        match parse(line).expect("a well-made line") {
            Line::Net { stations, ceiling } => header = Header::new(stations, ceiling),
            Line::Allow { station, allowance } => header.allowances[station] = allowance,
            Line::Link {
                station,
                peer,
                limit,
            } => {
                header.limits[station][peer] = limit;
                header.limits[peer][station] = limit;
            }
            Line::Step(step) => steps.push(step),
        }
    }
    (header, steps)
}

/// Whether every station has used up its allowance and its limits in a phase.
fn all_used_up(state: &State, phase: u32) -> bool {
    let header = &state.header;
    let mut stations = state.stations.iter().enumerate();
    stations.all(|(i, station)| {
        let used = station.own_entries == header.allowances[i] && station.sent == header.limits[i];
        used && station.phase == phase
    })
}

/// In the example with the least ceiling a phase uses up everything, each own
/// count reaches the ceiling, each link holds L + 2 items, and resets go
/// through; refused steps have 4 to 8.
#[test]
fn tight_example() {
    let input = include_bytes!("../../../examples/tight.in");
    let (header, steps) = told(input);
    let mut lower = header;
    lower.ceiling -= 1;
    assert_eq!(State::initial(&lower).unwrap_err().number(), 3);
    let mut state = State::initial(&header).unwrap();
    let (mut filled, mut at_ceiling, mut used_up) = (BTreeSet::new(), BTreeSet::new(), false);
    for step in steps {
        let outcome = state.step(step);
        assert!(outcome.map_or_else(|refusal| (4..=8).contains(&refusal.number()), |_| true));
        filled.extend(full_links(&state));
        at_ceiling.extend((0..3).filter(|&i| state.station(i).counts[i] == header.ceiling));
        used_up |= all_used_up(&state, 0);
    }
    assert!(filled.into_iter().eq([(0, 1), (1, 0), (1, 2), (2, 1)]));
    assert!(at_ceiling.into_iter().eq(0..3) && used_up);
    assert!(state.rest() == Ok(true) && state.station(0).phase == 2);
    check_refusals(&turnover(input));
}

#[test]
fn random_ill_lines() {
    let seed = 40;
    println!("seed {seed}");
    let mut rng = Rng::new(seed);
    for _ in 0..100_000 {
        let line = generate::ill_line(&mut rng);
        assert_eq!(parse(&line), None, "{:?}", String::from_utf8_lossy(&line));
    }
}

#[test]
fn random_scripts() {
    let seed = 41;
    println!("seed {seed}");
    let mut rng = Rng::new(seed);
    let (mut bad, mut refused, mut steps, mut unsaid) = (0, [0; 2], 0, 0);
    for _ in 0..4000 {
        let lines = generate::script(&mut rng, 80);
        unsaid += lines
            .iter()
            .filter(|line| matches!(line, ScriptLine::Link(_, _, None)))
            .count();
        let empty_last = lines.last().is_some_and(|last| last.text().is_empty());
        let last_feed = empty_last || rng.chance(1, 2);
        let text = generate::script_text(&lines, last_feed);
        let output = turnover(&text);
        assert_eq!(
            String::from_utf8_lossy(&output),
            String::from_utf8_lossy(&expected(&lines)),
            "{}",
            String::from_utf8_lossy(&text)
        );
        check_refusals(&output);
        for line in output.split(|&b| b == b'\n') {
            bad += usize::from(line == b"bad");
            refused[0] += usize::from(line == b"no 1");
            refused[1] += usize::from(line == b"no 3");
            steps += usize::from(line.first().is_some_and(u8::is_ascii_digit));
        }
    }
    println!("bad {bad}, setups refused {refused:?}, steps {steps}, limits unsaid {unsaid}");
    assert!(bad > 5000 && refused[0] > 200 && refused[1] > 500 && steps > 50_000);
    assert!(unsaid > 500);
}

/// The shape of the output of any input: numbered lines count on from 1, and a
/// refused setup is the last line.
#[test]
fn mutated_scripts() {
    let seed = 42;
    println!("seed {seed}");
    let mut rng = Rng::new(seed);
    for _ in 0..4000 {
        let text = generate::mutated_script(&mut rng, 40);
        let output = String::from_utf8(turnover(&text)).unwrap();
        check_refusals(output.as_bytes());
        let lines: Vec<&str> = output.lines().collect();
        let mut number = 0;
        for (k, line) in lines.iter().enumerate() {
            match line.split(' ').next().unwrap() {
                "bad" => {}
                "no" => assert_eq!(k + 1, lines.len()),
                first => {
                    number += 1;
                    assert_eq!(first, number.to_string());
                }
            }
        }
        assert!(output.is_empty() || output.ends_with('\n'));
    }
}

/// The binary gives what the function gives, with exit status 0 and nothing on
/// standard error.
#[test]
fn binary() {
    use std::io::Write;
    use std::process::{Command, Stdio};
    let mut rng = Rng::new(43);
    let mut inputs = vec![
        LISTING.join("\n").into_bytes(),
        Vec::new(),
        b"net 2 1".to_vec(),
    ];
    for _ in 0..20 {
        inputs.push(generate::mutated_script(&mut rng, 100));
    }
    for input in inputs {
        let mut child = Command::new(env!("CARGO_BIN_EXE_turnover_reference"))
            .stdin(Stdio::piped())
            .stdout(Stdio::piped())
            .stderr(Stdio::piped())
            .spawn()
            .unwrap();
        child.stdin.take().unwrap().write_all(&input).unwrap();
        let output = child.wait_with_output().unwrap();
        assert!(output.status.success());
        assert_eq!(output.stdout, turnover(&input));
        assert!(output.stderr.is_empty());
    }
}
