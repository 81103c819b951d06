//! Each command on its happy path and on each of its errors. What is expected is from the pages of docs/, or worked out
//! by hand from them; the runs are those that docs/RULES.md and docs/SECOND-SUPPLIER.md work out.

use forgelilac::{layout, Certificate, Engine, Member, Proposal, Rights, Round, Sheet, Transaction};
use std::fs;
use std::path::{Path, PathBuf};
use std::process::{Command, Output, Stdio};

/// A folder of one test.
struct Folder(PathBuf);

impl Folder {
    fn of(name: &str) -> Folder {
        let path = std::env::temp_dir().join(format!("forgelilac-tool-{}-{name}", std::process::id()));
        fs::create_dir_all(&path).unwrap();
        Folder(path)
    }

    fn file(&self, name: &str, bytes: impl AsRef<[u8]>) -> String {
        let path = self.0.join(name);
        fs::write(&path, bytes).unwrap();
        path.to_str().unwrap().to_owned()
    }

    fn path(&self, name: &str) -> String {
        self.0.join(name).to_str().unwrap().to_owned()
    }
}

impl Drop for Folder {
    fn drop(&mut self) {
        let _ = fs::remove_dir_all(&self.0);
    }
}

fn top() -> PathBuf {
    Path::new(env!("CARGO_MANIFEST_DIR")).ancestors().nth(2).unwrap().to_owned()
}

fn ran(words: &[&str]) -> Output {
    Command::new(env!("CARGO_BIN_EXE_forgelilac")).args(words).current_dir(top()).stdin(Stdio::null()).output().unwrap()
}

/// What it says, with status 0 and nothing on standard error.
fn said(words: &[&str]) -> String {
    let output = ran(words);
    assert_eq!(String::from_utf8_lossy(&output.stderr), "", "{words:?}");
    assert_eq!(output.status.code(), Some(0), "{words:?}");
    String::from_utf8(output.stdout).unwrap()
}

/// What it says with status 1: something is not as it should be.
fn found(words: &[&str]) -> String {
    let output = ran(words);
    assert_eq!(String::from_utf8_lossy(&output.stderr), "", "{words:?}");
    assert_eq!(output.status.code(), Some(1), "{words:?}");
    String::from_utf8(output.stdout).unwrap()
}

/// The one line that it refuses with, and the status.
fn refused(words: &[&str]) -> (Option<i32>, String) {
    let output = ran(words);
    assert_eq!(String::from_utf8_lossy(&output.stdout), "", "{words:?}");
    let line = String::from_utf8(output.stderr).unwrap();
    assert_eq!(line.lines().count(), 1, "{words:?}: {line}");
    let line = line.strip_prefix("forgelilac: ").unwrap().trim_end().to_owned();
    (output.status.code(), line)
}

#[track_caller]
fn has(text: &str, lines: &[&str]) {
    for line in lines {
        assert!(text.lines().any(|one| one.trim_start() == *line), "no line {line:?} in\n{text}");
    }
}

fn crlf(text: &str) -> String {
    text.replace('\n', "\r\n")
}

/// The block behind a line of a page that begins with this, up to the closing fence.
fn of_page(page: &str, first: &str) -> String {
    let text = fs::read_to_string(top().join("docs").join(page)).unwrap();
    let at = text.lines().position(|line| line == first).unwrap_or_else(|| panic!("no line {first:?} in {page}"));
    text.lines().skip(at).take_while(|line| !line.starts_with("```")).map(|line| format!("{line}\n")).collect()
}

/// docs/RULES.md, "A run, worked out": author and previous set of each certificate, round by round.
const RUN: [&[(u32, u16)]; 11] = [
    &[(0, 0), (1, 0), (2, 0), (3, 0)],
    &[(0, 7), (1, 15), (2, 15), (3, 14)],
    &[(0, 13), (1, 7), (2, 13), (3, 13)],
    &[(0, 13), (1, 15), (2, 7), (3, 13)],
    &[(0, 7), (1, 7), (2, 7)],
    &[(0, 7), (1, 7), (2, 7), (3, 7), (4, 7)],
    &[(0, 23), (1, 23), (2, 23), (3, 27), (4, 23)],
    &[(1, 23), (2, 30), (3, 27), (4, 23)],
    &[(2, 22), (3, 26), (4, 22)],
    &[(1, 28), (2, 28), (4, 28)],
    &[(1, 22), (4, 22)],
];

fn transactions(author: u32, round: u32) -> Vec<Transaction> {
    match (author, round) {
        (0, 1) => vec![Transaction::Bond { member: Member::new(4), amount: 2 }],
        (3, 1) => vec![Transaction::Unbond { member: Member::new(4) }],
        (2, 3) => vec![Transaction::Unbond { member: Member::new(0) }],
        _ => vec![],
    }
}

/// That run up to before the commit of round 11, with some of what guests have.
fn worked_out(ceiling: u32) -> Engine {
    let sheet = Sheet { lookback: Some(3), ceiling: Some(ceiling), ..Sheet::default() };
    let rights = Rights { read: 1 << 5, propose: 1 << 5 | 1, ..Rights::NONE };
    let mut engine = Engine::open_with_rights(Member::new(1), &sheet, rights).unwrap();
    for (round, certificates) in (1..).zip(RUN) {
        let weights = engine.committee(Round::new(round)).unwrap();
        for &(author, previous) in certificates {
            let others = (0..16).filter(|&member| member != author && weights[member as usize] > 0);
            let proposal = Proposal {
                author: Member::new(author),
                round: Round::new(round),
                previous,
                transactions: transactions(author, round),
            };
            engine.accept(&Certificate { proposal, endorsers: others.map(|member| 1 << member).sum() }).unwrap();
        }
        if round < 11 {
            let _ = engine.commit();
            engine.advance().unwrap();
        }
    }
    engine.enqueue(3, Transaction::Entry { number: 7 }).unwrap();
    engine.guest(5).port_read(0).unwrap();
    engine.guest(5).port_write(3, 3).unwrap();
    engine
}

fn bytes_of(words: &[u32]) -> Vec<u8> {
    words.iter().flat_map(|word| word.to_le_bytes()).collect()
}

// ---- all commands

#[test]
fn each_command_has_a_page_of_its_own() {
    let all = said(&["--help"]);
    for name in ["sheet", "state", "run", "register", "listing", "effect", "check", "diff"] {
        assert!(all.contains(&format!("\n  {name} ")), "{all}");
        for word in ["--help", "-h"] {
            let page = said(&[name, word]);
            assert!(page.starts_with(&format!("usage: forgelilac {name} ")), "{page}");
            assert!(page.contains("--help"), "{page}");
        }
    }
    assert!(said(&["--version"]).contains(forgelilac::ENGINE_VERSION));
}

#[test]
fn arguments_that_are_none_are_told_in_a_line() {
    let told = |words: &[&str]| {
        let (status, line) = refused(words);
        assert_eq!(status, Some(2), "{words:?}: {line}");
        line
    };
    assert!(told(&[]).contains("wanted is a command"));
    assert!(told(&["draw"]).contains("no command draw"));
    assert!(told(&["sheet", "--lookback"]).contains("no option --lookback"));
    assert!(told(&["sheet", "-x"]).contains("two dashes"));
    assert!(told(&["sheet", "--own"]).contains("lacks its value"));
    assert!(told(&["sheet", "--own", "16"]).contains("not a number from 0 to 15"));
    assert!(told(&["check", "--all=yes", "x"]).contains("takes no value"));
    for command in ["state", "run", "register", "listing", "check", "diff"] {
        assert!(told(&[command]).contains("wanted is"), "{command}");
        assert!(told(&[command, "a", "b", "c", "d"]).contains("wanted is"), "{command}");
    }
    assert!(told(&["effect", "x"]).contains("--member and --amount"));
}

#[test]
fn files_that_are_none_are_told_in_a_line() {
    for words in [
        &["check", "nothing.there"][..],
        &["state", "nothing.there"],
        &["state", "nothing.there", "nothing.there"],
        &["run", "nothing.there"],
        &["run", "--answers", "nothing.there", "docs/run.stream"],
        &["register", "nothing.there"],
        &["listing", "nothing.there"],
        &["sheet", "--file", "nothing.there"],
        &["diff", "nothing.there", "nothing.there", "docs/run.stream"],
    ] {
        let (status, line) = refused(words);
        assert_eq!(status, Some(1), "{words:?}");
        assert!(line.contains("cannot read nothing.there: "), "{line}");
    }
    assert!(refused(&["check", "docs"]).1.contains("cannot read docs: "));
    let folder = Folder::of("unwritten");
    let to = folder.path("no/such/folder.svg");
    assert!(refused(&["run", "--svg", &to, "docs/run.stream"]).1.contains("cannot write"));
}

// ---- sheet

/// docs/INTEGRATORS.md, "How many may be away" and "Choosing the lookback"; docs/HOSTS.md, "Memory".
#[test]
fn a_sheet_is_filled_and_weighed() {
    let text = said(&["sheet", "ceiling=64", "weights=10,10,0,0,5", "--own=2"]);
    has(
        &text,
        &[
            "lookback                      blank      20",
            "ceiling                          64      64",
            "weight of member 4                5       5",
            "weights of members 5 to 15    blank       0",
            "margin                        blank       3",
            "open,2,,64,,10,10,0,0,5,,,,,,,,,,,",
            "total 25, fault bound 8, a quorum weighs 17, votes that commit weigh 9 or more",
            "needed in every quorum: members 0 1",
            "table                                                   70,720",
            "one engine with one such list                          132,316",
            "signatures of 64 bytes that the host keeps, at most  1,048,576",
        ],
    );
    let text = said(&["sheet", "weights=1,1,1,1,1,1,1,1,1,1,1,1,1,1,1,1"]);
    has(
        &text,
        &[
            "total 16, fault bound 5, a quorum weighs 11, votes that commit weigh 6 or more",
            "5 members may be away, whoever; with one more every line stops",
            "that is enough for those that may be away: they ask for a lookback of 11 or more",
            "the last block: of round 1,022, by the commit in round 1,023",
            "one engine with one such list                         1,361,116",
        ],
    );
    let text = said(&["sheet", "weights=20,1,1,1,1,1,1,1,1,1,1,1,1,1,1,1"]);
    has(
        &text,
        &[
            "total 35, fault bound 11, a quorum weighs 24, votes that commit weigh 12 or more",
            "11 members may be away, if they are the lightest; a heavy one alone stops every line",
            "that is too short for those that may be away: they ask for a lookback of 23 or more",
        ],
    );
    let text = said(&["sheet", "margin=5"]);
    has(&text, &["nobody may be away: every line stops with one away", "open,0,,,,,,,,,,,,,,,,,,,,5"]);
}

#[test]
fn a_sheet_from_a_file_and_wrong_ones() {
    let folder = Folder::of("sheet");
    let file = folder.file("plant", "# the plant\nceiling = 64\n\nweight.4=5\n");
    has(&said(&["sheet", "--file", &file, "weight.4=6"]), &["open,0,,64,,,,,,6,,,,,,,,,,,"]);
    let wrong = folder.file("wrong", "ceiling=64\nspeed=3\n");
    let (status, line) = refused(&["sheet", "--file", &wrong]);
    assert_eq!(status, Some(1));
    assert!(line.contains("line 2: no setting has the name 'speed'"), "{line}");
    for (words, why) in [
        ("lookback", "no NAME=NUMBER"),
        ("lookback=x", "no number"),
        ("lookback=01", "no number"),
        ("weight.16=1", "a member is 0 to 15"),
        ("weights=1,1,1,1,1,1,1,1,1,1,1,1,1,1,1,1,1", "sixteen weights at most"),
    ] {
        let (status, line) = refused(&["sheet", words]);
        assert_eq!(status, Some(2));
        assert!(line.contains(why), "{line}");
    }
    for (words, why) in [
        ("lookback=0", "the lookback is 0, and its range is 1 to 1,000 (refused with 2)"),
        ("ceiling=1025", "the ceiling is 1,025, and its range is 3 to 1,024 (refused with 2)"),
        ("allowance=5", "the allowance is 5, and its range is 0 to 4 (refused with 2)"),
        ("weight.7=1000001", "the weight of member 7 is 1,000,001, and its range is 0 to 1,000,000 (refused with 2)"),
        ("margin=6", "the margin is 6, and its range is 3 to 5 (refused with 2)"),
        ("weights=0,0,0,0", "no starting weight is positive (refused with 3)"),
    ] {
        let (status, line) = refused(&["sheet", words]);
        assert_eq!(status, Some(1));
        assert_eq!(line, format!("no member opens by this sheet: {why}"));
    }
}

// ---- state

/// docs/RULES.md, "A run, worked out": rounds are known to 13 in round 11, the commit hangs on 10/2 and 11/4, and 11/1
/// and 11/4 weigh 3 of 4.
#[test]
fn stored_words_are_told() {
    let folder = Folder::of("state");
    for ceiling in [64, 1_024] {
        let engine = worked_out(ceiling);
        let store = folder.file("store", engine.to_bytes());
        let (state, table) = engine.words();
        let two = [folder.file("state", bytes_of(state)), folder.file("table", bytes_of(table))];
        let text = said(&["state", &store]);
        assert_eq!(text, said(&["state", &two[0], &two[1]]));
        // A store of a host's own: two words, both, and a sum, as docs/HOSTS.md, "Stored words", has one.
        let own = [bytes_of(&[3, 17]), bytes_of(state), bytes_of(table), bytes_of(&[0xfeed_f00d])].concat();
        assert_eq!(text, said(&["state", "--at", "8", &folder.file("own", own)]));
        let stored = folder.file("stored", engine.store(7).unwrap());
        assert_eq!(text, said(&["state", "--at", "16", &stored]));
        let all = said(&["state", "--all", &store]);
        has(&all, &["round 1: by 0 1 2 3", "round 5: by 0 1 2", "round 9: by 2 3 4"]);
        assert!(!text.contains("round 1: by"));
        has(
            &text,
            &[
                "rounds are known up to 13; the next block must be made by a commit up to round 13",
                "committee of round 11: 1: 1, 2: 1, 3: 1, 4: 2",
                "total 5, fault bound 1, a quorum weighs 4, votes that commit weigh 2 or more",
                "held: 41 certificates of 11 rounds",
                "round 11: by 1 4",
                "of round 11 missing: 2 3",
                "could it leave round 11: no: the authors held weigh 3 of 4 (28)",
                "no own proposal in round 11",
                "chain: 3 blocks",
                "block 1 of round 2: 5 certificates, anchor 2/1; counts from round 6",
                "block 2 of round 4: 7 certificates, anchor 4/2; counts from round 8",
                "block 3 of round 8: 15 certificates, anchor 8/1; counts from round 12",
                "a commit in round 11 would add 1 block with 9 certificates",
                "it hangs on: 10/2 11/4",
                "guest served last: none",
                "guest 0: may propose",
                "guest 3: waiting, the oldest first: E 7",
                "guest 5: may propose, read; port: read up to byte 1 of the line of 1/1, line control 3",
            ],
        );
        assert!(text.starts_with(&format!(
            "member 1 in round 11 of {}, 3 blocks\n",
            if ceiling == 64 { "64" } else { "1,024" }
        )));
    }
}

/// docs/TABLES.md says of each word what is asked of it.
#[test]
fn words_that_are_not_well_formed_are_told_with_their_place() {
    let folder = Folder::of("damaged");
    let engine = worked_out(64);
    let damaged = |at: usize, of_table: bool, value: u32| {
        let (state, table) = engine.words();
        let (mut state, mut table) = (*state, table.to_vec());
        if of_table {
            table[at] = value
        } else {
            state[at] = value
        }
        let paths = [folder.file("state", bytes_of(&state)), folder.file("table", bytes_of(&table))];
        found(&["state", &paths[0], &paths[1]]).lines().next().unwrap().to_owned()
    };
    let record = |author, round| layout::record(Member::new(author), Round::new(round));
    for (at, of_table, value, told) in [
        (0, false, 16, "word 0 of the state, the own number, is 16: it must be 0 to 15".to_owned()),
        (20, false, 65, "word 20 of the state, the present round, is 65: it must be 1 to 64".to_owned()),
        (37, false, 0, "word 37 of the state, the margin, is 0: it must be 3 to 5".to_owned()),
        (0, true, 9, "word 0 of the table, the guest served last and 1, is 9: it must be 0 for none, or the guest and 1, so 1 to 8".to_owned()),
        (4, true, 9, "word 4 of the table, how many of guest 3 wait, is 9: a queue has eight places".to_owned()),
        (122, true, 1, "word 122 of the table, the amount of transaction 0 in the queue of guest 3, is 1: an unbond and an entry have 0".to_owned()),
        (272 + 2, true, 3, "word 274 of the table, the round of block 1, is 3: it must be even".to_owned()),
        (544 + 2, true, 2, "word 546 of the table, the round of block 2, is 2: it must be above 2, that of the block before".to_owned()),
        (record(2, 2), true, 0, format!("word {} of the table, the previous set of 2/2, is 0: it must not be 0 above round 1", record(2, 2))),
        (record(2, 2) + 2, true, 4, format!("word {} of the table, the commit mark of 2/2, is 4: it must be 0, or a block, of which there are 3", record(2, 2) + 2)),
        (record(2, 2) + 3, true, 4, format!("word {} of the table, the endorsers of 2/2, is 4: the author, member 2, must not be among them", record(2, 2) + 3)),
        (176, true, 16 * 11 + 4, "word 176 of the table, the line that was read last of the port of guest 5, is 180: it must be 16 × round + author of a held certificate that is in a block".to_owned()),
        // The line of 1/1 is 1,2,1,1 with CR and LF.
        (177, true, 10, "word 177 of the table, the byte that was read last of the port of guest 5, is 10: the line of 1/1 has the bytes 1 to 9, CR and LF among them".to_owned()),
    ] {
        assert_eq!(damaged(at, of_table, value), format!("not well formed: {told}"));
    }
}

#[test]
fn words_of_other_lengths_and_formats() {
    let folder = Folder::of("formats");
    let engine = worked_out(64);
    let (state, table) = engine.words();
    let whole = folder.file("table", bytes_of(table));
    for words in [37, 38] {
        let older = folder.file("older", bytes_of(&state[..words]));
        let output = ran(&["state", &older, &whole]);
        assert_eq!(output.status.code(), Some(0));
        let note = String::from_utf8(output.stderr).unwrap();
        assert!(note.contains(&format!("a state of format {}, brought along", words - 36)), "{note}");
    }
    let state_file = folder.file("state", bytes_of(state));
    let short = folder.file("short", bytes_of(&table[..17_000]));
    assert!(found(&["state", &state_file, &short])
        .contains("the length of the table is 17000: a ceiling of 64 needs 17680 words"));
    let odd = folder.file("odd", &bytes_of(table)[1..]);
    assert!(refused(&["state", &state_file, &odd]).1.contains("words are four bytes each"));
    assert!(refused(&["state", &whole, &whole]).1.contains("a state has 39 words"));
    let bytes = engine.to_bytes();
    let cut = folder.file("cut", &bytes[..bytes.len() - 4]);
    assert!(refused(&["state", &cut]).1.contains("behind its front"));
    let mut later = bytes.clone();
    later[0] = 4;
    assert!(refused(&["state", &folder.file("later", later)]).1.contains("of format 4"));
    assert!(refused(&["state", &folder.file("none", "hello")]).1.contains("no store as Engine::to_bytes writes it"));
    assert!(refused(&["state", "--at", "99999", &cut]).1.contains("no state at byte 99999"));
    assert!(found(&["state", "--at", "20", &cut]).contains("not well formed"));
    assert_eq!(refused(&["state", "--at", "8", &state_file, &whole]).0, Some(2));
    assert!(refused(&["state", "docs/run.stream"]).1.contains("no store as Engine::to_bytes writes it"));
    let stored = folder.file("stored", engine.store(7).unwrap());
    for command in ["state", "register", "listing", "run"] {
        assert!(refused(&[command, &stored]).1.contains("its words are read with --at 16"), "{command}");
    }
}

// ---- listing, register

/// docs/RULES.md, "A run, worked out" has the listing, after the commit of round 11.
#[test]
fn the_listing_of_records_and_of_words() {
    let folder = Folder::of("listing");
    let records = of_page("RULES.md", "open,1,3,64,,,,,,,,,,,,,,,,,");
    let stream = folder.file("stream", crlf(records.split("END\n").next().unwrap()));
    let page = of_page("RULES.md", "refused,22");
    let listed: String =
        page.lines().filter(|line| line.as_bytes()[0].is_ascii_digit()).map(|line| format!("{line}\n")).collect();
    assert_eq!(said(&["listing", &stream]), format!("{listed}ok\n"));
    let newest: String = listed.lines().filter(|line| line.starts_with("4,")).map(|line| format!("{line}\n")).collect();
    assert_eq!(said(&["listing", "--after", "3", &stream]), format!("{newest}ok\n"));
    let mut engine = worked_out(1_024);
    engine.commit().unwrap();
    assert_eq!(said(&["listing", &folder.file("store", engine.to_bytes())]), format!("{listed}ok\n"));
    assert!(refused(&["listing", "--after", "5", &stream]).1.contains("there are 4 blocks, and not 5"));
    let damaged = {
        let mut bytes = engine.to_bytes();
        bytes[16 + 4 * 37] = 9;
        folder.file("damaged", bytes)
    };
    assert!(refused(&["listing", &damaged]).1.contains("not well formed: word 37 of the state"));
}

#[test]
fn streams_that_open_nobody() {
    let folder = Folder::of("unopened");
    let blank = folder.file("blank", "open,0,,,,,,,,,,,,,,,,,,,\r\n");
    for command in ["listing", "register", "run"] {
        let told = |path: &str| refused(&[command, path]).1;
        assert!(told(&blank).contains("--any-ceiling serves it"));
        assert!(told(&folder.file("lf", "open,0,,64,,,,,,,,,,,,,,,,,\nchain\n")).contains("records end in CRLF"));
        assert!(told(&folder.file("closed", "propose,0\r\n")).contains("no open in it is accepted"));
        assert!(said(&[command, "--any-ceiling", &blank]).contains(if command == "listing" { "ok" } else { "1" }));
    }
}

/// docs/RECIPES.md, "A register of weights": its records, and the table that it works out by hand.
#[test]
fn the_register_of_a_stream_of_answers_and_of_a_listing() {
    let folder = Folder::of("register");
    let records: String = of_page("RECIPES.md", "open,0,1,64,,20,3,0,0,,,,,,,,,,,,");
    let stream = folder.file("stream", crlf(&records));
    let text = fs::read_to_string(top().join("docs/RECIPES.md")).unwrap();
    let at = text.find("open,0,1,64,,20,3,0,0").unwrap();
    let answers = text[at..].split("```answers\n").nth(1).unwrap().split("```").next().unwrap();
    let written = folder.file("answers", crlf(answers));
    let table = of_page("RECIPES.md", "block  round  bonded  released  total  counts from");
    assert_eq!(said(&["register", "--members", &stream]), table);
    assert_eq!(said(&["register", "--members", "--answers", &written, &stream]), table);
    let listing: String =
        answers.lines().filter(|line| line.matches(',').count() > 2).map(|line| format!("{line}\n")).collect();
    let listing = folder.file("listing", format!("{listing}ok\n"));
    assert_eq!(said(&["register", "--members", "--lookback", "1", "--weights", "20,3,0,0", &listing]), table);
    let engine = worked_out(64);
    for (name, bytes) in [("store", engine.to_bytes()), ("stored", engine.store(7).unwrap())] {
        let (status, line) = refused(&["register", "--weights", "1,1,1,1", &folder.file(name, bytes)]);
        assert!(line.contains("has stored words, and with them the starting weights: leave --weights out"), "{line}");
        assert_eq!(status, Some(1));
    }
    let without: Vec<_> = table.split("\n\n").take(2).collect();
    assert_eq!(said(&["register", &stream]), without.join("\n\n") + "\n");
}

#[test]
fn registers_that_are_not_printed() {
    let folder = Folder::of("unprinted");
    let of = |lines: &str| {
        let listing = folder.file("listing", lines);
        refused(&["register", "--weights", "1,1,1,1", &listing]).1
    };
    for (lines, why) in [
        ("1,2,1,1\n1,2,2,1\n", "a listing ends in ok"),
        ("1,2,1\nok\n", "line 1: not a certificate of a listing"),
        ("1,2,1,1\n1,2,1,1\nok\n", "line 2: author 1 has its certificate of round 1 in line 1 already"),
        ("2,2,1,1\nok\n", "line 1: block 2 after block 0"),
        ("1,3,1,1\nok\n", "line 1: block 1 of round 3 after one of round 0: block rounds are even and rise"),
        ("1,2,1,1\n1,4,2,1\nok\n", "line 2: block 1 has round 2 and round 4"),
        ("1,2,1,1\nok\n", "block 1 has 0 certificates of its own round, 2; one, the anchor, is right"),
        ("1,2,1,0\n1,2,1,1\n1,2,2,1\nok\n", "block 1 is not in the order of a chain"),
        ("1,2,1,1,B,1,0\nok\n", "line 1: a bond's amount is '0', not a number from 1 to 1000"),
        ("1,2,1,1,U,1,1\nok\n", "line 1: an unbond's amount is '1', not a number from 0 to 0"),
        ("1,2,1,1,X,1,1\nok\n", "line 1: 'X' is neither B, U nor E"),
        ("1,2,1,16\nok\n", "line 1: the author is '16', not a number from 0 to 15"),
        ("é\nok\n", "a byte that is not ASCII"),
    ] {
        assert!(of(lines).contains(why), "{lines:?}: {}", of(lines));
    }
    let open = "open,0,,64,,1,0,0,0,,,,,,,,,,,,\r\n";
    let stream = folder.file("stream", format!("{open}commit\r\nchain\r\n"));
    let told = |answers: &str| refused(&["register", "--answers", &folder.file("answers", crlf(answers)), &stream]).1;
    assert!(told("ok\nok\n").contains("fewer answers than records"));
    assert!(told("ok\nok\nok\nok\n").contains("more answers than records"));
    assert!(told("ok\nok\nok\n").contains("ok is no answer to a commit"));
    assert!(told("ok\nok,1\nok\n").contains("0 blocks are listed, commits since the last accepted open made 1"));
    assert!(told("ok\nrefused,19\nrefused,1\n").contains("must end in an accepted chain"));
    assert!(told("1,2\nok\nrefused,19\nok\n").contains("record 1: lines are listed to what is no accepted chain"));
    for words in [
        &["register", "--weights", "0,0,0,0", "x"][..],
        &["register", "--weights", "x", "x"],
        &["register", "--weights", "1,1,1,1,1,1,1,1,1,1,1,1,1,1,1,1,1", "x"],
        &["register", "--weights", "1", "--answers", "x", "x"],
        &["register", "--lookback", "3", "x"],
        &["register", "--weights", "1", "--lookback", "1001", "x"],
    ] {
        assert_eq!(refused(words).0, Some(2), "{words:?}");
    }
}

// ---- effect

/// docs/RECIPES.md, "Before you bond".
#[test]
fn the_effect_of_a_bond() {
    let folder = Folder::of("effect");
    let lines = of_page("RECIPES.md", "before 250 250 250 250 0 0 0 0 0 0 0 0 0 0 0 0");
    let lines: Vec<_> = lines.lines().take(3).collect();
    let to = folder.path("effect.svg");
    let text = said(&["effect", "--member", "5", "--amount", "2", "--sheet", "ceiling=64", "--svg", &to]);
    assert_eq!(text, lines.join("\n") + "\nround 1, total 4, so never more than 334\n");
    assert_eq!(fs::read_to_string(&to).unwrap(), fs::read_to_string(top().join("docs/effect.svg")).unwrap());
    let stream = folder.file("stream", "open,0,,64,,,,,,,,,,,,,,,,,\r\n");
    assert_eq!(said(&["effect", "--member", "5", "--amount", "2", &stream]), text);
    let store = folder.file("store", worked_out(64).to_bytes());
    // docs/RULES.md, "How far a bond moves the shares": in round 8 member 0 by 3.
    let text = said(&["effect", "--member", "0", "--amount", "3", "--round", "8", &store]);
    has(
        &text,
        &[
            "before 0 200 200 200 400 0 0 0 0 0 0 0 0 0 0 0",
            "after 375 125 125 125 250 0 0 0 0 0 0 0 0 0 0 0",
            "largest 375",
            "round 8, total 5, so never more than 376",
        ],
    );
    let (status, line) = refused(&["effect", "--member", "0", "--amount", "3", "--round", "20", &store]);
    assert_eq!((status, line.contains("refused with 8")), (Some(1), true));
    assert_eq!(refused(&["effect", "--member", "16", "--amount", "3", &store]).0, Some(2));
    assert_eq!(refused(&["effect", "--member", "1", "--amount", "1001", &store]).0, Some(2));
    assert_eq!(refused(&["effect", "--member", "1", "--amount", "1", "--sheet", "x"]).0, Some(2));
}

// ---- run

fn cut(records: usize) -> String {
    let stream = fs::read_to_string(top().join("docs/run.stream")).unwrap();
    stream.split_inclusive('\n').take(records).collect()
}

#[test]
fn the_pictures_of_the_pages() {
    let folder = Folder::of("pictures");
    let picture = |name: &str| fs::read_to_string(top().join("docs").join(name)).unwrap();
    assert_eq!(said(&["run", "docs/run.stream"]), picture("run.svg"));
    assert_eq!(said(&["run", "--preview", &folder.file("preview", cut(116))]), picture("preview.svg"));
    assert_eq!(said(&["run", "--preview", &folder.file("critical", cut(114))]), picture("critical.svg"));
    let to = folder.path("run.svg");
    let text = said(&["run", "--svg", &to, "docs/run.stream"]);
    assert!(text.contains("certificates"));
    assert_eq!(fs::read_to_string(to).unwrap(), picture("run.svg"));
    // Rounds alone: none of another is drawn or told.
    let some = said(&["run", "--rounds", "3-5", "docs/run.stream"]);
    assert!(some.contains("in rounds 3 to 5;") && some.contains("Rounds 3 to 5 go across"));
}

/// Of stored words and of records the same, but that words do not tell which commit made a block.
#[test]
fn the_picture_of_stored_words() {
    let folder = Folder::of("words");
    let store = folder.file("store", worked_out(64).to_bytes());
    let records = of_page("RULES.md", "open,1,3,64,,,,,,,,,,,,,,,,,");
    let records: String = records.lines().take_while(|line| *line != "END").map(|line| format!("{line}\r\n")).collect();
    let before = records.strip_suffix("commit\r\nadvance\r\nchain\r\n").unwrap();
    let stream = folder.file("stream", before);
    let untimed = |svg: String| {
        let lines = svg
            .lines()
            .filter(|line| !line.starts_with("Block ") && !line.contains(">round ") && !line.contains(">not told<"));
        lines.map(str::to_owned).collect::<Vec<_>>()
    };
    assert_eq!(untimed(said(&["run", &store])), untimed(said(&["run", &stream])));
    assert_eq!(untimed(said(&["run", "--preview", &store])), untimed(said(&["run", "--preview", &stream])));
    assert!(said(&["run", "--preview", &store])
        .contains("It hangs on 2 certificates: round 10, member 2; round 11, member 4."));
}

#[test]
fn a_page_stands_alone() {
    let folder = Folder::of("page");
    let to = folder.path("run.html");
    assert_eq!(said(&["run", "--page", &to, "docs/run.stream"]), "member 0, 51 certificates, 5 blocks\n");
    let page = fs::read_to_string(to).unwrap();
    assert!(page.starts_with("<!DOCTYPE html>\n") && page.ends_with("</html>\n"));
    // Nothing is fetched: the one address is the name of SVG's namespace.
    assert_eq!(page.matches("://").count(), page.matches("http://www.w3.org/2000/svg").count());
    for word in ["src=", "href=", "@import", "url("] {
        assert!(!page.contains(word), "{word}");
    }
    // A row for each block, in the chain that stands there without scripts too.
    assert_eq!(page.matches("<tr><td>").count(), 5);
}

#[test]
fn runs_that_are_not_drawn() {
    let folder = Folder::of("undrawn");
    for (words, status, why) in [
        (&["run", "--rounds", "5", "docs/run.stream"][..], 2, "not two rounds"),
        (&["run", "--rounds", "0-3", "docs/run.stream"], 2, "not two rounds"),
        (&["run", "--rounds", "900-901", "docs/run.stream"], 1, "the run has no round 900"),
    ] {
        let (code, line) = refused(words);
        assert_eq!(code, Some(status));
        assert!(line.contains(why), "{line}");
    }
    let stream = folder.file("stream", cut(116));
    let answers = folder.file("answers", "ok\r\n".repeat(116));
    assert!(refused(&["run", "--answers", &answers, &stream]).1.contains("no answer to a commit"));
    let fewer = folder.file("fewer", "ok\r\n");
    assert!(refused(&["run", "--answers", &fewer, &stream]).1.contains("fewer answers than records"));
    let open = folder.file("open", "open,0,,64,,,,,,,,,,,,,,,,,\r\nchain\r\n");
    let plain = folder.file("plain", "ok\r\nok\r\n");
    assert!(refused(&["run", "--preview", "--answers", &plain, &open]).1.contains("must end in commit and chain"));
    for (records, why) in [
        ("open,16,,64,,,,,,,,,,,,,,,,,", "no member opens by it: there is no member 16"),
        ("open,0,,64,,4294967295,,,,,,,,,,,,,,,", "no member opens by it: the weight of member 0 is 4,294,967,295"),
        ("open,0,,64,,,,,,,,,,,,,,,,,\r\naccept,0,0,0,0", "0/0 was accepted, and there is no such place"),
        ("open,0,,64,,,,,,,,,,,,,,,,,\r\naccept,0,1,0,0,B,1,1001", "a transaction out of range was accepted"),
        ("open,0,,64,,,,,,,,,,,,,,,,,\r\ncertify,0", "a certify was accepted and no propose before it"),
    ] {
        let stream = folder.file("wrong", format!("{records}\r\nchain\r\n"));
        let answers = folder.file("accepted", "ok\r\n".repeat(records.lines().count() + 1));
        let line = refused(&["run", "--answers", &answers, &stream]).1;
        assert!(line.contains(why), "{line}");
    }
    let listed = folder.file("listed", "ok\r\n1,2,1,1\r\nok\r\n");
    assert!(refused(&["run", "--answers", &listed, &open])
        .1
        .contains("1/1 is listed and no record was accepted that holds it"));
}

// ---- check

/// What each of these is refused for stands in docs/SECOND-SUPPLIER.md, "Edge rules".
#[test]
fn damaged_records_are_told() {
    let folder = Folder::of("check");
    let stream = "open,0,,64,,,,,,,,,,,,,,,,,\r\nchain\nchain\nchain\r\nendorse,01,1,0\r\npropose,65536\r\npropose,0,e,1,0\r\npropose,0,E,1\r\n\
                  propose,0,U,1,1\r\n\r\n\"chain\"\r\nopen,0,,64,,1\r\nadvance,\r\nendorse,4294967296,1,0\r\nendorse,1,,0\r\nadvance\r";
    let path = folder.file("stream", stream);
    let text = found(&["check", &path]);
    has(&text, &[
        "record 2 (line 2, byte 29) cannot be read: its byte 5 is a lone LF",
        "record 3 (line 5, byte 48) cannot be read: field 1, the author, is '01': no number in decimal, without sign, blank or leading zero",
        "record 4 (line 6, byte 64) cannot be read: field 1, the previous set, is '65536': a set is at most 65,535",
        "record 5 (line 7, byte 79) cannot be read: field 2, a kind, is 'e': a kind is B, U or E",
        "record 6 (line 8, byte 96) cannot be read: propose has 3 fields behind its name, not a previous set and triples",
        "record 7 (line 9, byte 111) cannot be read: field 4, an unbond's amount, is '1': it must be 0",
        "record 8 (line 10, byte 128) cannot be read: no record has the name ''",
        "record 9 (line 11, byte 130) cannot be read: its byte 0 is a quote mark",
        "record 10 (line 12, byte 139) cannot be read: open has 5 fields behind its name, not 20: own number, lookback, ceiling, allowance, sixteen weights; or 21, with a margin",
        "record 11 (line 13, byte 154) cannot be read: advance has 1 field behind its name, not none",
        "record 12 (line 14, byte 164) cannot be read: field 1, the author, is '4294967296': above 4,294,967,295",
        "record 13 (line 15, byte 188) cannot be read: field 2, the round, is '': no number in decimal, without sign, blank or leading zero",
        "record 14 (line 16, byte 202) cannot be read: its byte 7 is a lone CR",
        "14 records: 1 open; 13 cannot be read",
    ]);
    let long = folder.file("long", format!("propose,0{}\r\nadvance", ",E,1,0".repeat(170)));
    let text = found(&["check", &long]);
    has(
        &text,
        &[
            "record 1 (line 1, byte 0) cannot be read: it has 1031 bytes, and 1024 with the CRLF are the most",
            "record 2 (line 2, byte 1031) cannot be read: it lacks its CRLF",
        ],
    );
    assert!(found(&["check", &folder.file("lf", "advance\ncommit\n")]).contains("here lines end in LF"));
    assert_eq!(said(&["check", &folder.file("empty", "")]), "0 records; 0 cannot be read\n");
    let text = said(&[
        "check",
        "--all",
        &folder.file("fine", "chain\r\nopen,0,,64,,1,0,0,0,,,,,,,,,,,,\r\ncertify,0\r\nchain\r\n"),
    ]);
    has(&text, &[
        "record 1 (line 1): chain -> refused,1: state not well formed, a table too short, or words that cannot be read",
        "record 2 (line 2): open,0,,64,,1,0,0,0,,,,,,,,,,,, -> ok",
        "record 3 (line 3): certify,0 -> refused,15: no proposal this round",
        "record 4 (line 4): chain -> 0 lines, then ok",
        "4 records: 1 certify, 2 chain, 1 open; 0 cannot be read",
    ]);
}

// ---- diff

/// docs/SECOND-SUPPLIER.md, "The margin": the second stream, and what slips answer to it.
#[test]
fn where_two_runners_part() {
    let folder = Folder::of("diff");
    let records = of_page("SECOND-SUPPLIER.md", "open,0,,64,,10,3,2,1,,,,,,,,,,,,,5");
    let stream = folder.file("stream", crlf(&records));
    let right = "ok\nok\nrefused,13\nrefused,13\nok\nrefused,13\nok\nrefused,28\nok\nok\nrefused,12\nok\nok\nok\nok\nok\nrefused,22\nok\nok,1\n1,2,1,1\n1,2,1,0\n1,2,2,1\nok\n";
    let a = folder.file("a", crlf(right));
    assert!(said(&["diff", &a, &a, &stream]).starts_with("the same: 20 records, "));
    let parts = |wrong: String| found(&["diff", &a, &folder.file("b", crlf(&wrong)), &stream]);
    // Accept still by 3.
    let text = parts(right.replacen("ok\nrefused,13\nok\nrefused,28", "ok\nok\nok\nrefused,28", 1));
    assert!(text.starts_with(&format!("The first difference in {stream} is in record 6 (line 6, byte ")), "{text}");
    has(&text, &[
        "record:   accept,2,1,0,1",
        "accepts 1/2 (round 1, author 2): names nobody; no transactions; endorsed by 0",
        "A:        refused,13: signers short of a quorum",
        "B:        ok: accepted",
        "engine:   refused,13: signers short of a quorum",
        "open:     record 1 (line 1, byte 0): open,0,,64,,10,3,2,1,,,,,,,,,,,,,5",
        "member 0; lookback 20, ceiling 64, allowance 4, margin 5; weights 0: 10, 1: 3, 2: 2, 3: 1",
        "weights:  round 1: 0: 10, 1: 3, 2: 2, 3: 1; total 16, fault bound 3, quorum 13; the signers, 0 2, weigh 12",
        "rule:     docs/RULES.md, \"Accept\": its checks are 24, 1, 4, 5, 6, 7, 14, 16, 17, 8, 9, 13, 11, in this order",
        "rule:     13: signers short of a quorum; see \"Weights\", \"Committees\"",
    ]);
    // A weight equal to the bound is enough.
    let text = parts(right.replacen("refused,22", "ok,1", 1));
    has(
        &text,
        &[
            "record:   commit",
            "A:        refused,22: votes weigh not more than the fault bound",
            "B:        ok,1: so many blocks made, 1",
            "weights:  the leader of round 2 is member 1, whose certificate is held",
            "weights:  round 3: 0: 10, 1: 3, 2: 2, 3: 1; total 16, fault bound 3, quorum 13; the votes, 1, weigh 3",
        ],
    );
    // Two lines of a listing exchanged.
    let text = parts(right.replacen("1,2,1,1\n1,2,1,0\n", "1,2,1,0\n1,2,1,1\n", 1));
    has(
        &text,
        &[
            "record:   chain",
            "A:        ok: accepted, behind 3 lines; line 1: 1,2,1,1",
            "B:        ok: accepted, behind 3 lines; line 1: 1,2,1,0",
            "order:    block 1 is of round 2, whose leader is member 1: in each of its rounds numbers rise from 1, with 0 after 15",
            "rule:     \"History\" and \"Order inside a block\" say what is in a block, and in which order",
        ],
    );
    // Answers that end early, LF alone, and more than there are records.
    has(&parts("ok\nok\n".to_owned()), &["B:        nothing: its answers end before"]);
    let bare = folder.file("bare", right);
    has(&found(&["diff", &a, &bare, &stream]), &["B:        ok, without its CRLF: no answer of a runner"]);
    has(&parts(format!("{right}ok\n")), &["The answers to all 20 records are the same; B writes more behind them."]);
}

#[test]
fn runners_are_run() {
    let folder = Folder::of("runners");
    let stream = folder.file("stream", "chain\r\nopen,0,,64,,,,,,,,,,,,,,,,,\r\n");
    // A program that answers 1 to all, and a command line.
    let program = folder.file("runner", "#!/bin/sh\nwhile read -r line; do printf 'refused,1\\r\\n'; done\n");
    use std::os::unix::fs::PermissionsExt;
    fs::set_permissions(&program, fs::Permissions::from_mode(0o755)).unwrap();
    let text = found(&["diff", "--names", "theirs,ours", &program, "printf 'refused,1\\r\\nok\\r\\n'", &stream]);
    has(
        &text,
        &[
            "record:   open,0,,64,,,,,,,,,,,,,,,,,",
            "theirs:   refused,1: state not well formed, a table too short, or words that cannot be read",
            "ours:     ok: accepted",
            "engine:   ok: accepted",
            "open:     none before this record was accepted",
        ],
    );
    let (status, line) = refused(&["diff", "nobody", &program, &stream]);
    assert_eq!(status, Some(1));
    assert!(line.contains("cannot read nobody"), "{line}");
}
