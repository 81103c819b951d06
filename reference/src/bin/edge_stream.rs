//! A reading of its own, which takes nothing from the library: `edge_stream DIRECTORY`
//! writes edge.stream, edge.expected and edge.comments there, oldest-first likewise,
//! and some tail-N.stream with tail-N.expected. The expected answers stand here as
//! written by hand from docs/RULES.md; no runner is asked.

use std::fmt::Write as _;
use std::fs;
use std::path::Path;

#[derive(Default)]
struct Edges {
    stream: Vec<u8>,
    expected: String,
    comments: String,
    records: u32,
    lines: u32,
}

fn shown(bytes: &[u8]) -> String {
    if bytes.len() > 90 {
        return format!("{}... ({} bytes with the CRLF)", shown(&bytes[..40]), bytes.len() + 2);
    }
    let mut text = String::new();
    for &b in bytes {
        match b {
            b'\r' => text.push_str("<CR>"),
            b'\n' => text.push_str("<LF>"),
            0x20..=0x7e => text.push(b as char),
            _ => write!(text, "<{b:02X}>").unwrap(),
        }
    }
    text
}

impl Edges {
    fn new() -> Edges {
        let comments = "record number | output line | record | last line of the answer | what it shows\n".to_owned();
        Edges { comments, ..Edges::default() }
    }

    fn write(&self, directory: &Path, name: &str) {
        fs::write(directory.join(format!("{name}.stream")), &self.stream).unwrap();
        fs::write(directory.join(format!("{name}.expected")), &self.expected).unwrap();
        fs::write(directory.join(format!("{name}.comments")), &self.comments).unwrap();
    }

    fn part(&mut self, title: &str) {
        write!(self.comments, "\n== {title}\n").unwrap();
    }

    /// One record; its CRLF is added here.
    fn record(&mut self, text: &[u8], answers: &[&str], comment: &str) {
        self.stream.extend_from_slice(text);
        self.stream.extend_from_slice(b"\r\n");
        self.answers(text, answers, comment);
    }

    fn answers(&mut self, text: &[u8], answers: &[&str], comment: &str) {
        self.records += 1;
        let first = self.lines + 1;
        for a in answers {
            self.expected.push_str(a);
            self.expected.push_str("\r\n");
            self.lines += 1;
        }
        let lines = if first == self.lines { format!("{first}") } else { format!("{first}-{}", self.lines) };
        let answer = answers.last().unwrap();
        writeln!(self.comments, "record {} | line {} | {} | {} | {}", self.records, lines, shown(text), answer, comment).unwrap();
    }

    fn ok(&mut self, text: &str, comment: &str) {
        self.record(text.as_bytes(), &["ok"], comment);
    }

    fn no(&mut self, number: u32, text: &str, comment: &str) {
        self.record(text.as_bytes(), &[&format!("refused,{number}")], comment);
    }

    fn unreadable(&mut self, text: &[u8], comment: &str) {
        self.record(text, &["refused,24"], comment);
    }
}

/// An open with settings as written and weights given for the first members;
/// the weights not given are blank.
fn open(own: &str, lookback: &str, ceiling: &str, allowance: &str, weights: &[&str]) -> String {
    let mut text = format!("open,{own},{lookback},{ceiling},{allowance}");
    for m in 0..16 {
        write!(text, ",{}", weights.get(m).unwrap_or(&"")).unwrap();
    }
    text
}

const ZEROS: [&str; 16] = ["0"; 16];
const ALONE: [&str; 4] = ["1", "0", "0", "0"];

/// The members below a number, as a set.
fn below(number: u32) -> u32 {
    (1 << number) - 1
}

/// Those without an author: its endorsers.
fn others(number: u32, author: u32) -> u32 {
    below(number) & !(1 << author)
}

/// Opens with a margin out of range or not to be read, before any open is
/// accepted.
fn margins_refused(e: &mut Edges) {
    let full = open("0", "", "64", "", &[]);
    e.part("the margin, a 21st field after the name: 3 to 5, out of range is 2");
    for margin in ["2", "6", "0", "1", "7", "259", "4294967295"] {
        e.no(2, &format!("{full},{margin}"), "2: margin out of range");
    }
    for margin in ["03", "00", "+3", "-3", " 3", "3 ", " ", "3.0", "3e0", "x", "three", "\"3\"", "4294967296", "4294967299"] {
        e.unreadable(format!("{full},{margin}").as_bytes(), "the margin is no number");
    }
    e.no(4, &format!("{},6", open("16", "", "64", "", &[])), "4 before 2: the member first");
    e.no(4, &format!("{},5", open("16", "", "64", "", &[])), "4 with a margin in range");
    e.unreadable(format!("{},6x", open("16", "", "64", "", &[])).as_bytes(), "24 before 4");
    e.no(2, &format!("{},2", open("0", "", "64", "", &ZEROS)), "2 before 3: no positive weight");
    e.no(2, &format!("{},6", open("0", "", "65", "", &ZEROS)), "2 before 3 and 1");
    e.no(2, &format!("{},5", open("0", "0", "64", "", &[])), "2 for the lookback, with a margin in range");
    e.no(3, &format!("{},5", open("0", "", "65", "", &ZEROS)), "3 before 1, with a margin in range");
    e.no(1, &format!("{},4", open("0", "", "65", "", &[])), "1 with a margin in range");
    e.no(1, &format!("{},", open("0", "", "65", "", &[])), "1 with a blank margin in its field");
    e.no(1, "advance", "none of them opened anything");
    for margin in [",3", ",4", ",5", ",", ""] {
        e.ok(&format!("{full}{margin}"), "a margin in range, blank in its field, left out");
    }
    e.no(2, &format!("{full},6"), "refused after an open too");
    e.unreadable(format!("{full},5,").as_bytes(), "unreadable after an open too");
}

/// Members of weight 1 and a margin as it ends the open: sets one short of a
/// quorum and exactly one, votes exactly at the bound and one above. The
/// quorum and the bound are worked out by hand where this is called.
fn margin_run(e: &mut Edges, members: u32, margin: &str, quorum: u32, bound: u32) {
    let weights: Vec<&str> = (0..16).map(|m| if m < members { "1" } else { "0" }).collect();
    let everybody = |author| others(members, author);
    let short = format!("{} of {members}, the quorum is {quorum}", quorum - 1);
    let just = format!("{quorum} of {members}");
    e.ok(&format!("{}{margin}", open("0", "", "64", "", &weights)), "the leader of round 2 is member 1");
    e.ok("propose,0", "");
    e.no(13, &format!("certify,{}", others(quorum - 1, 0)), &short);
    e.ok(&format!("certify,{}", others(quorum, 0)), &just);
    e.no(13, &format!("accept,1,1,0,{}", others(quorum - 1, 1)), &short);
    e.ok(&format!("accept,1,1,0,{}", others(quorum, 1)), &just);
    for author in 2..quorum - 1 {
        e.ok(&format!("accept,{author},1,0,{}", everybody(author)), "round 1, signed by all");
    }
    e.no(28, "advance", &short);
    e.ok(&format!("accept,{},1,0,{}", quorum - 1, everybody(quorum - 1)), "round 1, signed by all");
    e.ok("advance", &just);
    let (too_few, enough) = (below(quorum - 1), below(quorum));
    e.no(12, &format!("endorse,1,2,{too_few}"), &short);
    e.ok(&format!("endorse,1,2,{enough}"), &just);
    e.no(12, &format!("propose,{too_few}"), &short);
    e.ok(&format!("propose,{enough}"), &just);
    e.no(13, &format!("certify,{}", others(quorum - 1, 0)), &short);
    e.ok(&format!("certify,{}", others(quorum, 0)), &just);
    for author in 1..quorum {
        e.ok(&format!("accept,{author},2,{enough},{}", everybody(author)), "round 2");
    }
    e.ok("advance", &just);
    for author in 2..2 + bound {
        e.no(22, "commit", "fewer votes than the bound or as many");
        e.ok(&format!("accept,{author},3,2,{}", everybody(author)), "a vote");
    }
    e.no(22, "commit", &format!("{bound} votes equal the bound {bound}"));
    e.ok(&format!("accept,0,3,2,{}", everybody(0)), "a vote");
    e.record(b"commit", &["ok,1"], &format!("{} votes are more than the bound {bound}", bound + 1));
    // Round 1 from member 1, with 0 last; then the anchor.
    let mut lines: Vec<String> = (1..quorum).chain([0]).map(|author| format!("1,2,1,{author}")).collect();
    lines.extend(["1,2,2,1".to_owned(), "ok".to_owned()]);
    let lines: Vec<&str> = lines.iter().map(String::as_str).collect();
    e.record(b"chain", &lines, "");
}

/// What follows the margin, by hand.
fn margins(e: &mut Edges) {
    e.part("total 16: margin 3 gives bound 5 and quorum 11");
    margin_run(e, 16, "", 11, 5);
    e.part("total 16: margin 5 gives bound 3 and quorum 13");
    margin_run(e, 16, ",5", 13, 3);
    e.part("total 16: a blank margin in its field is 3, also after an open with 5");
    margin_run(e, 16, ",", 11, 5);
    e.part("total 16: margin 4 gives bound 3 and quorum 13");
    margin_run(e, 16, ",4", 13, 3);
    e.part("total 13: margins 3, 4 and 5 give bounds 4, 3 and 2, quorums 9, 10 and 11");
    margin_run(e, 13, ",3", 9, 4);
    margin_run(e, 13, ",4", 10, 3);
    margin_run(e, 13, ",5", 11, 2);

    e.part("total 4 by margin 5: bound 0 and quorum 4; one vote is enough");
    e.ok(&format!("{},5", open("0", "1", "64", "", &[])), "lookback 1, members 0 to 3 of weight 1");
    e.no(13, "accept,1,1,0,12", "3 of 4; by margin 3 a quorum");
    for text in ["accept,0,1,0,14,B,4,7", "accept,1,1,0,13", "accept,2,1,0,11"] {
        e.ok(text, "4 of 4");
    }
    e.no(28, "advance", "3 of 4; by margin 3 a quorum");
    e.ok("accept,3,1,0,7", "");
    e.ok("advance", "4 of 4");
    e.no(12, "propose,7", "3 of 4; by margin 3 a quorum");
    e.no(12, "endorse,1,2,7", "3 of 4; by margin 3 a quorum");
    for text in ["accept,1,2,15,13", "accept,0,2,15,14", "accept,2,2,15,11", "accept,3,2,15,7", "advance"] {
        e.ok(text, "");
    }
    e.no(22, "commit", "no votes: 0 equals the bound 0");
    e.no(2, &format!("{},6", open("0", "1", "64", "", &[])), "a refused open changes no margin");
    e.no(4, &format!("{},3", open("16", "1", "64", "", &[])), "nor does one with a margin in range");
    e.ok("accept,3,3,2,7", "a vote; any previous set that is held will do");
    e.record(b"commit", &["ok,1"], "1 vote is more than the bound 0; by margin 3 it equals the bound 1");
    e.part("the margin stays when weights change: from round 4 on total 11, bound 2 and quorum 9");
    for text in ["accept,0,3,2,14", "accept,1,3,2,13", "accept,2,3,2,11", "advance"] {
        e.ok(text, "4 of 4 in round 3");
    }
    e.no(13, "accept,0,4,1,16", "8 of 11; by margin 3, with bound 3, a quorum");
    e.ok("accept,0,4,1,18", "9 of 11");
    e.ok("accept,4,4,1,3", "9 of 11");
    e.no(28, "advance", "members 0 and 4: 8 of 11; by margin 3 a quorum");
    e.ok("accept,2,4,1,17", "9 of 11; the leader of round 4, at position 2 of 0 to 4");
    e.ok("advance", "members 0, 2 and 4: 9 of 11");
    e.no(12, "propose,17", "members 0 and 4: 8 of 11; by margin 3 a quorum");
    for text in ["accept,0,5,4,18", "accept,1,5,4,17"] {
        e.ok(text, "a vote of weight 1");
    }
    e.no(22, "commit", "2 votes equal the bound 2");
    e.ok("accept,3,5,4,17", "a vote of weight 1");
    e.record(b"commit", &["ok,1"], "3 votes are more than the bound 2; by margin 3 they equal the bound 3");
    e.record(
        b"chain",
        &["1,2,1,1", "1,2,1,2", "1,2,1,3", "1,2,1,0,B,4,7", "1,2,2,1", "2,4,3,0", "2,4,4,2", "ok"],
        "leaders, shares and known rounds go by no margin",
    );
}

/// Two blocks, with a bond in the older one and the unbond of the same member in the newer one.
fn oldest_first(e: &mut Edges) {
    e.part("a committee applies blocks oldest first");
    e.ok(&open("0", "1", "64", "", &["10", "0", "0", "0"]), "a member alone, lookback 1");
    e.ok("propose,0,B,1,1", "bonds member 1, in block 1");
    e.ok("certify,0", "");
    e.ok("advance", "");
    e.ok("propose,1", "");
    e.ok("certify,0", "the anchor of 2");
    e.ok("advance", "");
    e.ok("propose,1,U,1,0", "unbonds member 1, in block 2");
    e.ok("certify,0", "");
    e.record(b"commit", &["ok,1"], "block 1, of round 2: rounds 1 and 2");
    e.ok("advance", "");
    e.ok("propose,1", "");
    e.ok("certify,0", "the anchor of 4: weights 10 and 1, the leader of 4 is at position 0 of members 0 and 1");
    e.ok("advance", "");
    e.ok("propose,1", "");
    e.ok("certify,0", "10 of 11, the quorum is 8");
    e.record(b"commit", &["ok,1"], "block 2, of round 4: rounds 3 and 4");
    e.ok("advance", "to round 6, whose committee both blocks change");
    e.ok("propose,1", "");
    e.no(9, "certify,2", "member 1 came and left; newest block first it would be in, and the answer ok");
}

fn main() {
    let directory = std::env::args().nth(1).unwrap_or(".".to_owned());
    let directory = Path::new(&directory);
    let mut e = Edges::new();
    let e = &mut e;

    e.part("before an open: 24 comes first, then every call answers 1");
    e.no(1, "propose,0", "propose 1");
    e.no(1, "endorse,1,1,0", "endorse 1");
    e.no(1, "certify,0", "certify 1");
    e.no(1, "accept,1,1,0,13", "accept 1");
    e.no(1, "advance", "advance 1");
    e.no(1, "commit", "commit 1");
    e.no(1, "chain", "chain 1");
    e.no(1, "endorse,16,0,0,B,16,0", "1 before 4, 5, 6");
    e.no(1, "accept,99,0,65535,65535,U,77,0", "1 before 4, 5, 6, 7, 14");
    e.unreadable(b"advance,0", "24 before 1");
    e.unreadable(b"chain,", "24 before 1");
    e.unreadable(b"", "a bare CRLF is a record");
    e.unreadable(b"open", "24 before an open too");
    e.unreadable(b"nonsense", "no such record");

    e.part("open: 4, 2, 3, 1 in this order");
    e.no(4, &open("16", "0", "65", "", &ZEROS), "4 before 2, 3 and 1");
    e.no(4, &open("4294967295", "", "64", "", &[]), "own number readable up to 4294967295");
    e.unreadable(open("4294967296", "", "64", "", &[]).as_bytes(), "and no further");
    e.unreadable(open("", "", "64", "", &[]).as_bytes(), "own number is not in the sheet: a blank is unreadable");
    e.no(2, &open("15", "0", "65", "", &ZEROS), "2 before 3 and 1");
    e.no(3, &open("15", "", "65", "", &ZEROS), "3 before 1");
    e.no(3, &open("0", "", "64", "", &ZEROS), "3: no positive weight");
    e.no(3, &open("0", "", "64", "", &ALONE.map(|_| "0")), "3: members 4 to 15 blank are 0");
    e.no(1, &open("0", "", "65", "", &[]), "1: the tables serve ceilings up to 64");
    e.no(1, &open("0", "", "1024", "", &[]), "1: in range, but too large for the tables");
    e.no(1, &open("0", "", "", "", &[]), "1: a blank ceiling is 1,024");
    e.no(2, &open("0", "", "1025", "", &[]), "2: ceiling over 1,024");
    e.no(2, &open("0", "", "4294967295", "", &[]), "2: readable, far out of range");
    e.no(2, &open("0", "", "2", "", &[]), "2: ceiling below 3");
    e.no(2, &open("0", "", "0", "", &[]), "2: a written 0 is no blank");
    e.no(2, &open("0", "0", "64", "", &[]), "2: lookback 0");
    e.no(2, &open("0", "1001", "64", "", &[]), "2: lookback over 1,000");
    e.no(2, &open("0", "", "64", "5", &[]), "2: allowance over 4");
    e.no(2, &open("0", "", "64", "", &["1000001"]), "2: weight of member 0");
    e.no(2, &open("0", "", "64", "", &["", "", "", "", "", "", "", "", "", "", "", "", "", "", "", "1000001"]), "2: weight of member 15");
    e.no(2, &open("0", "", "64", "", &["0", "0", "0", "0", "1000001"]), "2 before 3");
    e.no(2, &open("0", "", "65", "", &["1000001"]), "2 before 1");
    e.unreadable(open("0", "", "64", "", &["01"]).as_bytes(), "leading zero in the sheet");
    e.unreadable(open("0", " ", "64", "", &[]).as_bytes(), "a space is no blank");
    e.unreadable(open("0", "", "4294967296", "", &[]).as_bytes(), "a number above 4,294,967,295 in the sheet");
    let full = open("0", "", "64", "", &[]);
    e.unreadable(&full.as_bytes()[..full.len() - 1], "19 fields after the name: one short");
    e.unreadable(format!("{full},,").as_bytes(), "22 fields, the last two blank");
    e.unreadable(format!("{full},3,").as_bytes(), "22 fields, a margin and a blank");
    e.unreadable(format!("{full},,3").as_bytes(), "22 fields, a blank and a margin");
    e.unreadable(format!("{full},3,3").as_bytes(), "22 fields");
    e.unreadable(format!("{full},E,1,0").as_bytes(), "an open has no triples");
    e.no(1, "advance", "refused and unreadable opens opened nothing");
    margins_refused(e);
    e.part("open: ends of the ranges");
    e.ok(&open("15", "1000", "3", "0", &["1000000", "0", "0", "0", "", "", "", "", "", "", "", "", "", "", "", "1000000"]), "ends of the ranges: own 15, lookback 1,000, ceiling 3, allowance 0, weight 1,000,000");
    e.ok(&open("0", "1", "64", "4", &ALONE), "ends of the ranges: lookback 1, ceiling 64, allowance 4; another open");

    e.part("the example of the rules");
    e.ok("open,0,,64,,1,0,0,0,,,,,,,,,,,,", "another open starts afresh");
    e.ok("propose,0,E,7,0", "");
    e.ok("certify,0", "no endorsers: the author is a quorum alone");
    e.ok("advance", "");
    e.ok("propose,1", "no triples");
    e.ok("certify,0", "");
    e.ok("advance", "");
    e.ok("propose,1,E,9,0", "");
    e.ok("certify,0", "");
    e.record(b"commit", &["ok,1"], "one block");
    e.record(b"chain", &["1,2,1,0,E,7,0", "1,2,2,0", "ok"], "the block's certificates, then ok");
    e.no(20, "commit", "commit 20");
    e.no(4, &open("16", "", "64", "", &[]), "a refused open changes nothing");
    e.no(1, &open("0", "", "65", "", &[]), "a refused open changes nothing");
    e.unreadable(b"open,0,,64,,1,0,0,0", "an unreadable open changes nothing");
    e.no(20, "commit", "still the state of before");
    e.record(b"chain", &["1,2,1,0,E,7,0", "1,2,2,0", "ok"], "still the chain of before");

    e.part("reading: names, counts, numbers, sets, triples (the state is a fresh one)");
    e.ok(&open("0", "", "64", "2", &[]), "members 0 to 3 of weight 1, lookback 20, allowance 2");
    for name in ["Advance", "ADVANCE", "advance ", " advance", "advanc", "advances", "opens", "Chain", "commit\t"] {
        e.unreadable(name.as_bytes(), "names are to the letter");
    }
    for text in ["advance,", "advance,0", "commit,", "commit,0", "chain,", "chain,0", ",advance", ",", ",,,,"] {
        e.unreadable(text.as_bytes(), "wrong count of fields");
    }
    for text in ["certify", "certify,0,0", "certify,0,", "propose", "endorse,1,1", "accept,1,1,0", "propose,0,E", "propose,0,E,1", "propose,0,E,1,0,", "propose,0,E,1,0,E", "propose,0,E,1,0,E,1", "endorse,1,1,0,E", "accept,1,1,0,13,E,1"] {
        e.unreadable(text.as_bytes(), "wrong count of fields");
    }
    for text in ["certify,", "propose,", "endorse,,1,0", "endorse,1,,0", "endorse,1,1,", "accept,,1,0,13", "accept,1,1,0,", "propose,0,,1,0", "propose,0,E,,0", "propose,0,E,1,"] {
        e.unreadable(text.as_bytes(), "a blank outside the sheet");
    }
    for text in ["certify,00", "certify,06", "certify,+6", "certify,-6", "certify, 6", "certify,6 ", "certify,6.0", "certify,6e0", "certify,0x6", "certify,six", "propose,0,E,07,0", "propose,0,E,7,00", "endorse,01,1,0", "endorse,1,01,0"] {
        e.unreadable(text.as_bytes(), "numbers are decimal without leading zeros, sign or blanks");
    }
    e.unreadable(b"endorse,4294967296,1,0", "author above 4,294,967,295");
    e.unreadable(b"endorse,1,4294967296,0", "round above 4,294,967,295");
    e.unreadable(b"endorse,1,18446744073709551617,0", "round of 2 to the power 64, plus 1");
    e.unreadable(b"propose,0,E,4294967296,0", "entry above 4,294,967,295");
    e.unreadable(b"propose,0,B,1,4294967296", "amount above 4,294,967,295");
    e.unreadable(b"propose,65536", "a set above 65,535");
    e.unreadable(b"certify,65536", "a set above 65,535");
    e.unreadable(b"endorse,1,2,65536", "a set above 65,535");
    e.unreadable(b"accept,1,2,65536,13", "a set above 65,535");
    e.unreadable(b"accept,1,2,1,65536", "a set above 65,535");
    e.unreadable(b"accept,16,0,0,65536", "24 before 4 and 5");
    for text in ["propose,0,U,1,1", "propose,0,E,1,1", "propose,0,E,1,4294967295", "endorse,1,1,0,U,1,5", "accept,1,1,0,13,E,0,1"] {
        e.unreadable(text.as_bytes(), "a non-zero amount in U or E");
    }
    for text in ["propose,0,e,1,0", "propose,0,b,1,1", "propose,0,u,1,0", "propose,0,X,1,0", "propose,0,EE,1,0", "propose,0, E,1,0", "propose,0,0,1,0"] {
        e.unreadable(text.as_bytes(), "kinds are B, U, E to the letter");
    }
    e.unreadable(b"propose,0,E,1,0,E,2,0,E,3,0,X,1,0", "an unreadable triple after too many readable ones: 24, not 6");
    e.unreadable(b"propose,0,B,16,0,E,1", "24 before 6");
    e.no(6, "propose,0,E,1,0,E,2,0,E,3,0", "readable, over the allowance");
    e.no(6, "propose,0,B,1,0", "B with amount 0 is readable: 6");
    e.no(6, "propose,0,B,1,1001", "B with amount 1,001: 6");
    e.no(6, "propose,0,B,1,4294967295", "B with amount 4,294,967,295: 6");
    e.no(6, "propose,0,B,16,1", "B of member 16: 6");
    e.no(6, "propose,0,U,16,0", "U of member 16: 6");
    e.no(6, "propose,0,U,4294967295,0", "U of member 4,294,967,295: 6");
    e.unreadable(b"\"advance\"", "quote marks");
    e.unreadable(b"advance\"", "a quote mark");
    e.unreadable(b"propose,\"0\"", "quote marks");
    e.unreadable(b"propose,0,E,\"7\",0", "quote marks");
    e.unreadable(b"advance\0", "NUL");
    e.unreadable(b"\0", "NUL");
    e.unreadable(b"certify,6\x80", "a byte above 127");
    e.unreadable(b"certify,\xb2", "a byte above 127");
    e.unreadable(b"certify,\xd9\xa6", "digits of another script");
    e.unreadable(b"\xef\xbb\xbfadvance", "a mark of byte order");
    e.unreadable(b"certify,6\x7f", "byte 127");
    e.unreadable(b"certify,6\t", "a tab");
    e.unreadable(b"adv\rance", "a lone CR");
    e.unreadable(b"\radvance", "a lone CR in front");
    e.unreadable(b"advance\r", "CR CR LF: the record ends at the CRLF and holds a lone CR");
    e.unreadable(b"\r", "CR CR LF alone");
    e.unreadable(b"\r\r\r", "three lone CR");
    e.unreadable(b"advance\ncommit", "a lone LF does not end a record: one answer");
    e.unreadable(b"\nadvance", "LF after a CRLF is lone");
    e.unreadable(b"advance\n", "LF CR LF: the LF is lone");
    e.unreadable(b"advance\n\radvance", "LF CR is no CRLF");
    e.unreadable(b"\n", "a lone LF alone");
    // 9 + 6 * 168 = 1,017 bytes with one digit in each number, 1,019 with the CRLF.
    let triples = ",E,1,0".repeat(167);
    e.no(6, &format!("propose,0,E,100000,0{triples}"), "1,024 bytes with the CRLF: readable, over the allowance");
    e.unreadable(format!("propose,0,E,1000000,0{triples}").as_bytes(), "1,025 bytes with the CRLF: unreadable");
    e.unreadable(format!("propose,0,E,1000000,0{triples}{triples}{triples}").as_bytes(), "far longer: one answer");
    e.unreadable("1".repeat(100_000).as_bytes(), "100,002 bytes: one answer");
    e.unreadable("advance\n".repeat(300).as_bytes(), "long, with lone LF in it: one answer");
    e.unreadable("\r".repeat(1_022).as_bytes(), "1,022 lone CR and a CRLF: one answer");
    e.unreadable("\r".repeat(3_000).as_bytes(), "3,000 lone CR and a CRLF: one answer");
    e.no(1, &open("0", "", "65", "", &[]), "the next record after long ones is read as ever");

    e.part("round 1, own 0, members 0 to 3 of weight 1, lookback 20, ceiling 64, allowance 2");
    e.no(15, "certify,6", "certify 15: no proposal");
    e.no(15, "certify,65535", "15 before 14 and 9");
    e.no(19, "commit", "commit 19 in round 1, before 20");
    e.no(7, "propose,1", "propose 7: not empty in round 1");
    e.no(6, "propose,1,B,16,1", "6 before 7");
    e.no(28, "advance", "advance 28: nothing held in round 1");
    e.ok("propose,0,E,7,0,B,4,5", "");
    e.no(28, "advance", "a proposal is no certificate");
    e.no(10, "propose,0", "propose 10: a proposal exists; a refused advance drops nothing");
    e.no(7, "propose,1", "7 before 10");
    e.no(6, "propose,0,E,1,0,E,2,0,E,3,0", "6 before 10");
    e.no(14, "certify,1", "certify 14: oneself among them");
    e.no(14, "certify,17", "14 before 9");
    e.no(9, "certify,16", "certify 9: member 4 is outside; its bond is in no block");
    e.no(9, "certify,18", "9 before 13");
    e.no(9, "certify,22", "9 although the others are a quorum");
    e.no(13, "certify,2", "certify 13: weight 2 of 4, the quorum is 3");
    e.no(13, "certify,0", "certify 13: the author alone");
    e.ok("certify,6", "weight 3 of 4");
    e.no(10, "certify,6", "certify 10: own place held; the proposal is still there");
    e.no(10, "certify,65535", "10 before 14");
    e.no(10, "propose,0", "propose 10: own place held");
    e.no(4, "endorse,16,0,1,B,16,1", "endorse 4 before 5, 6, 7");
    e.no(4, "endorse,4294967295,1,0", "endorse 4");
    e.no(5, "endorse,1,0,1,B,16,1", "endorse 5 (round 0) before 6, 7");
    e.no(5, "endorse,1,0,0", "endorse 5: round 0");
    e.no(5, "endorse,1,65,1", "endorse 5: over the ceiling");
    e.no(5, "endorse,1,4294967295,1", "endorse 5: far over the ceiling");
    e.no(6, "endorse,1,1,1,B,1,1001", "endorse 6 before 7");
    e.no(6, "endorse,1,1,0,E,1,0,E,2,0,E,3,0", "endorse 6: over the allowance");
    e.no(7, "endorse,1,1,1", "endorse 7: not empty in round 1");
    e.no(7, "endorse,1,2,0", "endorse 7: empty above round 1");
    e.no(7, "endorse,0,1,1", "7 before 14");
    e.no(14, "endorse,0,1,0", "endorse 14: author is oneself");
    e.no(14, "endorse,0,2,1", "14 before 12");
    e.ok("endorse,1,1,0,E,1,0", "");
    e.no(10, "endorse,1,1,0,E,1,0", "endorse 10: already endorsed");
    e.no(10, "endorse,1,1,0", "endorse 10: already endorsed, another proposal");
    e.ok("endorse,5,1,0", "the author's membership is not tested");
    e.no(11, "endorse,1,2,7", "endorse 11: members 1 and 2 not held in round 1");
    e.no(11, "endorse,1,2,32", "11 before 12: member 5 is outside and not held");
    e.no(12, "endorse,1,2,1", "endorse 12: weight 1 of 4");
    e.no(8, "endorse,1,24,1", "endorse 8: round 23 is not known");
    e.no(11, "endorse,1,23,1", "round 22 is known: lookback 20 and an empty chain");
    e.no(4, "accept,16,0,1,65535,B,16,1", "accept 4 before 5, 6, 7");
    e.no(5, "accept,1,0,0,15,B,16,1", "accept 5 (round 0) before 6");
    e.no(5, "accept,1,65,1,13", "accept 5: over the ceiling");
    e.no(6, "accept,1,1,1,15,B,1,0", "accept 6 before 7");
    e.no(6, "accept,1,1,0,13,E,1,0,E,2,0,E,3,0", "accept 6: over the allowance");
    e.no(7, "accept,1,1,1,15", "accept 7 before 14");
    e.no(7, "accept,1,2,0,13", "accept 7: empty above round 1");
    e.no(14, "accept,1,1,0,14", "accept 14: author among endorsers");
    e.no(14, "accept,0,1,0,7,E,7,0,B,4,5", "14 before 16");
    e.no(16, "accept,0,1,0,6,E,7,0,B,4,5", "accept 16: the same certificate");
    e.no(16, "accept,0,1,0,14,E,7,0,B,4,5", "accept 16: endorsers are not compared");
    e.no(16, "accept,0,1,0,0,E,7,0,B,4,5", "16 before 13");
    e.no(16, "accept,0,1,0,65534,E,7,0,B,4,5", "16 before 9");
    e.no(17, "accept,0,1,0,6,B,4,5,E,7,0", "accept 17: the order of the transactions differs");
    e.no(17, "accept,0,1,0,6", "accept 17: another held there");
    e.no(17, "accept,0,1,0,65534", "17 before 9");
    e.no(17, "accept,0,1,0,0,E,7,0", "17 before 13");
    e.no(9, "accept,5,1,0,7", "accept 9: the author is outside");
    e.no(9, "accept,2,1,0,16", "accept 9: an endorser is outside; before 13");
    e.no(9, "accept,2,1,0,19", "accept 9: although the others are a quorum");
    e.no(13, "accept,2,1,0,1", "accept 13: weight 2 of 4");
    e.no(28, "advance", "weight 1 of 4, the quorum is 3; the endorsed places of members 1 and 5 do not count");
    e.ok("accept,1,1,0,13,E,1,0", "all four signed; the endorsed mark is cleared");
    e.no(10, "endorse,1,1,0,E,1,0", "endorse 10: place held");
    e.no(28, "advance", "weight 2 of 4: one certificate short, whoever signed the two");
    e.ok("accept,2,1,0,3", "not endorsed before; weight 3 of 4");
    e.no(8, "accept,5,23,1,7", "accept 8 before 9");
    e.no(8, "accept,2,23,1,3", "accept 8: round 23 is not known");
    e.no(11, "accept,2,22,1,3", "round 22 is known; accept 11");
    e.no(13, "accept,2,2,8,1", "13 before 11");
    e.no(11, "accept,2,2,8,3", "accept 11: member 3 not held in round 1");
    e.no(11, "accept,2,2,15,3", "accept 11: three of the four named are held");
    e.ok("accept,1,2,1,13", "accept has no 12: the previous set is no quorum");
    e.ok("endorse,3,2,7", "endorsing a round ahead; previous set of weight 3 of 4");
    e.no(10, "endorse,3,2,8", "10 before 11");
    e.ok("advance", "to round 2: members 0, 1 and 2 are exactly a quorum");
    e.no(10, "endorse,3,2,7", "an endorsement is not forgotten on the way");

    e.part("round 2");
    e.no(15, "certify,6", "certify 15: the proposal was dropped");
    e.no(19, "commit", "commit 19 in an even round");
    e.no(7, "propose,0", "propose 7: empty above round 1");
    e.no(11, "propose,8", "propose 11: member 3 not held in round 1");
    e.no(11, "propose,65535", "11 before 12");
    e.no(12, "propose,3", "propose 12: weight 2 of 4");
    e.ok("propose,7", "");
    e.no(10, "propose,8", "10 before 11");
    e.ok("certify,10", "");
    e.no(28, "advance", "members 0 and 1: one certificate short in round 2, where 3 is endorsed; round 1 is a quorum still");
    e.ok("accept,2,2,7,3", "");
    e.ok("advance", "to round 3");

    e.part("round 3: the leader of round 2 is member 1");
    e.no(22, "commit", "commit 22: no votes");
    e.ok("propose,7", "names members 0, 1 and 2");
    e.no(22, "commit", "a proposal is no vote");
    e.ok("certify,6", "");
    e.no(22, "commit", "commit 22: weight 1 equals the bound 1");
    e.ok("accept,3,3,5,6", "names members 0 and 2, not the anchor's author");
    e.no(22, "commit", "commit 22: that one is no vote");
    e.ok("accept,2,3,7,3", "");
    e.record(b"chain", &["ok"], "an empty chain");
    e.record(b"commit", &["ok,1"], "weight 2 is more than the bound 1");
    e.record(b"chain", &["1,2,1,0,E,7,0,B,4,5", "1,2,2,1", "ok"], "the anchor named member 0 only");
    e.no(20, "commit", "commit 20");
    e.ok("advance", "to round 4");
    e.no(19, "commit", "commit 19 in an even round, after a block too");
    e.no(8, "accept,0,25,1,6", "with the last block in round 2 round 25 is not known");
    e.no(11, "accept,0,24,1,22", "round 24 is; its committee has member 4 with weight 5");
    e.no(9, "accept,0,22,1,22", "the bond of the block of round 2 is out at 22");
    e.no(13, "accept,0,23,1,14", "in at 23: total 9, bound 2, quorum 7, and 4 is short of it");
    e.no(11, "accept,0,23,1,22", "at 23 members 0, 1, 2 and 4 weigh 8");
    e.ok("accept,2,4,5,3", "the leader of round 4 is member 2");
    e.no(28, "advance", "weight 1 of 4");
    e.ok("accept,0,4,13,6", "");
    e.no(28, "advance", "weight 2 of 4");
    e.ok("accept,3,4,13,7", "");
    e.ok("advance", "to round 5");
    e.no(22, "commit", "");
    e.ok("accept,1,5,4,13", "");
    e.ok("accept,3,5,4,7", "");
    e.record(b"commit", &["ok,1"], "");
    e.record(
        b"chain",
        &["1,2,1,0,E,7,0,B,4,5", "1,2,2,1", "2,4,1,2", "2,4,1,1,E,1,0", "2,4,2,2", "2,4,2,0", "2,4,3,2", "2,4,3,0", "2,4,4,2", "ok"],
        "rounds rise, within a round numbers from the leader's, 2; nothing twice; member 3's certificate of round 3 is in no history",
    );

    e.part("ceiling 3");
    e.ok(&open("0", "", "3", "", &[]), "");
    e.record(b"chain", &["ok"], "afresh: an empty chain");
    e.no(5, "endorse,1,4,1", "over the ceiling");
    e.ok("accept,0,1,0,6", "one's own place may be filled by accept");
    for text in ["accept,2,1,0,3", "accept,3,1,0,3", "advance", "accept,0,2,13,6", "accept,2,2,13,3", "accept,3,2,13,3", "advance"] {
        e.ok(text, "members 0, 2 and 3: a quorum without the leader of round 2, member 1");
    }
    e.no(18, "advance", "advance 18, before 28: nothing is held in round 3");
    e.no(21, "commit", "commit 21: the leader's certificate is not held");
    e.no(18, "advance", "still 18");
    e.ok("accept,1,2,13,5", "the anchor, late");
    e.no(22, "commit", "");
    e.ok("accept,0,3,2,6", "");
    e.no(22, "commit", "");
    e.ok("accept,3,3,2,3", "");
    e.record(b"commit", &["ok,1"], "at the ceiling");
    e.ok("accept,2,3,2,3", "");
    e.no(18, "advance", "18 although round 3 is a quorum now");
    e.ok(&open("0", "", "3", "", &ALONE), "member 0 alone");
    e.no(28, "advance", "28 below the ceiling");
    for text in ["accept,0,1,0,0", "advance", "accept,0,2,1,0", "advance"] {
        e.ok(text, "");
    }
    e.no(18, "advance", "18 at it");
    e.no(22, "commit", "");
    e.ok("accept,0,3,1,0", "");
    e.record(b"commit", &["ok,1"], "");
    e.no(18, "advance", "");

    e.part("one's own certificate from elsewhere");
    e.ok(&open("0", "", "64", "", &[]), "");
    e.ok("propose,0,E,1,0", "");
    e.ok("accept,0,1,0,6,E,2,0", "another proposal in one's own place");
    e.no(10, "certify,6", "certify 10: own place held");
    e.no(28, "advance", "1 of 4");
    e.no(10, "certify,6", "the proposal is still there: 10, not 15");
    e.ok("accept,1,1,0,13", "");
    e.ok("accept,3,1,0,7", "");
    e.ok("advance", "");
    e.no(15, "certify,6", "");
    e.ok(&open("0", "", "64", "", &[]), "");
    e.ok("accept,0,1,0,6", "");
    e.no(10, "propose,0", "propose 10: own place held, no proposal");
    e.no(15, "certify,6", "15 before 10");
    e.no(16, "accept,0,1,0,10", "");

    e.part("outside the committee");
    e.ok(&open("5", "1", "64", "", &ALONE), "own 5, member 0 alone, lookback 1");
    e.no(9, "propose,0", "propose 9: own number outside");
    e.ok("endorse,0,1,0", "one's own membership is not tested here");
    e.no(15, "certify,1", "");
    e.ok("accept,0,1,0,0", "");
    e.no(9, "accept,5,1,0,1", "own certificate, outside");
    e.ok("advance", "one outside goes on by the certificates of others");
    e.no(9, "propose,1", "9");
    e.no(9, "propose,2", "9 before 11");
    e.ok("endorse,0,2,1", "");
    e.no(28, "advance", "an endorsed place is no certificate");
    for text in ["accept,0,2,1,0", "advance", "accept,0,3,1,0"] {
        e.ok(text, "");
    }
    e.ok("advance", "to round 4, no block");
    e.no(8, "propose,1", "propose 8 before 9: round 4 is not known with lookback 1 and no block");
    e.no(8, "propose,2", "8 before 11");
    e.no(7, "propose,0", "7 before 8");
    e.no(8, "advance", "advance 8: the present round is not known");

    e.part("lookback 1, member 0 alone: unknown rounds");
    e.ok(&open("0", "1", "64", "", &ALONE), "");
    e.ok("propose,0,B,1,5", "a bond in round 1");
    e.ok("certify,0", "");
    e.ok("advance", "");
    e.ok("propose,1", "");
    e.ok("certify,0", "");
    e.ok("advance", "");
    e.ok("propose,1", "round 3 is known: 3 - 1 is at most 0 + 2");
    e.ok("certify,0", "");
    e.no(8, "accept,0,4,1,0", "accept 8: round 4 is not");
    e.no(8, "endorse,1,5,1", "endorse 8: round 4 is not");
    e.no(11, "endorse,1,4,3", "endorsing in round 4 asks for round 3 only, which is known: 11");
    e.ok("endorse,1,4,1", "and accepted, though round 4 is not known and member 1 is outside in round 3");
    e.record(b"commit", &["ok,1"], "");
    e.no(9, "accept,1,3,1,1", "the bond of the block of round 2 is out at 3");
    e.no(13, "accept,0,4,1,0", "in at 4: 1 of 6, the quorum is 5");
    e.ok("accept,1,4,1,0", "5 of 6 is a quorum");
    e.ok("advance", "to round 4");
    e.ok("propose,1", "");
    e.no(13, "certify,0", "1 of 6");
    e.no(9, "certify,4", "");
    e.ok("certify,2", "6 of 6");
    e.ok("advance", "to round 5");
    e.ok("accept,0,5,1,2", "the leader of round 4 is member 0: position 2 mod 2");
    e.no(22, "commit", "commit 22: 1 of 6 equals the bound 1");
    e.ok("accept,1,5,2,0", "names member 1, not member 0");
    e.no(22, "commit", "no vote");
    e.ok("advance", "");
    e.no(8, "propose,1", "propose 8: round 6 needs the block of round 4 or one after it");
    e.no(8, "advance", "advance 8 for the same reason");
    e.no(19, "commit", "");
    e.ok(&open("0", "2", "64", "", &ALONE), "lookback 2: with no block round 5 is not known");
    for text in ["propose,0", "certify,0", "advance", "propose,1", "certify,0", "advance", "propose,1", "certify,0", "advance", "propose,1", "certify,0", "advance"] {
        e.ok(text, "");
    }
    e.no(8, "propose,1", "");
    e.no(8, "commit", "commit 8");
    e.no(8, "accept,0,5,1,0", "");
    e.no(8, "advance", "advance 8 in an odd round");
    e.no(15, "certify,0", "");

    e.part("unbond and bond in one proposal");
    e.ok(&open("0", "1", "64", "", &["1", "1", "0", "0"]), "members 0 and 1 of weight 1");
    e.ok("propose,0,U,1,0,B,1,5,B,2,3,U,2,0", "member 1 leaves and comes back with 5; member 2 comes and leaves");
    e.ok("certify,2", "2 of 2");
    e.no(28, "advance", "1 of 2");
    e.ok("accept,1,1,0,1", "");
    e.ok("advance", "2 of 2");
    e.ok("accept,1,2,1,1,U,7,0", "the leader of round 2; the unbond of a non-member does nothing");
    e.ok("accept,0,2,3,2", "");
    e.ok("advance", "");
    e.ok("accept,0,3,2,2", "");
    e.record(b"commit", &["ok,1"], "1 is more than the bound 0");
    e.no(9, "accept,0,4,1,4", "member 2 is out at 4");
    e.no(13, "accept,0,4,1,0", "1 of 6");
    e.ok("accept,1,4,1,0", "member 1 weighs 5 of 6");

    e.part("totals 3, 6 and 7");
    e.ok(&open("0", "", "64", "", &["1", "1", "1", "0"]), "total 3: bound 0, quorum 3");
    e.ok("propose,0", "");
    e.no(13, "certify,2", "2 of 3");
    e.ok("certify,6", "3 of 3");
    e.ok("accept,1,1,0,5", "");
    e.no(28, "advance", "members 0 and 1: 2 of 3");
    e.ok("accept,2,1,0,3", "");
    e.ok("advance", "3 of 3");
    e.ok(&open("0", "", "64", "", &["2", "2", "2", "0"]), "total 6: bound 1, quorum 5");
    e.ok("propose,0", "");
    e.no(13, "certify,2", "4 of 6");
    e.ok("certify,6", "6 of 6");
    e.ok("accept,2,1,0,3", "");
    e.no(28, "advance", "members 0 and 2: 4 of 6");
    e.ok("accept,1,1,0,5", "");
    e.ok("advance", "6 of 6");
    e.ok(&open("0", "", "64", "", &["5", "2", "0", "0"]), "total 7: bound 2, quorum 5");
    e.ok("propose,0", "");
    e.ok("accept,1,1,0,1", "");
    e.no(28, "advance", "member 1: 2 of 7");
    e.ok("certify,0", "5 of 7");
    e.ok("advance", "7 of 7");
    e.ok("propose,1", "");
    e.ok("certify,0", "");
    e.ok("advance", "member 0 alone: 5 of 7 is exactly a quorum");

    e.part("weights that grow from block to block; votes weigh in the committee of their own round");
    e.ok(&open("0", "2", "64", "", &[]), "lookback 2, members 0 to 3 of weight 1");
    e.ok("accept,0,1,0,14,B,0,5", "a bond of a member adds to its weight");
    for text in ["accept,1,1,0,13", "accept,2,1,0,11", "accept,3,1,0,7", "accept,1,2,15,13", "accept,0,2,15,14", "accept,2,2,15,11", "accept,0,3,7,14", "accept,2,3,7,11", "advance", "advance"] {
        e.ok(text, "");
    }
    e.record(b"commit", &["ok,1"], "the block of round 2: 6, 1, 1, 1 from round 5 on");
    e.ok("accept,2,4,5,11,B,1,10,B,0,4", "the anchor of 4; at 4 the weights are 1, 1, 1, 1 still");
    e.ok("accept,0,4,5,6", "3 of 4");
    e.no(28, "advance", "members 0 and 2: 2 of 4 in round 3; in the committee of 5 they would weigh 7 of 9");
    e.ok("accept,1,3,7,13", "");
    e.ok("advance", "");
    e.no(28, "advance", "members 0 and 2 again, in round 4");
    e.ok("accept,1,4,5,13", "");
    e.ok("advance", "to round 5: total 9, bound 2, quorum 7");
    e.no(13, "accept,1,5,4,12", "3 of 9");
    e.ok("accept,1,5,4,1", "7 of 9");
    e.no(22, "commit", "1 of 9");
    e.ok("accept,2,5,4,1", "7 of 9");
    e.no(22, "commit", "2 of 9 equals the bound 2; the bound of round 4 would be 1");
    e.ok("accept,3,5,1,1", "names member 0, not the anchor's author");
    e.no(28, "advance", "members 1, 2 and 3: 3 of 9; in the committee of round 4 they would be a quorum");
    e.ok("accept,0,5,4,2", "7 of 9");
    e.record(b"commit", &["ok,1"], "the block of round 4: 10, 11, 1, 1 from round 7 on");
    e.ok("accept,3,6,1,1", "7 of 9: at 6 the weights are 6, 1, 1, 1 still");
    e.ok("advance", "");
    e.no(28, "advance", "member 3: 1 of 9");
    e.ok("accept,0,6,1,2", "");
    e.ok("advance", "members 0 and 3: 7 of 9; to round 7: total 23, bound 7, quorum 16");
    e.no(13, "accept,0,7,8,12", "12 of 23");
    e.no(13, "accept,1,7,8,12", "13 of 23");
    e.ok("accept,0,7,8,2", "21 of 23");
    e.record(b"commit", &["ok,1"], "one vote of weight 10 is more than the bound 7");
    e.record(
        b"chain",
        &["1,2,1,1", "1,2,1,2", "1,2,1,3", "1,2,1,0,B,0,5", "1,2,2,1", "2,4,2,2", "2,4,2,0", "2,4,3,2", "2,4,3,0", "2,4,4,2,B,1,10,B,0,4", "3,6,5,0", "3,6,6,3", "ok"],
        "leaders of 2, 4 and 6 are 1, 2 and 3",
    );

    e.part("an empty committee");
    e.ok(&open("0", "1", "64", "", &ALONE), "");
    e.ok("propose,0,U,0,0", "");
    e.ok("certify,0", "");
    e.ok("advance", "");
    e.ok("propose,1", "");
    e.ok("certify,0", "");
    e.ok("advance", "");
    e.ok("propose,1", "");
    e.ok("certify,0", "");
    e.record(b"commit", &["ok,1"], "");
    e.ok("advance", "to round 4: its committee is empty");
    e.no(9, "propose,1", "");
    e.no(9, "accept,0,4,1,0", "");
    e.ok("advance", "to round 5: nobody is a quorum, 0 of 0");
    e.no(21, "commit", "commit 21: an empty committee has no leader");
    e.ok("advance", "to round 6, again with nothing held; round 5 is known and empty too");
    e.no(8, "advance", "round 6 is not known");
    e.no(8, "propose,1", "");
    e.ok(&open("0", "2", "64", "", &ALONE), "lookback 2: the committee of 4 is full, that of 5 empty");
    for text in ["propose,0,U,0,0", "certify,0", "advance", "propose,1", "certify,0", "advance", "propose,1", "certify,0"] {
        e.ok(text, "");
    }
    e.record(b"commit", &["ok,1"], "");
    for text in ["advance", "propose,1", "certify,0", "advance"] {
        e.ok(text, "");
    }
    e.no(9, "propose,1", "");
    e.no(22, "commit", "commit 22: total 0, bound 0, votes 0");
    e.ok("advance", "");
    e.ok("advance", "to round 7, which is not known");
    e.no(8, "commit", "");
    e.no(8, "advance", "");
    e.ok(&open("0", "3", "64", "", &ALONE), "lookback 3: the committees of 6 and 7 are empty, that of 8 has member 1");
    for text in ["propose,0,U,0,0", "certify,0", "advance", "propose,1", "certify,0", "advance", "propose,1,B,1,2", "certify,0", "advance", "propose,1", "certify,0", "advance", "propose,1", "certify,0"] {
        e.ok(text, "rounds 1 to 5; the block of 2 unbonds member 0, that of 4 bonds member 1");
    }
    e.record(b"commit", &["ok,2"], "");
    e.ok("advance", "to round 6");
    e.no(9, "accept,0,6,1,0", "");
    e.ok("advance", "to round 7: 0 of 0");
    e.ok("advance", "to round 8: 0 of 0");
    e.no(28, "advance", "0 of 2: the committee is not empty any more");
    e.no(11, "accept,1,8,1,0", "nor is anything held in round 7 that a certificate of 8 could name");
    e.no(28, "advance", "so it stays thin");

    e.part("advance: 18, 8, 28 in this order; certificates of the present round alone count, by its own committee");
    e.ok(&open("0", "", "64", "", &[]), "members 0 to 3 of weight 1");
    for text in ["endorse,1,1,0", "endorse,2,1,0", "endorse,3,1,0"] {
        e.ok(text, "");
    }
    e.no(28, "advance", "three endorsed places, nothing held");
    e.ok("accept,3,1,0,7", "");
    for text in ["accept,0,2,8,14", "accept,1,2,8,13", "accept,2,2,8,11", "accept,3,2,8,7"] {
        e.ok(text, "round 2, all naming member 3");
    }
    e.no(28, "advance", "1 of 4 in round 1, though 4 of 4 in round 2");
    e.ok("accept,1,1,0,13", "");
    e.no(28, "advance", "one certificate short");
    e.ok("accept,0,1,0,14", "");
    e.ok("advance", "accepted with it: 3 of 4");
    e.ok("advance", "to round 3 at once");
    e.no(28, "advance", "nothing in round 3, though 4 of 4 in round 2");
    for text in ["accept,1,3,15,13", "accept,2,3,15,11"] {
        e.ok(text, "");
    }
    e.no(28, "advance", "2 of 4");
    e.record(b"commit", &["ok,1"], "a commit asks no quorum of the present round");
    e.no(28, "advance", "2 of 4 still");
    e.ok("accept,3,3,15,7", "");
    e.ok("advance", "to round 4");
    e.ok(&open("0", "1", "4", "", &ALONE), "lookback 1, ceiling 4: round 4 is not known without a block");
    for text in ["propose,0", "certify,0", "advance", "propose,1", "certify,0", "advance", "propose,1", "certify,0", "advance"] {
        e.ok(text, "");
    }
    e.no(8, "propose,1", "round 4 is not known");
    e.no(18, "advance", "18 before 8");
    e.ok(&open("0", "1", "5", "", &ALONE), "ceiling 5");
    for text in ["propose,0", "certify,0", "advance", "propose,1", "certify,0", "advance", "propose,1", "certify,0", "advance"] {
        e.ok(text, "");
    }
    e.no(8, "advance", "8 below the ceiling, not 28: nothing is held in round 4");
    e.ok(&open("0", "1", "64", "", &ALONE), "a member joins");
    for text in ["propose,0,B,1,5", "certify,0", "advance", "propose,1", "certify,0", "advance", "propose,1", "certify,0"] {
        e.ok(text, "");
    }
    e.record(b"commit", &["ok,1"], "1 and 5 from round 4 on");
    e.ok("advance", "to round 4: 1 of 1 in round 3, whose committee has member 0 alone");
    e.ok("accept,0,4,1,2", "");
    e.no(28, "advance", "1 of 6");
    e.ok("accept,1,4,1,0", "");
    e.ok("advance", "6 of 6");
    e.ok("accept,1,5,2,0", "");
    e.ok("advance", "member 1 alone: 5 of 6 is exactly a quorum");
    e.ok(&open("0", "1", "64", "", &["1", "1", "0", "0"]), "a member leaves");
    for text in ["accept,0,1,0,2,U,0,0", "accept,1,1,0,1", "advance", "accept,1,2,3,1", "accept,0,2,3,2", "advance", "accept,1,3,3,1"] {
        e.ok(text, "");
    }
    e.record(b"commit", &["ok,1"], "member 1 alone from round 4 on");
    e.no(28, "advance", "1 of 2 in round 3, whose committee still has member 0");
    e.ok("accept,0,3,3,2", "");
    e.ok("advance", "to round 4");
    e.no(28, "advance", "0 of 1");
    e.ok("accept,1,4,3,0", "");
    e.ok("advance", "1 of 1: in the committee of round 3 it would be 1 of 2");

    e.part("several blocks in one commit");
    e.ok(&open("0", "", "64", "", &ALONE), "");
    e.ok("propose,0,E,1,0,E,2,0,E,3,0,E,4294967295,0", "four transactions");
    e.ok("certify,0", "");
    for _ in 0..6 {
        e.ok("advance", "");
        e.ok("propose,1", "");
        e.ok("certify,0", "");
    }
    e.record(b"commit", &["ok,3"], "rounds 2, 4 and 6, oldest first");
    e.record(b"chain", &["1,2,1,0,E,1,0,E,2,0,E,3,0,E,4294967295,0", "1,2,2,0", "2,4,3,0", "2,4,4,0", "3,6,5,0", "3,6,6,0", "ok"], "");

    e.part("an anchor not in the history is left out, an older one in it is taken");
    e.ok(&open("0", "", "64", "", &[]), "leaders of 2, 4, 6 are 1, 2, 3");
    for text in ["accept,3,1,0,3", "accept,2,1,0,3", "accept,1,1,0,5", "accept,0,1,0,6"] {
        e.ok(text, "round 1");
    }
    for text in ["accept,2,2,15,3", "accept,1,2,15,5", "accept,0,2,15,6"] {
        e.ok(text, "round 2");
    }
    e.ok("accept,0,3,5,6", "passes by the anchor of 2");
    e.ok("accept,2,3,5,3", "passes by the anchor of 2");
    e.ok("accept,1,3,2,5", "names it");
    e.ok("accept,2,4,5,3", "the anchor of 4: the anchor of 2 is not in its history");
    e.ok("accept,0,4,7,6", "");
    e.ok("accept,0,5,1,6", "passes by the anchor of 4");
    e.ok("accept,3,6,1,3", "the anchor of 6");
    e.ok("accept,0,7,8,6", "a vote");
    e.ok("accept,1,7,8,5", "a vote");
    for text in ["accept,1,4,7,5", "accept,1,5,3,5", "accept,2,5,3,3", "accept,0,6,7,6", "accept,1,6,7,5"] {
        e.ok(text, "for a quorum in its round; in none of the histories");
    }
    e.ok("advance", "");
    e.ok("advance", "to round 3");
    e.no(22, "commit", "weight 1 equals the bound 1");
    e.ok("advance", "");
    e.ok("advance", "to round 5");
    e.no(22, "commit", "no votes");
    e.ok("advance", "");
    e.ok("advance", "to round 7");
    e.record(b"commit", &["ok,2"], "rounds 2 and 6");
    e.record(
        b"chain",
        &["1,2,1,1", "1,2,1,2", "1,2,1,3", "1,2,1,0", "1,2,2,1", "2,6,2,0", "2,6,2,2", "2,6,3,0", "2,6,3,1", "2,6,3,2", "2,6,4,0", "2,6,5,0", "2,6,6,3", "ok"],
        "the certificate of member 2 in round 4 is in no block; from 3 on, with 3 missing, numbers read 0, 1, 2",
    );

    e.part("the history of the latest one taken counts, not that of the first");
    e.ok(&open("0", "", "64", "", &[]), "");
    for text in ["accept,3,1,0,3", "accept,2,1,0,3", "accept,1,1,0,5", "accept,0,1,0,6"] {
        e.ok(text, "round 1");
    }
    for text in ["accept,2,2,15,3", "accept,1,2,15,5", "accept,0,2,15,6"] {
        e.ok(text, "round 2");
    }
    e.ok("accept,0,3,5,6", "passes by the anchor of 2");
    e.ok("accept,1,3,2,5", "names it");
    e.ok("accept,2,4,1,3", "the anchor of 4: the anchor of 2 is not in its history");
    e.ok("accept,0,4,2,6", "the anchor of 2 is in the history of this one");
    e.ok("accept,0,5,5,6", "names both");
    e.ok("accept,3,6,1,3", "the anchor of 6");
    e.ok("accept,0,7,8,6", "a vote");
    e.ok("accept,1,7,8,5", "a vote");
    for text in ["accept,2,3,5,3", "accept,1,4,7,5", "accept,1,5,7,5", "accept,2,5,7,3", "accept,0,6,7,6", "accept,1,6,7,5"] {
        e.ok(text, "for a quorum in its round; in none of the histories");
    }
    for _ in 0..6 {
        e.ok("advance", "");
    }
    e.record(b"commit", &["ok,2"], "rounds 4 and 6");
    e.record(
        b"chain",
        &["1,4,1,2", "1,4,1,3", "1,4,1,0", "1,4,1,1", "1,4,2,2", "1,4,2,0", "1,4,3,0", "1,4,4,2", "2,6,2,1", "2,6,3,1", "2,6,4,0", "2,6,5,0", "2,6,6,3", "ok"],
        "the anchor of 2 comes in as a plain certificate; one leader for all rounds of a block",
    );
    e.no(17, "accept,1,2,1,5", "a certificate in a block is held as ever");

    e.part("order inside a block: with anchor author 2 and members 0 to 3, a full round reads 2, 3, 0, 1");
    e.ok(&open("0", "", "64", "", &[]), "leaders of 2 and 4 are 1 and 2");
    for text in ["accept,3,1,0,7,U,0,0", "accept,0,1,0,14,E,10,0", "accept,2,1,0,11,E,12,0", "accept,1,1,0,13,E,11,0"] {
        e.ok(text, "round 1; the block of 2 unbonds member 0, from round 23 on");
    }
    for text in ["accept,1,2,15,13", "accept,3,2,15,7", "accept,0,2,15,14", "accept,2,2,15,11"] {
        e.ok(text, "round 2");
    }
    for text in ["accept,3,3,15,7,E,33,0", "accept,2,3,15,11,E,32,0", "accept,1,3,15,13,E,31,0", "accept,0,3,15,14,E,30,0"] {
        e.ok(text, "round 3");
    }
    e.ok("accept,2,4,15,11", "the anchor of 4");
    e.ok("accept,3,4,15,7", "for a quorum");
    e.ok("accept,0,4,15,14", "for a quorum");
    e.ok("accept,0,5,4,14", "a vote");
    e.ok("accept,1,5,4,13", "a vote");
    for _ in 0..4 {
        e.ok("advance", "");
    }
    e.record(b"commit", &["ok,2"], "rounds 2 and 4");
    e.record(
        b"chain",
        &[
            "1,2,1,1,E,11,0", "1,2,1,2,E,12,0", "1,2,1,3,U,0,0", "1,2,1,0,E,10,0", "1,2,2,1",
            "2,4,2,2", "2,4,2,3", "2,4,2,0", "2,4,3,2,E,32,0", "2,4,3,3,E,33,0", "2,4,3,0,E,30,0", "2,4,3,1,E,31,0", "2,4,4,2", "ok",
        ],
        "each block from its own leader; that of 4 by the committee of round 4, which still has member 0",
    );

    e.part("order inside a block: 0 after 15");
    let weights = ["", "", "0", "0", "", "", "", "", "", "", "", "", "", "", "1", "1"];
    e.ok(&open("0", "", "64", "", &weights), "members 0, 1, 14, 15; leaders of 2, 4, 6 are 1, 14, 15");
    let others = [(0, 49_154), (1, 49_153), (14, 32_771), (15, 16_387)];
    for round in 1..=5 {
        let previous = if round == 1 { 0 } else { 49_155 };
        for (author, endorsers) in others {
            e.ok(&format!("accept,{author},{round},{previous},{endorsers}"), "a full round");
        }
    }
    e.ok("accept,15,6,49155,16387", "the anchor of 6");
    e.ok("accept,0,6,49155,49154", "for a quorum");
    e.ok("accept,14,6,49155,32771", "for a quorum");
    e.ok("accept,0,7,32768,49154", "a vote");
    e.ok("accept,1,7,32768,49153", "a vote");
    for _ in 0..6 {
        e.ok("advance", "");
    }
    e.record(b"commit", &["ok,3"], "rounds 2, 4 and 6");
    e.record(
        b"chain",
        &[
            "1,2,1,1", "1,2,1,14", "1,2,1,15", "1,2,1,0", "1,2,2,1",
            "2,4,2,14", "2,4,2,15", "2,4,2,0", "2,4,3,14", "2,4,3,15", "2,4,3,0", "2,4,3,1", "2,4,4,14",
            "3,6,4,15", "3,6,4,0", "3,6,4,1", "3,6,5,15", "3,6,5,0", "3,6,5,1", "3,6,5,14", "3,6,6,15", "ok",
        ],
        "14, 15, 0, 1 and 15, 0, 1, 14",
    );

    e.part("order inside a block: the leader by the committee of the block's round, lookback rounds behind its chain");
    e.ok(&open("0", "2", "64", "", &[]), "lookback 2, members 0 to 3 of weight 1");
    for text in ["accept,0,1,0,14", "accept,1,1,0,13", "accept,2,1,0,11", "accept,3,1,0,7,U,0,0"] {
        e.ok(text, "round 1; member 0 is out from round 5 on");
    }
    for text in ["accept,0,2,15,14", "accept,1,2,15,13", "accept,2,2,15,11", "accept,3,2,15,7"] {
        e.ok(text, "round 2");
    }
    for text in ["accept,0,3,15,14,B,7,1", "accept,1,3,15,13", "accept,2,3,15,11", "accept,3,3,15,7"] {
        e.ok(text, "round 3; member 7 is in from round 7 on");
    }
    e.ok("advance", "");
    e.ok("advance", "to round 3");
    e.record(b"commit", &["ok,1"], "the block of round 2");
    for text in ["accept,0,4,15,14", "accept,1,4,15,13", "accept,2,4,15,11", "accept,3,4,15,7"] {
        e.ok(text, "round 4: the leader is 2, of 0, 1, 2, 3");
    }
    for text in ["accept,1,5,15,12", "accept,2,5,15,10", "accept,3,5,15,6"] {
        e.ok(text, "round 5: members 1, 2, 3");
    }
    e.ok("advance", "");
    e.ok("advance", "to round 5");
    e.record(b"commit", &["ok,1"], "the block of round 4");
    for text in ["accept,1,6,14,12", "accept,2,6,14,10", "accept,3,6,14,6"] {
        e.ok(text, "round 6: the leader is 1, of 1, 2, 3");
    }
    for text in ["accept,2,7,14,10", "accept,3,7,14,6"] {
        e.ok(text, "round 7: members 1, 2, 3, 7");
    }
    e.ok("advance", "");
    e.ok("advance", "to round 7");
    e.record(b"commit", &["ok,1"], "the block of round 6");
    e.record(
        b"chain",
        &[
            "1,2,1,1", "1,2,1,2", "1,2,1,3,U,0,0", "1,2,1,0", "1,2,2,1",
            "2,4,2,2", "2,4,2,3", "2,4,2,0", "2,4,3,2", "2,4,3,3", "2,4,3,0,B,7,1", "2,4,3,1", "2,4,4,2",
            "3,6,4,1", "3,6,4,3", "3,6,4,0", "3,6,5,1", "3,6,5,2", "3,6,5,3", "3,6,6,1", "ok",
        ],
        "from 1, 2 and 1; by the chain so far it would be from 1, 3 and 7, by the starting weights from 1, 2 and 3",
    );

    e.part("order inside a block decides committees: bonds and unbonds of one member in one round");
    e.ok(&open("0", "1", "64", "", &[]), "lookback 1; the leader of 2 is member 1, so round 1 reads 1, 2, 3, 0");
    e.ok("accept,0,1,0,14,B,0,5,B,4,5", "last: bonds 0 and 4");
    e.ok("accept,1,1,0,13,U,4,0", "first: unbonds 4, which is no member yet");
    e.ok("accept,2,1,0,11", "");
    e.ok("accept,3,1,0,7,U,0,0", "before 0: unbonds 0");
    e.ok("accept,1,2,15,13", "the anchor of 2");
    e.ok("accept,2,2,15,11", "for a quorum");
    e.ok("accept,3,2,15,7", "for a quorum");
    e.ok("accept,0,3,2,14", "a vote");
    e.ok("accept,2,3,2,11", "a vote");
    e.ok("advance", "");
    e.ok("advance", "to round 3");
    e.record(b"commit", &["ok,1"], "weights 5, 1, 1, 1, 5 from round 4 on; by round, then author, they would be 0, 1, 1, 1, 0");
    e.record(b"chain", &["1,2,1,1,U,4,0", "1,2,1,2", "1,2,1,3,U,0,0", "1,2,1,0,B,0,5,B,4,5", "1,2,2,1", "ok"], "");
    e.no(13, "accept,1,4,1,12", "3 of 13, the quorum is 9");
    e.ok("accept,4,4,1,1", "10 of 13");
    e.ok("accept,2,4,1,17", "the leader of 4: of 0, 1, 2, 3, 4 the one at position 2 mod 5; of 1, 2, 3 it would be 3");
    e.no(28, "advance", "members 0 and 2 in round 3");
    e.ok("accept,3,3,12,7", "names others than the anchor's author");
    e.ok("advance", "");
    e.no(28, "advance", "members 2 and 4: 6 of 13 in round 4");
    e.ok("accept,3,4,1,17", "");
    e.no(28, "advance", "members 2, 3 and 4: 7 of 13");
    e.ok("accept,0,4,1,16", "");
    e.ok("advance", "to round 5: 12 of 13");
    e.no(22, "commit", "");
    e.ok("accept,0,5,4,16", "a vote of weight 5");
    e.record(b"commit", &["ok,1"], "5 is more than the bound 4");
    e.record(
        b"chain",
        &["1,2,1,1,U,4,0", "1,2,1,2", "1,2,1,3,U,0,0", "1,2,1,0,B,0,5,B,4,5", "1,2,2,1", "2,4,3,0", "2,4,4,2", "ok"],
        "",
    );
    e.ok(&open("0", "1", "64", "", &[]), "the reverse");
    e.ok("accept,0,1,0,14,U,4,0", "last: unbonds 4");
    e.ok("accept,1,1,0,13,B,4,5", "first: bonds 4");
    e.ok("accept,2,1,0,11,U,3,0", "unbonds 3");
    e.ok("accept,3,1,0,7,B,3,5", "bonds 3, after 2 in either order");
    e.ok("accept,1,2,15,13", "the anchor of 2");
    e.ok("accept,2,2,15,11", "for a quorum");
    e.ok("accept,3,2,15,7", "for a quorum");
    e.ok("accept,0,3,2,14", "a vote");
    e.ok("accept,2,3,2,11", "a vote");
    e.ok("advance", "");
    e.ok("advance", "to round 3");
    e.record(b"commit", &["ok,1"], "weights 1, 1, 1, 5 from round 4 on");
    e.no(9, "accept,4,4,1,1", "member 4 came and left");
    e.no(13, "accept,0,4,1,6", "3 of 8, the quorum is 6");
    e.ok("accept,0,4,1,8", "6 of 8");

    margins(e);

    e.part("the last record, without its CRLF");
    e.stream.extend_from_slice(b"advance");
    e.answers(b"advance", &["refused,24"], "unreadable, not executed");

    e.write(directory, "edge");

    let mut e = Edges::new();
    oldest_first(&mut e);
    e.write(directory, "oldest-first");

    // Ends of the input: stream and number of answers 24.
    let no_end = "0".repeat(5_000);
    let cut = open("0", "", "64", "", &ALONE);
    let at_limit = format!("{}\r\n", "0".repeat(1_022));
    let tails: [(&[u8], usize); 14] = [
        (b"", 0),
        (b"advance", 1),
        (b"\r", 1),
        (b"\n", 1),
        (b"advance\r", 1),
        (b"\r\n", 1),
        (b"\n\r\n", 1),
        (b"\r\r\n", 1),
        (b"\r\n\n", 2),
        (b"\r\n\r", 2),
        (b"\r\n\r\n", 2),
        (no_end.as_bytes(), 1),
        (cut.as_bytes(), 1),
        (at_limit.as_bytes(), 1),
    ];
    for (i, (bytes, answers)) in tails.iter().enumerate() {
        fs::write(directory.join(format!("tail-{}.stream", i + 1)), bytes).unwrap();
        fs::write(directory.join(format!("tail-{}.expected", i + 1)), "refused,24\r\n".repeat(*answers)).unwrap();
    }
}
