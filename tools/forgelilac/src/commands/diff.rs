//! `diff`: the first record at which two runners answer differently, and what decides it.

use crate::answers::{bare, said_in, Said};
use crate::arguments::{bytes_of, number, plain, Arguments, Choice, Command};
use crate::failure::{input, Failure, Outcome};
use crate::meaning::{self, rule_of, sections_of};
use crate::progress::Progress;
use crate::records::{members_in, raws_of, read, Raw, Record, Unreadable};
use crate::runner::Runner;
use crate::settings::{sheet_of, told, Setting};
use crate::weights::{count, grouped, Committee};
use forgelilac::{leader, Engine, Member, Round, Set};
use std::fmt::Write as _;
use std::io::{Read, Write};
use std::process::{Command as Process, Stdio};

pub const COMMAND: Command = Command {
    name: "diff",
    forms: &["A B STREAM"],
    about: "the first record at which two runners part, in words",
    details: "\
A and B are runners or what runners wrote: a file that may be executed is run (by its path; PATH is not
searched), a word with a blank in it is a command line for sh, and any other file has answers. Each runner is
given STREAM whole. Told is the first record that they answer differently: its number and line, what either
said and what it means, what the engine of this library says, the open that it stands under, the weights that
it goes by, and the section of docs/RULES.md that decides. Status 0: the same; 1: they part. Answers alone are
compared, a runner's own status is told beside; two that answer nothing to records are taken for no runners.",
    choices: &[Choice { name: "names", value: Some("A,B"), about: "what the two are called, A and B if not given" }],
    run,
};

fn run(arguments: &Arguments) -> Result<Outcome, Failure> {
    arguments.count(3..=3, "A, B and STREAM")?;
    let [a, b, path] = &arguments.operands[..] else { return input("wanted are A, B and STREAM") };
    let stream = bytes_of(path)?;
    let names = arguments.value("names").and_then(|names| names.split_once(',')).unwrap_or(("A", "B"));
    let written = [(a, names.0), (b, names.1)].map(|(what, name)| written_by(what, name, &stream));
    let [of_a, of_b] = written;
    let (of_a, of_b) = (of_a?, of_b?);
    let raws = raws_of(&stream);
    if of_a.is_empty() && of_b.is_empty() && !raws.is_empty() {
        return input(format!(
            "{} and {} answer nothing to {}: are they runners?",
            names.0,
            names.1,
            count(raws.len(), "record")
        ));
    }
    if of_a == of_b {
        let bytes = count(of_a.len(), "byte");
        return Ok(format!("the same: {}, {bytes} of answers\n", count(raws.len(), "record")).into());
    }
    let pair = Pair { names, said: [said_in(&of_a), said_in(&of_b)] };
    Ok(Outcome { text: pair.told(path, &raws), fine: false })
}

// ---- what a runner writes

fn written_by(what: &str, name: &str, stream: &[u8]) -> Result<Vec<u8>, Failure> {
    use std::os::unix::fs::PermissionsExt;
    let file = std::fs::metadata(what).ok().filter(std::fs::Metadata::is_file);
    match file {
        Some(file) if file.permissions().mode() & 0o111 != 0 => {
            let path =
                std::fs::canonicalize(what).or_else(|error| input(format!("cannot run {what}: {}", plain(&error))))?;
            answered(Process::new(path), what, name, stream)
        }
        Some(_) => bytes_of(what),
        None if what.contains(' ') => {
            let mut process = Process::new("sh");
            process.args(["-c", what]);
            answered(process, what, name, stream)
        }
        None => input(format!("cannot read {what}: it is no file and no command line")),
    }
}

fn answered(mut process: Process, what: &str, name: &str, stream: &[u8]) -> Result<Vec<u8>, Failure> {
    let cannot = |error: &std::io::Error| Failure::Input(format!("cannot run {what}: {}", plain(error)));
    let mut child = process.stdin(Stdio::piped()).stdout(Stdio::piped()).spawn().map_err(|error| cannot(&error))?;
    let (Some(mut to), Some(mut from)) = (child.stdin.take(), child.stdout.take()) else {
        return input(format!("cannot run {what}: it has no pipes"));
    };
    let mut written = Vec::new();
    let mut progress = Progress::of("bytes of answers");
    std::thread::scope(|scope| {
        // A runner that goes away early has written what it has written.
        scope.spawn(move || to.write_all(stream).is_ok());
        let mut piece = [0; 65_536];
        loop {
            match from.read(&mut piece) {
                Ok(0) => return Ok(()),
                Ok(bytes) => written.extend_from_slice(&piece[..bytes]),
                Err(error) if error.kind() == std::io::ErrorKind::Interrupted => {}
                Err(error) => return Err(cannot(&error)),
            }
            progress.so_far(written.len());
        }
    })?;
    let status = child.wait().map_err(|error| cannot(&error))?;
    if !status.success() {
        crate::source::say_beside(&format!("{name}, {what}: {status}"));
    }
    Ok(written)
}

// ---- where they part

struct Pair<'a> {
    names: (&'a str, &'a str),
    said: [Vec<Said>; 2],
}

/// The open that a record stands under.
struct Under {
    place: String,
    shown: String,
}

impl Pair<'_> {
    fn told(&self, path: &str, raws: &[Raw<'_>]) -> String {
        let (mut engine, mut under) = (Runner::plain(), None);
        for (at, raw) in raws.iter().enumerate() {
            let record = read(raw);
            let (a, b) = (self.said[0].get(at), self.said[1].get(at));
            if a != b {
                return self.parted(path, raw, &record, engine, under.as_ref());
            }
            let answer = engine.answer(&record);
            if let (Ok(Record::Open { .. }), crate::runner::Answer::Ok) = (&record, answer) {
                under = Some(Under { place: raw.place(), shown: raw.shown() });
            }
        }
        let more = if self.said[0].len() > self.said[1].len() { self.names.0 } else { self.names.1 };
        format!("The answers to all {} are the same; {more} writes more behind them.\n", count(raws.len(), "record"))
    }

    fn parted(
        &self, path: &str, raw: &Raw<'_>, record: &Result<Record, Unreadable>, mut runner: Runner,
        under: Option<&Under>,
    ) -> String {
        let at = raw.number - 1;
        let [a, b] = [&self.said[0], &self.said[1]].map(|said| said.get(at));
        let mut text = format!("The first difference in {path} is in {}.\n", raw.place());
        let mut line = |name: &str, words: &str| {
            let name = if name.is_empty() { String::new() } else { format!("{name}:") };
            let _ = writeln!(text, "{name:<9} {words}");
        };
        line("record", &raw.shown());
        line("", &record.as_ref().map_or_else(|why| format!("cannot be read: {why}"), Record::told));
        let facts = runner.engine.as_ref().map(|engine| facts_of(engine, record)).unwrap_or_default();
        let missing = runner.engine.as_ref().and_then(|engine| not_held(engine, record));
        let settings = runner.engine.as_ref().map(|engine| (engine.own(), told(&sheet_of(engine)), before(engine)));
        let ours = Said::of(&runner.answer(record));
        let (here, there) = first_lines(a, b);
        for (name, said, other) in [(self.names.0, a, here), (self.names.1, b, there)] {
            line(name, &said_of(said, other));
        }
        let other = if a == Some(&ours) { b } else { a };
        let first = first_lines(Some(&ours), other).0;
        line("engine", &said_of(Some(&ours), first));
        let order = runner.engine.as_ref().zip(first).and_then(|(engine, at)| order_of(engine, &ours, at));
        match (under, settings) {
            (Some(under), Some((own, settings, before))) => {
                line("open", &format!("{}: {}", under.place, under.shown));
                line("", &format!("member {own}; {settings}"));
                line("before", &before);
            }
            _ => line("open", "none before this record was accepted"),
        }
        for fact in facts {
            line("weights", &fact);
        }
        if let Some(missing) = missing {
            line("named", &missing);
        }
        if let Some(order) = order {
            line("order", &order);
        }
        let numbers = [a, b, Some(&ours)].map(|said| said.and_then(Said::refused));
        for rule in rules(record, numbers) {
            line("rule", &rule);
        }
        text
    }
}

/// What is said of an answer: its closing line and meaning; of a listing the first line that is another.
fn said_of(said: Option<&Said>, first: Option<usize>) -> String {
    let Some(said) = said else { return "nothing: its answers end before".to_owned() };
    let show = |line: &[u8]| {
        String::from_utf8_lossy(bare(line).trim_ascii_end()).escape_debug().to_string().replace("\\\"", "\"")
    };
    let ends = |line: &[u8]| if line.ends_with(b"\r\n") { "" } else { ", without its CRLF" };
    let closing = said.lines.last().map_or(&[][..], Vec::as_slice);
    let mut words = format!("{}{}", show(closing), ends(closing));
    if let Some(number) = said.refused() {
        let _ = write!(words, ": {}", meaning::of(number));
    } else if let Some(blocks) = said.closing().strip_prefix(b"ok,") {
        let _ = write!(words, ": so many blocks made, {}", String::from_utf8_lossy(blocks));
    } else if said.accepted() {
        words.push_str(": accepted");
    } else {
        words.push_str(": no answer of a runner");
    }
    if said.lines.len() > 1 {
        let _ = write!(words, ", behind {}", count(said.lines.len() - 1, "line"));
    }
    if let Some((at, line)) = first.and_then(|at| said.lines.get(at).map(|line| (at, line))) {
        if said.lines.len() > 1 || at > 0 {
            let _ = write!(words, "; line {}: {}{}", at + 1, show(line), ends(line));
        }
    }
    words
}

/// The place of the first line that differs, for either.
fn first_lines(a: Option<&Said>, b: Option<&Said>) -> (Option<usize>, Option<usize>) {
    let (Some(a), Some(b)) = (a, b) else { return (None, None) };
    let first = a.lines.iter().zip(&b.lines).position(|(one, other)| one != other);
    let first = first.unwrap_or(a.lines.len().min(b.lines.len()));
    (Some(first), Some(first))
}

fn before(engine: &Engine) -> String {
    let blocks = count(engine.blocks() as usize, "block");
    let last = engine.block(engine.blocks()).map_or(String::new(), |round| format!(", the last of round {round}"));
    let proposal = if engine.proposal().is_some() { "a proposal" } else { "no proposal" };
    let held = members_in(engine.held(engine.round()));
    format!("round {}, {blocks}{last}, {proposal}; held in this round: by {held}", engine.round())
}

/// Of a line of a listing: whose number its block begins with.
fn order_of(engine: &Engine, listed: &Said, at: usize) -> Option<String> {
    let line = String::from_utf8_lossy(bare(listed.lines.get(at)?)).into_owned();
    let fields: Vec<_> = line.split(',').take(4).filter_map(number).collect();
    let [block, round, _, _] = fields[..] else { return None };
    let leader = leader(Round::new(round), &engine.committee(Round::new(round)).ok()?)?;
    Some(format!(
        "block {block} is of round {round}, whose leader is member {leader}: in each of its rounds numbers rise from {leader}, with 0 after 15"
    ))
}

/// Which certificates of those that a record names are held, and which are not.
fn not_held(engine: &Engine, record: &Result<Record, Unreadable>) -> Option<String> {
    let (round, previous) = match record {
        Ok(Record::Propose { previous, .. }) => (engine.round(), *previous),
        Ok(Record::Endorse(proposal)) => (proposal.round, proposal.previous),
        Ok(Record::Accept(certificate)) => (certificate.proposal.round, certificate.proposal.previous),
        _ => return None,
    };
    let held = engine.held(round.before());
    let (here, missing) = (members_in(previous & held), members_in(previous & !held));
    (previous != 0).then(|| format!("of round {}: held by {here}, not held by {missing}", round.before()))
}

/// The weights that the answer to a record goes by.
fn facts_of(engine: &Engine, record: &Result<Record, Unreadable>) -> Vec<String> {
    let present = engine.round();
    let weighed = |round: Round, what: &str, set: Set| of_committee(engine, round, Some((what, set)));
    match record {
        Ok(Record::Propose { previous, .. }) if present > 1 => {
            vec![weighed(present.before(), "the previous set", *previous)]
        }
        Ok(Record::Propose { .. }) => vec![of_committee(engine, present, None)],
        Ok(Record::Endorse(proposal)) if proposal.round > 1 => {
            vec![weighed(proposal.round.before(), "the previous set", proposal.previous)]
        }
        Ok(Record::Certify { endorsers }) => vec![weighed(present, "the signers", endorsers | engine.own().bit())],
        Ok(Record::Accept(certificate)) => {
            let author = certificate.proposal.author;
            let own = if author <= 15 { author.bit() } else { 0 };
            vec![weighed(certificate.proposal.round, "the signers", certificate.endorsers | own)]
        }
        Ok(Record::Advance) => vec![weighed(present, "the authors that are held", engine.held(present))],
        Ok(Record::Commit) => of_commit(engine),
        _ => Vec::new(),
    }
}

fn of_committee(engine: &Engine, round: Round, weighed: Option<(&str, Set)>) -> String {
    let weights = match engine.committee(round) {
        Ok(weights) => weights,
        Err(refusal) => return format!("the committee of round {round}: {refusal}"),
    };
    let committee = Committee { weights, margin: Setting::Margin.filled(&sheet_of(engine)) };
    let mut words = format!(
        "round {round}: {}; total {}, fault bound {}, quorum {}",
        committee.told(),
        grouped(committee.total()),
        grouped(committee.bound()),
        grouped(committee.quorum())
    );
    if let Some((what, set)) = weighed {
        let _ = write!(words, "; {what}, {}, weigh {}", members_in(set), grouped(committee.weight_of(set)));
    }
    words
}

fn of_commit(engine: &Engine) -> Vec<String> {
    let (present, before) = (engine.round(), engine.round().before());
    let Some(leader) = engine.committee(before).ok().and_then(|weights| leader(before, &weights)) else {
        return vec![of_committee(engine, present, None)];
    };
    let held = engine.held(before) & leader.bit() != 0;
    let names = |author: &Member| {
        engine.certificate(*author, present).is_ok_and(|held| held.proposal.previous & leader.bit() != 0)
    };
    let votes: Set = Member::all_in(engine.held(present)).filter(names).map(Member::bit).sum();
    let leads = format!(
        "the leader of round {before} is member {leader}, whose certificate is {}held",
        if held { "" } else { "not " }
    );
    vec![leads, of_committee(engine, present, Some(("the votes", votes)))]
}

/// The sections that decide between these numbers.
fn rules(record: &Result<Record, Unreadable>, numbers: [Option<u32>; 3]) -> Vec<String> {
    let name = record.as_ref().map_or("", Record::name);
    let rule = rule_of(name);
    let order: Vec<_> = rule.checks.iter().map(ToString::to_string).collect();
    let mut rules =
        vec![format!("docs/RULES.md, \"{}\": its checks are {}, in this order", rule.section, order.join(", "))];
    let mut seen = Vec::new();
    for number in numbers.into_iter().flatten() {
        if !seen.contains(&number) {
            seen.push(number);
            let sections: Vec<_> = sections_of(number).iter().map(|section| format!("\"{section}\"")).collect();
            let sections = if sections.is_empty() { String::new() } else { format!("; see {}", sections.join(", ")) };
            let of_call = if rule.checks.contains(&number) { "" } else { ", no answer of this record" };
            rules.push(format!("{number}{of_call}: {}{sections}", meaning::of(number)));
        }
    }
    if name == "commit" || name == "chain" {
        rules.push("\"History\" and \"Order inside a block\" say what is in a block, and in which order".to_owned());
    }
    rules
}
