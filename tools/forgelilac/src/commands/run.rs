//! `run`: a run as a picture, and as a page for a browser.

use crate::answers::{said_in, Said};
use crate::arguments::{bytes_of, number, write_to, Arguments, Choice, Command};
use crate::failure::{input, usage, Failure, Outcome};
use crate::picture::drawing::Picture;
use crate::picture::model::Run;
use crate::picture::page::page_of;
use crate::progress::Progress;
use crate::records::raws_of;
use crate::source::{answers_to, formed, opened, runner_for, ANY_CEILING};
use crate::store::{source_of, Source, AT};
use crate::weights::count;

pub const COMMAND: Command = Command {
    name: "run",
    forms: &[
        "[--preview] [--rounds A-B] [--svg FILE] [--page FILE] STREAM",
        "[--preview] [--rounds A-B] [--svg FILE] [--page FILE] --answers ANSWERS STREAM",
        "[--preview] [--rounds A-B] [--svg FILE] [--page FILE] STORE",
        "[--preview] [--rounds A-B] [--svg FILE] [--page FILE] STATE TABLE",
    ],
    about: "a run as a picture, and as a page that a browser opens",
    details: "\
The run of STREAM, whose records the engine answers as a runner does, or of stored words: STORE is what
Engine::to_bytes wrote, STATE and TABLE are the words of both. With --answers it is what another runner
answered to STREAM, which ends in an accepted chain then. Rounds go across, members down; the chain stands
beneath. The picture is SVG, and goes to standard output where no file is given. The page is one file of HTML
that needs no network: it scrolls through the rounds, and tells what a certificate holds that is pressed.
--preview shows what a commit would add, dashed and light, and in a frame what it hangs on; with --answers the
stream is a copy that goes on with commit and chain (docs/GUESTS.md, \"A picture of a run\").",
    choices: &[
        Choice { name: "svg", value: Some("FILE"), about: "the picture" },
        Choice { name: "page", value: Some("FILE"), about: "the page" },
        Choice { name: "rounds", value: Some("A-B"), about: "these rounds alone, those of them that the run has" },
        Choice { name: "preview", value: None, about: "what a commit would add, and what it hangs on" },
        Choice { name: "answers", value: Some("FILE"), about: "what another runner answered to STREAM" },
        AT,
        ANY_CEILING,
    ],
    run,
};

fn run(arguments: &Arguments) -> Result<Outcome, Failure> {
    let mut run = run_of(arguments)?;
    run.window = window(arguments)?;
    if run.rounds().is_empty() {
        return input(format!("the run has no round {}", run.rounds().start()));
    }
    let mut progress = Progress::of("drawings");
    if let Some(path) = arguments.value("page") {
        write_to(path, &page_of(&run))?;
        progress.at(1, 2);
    }
    let picture = || Picture::of(&run).svg();
    match (arguments.value("svg"), arguments.value("page")) {
        (Some(path), _) => write_to(path, &picture()).map(|()| told(&run).into()),
        (None, Some(_)) => Ok(told(&run).into()),
        (None, None) => Ok(picture().into()),
    }
}

fn told(run: &Run) -> String {
    format!("member {}, {}, {}\n", run.own, count(run.held.len(), "certificate"), count(run.blocks.len(), "block"))
}

fn window(arguments: &Arguments) -> Result<Option<(u32, u32)>, Failure> {
    let Some(words) = arguments.value("rounds") else { return Ok(None) };
    let ends = words.split_once('-').and_then(|(first, last)| Some((number(first)?, number(last)?)));
    match ends {
        Some((first, last)) if 1 <= first && first <= last => Ok(Some((first, last))),
        _ => usage(format!("run: --rounds is '{words}', not two rounds as 1-20")),
    }
}

fn run_of(arguments: &Arguments) -> Result<Run, Failure> {
    let preview = arguments.has("preview");
    if let Some(path) = arguments.value("answers") {
        arguments.count(1..=1, "STREAM")?;
        let (stream, written) = (bytes_of(&arguments.operands[0])?, bytes_of(path)?);
        return Run::of_answers(&raws_of(&stream), &said_in(&written), preview);
    }
    arguments.count(1..=2, "STREAM, STORE, or STATE and TABLE")?;
    match source_of(arguments)? {
        Source::Words(words) => Ok(Run::of_engine(&formed(&words)?, preview)?),
        Source::Stream(mut stream) => {
            // A record without its end answers 24 and changes nothing. What the picture shows is listed by the
            // engine, and a commit is tried on the copy that this is.
            let end = stream.windows(2).rposition(|two| two == b"\r\n").map_or(0, |at| at + 2);
            stream.truncate(end);
            if end == 0 {
                opened(&runner_for(arguments), &[])?;
            }
            if preview {
                stream.extend_from_slice(b"commit\r\n");
            }
            stream.extend_from_slice(b"chain\r\n");
            let (mut runner, raws) = (runner_for(arguments), raws_of(&stream));
            let said: Vec<_> = answers_to(&mut runner, &raws).map(|answer| Said::of(&answer)).collect();
            opened(&runner, &raws)?;
            Run::of_answers(&raws, &said, preview)
        }
    }
}
