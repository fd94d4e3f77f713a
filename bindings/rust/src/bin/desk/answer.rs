//! What the program says.
use lurmashek::{Refusal, SideRefusal, Starts, Units, Verdict};

/// The answer of a call.
pub enum Answer {
    Starts(Result<Starts, Refusal>),
    Units(Result<Units, Refusal>),
    Verdict(Result<Verdict, SideRefusal>),
}

impl Answer {
    /// Whether it is accepted or compatible.
    pub fn is_yes(&self) -> bool {
        matches!(self, Answer::Starts(Ok(_)) | Answer::Units(Ok(_)) | Answer::Verdict(Ok(Verdict::Compatible)))
    }

    /// A line for people.
    pub fn text(&self) -> String {
        match self {
            Answer::Starts(Ok(starts)) => format!("accepted; sections start at {starts}"),
            Answer::Units(Ok(units)) => units.to_string(),
            Answer::Verdict(Ok(verdict)) => verdict.to_string(),
            Answer::Starts(Err(refusal)) | Answer::Units(Err(refusal)) => refusal.to_string(),
            Answer::Verdict(Err(refusal)) => refusal.to_string(),
        }
    }

    /// The same as a JSON object: HELP lists its keys. No name or text has a character that JSON escapes.
    pub fn json(&self) -> String {
        match self {
            Answer::Starts(Ok(starts)) => {
                let numbers = starts.0.map(|start| start.to_string()).join(",");
                format!(r#"{{"answer":"accepted","starts":[{numbers}]}}"#)
            }
            Answer::Units(Ok(units)) => {
                format!(r#"{{"answer":"accepted","words":{},"units":{}}}"#, units.words, units.units)
            }
            Answer::Verdict(Ok(verdict)) => verdict_json(*verdict),
            Answer::Starts(Err(refusal)) | Answer::Units(Err(refusal)) => refusal_json("", *refusal),
            Answer::Verdict(Err(SideRefusal { side, refusal })) => {
                refusal_json(&format!(r#""side":"{}","#, side.name()), *refusal)
            }
        }
    }
}

fn verdict_json(verdict: Verdict) -> String {
    let Verdict::Differs { section, part, entry, inner } = verdict else {
        return r#"{"answer":"compatible"}"#.to_string();
    };
    let section = format!(r#""section":{},"section_name":"{}""#, section.number(), section.name());
    let part = format!(r#""part":{},"part_name":"{}""#, part.number(), part.name());
    format!(r#"{{"answer":"differs",{section},{part},"entry":{entry},"inner":{inner}}}"#)
}

/// `side` is its pair of key and value with a comma, where there are sides.
fn refusal_json(side: &str, refusal: Refusal) -> String {
    let Refusal { question, offset } = refusal;
    let text = refusal.text();
    format!(r#"{{"answer":"refused",{side}"question":{question},"offset":{offset},"text":"{text}"}}"#)
}
