//! How often each call was made and each answer met.

/// A kind of call and the answers that it must have given at the end: the numbers of the rules (0: not refused) for calls that have
/// them, else 0 and 1 for no and yes.
struct Kind {
    name: &'static str,
    answers: &'static [usize],
}

/// Counted apart, behind the last number: Too Big with no message, of 14; a piece that is ignored, of 27; what is joined, of 0. Of a
/// packet from a host with extension headers, Too Big with a message, with none, and 15 in its place. Of 11, no such service.
pub const TOO_BIG_SILENT: usize = 32;
pub const IGNORED: usize = 33;
pub const JOINED: usize = 34;
pub const CHAIN_TOLD: usize = 35;
pub const CHAIN_SILENT: usize = 36;
pub const CHAIN_SHORT: usize = 37;
pub const ABSENT: usize = 38;
/// What can come about between two services: a report that is accepted for the first, and for the second; one that lowers the size in force
/// of the other; 19 for a size that is below the other's alone; eight datagrams live in one collection and more in the other.
pub const BY_FIRST: usize = 39;
pub const BY_SECOND: usize = 40;
pub const LOWERS_OTHER: usize = 41;
pub const NOT_BELOW_OWN: usize = 42;
pub const NINE_LIVE: usize = 43;
const ANSWERS: usize = 44;

macro_rules! kinds {
    ($($constant:ident $name:literal $answers:expr;)*) => {
        #[derive(Clone, Copy)]
        pub enum Call { $($constant),* }
        const KINDS: &[Kind] = &[$(Kind { name: $name, answers: &$answers }),*];
    };
}

kinds! {
    Defaults "defaults" [0];
    New "new" [0, 1];
    NewPair "new_pair" [0, 1];
    Receive "receive" [0, 2, 3, 4, 6, 7, 8, 9, 10, 15, ABSENT];
    Piece "receive of a piece" [JOINED, 2, 3, 4, 6, 7, 8, 9, 10, 15, 27, IGNORED, 28, 29, 30, ABSENT];
    Joined "joined as whole" [0, 4, 6, 7, 8, 9, 10];
    Send "send" [0, 8, 11, 12, 13, 14, TOO_BIG_SILENT, 15, CHAIN_TOLD, CHAIN_SILENT, CHAIN_SHORT, ABSENT];
    Report "report" [0, 16, 17, 18, 19];
    Replace "replace_routers" [0, 1, ABSENT];
    Ask "ask" [0, 11, 22, 15, ABSENT];
    Hear "hear" [0, 8, 20, 21, ABSENT];
    Advertise "advertise" [0, 8, 11, 24, 25, 26, 15, ABSENT];
    RoundTrip "heard as written" [0];
    PathSize "path_size" [0, 1, ABSENT];
    Two "of two services" [BY_FIRST, BY_SECOND, LOWERS_OTHER, NOT_BELOW_OWN, NINE_LIVE];
    Checksum "checksum" [0];
    ChecksumRight "checksum_right" [0, 1];
    Forbidden "forbidden" [0, 1];
    Isatap "isatap" [0, 1];
    LinkLocal "link_local" [0];
    BadSource "bad_source" [0, 1];
    ReadOuter "read_outer" [0, 2, 3, 4, 5];
    Unwrap "unwrap" [0, 2, 3, 4, 5, 8];
    Wrap "wrap" [0, 15, 23];
    TooBig "too_big" [0, 8, 15];
    Solicitation "solicitation" [0, 15];
    Compare "compare" [0, 15, 31];
    More "more in neither, the first, the second" [0, 1, 2];
    Null "with (NULL, 0)" [0];
    AnyNode "on any node" [0, JOINED, 1, 8, 10, 11, 14, TOO_BIG_SILENT, 15, 17, 19, 21, 22, 24, 25, 26, 27, 28, 29, 30, ABSENT, BY_FIRST, BY_SECOND];
}

pub struct Totals {
    counts: Vec<[u64; ANSWERS]>,
    pub calls: u64,
}

impl Totals {
    pub fn new() -> Totals {
        Totals { counts: vec![[0; ANSWERS]; KINDS.len()], calls: 0 }
    }

    pub fn count(&mut self, call: Call, answer: usize) {
        self.met(call, answer);
        self.calls += 1;
    }

    /// Counts what a call that is counted already has brought about.
    pub fn met(&mut self, call: Call, answer: usize) {
        self.counts[call as usize][answer] += 1;
    }

    /// One line: the calls by kind, and in brackets the answers by number.
    pub fn line(&self) -> String {
        let kinds: Vec<String> = KINDS.iter().zip(&self.counts).map(|(kind, counts)| kind_line(kind, counts)).collect();
        format!("{} calls the same: {}", self.calls, kinds.join(", "))
    }

    /// The answers that should have been met and were not.
    pub fn missing(&self) -> Vec<String> {
        let mut missing = Vec::new();
        for (kind, counts) in KINDS.iter().zip(&self.counts) {
            let unmet = kind.answers.iter().filter(|&&answer| counts[answer] == 0);
            missing.extend(unmet.map(|&answer| format!("{} {}", kind.name, answer_name(answer))));
        }
        missing
    }
}

fn kind_line(kind: &Kind, counts: &[u64; ANSWERS]) -> String {
    let met = counts.iter().enumerate().filter(|(_, &count)| count > 0);
    let answers: Vec<String> = met.map(|(answer, count)| format!("{}: {count}", answer_name(answer))).collect();
    format!("{} {} ({})", kind.name, counts.iter().sum::<u64>(), answers.join(" "))
}

fn answer_name(answer: usize) -> String {
    match answer {
        TOO_BIG_SILENT => "14 silent".into(),
        IGNORED => "27 ignored".into(),
        JOINED => "0 joined".into(),
        CHAIN_TOLD => "14 behind headers".into(),
        CHAIN_SILENT => "14 silent behind headers".into(),
        CHAIN_SHORT => "15 behind headers".into(),
        ABSENT => "11 no such service".into(),
        BY_FIRST => "report of the first".into(),
        BY_SECOND => "report of the second".into(),
        LOWERS_OTHER => "size lowered by the other's report".into(),
        NOT_BELOW_OWN => "19 by its own size alone".into(),
        NINE_LIVE => "nine datagrams live".into(),
        _ => answer.to_string(),
    }
}
