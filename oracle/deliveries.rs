//! The track on paper (docs/SCOPE.md, Track) for lists of deliveries, over the
//! original analyser; the records of such lists, and random ones.

use crate::frame::{Asked, Row, Settings};
use crate::kinds::{any_previous, plain};
use crate::random::Random;
use crate::threshold::{RANGES, Speech, beside};
use crate::track::{
    Prev, TrackSettings, frames_in, random_settings, recording, rows_after, wavering,
    with_zero_divisor,
};

const MOST_FRAMES: u64 = 4096;

/// The samples and the table's numbers that a replaying program has room for.
pub const SAMPLES: usize = 328_320;
pub const NUMBERS: usize = 32_800;

/// The kinds of lists, as the fixed list numbers them.
pub const ALL_AT_ONCE: u8 = 8;
pub const SINGLE_SAMPLES: u8 = 9;
pub const HOPS: u8 = 10;
pub const FRAMES: u8 = 11;
pub const ANY_CUTS: u8 = 12;
pub const ZERO_DIVISOR: u8 = 13;
pub const SHORT_TABLE: u8 = 14;
pub const LONG_TRACK: u8 = 15;
pub const WHOLE_TRACK: u8 = 16;
pub const HOLDS_A_FRAME: u8 = 17;
pub const REFUSED_SETTINGS: u8 = 18;
pub const PREVIOUS: u8 = 19;
pub const SPEECH_AT_ONCE: u8 = 20;
pub const SPEECH_HOPS: u8 = 21;
pub const SPEECH_ANY_CUTS: u8 = 22;
pub const AT_THRESHOLD: u8 = 23;
pub const SPEECH_ZERO_DIVISOR: u8 = 24;
pub const REFUSED_NUMBERS: u8 = 25;
pub const PREVIOUS_TYPE: u8 = 26;
pub const SPEECH_SHORT_TABLE: u8 = 27;

/// A state as a call is handed it: any numbers at all.
#[derive(Clone)]
pub struct State {
    pub asked: Asked,
    /// What its thresholds are found from, if they are.
    pub speech: Option<Speech>,
    pub frames: u64,
    pub count: u64,
    pub prev: Prev,
    /// The first of the places for samples held.
    pub held: Vec<i16>,
}

impl State {
    pub fn fresh(k: impl Into<TrackSettings>) -> State {
        let k = k.into();
        State {
            asked: Asked::of(&k.stored),
            speech: k.speech,
            frames: 0,
            count: 0,
            prev: Prev::default(),
            held: Vec::new(),
        }
    }

    /// The track's settings, or refusal 1, 2, 3 or 11.
    pub fn accepted(&self) -> Result<TrackSettings, u32> {
        let stored = self.asked.accepted()?;
        if let Some(m) = self.speech {
            m.threshold(self.prev.signal_type)?;
        }
        Ok(TrackSettings { stored, speech: self.speech })
    }
}

/// A list of deliveries to one track and one table.
pub struct Deliveries {
    pub kind: u8,
    /// Whether the state is a freshly started one.
    pub started: bool,
    pub state: State,
    /// The table's length.
    pub numbers: usize,
    /// The samples that are cut; 0 stands after them.
    pub samples: Vec<i16>,
    pub cuts: Vec<usize>,
}

/// The track on paper. A state that is handed in adds the frames that it claims,
/// what its last row left, and the samples that it holds, with which J begins.
struct Paper<'a> {
    from: &'a State,
    settings: Result<TrackSettings, u32>,
    whole_rows: u64,
    joined: Vec<i16>,
    accepted: bool,
}

impl<'a> Paper<'a> {
    fn new(from: &'a State, numbers: usize) -> Paper<'a> {
        let settings = from.accepted();
        let count = usize::try_from(from.count).unwrap();
        if let Ok(k) = settings {
            assert!(count >= k.stored.samples() || count <= from.held.len());
        }
        let joined = from.held[..count.min(from.held.len())].to_vec();
        Paper { from, settings, whole_rows: numbers as u64 / 8, joined, accepted: false }
    }

    fn frames(&self, s: &Settings, n: usize) -> u64 {
        self.from.frames.saturating_add(frames_in(s, n) as u64)
    }

    fn refusal(&self, d: usize) -> Option<u32> {
        let s = match &self.settings {
            Ok(k) => &k.stored,
            Err(no) => return Some(*no),
        };
        let length = self.joined.len().max(self.from.count as usize);
        let then = self.frames(s, length.saturating_add(d));
        if then > MOST_FRAMES {
            Some(6)
        } else if self.from.count as usize >= s.samples() {
            Some(9)
        } else if then > self.frames(s, length) && self.whole_rows < then {
            Some(7)
        } else {
            None
        }
    }

    fn deliver(&mut self, x: &[i16]) -> u32 {
        let refusal = self.refusal(x.len());
        if refusal.is_none() {
            self.joined.extend(x);
            self.accepted = true;
        }
        refusal.unwrap_or(0)
    }

    fn rows(&self) -> Vec<Row> {
        match &self.settings {
            Ok(k) if self.accepted => rows_after(self.from.prev, k, &self.joined),
            _ => Vec::new(),
        }
    }

    /// Frames done, and the places that hold samples; of a state that accepted
    /// nothing, what it claims and all of its places that are known.
    fn state(&self) -> (u64, u64, Vec<i16>) {
        match &self.settings {
            Ok(TrackSettings { stored: s, .. }) if self.accepted => {
                let held = &self.joined[frames_in(s, self.joined.len()) * s.hop()..];
                (self.frames(s, self.joined.len()), held.len() as u64, held.to_vec())
            }
            _ => (self.from.frames, self.from.count, self.from.held.clone()),
        }
    }

    fn left(&self, rows: &[Row]) -> Prev {
        match (&self.settings, rows.last()) {
            (Ok(k), Some(row)) => Prev::after(&k.stored, row),
            _ => self.from.prev,
        }
    }
}

/// Numbers of 2, 4 and 8 bytes, one after the other.
#[derive(Default)]
struct Bytes(Vec<u8>);

impl Bytes {
    fn long(&mut self, n: u64) {
        self.0.extend(n.to_le_bytes());
    }

    fn word(&mut self, n: i32) {
        self.0.extend(n.to_le_bytes());
    }

    fn size(&mut self, n: usize) {
        self.word(i32::try_from(n).unwrap());
    }

    fn samples(&mut self, x: &[i16]) {
        x.iter().for_each(|v| self.0.extend(v.to_le_bytes()));
    }
}

/// A record: its kind, its body's length, its body.
pub fn record(kind: u8, body: &[u8]) -> Vec<u8> {
    let mut out = vec![kind];
    out.extend((body.len() as u32).to_le_bytes());
    out.extend(body);
    out
}

/// What the track on paper says of a list.
pub struct Told {
    pub record: Vec<u8>,
    pub numbers: Vec<u32>,
    pub rows: Vec<Row>,
    /// J at the end.
    pub joined: Vec<i16>,
}

impl Deliveries {
    /// Each delivery: its length, its number, and the frames done and samples
    /// held after it.
    fn said(&self, paper: &mut Paper, out: &mut Bytes) -> Vec<u32> {
        let mut x = self.samples.clone();
        x.resize(SAMPLES, 0);
        let (mut at, mut numbers) = (0, Vec::new());
        for &cut in &self.cuts {
            let no = paper.deliver(&x[at..at + cut]);
            at += cut;
            let (frames, count, _) = paper.state();
            out.size(cut);
            out.0.push(no as u8);
            out.long(frames);
            out.long(count);
            numbers.push(no);
        }
        numbers
    }

    fn head(&self, out: &mut Bytes) {
        let (s, a) = (&self.state, &self.state.asked);
        let start = if self.started { s.accepted().err().unwrap_or(0) } else { 0 };
        out.0.extend([self.started as u8, start as u8]);
        [a.rate, a.nb, a.complexity].iter().for_each(|&n| out.long(n));
        [a.thres1, a.thres2].iter().for_each(|&n| out.word(n));
        [s.frames, s.count].iter().for_each(|&n| out.long(n));
        [s.prev.lag, s.prev.correlation].iter().for_each(|&n| out.word(n));
    }

    pub fn told(&self) -> Told {
        assert!(self.numbers <= NUMBERS && self.samples.len() <= SAMPLES);
        let mut paper = Paper::new(&self.state, self.numbers);
        let (mut body, mut said) = (Bytes::default(), Bytes::default());
        let numbers = self.said(&mut paper, &mut said);
        let rows = paper.rows();
        let (_, _, held) = paper.state();
        let left = paper.left(&rows);
        self.head(&mut body);
        let listed = &self.state.held;
        let sizes = [
            self.numbers,
            listed.len(),
            self.samples.len(),
            self.cuts.len(),
            rows.len(),
            held.len(),
        ];
        sizes.iter().for_each(|&n| body.size(n));
        [left.lag, left.correlation].iter().for_each(|&n| body.word(n));
        let m = self.state.speech.unwrap_or(Speech { order: 0, activity: 0, tilt: 0 });
        let kind = self.state.speech.is_some() as i32;
        let before = self.state.prev.signal_type;
        [kind, m.order, m.activity, m.tilt, before, left.signal_type]
            .iter()
            .for_each(|&n| body.word(n));
        body.samples(listed);
        body.samples(&self.samples);
        body.0.extend(said.0);
        rows.iter().flatten().for_each(|&n| body.word(n));
        body.samples(&held);
        Told { record: record(self.kind, &body.0), numbers, rows, joined: paper.joined }
    }
}

/// One cut, in one of the ways.
fn cut(way: usize, s: &Settings, left: usize, r: &mut Random) -> usize {
    match way {
        0 => 1,
        1 => s.hop(),
        2 => s.samples(),
        3 => left,
        4 => s.hop() - 1 + 2 * r.below(2),
        5 => s.samples() - 1 + 2 * r.below(2),
        6 => r.below(2 * s.samples()),
        7 => r.below(20),
        _ => 0,
    }
}

/// Cuts of n samples, in one way or by turns; deliveries of none among them.
pub fn any_cuts(n: usize, s: &Settings, r: &mut Random) -> Vec<usize> {
    let one_way = r.chance(2).then(|| r.below(8));
    let (mut cuts, mut left) = (Vec::new(), n);
    while left > 0 {
        let way = one_way.unwrap_or_else(|| r.below(9));
        let size = cut(way, s, left, r).min(left);
        cuts.push(size);
        left -= size;
    }
    if r.chance(3) {
        cuts.insert(r.below(cuts.len() + 1), 0);
    }
    cuts
}

/// A freshly started track.
pub fn started(
    kind: u8,
    k: impl Into<TrackSettings>,
    samples: Vec<i16>,
    cuts: Vec<usize>,
    numbers: usize,
) -> Deliveries {
    Deliveries { kind, started: true, state: State::fresh(k), numbers, samples, cuts }
}

/// A state of so many frames that holds these samples.
pub fn holding(k: impl Into<TrackSettings>, frames: u64, held: Vec<i16>) -> State {
    State { frames, count: held.len() as u64, held, ..State::fresh(k) }
}

/// A state that is handed in.
pub fn handed(
    kind: u8,
    state: State,
    samples: Vec<i16>,
    cuts: Vec<usize>,
    numbers: usize,
) -> Deliveries {
    Deliveries { kind, started: false, state, numbers, samples, cuts }
}

/// What a last row can have left, and what it cannot; a type that is judged stays in range.
pub fn any_left(state: &mut State, s: &Settings, r: &mut Random) {
    let mut f = plain(*s, Vec::new());
    any_previous(&mut f, r);
    let any = r.sized();
    let signal_type = match state.speech {
        None => r.pick(&[0, 1, 2, 3, -1, any]),
        Some(_) => r.below(3) as i32,
    };
    state.prev = Prev { lag: f.prev_lag, correlation: f.prev_corr, signal_type };
}

/// A length of a table with so many whole rows.
pub fn with_rows(rows: usize, r: &mut Random) -> usize {
    (rows * 8 + r.pick(&[0, 0, 1, 7])).min(NUMBERS)
}

/// A number of samples for some frames, its edges often.
pub fn any_length(s: &Settings, r: &mut Random) -> usize {
    match r.below(4) {
        0 => r.below(s.samples()),
        1 => s.samples() + r.below(5) * s.hop() - 1 + r.below(3),
        _ => s.samples() + r.below(9 * s.hop()),
    }
}

/// Any numbers where none is accepted, or where few are.
fn odd_state(k: &TrackSettings, r: &mut Random) -> State {
    let huge = [1 << 31, 1 << 32, 1 << 62, (1 << 62) + 1, 1 << 63, u64::MAX - 1, u64::MAX];
    let s = &k.stored;
    let n = s.samples() as u64;
    let held = recording(s, 640, r);
    let (any, much) = (r.below(4096) as u64, r.pick(&huge));
    let frames = r.pick(&[0, 1, 4095, 4096, 4097, any, any, much]);
    let (any, much) = (n + r.below(2000) as u64, r.pick(&huge));
    let count = r.pick(&[n - 1, n, n + 1, 639, 640, 641, any, much]);
    let mut state = State { frames, count, held, ..State::fresh(k) };
    any_left(&mut state, s, r);
    state
}

fn with_odd_settings(mut state: State, r: &mut Random) -> State {
    for _ in 0..1 + r.below(3) {
        let odd = r.pick(&[0, 1, 2, 3, 4, 5, 7, 8, 12, 16, 24, 255, 1 << 32, u64::MAX, 1 << 63]);
        match r.below(3) {
            0 => state.asked.rate = odd.wrapping_add(r.below(2) as u64 * state.asked.rate),
            1 => state.asked.nb = odd.wrapping_add(r.below(2) as u64 * state.asked.nb),
            _ => state.asked.complexity = odd,
        }
    }
    state
}

/// One of the four numbers of the threshold out of its range: order, activity, type, tilt.
pub fn with_odd_number(mut state: State, place: usize, odd: i32) -> State {
    let m = state.speech.as_mut().unwrap();
    match place {
        0 => m.order = odd,
        1 => m.activity = odd,
        2 => state.prev.signal_type = odd,
        _ => m.tilt = odd,
    }
    state
}

/// Settings or numbers of the threshold, or both, that are refused.
fn refused_state(k: &TrackSettings, r: &mut Random) -> State {
    let mut state = odd_state(k, r);
    let numbers = k.speech.is_some() && !r.chance(3);
    if numbers {
        for _ in 0..1 + r.below(2) {
            let place = r.below(4);
            state = with_odd_number(state, place, beside(RANGES[place], r));
        }
    }
    if !numbers || r.chance(3) { with_odd_settings(state, r) } else { state }
}

/// Settings of either kind, and samples that suit them.
fn any_track(s: &Settings, n: usize, r: &mut Random) -> (TrackSettings, Vec<i16>) {
    if r.chance(2) {
        return (s.into(), recording(s, n, r));
    }
    let k = TrackSettings::from_speech(s, Speech::random(r));
    let x = if r.chance(4) { recording(s, n, r) } else { wavering(s, n, r) };
    (k, x)
}

fn random_deliveries(r: &mut Random) -> Deliveries {
    let s = random_settings(r);
    let n = any_length(&s, r);
    let (k, x) = any_track(&s, n, r);
    // the kind for a fixed threshold, and the one for the speech's
    let kind = |fixed: u8, speech: u8| if k.speech.is_some() { speech } else { fixed };
    let cuts = any_cuts(x.len(), &s, r);
    let frames = frames_in(&s, x.len());
    match r.below(20) {
        0 | 1 => {
            let state = State { count: r.below(240) as u64, ..refused_state(&k, r) };
            handed(kind(REFUSED_SETTINGS, REFUSED_NUMBERS), state, x, cuts, frames * 8)
        }
        2 => {
            let numbers = r.below(NUMBERS + 1);
            handed(HOLDS_A_FRAME, odd_state(&k, r), x, cuts, numbers)
        }
        3 | 4 => {
            let held = recording(&s, r.below(s.samples()), r);
            let first = (4096 + r.below(3) - 1 - r.below(frames + 1).min(4095)) as u64;
            let rows = 4096 - r.below(3);
            handed(LONG_TRACK, holding(&k, first, held), x, cuts, with_rows(rows, r))
        }
        5..8 => {
            let first = r.below(4080 - frames);
            let held = recording(&s, r.below(s.samples()), r);
            let then = first + frames_in(&s, held.len() + x.len());
            let mut state = holding(&k, first as u64, held);
            any_left(&mut state, &s, r);
            let rows = (then + r.below(4)).saturating_sub(r.below(2));
            handed(kind(PREVIOUS, PREVIOUS_TYPE), state, x, cuts, with_rows(rows, r))
        }
        8..10 => {
            let rows = r.below(frames + 1);
            started(kind(SHORT_TABLE, SPEECH_SHORT_TABLE), &k, x, cuts, with_rows(rows, r))
        }
        10..12 => {
            let stored = Settings { rate: 12, ..k.stored };
            let n = any_length(&stored, r);
            let x = with_zero_divisor(&stored, r.below(5), n, r);
            let cuts = any_cuts(x.len(), &stored, r);
            let rows = frames_in(&stored, x.len()) + r.below(3);
            let kind = kind(ZERO_DIVISOR, SPEECH_ZERO_DIVISOR);
            started(kind, &TrackSettings { stored, ..k }, x, cuts, with_rows(rows, r))
        }
        _ => {
            let rows = frames + r.below(3);
            started(kind(ANY_CUTS, SPEECH_ANY_CUTS), &k, x, cuts, with_rows(rows, r))
        }
    }
}

/// N random lists, one record after the other.
pub fn gen_deliveries(n: usize, seed: u64) -> Vec<u8> {
    let mut r = Random::new(seed ^ 0x6465_6c69_7665_7273);
    (0..n).flat_map(|_| random_deliveries(&mut r).told().record).collect()
}
