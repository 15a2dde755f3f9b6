//! What a page tells of: words, what each step did, which bytes were tainted at the start, and answers. There is no value of a
//! register or of memory in it, so that none can come onto a page.

use crate::case::Machine;
use crate::places::set_by;
use crate::turns::Pair;
use milestarling::{Access, Answer, Instruction, Link, Past, Place, Plugin, Range, Refusal, Start, Step};

/// A case that was run.
pub struct Account {
    /// The plugins: one alone, or two that take turns.
    pub tracks: Vec<Track>,
    /// The turns in their order: of a plugin alone one, which is its run.
    pub turns: Vec<Turn>,
    /// The range that two plugins share, and the own ones of both.
    pub ranges: Option<[Range; 3]>,
}

/// A plugin, and the steps of all its turns as the past of one run: neither of two plugins stores to what the other may load.
pub struct Track {
    /// Of one of two.
    pub name: Option<String>,
    pub past: Past,
}

/// A run or a turn.
pub struct Turn {
    /// Whose it is, by its place.
    pub track: usize,
    /// Its first step, counted from 0 over all turns of its plugin.
    pub first: usize,
    pub steps: usize,
    /// How many words there are.
    pub words: usize,
    /// How it ended, where a word was refused or it wasn't begun.
    pub refused: Option<Refused>,
}

pub struct Refused {
    pub refusal: Refusal,
    /// The way of each tainted byte that an answer 5 is for, from the refused address back to the start.
    pub trails: Vec<Vec<Link>>,
}

/// What has been done of a plugin so far.
struct Doing {
    name: Option<String>,
    start: Start,
    words: Vec<u32>,
    trace: Vec<Access>,
    statuses: Vec<u8>,
}

impl Account {
    /// Runs a case.
    pub fn of(machine: Machine) -> Result<Account, Refusal> {
        match machine {
            Machine::Alone(mut session, mut memory, words) => {
                let mut doing = Doing::new(None, Start::of(&session, &memory));
                let turn = doing.turn(0, &words, |trace, statuses| {
                    session.run(&mut memory, &words, trace, statuses).map(|run| run.steps)
                })?;
                Ok(Account { tracks: vec![doing.track()?], turns: vec![turn], ranges: None })
            }
            Machine::Pair(pair) => Account::of_pair(*pair),
        }
    }

    fn of_pair(pair: Pair) -> Result<Account, Refusal> {
        let Pair { mut shared, names, turns } = pair;
        let ranges = shared.ranges(Plugin::First);
        let mut doing: Vec<Doing> = [Plugin::First, Plugin::Second]
            .into_iter()
            .zip(names)
            .map(|(plugin, name)| Doing::new(Some(name), Start::of(shared.session(plugin), shared.memory())))
            .collect();
        let mut done = Vec::new();
        for (plugin, words) in turns {
            let track = plugin as usize;
            done.push(doing[track].turn(track, &words, |trace, statuses| {
                shared.turn(plugin, &words, trace, statuses).map(|run| run.steps)
            })?);
        }
        let tracks: Result<Vec<Track>, Refusal> = doing.into_iter().map(Doing::track).collect();
        Ok(Account { tracks: tracks?, turns: done, ranges: Some([ranges.shared, ranges.own, ranges.other]) })
    }

    /// Whether two plugins take turns.
    pub fn has_turns(&self) -> bool {
        self.ranges.is_some()
    }

    /// What memory was at the start.
    pub fn start(&self) -> &Start {
        self.tracks[0].past.start()
    }

    pub fn past(&self, turn: &Turn) -> &Past {
        &self.tracks[turn.track].past
    }

    /// How a step of a plugin is called: by its number, and of two plugins by that of its turn and in it.
    pub fn called(&self, track: usize, step: usize) -> String {
        if !self.has_turns() {
            return format!("step {}", step + 1);
        }
        let holds = |turn: &Turn| turn.track == track && (turn.first..turn.first + turn.steps).contains(&step);
        let at = self.turns.iter().position(holds).unwrap_or_default();
        format!("turn {}, step {}", at + 1, step - self.turns[at].first + 1)
    }
}

impl Track {
    /// Whether a place is tainted after so many steps.
    pub fn is_tainted(&self, place: Place, steps: usize) -> bool {
        self.past.why(place, steps).is_ok_and(|links| !links.is_empty())
    }

    /// What a step did.
    pub fn step(&self, step: usize) -> Step {
        Step::new(self.past.trace()[step], self.past.statuses()[step])
    }

    /// The places that a step has tainted.
    pub fn tainted_by(&self, step: usize) -> Vec<Place> {
        let places = Instruction::new(self.past.words()[step]).map(|found| set_by(found, self.step(step)));
        places.unwrap_or_default().into_iter().filter(|&place| self.is_tainted(place, step + 1)).collect()
    }
}

impl Doing {
    fn new(name: Option<String>, start: Start) -> Doing {
        Doing { name, start, words: Vec::new(), trace: Vec::new(), statuses: Vec::new() }
    }

    /// Does one more turn by a call that returns how many steps were done.
    fn turn(
        &mut self,
        track: usize,
        words: &[u32],
        call: impl FnOnce(&mut [Access], &mut [u8]) -> Result<usize, Refusal>,
    ) -> Result<Turn, Refusal> {
        let (mut trace, mut statuses) = (vec![Access::default(); words.len()], vec![0; words.len()]);
        let ended = call(&mut trace, &mut statuses);
        let steps = ended.unwrap_or_else(|refusal| refusal.steps());
        let first = self.words.len();
        self.words.extend(&words[..steps]);
        self.trace.extend(&trace[..steps]);
        self.statuses.extend(&statuses[..steps]);
        let refused = match ended {
            Ok(_) => None,
            Err(refusal) => Some(Refused { refusal, trails: self.trails(refusal)? }),
        };
        Ok(Turn { track, first, steps, words: words.len(), refused })
    }

    /// The ways to the address of a word that is refused now.
    fn trails(&self, refusal: Refusal) -> Result<Vec<Vec<Link>>, Refusal> {
        if refusal.answer() != Answer::TaintedAddress {
            return Ok(Vec::new());
        }
        let words: Vec<u32> = self.words.iter().copied().chain(refusal.word()).collect();
        let past = self.start.clone().ran(&words, &self.trace, &self.statuses, self.trace.len())?;
        past.blamed()?.into_iter().map(|place| past.why(place, past.steps())).collect()
    }

    fn track(self) -> Result<Track, Refusal> {
        let past = self.start.ran(&self.words, &self.trace, &self.statuses, self.trace.len())?;
        Ok(Track { name: self.name, past })
    }
}
