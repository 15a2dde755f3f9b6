//! What a case says of two plugins that take turns, and their turns.

use crate::case::{first_word, show_memory, show_session, show_steps};
use crate::input::Failure;
use crate::json::Json;
use crate::places::{blame, tainted_by, Region};
use crate::{number, run_json};
use milestarling::{Access, Place, Plugin, Range, Refusal, Session, Shared};
use std::io::{self, Write};

/// The statements of a case about plugins: none where it has one alone.
#[derive(Default)]
pub struct Plugins {
    /// The line of the first of them.
    line: usize,
    shared: Option<Range>,
    plugins: Vec<(String, Session, Range)>,
    turns: Vec<(Plugin, Vec<u32>)>,
}

/// Two plugins in one memory, and their turns.
pub struct Pair {
    pub shared: Shared<Vec<u8>, Vec<u8>>,
    pub names: [String; 2],
    pub turns: Vec<(Plugin, Vec<u32>)>,
}

/// What a turn did, and how it ended.
struct Turn {
    plugin: Plugin,
    words: Vec<u32>,
    trace: Vec<Access>,
    statuses: Vec<u8>,
    tainted: Vec<Vec<Place>>,
    ran: Result<usize, Refusal>,
}

impl Plugins {
    /// The line of the first statement about plugins, where there is one.
    pub fn line(&self) -> Option<usize> {
        (self.line > 0).then_some(self.line)
    }

    /// Takes a statement `shared`, `plugin` or `turn`.
    pub fn statement(&mut self, line: usize, name: &str, rest: &str) -> Result<(), String> {
        if self.line == 0 {
            self.line = line;
        }
        match name {
            "shared" => self.shared = Some(range(rest)?),
            "plugin" => self.plugin(rest)?,
            _ => {
                let at = self.plugins.iter().position(|(name, ..)| name == rest);
                let plugin = match at.ok_or_else(|| format!("`{rest}` is no plugin's name"))? {
                    0 => Plugin::First,
                    _ => Plugin::Second,
                };
                self.turns.push((plugin, Vec::new()));
            }
        }
        Ok(())
    }

    fn plugin(&mut self, rest: &str) -> Result<(), String> {
        let (name, own) = first_word(rest);
        if name.is_empty() {
            return Err("a plugin has a name, and the address and the length of its own range".into());
        }
        if !self.turns.is_empty() {
            return Err("plugins stand before the first turn".into());
        }
        if self.plugins.iter().any(|(other, ..)| other == name) {
            return Err(format!("`{name}` is named already"));
        }
        if self.plugins.len() == 2 {
            return Err("a case has two plugins, and these are named".into());
        }
        self.plugins.push((name.into(), Session::new(), range(own)?));
        Ok(())
    }

    /// The session that registers are set of: the last plugin's, or that of a case of one alone.
    pub fn session<'a>(&'a mut self, alone: &'a mut Session) -> Result<&'a mut Session, String> {
        match self.plugins.last_mut() {
            _ if !self.turns.is_empty() => Err("registers are set before the first turn".into()),
            Some((_, session, _)) => Ok(session),
            None if self.line == 0 => Ok(alone),
            None => Err("a register of no plugin: `plugin` stands before it".into()),
        }
    }

    /// The words that one more is added to: the last turn's, or those of a case of one alone.
    pub fn words<'a>(&'a mut self, alone: &'a mut Vec<u32>) -> Result<&'a mut Vec<u32>, String> {
        match self.turns.last_mut() {
            Some((_, words)) => Ok(words),
            None if self.line == 0 => Ok(alone),
            None => Err("a word of no turn: `turn` stands before it".into()),
        }
    }

    /// The two plugins that were named, in this memory.
    pub fn pair(self, memory: Region) -> Result<Pair, String> {
        let Plugins { shared, plugins, turns, .. } = self;
        let shared = shared.ok_or("plugins without `shared`, the range that both load from")?;
        let [first, second]: [(String, Session, Range); 2] =
            plugins.try_into().map_err(|_| "a case of plugins has two of them")?;
        let shared = Shared::new(memory, shared, (first.1, first.2), (second.1, second.2));
        Ok(Pair { shared, names: [first.0, second.0], turns })
    }
}

/// A range by its address and its length.
fn range(text: &str) -> Result<Range, String> {
    let (address, length) = first_word(text.trim());
    Ok(Range::new(number(address)?, number(length.trim())?))
}

impl Pair {
    fn name(&self, plugin: Plugin) -> &str {
        &self.names[plugin as usize]
    }

    /// Does all turns, and shows each and what they leave.
    pub fn run(mut self, secrets: bool, output: &mut dyn Write) -> Result<(), Failure> {
        let mut refused = false;
        let mut again = self.shared.clone();
        for (at, (plugin, words)) in std::mem::take(&mut self.turns).into_iter().enumerate() {
            let turn = self.turn(plugin, words, &mut again);
            refused |= turn.ran.is_err();
            writeln!(output, "turn {}, {}:", at + 1, self.name(plugin)).map_err(Failure::write)?;
            self.show_turn(&turn, output).map_err(Failure::write)?;
        }
        self.show(secrets, output).map_err(Failure::write)?;
        if refused {
            return Err(Failure::Refused);
        }
        Ok(())
    }

    /// The same for programs: adds what is shown, and returns whether a word was refused.
    pub fn run_for_json(mut self, secrets: bool, members: &mut Vec<(&'static str, Json)>) -> bool {
        let mut refused = false;
        let mut again = self.shared.clone();
        let mut turns = Vec::new();
        for (plugin, words) in std::mem::take(&mut self.turns) {
            let turn = self.turn(plugin, words, &mut again);
            refused |= turn.ran.is_err();
            turns.push(self.turn_json(&turn));
        }
        let plugins = [Plugin::First, Plugin::Second].map(|plugin| {
            let mut members = vec![("name", Json::text(self.name(plugin)))];
            members.extend(run_json::session(self.shared.session(plugin), secrets));
            Json::Object(members)
        });
        members.push(("turns", Json::Array(turns)));
        members.push(("plugins", Json::array(plugins)));
        members.push(("memory", run_json::memory(self.shared.memory(), secrets)));
        refused
    }

    /// Does a turn. The steps are done again one by one, to find out what each taints.
    fn turn(&mut self, plugin: Plugin, words: Vec<u32>, again: &mut Shared<Vec<u8>, Vec<u8>>) -> Turn {
        let (mut trace, mut statuses) = (vec![Access::default(); words.len()], vec![0; words.len()]);
        let ran = self.shared.turn(plugin, &words, &mut trace, &mut statuses).map(|run| run.steps);
        let steps = ran.unwrap_or_else(|refusal| refusal.steps());
        trace.truncate(steps);
        statuses.truncate(steps);
        let tainted = words[..steps].iter().map_while(|&word| {
            let step = again.step(plugin, word).ok()?;
            Some(tainted_by(again.session(plugin), again.memory(), word, step))
        });
        let tainted = tainted.collect();
        Turn { plugin, words, trace, statuses, tainted, ran }
    }

    /// Shows the steps of a turn and its answer.
    fn show_turn(&self, turn: &Turn, output: &mut dyn Write) -> io::Result<()> {
        show_steps(&turn.words, &turn.trace, &turn.statuses, &turn.tainted, output)?;
        let (session, memory) = (self.shared.session(turn.plugin), self.shared.memory());
        match turn.ran {
            Ok(done) => writeln!(output, "done, after {done} steps"),
            Err(refusal) => writeln!(output, "{refusal}{}", blame(session, memory, refusal)),
        }
    }

    fn turn_json(&self, turn: &Turn) -> Json {
        let (session, memory) = (self.shared.session(turn.plugin), self.shared.memory());
        let mut members = vec![
            ("plugin", Json::text(self.name(turn.plugin))),
            ("steps", run_json::steps(&turn.words, &turn.trace, &turn.statuses, &turn.tainted)),
        ];
        members.extend(run_json::ended(turn.ran.map(|_| ()), session, memory));
        Json::Object(members)
    }

    /// Shows what all turns leave.
    fn show(&self, secrets: bool, output: &mut dyn Write) -> io::Result<()> {
        for plugin in [Plugin::First, Plugin::Second] {
            writeln!(output, "plugin {}:", self.name(plugin))?;
            show_session(self.shared.session(plugin), secrets, output)?;
        }
        show_memory(self.shared.memory(), secrets, output)
    }
}
