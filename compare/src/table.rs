//! The tables of a replay: for each sender its messages, its differences by kind, and which messages these are; and in which ways messages
//! read otherwise by RFC 3396.

use crate::findings::Findings;
use crate::known::Known;
use crate::modes::Way;
use std::collections::BTreeMap;

/// How many message numbers are shown for a known difference and for a way, and for an unexplained difference.
const NUMBERS_OF_KNOWN: usize = 6;
const NUMBERS_OF_UNEXPLAINED: usize = 100;

/// How many senders without a difference get a line of their own.
const MOST_QUIET: usize = 40;

/// One kind of difference of one sender, or one way.
#[derive(Default)]
struct Differences {
    times: u64,
    messages: u64,
    /// The first messages, as file and number.
    numbers: Vec<(usize, u64)>,
}

impl Differences {
    /// One message more, so many times, of which only the first are remembered.
    fn add(&mut self, message: (usize, u64), times: u64, most: usize) {
        self.times += times;
        self.messages += 1;
        if self.numbers.len() < most {
            self.numbers.push(message);
        }
    }
}

/// One sender. No kind stands for unexplained differences.
#[derive(Default)]
struct Sender {
    messages: u64,
    kinds: BTreeMap<Option<Known>, Differences>,
}

/// All senders.
#[derive(Default)]
pub struct Table {
    files: Vec<String>,
    senders: BTreeMap<String, Sender>,
    ways: BTreeMap<Way, Differences>,
    /// How many messages were entered.
    pub messages: u64,
}

impl Table {
    /// The messages that follow are of this file.
    pub fn begin_file(&mut self, name: String) {
        self.files.push(name);
    }

    /// What was found in one message, and the ways in which it reads otherwise.
    pub fn add(&mut self, sender: String, number: u64, found: &Findings, ways: &[Way]) {
        let message = (self.files.len() - 1, number);
        for &way in ways {
            self.ways.entry(way).or_default().add(message, 1, NUMBERS_OF_KNOWN);
        }
        let row = self.senders.entry(sender).or_default();
        row.messages += 1;
        self.messages += 1;
        let known = Known::ALL.map(|kind| (Some(kind), found.count_of(kind), NUMBERS_OF_KNOWN));
        for (kind, times, most) in known.into_iter().chain([(None, found.unexplained, NUMBERS_OF_UNEXPLAINED)]) {
            if times > 0 {
                row.kinds.entry(kind).or_default().add(message, times, most);
            }
        }
    }

    /// The file and the numbers of some messages, with dots where there are more.
    fn numbers(&self, differences: &Differences) -> String {
        let mut text = String::new();
        let mut last = None;
        for &(file, number) in &differences.numbers {
            if last != Some(file) {
                text += &format!(" {}", self.files[file]);
                last = Some(file);
            }
            text += &format!(" {number}");
        }
        if differences.messages > differences.numbers.len() as u64 {
            text += " ..";
        }
        text
    }

    /// The table, a line for each sender and kind of difference. Where there was no message there is no table.
    pub fn lines(&self) -> String {
        if self.messages == 0 {
            return String::new();
        }
        let width = self.senders.keys().map(|name| name.chars().count()).max().unwrap_or(0).max("sender".len());
        let mut text = format!("{:width$}  messages  {:36}  times  in messages\n", "sender", "difference");
        let (mut quiet, mut quiet_messages) = (0, 0);
        for (name, sender) in &self.senders {
            quiet += usize::from(sender.kinds.is_empty());
            if sender.kinds.is_empty() && quiet > MOST_QUIET {
                quiet_messages += sender.messages;
                continue;
            }
            let name = format!("{name:width$}  {:8}", sender.messages);
            text += &self.lines_of(&name, sender);
        }
        if quiet > MOST_QUIET {
            let more = quiet - MOST_QUIET;
            text += &format!("and {more} senders more with {quiet_messages} messages and no difference\n");
        }
        text
    }

    /// The table of ways: how many messages read otherwise by RFC 3396, and which. Where there was no message there is no table.
    pub fn ways(&self) -> String {
        if self.messages == 0 {
            return String::new();
        }
        let width = Way::ALL.map(|way| way.name().len()).into_iter().max().unwrap_or(0);
        let mut text = format!("{:width$}  messages\n", "RFC 3396's reading and the walk");
        for way in Way::ALL {
            let none = Differences::default();
            let differences = self.ways.get(&way).unwrap_or(&none);
            let numbers = if way.is_other() { self.numbers(differences) } else { String::new() };
            text += &format!("{:width$}  {:8}{numbers}\n", way.name(), differences.messages);
        }
        text
    }

    /// The lines of one sender.
    fn lines_of(&self, name: &str, sender: &Sender) -> String {
        if sender.kinds.is_empty() {
            return format!("{name}  none\n");
        }
        let line = |(kind, differences): (&Option<Known>, &Differences)| {
            let what = kind.map_or("UNEXPLAINED", Known::name);
            let Differences { times, messages, .. } = differences;
            format!("{name}  {what:36}  {times:5}  {messages}:{}\n", self.numbers(differences))
        };
        sender.kinds.iter().map(line).collect()
    }
}

#[cfg(test)]
mod tests {
    use super::*;

    #[test]
    fn ways_are_counted_and_the_first_messages_are_named() {
        let mut table = Table::default();
        assert_eq!(table.ways(), "");
        table.begin_file("a.bin".into());
        for number in 0..9 {
            table.add("sender".into(), number, &Findings::default(), &[Way::NamesBoth, Way::InSeveralFields]);
        }
        table.add("sender".into(), 9, &Findings::default(), &[Way::AsTheWalk]);
        let text = table.ways();
        let told = |way: Way| text.lines().find(|line| line.starts_with(way.name())).unwrap_or("").to_string();
        assert_eq!(text.lines().count(), 1 + Way::ALL.len());
        assert!(told(Way::NamesBoth).ends_with("  9 a.bin 0 1 2 3 4 5 .."));
        assert!(told(Way::AsTheWalk).ends_with("  1") && told(Way::NoNeighbours).ends_with("  0"));
    }
}
