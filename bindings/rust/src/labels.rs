//! The names that users give to scopes and jobs. The rules know words alone, so any other text stays here.

use std::borrow::Cow;
use std::collections::BTreeMap;
use std::fmt::Write;

/// The most bytes of a word of the rules.
const WORD_ROOM: usize = 24;
/// The most bytes of a label in a remark of a journal.
const REMARK_ROOM: usize = 120;

/// The labels of scopes and tasks by their numbers, since the history was last discarded.
#[derive(Default)]
pub struct Labels {
    of_scopes: BTreeMap<u32, String>,
    of_tasks: BTreeMap<u32, String>,
    /// The last number that was given to a scope.
    pub scopes: u32,
    /// The same of tasks.
    pub tasks: u32,
}

impl Labels {
    /// The word that the rules get for the name: the name itself, or what is like it.
    pub fn word(name: &str) -> Cow<'_, str> {
        let is_letter = |byte: u8| byte.is_ascii_lowercase();
        let is_other = |byte: u8| byte.is_ascii_digit() || b"-_.".contains(&byte);
        let bytes = name.as_bytes();
        if (1..=WORD_ROOM).contains(&bytes.len())
            && is_letter(bytes[0])
            && bytes.iter().all(|byte| is_letter(*byte) || is_other(*byte))
        {
            return Cow::Borrowed(name);
        }
        let mut word = String::with_capacity(WORD_ROOM);
        for one in name.chars() {
            let lower = one.to_ascii_lowercase();
            let fits = lower.is_ascii() && (is_letter(lower as u8) || is_other(lower as u8));
            let byte = if fits { lower } else { '-' };
            if word.is_empty() && !byte.is_ascii_lowercase() {
                word.push('x');
            }
            if word.len() < WORD_ROOM {
                word.push(byte);
            }
        }
        Cow::Owned(if word.is_empty() { "x".to_owned() } else { word })
    }

    /// The label of a scope.
    pub fn scope(&mut self, scope: u32, name: &str) {
        self.of_scopes.insert(scope, name.to_owned());
    }

    /// The label of a task.
    pub fn task(&mut self, task: u32, name: &str) {
        self.of_tasks.insert(task, name.to_owned());
    }

    /// What the scope is called.
    pub fn of_scope(&self, scope: u32) -> Option<&str> {
        self.of_scopes.get(&scope).map(String::as_str)
    }

    /// What the task is called.
    pub fn of_task(&self, task: u32) -> Option<&str> {
        self.of_tasks.get(&task).map(String::as_str)
    }

    /// Forgets the labels; the numbers go on.
    pub fn forget(&mut self) {
        if !self.of_scopes.is_empty() || !self.of_tasks.is_empty() {
            self.of_scopes.clear();
            self.of_tasks.clear();
        }
    }

    /// The journal with a label behind each line that opens or forks what has one.
    pub fn remarked(&self, journal: &str) -> String {
        let count_of = |word| journal.lines().filter(|line| line.starts_with(word)).count() as u32;
        // How many were numbered before the journal began.
        let first_scope = self.scopes.saturating_sub(count_of("open "));
        let first_task = self.tasks.saturating_sub(count_of("fork "));
        let (mut scope, mut task) = (0, 0);
        let mut text = String::with_capacity(journal.len());
        for line in journal.lines() {
            text.push_str(line);
            text.push('\n');
            if line.starts_with("open ") {
                scope += 1;
                self.remark(&mut text, "scope", scope, self.of_scope(first_scope + scope));
            } else if line.starts_with("fork ") {
                task += 1;
                self.remark(&mut text, "task", task, self.of_task(first_task + task));
            }
        }
        text
    }

    /// Writes a label into a script, as a remark.
    fn remark(&self, text: &mut String, kind: &str, number: u32, label: Option<&str>) {
        if let Some(label) = label {
            let mut room = REMARK_ROOM;
            let fits = label.chars().map(|one| if one.is_control() { ' ' } else { one }).take_while(|one| {
                let has_room = one.len_utf8() <= room;
                room = room.saturating_sub(one.len_utf8());
                has_room
            });
            let label: String = fits.collect();
            let _ = writeln!(text, "# {kind} {number} is {label}");
        }
    }

    /// The dump with the labels, each in its place among the keys; and with this moment.
    pub fn labelled(&self, dump: &str, now: u64) -> String {
        let mut text = String::with_capacity(dump.len() + 64);
        let mut rest = dump;
        if let Some(behind) = dump.strip_prefix("{\"moment\":") {
            let _ = write!(text, "{{\"moment\":{now}");
            rest = behind.trim_start_matches(|one: char| one.is_ascii_digit());
        }
        // The number of each object that is not closed yet; the outermost one has none.
        let mut numbers = vec![0];
        while let Some(at) = rest.find(['{', '}', '"']) {
            let (before, found) = rest.split_at(at);
            text.push_str(before);
            match found.as_bytes()[0] {
                b'{' => numbers.push(0),
                b'}' => drop(numbers.pop()),
                // Words of the book have no quotes and no braces.
                _ => {}
            }
            if let Some(behind) = found.strip_prefix("\"id\":") {
                let digits = behind.len() - behind.trim_start_matches(|one: char| one.is_ascii_digit()).len();
                if let Some(last) = numbers.last_mut() {
                    *last = behind[..digits].parse().unwrap_or(0);
                }
            }
            let number = numbers.last().copied().unwrap_or(0);
            let label = match found {
                found if found.starts_with("\"owner\":") => self.of_scope(number),
                found if found.starts_with("\"name\":") => self.of_task(number),
                _ => None,
            };
            if let Some(label) = label {
                text.push_str("\"label\":");
                push_json(&mut text, label);
                text.push(',');
            }
            text.push_str(&found[..1]);
            rest = &found[1..];
        }
        text.push_str(rest);
        text
    }
}

/// Writes the text as JSON has it.
fn push_json(text: &mut String, label: &str) {
    text.push('"');
    for one in label.chars() {
        match one {
            '"' => text.push_str("\\\""),
            '\\' => text.push_str("\\\\"),
            one if one.is_control() => drop(write!(text, "\\u{:04x}", one as u32)),
            one => text.push(one),
        }
    }
    text.push('"');
}

#[cfg(test)]
mod tests {
    use super::*;

    #[test]
    fn a_word_is_the_name_or_like_it() {
        assert!(matches!(Labels::word("svc.a-1"), Cow::Borrowed("svc.a-1")));
        let words = ["getUser", "svc::handler", "", "7", "Ärger", "a b\n", "abcdefghijklmnopqrstuvwxyz"];
        let likes = ["getuser", "svc--handler", "x", "x7", "x-rger", "a-b-", "abcdefghijklmnopqrstuvwx"];
        for (name, like) in words.into_iter().zip(likes) {
            assert_eq!(Labels::word(name), like);
        }
    }

    #[test]
    fn labels_stand_in_their_place() {
        let mut labels = Labels::default();
        labels.scope(2, "a \"page\"");
        labels.task(1, "getUser\n");
        let dump = concat!(
            r#"{"moment":0,"root":{"cause":null,"id":1,"inner":{"cause":{"by":2,"kind":"call"},"id":2,"inner":null,"#,
            r#""joiner":"any","owner":0,"tasks":[]},"joiner":"all","owner":0,"tasks":[{"id":1,"inner":null,"#,
            r#""name":"getuser"}]}}"#
        );
        let expected = concat!(
            r#"{"moment":7,"root":{"cause":null,"id":1,"inner":{"cause":{"by":2,"kind":"call"},"id":2,"inner":null,"#,
            r#""joiner":"any","label":"a \"page\"","owner":0,"tasks":[]},"joiner":"all","owner":0,"tasks":[{"id":1,"#,
            r#""inner":null,"label":"getUser\u000a","name":"getuser"}]}}"#
        );
        assert_eq!(labels.labelled(dump, 7), expected);
    }
}
