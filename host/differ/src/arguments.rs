//! What is given on the command line: mode, seed and count.

pub const USAGE: &str = "give a mode (exhaustive, random, damaged or all), a seed and a count, as in \
    `differ random 1 1000000`; the count is the number of requests, in exhaustive mode the most for \
    each length and kind (those with more are sampled)";

#[derive(Clone, Copy, Debug, PartialEq, Eq)]
pub enum Mode {
    Exhaustive,
    Random,
    Damaged,
}

impl Mode {
    const ALL: [Mode; 3] = [Mode::Exhaustive, Mode::Random, Mode::Damaged];

    pub fn name(self) -> &'static str {
        match self {
            Mode::Exhaustive => "exhaustive",
            Mode::Random => "random",
            Mode::Damaged => "damaged",
        }
    }
}

#[derive(Debug, PartialEq, Eq)]
pub struct Arguments {
    pub modes: Vec<Mode>,
    pub seed: u64,
    pub count: u64,
}

impl Arguments {
    /// The arguments, or a sentence that says what to give.
    pub fn read(given: &[String]) -> Result<Self, String> {
        let [mode, seed, count] = given else {
            return Err(format!("{} arguments were given: {USAGE}", given.len()));
        };
        Ok(Arguments {
            modes: modes(mode)?,
            seed: number(seed, "seed")?,
            count: number(count, "count")?,
        })
    }
}

fn modes(name: &str) -> Result<Vec<Mode>, String> {
    let named = |mode: &Mode| name == "all" || name == mode.name();
    let modes: Vec<Mode> = Mode::ALL.into_iter().filter(named).collect();
    if modes.is_empty() {
        Err(format!("{name:?} is no mode: {USAGE}"))
    } else {
        Ok(modes)
    }
}

fn number(text: &str, what: &str) -> Result<u64, String> {
    let plain = text.replace(['_', ','], "");
    let read = plain.parse();
    read.map_err(|_| format!("{text:?} is no number for the {what}: {USAGE}"))
}

#[cfg(test)]
mod tests {
    use super::*;

    fn read(line: &str) -> Result<Arguments, String> {
        let given: Vec<String> = line.split_whitespace().map(str::to_string).collect();
        Arguments::read(&given)
    }

    #[test]
    fn good_arguments_are_read() {
        let all = read("all 7 1,000").unwrap();
        assert_eq!((all.modes.len(), all.seed, all.count), (3, 7, 1_000));
        assert_eq!(read("random 1 2").unwrap().modes, [Mode::Random]);
    }

    #[test]
    fn bad_arguments_get_a_sentence() {
        for line in [
            "",
            "random",
            "some 1 2",
            "random x 2",
            "random 1 -2",
            "random 1 2 3",
        ] {
            assert!(read(line).unwrap_err().contains("give a mode"));
        }
    }
}
