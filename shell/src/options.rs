//! The arguments of the command, and how they say to read and print durations.
use crate::lists::{STYLES, UNITS};
use clap::builder::{PossibleValuesParser, TypedValueParser};
use clap::error::ErrorKind;
use clap::{Command, CommandFactory, Parser, ValueEnum};
use clap_complete::Shell;
use duration_str::{
    Breakdown, FORMAT_BUFFER_SIZE, Format, Help, Options, Rounding, Style, Suggestion, TimeUnit,
    Units, UnknownUnit, parse_duration, write_rounded,
};
use std::borrow::Cow;
use std::ffi::{OsStr, OsString};
use std::os::unix::ffi::OsStrExt;
use std::str::FromStr;
use std::time::Duration;

/// The options that say how to print for people. If one of them is given, clap doesn't report that
/// `--decimals` lacks its `--to`. So each of them conflicts with `--decimals`, too.
const SHAPES: [&str; 5] = ["style", "parts", "units", "largest", "smallest"];

/// Read durations such as 1h 30m, and print them for people or as numbers
#[derive(Parser)]
#[command(
    name = "duration",
    version,
    after_help = AFTER_HELP,
    args_override_self = true,
    max_term_width = 80
)]
pub struct Choices {
    /// Durations, each an argument of its own; if there are none, the lines of standard input
    #[arg(value_name = "TEXT")]
    pub texts: Vec<OsString>,
    /// Print a number in this unit, with as many decimals as needed, up to nine
    #[arg(long, value_name = "UNIT", value_parser = unit, conflicts_with_all = SHAPES)]
    pub to: Option<TimeUnit>,
    /// Print N decimals, 0 to 9
    #[arg(long, value_name = "N", requires = "to", conflicts_with_all = SHAPES,
        value_parser = up_to_nine)]
    decimals: Option<u8>,
    /// Round durations that can't be printed exactly: down, to the nearest, or up. Without it, what
    /// doesn't fit is left out. What the parts leave out stays the rest_ns of --json, and down
    /// makes it 0
    #[arg(long, value_name = "WAY")]
    round: Option<Round>,
    /// Read a number without a unit in this unit; a text that is only a number may be 12.5 or
    /// 1e-05. Unless the unit is s, + and * are not read
    #[arg(long, value_name = "UNIT", value_parser = unit)]
    pub from: Option<TimeUnit>,
    /// Print 1h 30min (short), 1h30min (compact) or 1 hour 30 minutes (long)
    #[arg(long, default_value_t, value_parser =
        PossibleValuesParser::new(STYLES)
            .try_map(|word| word.parse::<Style>()))]
    style: Style,
    /// Print at most N parts
    #[arg(long, value_name = "N", default_value = "11", value_parser = positive)]
    parts: usize,
    /// Count only these units, such as y,mon,d, in any order [default: all]
    #[arg(long, value_name = "UNITS", value_parser = list_of_units)]
    units: Option<UnitList>,
    /// Count no unit longer than this one
    #[arg(long, value_name = "UNIT", default_value = "y", value_parser = unit)]
    largest: TimeUnit,
    /// Count no unit shorter than this one
    #[arg(long, value_name = "UNIT", default_value = "ns", value_parser = unit)]
    smallest: TimeUnit,
    /// Convert the Nth field of each line, and print the whole line
    #[arg(long, value_name = "N", value_parser = positive)]
    pub field: Option<usize>,
    /// Divide fields at this ASCII character [default: runs of blanks]
    #[arg(short, long, value_name = "CHAR", requires = "field", value_parser = one_byte)]
    pub delimiter: Option<u8>,
    /// Print the first line, or the first N lines, unchanged
    #[arg(long, value_name = "N", num_args = ..=1, require_equals = true,
        default_missing_value = "1", conflicts_with = "texts", value_parser = whole::<u64>)]
    pub header: Option<u64>,
    /// Keep a refused text as it is, leave its place empty, or drop its line [default: drop; with
    /// --field keep, and with --field and --to empty]
    #[arg(long, value_name = "WHAT", conflicts_with_all = ["sum", "json"])]
    refused: Option<Refused>,
    /// Print only the sum of all durations, and no header; if a text is refused, print nothing
    #[arg(long)]
    pub sum: bool,
    /// Print a JSON object for each text, also for a refused one
    #[arg(long, conflicts_with_all = ["field", "delimiter", "header", "sum"])]
    pub json: bool,
    /// On standard error, print a JSON object for each refused text
    #[arg(long, conflicts_with_all = ["sum", "json"])]
    pub json_errors: bool,
    /// Print no durations and no refusals; the status says whether all texts were read
    #[arg(short, long)]
    pub quiet: bool,
    /// End lines with NUL instead of a line feed, except JSON objects
    #[arg(short, long)]
    pub zero_terminated: bool,
    /// Don't read capitals as small letters, so that 1M is refused
    #[arg(long)]
    pub lowercase: bool,
    /// Read the Chinese names of units too
    #[arg(long)]
    pub cn_unit: bool,
    /// Read more names of units, such as mins, hrs and yr
    #[arg(long)]
    pub more_names: bool,
    /// Refuse a number without a unit
    #[arg(long, conflicts_with = "from")]
    pub require_unit: bool,
    /// Instead of a refused text read its mended text, if it has one: 90min for 1.5h
    #[arg(long)]
    pub mend: bool,
    /// At the end, print on standard error how many texts were mended
    #[arg(long, requires = "mend", conflicts_with = "json_errors")]
    pub count_mended: bool,
    /// Print the regular expression of the texts that the grammar allows, for validators
    #[arg(long, conflicts_with_all = SHAPES, conflicts_with_all = ["texts", "to", "decimals",
        "round", "field", "delimiter", "header", "refused", "sum", "json", "json_errors", "quiet",
        "mend"])]
    pub pattern: bool,
    /// Print the completions for a shell
    #[arg(long, value_name = "SHELL", exclusive = true, value_parser =
        PossibleValuesParser::new(["bash", "fish", "zsh"]).try_map(|word| word.parse::<Shell>()))]
    pub completions: Option<Shell>,
}

/// What is printed for a refused text.
#[derive(Clone, Copy, PartialEq, ValueEnum)]
pub enum Refused {
    Keep,
    Empty,
    Drop,
}

#[derive(Clone)]
struct UnitList(Vec<TimeUnit>);

#[derive(Clone, Copy, PartialEq, ValueEnum)]
pub enum Round {
    Down,
    Nearest,
    Up,
}

impl From<Round> for Rounding {
    fn from(round: Round) -> Rounding {
        match round {
            Round::Down => Rounding::Down,
            Round::Nearest => Rounding::Nearest,
            Round::Up => Rounding::Up,
        }
    }
}

const AFTER_HELP: &str = "\
Units are y, q (91 days), mon (30 days), w, d, h, m, s, ms, us, ns, and longer names.
Without --from, a number without a unit counts seconds.
The status is 0 if all texts were read, 1 if one was refused, and 2 for an error.

Examples:
  $ sleep \"$(duration --to s '1m 30s')\"
  $ duration --from s --parts 2 93784.5  # 1d 2h
  $ duration --units y,mon,d 500d  # 1y 4mon 15d
  $ duration --parts 1 --round nearest 119m  # 2h
  $ duration -d, --field 2 --header --to s <jobs.csv";

impl Choices {
    pub fn of(words: impl Iterator<Item = OsString>) -> Result<Choices, clap::Error> {
        let mut has_ended = false;
        let choices = Choices::try_parse_from(words.map(|word| {
            has_ended |= word == "--";
            escape(word, has_ended)
        }))?;
        if choices.format().units != Units::NONE {
            return Ok(choices);
        }
        let told = if choices.largest < choices.smallest {
            "--largest is shorter than --smallest\n"
        } else {
            "--units has none from --largest to --smallest\n"
        };
        Err(clap::Error::raw(ErrorKind::ArgumentConflict, told))
    }

    /// Returns what to print for a refused text. If `--refused` doesn't say it, a field that is
    /// converted becomes empty, since the text could look like a converted one.
    pub fn refused(&self) -> Refused {
        let default = match (self.field, self.to) {
            (Some(_), Some(_)) if !self.sum => Refused::Empty,
            (Some(_), None) if !self.sum => Refused::Keep,
            _ => Refused::Drop,
        };
        self.refused.unwrap_or(default)
    }

    pub fn reading(&self) -> Options {
        Options {
            no_calc: self.from.is_some_and(|unit| unit != TimeUnit::Second),
            lowercase: self.lowercase,
            cn_unit: self.cn_unit,
        }
    }

    fn format(&self) -> Format {
        let format = Format::whole()
            .largest(self.largest)
            .smallest(self.smallest)
            .parts(self.parts)
            .style(self.style);
        match &self.units {
            Some(UnitList(units)) => format.only(units),
            None => format,
        }
    }

    fn rounding(&self) -> Option<Rounding> {
        self.round.map(Rounding::from)
    }

    /// A number is rounded down if no way of rounding is given.
    pub fn round(&self) -> Round {
        self.round.unwrap_or(Round::Down)
    }

    pub fn breakdown(&self, nanos: u64) -> Breakdown {
        Breakdown::rounded(&Duration::from_nanos(nanos), self.format(), self.rounding())
            .expect(LONG_ENOUGH)
    }

    pub fn printed<'b>(
        &self,
        nanos: u64,
        buffer: &'b mut [u8; FORMAT_BUFFER_SIZE],
    ) -> Cow<'b, str> {
        if let Some(unit) = self.to {
            return in_unit(nanos, unit, self.decimals, self.round()).into();
        }
        let duration = Duration::from_nanos(nanos);
        write_rounded(&duration, self.format(), self.rounding(), buffer)
            .expect(LONG_ENOUGH)
            .into()
    }
}

/// There is always something to round up to: a duration of up to 584 years becomes 585 years at
/// most.
const LONG_ENOUGH: &str = "there is a unit, and more than 0 parts";

/// If `decimals` is `None`, the number has as many decimals as it needs, up to nine.
pub fn in_unit(nanos: u64, unit: TimeUnit, decimals: Option<u8>, round: Round) -> String {
    let length = unit.nanos();
    let (whole, rest) = (nanos / length, nanos % length);
    if rest == 0 && decimals.is_none() {
        return whole.to_string();
    }
    let steps = 10_u64.pow(decimals.unwrap_or(9).into());
    let more = match round {
        Round::Down => 0,
        Round::Up => length - 1,
        Round::Nearest => length / 2,
    };
    let parts = (u128::from(rest) * u128::from(steps) + u128::from(more)) / u128::from(length);
    let (whole, part) = (whole + parts as u64 / steps, parts as u64 % steps);
    // `steps` puts a one before the decimals, so that they keep their leading zeros.
    let mut number = [&whole.to_string(), ".", &(steps + part).to_string()[1..]].concat();
    if decimals.is_none_or(|count| count == 0) {
        number.truncate(number.trim_end_matches('0').trim_end_matches('.').len());
    }
    number
}

/// Rust's `parse` would also take a plus sign.
fn whole<N: FromStr>(word: &str) -> Result<N, &'static str> {
    if word.is_empty() || !word.bytes().all(|byte| byte.is_ascii_digit()) {
        return Err("not a whole number");
    }
    word.parse().map_err(|_| "too large")
}

fn positive(word: &str) -> Result<usize, &'static str> {
    let number = whole(word)?;
    if number == 0 {
        return Err("less than 1");
    }
    Ok(number)
}

fn up_to_nine(word: &str) -> Result<u8, &'static str> {
    let number = whole(word)?;
    if number > 9 {
        return Err("more than 9");
    }
    Ok(number)
}

fn one_byte(text: &str) -> Result<u8, &'static str> {
    match text.as_bytes() {
        [byte] => Ok(*byte),
        _ => Err("not one ASCII character"),
    }
}

/// The error of a word such as `mins` suggests the name that the library suggests for `1mins`.
fn unit(word: &str) -> Result<TimeUnit, String> {
    word.parse().map_err(|unknown: UnknownUnit| {
        let help = parse_duration(&format!("1{word}"))
            .err()
            .and_then(|error| error.help());
        let Some(Help::DidYouMean(unit)) = help else {
            return unknown.to_string();
        };
        let name = Suggestion {
            count: None,
            unit: Some(unit),
        };
        format!("did you mean \"{name}\"?")
    })
}

fn list_of_units(words: &str) -> Result<UnitList, String> {
    let units = words
        .split(',')
        .map(|word| unit(word).map_err(|help| format!("{word:?}: {help}")));
    units.collect::<Result<_, _>>().map(UnitList)
}

pub fn completions(shell: Shell) -> String {
    let complete = |command: Command, name, words: &'static [&str]| {
        let words = PossibleValuesParser::new(words);
        command.mut_arg(name, |option| option.value_parser(words))
    };
    let mut command = complete(Choices::command(), "units", &["LIST"]);
    for name in ["to", "from", "largest", "smallest"] {
        command = complete(command, name, &UNITS);
    }
    let mut script = Vec::new();
    clap_complete::generate(shell, &mut command, "duration", &mut script);
    with_list(
        shell,
        &String::from_utf8(script).expect("a script is UTF-8"),
    )
}

/// Replaces the script's word `LIST` by code that completes the last word of a list of units.
fn with_list(shell: Shell, script: &str) -> String {
    match shell {
        Shell::Fish => {
            let (before, after) = script.split_once("LIST").expect("clap writes the word");
            let (before, _) = before.rsplit_once('"').expect("it is in quotation marks");
            let (_, after) = after.split_once('"').expect("they are two");
            // After a tab fish expects an explanation of the word, which is empty here.
            let words = UNITS.join(r"\t,") + r"\t";
            let list = r"(string match -r '^(?:.*=)?\K(?:[\pL,]*,)?' -- (commandline -ct))";
            format!(r#"{before}"{list}{{{words}}}"{after}"#)
        }
        Shell::Zsh => {
            // Newer versions of clap let zsh complete other values by `_default`, which gives names
            // of files, and runs a command that is in what was typed.
            let words = UNITS.join(" ");
            script
                .replace("(LIST)", &format!("_sequence compadd - {words}"))
                .replace(":_default'", ": '")
        }
        _ => {
            // compgen expands its words, and would run a command in them. So the typed text must
            // not become a part of them. A list with a blank is left alone, since `--units` refuses
            // it.
            let answer = r#"COMPREPLY=($(compgen -W "LIST" -- "${cur}"))"#;
            let (words, last) = (UNITS.join(" "), r"${cur##*,}");
            let answers = format!(
                r#"if [[ ${{cur}} != *[![:alpha:],\'\"]* ]]; then
                        COMPREPLY=($(compgen -W "{words}" -- "{last}"))
                        COMPREPLY=("${{COMPREPLY[@]/#/"${{cur%"{last}"}}"}}")
                    fi"#
            );
            // clap lists the name of the arguments as a word, too.
            without_files(&script.replace(answer, &answers).replace(" [TEXT]...", ""))
        }
    }
}

/// Makes clap's script leave the names of files to bash, which quotes them. `compgen -f` gives them
/// as they are, and a name can contain a command.
fn without_files(script: &str) -> String {
    script.replace(r#"COMPREPLY=($(compgen -f "${cur}"))"#, "COMPREPLY=()")
}

/// A byte that no argument has. It is put before an argument that begins like a negative number, so
/// that clap doesn't take it for an option.
pub const ESCAPE: &[u8] = b"\0";

/// After `--` all words are texts.
fn escape(word: OsString, is_text: bool) -> OsString {
    match word.as_encoded_bytes() {
        [b'-', b'.' | b'0'..=b'9', ..] => [OsStr::from_bytes(ESCAPE), &word].into_iter().collect(),
        // clap would take away the equals sign of `-d=` and `-zd=`.
        [b'-', flags @ .., b'd', b'=']
            if !is_text && flags.iter().all(|flag| b"qz".contains(flag)) =>
        {
            [&word, OsStr::new("=")].into_iter().collect()
        }
        _ => word,
    }
}
