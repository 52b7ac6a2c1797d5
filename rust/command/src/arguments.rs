//! The command line: what may be asked, and its help.

use std::ffi::OsString;
use std::os::unix::ffi::OsStrExt;
use std::path::PathBuf;
use std::str::FromStr;

use clap::builder::PossibleValuesParser;
use clap::error::ErrorKind;
use clap::{value_parser, Arg, ArgAction, ArgMatches, Command, ValueHint};
use clap_complete::Shell;

use crate::completions::SHELLS;
use crate::failure::{Failure, Place, Refusal};
use crate::form::Form;
use crate::help;
use crate::refusals::NOT_DECIMAL;

/// What the user asks for.
pub enum Job {
    Plan { file: PathBuf, overlay: Option<PathBuf>, wires: u32, limit: u32, capture: u32 },
    Budget { file: PathBuf, wires: u32, limit: u32, tries: u64, capture: u32 },
    Soc { file: PathBuf },
    Layout { file: PathBuf, overlay: Option<PathBuf>, module: u32, test: u32, width: u32, capture: u32 },
    Time { file: PathBuf, overlay: Option<PathBuf>, module: u32, width: u32, capture: u32 },
    Write { file: PathBuf, overlay: Option<PathBuf>, wires: u32, limit: u32, capture: u32, out: PathBuf },
    Show { file: PathBuf },
    Overlay { base: PathBuf, overlay: PathBuf },
    Lines { base: PathBuf, overlay: PathBuf, module: u32 },
    Completions { shell: Shell },
    Manual,
}

/// The job, and the form of its result, which holds for a refusal too.
pub struct Asked {
    pub form: Form,
    pub job: Result<Job, Failure>,
}

/// Reads the command line. Help and version end in a failure too, as clap has it.
pub fn read() -> Asked {
    match command().try_get_matches() {
        Ok(matches) => {
            let (name, matches) = matches.subcommand().expect("clap asks for a subcommand");
            let given = Given { name, matches };
            Asked { form: Form::chosen(given.flag("json")), job: given.job() }
        }
        Err(error) => Asked { form: Form::chosen(false), job: Err(Failure::Call(error)) },
    }
}

pub fn command() -> Command {
    Command::new("tallowwing")
        .version(env!("CARGO_PKG_VERSION"))
        .about(help::ABOUT)
        .long_about(help::LONG_ABOUT)
        .after_help(help::AFTER)
        .after_long_help(help::after_long())
        .subcommand_required(true)
        .disable_help_subcommand(true)
        .subcommand(subcommand("plan", help::PLAN).arg(soc_file()).arg(wires()).arg(limit()).arg(capture()).arg(over()).arg(json()))
        .subcommand(subcommand("budget", help::BUDGET).args([soc_file(), wires(), more_buses(), tries(), capture(), json()]))
        .subcommand(subcommand("soc", help::SOC).arg(soc_file()))
        .subcommand(subcommand("layout", help::LAYOUT).args([soc_file(), module(), test(), width(), capture(), over(), json()]))
        .subcommand(subcommand("time", help::TIME).arg(soc_file()).arg(module()).arg(width()).arg(capture()).arg(over()).arg(json()))
        .subcommand(subcommand("write", help::WRITE).arg(soc_file()).arg(wires()).arg(limit()).arg(out()).arg(capture()).arg(over()))
        .subcommand(subcommand("show", help::SHOW).arg(plan_file()).arg(json()))
        .subcommand(subcommand("overlay", help::OVERLAY).arg(base_file()).arg(overlay_file()))
        .subcommand(subcommand("lines", help::LINES).arg(base_file()).arg(overlay_file()).arg(module()))
        .subcommand(subcommand("completions", help::COMPLETIONS).arg(shell()))
        .subcommand(subcommand("manual", help::MANUAL))
}

/// The first sentence is the short help.
fn subcommand(name: &'static str, help: &'static str) -> Command {
    let about = help.split_once(".\n").map_or(help, |(about, _)| about);
    Command::new(name).about(about).long_about(help)
}

/// An argument FILE, whatever it is called in the usage.
fn file_argument(name: &'static str, help: &'static str) -> Arg {
    Arg::new("FILE").value_name(name).help(help).required(true).value_parser(value_parser!(PathBuf)).value_hint(ValueHint::FilePath)
}

fn soc_file() -> Arg {
    file_argument("FILE", "A SOC text, or - for standard input")
}

fn base_file() -> Arg {
    file_argument("BASE", "A SOC text, or - for standard input")
}

fn overlay_file() -> Arg {
    let help = "An overlay on it, or - for standard input";
    Arg::new("OVERLAY").help(help).required(true).value_parser(value_parser!(PathBuf)).value_hint(ValueHint::FilePath)
}

fn over() -> Arg {
    let help = "An overlay on the SOC text, or - for standard input";
    Arg::new("overlay")
        .long("overlay")
        .value_name("OVERLAY")
        .help(help)
        .value_parser(value_parser!(PathBuf))
        .value_hint(ValueHint::FilePath)
}

fn plan_file() -> Arg {
    file_argument("PLANFILE", "A plan file, or - for standard input")
}

fn out() -> Arg {
    let help = "The plan file to write, whole or not at all, or - for standard output";
    Arg::new("OUT").help(help).required(true).value_parser(value_parser!(PathBuf)).value_hint(ValueHint::FilePath)
}

fn json() -> Arg {
    Arg::new("json").long("json").help("Prints one JSON object").action(ArgAction::SetTrue)
}

fn shell() -> Arg {
    Arg::new("SHELL").help("The shell").required(true).value_parser(PossibleValuesParser::new(SHELLS))
}

/// W and B may be any word, even with a hyphen in front: one that is no number is refused as on the line `Plan W B`, and is no wrong call.
fn word_argument(name: &'static str, help: &'static str) -> Arg {
    Arg::new(name).help(help).required(true).value_parser(value_parser!(OsString)).allow_hyphen_values(true)
}

fn wires() -> Arg {
    word_argument("W", "Wires of all buses together, 1 to 64")
}

fn limit() -> Arg {
    word_argument("B", "The most buses, 1 to 3")
}

/// The limit of the planner with a spending limit.
fn more_buses() -> Arg {
    word_argument("B", "The most buses, 1 to 8")
}

fn tries() -> Arg {
    number_argument("TRIES", "The most tries, 1 to 1,099,511,627,776")
}

fn number_argument(name: &'static str, help: &'static str) -> Arg {
    Arg::new(name).help(help).required(true).value_parser(value_parser!(OsString))
}

fn module() -> Arg {
    number_argument("MODULE", "The module's number, from 0")
}

fn test() -> Arg {
    number_argument("TEST", "The number of its test, from 1")
}

fn width() -> Arg {
    number_argument("WIDTH", "Wires of the bus, 1 to 64")
}

/// Any decimal; which ones make sense is the library's affair.
fn capture() -> Arg {
    let help = "Capture cycles of each pattern, 1 to 4";
    Arg::new("C").long("capture").value_name("C").help(help).default_value("1").value_parser(value_parser!(OsString))
}

/// The arguments of a subcommand.
struct Given<'a> {
    name: &'a str,
    matches: &'a ArgMatches,
}

impl Given<'_> {
    fn path(&self, argument: &str) -> PathBuf {
        self.matches.get_one::<PathBuf>(argument).cloned().unwrap_or_default()
    }

    fn bytes(&self, argument: &str) -> Vec<u8> {
        self.matches.get_one::<OsString>(argument).map(|word| word.as_bytes().to_vec()).unwrap_or_default()
    }

    fn flag(&self, argument: &str) -> bool {
        matches!(self.matches.try_get_one::<bool>(argument), Ok(Some(true)))
    }

    fn job(&self) -> Result<Job, Failure> {
        let file = || self.path("FILE");
        let overlay = || self.matches.get_one::<PathBuf>("overlay").cloned();
        Ok(match self.name {
            "plan" => {
                let (wires, limit, capture) = (self.word("W")?, self.word("B")?, self.number("C")?);
                Job::Plan { file: file(), overlay: overlay(), wires, limit, capture }
            }
            "budget" => {
                let (wires, limit, tries, capture) = (self.word("W")?, self.word("B")?, self.long_number("TRIES")?, self.number("C")?);
                Job::Budget { file: file(), wires, limit, tries, capture }
            }
            "soc" => Job::Soc { file: file() },
            "layout" => {
                let (module, test, width) = (self.number("MODULE")?, self.number("TEST")?, self.number("WIDTH")?);
                Job::Layout { file: file(), overlay: overlay(), module, test, width, capture: self.number("C")? }
            }
            "time" => {
                let (module, width, capture) = (self.number("MODULE")?, self.number("WIDTH")?, self.number("C")?);
                Job::Time { file: file(), overlay: overlay(), module, width, capture }
            }
            "write" => {
                let (wires, limit, capture) = (self.word("W")?, self.word("B")?, self.number("C")?);
                Job::Write { file: file(), overlay: overlay(), wires, limit, capture, out: self.path("OUT") }
            }
            "show" => Job::Show { file: file() },
            "overlay" => Job::Overlay { base: file(), overlay: self.path("OVERLAY") },
            "lines" => Job::Lines { base: file(), overlay: self.path("OVERLAY"), module: self.number("MODULE")? },
            "completions" => Job::Completions { shell: self.shell() },
            _ => Job::Manual,
        })
    }

    fn shell(&self) -> Shell {
        let name = self.matches.get_one::<String>("SHELL").expect("clap asks for a shell");
        name.parse().expect("clap takes no other shell")
    }

    /// The number of a word, or the refusal that document 01 has for it. What is not one word is a wrong call.
    fn word(&self, argument: &'static str) -> Result<u32, Failure> {
        let typed = self.bytes(argument);
        if typed.is_empty() || typed.iter().any(|byte| b" \t\r\n".contains(byte)) {
            return Err(self.wrong_call(format!("{argument} is not one word: '{}'", typed.escape_ascii())));
        }
        decimal(&typed).ok_or_else(|| {
            let place = Place::Argument { name: argument, value: typed.escape_ascii().to_string() };
            Refusal::without_line(place, NOT_DECIMAL, Some(DECIMALS.to_string())).into()
        })
    }

    fn number(&self, argument: &str) -> Result<u32, Failure> {
        let typed = self.bytes(argument);
        decimal(&typed).ok_or_else(|| self.wrong_call(format!("{argument} is not a decimal of {DECIMALS}: '{}'", typed.escape_ascii())))
    }

    fn long_number(&self, argument: &str) -> Result<u64, Failure> {
        let typed = self.bytes(argument);
        decimal(&typed)
            .ok_or_else(|| self.wrong_call(format!("{argument} is not a decimal of {LONG_DECIMALS}: '{}'", typed.escape_ascii())))
    }

    /// An error that shows the usage of the subcommand.
    fn wrong_call(&self, message: String) -> Failure {
        let mut command = command();
        command.build();
        let asked = command.find_subcommand_mut(self.name).expect("the subcommand was just read");
        Failure::Call(asked.error(ErrorKind::ValueValidation, message))
    }
}

/// What an argument that is a number may be.
const DECIMALS: &str = "0 to 4,294,967,295";
const LONG_DECIMALS: &str = "0 to 18,446,744,073,709,551,615";

/// Digits without sign or leading zeros, within 32 bits or 64. Which numbers make sense is the library's affair.
fn decimal<N: FromStr>(word: &[u8]) -> Option<N> {
    let plain = word.iter().all(u8::is_ascii_digit) && (word == b"0" || !word.starts_with(b"0"));
    let word = std::str::from_utf8(word).ok()?;
    if plain {
        word.parse().ok()
    } else {
        None
    }
}
