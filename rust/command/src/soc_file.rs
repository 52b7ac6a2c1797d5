//! A SOC text that was read to its record, and the refusals of what is asked of it.

use std::path::{Path, PathBuf};

use tallowwing_library::views::SocView;
use tallowwing_library::{self as library, Answer, SOC_BYTES, TEXT_MAX};

use crate::failure::{Failure, Place, Refusal};
use crate::{input, refusals};

pub struct SocFile {
    path: PathBuf,
    record: Box<[u8; SOC_BYTES]>,
}

/// An argument of the call, by name, and its number.
pub type Argument = (&'static str, u64);

impl SocFile {
    pub fn read(path: &Path) -> Result<Self, Failure> {
        let text = input::read(path, TEXT_MAX)?;
        let mut record = Box::new([0; SOC_BYTES]);
        match library::read_soc(&text, &mut record[..]) {
            Answer::Figure(_) => Ok(SocFile { path: path.to_path_buf(), record }),
            Answer::Refused { number, line } => Err(Refusal::of_text(path, &text, number, line).into()),
        }
    }

    pub fn of_record(path: &Path, record: Box<[u8; SOC_BYTES]>) -> Self {
        SocFile { path: path.to_path_buf(), record }
    }

    pub fn record(&self) -> &[u8] {
        &self.record[..]
    }

    pub fn view(&self) -> SocView<'_> {
        SocView::new(&self.record)
    }

    /// The figure that the library gives, or its refusal, told of the argument that it belongs to.
    pub fn figure(&self, answer: Answer, arguments: &[Argument]) -> Result<u64, Failure> {
        match answer {
            Answer::Figure(figure) => Ok(figure),
            Answer::Refused { number, .. } => Err(self.refusal(number, arguments).into()),
        }
    }

    pub fn refusal(&self, number: u8, arguments: &[Argument]) -> Refusal {
        if number == refusals::NOT_THERE {
            return self.not_there(arguments);
        }
        let known = (number == refusals::MANY_PLANNED).then(|| self.view().planned_count().to_string());
        let place = refusals::of(number).arguments.iter().find_map(|name| argument(arguments, name));
        Refusal::without_line(place.unwrap_or_else(|| Place::File(self.path.clone())), number, known)
    }

    /// Which of module and test is not there, and which are.
    fn not_there(&self, arguments: &[Argument]) -> Refusal {
        let number = |name: &str| arguments.iter().find(|argument| argument.0 == name).map_or(0, |argument| argument.1);
        let module = number("MODULE") as u32;
        let (name, known) = match self.view().module(module).map(|module| module.test_count()) {
            None => ("MODULE", format!("the modules are 0 to {}", self.view().module_count() - 1)),
            Some(0) => ("TEST", format!("module {module} has no test")),
            Some(tests) => ("TEST", format!("the tests of module {module} are 1 to {tests}")),
        };
        let place = argument(arguments, name).unwrap_or_else(|| Place::File(self.path.clone()));
        Refusal::without_line(place, refusals::NOT_THERE, Some(known))
    }
}

fn argument(arguments: &[Argument], name: &str) -> Option<Place> {
    let (name, value) = arguments.iter().find(|argument| argument.0 == name)?;
    Some(Place::Argument { name, value: value.to_string() })
}
