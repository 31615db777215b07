//! What can go wrong, and the exit status that says so: those of `thin`.

pub enum Trouble {
    /// The library refuses the job, by this number.
    Refused(u64, String),
    /// A file is off the form.
    Form(String),
    /// It could not be run: a word of the command line, a file that cannot be opened.
    Cannot(String),
}

impl Trouble {
    pub fn why(&self) -> String {
        match self {
            Trouble::Refused(number, why) => format!("refused {number}: {why}"),
            Trouble::Form(why) | Trouble::Cannot(why) => why.clone(),
        }
    }

    pub fn status(&self) -> i32 {
        match self {
            Trouble::Refused(..) => 1,
            Trouble::Form(_) => 2,
            Trouble::Cannot(_) => 3,
        }
    }
}
