//! Blocks: several commands on sets as one commit, or one read.

use crate::errors::Failed;
use crate::raw::replies::RawReply;
use crate::raw::sets::RawCommand;
use crate::raw::Status;
use crate::replies::done;
use crate::retry::Done;
use crate::sets::{Set, Sets};

/// The most commands that a block may have.
pub const BLOCK_MAX: usize = 8;

/// One command of a block.
#[derive(Clone, Copy, Debug, PartialEq, Eq)]
#[allow(missing_docs)]
pub enum Command {
    /// Adds a key, with the value 0.
    Add { set: Set, key: u32 },
    /// Gives a key a value, and adds it where it isn't there.
    Put { set: Set, key: u32, value: u64 },
    /// Takes a key out.
    Del { set: Set, key: u32 },
    /// Moves a key with its value to another set.
    Move { from: Set, to: Set, key: u32 },
    /// Asks whether a key is there.
    Has { set: Set, key: u32 },
    /// Asks for the value of a key.
    Get { set: Set, key: u32 },
    /// Asks whether a key is in each of two sets.
    Pair { first: Set, second: Set, key: u32 },
}

/// What one command of a block came to, in the state that those before it left.
#[derive(Clone, Copy, Debug, PartialEq, Eq)]
pub enum Answer {
    /// Of an add, a put, a del or a move: whether it changed something.
    Changed(bool),
    /// Whether the key is there.
    Has(bool),
    /// The value of the key, if it is there.
    Value(Option<u64>),
    /// Whether the key is in the first set, and whether it is in the second.
    Pair(bool, bool),
}

/// That a block has 1 to [`BLOCK_MAX`] commands, which is looked at where it is compiled.
struct Fits<const N: usize>;

impl<const N: usize> Fits<N> {
    const SO: () = assert!(1 <= N && N <= BLOCK_MAX, "a block has 1 to 8 commands");
}

impl Answer {
    fn of(command: Command, told: RawReply) -> Answer {
        let yes = match told.status() {
            Status::Done => true,
            Status::No => false,
            other => other.is_unexpected(),
        };
        match command {
            Command::Add { .. } | Command::Put { .. } | Command::Del { .. } | Command::Move { .. } => {
                Answer::Changed(yes)
            }
            Command::Has { .. } => Answer::Has(yes),
            Command::Get { .. } => Answer::Value(yes.then_some(told.value)),
            Command::Pair { .. } => Answer::Pair(told.both().0, told.both().1),
        }
    }
}

impl Sets {
    /// Makes 1 to [`BLOCK_MAX`] commands, one after another, as one commit, which is seen whole or not at all; where none of them
    /// changes anything it is one read.
    ///
    /// # Errors
    ///
    /// Each [`Failed`]: [`Failed::Full`] where one of the commands finds too few vacant objects. Nothing was changed.
    ///
    /// ```
    /// # fn main() -> Result<(), Box<dyn std::error::Error>> {
    /// use mvrlu::{Answer, Command, Set};
    /// # let mut seats = mvrlu::open_sets(mvrlu::SetsOptions::default(), 1)?;
    /// let (table, index) = (Set::Table(0), Set::Tree(0));
    /// let done = seats[0].retry(100, |sets| {
    ///     sets.block([
    ///         Command::Del { set: index, key: 900 },
    ///         Command::Add { set: index, key: 950 },
    ///         Command::Put { set: table, key: 3, value: 950 },
    ///     ])
    /// })?;
    /// assert_eq!(done.value, [Answer::Changed(false), Answer::Changed(true), Answer::Changed(true)]);
    /// assert_eq!(done.at, mvrlu::At::Commit(1));
    /// # Ok(())
    /// # }
    /// ```
    ///
    /// ```compile_fail,E0080
    /// # let mut seats = mvrlu::open_sets(mvrlu::SetsOptions::default(), 1).unwrap();
    /// let none: [mvrlu::Command; 0] = [];
    /// seats[0].block(none).unwrap();
    /// ```
    pub fn block<const N: usize>(&mut self, commands: [Command; N]) -> Result<Done<[Answer; N]>, Failed> {
        let () = Fits::<N>::SO;
        let mut told = [RawReply::default(); N];
        let status = self.ask_block(&commands.map(RawCommand::of), &mut told);
        // All replies have the one place, and where the block wasn't done the one cause.
        let done = done(status, told[0])?;
        let mut told = told.into_iter();
        Ok(done.map(|_| commands.map(|command| Answer::of(command, told.next().expect("each command has a reply")))))
    }
}
