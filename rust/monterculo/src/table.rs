//! The code alone: counting, tables and codewords.

use std::slice;

use crate::refusal::Given;
use crate::{sys, Refusal, LONGEST, PLACES};

/// The width of a base symbol: two bits or four.
///
/// Two takes fewer bytes where few characters are frequent; four has room for longer texts, as no roll has more than
/// 1,048,576 symbols and with four bits most characters take a single one.
#[derive(Clone, Copy, Debug, PartialEq, Eq, Hash)]
pub enum Width {
    /// k = 2: four symbols in a byte.
    Two,
    /// k = 4: two symbols in a byte.
    Four,
}

impl Width {
    /// k, the bits of a symbol.
    ///
    /// ```
    /// assert_eq!([monterculo::Width::Two, monterculo::Width::Four].map(|width| width.k()), [2, 4]);
    /// ```
    pub const fn k(self) -> u8 {
        match self {
            Width::Two => 2,
            Width::Four => 4,
        }
    }
}

/// Counts the characters of a text: each of the 256 counts becomes that byte's count.
///
/// Refusals, in their order: 2 (the length of `counts`), 4 (1,048,576; the text is longer).
///
/// ```
/// let mut counts = [0; 256];
/// monterculo::count(b"banana", &mut counts)?;
/// assert_eq!((counts[usize::from(b'a')], counts[usize::from(b'z')]), (3, 0));
/// # Ok::<(), monterculo::Refusal>(())
/// ```
pub fn count(text: &[u8], counts: &mut [u32]) -> Result<(), Refusal> {
    match sys::count(text, counts).result(Given::default()) {
        Ok(_) => Ok(()),
        Err(Refusal::NoRoom { .. }) => Err(Refusal::LongText { length: text.len() }),
        Err(refusal) => Err(refusal),
    }
}

/// A table: the width k of a base symbol, the number s of stoppers, and the characters in rank order.
///
/// The symbols below s are stoppers, the others continuers. A codeword is zero or more continuers and then one stopper;
/// lower ranks take the shorter codewords.
#[derive(Clone, Debug, PartialEq, Eq, Hash)]
pub struct Table(pub(crate) sys::Table);

impl Table {
    /// Chooses the table of width k with the fewest symbols for these counts, and gives the total of symbols with it.
    /// Any counts may come. The ten digits, + and byte 10 count as at least 1, so that they are in every chosen table
    /// and can always come by an edit. Any other character counted 0 has no rank: count those that may come once more,
    /// such as all letters.
    ///
    /// The total is the symbols of the counted text, and a codeword of each of those twelve that the text does not hold
    /// and of each other character counted in beside it. A buffer for the total is enough for the text, and may be more
    /// than needed.
    ///
    /// Refusals, in their order: 1 (0; the width only), 2 (the length of `counts`).
    ///
    /// ```
    /// use monterculo::{count, Table};
    ///
    /// let mut counts = [0; 256];
    /// count(b"banana", &mut counts)?;
    /// let (table, total) = Table::choose(4, &counts)?;
    /// // Six characters of one symbol each, and the twelve.
    /// assert_eq!((table.s(), table.characters(), total), (15, &b"an\n+0123456789b"[..], 18));
    /// # Ok::<(), monterculo::Refusal>(())
    /// ```
    pub fn choose(k: u8, counts: &[u32]) -> Result<(Table, u64), Refusal> {
        let chosen = sys::choose(k, counts);
        let given = Given { table: Some(&chosen.table), ..Given::default() };
        chosen.answer.result(given).map(|total| (Table(chosen.table), total))
    }

    /// The table of these parts, such as were stored with a roll; σ is the number of characters.
    ///
    /// Nothing is checked here, since every operation checks its table and refuses a bad one by 1. Of more than 256
    /// characters the first 256 are kept, and the table is bad.
    ///
    /// ```
    /// use monterculo::Table;
    ///
    /// let table = Table::new(2, 3, b"abrcd");
    /// assert_eq!(table.codeword_of(b'c')?.symbols(), [3, 0]);
    /// assert_eq!(Table::new(2, 4, b"abrcd").codeword_of(b'c').unwrap_err().number(), 1);
    /// # Ok::<(), monterculo::Refusal>(())
    /// ```
    pub fn new(k: u8, s: u8, characters: &[u8]) -> Table {
        let mut places = [0; PLACES];
        for (place, &character) in places.iter_mut().zip(characters) {
            *place = character;
        }
        // A number too great for 16 bits is as bad as the greatest of them.
        let sigma = u16::try_from(characters.len()).unwrap_or(u16::MAX);
        Table(sys::Table { k, s, sigma, places })
    }

    /// The width of a base symbol in bits.
    pub fn k(&self) -> u8 {
        self.0.k
    }

    /// The number of stoppers: the symbols below it.
    pub fn s(&self) -> u8 {
        self.0.s
    }

    /// σ, the number of characters.
    pub fn sigma(&self) -> u16 {
        self.0.sigma
    }

    /// The 256 places, of which the first σ hold the characters in rank order; those past them are 0.
    pub fn places(&self) -> &[u8; PLACES] {
        &self.0.places
    }

    /// The characters in rank order: the first σ places.
    pub fn characters(&self) -> &[u8] {
        self.0.places.get(..self.0.sigma.into()).unwrap_or(&self.0.places)
    }

    /// The codeword of a character.
    ///
    /// Refusals, in their order: 1 (0), 3 (0).
    ///
    /// ```
    /// use monterculo::{Refusal, Table};
    ///
    /// let table = Table::new(4, 3, b"anb");
    /// assert_eq!(table.codeword_of(b'b')?.symbols(), [2]);
    /// assert_eq!(table.codeword_of(b'x'), Err(Refusal::NotInTable { place: 0, character: b'x' }));
    /// # Ok::<(), monterculo::Refusal>(())
    /// ```
    pub fn codeword_of(&self, character: u8) -> Result<Codeword, Refusal> {
        let coded = sys::codeword_of(self.0, character);
        let given = Given { table: Some(&self.0), text: slice::from_ref(&character), ..Given::default() };
        coded.answer.result(given).map(|_| Codeword(coded.word))
    }

    /// The character of a codeword.
    ///
    /// Refusals, in their order: 1 (0), 6 (0; the symbols are not exactly one codeword of rank below σ).
    ///
    /// ```
    /// use monterculo::{Codeword, Refusal, Table};
    ///
    /// let table = Table::new(2, 3, b"abrcd");
    /// assert_eq!(table.character_of(&Codeword::new(&[3, 1]))?, b'd');
    /// assert_eq!(table.character_of(&Codeword::new(&[3, 2])), Err(Refusal::NotOneCodeword));
    /// # Ok::<(), monterculo::Refusal>(())
    /// ```
    pub fn character_of(&self, codeword: &Codeword) -> Result<u8, Refusal> {
        let given = Given { table: Some(&self.0), ..Given::default() };
        match sys::character_of(self.0, codeword.0).narrow(given) {
            Err(Refusal::BadCodeword { .. }) => Err(Refusal::NotOneCodeword),
            answer => answer,
        }
    }
}

/// A codeword: its symbols, one byte each.
///
/// ```
/// use monterculo::{Codeword, Table};
///
/// let codeword = Table::new(2, 3, b"abrcd").codeword_of(b'd')?;
/// assert_eq!(codeword, Codeword::new(&[3, 1]));
/// # Ok::<(), monterculo::Refusal>(())
/// ```
#[derive(Clone, Debug, PartialEq, Eq, Hash)]
pub struct Codeword(sys::Codeword);

impl Codeword {
    /// The codeword of these symbols.
    ///
    /// Nothing is checked here, since [`Table::character_of`] checks. Of more than 86 symbols the first 86 are kept,
    /// beside the length; these are no codeword of any table.
    pub fn new(symbols: &[u8]) -> Codeword {
        let mut word = sys::Codeword { length: symbols.len(), symbols: [0; LONGEST] };
        for (kept, &symbol) in word.symbols.iter_mut().zip(symbols) {
            *kept = symbol;
        }
        Codeword(word)
    }

    /// The symbols, in their order: continuers, and a stopper as the last.
    pub fn symbols(&self) -> &[u8] {
        self.0.symbols.get(..self.0.length).unwrap_or(&self.0.symbols)
    }
}
