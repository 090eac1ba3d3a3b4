use crate::{raw, Refusal};

/// A page: what many answer lines of the frame program come to. How many were answered, how many refused by each number, and how the answers came about.
///
/// Lines are counted as they come ([`line`](Page::line)), and nothing else of them is kept. Pages that were counted apart, by several threads or over several
/// nights, are joined ([`join`](Page::join)): the result is the page of all their lines, whatever the order. In every page the lines answered and those
/// refused add up to [`read`](Page::read), the twenty counts of [`longest`](Page::longest) to [`answered`](Page::answered), and `read` and
/// [`unreadable`](Page::unreadable) to [`lines`](Page::lines).
///
/// ```
/// use lichenoar::{Page, Refusal};
///
/// // two orders answered; K of 0, refused by 4; and a line that was cut
/// let night = "0000000010000000003FED02CD380D17703FC94EB2DB77969A3FF37EB3DB656B713FDC2EE896201B11\n\
///              040000000000000000\n\
///              04000000\n";
/// let mut page = Page::new();
/// for line in night.split_terminator('\n') {
///     page.line(line.as_bytes())?;
/// }
/// assert_eq!((page.lines(), page.read(), page.unreadable()), (3, 2, 1));
/// assert_eq!((page.answered(), page.refused(Refusal::Zero.number())), (1, 1));
/// // the answered line's longest sum has 16 terms
/// assert_eq!((page.longest(16), page.rungs(), page.backward(), page.zeros()), (1, 0, 0, 0));
/// # Ok::<(), Refusal>(())
/// ```
///
/// The layout is that of `lichenoar_page` in C, and stays.
#[derive(Debug, Clone, Copy, PartialEq, Eq, Hash, Default)]
#[repr(C)]
pub struct Page {
    pub(crate) numbers: [u64; 32],
    pub(crate) reserved: u64,
    pub(crate) longest: [u64; 20],
    pub(crate) rungs: u64,
    pub(crate) backward: u64,
    pub(crate) zeros: u64,
    pub(crate) lines: u64,
    pub(crate) unreadable: u64,
}

fn taken(number: u32) -> Result<(), Refusal> {
    match Refusal::from_number(number) {
        Some(refusal) => Err(refusal),
        None => Ok(()),
    }
}

impl Page {
    /// The most lines that a page holds.
    pub const MOST_LINES: u64 = 4_294_967_295;

    /// The empty page, which is also the default.
    #[must_use]
    pub const fn new() -> Page {
        Page { numbers: [0; 32], reserved: 0, longest: [0; 20], rungs: 0, backward: 0, zeros: 0, lines: 0, unreadable: 0 }
    }

    /// Counts one answer line, without its newline.
    ///
    /// The line is read where every byte is one of 0 to 9 and A to F, the first 18 are there, 1 to 512 times 32 follow them if the number is 0 and none if
    /// it is another, the number is 0 or in the list of [refusals](Refusal), and the longest sum has at most 19 terms. Every other line is counted as
    /// unreadable, an empty one and one with a carriage return too. Of a refused line no count is added to a total.
    ///
    /// # Errors
    /// [`Refusal::Full`] where the page holds [`MOST_LINES`](Page::MOST_LINES) already. It then stays as it was.
    ///
    /// ```
    /// use lichenoar::Page;
    ///
    /// let mut page = Page::new();
    /// page.line(b"090000000000000000")?;
    /// page.line(b"090000000000000000\r")?;
    /// page.line(b"")?;
    /// assert_eq!((page.refused(9), page.unreadable()), (1, 2));
    /// # Ok::<(), lichenoar::Refusal>(())
    /// ```
    pub fn line(&mut self, line: &[u8]) -> Result<(), Refusal> {
        // Safety: the page has the archive's layout (raw.rs), and `line` is its bytes, whatever they are. Both are lent for the call alone, and the page's
        // own cells are all that is written.
        taken(unsafe { raw::lichenoar_page_line(self, line.as_ptr(), line.len()) })
    }

    /// Adds another page: this one is then the page of the lines of both.
    ///
    /// # Errors
    /// [`Refusal::Full`] where the two hold more than [`MOST_LINES`](Page::MOST_LINES) together. This one then stays as it was; the other always does.
    ///
    /// ```
    /// use lichenoar::{Page, Refusal};
    ///
    /// let (mut first, mut second) = (Page::new(), Page::new());
    /// first.line(b"040000000000000000")?;
    /// second.line(b"no answer line")?;
    /// first.join(&second)?;
    /// assert_eq!((first.lines(), first.refused(4), first.unreadable()), (2, 1, 1));
    ///
    /// // joined with itself it doubles, and the 32nd time it would hold 2 to the power 32
    /// for _ in 1..32 {
    ///     let copy = second;
    ///     second.join(&copy)?;
    /// }
    /// let copy = second;
    /// assert_eq!(second.join(&copy), Err(Refusal::Full));
    /// assert_eq!((second, second.lines()), (copy, 2_147_483_648));
    /// # Ok::<(), Refusal>(())
    /// ```
    pub fn join(&mut self, other: &Page) -> Result<(), Refusal> {
        // Safety: both pages have the archive's layout (raw.rs), are lent for the call alone, and are two, since one of them is borrowed for change. Cells of
        // any bits are taken.
        taken(unsafe { raw::lichenoar_page_join(self, other) })
    }

    /// The lines that were answered.
    #[must_use]
    pub const fn answered(&self) -> u64 {
        self.numbers[0]
    }

    /// The lines that were refused by this number. 0 for a number that no line is refused by, and for 0, which is an answer's.
    #[must_use]
    pub fn refused(&self, number: u32) -> u64 {
        match number {
            0 => 0,
            _ => self.numbers.get(number as usize).copied().unwrap_or(0),
        }
    }

    /// The lines that were read: those answered, and those refused by any number.
    #[must_use]
    pub fn read(&self) -> u64 {
        self.numbers.iter().fold(0, |sum, &lines| sum.saturating_add(lines))
    }

    /// All lines: those read, and the unreadable ones.
    #[must_use]
    pub const fn lines(&self) -> u64 {
        self.lines
    }

    /// The answered lines whose longest sum has this many terms. None has more than 19.
    #[must_use]
    pub fn longest(&self, terms: u32) -> u64 {
        self.longest.get(terms as usize).copied().unwrap_or(0)
    }

    /// The rungs of recurrence of the answered lines, added up.
    #[must_use]
    pub const fn rungs(&self) -> u64 {
        self.rungs
    }

    /// The backward steps of the answered lines, added up.
    #[must_use]
    pub const fn backward(&self) -> u64 {
        self.backward
    }

    /// The entries set to zero of the answered lines, added up by the magnitude of each line's count, which may be negative.
    #[must_use]
    pub const fn zeros(&self) -> u64 {
        self.zeros
    }

    /// The lines that are no answer line.
    #[must_use]
    pub const fn unreadable(&self) -> u64 {
        self.unreadable
    }
}
