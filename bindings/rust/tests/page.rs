//! Pages against counts made here by another road, from the list of the lines: answers as the frame program writes them, every byte of a line changed, every
//! number, count and length, drawn lines; joins in every order; the limit, by doubling.

use lichenoar::Scaling::{Scaled, Unscaled};
use lichenoar::{i_into, k_into, Complex, Page, Refusal};

const LIST: &str = include_str!("../../../docs/refusals.txt");
const MOST: u64 = u32::MAX as u64;
const DIGITS: &[u8; 16] = b"0123456789ABCDEF";

/// The numbers of docs/refusals.txt.
fn numbers() -> Vec<u32> {
    LIST.lines().filter(|l| !l.starts_with('#')).map(|l| l.split(" | ").next().unwrap().trim().parse().unwrap()).collect()
}

/// Number, zeros, longest sum, rungs and backward steps of an answer line; none of a line that is unreadable.
fn fields(line: &[u8], numbers: &[u32]) -> Option<[u32; 5]> {
    if line.len() < 18 || !line.iter().all(|byte| DIGITS.contains(byte)) {
        return None;
    }
    let text = std::str::from_utf8(line).unwrap();
    let read = [0..2, 2..6, 6..10, 10..14, 14..18].map(|at| u32::from_str_radix(&text[at], 16).unwrap());
    let entries = (line.len() - 18) / 32;
    let shaped = if read[0] == 0 { (1..=512).contains(&entries) && line.len() == 18 + 32 * entries } else { line.len() == 18 };
    (shaped && (read[0] == 0 || numbers.contains(&read[0])) && read[2] <= 19).then_some(read)
}

/// What a page tells: answered, read, lines, unreadable, rungs, backward steps, zeros; refused, by number; answered, by longest sum.
#[derive(Debug, PartialEq)]
struct Told {
    totals: [u64; 7],
    refused: Vec<u64>,
    longest: Vec<u64>,
}

impl Told {
    fn by(page: &Page) -> Told {
        let totals = [page.answered(), page.read(), page.lines(), page.unreadable(), page.rungs(), page.backward(), page.zeros()];
        Told { totals, refused: (0..40).map(|n| page.refused(n)).collect(), longest: (0..25).map(|terms| page.longest(terms)).collect() }
    }

    /// Each part counted or summed over the whole list by itself.
    fn of<L: AsRef<[u8]>>(lines: &[L]) -> Told {
        let numbers = numbers();
        let read: Vec<[u32; 5]> = lines.iter().filter_map(|line| fields(line.as_ref(), &numbers)).collect();
        let count = |is: &dyn Fn(&[u32; 5]) -> bool| read.iter().filter(|f| is(f)).count() as u64;
        let sum = |of: &dyn Fn(&[u32; 5]) -> u32| read.iter().filter(|f| f[0] == 0).map(|f| u64::from(of(f))).sum();
        let all = lines.len() as u64;
        let (answered, read) = (count(&|f| f[0] == 0), count(&|_| true));
        let zeros = sum(&|f| if f[1] < 0x8000 { f[1] } else { 0x1_0000 - f[1] });
        Told {
            totals: [answered, read, all, all - read, sum(&|f| f[3]), sum(&|f| f[4]), zeros],
            refused: (0..40).map(|n| if n == 0 { 0 } else { count(&|f| f[0] == n) }).collect(),
            longest: (0..25).map(|terms| count(&|f| f[0] == 0 && f[2] == terms)).collect(),
        }
    }
}

fn page_of<L: AsRef<[u8]>>(lines: &[L]) -> Page {
    let mut page = Page::new();
    lines.iter().for_each(|line| page.line(line.as_ref()).unwrap());
    page
}

/// The page of the lines, held to the counts made here and to the sums that hold of every page.
fn held<L: AsRef<[u8]>>(lines: &[L]) -> Page {
    let page = page_of(lines);
    assert_eq!(Told::by(&page), Told::of(lines));
    assert_eq!(page.answered() + (1..32).map(|n| page.refused(n)).sum::<u64>(), page.read());
    assert_eq!((0..20).map(|terms| page.longest(terms)).sum::<u64>(), page.answered());
    assert_eq!(page.read() + page.unreadable(), page.lines());
    page
}

/// A line with these fields and this many digits behind them.
fn line(number: u32, zeros: u32, longest: u32, rungs: u32, backward: u32, more: usize) -> Vec<u8> {
    let mut line = format!("{number:02X}{zeros:04X}{longest:04X}{rungs:04X}{backward:04X}").into_bytes();
    line.extend(DIGITS.iter().cycle().take(more));
    line
}

/// Splitmix: the same draws in every run.
struct Draws(u64);

impl Draws {
    fn next(&mut self) -> u64 {
        self.0 = self.0.wrapping_add(0x9E37_79B9_7F4A_7C15);
        let mut x = self.0;
        x = (x ^ (x >> 30)).wrapping_mul(0xBF58_476D_1CE4_E5B9);
        x = (x ^ (x >> 27)).wrapping_mul(0x94D0_49BB_1331_11EB);
        x ^ (x >> 31)
    }

    fn below(&mut self, most: u64) -> u32 {
        (self.next() % most) as u32
    }

    /// A line that is mostly read: any number that is low, any counts, up to four pairs; one in four has a byte changed, lost or put in.
    fn line(&mut self) -> Vec<u8> {
        let number = if self.below(2) == 0 { 0 } else { self.below(17) };
        let pairs = if number == 0 { self.below(5) } else { u32::from(self.below(16) == 0) };
        let mut made = line(number, self.below(65_536), self.below(21), self.below(65_536), self.below(65_536), 32 * pairs as usize);
        let at = self.below(made.len() as u64) as usize;
        match self.below(12) {
            0 => made[at] = self.below(256) as u8,
            1 => drop(made.remove(at)),
            2 => made.insert(at, DIGITS[self.below(16) as usize]),
            _ => {}
        }
        made
    }

    fn lines(&mut self, count: usize) -> Vec<Vec<u8>> {
        (0..count).map(|_| self.line()).collect()
    }
}

#[test]
fn the_empty_page() {
    fn has<T: Copy + Eq + std::hash::Hash + std::fmt::Debug + Default + Send + Sync + 'static>(_: T) {}
    has(Page::new());
    assert_eq!((Page::new(), std::mem::size_of::<Page>(), Page::MOST_LINES), (Page::default(), 464, MOST));
    assert_eq!(held::<&[u8]>(&[]), Page::new());
    let full = page_of(&[line(0, 1, 1, 1, 1, 32), line(9, 0, 0, 0, 0, 0), Vec::new()]);
    assert_ne!(full, Page::new());
    for beyond in [14, 16, 31, 32, 255, 256, u32::MAX] {
        assert_eq!((full.refused(beyond), full.longest(beyond.max(20))), (0, 0));
    }
    assert_eq!((full.refused(0), full.answered(), full.refused(9), full.longest(1)), (0, 1, 1, 1));
}

/// Answers and refusals of K and I, written as the frame program writes them.
fn answers() -> Vec<Vec<u8>> {
    let (mut draws, mut lines) = (Draws(1), Vec::new());
    for at in 0..2_000 {
        let value = |draws: &mut Draws, most: f64| most * 2f64.powf(-(f64::from(draws.below(2_000)) / 100.0));
        let mut out = vec![Complex::ZERO; 1 + draws.below(if at % 100 == 0 { 512 } else { 20 }) as usize];
        let (order, z) = (value(&mut draws, 1_010.0), Complex::new(value(&mut draws, 1_500.0), -value(&mut draws, 1_500.0)));
        let scaling = if at % 2 == 0 { Unscaled } else { Scaled };
        let answer = if at % 4 < 2 { k_into(z, order, scaling, &mut out) } else { i_into(z, order, scaling, &mut out) };
        lines.push(match answer {
            Ok(a) => {
                let mut line = line(0, a.zeros as u16 as u32, a.longest_sum, a.rungs, a.backward, 0);
                out.iter().for_each(|w| line.extend(format!("{:016X}{:016X}", w.re.to_bits(), w.im.to_bits()).bytes()));
                line
            }
            Err(refusal) => line(refusal.number(), 0, 0, 0, 0, 0),
        });
    }
    lines
}

#[test]
fn answers_of_the_functions() {
    let lines = answers();
    let page = held(&lines);
    assert_eq!((page.lines(), page.unreadable()), (2_000, 0));
    assert!(page.answered() > 500 && page.refused(Refusal::Order.number()) > 0 && page.refused(Refusal::Series.number()) > 100, "{page:?}");
    assert!(page.rungs() > 0 && page.backward() > 0 && page.zeros() > 0, "{page:?}");
}

#[test]
fn answers_of_the_frame_program() {
    const ANSWERED: &[u8] = include_bytes!("../../../crates/lichenoar/stdout");
    let lines: Vec<&[u8]> = ANSWERED.strip_suffix(b"\n").unwrap().split(|&byte| byte == b'\n').collect();
    let page = held(&lines);
    assert_eq!((page.lines(), page.unreadable()), (lines.len() as u64, 0));
    // with carriage returns none of them is read
    let with_returns: Vec<Vec<u8>> = lines.iter().map(|line| [line, &b"\r"[..]].concat()).collect();
    assert_eq!(page_of(&with_returns).unreadable(), lines.len() as u64);
}

#[test]
fn every_byte_of_a_line_changed() {
    for whole in [line(0, 0xFFFD, 12, 34, 56, 32), line(0, 0, 19, 0, 0, 64), line(4, 0, 0, 0, 0, 0), line(13, 1, 2, 3, 4, 0)] {
        let mut lines = Vec::new();
        for at in 0..whole.len() {
            for byte in 0..=255 {
                let mut changed = whole.clone();
                changed[at] = byte;
                lines.push(changed);
            }
        }
        let page = held(&lines);
        // sixteen bytes are digits
        assert!(page.unreadable() >= 240 * whole.len() as u64 && page.read() > whole.len() as u64);
    }
}

#[test]
fn every_number_and_every_count() {
    let numbered: Vec<Vec<u8>> = (0..256).flat_map(|number| [0, 32].map(|more| line(number, 0, 0, 0, 0, more))).collect();
    let page = held(&numbered);
    assert_eq!((page.answered(), page.read(), page.unreadable()), (1, 1 + numbers().len() as u64, 511 - numbers().len() as u64));
    for number in 0..256 {
        assert_eq!(page.refused(number), u64::from(numbers().contains(&number)), "{number}");
    }
    // 0 is the answer's, and then it has entries
    assert_eq!(Refusal::from_number(0), None);
    for place in 0..4 {
        let counted = |count: u32| {
            let mut counts = [0; 4];
            counts[place] = count;
            line(0, counts[0], counts[1], counts[2], counts[3], 32)
        };
        let page = held(&(0..65_536).map(counted).collect::<Vec<_>>());
        let sum = 65_535 * 65_536 / 2;
        // of the zeros 8000 is 32,768, and from there on down; no sum is longer than 19 terms
        let (zeros, longest) = ((32_768 * 32_767 / 2) + (32_768 * 32_769 / 2), [65_536, 20, 65_536, 65_536][place]);
        let want = [[zeros, 0, 0], [0, 0, 0], [0, sum, 0], [0, 0, sum]][place];
        assert_eq!(([page.zeros(), page.rungs(), page.backward()], page.answered()), (want, longest), "place {place}");
    }
    // of a refused line none is in a total, though it is looked at
    let refused = held(&[line(4, 65_535, 19, 65_535, 65_535, 0), line(4, 0, 20, 0, 0, 0)]);
    assert_eq!((refused.refused(4), refused.unreadable(), refused.zeros(), refused.rungs(), refused.backward(), refused.longest(19)), (1, 1, 0, 0, 0, 0));
}

#[test]
fn every_length() {
    for number in [0, 5] {
        let lengths = (0..1_200).chain(16_300..16_500).chain([18 + 32 * 513, 18 + 32 * 1024, 18 + 32 * 65_536]);
        let longest = line(number, 0, 0, 0, 0, 32 * 65_536);
        let lines: Vec<&[u8]> = lengths.map(|length| &longest[..length]).collect();
        let page = held(&lines);
        // 1 to 36 pairs, and 509 to 512
        assert_eq!((page.answered(), page.refused(5)), if number == 0 { (40, 0) } else { (0, 1) });
    }
}

#[test]
fn drawn_lines() {
    let lines = Draws(2).lines(50_000);
    let page = held(&lines);
    assert!(page.answered() > 10_000 && page.unreadable() > 10_000 && (1..=13).all(|n| page.refused(n) > 300) && page.refused(15) > 300, "{page:?}");
    assert!((0..20).all(|terms| page.longest(terms) > 300), "{page:?}");
    // in any order
    let backwards: Vec<&Vec<u8>> = lines.iter().rev().collect();
    assert_eq!(page_of(&backwards), page);
}

#[test]
fn a_list_cut_anywhere() {
    let lines = Draws(3).lines(300);
    let whole = held(&lines);
    for cut in 0..=lines.len() {
        let (first, second) = (page_of(&lines[..cut]), page_of(&lines[cut..]));
        for (mut into, from) in [(first, second), (second, first)] {
            assert_eq!((into.join(&from), into), (Ok(()), whole), "cut at {cut}");
        }
    }
}

/// The orders of these places.
fn orders(places: &[usize]) -> Vec<Vec<usize>> {
    match places {
        [] => vec![Vec::new()],
        _ => places
            .iter()
            .flat_map(|&first| {
                let others: Vec<usize> = places.iter().copied().filter(|&other| other != first).collect();
                orders(&others).into_iter().map(move |rest| [vec![first], rest].concat())
            })
            .collect(),
    }
}

#[test]
fn joins_in_every_order() {
    let mut draws = Draws(4);
    let parts: Vec<Vec<Vec<u8>>> = [0, 1, 10, 200, 500].map(|count| draws.lines(count)).to_vec();
    let pages: Vec<Page> = parts.iter().map(|lines| held(lines)).collect();
    let whole = held(&parts.concat());
    let join = |mut into: Page, from: Page| {
        let before = from;
        into.join(&from).unwrap();
        assert_eq!(from, before);
        into
    };
    let orders = orders(&[0, 1, 2, 3, 4]);
    assert_eq!(orders.len(), 120);
    for order in orders {
        let [a, b, c, d, e] = [0, 1, 2, 3, 4].map(|at| pages[order[at]]);
        let ways = [
            join(join(join(join(a, b), c), d), e),
            join(a, join(b, join(c, join(d, e)))),
            join(join(a, b), join(c, join(d, e))),
            join(join(a, join(b, c)), join(d, e)),
        ];
        assert_eq!(ways, [whole; 4], "{order:?}");
    }
}

/// The page of this line, so many times: by doubling.
fn times(line: &[u8], count: u64) -> Page {
    let (mut sum, mut power) = (Page::new(), page_of(&[line]));
    for bit in 0..32 {
        if count >> bit & 1 == 1 {
            sum.join(&power).unwrap();
        }
        if bit < 31 {
            let copy = power;
            power.join(&copy).unwrap();
        }
    }
    assert_eq!(sum.lines(), count);
    sum
}

#[test]
fn the_full_page_stays() {
    // the largest counts that a line can have: no total comes near the end of its range
    let lines = [line(0, 0x8000, 19, 0xFFFF, 0xFFFF, 32 * 512), line(15, 0, 0, 0, 0, 0), Vec::new()];
    let told =
        |page: &Page| [page.answered(), page.longest(19), page.rungs(), page.backward(), page.zeros(), page.refused(15), page.unreadable(), page.lines()];
    let want = [[MOST, MOST, 0xFFFF * MOST, 0xFFFF * MOST, 0x8000 * MOST, 0, 0, MOST], [0, 0, 0, 0, 0, MOST, 0, MOST], [0, 0, 0, 0, 0, 0, MOST, MOST]];
    for (line, want) in lines.iter().zip(want) {
        let full = times(line, MOST);
        assert_eq!(told(&full), want);
        for more in &lines {
            let mut page = full;
            assert_eq!((page.line(more), page), (Err(Refusal::Full), full));
            for count in [1, 2, MOST / 2, MOST] {
                let from = times(more, count);
                let (mut into, mut other) = (full, from);
                assert_eq!((into.join(&from), into), (Err(Refusal::Full), full));
                assert_eq!((other.join(&full), other), (Err(Refusal::Full), from));
            }
        }
        // with the empty page it is joined, both ways
        let (mut into, mut empty) = (full, Page::new());
        assert_eq!((into.join(&empty), into), (Ok(()), full));
        assert_eq!((empty.join(&full), empty), (Ok(()), full));
    }
}

#[test]
fn the_last_line_that_has_room() {
    let (answered, refused) = (line(0, 1, 2, 3, 4, 32), line(9, 0, 0, 0, 0, 0));
    let mut page = times(&refused, MOST - 1);
    page.line(&answered).unwrap();
    let full = page;
    assert_eq!((page.lines(), page.answered(), page.refused(9)), (MOST, 1, MOST - 1));
    assert_eq!((page.line(&answered), page), (Err(Refusal::Full), full));
    // two halves have room together, and with a line more they have not
    for (a, b, joined) in [(1 << 31, (1 << 31) - 1, Ok(())), (1 << 31, 1 << 31, Err(Refusal::Full)), (MOST - 1, 1, Ok(())), (MOST - 1, 2, Err(Refusal::Full))] {
        let (first, second) = (times(&answered, a), times(&refused, b));
        for (into, from) in [(first, second), (second, first)] {
            let mut page = into;
            assert_eq!(page.join(&from), joined, "{a} {b}");
            match joined {
                Ok(()) => assert_eq!((page.lines(), page.answered(), page.refused(9), page.rungs()), (MOST, a, b, 3 * a)),
                Err(_) => assert_eq!(page, into),
            }
        }
    }
    assert_eq!(Refusal::Full.to_string(), "refusal 15: a page would hold more than 4,294,967,295 lines");
}
