//! Curve books for generated feeds, and their files (FORMATS.md, section 4).

use crate::random::Random;

pub const REQUIREMENTS: usize = 15;

type Steps = Vec<(u32, u32)>;

#[derive(Clone, Copy, PartialEq, Eq)]
pub enum Soundness {
    /// Fifteen valid curves.
    Sound,
    /// Valid curves, but not fifteen: every clearing is refused.
    OtherCount,
    /// A file that is refused. `curves` are those that it had before it was damaged.
    Damaged,
}

pub struct CurveBook {
    pub curves: Vec<Steps>,
    pub file: Vec<u8>,
    pub soundness: Soundness,
}

/// Steps that suit the requirements of the fixed map in an ordinary year.
const ORDINARY: [&[(u32, u32)]; REQUIREMENTS] = [
    &[(9_550, 75_000), (6_550, 20_000), (3_000, 10_000), (0, 2_500)],
    &[(0, 75_000)],
    &[(2_000, 77_500), (0, 2_500)],
    &[(0, 4_000)],
    &[(4_000, 77_500), (0, 4_000)],
    &[(0, 4_000)],
    &[(0, 50_000)],
    &[(0, 4_000)],
    &[(0, 4_000)],
    &[(2_500, 50_000), (0, 2_500)],
    &[(0, 2_500)],
    &[(0, 2_500)],
    &[(1_350, 50_000), (0, 2_500)],
    &[(0, 2_500)],
    &[(0, 2_500)],
];

impl CurveBook {
    pub fn ordinary() -> CurveBook {
        CurveBook::of(ORDINARY.iter().map(|steps| steps.to_vec()).collect(), Soundness::Sound)
    }

    /// A book drawn at random; a `dear` one has the highest price in all its curves.
    pub fn any(random: &mut Random, soundness: Soundness, dear: bool) -> CurveBook {
        let count = match soundness {
            Soundness::OtherCount => match random.between(0, 3) {
                0 => 14,
                1 => 16,
                2 => random.pick(&[1, 32]),
                _ => random.pick(&[2, 5, 10, 13, 17, 20, 31]),
            },
            _ => REQUIREMENTS,
        };
        // A book is of one manner, or a medley.
        let manner = if dear { 1 } else { random.between(0, 7) };
        let mut curves: Vec<Steps> = Vec::new();
        for i in 0..count {
            let manner = if manner > 4 { random.between(0, 4) } else { manner };
            curves.push(match manner {
                0 => ORDINARY[i % REQUIREMENTS].to_vec(),
                1 => vec![(0, 100_000)],
                2 => any_steps(random, 1_000_000),
                3 => any_steps(random, 30_000),
                _ => any_steps(random, 100),
            });
        }
        let mut book = CurveBook::of(curves, soundness);
        if soundness == Soundness::Damaged {
            book.damage(random);
        }
        book
    }

    fn of(curves: Vec<Steps>, soundness: Soundness) -> CurveBook {
        let file = file_of(&curves);
        CurveBook { curves, file, soundness }
    }

    /// The most that a requirement's shadow price may be.
    pub fn value(&self, requirement: usize, target: u32, quantity: u64) -> u32 {
        let Some(steps) = self.curves.get(requirement) else {
            return 0;
        };
        let holds = |step: &&(u32, u32)| quantity + u64::from(step.0) <= u64::from(target);
        steps.iter().find(holds).map_or(0, |step| step.1)
    }

    /// Makes the file one that is refused, whatever it was.
    fn damage(&mut self, random: &mut Random) {
        let with_curve = |book: &CurveBook, random: &mut Random, steps: Steps| {
            let mut curves = book.curves.clone();
            let place = random.place(curves.len());
            curves[place] = steps;
            file_of(&curves)
        };
        self.file = match random.between(0, 15) {
            0 => Vec::new(),
            1 => vec![15],
            2 => vec![0, 0],
            3 => {
                let length = random.place(self.file.len());
                self.file[..length].to_vec()
            }
            4 => {
                let more = random.between(1, 9);
                let mut file = self.file.clone();
                file.extend((0..more).map(|_| random.bits() as u8));
                file
            }
            5 => file_of(&vec![vec![(0, 1)]; 33]),
            6 => [vec![33, 0], self.file[2..].to_vec()].concat(),
            7 => with_curve(self, random, vec![(5, 10)]),
            8 => with_curve(self, random, vec![(10, 20), (5, 10)]),
            9 => with_curve(self, random, vec![(10, 30), (10, 20), (0, 10)]),
            10 => with_curve(self, random, vec![(10, 20), (0, 20)]),
            11 => with_curve(self, random, vec![(0, 20), (0, 10)]),
            12 => with_curve(self, random, vec![(0, 0)]),
            13 => with_curve(self, random, vec![(0, 100_001)]),
            14 => with_curve(self, random, vec![(1_000_001, 2), (0, 1)]),
            _ => with_curve(self, random, (0..9).map(|i| (8 - i, 9 - i)).collect()),
        };
    }
}

/// 0 to 8 valid steps with margins up to about `most`.
fn any_steps(random: &mut Random, most: u32) -> Steps {
    let count = random.between(0, 8) as usize;
    if count == 0 {
        return Vec::new();
    }
    let most_price = random.pick(&[100_000, 100_000, 10_000, 100]);
    let mut margins = falling(random, count - 1, 1, most);
    margins.push(0);
    let prices = falling(random, count, 1, most_price);
    margins.into_iter().zip(prices).collect()
}

/// This many different numbers from `least` to `most`, falling; `most` itself rather often.
fn falling(random: &mut Random, count: usize, least: u32, most: u32) -> Vec<u32> {
    let mut list = Vec::new();
    while list.len() < count {
        let number = if list.is_empty() && random.one_in(2) { most } else { random.between32(least, most) };
        if !list.contains(&number) {
            list.push(number);
        }
    }
    list.sort_by(|a, b| b.cmp(a));
    list
}

fn file_of(curves: &[Steps]) -> Vec<u8> {
    let mut file = (curves.len() as u16).to_le_bytes().to_vec();
    for steps in curves {
        file.extend_from_slice(&(steps.len() as u16).to_le_bytes());
    }
    for (margin, _) in curves.iter().flatten() {
        file.extend_from_slice(&margin.to_le_bytes());
    }
    for (_, price) in curves.iter().flatten() {
        file.extend_from_slice(&price.to_le_bytes());
    }
    file
}
