//! The lists that are timed: the same in every run.

/// Which operations a list has.
#[derive(Clone, Copy)]
pub enum Mix {
    NoImmediates,
    OneInTen,
    OnlyImmediates,
}

impl Mix {
    pub const ALL: [Self; 3] = [Self::NoImmediates, Self::OneInTen, Self::OnlyImmediates];

    pub fn name(self) -> &'static str {
        match self {
            Self::NoImmediates => "no immediates",
            Self::OneInTen => "one immediate in ten",
            Self::OnlyImmediates => "only immediates",
        }
    }
}

/// A list as plain data, under the original's table.
pub struct List {
    pub ops: Vec<(u8, u64)>,
}

impl List {
    /// Plain operations are drawn from all that the table has with no value, Noop left out; each
    /// immediate's value from the whole field.
    pub fn new(mix: Mix, size: usize) -> Self {
        let table = original::table();
        let of = |kind| {
            (1..128u8)
                .filter(|&op| table[op as usize] == kind)
                .collect::<Vec<_>>()
        };
        let (plain, immediate) = (of(0), of(1));
        let mut seed = Seed(0x2545_f491_4f6c_dd1d);
        let ops = (0..size)
            .map(|_| {
                let placed = match mix {
                    Mix::NoImmediates => false,
                    Mix::OneInTen => seed.under(10) == 0,
                    Mix::OnlyImmediates => true,
                };
                if placed {
                    (
                        seed.one_of(&immediate),
                        seed.under(18_446_744_069_414_584_321),
                    )
                } else {
                    (seed.one_of(&plain), 0)
                }
            })
            .collect();
        Self { ops }
    }

    /// Another list of the same kinds, so that its batches are of the same size, which differs in each
    /// batch: every seventh operation is another, and the last (a batch that ends because it is full
    /// has seven or more).
    pub fn other(&self) -> Self {
        let table = original::table();
        let last = self.ops.len() - 1;
        let another = |op: u8| {
            let mut others = (op + 1..128).chain(1..=op);
            others.find(|&other| table[other as usize] == 0)
        };
        let ops = self.ops.iter().enumerate().map(|(i, &(op, value))| {
            match (i % 7 == 6 || i == last, table[op as usize]) {
                (false, _) => (op, value),
                (true, 0) => (another(op).unwrap_or(op), value),
                (true, _) => (op, value.checked_sub(1).unwrap_or(1)),
            }
        });
        Self { ops: ops.collect() }
    }
}

/// Xorshift over 64 bits.
struct Seed(u64);

impl Seed {
    fn under(&mut self, bound: u64) -> u64 {
        self.0 ^= self.0 << 13;
        self.0 ^= self.0 >> 7;
        self.0 ^= self.0 << 17;
        self.0 % bound
    }

    fn one_of(&mut self, of: &[u8]) -> u8 {
        of[self.under(of.len() as u64) as usize]
    }
}
