//! The calls on keys in plain Rust, done as `aso_keys` does them, timed as the program in keys.sh times those.
use std::time::Instant;

#[derive(Clone, Copy)]
struct Words<const W: usize> {
    words: [u64; W],
}

impl<const W: usize> Words<W> {
    fn zero() -> Self {
        Words { words: [0; W] }
    }

    fn field(&self, shift: u32, width: u32) -> u32 {
        if width == 0 {
            return 0;
        }
        let low = shift % 64;
        let at = W - 1 - (shift / 64) as usize;
        if low + width <= 64 {
            ((self.words[at] >> low) % (1u64 << width)) as u32
        } else {
            let pair = (u128::from(self.words[at - 1]) << 64) + u128::from(self.words[at]);
            ((pair >> low) % (1u128 << width)) as u32
        }
    }

    fn put_field(&mut self, shift: u32, width: u32, value: u32) {
        if width == 0 {
            return;
        }
        let low = shift % 64;
        let at = W - 1 - (shift / 64) as usize;
        if low + width <= 64 {
            let old = ((self.words[at] >> low) % (1u64 << width)) << low;
            self.words[at] = self.words[at] - old + (u64::from(value) << low);
        } else {
            let pair = (u128::from(self.words[at - 1]) << 64) + u128::from(self.words[at]);
            let old = ((pair >> low) % (1u128 << width)) << low;
            let pair = pair - old + (u128::from(value) << low);
            self.words[at - 1] = (pair >> 64) as u64;
            self.words[at] = pair as u64;
        }
    }
}

struct Axis {
    count: u32,
    shift: u32,
    width: u32,
    classes: Vec<Option<u32>>,
    leaves: Vec<Option<u32>>,
}

struct Layout {
    axes: Vec<Axis>,
}

impl Layout {
    /// `per` leaves a class for each of the first `coarse` dimensions, one for the others.
    fn of(dims: usize, leaves: u32, coarse: usize, per: u32) -> Layout {
        let mut axes = Vec::new();
        let mut shift = 0;
        for dim in (0..dims).rev() {
            let per = if dim < coarse { per } else { 1 };
            let count = leaves.div_ceil(per);
            let width = u32::BITS - (count - 1).leading_zeros();
            let classes: Vec<_> = (0..leaves).map(|leaf| Some(leaf / per)).collect();
            let mut first = vec![None; count as usize];
            for leaf in 0..leaves {
                first[(leaf / per) as usize] = Some(leaf);
            }
            axes.push(Axis {
                count,
                shift,
                width,
                classes,
                leaves: first,
            });
            shift += width;
        }
        axes.reverse();
        Layout { axes }
    }

    fn are_classes(&self, classes: &[u32]) -> bool {
        classes.len() == self.axes.len() && self.axes.iter().zip(classes).all(|(axis, class)| *class < axis.count)
    }

    fn key_of<const W: usize>(&self, classes: &[u32]) -> Words<W> {
        let mut key = Words::zero();
        for (at, axis) in self.axes.iter().enumerate() {
            key.put_field(axis.shift, axis.width, classes[at]);
        }
        key
    }

    fn classes_of<const W: usize>(&self, key: &Words<W>, into: &mut [u32]) {
        for (at, axis) in self.axes.iter().enumerate() {
            into[at] = key.field(axis.shift, axis.width);
        }
    }

    fn roll<const W: usize>(&self, key: &Words<W>, to: &Layout) -> Option<Words<W>> {
        let mut rolled = Words::zero();
        for (at, axis) in self.axes.iter().enumerate() {
            let coarse = &to.axes[at];
            let leaf = (*axis.leaves.get(key.field(axis.shift, axis.width) as usize)?)?;
            let class = (*coarse.classes.get(leaf as usize)?)?;
            rolled.put_field(coarse.shift, coarse.width, class);
        }
        Some(rolled)
    }
}

fn sum<const W: usize>(key: &Words<W>) -> u64 {
    key.words[0] ^ key.words[W - 1].rotate_left(1)
}

fn lists(dims: usize, leaves: u32, count: usize) -> Vec<u32> {
    let mut all = Vec::new();
    let mut seed = 1u64;
    for _ in 0..dims * count {
        seed = seed.wrapping_mul(6364136223846793005).wrapping_add(1442695040888963407);
        all.push(((seed >> 33) % u64::from(leaves)) as u32);
    }
    all
}

fn added(total: u64, classes: &[u32]) -> u64 {
    classes.iter().fold(total, |total, class| total.wrapping_add(u64::from(*class)))
}

fn write_all<const W: usize>(layout: &Layout, lists: &[u32], keys: &mut Vec<Words<W>>) {
    keys.clear();
    for classes in lists.chunks_exact(layout.axes.len()) {
        if layout.are_classes(classes) {
            keys.push(layout.key_of(classes));
        }
    }
}

fn read_all<const W: usize>(layout: &Layout, keys: &[Words<W>], before: u64) -> u64 {
    let mut total = before;
    for key in keys {
        let mut into = [0u32; 16];
        if layout.axes.len() == 16 {
            layout.classes_of(key, &mut into);
        } else if layout.axes.len() == 8 {
            layout.classes_of(key, &mut into[..8]);
        }
        total = added(total, &into);
    }
    total
}

fn roll_all<const W: usize>(fine: &Layout, coarse: &Layout, keys: &[Words<W>], before: u64) -> u64 {
    let mut total = before;
    for key in keys {
        if let Some(key) = fine.roll(key, coarse) {
            total = total.wrapping_mul(3) ^ sum(&key);
        }
    }
    total
}

fn report(words: usize, call: &str, start: &Instant, total: u64) {
    println!("{words} {call} {} {total}", start.elapsed().as_nanos());
}

fn times<const W: usize>(dims: usize, rounds: u32) {
    let fine = Layout::of(dims, 120, 0, 1);
    let coarse = Layout::of(dims, 120, 7, 12);
    let lists = lists(dims, 120, 65536);
    let mut keys: Vec<Words<W>> = Vec::new();
    write_all(&fine, &lists, &mut keys);
    let start = Instant::now();
    for _ in 0..rounds {
        write_all(&fine, &lists, &mut keys);
    }
    report(W, "write", &start, 0);
    let mut total = 0u64;
    let start = Instant::now();
    for _ in 0..rounds {
        total = read_all(&fine, &keys, total);
    }
    report(W, "read", &start, total);
    let mut total = 0u64;
    let start = Instant::now();
    for _ in 0..rounds {
        total = roll_all(&fine, &coarse, &keys, total);
    }
    report(W, "roll", &start, total);
}

fn main() {
    times::<1>(8, 40);
    times::<2>(16, 20);
}
