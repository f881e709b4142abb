//! The proved table of names, in buffers of its own.

extern "C" {
    #[allow(clippy::too_many_arguments)]
    fn kestrenyo_names_number(
        list: *const u8,
        list_len: usize,
        names: *mut u8,
        names_len: usize,
        index: *mut u32,
        index_len: usize,
        numbers: *mut u32,
        numbers_len: usize,
    ) -> usize;
}

/// The bucket that the proved table of names keeps a path in.
pub fn bucket(path: &[u8]) -> u32 {
    path.iter().fold(0, |h, &b| (h * 117 + u32::from(b)) % 1_024).min(1_022)
}

/// So many paths of four bytes, all in one bucket.
pub fn one_bucket(count: usize) -> Vec<Vec<u8>> {
    const LETTERS: &[u8] = b"abcdefghijklmnopqrstuvwxyz0123456789ABCDEFGHIJKLMNOPQRSTUVWXYZ";
    let letter = |number: usize, place| LETTERS[number / 62_usize.pow(place) % 62];
    let path = |number| (0..4).map(|place| letter(number, place)).collect::<Vec<u8>>();
    (0..62_usize.pow(4)).map(path).filter(|path| bucket(path) == 0).take(count).collect()
}

/// Names rising, falling and shuffled, always in the same way.
pub fn orders(names: &[Vec<u8>]) -> [(&'static str, Vec<Vec<u8>>); 3] {
    let mut rising = names.to_vec();
    rising.sort();
    let falling = rising.iter().rev().cloned().collect();
    let mut shuffled = rising.clone();
    shuffled.sort_by_key(|name| {
        name.iter().fold(7_u32, |h, &b| (h ^ u32::from(b)).wrapping_mul(0x9e37_79b1))
    });
    [("rising", rising), ("falling", falling), ("shuffled", shuffled)]
}

/// What adding a path answers.
#[derive(Debug, Clone, Copy, PartialEq, Eq)]
pub enum Added {
    /// It was there, with this number.
    Old(usize),
    /// It is there now, with this number.
    New(usize),
    /// There is no room for it.
    Full,
}

impl Added {
    fn of(number: u32) -> Self {
        match number as usize {
            0 => Added::Full,
            old if old % 2 == 1 => Added::Old(old / 2),
            new => Added::New(new / 2 - 1),
        }
    }
}

/// The buffers of a table and of the numbers that it answers.
pub struct Names {
    names: Vec<u8>,
    index: Vec<u32>,
    numbers: Vec<u32>,
}

impl Names {
    /// Room for so many bytes, 1,024 names and so many answers.
    pub fn new(bytes: usize, answers: usize) -> Self {
        Names { names: vec![0; bytes], index: vec![0; 4_096], numbers: vec![0; answers] }
    }

    /// Adds the names of a list, each ended by a newline, to a table of none; how many were added,
    /// up to the first that is empty or has more than 255 bytes.
    pub fn add(&mut self, list: &[u8]) -> Option<usize> {
        let (names, index, numbers) = (&mut self.names, &mut self.index, &mut self.numbers);
        // SAFETY: the function is total, reads the list and writes to the three buffers alone.
        let answer = unsafe {
            kestrenyo_names_number(
                list.as_ptr(),
                list.len(),
                names.as_mut_ptr(),
                names.len(),
                index.as_mut_ptr(),
                index.len(),
                numbers.as_mut_ptr(),
                numbers.len(),
            )
        };
        answer.checked_sub(1)
    }

    /// What adding name `k` of the list answered.
    pub fn answer(&self, k: usize) -> Added {
        Added::of(self.numbers[k])
    }
}
