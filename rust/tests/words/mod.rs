//! Words with structure, which the tests and the benchmarks share.

pub fn fibonacci(n: usize) -> Vec<u8> {
    let (mut shorter, mut longer) = (b"b".to_vec(), b"a".to_vec());
    while longer.len() < n {
        let next = [longer.clone(), shorter].concat();
        shorter = std::mem::replace(&mut longer, next);
    }
    longer.truncate(n);
    longer
}

pub fn thue_morse(n: usize) -> Vec<u8> {
    (0..n as u32).map(|i| (i.count_ones() % 2) as u8).collect()
}

/// Equal symbols, and a last one that differs.
pub fn last_differs(n: usize) -> Vec<u8> {
    let mut word = vec![b'a'; n];
    if let Some(symbol) = word.last_mut() {
        *symbol = b'b';
    }
    word
}

/// Calls with each word over so many symbols up to a length.
pub fn every_word(symbols: u8, longest: usize, mut with: impl FnMut(&[u8])) {
    for length in 0..=longest {
        let mut word = vec![0; length];
        loop {
            with(&word);
            let Some(i) = word.iter().position(|&s| s + 1 < symbols) else {
                break;
            };
            word[i] += 1;
            word[..i].fill(0);
        }
    }
}
