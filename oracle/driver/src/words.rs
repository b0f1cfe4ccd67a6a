//! What the words of a line say: numbers, lists, bytes, names, tables.

/// The most entries of a list or a buffer.
const MOST_CELLS: u64 = 1 << 24;

/// The most records of a table.
const MOST_RECORDS: u64 = 1 << 16;

/// One record of a table.
#[derive(Clone, Copy, Debug)]
pub enum Record {
    Dense {
        place: u64,
        height: u64,
    },
    Interleaved {
        place: u64,
        length: u64,
        first: u64,
        stride: u64,
        height: u64,
    },
    Bits {
        place: u64,
        words: u64,
        height: u64,
    },
    Chunked {
        from: u64,
        count: u64,
    },
}

pub fn number(word: &[u8]) -> Option<u64> {
    if word.is_empty() || !word.iter().all(u8::is_ascii_digit) {
        return None;
    }
    std::str::from_utf8(word).ok()?.parse().ok()
}

/// The length of a buffer.
pub fn size(word: &[u8]) -> Option<usize> {
    number(word)
        .filter(|&size| size <= MOST_CELLS)
        .map(|size| size as usize)
}

/// Cuts an item at its first star: what is repeated, and how often.
fn repeated(item: &[u8]) -> Option<(&[u8], u64)> {
    match item.iter().position(|&byte| byte == b'*') {
        None => Some((item, 1)),
        Some(star) => Some((&item[..star], number(&item[star + 1..])?)),
    }
}

pub fn list(word: &[u8]) -> Option<Vec<u64>> {
    let mut list = Vec::new();
    if word == b"-" {
        return Some(list);
    }
    for item in word.split(|&byte| byte == b',') {
        let (value, times) = repeated(item)?;
        let value = number(value)?;
        if times > MOST_CELLS - list.len() as u64 {
            return None;
        }
        list.extend(std::iter::repeat_n(value, times as usize));
    }
    Some(list)
}

pub fn table(word: &[u8]) -> Option<Vec<Record>> {
    let mut table = Vec::new();
    if word == b"-" {
        return Some(table);
    }
    for item in word.split(|&byte| byte == b';') {
        let (text, times) = repeated(item)?;
        let record = record(text)?;
        if times > MOST_RECORDS - table.len() as u64 {
            return None;
        }
        table.extend(std::iter::repeat_n(record, times as usize));
    }
    Some(table)
}

fn record(text: &[u8]) -> Option<Record> {
    let mut parts = text.split(|&byte| byte == b':');
    let kind = parts.next()?;
    let numbers = parts.map(number).collect::<Option<Vec<u64>>>()?;
    match (kind, numbers[..].as_ref()) {
        (b"dense", &[place, height]) => Some(Record::Dense { place, height }),
        (b"interleaved", &[place, length, first, stride, height]) => Some(Record::Interleaved {
            place,
            length,
            first,
            stride,
            height,
        }),
        (b"bits", &[place, words, height]) => Some(Record::Bits { place, words, height }),
        (b"chunked", &[from, count]) => Some(Record::Chunked { from, count }),
        _ => None,
    }
}

pub fn bytes(word: &[u8]) -> Option<Vec<u8>> {
    if word == b"-" {
        return Some(Vec::new());
    }
    if word.is_empty() || word.len() % 2 != 0 || word.len() as u64 / 2 > MOST_CELLS {
        return None;
    }
    word.chunks(2)
        .map(|two| Some(16 * digit(two[0])? + digit(two[1])?))
        .collect()
}

fn digit(code: u8) -> Option<u8> {
    match code {
        b'0'..=b'9' => Some(code - b'0'),
        b'a'..=b'f' => Some(code - b'a' + 10),
        _ => None,
    }
}

pub fn name(word: &[u8]) -> Option<Vec<u8>> {
    let lawful = |byte: &u8| byte.is_ascii_alphanumeric() || *byte == b'_' || *byte == b'-';
    (!word.is_empty() && word.iter().all(lawful)).then(|| word.to_vec())
}

pub fn truth(word: &[u8]) -> Option<bool> {
    match word {
        b"true" => Some(true),
        b"false" => Some(false),
        _ => None,
    }
}
