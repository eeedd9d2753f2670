// Lines of hexadecimal, as the programs frame and schedule read and print them.
// Lines end at line feeds; what follows the last line feed is a line only if it is not empty.

pub fn lines(input: &[u8]) -> Vec<&[u8]> {
    let mut lines: Vec<&[u8]> = input.split(|&byte| byte == b'\n').collect();
    if lines.last().is_some_and(|last| last.is_empty()) {
        lines.pop();
    }
    lines
}

// The number that the digits write, either letter case; none where another character is among them.
pub fn number(digits: &[u8]) -> Option<u64> {
    digits.iter().try_fold(0, |number, &digit| {
        let value = match digit {
            b'0'..=b'9' => digit - b'0',
            b'a'..=b'f' => digit - b'a' + 10,
            b'A'..=b'F' => digit - b'A' + 10,
            _ => return None,
        };
        Some(number << 4 | value as u64)
    })
}

// The first line of both programs: m, r and a count of tasks, two digits each.
pub fn heading(line: &[u8]) -> Option<(u32, u32, usize)> {
    let number = if line.len() == 6 { number(line)? } else { return None };
    let (m, r, tasks) = (number >> 16, number >> 8 & 255, number & 255);
    let good = (1..=14).contains(&m) && (1..=12).contains(&r) && (1..=16).contains(&tasks);
    good.then_some((m as u32, r as u32, tasks as usize))
}

pub fn words(words: &[u16]) -> String {
    words.iter().map(|word| format!("{word:04X}")).collect()
}
