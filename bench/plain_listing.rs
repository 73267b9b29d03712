//! The sums of a listing by image in plain Rust, with no checks of its input: it reads a database folder and one event over all
//! epochs, and prints the rows as `dcpi prof DB image all EVENT text` does.
//! usage: plain_listing FOLDER EVENT-CODE EVENT-NAME
use std::collections::HashMap;
use std::io::Write;

fn number(bytes: &[u8], at: &mut usize) -> u64 {
    let mut value = 0;
    let mut shift = 0;
    loop {
        let byte = bytes[*at];
        *at += 1;
        value |= u64::from(byte & 127) << shift;
        if byte < 128 {
            return value;
        }
        shift += 7;
    }
}

fn sum(bytes: &[u8]) -> u128 {
    let mut at = 1;
    let rows = number(bytes, &mut at);
    let mut offset = 0;
    let mut total = 0;
    for _ in 0..rows {
        offset += 4 * number(bytes, &mut at);
        std::hint::black_box(offset);
        total += u128::from(number(bytes, &mut at));
    }
    total
}

fn percent(part: u128, total: u128) -> String {
    let hundredths = 10000 * part / total;
    format!("{:>6}", format!("{}.{:02}", hundredths / 100, hundredths % 100))
}

fn main() {
    let args: Vec<String> = std::env::args().collect();
    let (folder, event, name) = (&args[1], args[2].parse::<u8>().unwrap(), &args[3]);
    let head = std::fs::read_to_string(format!("{folder}/head.1")).unwrap();
    let mut lines = head.lines().skip(4);
    let images: usize = lines.next().unwrap()[7..].parse().unwrap();
    let names: Vec<&str> = lines.by_ref().take(images).collect();
    let profiles: usize = lines.next().unwrap()[9..].parse().unwrap();
    let mut sums: HashMap<&str, u128> = HashMap::new();
    for line in lines.take(profiles) {
        let row: Vec<u32> = line.split(' ').map(|field| field.parse().unwrap()).collect();
        if row[2] == u32::from(event) {
            let path = format!("{folder}/p.{}.{}.{}.{}", row[0], row[1], row[2], row[3]);
            *sums.entry(names[row[1] as usize]).or_default() += sum(&std::fs::read(path).unwrap());
        }
    }
    let mut rows: Vec<(&str, u128)> = sums.into_iter().filter(|row| row.1 > 0).collect();
    rows.sort_by(|a, b| b.1.cmp(&a.1).then(a.0.cmp(b.0)));
    let total: u128 = rows.iter().map(|row| row.1).sum();
    let mut out = format!("{name} epoch all total {total}\n");
    let mut up_to = 0;
    for (image, count) in rows {
        up_to += count;
        out += &format!("{count:>12} {} {} {image}\n", percent(count, total), percent(up_to, total));
    }
    std::io::stdout().write_all(out.as_bytes()).unwrap();
}
