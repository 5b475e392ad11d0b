// A plain player in Rust, without proofs: it plays a file on one cleared screen and prints the
// picture. It knows no other start and refuses nothing but a scroll and letters that it does not
// know. `speed.py` times it beside the program.
use std::io::Write;
const FG: [u8; 8] = [0, 4, 2, 6, 1, 5, 3, 7];
fn main() {
    let f = std::fs::read(std::env::args().nth(1).expect("a file")).unwrap();
    let r = f.len() - 128;
    let rec = &f[r..];
    let w = match rec[96] as usize | (rec[97] as usize) << 8 { 0 => 80, w => w };
    let l = rec[98] as usize | (rec[99] as usize) << 8;
    let end = f[..r].iter().position(|&b| b == 0x1a).unwrap_or(r);
    let c = &f[..end];
    let mut screen = vec![(0x20u8, 7u8); (l + 1) * w];
    let (mut row, mut col, mut attr, mut wrap) = (0usize, 0usize, 7u8, true);
    let (mut srow, mut scol) = (0, 0);
    let mut i = 0;
    while i < c.len() {
        let b = c[i];
        i += 1;
        match b {
            0x1b => {
                i += 1;
                let private = matches!(c[i], b'?' | b'=');
                if private { i += 1; }
                let mut p = [0u32; 16];
                let mut n = 0;
                while matches!(c[i], b'0'..=b'9' | b';') {
                    if c[i] == b';' { n += 1 } else { p[n] = p[n] * 10 + (c[i] - 48) as u32 }
                    i += 1;
                }
                let at = |k: usize| p[k].max(1) as usize;
                match c[i] {
                    b'A' => row = row.saturating_sub(at(0)),
                    b'B' => row = (row + at(0)).min(l),
                    b'C' => col = (col + at(0)).min(w - 1),
                    b'D' => col = col.saturating_sub(at(0)),
                    b'H' | b'f' => { row = (at(0) - 1).min(l); col = (at(1) - 1).min(w - 1) }
                    b'J' => { screen.fill((0x20, attr)); row = 0; col = 0 }
                    b'K' => screen[row * w + col..(row + 1) * w].fill((0x20, attr)),
                    b's' => { srow = row; scol = col }
                    b'u' => { row = srow; col = scol }
                    b'h' => wrap = true,
                    b'l' => wrap = false,
                    b'm' => for &q in &p[..=n] {
                        attr = match q {
                            0 => 7, 1 => attr | 8, 5 => attr | 0x80, 4 => attr & 0xf8 | 1,
                            7 => attr & 0xf8 | 0x70, 8 => attr & 0x88,
                            30..=37 => attr & 0xf8 | FG[(q - 30) as usize],
                            40..=47 => attr & 0x8f | FG[(q - 40) as usize] << 4,
                            _ => attr,
                        }
                    },
                    _ => panic!("unknown"),
                }
                i += 1;
            }
            7 => {}
            9 => {
                for _ in 0..8 - col % 8 {
                    screen[row * w + col] = (0x20, attr);
                    if col + 1 < w { col += 1 } else if wrap { col = 0; row += 1 }
                }
            }
            8 => col = col.saturating_sub(1),
            10 => { if row == l { panic!("scrolls") } row += 1 }
            13 => col = 0,
            _ => {
                screen[row * w + col] = (b, attr);
                if col + 1 < w { col += 1 } else if wrap { col = 0; row += 1 }
            }
        }
    }
    let glyphs: Vec<char> = (0..=255u8)
        .map(|b| if (0x20..0x7f).contains(&b) { b as char } else { '\u{2588}' })
        .collect();
    let mut out = String::with_capacity(l * w * 2);
    for y in 0..l {
        for x in 0..w { out.push(glyphs[screen[y * w + x].0 as usize]) }
        out.push('\n');
    }
    std::io::stdout().lock().write_all(out.as_bytes()).unwrap();
}
