//! Encodes a small picture, decodes it whole, cut and stored small, and shows what a damaged file is answered. README.md has the commands.
mod txp;

use txp::{Refusal, Rule};

const N: u32 = 3;
const L: u32 = 2;
const SIDE: usize = 8;
const ALL: usize = SIDE * SIDE;

/// The first row of the picture, each value as the float that an audio engine takes.
fn row(n: u32, linear: &[i32]) -> Result<String, Refusal> {
    let mut raster = vec![0; txp::entries(n)];
    txp::to_raster(n, linear, &mut raster)?;
    let mut text = String::new();
    for &x in &raster[..1 << n] {
        text += &format!(" {}", txp::float(x)?);
    }
    Ok(text)
}

/// What the first bytes of a file give; where planes are left, and so values are those of a rule, the row by both of them. The header
/// says how much is to be lent.
fn shown(file: &[u8]) -> Result<String, Refusal> {
    let n = txp::header(file)?.n;
    let all = txp::entries(n);
    let (mut values, mut precisions, mut marks) = (vec![0; all], vec![0; all], vec![0; all]);
    let d = txp::decode(file, &mut values, &mut precisions, &mut marks, Rule::Lower)?;
    let last = d.planes - d.finished;
    let next = match last {
        0 => String::new(),
        _ => format!(" and of the next {} of {all}", precisions.iter().filter(|&&k| u32::from(k) < last).count()),
    };
    let word = d.ending_text();
    let mut text = format!("{word}, {} of {} bits, {} of {} planes{next}, worst error {}; row 0:", d.bits, d.declared, d.finished, d.planes, d.error);
    text += &row(n, &values)?;
    if last > 0 {
        txp::decode(file, &mut values, &mut precisions, &mut marks, Rule::Midpoint)?;
        text += "\n           by the midpoint:";
        text += &row(n, &values)?;
    }
    Ok(text)
}

fn show(file: &[u8]) {
    match shown(file) {
        Ok(text) => println!("{:3} bytes: {text}", file.len()),
        Err(no) => println!("{:3} bytes: refusal {} at place {}", file.len(), no.number, no.place),
    }
}

/// The picture: the larger the nearer to the first corner. Its file with at most `budget` bits in its body.
fn written(file: &mut [u8], budget: u32) -> Result<txp::Answer, Refusal> {
    let mut raster = [0; ALL];
    for row in 0..SIDE {
        for col in 0..SIDE {
            let size = 1000 / (1 + row * row + col * col) as i32;
            raster[row * SIDE + col] = if (row + col) % 3 == 2 { -size } else { size };
        }
    }
    let mut linear = [0; ALL];
    txp::to_linear(N, &raster, &mut linear)?;
    let mut desc = [0; txp::desc(N)];
    let mut grand = [0; txp::grand(N)];
    txp::encode(N, L, &linear, &mut desc, &mut grand, &mut [0; ALL], file, budget)
}

fn main() -> Result<(), Refusal> {
    let mut file = [0; txp::most_file(N)];
    let e = written(&mut file, u32::MAX)?;
    println!("file: {} bytes, {} bits, P = {}", e.bytes, e.bits, e.planes);
    let bytes = e.bytes as usize;
    for cut in (txp::HEADER_SIZE..bytes).step_by(16) {
        show(&file[..cut]);
    }
    show(&file[..bytes]);

    // The same picture stored small on purpose, in a body of 256 bits, and that file cut.
    let mut small = [0; txp::HEADER_SIZE + 256 / 8];
    written(&mut small, 256)?;
    show(&small);
    show(&small[..small.len() - 16]);

    file[txp::HEADER_SIZE + 2] = 0; // a damaged body,
    show(&file[..bytes]);
    file[4] = 2; // another version,
    show(&file[..bytes]);
    show(&file[..11]); // and a file that is shorter than its header
    Ok(())
}
