//! Four threads of Rust over one table. What stands at the end, listed as one range, must be what was inserted less what was removed.
mod art_index;

use art_index::{Inserted, Pass, Refusal, Sizes, Value, open};
use std::error::Error;
use std::thread;

const THREADS: u64 = 4;
const ROUNDS: u64 = 20_000;
const KEYS: u64 = 97;

/// A thread's pass, and how many rows it added less those that it took out.
fn work(mut pass: Pass, first: u64) -> Result<(Pass, i64), Refusal> {
    let mut kept = 0;
    for round in 0..ROUNDS {
        let key = (round * 7 + first) % KEYS;
        let tuple: [Value; 2] = [
            key.into(),
            if round % 2 == 0 { "even" } else { "odd" }.into(),
        ];
        let told = match round % 3 {
            0 => {
                let gone = pass.remove(&tuple)?;
                kept -= i64::from(gone.is_some());
                gone
            }
            1 => match pass.insert(&tuple, key * 10)? {
                Inserted::New => {
                    kept += 1;
                    None
                }
                Inserted::Present(value) => Some(value),
            },
            _ => pass.get(&tuple)?,
        };
        assert!(
            told.is_none_or(|value| value == key * 10),
            "the value of a row"
        );
    }
    Ok((pass, kept))
}

/// Each refusal that the wrapper itself gives, and some of the library's.
fn refusals() {
    let sizes = Sizes::default();
    assert_eq!(open("u24", &sizes, 2).err(), Some(Refusal::BadColumn));
    assert_eq!(open("u8", &sizes, 33).err(), Some(Refusal::BadConfig));
    let mut passes = open("u64,text8", &sizes, 1).expect("a table");
    let pass = &mut passes[0];
    let (one, nine): ([Value; 1], Vec<Value>) = ([1u64.into()], vec![true.into(); 9]);
    assert_eq!(pass.insert(&one, 1), Err(Refusal::WrongColumns));
    assert_eq!(pass.get(&nine), Err(Refusal::WrongColumns));
    assert_eq!(
        pass.get(&[(-1i64).into(), "a".into()]),
        Err(Refusal::OutOfRange)
    );
    assert_eq!(
        pass.get(&[Value::Int(1 << 100), "a".into()]),
        Err(Refusal::OutOfRange)
    );
    assert_eq!(
        pass.get(&[1u64.into(), "twenty-five bytes of text".into()]),
        Err(Refusal::TextTooLong)
    );
    assert_eq!(pass.scan(&one, &one, 101), Err(Refusal::BadLimit));
    assert_eq!(Refusal::BadLimit.to_string(), "refused 9 BadLimit");
}

fn main() -> Result<(), Box<dyn Error>> {
    refusals();
    let passes = open("u64,text8", &Sizes::default(), THREADS as usize)?;
    let threads: Vec<_> = passes
        .into_iter()
        .zip(0..)
        .map(|(pass, first)| thread::spawn(move || work(pass, first)))
        .collect();
    let (mut passes, mut stand) = (Vec::new(), 0);
    for thread in threads {
        let (pass, kept) = thread.join().expect("a thread that ends")?;
        passes.push(pass);
        stand += kept;
    }
    let (lo, hi): ([Value; 2], [Value; 2]) = (
        [0u64.into(), "".into()],
        [u64::MAX.into(), "zzzzzzzz".into()],
    );
    let pass = &mut passes[0];
    pass.set_tries(1);
    for key in 1000..2000u64 {
        pass.insert(&[key.into(), "x".into()], key)?;
    }
    let rows = pass.rows(&lo, &hi).collect::<Result<Vec<_>, _>>()?;
    assert_eq!(rows.len() as i64, stand + 1000);
    assert!(rows.windows(2).all(|pair| pair[0].0 != pair[1].0));
    println!(
        "rust: {stand} rows stand after the threads, and {} in all are listed",
        rows.len()
    );
    Ok(())
}
