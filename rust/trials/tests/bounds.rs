//! The differential runs of the gate: the proved cosines and arcs against the stand-ins (R2.9 to R2.13), the
//! proved bounds against the oracle.

use trials::inputs::random::Random;
use trials::proved;
use trials::runs::functions::Function;

const CASES: u64 = 1_000_000;

/// Both numbers and NaN are among the answers.
fn angles(name: &str) {
    let counts = Function::named(name).check_angles(0, CASES);
    println!("{name}: {} numbers and {} NaN, none differs", counts[0], counts[1]);
    assert!(counts.iter().all(|count| *count > 0));
}

#[test]
fn cos() {
    angles("cos");
}

#[test]
fn sin() {
    angles("sin");
}

#[test]
fn acos() {
    angles("acos");
}

#[test]
fn asin() {
    angles("asin");
}

/// Half a turn, a quarter and the cosine of the f32 nearest to it.
#[test]
fn marked_angles() {
    let of = f32::from_bits;
    assert_eq!(proved::cos(of(0x3fc9_0fdb)).to_bits(), 0xb33b_bd2e);
    assert_eq!(proved::acos(of(0xbf80_0000)).to_bits(), 0x4049_0fdb);
    assert_eq!(proved::asin(of(0x3f80_0000)).to_bits(), 0x3fc9_0fdb);
}

/// Lengths that are no record's, no query's and no tray's; 1 comes before 3, and neither writes.
#[test]
fn lengths() {
    let record = Random::new(1).record();
    let unknown = {
        let mut record = record;
        record[12] = 2;
        record
    };
    let query = [0; 6];
    for short in 0..13 {
        assert_eq!(proved::bounds_validate(&record[..short]), Err(1));
        assert_eq!(proved::bounds_importance(&record[..short], &query), Err(1));
        for (out_words, a, b, number) in [
            (13, &record[..short], &record[..], 1),
            (13, &record[..], &record[..short], 1),
            (short, &record[..short], &record[..], 1),
            (short, &unknown[..], &record[..], 1),
            (short, &record[..], &unknown[..], 1),
            (short, &record[..], &record[..], 3),
        ] {
            let mut out = vec![7; out_words];
            assert_eq!(proved::bounds_union(a, b, &mut out), Err(number), "{out_words} {} {}", a.len(), b.len());
            assert!(out.iter().all(|word| *word == 7));
        }
    }
    assert_eq!(proved::bounds_validate(&unknown), Err(1));
    (0..6).for_each(|short| assert_eq!(proved::bounds_importance(&record, &query[..short]), Err(1)));
}

trials::differential! {
    fn validate() {
        let tally = trials::runs::bounds::validates(0, CASES);
        println!("validate: {tally}");
        tally.check(&[0, 1, 5, 6, 7, 8], &[]);
    }

    fn union() {
        let tally = trials::runs::bounds::unions(0, CASES);
        println!("union: {tally}");
        tally.check(&[0, 1, 10], &["union", "cones", "lost", "joined"]);
    }

    fn importance() {
        let tally = trials::runs::bounds::importances(0, CASES);
        println!("importance: {tally}");
        tally.check(&[0, 1, 5, 6, 7, 8], &["importance", "weight", "refused"]);
    }
}
