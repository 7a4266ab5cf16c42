//! The two hand-outs that the library is measured against give the second program's lists.

use compare::random::Random;
use compare::{linear, shapes, sweeps, UNTOUCHED_CODE};
use pumxaqert::Setup;

type HandOut = fn(&mut [u8], usize, usize, usize, &mut [u16]) -> Result<usize, second::Refusal>;

const MEASURED: [(&str, HandOut); 2] = [("linear", linear::hand_out), ("sweeps", sweeps::hand_out)];

/// How many codes the second program lists; the others list the same.
fn listed(setup: Setup, table: &[u8], room: usize, shape: &str) -> usize {
    let Setup { n, s, copy } = setup;
    let run = |hand_out: HandOut| {
        let (mut t, mut list) = (table.to_vec(), vec![UNTOUCHED_CODE; room]);
        let count = hand_out(&mut t, n, s, copy, &mut list);
        (count, list, t)
    };
    let expected = run(second::hand_out);
    for (name, hand_out) in MEASURED {
        assert!(run(hand_out) == expected, "{name} on {shape}");
    }
    expected.0.unwrap()
}

#[test]
fn as_second_on_shapes() {
    let setup = Setup { n: 7, s: 64, copy: 0 };
    for (name, table) in shapes::orders(setup) {
        assert_eq!(listed(setup, &table, 448, name), 448);
    }
}

#[test]
fn as_second_on_random_tables() {
    let mut random = Random(1);
    let mut sum = 0;
    for _ in 0..20_000 {
        let n = random.pick(&[3, 5, 7]);
        let setup = Setup { n, s: random.between(1, 6), copy: 0 };
        let table = shapes::random_order(&mut random, setup);
        sum += listed(setup, &table, random.pick(&[0, 1, 5, 50]), "a random table");
    }
    assert!(sum > 20_000, "{sum}");
}
