//! Lengths as the library gives them are the second program's, for sizes that a table has and for others.

use pumxaqert::Setup;

#[test]
fn as_second() {
    for n in 0..10 {
        for s in 0..70 {
            let setup = Setup { n, s, copy: 0 };
            let expected = Some(second::table_len(n, s)).filter(|&length| length > 0);
            assert_eq!(setup.table_len(), expected, "n {n}, s {s}");
        }
    }
}
