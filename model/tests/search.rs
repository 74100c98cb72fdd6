//! The writer's two searches for an equal literal answer alike and write the same bytes.

use model::case::Case;
use model::gen::Cases;
use model::write::{write_by, Search};

#[test]
fn both_searches_write_the_same_message() {
    let mut cases = Cases::new(5, "W");
    let mut named = 0;
    for _ in 0..6_000 {
        let case = cases.next_case();
        let Case::Write {
            work,
            out,
            modes,
            table,
            rows,
            pool,
        } = &case
        else {
            panic!("a writing case");
        };
        let [by_hash, one_by_one] = [Search::Hash, Search::OneByOne].map(|search| {
            let mut lent = vec![0xdd; *out];
            let answer = write_by(search, table, *modes, rows, pool, &mut lent, *work);
            (answer, lent)
        });
        assert_eq!(by_hash, one_by_one, "{case}");
        // With mode 5 set nothing is named, so another length shows that something was.
        let mut lent = vec![0; *out];
        let plain = write_by(
            Search::OneByOne,
            table,
            modes | 1 << 5,
            rows,
            pool,
            &mut lent,
            *work,
        );
        named += usize::from(by_hash.0.is_success() && plain != by_hash.0);
    }
    assert!(named > 100, "{named} with a number");
}
