//! Demand 3 on a few trees; `model small` searches many more.

mod common;

use common::*;
use model::gen::fixed::{all_modes, base_trees, table_s, types};
use model::rng::Rng;
use model::small::{reading, tree_of, Search};
use model::{gen::trees, spell, table};

#[test]
fn all_spellings_of_three_equal_texts() {
    // Literal each time, or any number given so far: 1, then 2, then 2 or 3 ways.
    let text = [6, 0, 1, 1];
    let rows = [[10, 3, 0, 0], text, text, text].concat();
    let mut spellings = spell::all(&types(&table_s()), &rows, b"x", 0);
    assert_eq!(spellings.len(), 5);
    spellings.sort();
    spellings.dedup();
    assert_eq!(spellings.len(), 5);
    let nulls = [n(8, 0, 0), n(10, 0, 0), n(2, 0, 0)];
    let rows = [[10, 2, 0, 0], [0, 0, 0, 1], [0, 0, 0, 1]].concat();
    assert_eq!(spell::all(&types(&nulls), &rows, b"", 0).len(), 1);
    assert_eq!(spell::all(&types(&nulls), &rows, b"", 4).len(), 4);
}

#[test]
fn the_writer_is_shortest_under_the_premise() {
    let mut search = Search::default();
    for (nodes, rows, pool) in base_trees() {
        for modes in all_modes() {
            search.tree(&nodes, &rows, &pool, modes);
        }
    }
    assert_eq!(search.failures, 0);
    assert_eq!(search.trees, 7 * 16);
    assert_eq!(search.shortest, search.trees);
    assert!(search.no_room > search.trees);
}

#[test]
fn the_premise_is_about_short_values_past_the_61st() {
    let premise = |different: u64, len: u64, repeated| {
        let size = |i| if i < 61.min(different - 1) { 3 } else { len };
        let mut rows = vec![[10, different + 1, 0, 0]];
        rows.extend((0..different).map(|i| [6, 3 * i, size(i), 1]));
        rows.push([6, 3 * (different - 1), len, 1]);
        let pool: Vec<u8> = (0..different).flat_map(|i| [i as u8, 1, 2]).collect();
        spell::premise(&types(&table_s()), &rows.concat(), &pool, 0, repeated)
    };
    assert!(premise(61, 1, false));
    assert!(!premise(62, 1, false));
    assert!(!premise(62, 0, false));
    assert!(premise(62, 2, false));
    // Both 62nd and 63rd are short; only the 63rd comes again.
    assert!(!premise(63, 1, true));
    let mut once = vec![[10, 62, 0, 0]];
    once.extend((0..62).map(|i| [6, i, 1, 1]));
    let pool: Vec<u8> = (0..62).collect();
    let once = once.concat();
    assert!(!spell::premise(&types(&table_s()), &once, &pool, 0, false));
    assert!(spell::premise(&types(&table_s()), &once, &pool, 0, true));
    assert!(spell::premise(&types(&table_s()), &once, &pool, 32, false));
}

#[test]
fn any_spelling_of_a_random_tree_reads_as_it_and_fits_again() {
    let mut rng = Rng::new(11);
    let mut seen = 0;
    for _ in 0..2_000 {
        let nodes = trees::nodes(&mut rng);
        let types = types(&nodes);
        let tree = trees::tree(&mut rng, &types, 60);
        let modes = rng.pick(&all_modes().collect::<Vec<u64>>());
        let pieces = spell::spell(&types, &tree.rows, &tree.pool, modes, &mut |ways| {
            rng.below(ways)
        });
        let message = pieces.message();
        let table = table::file(&nodes);
        let Ok(rows) = reading(&table, &message) else {
            // Only a text that is not UTF-8 stands in the way.
            assert_eq!(reading(&table, &message).unwrap_err(), no(28));
            continue;
        };
        seen += 1;
        assert_eq!(tree_of(&rows, &message), tree_of(&tree.rows, &tree.pool));
        if spell::premise(&types, &rows, &message, modes, false) {
            let rows: Vec<[u64; 4]> = rows.chunks(4).map(|r| [r[0], r[1], r[2], r[3]]).collect();
            let (answer, out) = write_whole(&nodes, modes as u128, &rows, &message, message.len());
            assert!(answer.is_success());
            let back = reading(&table, &out[..answer.second as usize]).unwrap();
            assert_eq!(tree_of(&back, &out), tree_of(&tree.rows, &tree.pool));
        }
    }
    assert!(seen > 1_500);
}
