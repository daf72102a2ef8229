//! The elimination tree and the walk: document 01's P1 and P2, drawn patterns beside the plan, and each refusal.
mod common;
use beyqaloosh::calls::{self, Walked};
use beyqaloosh::{EliminationTree, Error, Table};
use common::{links, system};

const NONE: u32 = u32::MAX;
/// P1: 1 is linked to 0, 2 to 1, 3 to 0.
const P1: (&[u32], &[u32]) = (&[0, 0, 1, 2, 3], &[0, 1, 0]);

/// The upper pattern of these links, each the greater block and the lesser.
fn upper(n: u32, links: &[(u32, u32)]) -> (Vec<u32>, Vec<u32>) {
    let mut sorted = links.to_vec();
    sorted.sort_unstable();
    let starts = (0..=n).map(|j| sorted.partition_point(|(greater, _)| *greater < j) as u32).collect();
    (starts, sorted.iter().map(|(_, lesser)| *lesser).collect())
}

#[test]
fn trees_of_document_01() {
    let tree = EliminationTree::new(4, P1.0, P1.1).unwrap();
    assert_eq!(tree.parents().collect::<Vec<_>>(), [Some(1), Some(2), Some(3), None]);
    let mut walker = tree.walker();
    for _ in 0..3 {
        assert_eq!(walker.reach(3), Ok(&[2, 1, 0][..]));
        assert_eq!(walker.reach(0), Ok(&[][..]));
        assert_eq!(walker.reach(4), Err(Error::Past { block: 4 }));
        assert_eq!(walker.reach(2), Ok(&[1][..]));
    }
    // P2
    let tree = EliminationTree::new(3, &[0, 0, 0, 2], &[0, 1]).unwrap();
    assert_eq!(tree.parents().collect::<Vec<_>>(), [Some(2), Some(2), None]);
    assert_eq!(tree.walker().reach(2), Ok(&[1, 0][..]));
    // the block's own row and a later one count for nothing
    assert_eq!(EliminationTree::new(2, &[0, 2, 2], &[0, 1]).unwrap().parents().collect::<Vec<_>>(), [None, None]);
    assert_eq!(EliminationTree::new(0, &[0], &[]).unwrap().parents().len(), 0);
}

#[test]
fn drawn_patterns_beside_the_plan() {
    let mut seed: u64 = 1;
    let mut drawn = |below: u32| {
        seed = seed.wrapping_mul(6364136223846793005).wrapping_add(1442695040888963407);
        (seed >> 33) as u32 % below
    };
    for _ in 0..100 {
        let (n, one_in) = (1 + drawn(12), 1 + drawn(5));
        let pairs = (0..n).flat_map(|greater| (0..greater).map(move |lesser| (greater, lesser)));
        let pairs: Vec<(u32, u32)> = pairs.filter(|_| drawn(one_in) == 0).collect();
        let plan = system(links(n, &pairs)).plan().unwrap();
        let (starts, rows) = upper(n, &pairs);
        let tree = EliminationTree::new(n as usize, &starts, &rows).unwrap();
        assert!(tree.parents().eq(plan.parents()));
        let mut walker = tree.walker();
        for j in 0..n {
            let mut found = walker.reach(j as usize).unwrap().to_vec();
            found.sort_unstable();
            let stored: Vec<u32> = (0..n).filter(|&k| plan.column(k as usize).contains(&j)).collect();
            assert_eq!(found, stored);
        }
    }
}

#[test]
fn wrong_patterns() {
    let refused = |n, starts: &[u32], rows: &[u32]| EliminationTree::new(n, starts, rows).unwrap_err();
    let of = Table::Pattern;
    assert_eq!(refused(4097, &[0; 4098], &[]), Error::Blocks);
    assert_eq!(refused(usize::MAX, P1.0, P1.1), Error::Blocks);
    assert_eq!(refused(5, P1.0, P1.1), Error::Starts { of, place: 5 });
    assert_eq!(refused(4, &[0, 0, 2, 1, 3], P1.1), Error::Starts { of, place: 3 });
    let why = refused(4, P1.0, &[0, 4, 0]);
    assert_eq!(why, Error::Row { of, place: 1 });
    assert_eq!(
        why.to_string(),
        "refused 5, caused by the assembler of the tables: entry 1 of the row table of the pattern is outside its range. In an upper \
         pattern list rows below the number of blocks."
    );
    assert_eq!(refused(2, &[0, 0, 2], &[0, 0]), Error::Order { of, place: 1 });
}

#[test]
fn walks_on_lent_slices() {
    let (starts, rows) = P1;
    let (mut parents, mut ancestors) = ([7; 5], [7; 4]);
    assert_eq!(calls::elimination_tree(4, starts, rows, &mut parents, &mut ancestors), Ok(()));
    assert_eq!((parents, ancestors), ([1, 2, 3, NONE, 7], [0; 4]));
    let parents = &parents[..4];
    let (mut stamps, mut found) = ([0; 4], [7; 5]);
    let mut walk = |j, mark| calls::reach(starts, rows, parents, j, mark, &mut stamps, &mut found);
    assert_eq!(walk(3, 8), Ok(Walked { mark: 9, top: 1 }));
    // the next mark is held by a stamp, and the last one is at its end
    assert_eq!(walk(3, 8), Ok(Walked { mark: 1, top: 1 }));
    assert_eq!(walk(3, NONE), Ok(Walked { mark: 1, top: 1 }));
    let past = walk(4, 0).unwrap_err();
    assert_eq!((stamps, found), ([1; 4], [7, 2, 1, 0, 7]));
    assert_eq!(
        past.to_string(),
        "refused 12, caused by whoever lends buffers: block 4 is past the last. Ask for the walk of a block that there is."
    );
    let why = calls::reach(starts, rows, &[1, 1, 3, NONE], 3, 0, &mut stamps, &mut found).unwrap_err();
    assert_eq!(why, Error::Row { of: Table::Tree, place: 1 });
    assert_eq!(
        why.to_string(),
        "refused 5, caused by the assembler of the tables: the parent of block 1, by new number, is neither none nor a greater block. \
         A parent is a greater block, or 4,294,967,295 for none."
    );
    assert_eq!((stamps, found), ([1; 4], [7, 2, 1, 0, 7]));
}

#[test]
fn short_buffers() {
    let (starts, rows) = P1;
    let parents = [1, 2, 3, NONE];
    for (which, names) in [["parents", "stamps"], ["ancestors", "found"]].into_iter().enumerate() {
        let mut lent = [vec![7; 4], vec![7; 4]];
        lent[which].pop();
        let before = lent.clone();
        let [first, second] = &mut lent;
        let tree = calls::elimination_tree(4, starts, rows, first, second);
        assert_eq!(tree, Err(Error::Short { which, name: names[0], need: 4 }));
        let walk = calls::reach(starts, rows, &parents, 3, 0, first, second);
        assert_eq!(walk, Err(Error::Short { which, name: names[1], need: 4 }));
        assert_eq!(lent, before);
    }
}
