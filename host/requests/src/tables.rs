//! Exon tables and CDS bounds: every one for a small target, and random ones.

use crate::Rng;

/// The exon tables of a target: pairs in order, gaps allowed, the last end at the target's end.
pub type Exons = Vec<(u32, u32)>;

/// Every exon table for a target of this length.
pub fn every_table(length: u32) -> Vec<Exons> {
    tables_ending_at(length)
}

fn tables_ending_at(end: u32) -> Vec<Exons> {
    let mut tables = Vec::new();
    for start in 0..end {
        tables.push(vec![(start, end)]);
        for before in 1..=start {
            for mut table in tables_ending_at(before) {
                table.push((start, end));
                tables.push(table);
            }
        }
    }
    tables
}

/// Every pair of CDS bounds for a target of this length; -1 is absent.
pub fn every_cds(length: i64) -> Vec<(i64, i64)> {
    let bounds = || -1..=length;
    bounds()
        .flat_map(|start| bounds().map(move |end| (start, end)))
        .filter(|&(start, end)| start < 0 || end < 0 || start <= end)
        .collect()
}

/// A random table of at most `most` exons. One stretch in five between two cuts is a gap.
pub fn random_table(rng: &mut Rng, length: usize, most: usize) -> Exons {
    let mut cuts: Vec<usize> = (1..most).map(|_| rng.below(length)).collect();
    cuts.push(0);
    cuts.push(length);
    cuts.sort_unstable();
    cuts.dedup();
    let stretches = cuts.windows(2).map(|two| (two[0] as u32, two[1] as u32));
    let kept = stretches.filter(|&(_, end)| end as usize == length || !rng.once_in(5));
    kept.collect()
}

/// Random CDS bounds, each absent once in three.
pub fn random_cds(rng: &mut Rng, length: usize) -> (i64, i64) {
    let first = rng.from_to(0, length) as i64;
    let second = rng.from_to(0, length) as i64;
    let start = if rng.once_in(3) {
        -1
    } else {
        first.min(second)
    };
    let end = if rng.once_in(3) {
        -1
    } else {
        first.max(second)
    };
    (start, end)
}

#[cfg(test)]
mod tests {
    use super::*;

    #[test]
    fn tables_are_all_there_once() {
        let sizes: Vec<usize> = (1..=7).map(|length| every_table(length).len()).collect();
        assert_eq!(sizes, [1, 3, 8, 21, 55, 144, 377]);
        let mut tables = every_table(6);
        tables.sort();
        tables.dedup();
        assert_eq!(tables.len(), 144);
    }

    #[test]
    fn bounds_are_all_there() {
        assert_eq!(every_cds(4).len(), 26);
    }
}
