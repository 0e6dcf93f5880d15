//! Stand-in for the provider: one target with its tables, whatever the accession.

use crate::data::error::Error;
use crate::data::interface::{CdsBounds, Provider, TxIdentityInfo, TxMappingOptions};
use requests::Request;

/// The target that is lent, its exons, and its CDS bounds.
pub struct LentTarget {
    target: String,
    exons: Vec<(i32, i32)>,
    cds_bounds: CdsBounds,
}

impl LentTarget {
    pub fn of(request: &Request) -> Self {
        let pairs = request.exon_pairs().into_iter();
        let bound = |bound: i64| i32::try_from(bound).ok().filter(|&bound| bound >= 0);
        LentTarget {
            target: String::from_utf8(request.target.clone()).expect("the Rust takes text"),
            exons: pairs
                .map(|(start, end)| (start as i32, end as i32))
                .collect(),
            cds_bounds: (bound(request.cds_start), bound(request.cds_end)),
        }
    }
}

impl Provider for LentTarget {
    /// The bases it has: fewer, or none, past the target's end.
    fn get_seq_part(
        &self,
        _ac: &str,
        begin: Option<usize>,
        end: Option<usize>,
    ) -> Result<String, Error> {
        let end = end.unwrap_or(usize::MAX).min(self.target.len());
        let begin = begin.unwrap_or(0).min(end);
        Ok(self.target[begin..end].to_string())
    }

    fn get_tx_mapping_options(&self, _tx_ac: &str) -> Result<Vec<TxMappingOptions>, Error> {
        Ok(vec![TxMappingOptions {
            alt_ac: String::new(),
            alt_aln_method: "splign".to_string(),
        }])
    }

    fn get_cds_start_end(
        &self,
        _tx_ac: &str,
        _alt_ac: &str,
        _alt_aln_method: &str,
    ) -> Result<CdsBounds, Error> {
        Ok(self.cds_bounds)
    }

    fn get_tx_exon_coords(
        &self,
        _tx_ac: &str,
        _alt_ac: &str,
        _alt_aln_method: &str,
    ) -> Result<Vec<(i32, i32)>, Error> {
        Ok(self.exons.clone())
    }

    /// Lengths that sum to the target's, also where the table has gaps.
    fn get_tx_identity_info(&self, _tx_ac: &str) -> Result<TxIdentityInfo, Error> {
        Ok(TxIdentityInfo {
            lengths: vec![self.target.len() as i32],
        })
    }
}
