//! Stand-in for the provider's interface: the functions that the normalizer's text calls.

use crate::data::error::Error;

/// Which alignment of a transcript there is.
pub struct TxMappingOptions {
    pub alt_ac: String,
    pub alt_aln_method: String,
}

/// The lengths of a transcript's exons.
pub struct TxIdentityInfo {
    pub lengths: Vec<i32>,
}

pub type CdsBounds = (Option<i32>, Option<i32>);

pub trait Provider {
    fn get_seq_part(
        &self,
        ac: &str,
        begin: Option<usize>,
        end: Option<usize>,
    ) -> Result<String, Error>;

    fn get_tx_mapping_options(&self, tx_ac: &str) -> Result<Vec<TxMappingOptions>, Error>;

    fn get_cds_start_end(
        &self,
        tx_ac: &str,
        alt_ac: &str,
        alt_aln_method: &str,
    ) -> Result<CdsBounds, Error>;

    fn get_tx_exon_coords(
        &self,
        tx_ac: &str,
        alt_ac: &str,
        alt_aln_method: &str,
    ) -> Result<Vec<(i32, i32)>, Error>;

    fn get_tx_identity_info(&self, tx_ac: &str) -> Result<TxIdentityInfo, Error>;
}
