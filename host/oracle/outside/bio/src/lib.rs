//! Stand-in for the crate of this name: the reverse complement of DNA, as far as A, C, G and T go.

pub mod alphabets {
    pub mod dna {
        /// The letter that pairs with a letter; any other byte pairs with itself.
        fn complement(letter: u8) -> u8 {
            match letter {
                b'A' => b'T',
                b'C' => b'G',
                b'G' => b'C',
                b'T' => b'A',
                other => other,
            }
        }

        pub fn revcomp(text: &[u8]) -> Vec<u8> {
            text.iter()
                .rev()
                .map(|&letter| complement(letter))
                .collect()
        }
    }
}
