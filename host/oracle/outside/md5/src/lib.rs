//! Stand-in for the crate of this name. The Rust's text hashes sequences in one function, which the
//! normalizer never calls; this hash is of no length.

pub trait Digest {
    fn new() -> Self;
    fn update(&mut self, data: impl AsRef<[u8]>);
    fn finalize(self) -> Vec<u8>;
}

pub struct Md5;

impl Digest for Md5 {
    fn new() -> Self {
        Md5
    }

    fn update(&mut self, _data: impl AsRef<[u8]>) {}

    fn finalize(self) -> Vec<u8> {
        Vec::new()
    }
}
