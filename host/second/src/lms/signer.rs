//! A signer, for tests: it makes a key from a seed and signs with any leaf, as often as it is asked. One that is meant to be safe uses a leaf once.
use super::{Hash, Tree, DIGITS, HEIGHT, LEAVES, LMOTS_TYPE, LMS_TYPE};

/// A private key, and the nodes of its tree: the root is node 1, the leaves are 32 to 63.
pub struct Signer {
    tree: Tree,
    seed: Hash,
    nodes: Vec<Hash>,
}

impl Signer {
    /// The key of an identifier and a seed (RFC 8554, Appendix A).
    pub fn new(identifier: [u8; 16], seed: Hash) -> Signer {
        let mut signer = Signer {
            tree: Tree(identifier),
            seed,
            nodes: vec![[0; 32]; 2 * LEAVES as usize],
        };
        for leaf in 0..LEAVES {
            let node = signer.leaf_node(leaf);
            signer.nodes[(LEAVES + leaf) as usize] = node;
        }
        for node in (1..LEAVES).rev() {
            let [left, right] = [2 * node, 2 * node + 1].map(|below| signer.node(below));
            signer.nodes[node as usize] = signer.tree.inner_node(node, &left, &right);
        }
        signer
    }

    /// The public key.
    pub fn key(&self) -> Vec<u8> {
        let types = [LMS_TYPE, LMOTS_TYPE].map(u32::to_be_bytes);
        [&types.concat(), &self.tree.0[..], &self.node(1)].concat()
    }

    /// Signs a message with a leaf, and with a randomizer that is made from the seed.
    pub fn sign(&self, leaf: u32, message: &[u8]) -> Vec<u8> {
        self.sign_with(leaf, &self.random(leaf), message)
    }

    /// Signs a message with a leaf and a randomizer (Algorithms 3 and 5).
    pub fn sign_with(&self, leaf: u32, random: &Hash, message: &[u8]) -> Vec<u8> {
        let digits = self.tree.digits(leaf, random, message);
        let chains = (0u16..)
            .zip(digits)
            .map(|(i, digit)| self.tree.chain(leaf, i, self.secret(leaf, i), 0, digit));
        let mut signature = [leaf, LMOTS_TYPE].map(u32::to_be_bytes).concat();
        signature.extend(random);
        signature.extend(chains.flatten());
        signature.extend(LMS_TYPE.to_be_bytes());
        signature.extend(self.path(leaf).flatten());
        signature
    }

    /// The nodes beside the way from a leaf to the root.
    fn path(&self, leaf: u32) -> impl Iterator<Item = Hash> + '_ {
        (0..HEIGHT).map(move |level| self.node((LEAVES + leaf) >> level ^ 1))
    }

    fn node(&self, node: u32) -> Hash {
        self.nodes[node as usize]
    }

    fn leaf_node(&self, leaf: u32) -> Hash {
        let chains = (0u16..).take(DIGITS);
        let ends = chains.map(|i| self.tree.chain(leaf, i, self.secret(leaf, i), 0, u8::MAX));
        self.tree.leaf_node(leaf, self.tree.ots_key(leaf, ends))
    }

    /// The beginning of a chain.
    fn secret(&self, leaf: u32, i: u16) -> Hash {
        self.tree
            .hash(leaf, &[&i.to_be_bytes(), &[0xFF], &self.seed])
    }

    /// Made as the beginning of a chain that there is not.
    fn random(&self, leaf: u32) -> Hash {
        self.secret(leaf, u16::MAX)
    }
}
