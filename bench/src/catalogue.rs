//! The catalogue of document 01 in Rust: lent text to topics.
use crate::refusal::{self, refuse, Refusal};

const TOPICS_MAX: usize = 8;
const TOPIC_NAME_MAX: usize = 16;
pub const PARTITIONS_MAX: usize = 8;

#[derive(Clone)]
pub struct Topic {
    pub name: Vec<u8>,
    pub partitions: u32,
}

/// The topics in order, and the set of all positions: partition p of topic t is at 8 * t + p.
#[derive(Clone)]
pub struct Catalogue {
    pub topics: Vec<Topic>,
    pub all: u64,
}

impl Topic {
    fn parse(line: &[u8]) -> Option<Topic> {
        let (&digit, rest) = line.split_last()?;
        let name = rest.strip_suffix(b"\t")?;
        let fits = (1..=TOPIC_NAME_MAX).contains(&name.len())
            && name.iter().all(|b| b.is_ascii_alphanumeric() || b"._-".contains(b))
            && (b'1'..=b'8').contains(&digit);
        fits.then(|| Topic { name: name.to_vec(), partitions: u32::from(digit - b'0') })
    }
}

impl Catalogue {
    pub fn parse(text: &[u8]) -> Result<Catalogue, Refusal> {
        let refused = Refusal::number(refusal::INVALID_CATALOGUE);
        let lines = text.strip_suffix(b"\n").ok_or(refused)?;
        let topics: Option<Vec<Topic>> = lines.split(|&b| b == b'\n').map(Topic::parse).collect();
        let topics = topics.ok_or(refused)?;
        let repeated = (1..topics.len()).any(|t| topics[..t].iter().any(|u| u.name == topics[t].name));
        refuse(refusal::INVALID_CATALOGUE, topics.len() > TOPICS_MAX || repeated)?;
        let all = topics.iter().enumerate().map(|(t, topic)| ((1 << topic.partitions) - 1) << (PARTITIONS_MAX * t)).sum();
        Ok(Catalogue { topics, all })
    }

    pub fn lists(&self, position: usize) -> bool {
        position < TOPICS_MAX * PARTITIONS_MAX && self.all >> position & 1 == 1
    }
}
