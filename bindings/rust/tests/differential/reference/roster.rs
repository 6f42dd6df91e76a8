//! Rosters by their history: every answer is worked out from the list of events, and nothing else is kept.
use super::Code;

#[derive(Clone, Copy, Debug)]
pub enum Event {
    Leave(u32),
    Rejoin(u32),
}

impl Event {
    pub fn node(self) -> u32 {
        match self {
            Event::Leave(node) | Event::Rejoin(node) => node,
        }
    }

    fn says(self) -> bool {
        matches!(self, Event::Rejoin(_))
    }
}

/// The events of one record, accepted and refused, and how many jobs have written since the last accepted one.
pub struct History {
    pub record: Vec<u8>,
    pub events: Vec<Event>,
    pub jobs: usize,
    n: usize,
    k: usize,
}

impl History {
    pub fn new(record: &[u8]) -> Result<History, u8> {
        let code = Code::of(record)?;
        Ok(History {
            record: record.to_vec(),
            events: Vec::new(),
            jobs: 0,
            n: code.n,
            k: code.k,
        })
    }

    /// Whether the last event that names the node is a return, or none names it.
    pub fn present(&self, node: u32) -> bool {
        self.events
            .iter()
            .rev()
            .find(|event| event.node() == node)
            .map_or(true, |event| event.says())
    }

    fn nodes(&self) -> Vec<u8> {
        (0..self.n as u8).filter(|&node| self.present(node.into())).collect()
    }

    /// The number that an event meets now, or 0.
    pub fn number(&self, event: Event) -> u8 {
        if event.node() as usize >= self.n {
            9
        } else if self.present(event.node()) == event.says() {
            15
        } else {
            0
        }
    }

    /// The k lowest present nodes, or none where they are too few; a number for another length than k.
    pub fn lowest(&self, list: usize) -> Result<Option<Vec<u8>>, u8> {
        if list != self.k {
            return Err(8);
        }
        let mut nodes = self.nodes();
        if nodes.len() < self.k {
            return Ok(None);
        }
        nodes.truncate(self.k);
        Ok(Some(nodes))
    }

    /// The nodes that the next job reads, worked out from the number of jobs before it, which is not held modulo anything.
    pub fn job(&self, list: usize) -> Result<Option<Vec<u8>>, u8> {
        if list != self.k {
            return Err(8);
        }
        let nodes = self.nodes();
        if nodes.len() < self.k {
            return Ok(None);
        }
        Ok(Some(
            (0..self.k).map(|t| nodes[(self.jobs * self.k + t) % nodes.len()]).collect(),
        ))
    }
}
