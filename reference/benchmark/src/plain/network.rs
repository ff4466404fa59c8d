//! The plain implementation's network: the links with their free units, and the held circuits.

/// Most links of a path, and most circuits held.
const PATH: usize = 31;
const CIRCUITS: usize = 64;

pub struct Link {
    pub from: usize,
    pub to: usize,
    pub delay: u32,
    pub cost: u32,
    pub free: u32,
}

struct Circuit {
    number: u32,
    units: u32,
    links: usize,
    path: [u32; PATH],
}

pub struct Network {
    pub n: usize,
    pub links: Vec<Link>,
    /// By rising number.
    circuits: Vec<Circuit>,
}

impl Network {
    /// From a link table's words, five a link.
    pub fn new(n: u32, words: &[u32]) -> Network {
        let link = |w: &[u32]| Link { from: w[0] as usize, to: w[1] as usize, delay: w[2], cost: w[3], free: w[4] };
        Network { n: n as usize, links: words.chunks_exact(5).map(link).collect(), circuits: Vec::new() }
    }

    /// The place of the circuit with this number, or the place where it would stand.
    fn place(&self, number: u32) -> Result<usize, usize> {
        self.circuits.binary_search_by_key(&number, |c| c.number)
    }

    /// Adds a circuit, whose number is not held, at its place; its path has `units` free.
    pub fn hold(&mut self, number: u32, units: u32, path: &[u32]) {
        let mut circuit = Circuit { number, units, links: path.len(), path: [0; PATH] };
        circuit.path[..path.len()].copy_from_slice(path);
        for &i in path {
            self.links[i as usize].free -= units;
        }
        let place = self.place(number).unwrap_or_else(|place| place);
        self.circuits.insert(place, circuit);
    }

    /// 11 where the number is held, 12 where no more circuits may be.
    pub fn check_room(&self, number: u32) -> Result<(), u32> {
        if self.place(number).is_ok() {
            return Err(11);
        }
        if self.circuits.len() >= CIRCUITS {
            return Err(12);
        }
        Ok(())
    }

    /// Releases a circuit, or gives 13.
    pub fn release(&mut self, number: u32) -> Result<(), u32> {
        let place = self.place(number).map_err(|_| 13u32)?;
        let circuit = self.circuits.remove(place);
        for &i in &circuit.path[..circuit.links] {
            self.links[i as usize].free += circuit.units;
        }
        Ok(())
    }
}
