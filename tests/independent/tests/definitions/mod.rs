//! Document 01's definitions, with those of W-203 for short lists, taken word by word, for small n: every question is
//! answered by going through all matchings. No algorithm is shared with the library. Men are document 01's students,
//! women its mentors.
#![allow(dead_code)] // each test program uses a part

pub mod book;
pub mod known;
pub mod pairs;
pub mod repairs;
pub mod rotations;

/// A matching: the woman of each man, if he has one.
pub type Matching = Vec<Option<usize>>;

/// The lists of both sides, best first. In a market of edition 2 men may be without a woman.
pub struct Market {
    pub n: usize,
    pub partial: bool,
    pub men: Vec<Vec<usize>>,
    pub women: Vec<Vec<usize>>,
}

impl Market {
    /// The market of 2n lists, the men's first.
    pub fn new(partial: bool, lists: &[Vec<u8>]) -> Market {
        let n = lists.len() / 2;
        let list = |k: usize| lists[k].iter().map(|&e| e as usize).collect::<Vec<_>>();
        Market { n, partial, men: (0..n).map(list).collect(), women: (n..2 * n).map(list).collect() }
    }

    /// The place of a man's woman on his list; whoever is alone comes after all places.
    pub fn place(&self, man: usize, woman: Option<usize>) -> usize {
        let place = |w| self.men[man].iter().position(|&x| x == w).unwrap();
        woman.map_or(self.men[man].len(), place)
    }

    /// Whether a man and a woman list each other.
    pub fn list_each_other(&self, man: usize, woman: usize) -> bool {
        self.men[man].contains(&woman) && self.women[woman].contains(&man)
    }

    /// Whether a woman ranks one man whom she lists above another, or above being alone.
    pub fn woman_prefers(&self, woman: usize, man: usize, other: Option<usize>) -> bool {
        let place = |m| self.women[woman].iter().position(|&x| x == m).unwrap();
        other.map_or(true, |other| place(man) < place(other))
    }

    /// A pair blocks if each lists the other and each is alone or prefers the other.
    pub fn blocks(&self, matching: &Matching, man: usize, woman: usize) -> bool {
        self.list_each_other(man, woman)
            && self.place(man, Some(woman)) < self.place(man, matching[man])
            && self.woman_prefers(woman, man, husband(matching, woman))
    }

    /// The lowest blocking man with his best-ranked blocking woman.
    pub fn first_blocking(&self, matching: &Matching) -> Option<(usize, usize)> {
        let man = (0..self.n).find(|&i| (0..self.n).any(|w| self.blocks(matching, i, w)))?;
        let woman = self.men[man].iter().find(|&&w| self.blocks(matching, man, w)).unwrap();
        Some((man, *woman))
    }

    /// Bytes as a matching, or the first of rules 8, 9 and 19 that they break, with its place.
    pub fn matching(&self, bytes: &[u8]) -> Result<Matching, (usize, usize)> {
        if bytes.len() != self.n {
            return Err((8, 0));
        }
        let woman = |byte: u8| if byte == 255 && self.partial { None } else { Some(byte as usize) };
        let matching: Matching = bytes.iter().map(|&byte| woman(byte)).collect();
        let clashes = |i: &usize| matching[*i].is_some_and(|w| w >= self.n || matching[..*i].contains(&Some(w)));
        if let Some(first) = (0..self.n).find(clashes) {
            return Err((9, first));
        }
        if (0..self.n).any(|i| matching[i].is_some_and(|w| !self.list_each_other(i, w))) {
            return Err((19, 0));
        }
        Ok(matching)
    }

    /// All matchings: bytes from 0 to n - 1, in edition 2 also 255, that break none of these rules.
    pub fn matchings(&self) -> Vec<Matching> {
        let mut all: Vec<Vec<u8>> = vec![vec![]];
        for _ in 0..self.n {
            let byte = (0..self.n as u8).chain(self.partial.then_some(255));
            let left = |begun: &[u8], byte: u8| byte == 255 || !begun.contains(&byte);
            let longer = |begun: &Vec<u8>| {
                let next = byte.clone().filter(|&byte| left(begun, byte));
                next.map(|byte| [&begun[..], &[byte]].concat()).collect::<Vec<_>>()
            };
            all = all.iter().flat_map(longer).collect();
        }
        all.iter().filter_map(|bytes| self.matching(bytes).ok()).collect()
    }

    /// All matchings that no pair blocks.
    pub fn stable_matchings(&self) -> Vec<Matching> {
        self.matchings().into_iter().filter(|m| self.first_blocking(m).is_none()).collect()
    }

    /// The one of these matchings in which each man has the best woman that any of them gives.
    pub fn best_for_men<'a>(&self, matchings: &'a [Matching]) -> Option<&'a Matching> {
        self.extreme(matchings, |places| places.min())
    }

    /// The one in which each has the worst.
    pub fn worst_for_men<'a>(&self, matchings: &'a [Matching]) -> Option<&'a Matching> {
        self.extreme(matchings, |places| places.max())
    }

    fn extreme<'a>(
        &self,
        matchings: &'a [Matching],
        pick: impl Fn(&mut dyn Iterator<Item = usize>) -> Option<usize>,
    ) -> Option<&'a Matching> {
        let due = |i: usize| pick(&mut matchings.iter().map(|m| self.place(i, m[i])));
        matchings.iter().find(|m| (0..self.n).all(|i| Some(self.place(i, m[i])) == due(i)))
    }
}

/// The man of a woman, if she has one.
pub fn husband(matching: &Matching, woman: usize) -> Option<usize> {
    matching.iter().position(|&w| w == Some(woman))
}

/// The number of men whose women differ.
pub fn distance(one: &Matching, other: &Matching) -> usize {
    one.iter().zip(other).filter(|(a, b)| a != b).count()
}

/// The total weight of the men whose women differ.
pub fn weight_moved(one: &Matching, other: &Matching, weights: &[u8]) -> usize {
    (0..weights.len()).filter(|&i| one[i] != other[i]).map(|i| weights[i] as usize).sum()
}

/// All lists without repeats of 0 to n - 1, of every length.
pub fn short_lists(n: usize) -> Vec<Vec<u8>> {
    let (mut all, mut last) = (vec![vec![]], vec![vec![]]);
    for _ in 0..n {
        let longer =
            |p: &Vec<u8>| (0..n as u8).filter(|x| !p.contains(x)).map(|x| [&p[..], &[x]].concat()).collect::<Vec<_>>();
        last = last.iter().flat_map(longer).collect();
        all.extend(last.clone());
    }
    all
}

/// A matching as bytes, 255 for a man without a woman.
pub fn bytes(matching: &Matching) -> Vec<u8> {
    matching.iter().map(|woman| woman.map_or(255, |w| w as u8)).collect()
}
