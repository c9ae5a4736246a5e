//! A grammar in the making: the content of grammar words, in or out of its ranges.

/// Every field holds what will be written, so that any shape, also a broken one, can be made.
#[derive(Clone, Debug, PartialEq, Eq)]
pub struct Draft {
    /// Insert cost and reliability of each terminal, END first.
    pub terminals: Vec<(u16, u16)>,
    pub nonterminals: u16,
    pub opening: u16,
    pub closing: u16,
    pub unit: u16,
    /// The seventh header word, of request (vi); nothing for a header of six words.
    pub restart: Option<u16>,
    /// Left side number and symbols of each rule.
    pub rules: Vec<(u16, Vec<u16>)>,
}

impl Draft {
    /// A grammar whose costs are 1 and whose reliabilities, marks and unit are 0, with a header of six words.
    pub fn new(terminals: usize, nonterminals: u16, rules: &[(u16, &[u16])]) -> Draft {
        let mut costs = vec![(1, 0); terminals];
        if let Some(end) = costs.first_mut() {
            *end = (0, 0);
        }
        Draft {
            terminals: costs,
            nonterminals,
            opening: 0,
            closing: 0,
            unit: 0,
            restart: None,
            rules: rules.iter().map(|(k, r)| (*k, r.to_vec())).collect(),
        }
    }

    /// T as a word.
    pub fn t(&self) -> u16 {
        self.terminals.len() as u16
    }

    /// The grammar words: T + 256 stands first where there are seven in the header.
    pub fn words(&self) -> Vec<u16> {
        let more = if self.restart.is_some() { 256 } else { 0 };
        let mut words = vec![
            self.t() + more,
            self.nonterminals,
            self.rules.len() as u16,
            self.opening,
            self.closing,
            self.unit,
        ];
        words.extend(self.restart);
        for &(cost, reliability) in &self.terminals {
            words.extend([cost, reliability]);
        }
        for (left, right) in &self.rules {
            words.extend([*left, right.len() as u16]);
            words.extend(right);
        }
        words
    }

    /// Where the words of rule `number` begin.
    pub fn rule_at(&self, number: usize) -> usize {
        let before: usize = self.rules[..number].iter().map(|(_, r)| 2 + r.len()).sum();
        6 + self.restart.iter().len() + 2 * self.terminals.len() + before
    }
}
