//! Piles of layers as text: the layer first, then what it stands on, parted by blanks.
//!
//! ```text
//! counter CAPACITY INPUT OUTPUT
//! hide SET PILE
//! compose SET PILE PILE
//! card WORD ... WORD
//! ```
//!
//! A set of actions and a word are eight digits to the base sixteen; a card's words go up to its end word.

use crate::layers::{compose, counter, hide};
use crate::system::{Refusal, System};
use crate::words::{read_card, Card};

#[derive(Clone, Debug, PartialEq, Eq)]
pub enum Pile {
    Card(Card),
    Counter { capacity: usize, input: usize, output: usize },
    Hide { actions: u32, below: Box<Pile> },
    Compose { shared: u32, left: Box<Pile>, right: Box<Pile> },
}

impl Pile {
    pub fn counter(capacity: usize, input: usize, output: usize) -> Pile {
        Pile::Counter { capacity, input, output }
    }

    pub fn hidden(self, actions: u32) -> Pile {
        Pile::Hide { actions, below: Box::new(self) }
    }

    pub fn beside(self, right: Pile, shared: u32) -> Pile {
        Pile::Compose { shared, left: Box::new(self), right: Box::new(right) }
    }

    /// The system that the pile describes; 3 if a counter in it is refused.
    pub fn system(&self) -> Result<System, Refusal> {
        Ok(match self {
            Pile::Card(card) => card.system(),
            Pile::Counter { capacity, input, output } => counter(*capacity, *input, *output)?,
            Pile::Hide { actions, below } => hide(&below.system()?, *actions),
            Pile::Compose { shared, left, right } => compose(&left.system()?, &right.system()?, *shared),
        })
    }

    pub fn text(&self) -> String {
        match self {
            Pile::Card(card) => {
                let words: Vec<String> = card.words().iter().map(|word| format!("{word:08X}")).collect();
                format!("card {}", words.join(" "))
            }
            Pile::Counter { capacity, input, output } => format!("counter {capacity} {input} {output}"),
            Pile::Hide { actions, below } => format!("hide {actions:08X} {}", below.text()),
            Pile::Compose { shared, left, right } => {
                format!("compose {shared:08X} {} {}", left.text(), right.text())
            }
        }
    }

    /// Reads a pile from a text that holds nothing else.
    pub fn read(text: &str) -> Result<Pile, String> {
        let mut tokens = text.split_whitespace();
        let pile = read_from(&mut tokens)?;
        match tokens.next() {
            None => Ok(pile),
            Some(token) => Err(format!("{token} after the end of a pile")),
        }
    }
}

fn read_from<'a>(tokens: &mut impl Iterator<Item = &'a str>) -> Result<Pile, String> {
    let mut token = || tokens.next().ok_or_else(|| "the pile ends too early".to_string());
    let decimal = |text: &str| text.parse().map_err(|_| format!("{text} is no number"));
    let sixteen = |text: &str| u32::from_str_radix(text, 16).map_err(|_| format!("{text} is no word"));
    match token()? {
        "counter" => {
            Ok(Pile::Counter { capacity: decimal(token()?)?, input: decimal(token()?)?, output: decimal(token()?)? })
        }
        "hide" => {
            let actions = sixteen(token()?)?;
            Ok(read_from(tokens)?.hidden(actions))
        }
        "compose" => {
            let shared = sixteen(token()?)?;
            let left = read_from(tokens)?;
            Ok(left.beside(read_from(tokens)?, shared))
        }
        "card" => {
            let mut words = Vec::new();
            while words.last() != Some(&(5 << 28)) {
                words.push(sixteen(token()?)?);
            }
            let card = read_card(&words).map_err(|fault| format!("FAULT {} at {}", fault.number, fault.place))?;
            Ok(Pile::Card(card))
        }
        other => Err(format!("{other} is no layer")),
    }
}

#[cfg(test)]
mod tests {
    use super::*;

    #[test]
    fn the_two_counters() {
        let pile = Pile::counter(1, 0, 1).beside(Pile::counter(1, 1, 2), 2).hidden(2);
        let text = "hide 00000002 compose 00000002 counter 1 0 1 counter 1 1 2";
        assert_eq!(pile.text(), text);
        assert_eq!(Pile::read(text), Ok(pile.clone()));
        assert_eq!(pile.system().unwrap().count, 4);
        assert!(Pile::read("hide 00000002").is_err());
        assert!(Pile::read("counter 1 1 1 1").is_err());
        assert_eq!(Pile::read("counter 64 0 1").unwrap().system(), Err(Refusal(3)));
    }

    #[test]
    fn cards_in_piles() {
        let text = "hide 00000001 card 10030003 20000001 20000842 20000882 50000000";
        let pile = Pile::read(text).unwrap();
        assert_eq!(pile.text(), text);
        let expected = [(1, Some(1), 2), (1, Some(2), 2), (0, None, 1)];
        assert_eq!(pile.system().unwrap().transitions(), expected);
        assert!(Pile::read("card 10030002 20000001 20000842 20000882 50000000").is_err());
    }
}
