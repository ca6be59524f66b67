//! Slips in the rules before conversion, one at a time, held against a list of stored cases: which of them does no case notice?

pub mod leaves;
pub mod reading;
mod records;
mod rows;
mod types;

use crate::generate::Case;
use crate::tree::*;
use reading::*;

/// One value of the rules changed.
pub struct Slip {
    pub name: String,
    edit: Box<dyn Fn(&mut Rules)>,
}

/// A case of a list for the whole call, taken apart.
pub struct Stored<'l> {
    /// All of it, as it stands in the list.
    pub bytes: &'l [u8],
    pub tree: Tree<'l>,
    pub tree_len: usize,
    pub needs_main: bool,
    pub lens: [usize; 7],
    pub fill: u32,
    pub rest: u32,
    pub answer: [u32; 8],
    pub tables: [usize; 6],
}

const HEAD_WORDS: usize = 26;

/// The cases of a list, as `generate::call_list` writes it.
pub fn stored(mut list: &[u8]) -> Vec<Stored<'_>> {
    let mut cases = Vec::new();
    while !list.is_empty() {
        let word = |at: usize| u32::from_le_bytes(list[4 * at..4 * at + 4].try_into().unwrap());
        let size = |at: usize| word(at) as usize;
        let tables: [usize; 6] = std::array::from_fn(|k| size(20 + k));
        let (tree_len, text_len) = (size(0), size(1));
        let body = &list[4 * HEAD_WORDS..];
        let tree = Tree::new(&body[..tree_len], &body[tree_len..tree_len + text_len]);
        let (lens, answer) = (std::array::from_fn(|k| size(3 + k)), std::array::from_fn(|k| word(12 + k)));
        let needs_main = word(2) == 1;
        let (bytes, rest) =
            list.split_at(4 * HEAD_WORDS + tree_len + text_len + tables.iter().sum::<usize>());
        cases.push(Stored {
            bytes,
            tree,
            tree_len,
            needs_main,
            lens,
            fill: word(10),
            rest: word(11),
            answer,
            tables,
        });
        list = rest;
    }
    cases
}

impl Stored<'_> {
    /// The case as the generator would hand it out.
    pub fn case(&self) -> Case {
        let tree = self.bytes[4 * HEAD_WORDS..][..self.tree_len].to_vec();
        let (text, needs_main, lens) = (self.tree.text.to_vec(), self.needs_main, self.lens);
        Case { tree, text, needs_main, lens, label: "stored".to_string() }
    }

    /// Number and place of a refusal before conversion, else (0, 0).
    fn judged(&self) -> (u32, u32) {
        if (24..=26).contains(&self.answer[0]) { (self.answer[0], self.answer[1]) } else { (0, 0) }
    }

    fn read_as(&self, rules: &Rules) -> bool {
        rules.answer(&self.tree, self.tree_len, self.lens) == self.judged()
    }
}

/// How many cases the rules themselves, without a slip, read otherwise.
pub fn misread(cases: &[Stored]) -> usize {
    cases.iter().filter(|case| !case.read_as(&Rules::new())).count()
}

/// The names of the slips that no case notices.
pub fn unnoticed(cases: &[Stored]) -> Vec<String> {
    let missed = slips().into_iter().filter(|slip| {
        let mut rules = Rules::new();
        (slip.edit)(&mut rules);
        cases.iter().all(|case| case.read_as(&rules))
    });
    missed.map(|slip| slip.name).collect()
}

/// Ways to get one thing wrong, by name.
type Ways<F, const N: usize> = [(&'static str, F); N];

struct Slips(Vec<Slip>);

impl Slips {
    fn add(&mut self, name: String, edit: impl Fn(&mut Rules) + 'static) {
        self.0.push(Slip { name, edit: Box::new(edit) });
    }

    /// A slip in one form, of a kind or of a type's detail.
    fn form(&mut self, at: usize, name: &str, edit: impl Fn(&mut Form) + 'static) {
        let name = format!("{}: {name}", form_name(at));
        self.add(name, move |rules| rules.forms[at].as_mut().into_iter().for_each(&edit));
    }

    fn reference(&mut self, at: usize, word: usize, name: &str, edit: impl Fn(&mut Reference) + 'static) {
        self.form(at, &format!("word {} {name}", letter(word)), move |form| {
            if let Word::Refers(reference) = &mut form.words[word] {
                edit(reference);
            }
        });
    }

    fn items(&mut self, at: usize, word: usize, name: &str, edit: impl Fn(&mut Items) + 'static) {
        self.reference(at, word, name, move |reference| reference.items.as_mut().into_iter().for_each(&edit));
    }
}

fn letter(word: usize) -> char {
    (b'A' + word as u8) as char
}

fn form_name(at: usize) -> String {
    if at < TYPES { format!("kind {at}") } else { format!("type {}", at - TYPES) }
}

/// Every slip.
pub fn slips() -> Vec<Slip> {
    let (rules, mut slips) = (Rules::new(), Slips(Vec::new()));
    let known = (0..rules.forms.len()).filter_map(|at| rules.forms[at].as_ref().map(|form| (at, form)));
    for (at, form) in known {
        records::details(&mut slips, at, form);
        for byte in 0..2 {
            let name = format!("byte {} not looked at", byte + 2);
            slips.form(at, &name, move |form| form.pads[byte] = false);
        }
        for (word, role) in form.words.iter().enumerate() {
            match role {
                Word::Unused(_) => records::unused(&mut slips, &rules, at, word),
                Word::Free => {}
                Word::Text(_) => records::texts(&mut slips, at, word),
                Word::Refers(reference) => records::references(&mut slips, at, word, reference),
            }
        }
        records::counts(&mut slips, at, form);
    }
    types::unknown_types(&mut slips);
    records::counting(&mut slips);
    records::marks(&mut slips);
    types::first_types(&mut slips);
    types::equal_types(&mut slips);
    rows::rows(&mut slips);
    slips.0
}
