//! Asks both sides about symbols, and counts the cases of each function.

use super::row::Row;
use crate::face::symbol_face::Lent;
use crate::judge::symbols::{update_alone, Asked, Judge, Told};
use crate::judge::table::Symbol;

const NAMES: [&str; 7] = [
    "update_symbol",
    "put_nothing",
    "put_type",
    "put_poison",
    "forward_declare_type",
    "forward_declare_poison",
    "get_symbol",
];

/// A row for each function, of tables in order or of spoiled ones.
pub struct Rows(pub Vec<Row>);

impl Rows {
    pub fn new(title: &str) -> Self {
        let row = |name: &&str| Row::new(&format!("{name}{title}"));
        Rows(NAMES.iter().map(row).collect())
    }

    fn count(&mut self, row: usize, told: &Told, differs: Option<String>) {
        self.0[row].count(told.refusal, told.value != 0);
        if let Some(first) = differs {
            self.0[row].differs(|| first);
        }
    }

    /// Asks both about a table. Whether they agree in the answer, every record, every word of the
    /// store and everything around.
    pub fn ask(&mut self, judge: &mut Judge, lent: &mut Lent, asked: &Asked) -> bool {
        let row = asked.operation.number();
        let expected = judge.tell(asked);
        let found = lent.ask(asked);
        let differs = differs(&expected, &found, &judge.table, &judge.store, lent);
        let same = differs.is_none();
        let tell = |rest| format!("  asked     {asked:?}\n{rest}");
        self.count(row, &expected, differs.map(tell));
        same
    }

    /// Asks both about a lone symbol.
    pub fn update(
        &mut self,
        symbol: &Symbol,
        room: &[u64],
        name: (u32, bool, u64),
        offered: &[u64],
    ) {
        let mut lent = Lent::new(&[*symbol], room);
        let (mut after, mut words) = (*symbol, room.to_vec());
        let expected = update_alone(&mut after, &mut words, name, offered);
        let found = lent.update(name, offered);
        let tell = |rest| {
            format!("  asked     {symbol:?} {room:?}\n  by        {name:?} {offered:?}\n{rest}")
        };
        let differs = differs(&expected, &found, &[after], &words, &lent).map(tell);
        self.count(0, &expected, differs);
    }
}

fn differs(
    expected: &Told,
    found: &Result<Told, String>,
    table: &[Symbol],
    store: &[u64],
    lent: &Lent,
) -> Option<String> {
    if found.as_ref() == Ok(expected)
        && lent.table() == table
        && lent.store() == store
        && lent.guards_are_kept()
    {
        return None;
    }
    let mut text = format!("  the Rust  {expected:?}\n  ours      {found:?}");
    if let Some(slot) = (0..table.len()).find(|slot| table[*slot] != lent.table()[*slot]) {
        let (right, ours) = (table[slot], lent.table()[slot]);
        text += &format!("\n  slot {slot}    {right:?}\n  ours      {ours:?}");
    }
    if let Some(word) = (0..store.len()).find(|word| store[*word] != lent.store()[*word]) {
        let (right, ours) = (store[word], lent.store()[word]);
        text += &format!("\n  word {word}   {right}\n  ours      {ours}");
    }
    if !lent.guards_are_kept() {
        text += "\n  a guard is changed";
    }
    Some(text)
}
