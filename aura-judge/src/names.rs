//! Names by id, for showing types.

use crate::spellings::BUILT_IN;
use crate::ty::NameId;

const NAME_RECORD: usize = 26;

/// The names of a table and the built-in ones.
///
/// ```
/// use aura_judge::Names;
///
/// let mut table = vec![1, 4];
/// table.extend_from_slice(b"Page");
/// table.resize(26, 0);
/// let names = Names::of(&table);
/// assert_eq!(names.get(0), Some("Pair"));
/// assert_eq!(names.get(40), Some("Page"));
/// assert_eq!(names.get(41), None);
/// assert_eq!(names.id("Page"), Some(40));
/// ```
#[derive(Debug, Clone, PartialEq, Eq)]
pub struct Names {
    own: Vec<String>,
}

impl Names {
    /// The names of a table that the judge accepts. Of another the name records at its front are taken as far as they
    /// are well-formed.
    pub fn of(table: &[u8]) -> Names {
        let records = table.chunks_exact(NAME_RECORD).take_while(|record| record[0] == 1);
        let own = records.map_while(|record| {
            let name = record[2..].get(..record[1] as usize)?;
            String::from_utf8(name.to_vec()).ok()
        });
        Names { own: own.collect() }
    }

    /// The name with this id.
    pub fn get(&self, id: NameId) -> Option<&str> {
        let id = id as usize;
        match BUILT_IN.get(id) {
            Some(name) => Some(name),
            None => self.own.get(id - BUILT_IN.len()).map(String::as_str),
        }
    }

    /// The id of a name.
    pub fn id(&self, name: &str) -> Option<NameId> {
        let own = || self.own.iter().position(|n| n == name).map(|i| i + BUILT_IN.len());
        BUILT_IN.iter().position(|n| *n == name).or_else(own).map(|i| i as NameId)
    }
}
