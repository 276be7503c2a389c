//! The type judge for Aura page scripts, proved in Rattle and linked as a static library.
//!
//! [`judge`] takes a symbol table and a question (one expression), both as bytes, and a buffer for diagnostics. The
//! [`Answer`] says the expression's [`Type`], whether it passes, and the [`Diagnostics`] in order; or the [`Refusal`],
//! with whose doing it was. `docs/FORMAT.md` in the repository has the bytes of tables, questions and types, the
//! numbers of refusals and the kinds of diagnostics.
//!
//! ```
//! use aura_judge::{judge, Answer, DiagnosticKind, Type};
//!
//! // No table. The question: no current type, no package, not in suspend; then `!!` on an Int.
//! let question = [0xff, 0xff, 0xff, 0xff, 0, 2, 6, 0, 0];
//! let mut buffer = [0; 320];
//! match judge(&[], &question, &mut buffer) {
//!     Answer::Judged { passed, ty, diagnostics } => {
//!         assert!(!passed);
//!         assert_eq!(ty, Type::Error);
//!         let all: Vec<_> = diagnostics.collect();
//!         assert_eq!(all.len(), 1);
//!         assert_eq!((all[0].kind, all[0].node, all[0].number), (DiagnosticKind::NotNull, 0, 0));
//!         assert_eq!(all[0].to_string(), "node 0: not-null");
//!     }
//!     Answer::Refused(refusal) => panic!("{refusal}"),
//! }
//! ```
//!
//! A refused question:
//!
//! ```
//! use aura_judge::{judge, Doer, Refusal};
//!
//! let answer = judge(&[], &[], &mut []);
//! assert_eq!(answer.refusal(), Some(Refusal::MalformedQuestion));
//! assert_eq!(answer.refusal().unwrap().by(), Doer::ScriptAuthor);
//! assert!(!answer.passed());
//! ```
//!
//! A class goes where a class above it is expected: its superclass, one of its interfaces, or what is above one of these. So
//! it is with an argument, and in comparisons; and an array or a list of it goes where an array of the class above is expected,
//! where either may be nullable. The other way round it does not:
//!
//! ```
//! use aura_judge::{judge, DiagnosticKind, Type};
//!
//! let name = |name: &str| {
//!     let mut record = [&[1, name.len() as u8], name.as_bytes()].concat();
//!     record.resize(26, 0);
//!     record
//! };
//! let table = [
//!     name("Page"),                                                  // 40
//!     name("ScannedPage"),                                           // 41
//!     name("repair"),                                                // 42
//!     name("deskew"),                                                // 43
//!     name("Printable"),                                             // 44
//!     name("print"),                                                 // 45
//!     // A class: name, superclass, two interfaces, package (none is 255, 255), and whether it is in `types`.
//!     vec![2, 40, 0, 255, 255, 255, 255, 255, 255, 255, 255, 1],     // class Page
//!     vec![2, 41, 0, 40, 0, 44, 0, 255, 255, 255, 255, 1],           // class ScannedPage, superclass Page, interface Printable
//!     vec![4, 255, 255, 42, 0, 0, 0, 1, 11, 20, 0, 0, 17, 40, 0],    // repair(first: Page) -> Unit
//!     vec![4, 255, 255, 43, 0, 0, 0, 1, 11, 20, 0, 0, 17, 41, 0],    // deskew(first: ScannedPage) -> Unit
//!     vec![4, 255, 255, 45, 0, 0, 0, 1, 6, 20, 0, 0, 17, 44, 0],     // print(first: Printable) -> Boolean
//! ]
//! .concat();
//! // A call with one argument, a leaf.
//! let question = |function: u8, class: u8| [255, 255, 255, 255, 0, 5, function, 0, 1, 0, 17, class, 0];
//! let mut buffer = [0; 320];
//!
//! let answer = judge(&table, &question(42, 41), &mut buffer); // repair(scan)
//! assert!(answer.passed());
//! assert_eq!(answer.ty(), Some(&Type::Unit));
//! let answer = judge(&table, &question(45, 41), &mut buffer); // print(scan)
//! assert!(answer.passed());
//! assert_eq!(answer.ty(), Some(&Type::Boolean));
//!
//! for (function, class) in [(43, 40), (45, 40)] { // deskew(page), print(page)
//!     let answer = judge(&table, &question(function, class), &mut buffer);
//!     assert!(!answer.passed());
//!     let all: Vec<_> = answer.diagnostics().collect();
//!     assert_eq!((all.len(), all[0].kind, all[0].number), (1, DiagnosticKind::Mismatch, 1));
//! }
//! ```
//!
//! Each argument of a call is compared with a parameter of its own: a named argument with the parameter of its name, and the
//! arguments without a name, in turn, with the parameters that no argument names. So the second argument tells overloads
//! apart that differ in the second parameter. Where only one overload fits in number, each mismatch has the node and the
//! position of its argument:
//!
//! ```
//! use aura_judge::{judge, Type};
//!
//! let name = |name: &str| {
//!     let mut record = [&[1, name.len() as u8], name.as_bytes()].concat();
//!     record.resize(26, 0);
//!     record
//! };
//! let table = [
//!     name("f"),                                                               // 40
//!     name("g"),                                                               // 41
//!     name("p"),                                                               // 42
//!     name("q"),                                                               // 43
//!     vec![4, 255, 255, 40, 0, 0, 0, 2, 11, 42, 0, 0, 0, 43, 0, 0, 8],         // f(p: Int, q: String) -> Unit
//!     vec![4, 255, 255, 40, 0, 0, 0, 2, 6, 42, 0, 0, 0, 43, 0, 0, 0],          // f(p: Int, q: Int) -> Boolean
//!     vec![4, 255, 255, 41, 0, 0, 0, 2, 11, 42, 0, 0, 0, 43, 0, 0, 8],         // g(p: Int, q: String) -> Unit
//! ]
//! .concat();
//! // A call with two arguments.
//! let question = |function: u8, arguments: &[u8]| [&[255, 255, 255, 255, 0, 5, function, 0, 2], arguments].concat();
//! let mut buffer = [0; 320];
//!
//! let answer = judge(&table, &question(40, &[0, 0, 0, 8]), &mut buffer); // f(Int, String)
//! assert_eq!((answer.passed(), answer.ty()), (true, Some(&Type::Unit)));
//! let answer = judge(&table, &question(40, &[0, 0, 0, 0]), &mut buffer); // f(Int, Int)
//! assert_eq!((answer.passed(), answer.ty()), (true, Some(&Type::Boolean)));
//!
//! let mismatches = |arguments: &[u8]| -> Vec<String> {
//!     let mut buffer = [0; 320];
//!     judge(&table, &question(41, arguments), &mut buffer).diagnostics().map(|d| d.to_string()).collect()
//! };
//! assert_eq!(mismatches(&[0, 0, 0, 0]), ["node 2: mismatch (2)"]); // g(Int, Int)
//! assert!(mismatches(&[3, 43, 0, 0, 8, 0, 0]).is_empty()); // g(q = String, Int)
//! // g(q = Int, String): q does not take the Int, and p, which is left for the String, does not take that.
//! assert_eq!(mismatches(&[3, 43, 0, 0, 0, 0, 8]), ["node 1: mismatch (1)", "node 3: mismatch (2)"]);
//! ```
//!
//! An array of 2^32 cells and more is an array like any other. Its size, which has at most 64 bits, is a part of the type; yet
//! arrays and lists go where an array is expected by their elements, whatever the sizes are:
//!
//! ```
//! use aura_judge::{judge, Type};
//!
//! let array = |inner: Type, size: u64| Type::Array { inner: Box::new(inner), size: Some(size) };
//! let (sheet, tile) = (array(Type::Byte, 8_000_000_000), array(Type::Byte, 65_536));
//! let table = [vec![4, 255, 255, 29, 0, 0, 0, 1, 11, 20, 0, 0], sheet.to_bytes()].concat(); // add(first: a sheet) -> Unit
//! let question = |tree: &[u8], ty: &Type| [&[255, 255, 255, 255, 0], tree, &ty.to_bytes()].concat();
//! let mut buffer = [0; 320];
//!
//! let answer = judge(&table, &question(&[0], &sheet), &mut buffer); // the leaf
//! assert_eq!((answer.passed(), answer.ty()), (true, Some(&sheet)));
//! let answer = judge(&table, &question(&[4, 20, 0, 0], &sheet), &mut buffer); // its member first
//! assert_eq!((answer.passed(), answer.ty()), (true, Some(&Type::Byte)));
//!
//! let mut taken = |ty: &Type| judge(&table, &question(&[5, 29, 0, 1, 0], ty), &mut buffer).passed(); // add(..)
//! assert!(taken(&sheet) && taken(&tile) && taken(&Type::List(Box::new(Type::Byte))));
//! assert!(!taken(&array(Type::String, 8_000_000_000)));
//! ```
//!
//! [`load`] writes questions to test with, the same ones on every machine.
//!
//! The judge uses the caller's stack and no heap; what this crate allocates is the [`Type`]. [`raw::judge`] allocates
//! nothing.

mod diagnostic;
mod names;
pub mod raw;
mod refusal;
mod spellings;
mod ty;

pub use diagnostic::{Diagnostic, DiagnosticKind, Diagnostics};
pub use names::Names;
pub use refusal::{Doer, Refusal};
pub use spellings::BUILT_IN;
pub use ty::{NameId, Shown, Type, TypeError};

use raw::{Fields, ANSWER_SIZE, DIAGNOSTIC_SIZE};

/// What the judge says of a question.
#[derive(Debug, Clone)]
pub enum Answer<'d> {
    Judged {
        /// The pass mark: nothing was reported, warnings included, and no visited node has type Error.
        passed: bool,
        /// The root's type.
        ty: Type,
        /// What was reported, read from the lent buffer.
        diagnostics: Diagnostics<'d>,
    },
    Refused(Refusal),
}

impl<'d> Answer<'d> {
    /// 0, or the refusal's number.
    pub fn number(&self) -> u8 {
        self.refusal().map_or(0, Refusal::number)
    }

    /// The pass mark; false where refused.
    pub fn passed(&self) -> bool {
        matches!(self, Answer::Judged { passed: true, .. })
    }

    /// The root's type; none where refused.
    pub fn ty(&self) -> Option<&Type> {
        match self {
            Answer::Judged { ty, .. } => Some(ty),
            Answer::Refused(_) => None,
        }
    }

    pub fn refusal(&self) -> Option<Refusal> {
        match self {
            Answer::Judged { .. } => None,
            Answer::Refused(refusal) => Some(*refusal),
        }
    }

    /// The diagnostics in order; none where refused.
    pub fn diagnostics(&self) -> Diagnostics<'d> {
        match self {
            Answer::Judged { diagnostics, .. } => diagnostics.clone(),
            Answer::Refused(_) => Diagnostics::of(&[]),
        }
    }
}

/// Judges a question under a table.
///
/// The whole of `diagnostics` is written: 5 bytes for each diagnostic and zeros behind them, or zeros alone where the
/// answer is a refusal. With fewer than 5 bytes for each the answer is [`Refusal::BufferTooShort`].
///
/// ```
/// use aura_judge::{judge, Refusal, Type};
///
/// let question = [0xff, 0xff, 0xff, 0xff, 0, 2, 6, 0, 0];
/// assert_eq!(judge(&[], &question, &mut [0; 5]).ty(), Some(&Type::Error));
/// assert_eq!(judge(&[], &question, &mut [0; 4]).refusal(), Some(Refusal::BufferTooShort));
/// ```
///
/// # Panics
///
/// Where the linked library's answer is none that `docs/FORMAT.md` has, as one of another layout would be.
pub fn judge<'d>(table: &[u8], question: &[u8], diagnostics: &'d mut [u8]) -> Answer<'d> {
    let mut answer = [0; ANSWER_SIZE];
    raw::judge(table, question, diagnostics, &mut answer);
    let fields = Fields::of(&answer);
    if fields.number != 0 {
        let refusal = Refusal::from_number(fields.number);
        return Answer::Refused(refusal.expect("the library's numbers are those of a refusal"));
    }
    let ty = fields.ty.get(..fields.len as usize).map(Type::from_bytes);
    let reported = usize::try_from(fields.count).ok().and_then(|count| count.checked_mul(DIAGNOSTIC_SIZE));
    let diagnostics: &'d [u8] = diagnostics;
    Answer::Judged {
        passed: fields.pass == 1,
        ty: ty.expect("the library's type has at most 256 bytes").expect("the library's type is well-formed"),
        diagnostics: Diagnostics::of(
            reported.and_then(|len| diagnostics.get(..len)).expect("the library's diagnostics are in the buffer"),
        ),
    }
}

/// Writes a question to test with: the one that a start number and a node count from 1 to 64 give, on every machine the
/// same. It uses no name, so that it is accepted under every accepted table, and it has exactly that many nodes.
///
/// The question stands at the front of `out` and has 5 + 2 × `nodes` bytes, at most [`raw::LOAD_LONGEST`]. The whole of
/// `out` is written: zeros behind the question, or zeros alone where it is refused.
///
/// ```
/// use aura_judge::{judge, load, raw, Refusal};
///
/// let mut out = [0; raw::LOAD_LONGEST];
/// let question = load(7, 20, &mut out)?;
/// assert_eq!(question.len(), 5 + 2 * 20);
/// assert_eq!(judge(&[], question, &mut [0; 320]).number(), 0);
///
/// assert_eq!(load(7, 65, &mut out), Err(Refusal::NodeCount));
/// assert_eq!(load(7, 20, &mut out[..44]), Err(Refusal::OutputBufferTooShort));
/// # Ok::<(), Refusal>(())
/// ```
///
/// # Panics
///
/// Where the linked library's number or length is none that `docs/FORMAT.md` has.
pub fn load(start: u32, nodes: usize, out: &mut [u8]) -> Result<&[u8], Refusal> {
    let mut len = 0;
    match raw::load(start, nodes, out, &mut len) {
        0 => Ok(out.get(..len).expect("the library's output is in the buffer")),
        number => Err(Refusal::from_number(number).expect("the library's numbers are those of a refusal")),
    }
}
