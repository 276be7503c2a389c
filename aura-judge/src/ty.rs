//! Types as Rust values.

use crate::names::Names;
use std::fmt;

/// The number of a name: 0 to 39 are built in, a table's own go on from 40.
pub type NameId = u16;

/// A type of a page script; its kinds are numbered from 0 (Int) to 21 (Error) in this order, as in `docs/FORMAT.md`,
/// "Types". An Array is of kind 14 without a size or with one below 2^32, which has 4 bytes there, and of kind 22 with one
/// from 2^32 on, which has 8.
///
/// ```
/// use aura_judge::Type;
///
/// let ty = Type::from_bytes(&[16, 8, 15, 17, 40, 0]).unwrap();
/// assert_eq!(ty, Type::Map(Box::new(Type::String), Box::new(Type::List(Box::new(Type::Named(40))))));
/// assert_eq!(ty.to_string(), "Map(String, List(Named(40)))");
/// assert_eq!(ty.to_bytes(), [16, 8, 15, 17, 40, 0]);
///
/// let sized = |size| Type::Array { inner: Box::new(Type::Int), size };
/// assert_eq!(sized(None).to_bytes(), [14, 0, 0, 0, 0, 0, 0]);
/// assert_eq!(sized(Some(0xffff_ffff)).to_bytes(), [14, 1, 0xff, 0xff, 0xff, 0xff, 0]);
/// assert_eq!(sized(Some(0x1_0000_0000)).to_bytes(), [22, 1, 0, 0, 0, 0, 1, 0, 0, 0, 0]);
/// assert_eq!(sized(Some(u64::MAX)).to_string(), "Array(Int, 18446744073709551615)");
/// ```
#[derive(Debug, Clone, PartialEq, Eq, Hash)]
pub enum Type {
    Int,
    Long,
    Short,
    Byte,
    Float,
    Double,
    Boolean,
    Char,
    String,
    Any,
    Nothing,
    Unit,
    Nullable(Box<Type>),
    Pointer(Box<Type>),
    Array { inner: Box<Type>, size: Option<u64> },
    List(Box<Type>),
    Map(Box<Type>, Box<Type>),
    Named(NameId),
    Function { params: Vec<Type>, result: Box<Type> },
    TypeVar(u32),
    Module(NameId),
    Error,
}

/// Why bytes are no type.
#[derive(Debug, Clone, Copy, PartialEq, Eq)]
pub enum TypeError {
    /// A kind above 22; an Array of kind 14 whose flag is neither 0 with size 0 nor 1; one of kind 22 whose flag is not 1 or
    /// whose size is below 2^32; a Function of more than 16 parameters.
    Malformed,
    /// The bytes end before the type does.
    Cut,
    /// Bytes stand behind the type.
    BytesBehind,
    /// More than the 256 bytes that an answer's type may have.
    TooLong,
}

impl fmt::Display for TypeError {
    fn fmt(&self, f: &mut fmt::Formatter<'_>) -> fmt::Result {
        f.write_str(match self {
            TypeError::Malformed => "malformed type",
            TypeError::Cut => "cut type",
            TypeError::BytesBehind => "bytes behind the type",
            TypeError::TooLong => "type over 256 bytes",
        })
    }
}

impl std::error::Error for TypeError {}

/// The kinds by number. The last is an Array with a size of 8 bytes, which is shown as one of 4.
const KINDS: [&str; 23] = [
    "Int", "Long", "Short", "Byte", "Float", "Double", "Boolean", "Char", "String", "Any", "Nothing", "Unit",
    "Nullable", "Pointer", "Array", "List", "Map", "Named", "Function", "TypeVar", "Module", "Error", "Array",
];

/// The kinds of an Array: with a size of 4 bytes or none, and with one of 8.
const ARRAY: u8 = 14;
const LARGE_ARRAY: u8 = 22;

/// The smallest size that has 8 bytes: "an 8-byte size of at least 2^32; smaller sizes keep kind 14".
const LARGE_SIZE: u64 = 1 << 32;

/// The types without body and child, by kind; `Unit` is followed by kinds that have some.
const PLAIN: [Type; 12] = [
    Type::Int,
    Type::Long,
    Type::Short,
    Type::Byte,
    Type::Float,
    Type::Double,
    Type::Boolean,
    Type::Char,
    Type::String,
    Type::Any,
    Type::Nothing,
    Type::Unit,
];

/// Takes a type from the front of bytes.
struct Reader<'a> {
    rest: &'a [u8],
}

impl Reader<'_> {
    fn take<const N: usize>(&mut self) -> Result<[u8; N], TypeError> {
        let taken = self.rest.get(..N).ok_or(TypeError::Cut)?;
        self.rest = &self.rest[N..];
        Ok(taken.try_into().expect("N bytes were taken"))
    }

    fn child(&mut self) -> Result<Box<Type>, TypeError> {
        self.ty().map(Box::new)
    }

    /// The body of an Array: a flag, and the size in 4 or in 8 bytes.
    fn size(&mut self, kind: u8) -> Result<Option<u64>, TypeError> {
        let [flag] = self.take()?;
        let large = kind == LARGE_ARRAY;
        let size = if large { u64::from_le_bytes(self.take()?) } else { u32::from_le_bytes(self.take()?).into() };
        match flag {
            0 if !large && size == 0 => Ok(None),
            1 if !large || size >= LARGE_SIZE => Ok(Some(size)),
            _ => Err(TypeError::Malformed),
        }
    }

    fn ty(&mut self) -> Result<Type, TypeError> {
        let [kind] = self.take()?;
        Ok(match kind {
            0..=11 => PLAIN[kind as usize].clone(),
            12 => Type::Nullable(self.child()?),
            13 => Type::Pointer(self.child()?),
            ARRAY | LARGE_ARRAY => Type::Array { size: self.size(kind)?, inner: self.child()? },
            15 => Type::List(self.child()?),
            16 => Type::Map(self.child()?, self.child()?),
            17 => Type::Named(u16::from_le_bytes(self.take()?)),
            18 => {
                let [count] = self.take()?;
                if count > 16 {
                    return Err(TypeError::Malformed);
                }
                let params = (0..count).map(|_| self.ty()).collect::<Result<_, _>>()?;
                Type::Function { params, result: self.child()? }
            }
            19 => Type::TypeVar(u32::from_le_bytes(self.take()?)),
            20 => Type::Module(u16::from_le_bytes(self.take()?)),
            21 => Type::Error,
            _ => return Err(TypeError::Malformed),
        })
    }
}

impl Type {
    /// The type that these bytes are, all of them and at most 256.
    pub fn from_bytes(bytes: &[u8]) -> Result<Type, TypeError> {
        if bytes.len() > 256 {
            return Err(TypeError::TooLong);
        }
        let mut reader = Reader { rest: bytes };
        let ty = reader.ty()?;
        if reader.rest.is_empty() {
            Ok(ty)
        } else {
            Err(TypeError::BytesBehind)
        }
    }

    /// The bytes of the type, as `docs/FORMAT.md` has them. Equal types have equal bytes.
    ///
    /// # Panics
    ///
    /// Where a Function has more than 255 parameters, whose count has no byte.
    pub fn to_bytes(&self) -> Vec<u8> {
        let mut out = Vec::new();
        self.write(&mut out);
        out
    }

    fn write(&self, out: &mut Vec<u8>) {
        out.push(self.kind());
        match self {
            Type::Nullable(inner) | Type::Pointer(inner) | Type::List(inner) => inner.write(out),
            Type::Array { inner, size } => {
                out.push(size.is_some() as u8);
                let width = if self.kind() == LARGE_ARRAY { 8 } else { 4 };
                out.extend_from_slice(&size.unwrap_or(0).to_le_bytes()[..width]);
                inner.write(out);
            }
            Type::Map(key, value) => {
                key.write(out);
                value.write(out);
            }
            Type::Named(id) | Type::Module(id) => out.extend_from_slice(&id.to_le_bytes()),
            Type::Function { params, result } => {
                out.push(u8::try_from(params.len()).expect("a Function has at most 255 parameters"));
                params.iter().for_each(|param| param.write(out));
                result.write(out);
            }
            Type::TypeVar(number) => out.extend_from_slice(&number.to_le_bytes()),
            _ => {}
        }
    }

    /// The number of its kind: 0 (Int) to 21 (Error), and 22 for an Array whose size is 2^32 or more.
    pub fn kind(&self) -> u8 {
        match self {
            Type::Int => 0,
            Type::Long => 1,
            Type::Short => 2,
            Type::Byte => 3,
            Type::Float => 4,
            Type::Double => 5,
            Type::Boolean => 6,
            Type::Char => 7,
            Type::String => 8,
            Type::Any => 9,
            Type::Nothing => 10,
            Type::Unit => 11,
            Type::Nullable(_) => 12,
            Type::Pointer(_) => 13,
            Type::Array { size: Some(LARGE_SIZE..), .. } => LARGE_ARRAY,
            Type::Array { .. } => ARRAY,
            Type::List(_) => 15,
            Type::Map(..) => 16,
            Type::Named(_) => 17,
            Type::Function { .. } => 18,
            Type::TypeVar(_) => 19,
            Type::Module(_) => 20,
            Type::Error => 21,
        }
    }

    /// The name of its kind; both kinds of Array have the same.
    pub fn kind_name(&self) -> &'static str {
        KINDS[self.kind() as usize]
    }

    /// The type as `samples/words.txt` has it: with names for ids.
    ///
    /// ```
    /// use aura_judge::{Names, Type};
    ///
    /// let ty = Type::List(Box::new(Type::Named(0)));
    /// assert_eq!(ty.with(&Names::of(&[])).to_string(), "List(Pair)");
    /// ```
    pub fn with<'a>(&'a self, names: &'a Names) -> Shown<'a> {
        Shown { ty: self, names: Some(names) }
    }
}

impl TryFrom<&[u8]> for Type {
    type Error = TypeError;

    fn try_from(bytes: &[u8]) -> Result<Type, TypeError> {
        Type::from_bytes(bytes)
    }
}

/// A type to be shown with names: what [`Type::with`] gives.
#[derive(Debug, Clone, Copy)]
pub struct Shown<'a> {
    ty: &'a Type,
    names: Option<&'a Names>,
}

impl Shown<'_> {
    fn part<'a>(&'a self, ty: &'a Type) -> Shown<'a> {
        Shown { ty, names: self.names }
    }
}

impl fmt::Display for Shown<'_> {
    fn fmt(&self, f: &mut fmt::Formatter<'_>) -> fmt::Result {
        let kind = self.ty.kind_name();
        match self.ty {
            Type::Nullable(inner) | Type::Pointer(inner) | Type::List(inner) => {
                write!(f, "{}({})", kind, self.part(inner))
            }
            Type::Array { inner, size: None } => write!(f, "{}({})", kind, self.part(inner)),
            Type::Array { inner, size: Some(size) } => write!(f, "{}({}, {})", kind, self.part(inner), size),
            Type::Map(key, value) => write!(f, "{}({}, {})", kind, self.part(key), self.part(value)),
            Type::Named(id) | Type::Module(id) => match self.names.and_then(|names| names.get(*id)) {
                Some(name) if kind == "Named" && !KINDS.contains(&name) => f.write_str(name),
                Some(name) => write!(f, "{}({})", kind, name),
                None => write!(f, "{}({})", kind, id),
            },
            Type::Function { params, result } => {
                write!(f, "{}(", kind)?;
                for (i, param) in params.iter().enumerate() {
                    write!(f, "{}{}", if i == 0 { "" } else { ", " }, self.part(param))?;
                }
                write!(f, "{}-> {})", if params.is_empty() { "" } else { " " }, self.part(result))
            }
            Type::TypeVar(number) => write!(f, "{}({})", kind, number),
            _ => f.write_str(kind),
        }
    }
}

/// Kinds and ids: `Map(String, Named(40))`.
impl fmt::Display for Type {
    fn fmt(&self, f: &mut fmt::Formatter<'_>) -> fmt::Result {
        Shown { ty: self, names: None }.fmt(f)
    }
}
