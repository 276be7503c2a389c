//! "Clean rules", and the typing that they give. "A leaf has its own type, a named argument its value's. A
//! unary, binary or member node has the type its method .. gives for its children's types, where that
//! reports nothing." Demand 3: a typing "gives each visited node a type other than Error".

use super::access::is_allowed;
use super::binary::check_binary;
use super::calls::{fits, knows, score, usable, Argument};
use super::judgement::Ruled;
use super::member::check_member;
use super::question::{Question, Shape, Tree};
use super::symbols::{Function, Symbols};
use super::types::{named_id, non_null, ANY, ERROR};
use super::unary::check_unary;
use std::collections::BTreeMap;

/// Node number to type. "nodes not visited get no type."
pub type Typing = BTreeMap<usize, Vec<u8>>;

/// The typing of a question, where there is one.
pub fn typing(symbols: &Symbols, question: &Question) -> Option<Typing> {
    let mut types = Typing::new();
    Rules { symbols, question }.node(&question.tree, &mut types)?;
    Some(types)
}

struct Rules<'a> {
    symbols: &'a Symbols<'a>,
    question: &'a Question<'a>,
}

/// "where that reports nothing".
fn quiet(ruled: Ruled) -> Option<Vec<u8>> {
    ruled.reports.is_empty().then_some(ruled.ty)
}

impl Rules<'_> {
    /// "visited are the root and every child of a visited node, except the arguments of a method call whose
    /// base, by the type the typing gives the object, isn't Named or has no list".
    fn node(&self, tree: &Tree, types: &mut Typing) -> Option<Vec<u8>> {
        let ty = match &tree.shape {
            Shape::Leaf(ty) => ty.to_vec(),
            Shape::Named(_, value) => self.node(value, types)?,
            Shape::Binary(op, left, right) => {
                let (left, right) = (self.node(left, types)?, self.node(right, types)?);
                quiet(check_binary(self.symbols, *op, &left, &right))?
            }
            Shape::Unary(op, operand) => quiet(check_unary(*op, &self.node(operand, types)?))?,
            Shape::Member(name, object) => {
                quiet(check_member(self.symbols, self.question, &self.node(object, types)?, *name))?
            }
            Shape::Call(name, arguments) => self.call(None, *name, arguments, types)?,
            Shape::Method(name, object, arguments) => {
                let object = self.node(object, types)?;
                self.method(*name, &object, arguments, types)?
            }
        };
        if ty == [ERROR] {
            return None;
        }
        types.insert(tree.number, ty.clone());
        Some(ty)
    }

    /// "A method call adds access to the list's first function; where the base isn't Named or there is no list, it
    /// is Any as above."
    fn method(&self, name: u16, object: &[u8], arguments: &[Tree], types: &mut Typing) -> Option<Vec<u8>> {
        let owner = named_id(non_null(object));
        let first = owner.and_then(|owner| self.symbols.functions(Some(owner), name).first());
        let (Some(owner), Some(first)) = (owner, first) else { return Some(vec![ANY]) };
        if !is_allowed(self.symbols, self.question, first.visibility, owner) {
            return None;
        }
        self.call(Some(owner), name, arguments, types)
    }

    /// "A call: suspend allowed; every named argument known to every usable overload .. that fits in number; and,
    /// among these, .." one is chosen. "Its type is that overload's result."
    fn call(&self, owner: Option<u16>, name: u16, arguments: &[Tree], types: &mut Typing) -> Option<Vec<u8>> {
        if self.symbols.is_suspend(owner, name) && !self.question.in_suspend {
            return None;
        }
        let given: Option<Vec<Vec<u8>>> = arguments.iter().map(|a| self.node(a, types)).collect();
        let given = given?;
        let arguments = Argument::row(arguments, &given);
        let usable = usable(self.symbols.functions(owner, name));
        let fitting: Vec<&Function> = usable.into_iter().filter(|f| fits(f, arguments.len())).collect();
        let unknown = |f: &&Function| arguments.iter().any(|a| a.name.is_some_and(|name| !knows(f, name)));
        if fitting.iter().any(unknown) {
            return None;
        }
        Some(self.chosen(&fitting, &arguments)?.result.to_vec())
    }

    /// "one overload matches and every other match scores lower". Document 02, order 4: "The second way in the clean call
    /// rule goes".
    fn chosen<'f>(&self, fitting: &[&'f Function<'f>], arguments: &[Argument]) -> Option<&'f Function<'f>> {
        let scores: Vec<Option<usize>> = fitting.iter().map(|f| score(self.symbols, f, arguments)).collect();
        let best = |i: &usize| {
            let mut others = (0..scores.len()).filter(|j| j != i).map(|j| scores[j]);
            scores[*i].is_some() && others.all(|other| other < scores[*i])
        };
        Some(fitting[(0..scores.len()).find(best)?])
    }
}
