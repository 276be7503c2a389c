//! Calls of several arguments over lists of overloads (document 02, order 4): unnamed ones, named ones, names that no
//! parameter has, names given twice; defaults, varargs last and not, arguments left over. In every other case at most one
//! argument is unnamed, varargs are last, and an overload matches or no argument is named, so that the Rust is a yardstick.

use crate::bytes::*;
use crate::name::NONE;
use crate::rng::Rng;

type Pair = (Bytes, Bytes);

/// Built-in names that name parameters here; then one that no parameter has.
const PARAMS: [u16; 16] = [20, 21, 22, 23, 24, 25, 27, 28, 34, 35, 37, 38, 39, 17, 18, 19];
const STRANGER: u16 = 36;

/// The results of a list's overloads in turn.
const RESULTS: [u8; 6] = [CHAR, BOOLEAN, DOUBLE, FLOAT, SHORT, BYTE];

/// What the table under construction has, beside the list that is called.
struct Page {
    table: Table,
    f: u16,
    /// A function without parameters that gives a String.
    g: u16,
    owner: u16,
    pool: Vec<Bytes>,
    /// Whether the Rust is to be a yardstick.
    inside: bool,
}

/// A list of overloads, with what they are flagged.
struct List {
    overloads: Vec<(bool, Vec<Param>)>,
}

fn shuffle<T>(rng: &mut Rng, items: &mut [T]) {
    for i in (1..items.len()).rev() {
        items.swap(i, rng.below(i + 1));
    }
}

fn is_open(params: &[Param]) -> bool {
    params.last().is_some_and(|p| p.1 & VARARG != 0)
}

impl Page {
    fn new(rng: &mut Rng, inside: bool) -> Page {
        let mut table = Table::new();
        let (f, g, owner, letter) = (table.name("f"), table.name("g"), table.name("Page"), table.name("T"));
        table.class(owner, NONE, NONE, true);
        table.plain(g, &[STRING], &[]);
        let mut pool = vec![vec![INT], vec![STRING], vec![LONG]];
        let more = [vec![ANY], named(letter), named(owner), nullable(&[INT]), list(&[INT]), vec![CHAR], vec![BOOLEAN]];
        pool.extend((0..1 + rng.below(3)).map(|_| rng.pick::<Bytes>(&more).clone()));
        Page { table, f, g, owner, pool, inside }
    }

    fn parameters(&self, rng: &mut Rng) -> Vec<Param> {
        let count = match rng.below(20) {
            0 => 0,
            1..=12 => 1 + rng.below(4),
            13..=16 => 3 + rng.below(6),
            17 | 18 => 8 + rng.below(8),
            _ => 16,
        };
        let mut names = PARAMS;
        if rng.chance(30) {
            shuffle(rng, &mut names);
        }
        let mut params: Vec<Param> =
            names[..count].iter().map(|name| (*name, 0, rng.pick(&self.pool).clone())).collect();
        self.flags(rng, &mut params);
        params
    }

    fn flags(&self, rng: &mut Rng, params: &mut [Param]) {
        let (defaults, early) = (*rng.pick(&[0, 15, 40]), *rng.pick(&[0, 0, 12]));
        let open = rng.chance(35);
        let last = params.len().wrapping_sub(1);
        for (i, param) in params.iter_mut().enumerate() {
            let vararg = if i == last { open } else { !self.inside && rng.chance(early) };
            param.1 = if rng.chance(defaults) { DEFAULT } else { 0 } | if vararg { VARARG } else { 0 };
        }
    }

    /// An overload beside another: another type somewhere, another name, another order, one more or fewer.
    fn sibling(&self, rng: &mut Rng, params: &[Param]) -> Vec<Param> {
        let mut params = params.to_vec();
        for _ in 0..1 + rng.below(2) {
            let at = rng.below(params.len().max(1));
            match rng.below(8) {
                _ if params.is_empty() => return self.parameters(rng),
                0..=3 => params[at].2 = rng.pick(&self.pool).clone(),
                4 => {
                    let free: Vec<u16> =
                        PARAMS.iter().copied().filter(|name| params.iter().all(|p| p.0 != *name)).collect();
                    if !free.is_empty() {
                        params[at].0 = *rng.pick(&free);
                    }
                }
                5 => {
                    let other = rng.below(params.len());
                    let (a, b) = (params[at].0, params[other].0);
                    (params[at].0, params[other].0) = (b, a);
                }
                6 => drop(params.remove(at)),
                _ => self.flags(rng, &mut params),
            }
        }
        if self.inside {
            let last = params.len().wrapping_sub(1);
            params.iter_mut().enumerate().filter(|(i, _)| *i != last).for_each(|(_, p)| p.1 &= DEFAULT);
        }
        params
    }

    /// The list of f, of the owner or without one.
    fn list(&mut self, rng: &mut Rng, owner: u16) -> List {
        let count = *rng.pick(&[1, 1, 1, 2, 2, 2, 3, 3, 4, 6]);
        let builtin = *rng.pick(&[0, 0, 0, 30, 100]);
        let mut overloads: Vec<(bool, Vec<Param>)> = Vec::new();
        for i in 0..count {
            let params = match overloads.is_empty() || rng.chance(20) {
                true => self.parameters(rng),
                false => {
                    let (_, params) = rng.pick(&overloads).clone();
                    self.sibling(rng, &params)
                }
            };
            let builtin = rng.chance(builtin);
            self.table.function(owner, self.f, 0, builtin, &[RESULTS[i]], &params);
            overloads.push((builtin, params));
        }
        List { overloads }
    }

    /// The overload that a call is made for, one that does not drop out.
    fn target<'a>(&self, rng: &mut Rng, list: &'a List) -> &'a [Param] {
        let own: Vec<&(bool, Vec<Param>)> = list.overloads.iter().filter(|(builtin, _)| !builtin).collect();
        if own.is_empty() {
            return &rng.pick(&list.overloads).1;
        }
        &rng.pick(&own).1
    }

    /// A type that a parameter accepts, mostly its own.
    fn accepted(&self, rng: &mut Rng, param: &Param) -> Bytes {
        let ty = &param.2;
        match rng.below(10) {
            0 => vec![ANY],
            1 => nullable(&[NOTHING]),
            2 | 3 if ty[0] <= DOUBLE => vec![*rng.pick(&[INT, LONG, SHORT, DOUBLE])],
            4 if param.1 & VARARG != 0 || ty[0] == ANY => rng.pick(&self.pool).clone(),
            _ => ty.clone(),
        }
    }

    fn value(&self, rng: &mut Rng, ty: &[u8]) -> Bytes {
        if ty == [STRING] && rng.chance(15) {
            return call(self.g, &[]);
        }
        leaf(ty)
    }

    /// An argument with this name for a parameter; now and then, as `slips` says, of any type.
    fn argument(&self, rng: &mut Rng, name: Option<u16>, param: Option<&Param>, slips: usize) -> Bytes {
        let ty = match param {
            Some(param) if !rng.chance(slips) => self.accepted(rng, param),
            _ => match rng.below(12) {
                0 => vec![ERROR],
                1 => vec![ANY],
                _ => rng.pick(&self.pool).clone(),
            },
        };
        let value = self.value(rng, &ty);
        name.map_or(value.clone(), |name| named_arg(name, &value))
    }

    /// At most one unnamed argument, and the target matches; or no named argument at all.
    fn few_unnamed(&self, rng: &mut Rng, params: &[Param]) -> Vec<Bytes> {
        if params.is_empty() || rng.chance(12) {
            let param = params.first();
            return (0..rng.below(2)).map(|_| self.argument(rng, None, param, 40)).collect();
        }
        let open = is_open(params);
        // The parameter of the unnamed argument, if there is one; behind the last is left over.
        let unnamed = rng.below(params.len() + open as usize);
        let with_unnamed = rng.chance(70);
        let often = *rng.pick(&[20, 60, 100]);
        let mut names: Vec<Option<u16>> = Vec::new();
        for (i, (name, flag, _)) in params.iter().enumerate() {
            let needed = *flag == 0 || (with_unnamed && i < unnamed);
            if (needed || rng.chance(often)) && !(with_unnamed && i == unnamed) {
                names.push(Some(*name));
            }
        }
        let most = if open { 16 } else { params.len() } - with_unnamed as usize;
        names.truncate(most);
        while !names.is_empty() && names.len() < most && rng.chance(30) {
            let again = *rng.pick(&names);
            names.push(again);
        }
        if with_unnamed {
            names.push(None);
        }
        if rng.chance(60) {
            shuffle(rng, &mut names);
        }
        let of = |name: &Option<u16>| match name {
            Some(name) => params.iter().find(|p| p.0 == *name),
            None => params.get(unnamed),
        };
        names.iter().map(|name| self.argument(rng, *name, of(name), 0)).collect()
    }

    /// Who is named, then what each argument is, for the parameter that it gets.
    fn any_arguments(&self, rng: &mut Rng, params: &[Param], most: usize) -> Vec<Bytes> {
        let count = match rng.below(10) {
            0 => rng.below(17),
            1 => params.len().saturating_sub(1 + rng.below(2)),
            2 => params.len() + 1,
            3..=5 if is_open(params) => params.len() + rng.below(5),
            _ => params.len(),
        };
        let (naming, twice, slips) =
            (*rng.pick(&[0, 0, 20, 50, 80]), *rng.pick(&[0, 10, 40]), *rng.pick(&[0, 5, 15, 40]));
        let strange = *rng.pick(&[0, 0, 0, 15]);
        let mut row: Vec<u16> = params.iter().map(|p| p.0).collect();
        if rng.chance(50) {
            shuffle(rng, &mut row);
        }
        let names: Vec<Option<u16>> = (0..count.min(16).min(most))
            .map(|i| match row.get(i) {
                _ if !rng.chance(naming) => None,
                _ if rng.chance(strange) => Some(*rng.pick(&[STRANGER, self.f, PARAMS[15], PARAMS[7]])),
                Some(_) if rng.chance(twice) => Some(*rng.pick(&row)),
                name => name.copied(),
            })
            .collect();
        let mut free = params.iter().filter(|p| !names.contains(&Some(p.0)));
        // Now and then with the types of the parameters in their order, whoever is named.
        let by_index = rng.chance(10);
        let mut row = Vec::new();
        for (i, name) in names.iter().enumerate() {
            let own = match name {
                Some(_) => params.iter().find(|p| Some(p.0) == *name),
                None => free.next(),
            };
            row.push(self.argument(rng, *name, if by_index { params.get(i) } else { own }, slips));
        }
        row
    }

    fn invoked(&self, rng: &mut Rng, owner: u16, args: &[Bytes]) -> Bytes {
        if owner == NONE {
            return call(self.f, args);
        }
        let object = named(self.owner);
        method(self.f, &leaf(&if rng.chance(20) { nullable(&object) } else { object }), args)
    }

    /// A call of the list, now and then with another in one of its arguments.
    fn call(&self, rng: &mut Rng, list: &List, owner: u16) -> Bytes {
        let target = self.target(rng, list);
        if self.inside {
            let args = self.few_unnamed(rng, target);
            return self.invoked(rng, owner, &args);
        }
        let mut args = self.any_arguments(rng, target, 16);
        if !args.is_empty() && rng.chance(12) {
            let target = self.target(rng, list);
            let inner = self.any_arguments(rng, target, 8);
            args.truncate(12);
            let at = rng.below(args.len());
            args[at] = self.invoked(rng, owner, &inner);
        }
        self.invoked(rng, owner, &args)
    }
}

pub fn arguments(rng: &mut Rng, index: u64) -> Pair {
    let mut page = Page::new(rng, index % 2 == 0);
    let owner = if rng.chance(35) { page.owner } else { NONE };
    let list = page.list(rng, owner);
    if rng.chance(5) {
        page.table.suspend(owner, page.f);
    }
    let tree = page.call(rng, &list, owner);
    let in_suspend = rng.chance(50);
    (page.table.bytes(), question_in(NONE, NONE, in_suspend, &tree))
}
