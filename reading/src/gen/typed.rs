//! Trees built for a wanted type, so that long ones pass or fail in one place.

use super::interfaces::put_interfaces;
use crate::bytes::*;
use crate::name::{built_in, NONE};
use crate::rng::Rng;

struct Overload {
    owner: u16,
    name: u16,
    params: Vec<Param>,
    result: Bytes,
}

struct Typed {
    overloads: Vec<Overload>,
    fields: Vec<(u16, u16, Bytes)>,
    pool: Vec<Bytes>,
    /// In how many of 1,000 nodes another type than the wanted one is built.
    slips: usize,
}

const INTEGERS: [u8; 4] = [INT, LONG, SHORT, BYTE];
const NUMBERS: [u8; 6] = [INT, LONG, SHORT, BYTE, FLOAT, DOUBLE];

impl Typed {
    /// A list whose overloads differ in the type of all their parameters, so that mostly one wins.
    fn add_list(&mut self, rng: &mut Rng, table: &mut Table, owner: u16, name: u16) {
        let builtin = rng.chance(15);
        for _ in 0..1 + rng.below(3) {
            let ty = rng.pick(&self.pool).clone();
            let count = rng.below(4);
            let params: Vec<Param> = (0..count)
                .map(|i| {
                    let last = i + 1 == count;
                    let flag = match rng.below(10) {
                        0 => DEFAULT,
                        1 if last => VARARG,
                        _ => 0,
                    };
                    let ty = if rng.chance(90) { ty.clone() } else { rng.pick(&self.pool).clone() };
                    (20 + i as u16, flag, ty)
                })
                .collect();
            let result = rng.pick(&self.pool).clone();
            table.function(owner, name, if rng.chance(90) { 0 } else { rng.below(4) as u8 }, builtin, &result, &params);
            self.overloads.push(Overload { owner, name, params, result });
        }
        if rng.chance(15) {
            table.suspend(owner, name);
        }
    }

    fn arguments(&self, rng: &mut Rng, params: &[Param], nodes: usize) -> Vec<Bytes> {
        let mut count = params.len();
        if let Some(last) = params.last() {
            match last.1 {
                VARARG if rng.chance(50) => count += rng.below(3),
                DEFAULT if rng.chance(50) => count -= 1,
                _ => {}
            }
        }
        let named = if rng.chance(30) { 60 } else { 0 };
        let share = nodes / count.max(1);
        (0..count)
            .map(|i| {
                let param = &params[i.min(params.len() - 1)];
                let by_name = i < params.len() && share >= 2 && rng.chance(named);
                let mut ty = param.2.clone();
                if NUMBERS.contains(&ty[0]) && rng.chance(20) {
                    ty = vec![*rng.pick(&NUMBERS)];
                }
                let value = self.build(rng, &ty, share - by_name as usize);
                if by_name {
                    named_arg(param.0, &value)
                } else {
                    value
                }
            })
            .collect()
    }

    /// A call or method call whose overload has the wanted result.
    fn call(&self, rng: &mut Rng, want: &[u8], nodes: usize) -> Option<Bytes> {
        let fitting: Vec<&Overload> =
            self.overloads.iter().filter(|o| o.result == want && nodes >= 3 + o.params.len() * 2).collect();
        if fitting.is_empty() {
            return None;
        }
        let o = *rng.pick(&fitting);
        if o.owner == NONE {
            return Some(call(o.name, &self.arguments(rng, &o.params, nodes - 1)));
        }
        let half = (nodes - 1) / 2;
        let size = (nodes - 1 - half).min(1 + rng.below(6));
        let object = self.build(rng, &named(o.owner), size);
        Some(method(o.name, &object, &self.arguments(rng, &o.params, half)))
    }

    fn field(&self, rng: &mut Rng, want: &[u8], nodes: usize) -> Option<Bytes> {
        let fitting: Vec<&(u16, u16, Bytes)> = self.fields.iter().filter(|f| f.2 == want).collect();
        if fitting.is_empty() {
            return None;
        }
        let (owner, name, _) = *rng.pick(&fitting);
        Some(member(*name, &self.build(rng, &named(*owner), nodes - 1)))
    }

    fn two(&self, rng: &mut Rng, op: u8, left: &[u8], right: &[u8], nodes: usize) -> Bytes {
        let first = 1 + rng.below(nodes - 2);
        let l = self.build(rng, left, first);
        binary(op, &l, &self.build(rng, right, nodes - 1 - first))
    }

    /// An operator that gives the wanted type, for at least 3 nodes.
    fn operator(&self, rng: &mut Rng, want: &[u8], nodes: usize) -> Bytes {
        let any = rng.pick(&self.pool).clone();
        match want[0] {
            INT | LONG if rng.chance(70) => {
                let other = vec![*rng.pick(if want[0] == INT { &[INT, SHORT, BYTE] } else { &[LONG, INT, BYTE] })];
                match rng.below(4) {
                    0 if want[0] == INT => {
                        let left = vec![*rng.pick(&INTEGERS)];
                        self.two(rng, ADD, &left, &other, nodes)
                    }
                    1 => {
                        let op = BIT_AND + rng.below(6) as u8;
                        self.two(rng, op, want, &other, nodes)
                    }
                    2 => unary(*rng.pick(&[MINUS, INCREMENT, 3]), &self.build(rng, want, nodes - 1)),
                    _ => {
                        let op = SUB + rng.below(4) as u8;
                        self.two(rng, op, want, &other, nodes)
                    }
                }
            }
            INT if rng.chance(50) => {
                let of = rng.pick(&[vec![STRING], list(&[INT]), array(None, &[CHAR]), named(1)]).clone();
                member(built_in("size"), &self.build(rng, &of, nodes - 1))
            }
            FLOAT => {
                let left = vec![*rng.pick(&[FLOAT, DOUBLE])];
                let right = vec![*rng.pick(&NUMBERS)];
                let op = rng.below(5) as u8;
                self.two(rng, op, &left, &right, nodes)
            }
            BOOLEAN => match rng.below(5) {
                0 => unary(NOT, &self.build(rng, want, nodes - 1)),
                1 => {
                    let op = AND + rng.below(2) as u8;
                    self.two(rng, op, want, want, nodes)
                }
                2 => {
                    let (left, right) = (vec![*rng.pick(&NUMBERS)], vec![*rng.pick(&NUMBERS)]);
                    let op = LT + rng.below(4) as u8;
                    self.two(rng, op, &left, &right, nodes)
                }
                3 => self.two(rng, IS, &any, want, nodes),
                _ => {
                    let op = EQ + rng.below(2) as u8;
                    self.two(rng, op, &any, &any, nodes)
                }
            },
            STRING if rng.chance(70) => match rng.below(3) {
                0 => member(built_in("trim"), &self.build(rng, want, nodes - 1)),
                1 => self.two(rng, ADD, &any, want, nodes),
                _ => self.two(rng, ADD, want, &any, nodes),
            },
            13 => unary(ADDR_OF, &self.build(rng, &want[1..], nodes - 1)),
            _ => match rng.below(4) {
                0 => self.two(rng, AS, &any, want, nodes),
                1 => self.two(rng, ASSIGN, &any, want, nodes),
                2 => member(built_in("first"), &self.build(rng, &list(want), nodes - 1)),
                _ => unary(DEREFERENCE, &unary(ADDR_OF, &self.build(rng, want, nodes - 2))),
            },
        }
    }

    /// An expression of at most `nodes` nodes that mostly has the wanted type.
    fn build(&self, rng: &mut Rng, want: &[u8], nodes: usize) -> Bytes {
        if rng.below(1000) < self.slips {
            return leaf(rng.pick::<Bytes>(&self.pool));
        }
        if nodes < 3 || rng.chance(6) {
            return leaf(want);
        }
        let built = match rng.below(10) {
            0..=4 => self.call(rng, want, nodes),
            5 => self.field(rng, want, nodes),
            _ => None,
        };
        match built {
            Some(tree) => tree,
            None => self.operator(rng, want, nodes),
        }
    }
}

pub fn typed(rng: &mut Rng) -> (Bytes, Bytes) {
    let mut table = Table::new();
    let classes = [table.name("Page"), table.name("Scan")];
    let letter = table.name("T");
    let mut typed = Typed {
        overloads: Vec::new(),
        fields: Vec::new(),
        pool: vec![vec![INT], vec![LONG], vec![STRING], vec![BOOLEAN], named(classes[0]), named(classes[1])],
        slips: *rng.pick(&[0, 0, 5, 20, 60]),
    };
    let more = [
        vec![DOUBLE],
        vec![FLOAT],
        vec![ANY],
        list(&[INT]),
        pointer(&[INT]),
        array(Some(2), &[STRING]),
        named(letter),
        named(1),
    ];
    typed.pool.extend(more.into_iter().filter(|_| rng.chance(40)));
    table.class(classes[0], NONE, NONE, rng.chance(70));
    table.class(classes[1], classes[0], NONE, rng.chance(70));
    put_interfaces(&mut rng.aside(), &mut table.records[1], &[letter]);
    for name in 26..30 {
        typed.add_list(rng, &mut table, NONE, name);
    }
    for class in classes {
        for name in 30..32 {
            typed.add_list(rng, &mut table, class, name);
        }
        for name in 32..34 + rng.below(3) as u16 {
            let ty = rng.pick(&typed.pool).clone();
            table.field(class, name, &ty);
            typed.fields.push((class, name, ty));
        }
        if rng.chance(40) {
            let mask = 1 << rng.below(11);
            table.operators(class, mask);
        }
    }
    let want = rng.pick(&typed.pool).clone();
    let nodes = *rng.pick(&[8, 16, 32, 64, 64]);
    let tree = typed.build(rng, &want, nodes);
    let current = *rng.pick(&[NONE, classes[0], classes[1]]);
    (table.bytes(), question_in(current, NONE, rng.chance(70), &tree))
}
