//! Extern fixing.

use super::measure::{kept, renewed, Row};
use super::types::Type;
use crate::face::type_face::tj_fix_type_for_flags;
use crate::inputs::random::Random;
use crate::inputs::types::extern_type;
use crate::original::prelude::{DeclarationFlag, EnumSet, Location};
use crate::original::typer::ask::fix;
use crate::original::typer::timed::{self, Declared};

const CALLS: usize = 64;

struct Fixing {
    given: Type,
    external: bool,
    context: u64,
}

impl Fixing {
    /// A type that is fixed, or one that is not allowed in extern. One that is ill formed is left out:
    /// the original panics.
    fn new(random: &mut Random, external: bool, accepted: bool) -> Self {
        let wanted = if accepted { 0 } else { 6 };
        loop {
            let made = Fixing {
                given: Type::new(&extern_type(random, 6)),
                external,
                context: random.below(4) as u64,
            };
            let fixed = fix(&made.given.original, external, made.context);
            let number = fixed.map_or_else(|refusal| refusal.0, |_| 0);
            if number == wanted {
                assert!(made.ours(&mut [0; 51]) == number);
                return made;
            }
        }
    }

    fn ours(&self, out: &mut [u64; 51]) -> u64 {
        let t = &self.given.words;
        // The type and the output are apart.
        let raw = unsafe {
            tj_fix_type_for_flags(
                t.as_ptr(),
                t.len(),
                self.external,
                self.context,
                out.as_mut_ptr(),
                out.len(),
            )
        };
        raw.refusal
    }
}

pub fn rows(random: &mut Random, show: &mut dyn FnMut(Row)) {
    let sorts = [
        ("not extern", false, true),
        ("extern", true, true),
        ("extern, refused", true, false),
    ];
    let mut all = Vec::new();
    for (name, external, accepted) in sorts {
        let some: Vec<_> = (0..16)
            .map(|_| Fixing::new(random, external, accepted))
            .collect();
        show(row(&format!("fixing, {name}"), None, &some, false));
        all.extend(some);
    }
    show(row("fixing, all three", Some(1.0), &all, false));
    show(row("fixing, all three, type cloned", None, &all, true));
}

/// `cloned` puts the clone of the type, which the original takes by value, into its time.
fn row<'a>(what: &str, aim: Option<f64>, all: &'a [Fixing], cloned: bool) -> Row<'a> {
    let mut out = [0; 51];
    let accepted = all.iter().filter(|one| one.ours(&mut out) == 0).count();
    let each = || all.iter().cycle().take(CALLS);
    let flags = [Vec::new(), vec![DeclarationFlag::External]].map(EnumSet);
    let place = Location::default();
    let original = move || {
        let ready = |one: &Fixing| Declared::new(one.given.original.clone(), one.context);
        if cloned {
            return kept(CALLS, |told| {
                for one in each() {
                    let flags = &flags[usize::from(one.external)];
                    told.push(timed::fix(ready(one), flags, &place));
                }
            });
        }
        let declared: Vec<_> = each().map(ready).collect();
        let mut declared = declared.into_iter();
        kept(CALLS, |told| {
            for (one, declared) in each().zip(declared.by_ref()) {
                let flags = &flags[usize::from(one.external)];
                told.push(timed::fix(declared, flags, &place));
            }
        })
    };
    let ours = move || {
        kept(CALLS, |told| {
            for one in each() {
                told.push(one.ours(&mut out));
            }
        })
    };
    Row {
        what: what.into(),
        yes: (accepted, all.len()),
        aim,
        ours: renewed(ours),
        original: renewed(original),
    }
}
