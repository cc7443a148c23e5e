//! Needed names: paths rewritten to axes up and down, types and contexts step by step, then every complete walk.
use crate::bundle::{Axis, Path, Step, Test};
use crate::schema::{Name, Names, Schema};
use crate::table::passes;

/// The axes that stand for one, of which the last takes the step's test and condition (document 02, R-1; 000, 4.3).
fn parts(axis: Axis) -> Vec<Axis> {
    match axis {
        Axis::FollowingSibling | Axis::PrecedingSibling => vec![Axis::Parent, Axis::Child],
        Axis::Following | Axis::Preceding => vec![Axis::AncestorOrSelf, Axis::Parent, Axis::Child, Axis::DescendantOrSelf],
        _ => vec![axis],
    }
}

fn rewritten(steps: &[Step<usize>]) -> Path {
    let mut all = Path::new();
    for step in steps {
        let parts = parts(step.axis);
        let (last, before) = parts.split_last().unwrap();
        all.extend(before.iter().map(|&axis| Step { axis, test: Test::Node, condition: None }));
        let condition = step.condition.as_ref().map(|c| c.iter().map(|a| rewritten(a)).collect());
        all.push(Step { axis: *last, test: step.test.clone(), condition });
    }
    all
}

fn all_below(s: &Schema, t: &Names) -> Names {
    t.iter().flat_map(|&n| s.below(n)).collect()
}

/// K cut to T and above T.
fn cut_to(s: &Schema, k: &Names, t: &Names) -> Names {
    k.iter().copied().filter(|&n| t.contains(&n) || t.iter().any(|&m| s.is_below(m, n))).collect()
}

fn by_axis(s: &Schema, step: &Step<usize>, t: &Names, k: &Names) -> (Names, Names) {
    let held: Names = t.iter().flat_map(|&n| s.held_by(n)).collect();
    let in_context_above: Names = k.iter().copied().filter(|&n| t.iter().any(|&m| s.is_below(m, n))).collect();
    let down = |new: Names, shown: Names| (new, k.union(&shown).copied().collect());
    let up = |new: Names| {
        let context = cut_to(s, k, &new);
        (new, context)
    };
    let with_own = |new: Names| -> Names { new.union(t).copied().collect() };
    match step.axis {
        Axis::SelfAxis => (t.clone(), k.clone()),
        Axis::Child => {
            let shown = held.iter().copied().filter(|&n| passes(&step.test, n)).collect();
            down(held, shown)
        }
        Axis::Descendant => down(all_below(s, t), all_below(s, t)),
        Axis::DescendantOrSelf => down(with_own(all_below(s, t)), with_own(all_below(s, t))),
        Axis::Parent => up(k.iter().copied().filter(|&n| t.iter().any(|&m| s.holds(n, m))).collect()),
        Axis::Ancestor => up(in_context_above),
        Axis::AncestorOrSelf => up(with_own(in_context_above)),
        _ => unreachable!("rewritten"),
    }
}

fn after(s: &Schema, step: &Step<usize>, t: &Names, k: &Names) -> (Names, Names) {
    let (t, k) = by_axis(s, step, t, k);
    let t: Names = t.into_iter().filter(|&n| passes(&step.test, n)).collect();
    let k = cut_to(s, &k, &t);
    let Some(alternatives) = &step.condition else { return (t, k) };
    let t: Names = t.into_iter().filter(|&n| alternatives.iter().any(|a| !types(s, a, &Names::from([n]), &cut_to(s, &k, &Names::from([n]))).last().unwrap().0.is_empty())).collect();
    let k = cut_to(s, &k, &t);
    (t, k)
}

/// T and K at the start and after each step.
fn types(s: &Schema, steps: &[Step<usize>], t: &Names, k: &Names) -> Vec<(Names, Names)> {
    let mut all = vec![(t.clone(), k.clone())];
    for step in steps {
        let (t, k) = all.last().unwrap();
        all.push(after(s, step, t, k));
    }
    all
}

fn related(s: &Schema, axis: Axis, a: Name, b: Name) -> bool {
    match axis {
        Axis::SelfAxis => a == b,
        Axis::Child => s.holds(a, b),
        Axis::Descendant => s.is_below(b, a),
        Axis::DescendantOrSelf => a == b || s.is_below(b, a),
        Axis::Parent => s.holds(b, a),
        Axis::Ancestor => s.is_below(a, b),
        Axis::AncestorOrSelf => a == b || s.is_below(a, b),
        _ => unreachable!("rewritten"),
    }
}

/// For each point of a path the names on complete walks, found by going along all of them: `ends[i]` has those from which the end can be
/// reached, and a walk takes only such names.
fn on_walks(s: &Schema, steps: &[Step<usize>], at: &[(Names, Names)]) -> Vec<Names> {
    let mut ends = vec![at[steps.len()].0.clone()];
    for i in (0..steps.len()).rev() {
        let next = ends.last().unwrap().clone();
        ends.push(at[i].0.iter().copied().filter(|&a| next.iter().any(|&b| related(s, steps[i].axis, a, b))).collect());
    }
    ends.reverse();
    let mut all = vec![ends[0].clone()];
    for (i, step) in steps.iter().enumerate() {
        let reached = ends[i + 1].iter().copied().filter(|&b| all[i].iter().any(|&a| related(s, step.axis, a, b))).collect();
        all.push(reached);
    }
    all
}

fn needs(s: &Schema, steps: &[Step<usize>], t: &Names, k: &Names) -> Names {
    let at = types(s, steps, t, k);
    let walks = on_walks(s, steps, &at);
    let mut all: Names = walks.iter().flatten().copied().collect();
    for (i, step) in steps.iter().enumerate() {
        if matches!(step.axis, Axis::Descendant | Axis::DescendantOrSelf) {
            for &a in &walks[i] {
                for &b in walks[i + 1].iter().filter(|&&b| related(s, step.axis, a, b)) {
                    all.extend(s.below(a).into_iter().filter(|&c| s.is_below(b, c)));
                }
            }
        }
        for &a in &walks[i + 1] {
            let own = Names::from([a]);
            for alternative in step.condition.iter().flatten() {
                all.extend(needs(s, alternative, &own, &cut_to(s, &at[i + 1].1, &own)));
            }
        }
    }
    all
}

/// The names of a set that the root reaches by holdings inside it.
fn reached(s: &Schema, set: &Names) -> Names {
    let mut found = Names::new();
    let mut due = vec![Name::Element(0)];
    while let Some(n) = due.pop() {
        if set.contains(&n) && found.insert(n) {
            due.extend(s.held_by(n));
        }
    }
    found
}

pub fn path_needs(s: &Schema, path: &Path) -> Names {
    let root = Names::from([Name::Element(0)]);
    reached(s, &needs(s, &rewritten(path), &root, &root))
}

pub fn bundle_needs(s: &Schema, paths: &[Path]) -> Names {
    paths.iter().flat_map(|p| path_needs(s, p)).collect()
}

pub fn bits(names: &Names) -> u64 {
    names.iter().map(|n| 1u64 << n.code()).sum()
}
