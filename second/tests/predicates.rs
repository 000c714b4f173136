//! The second program's predicates against what document 01 says of them, set by set.

use second::asking::GREATEST_LIMIT;
use second::predicates::{
    degree, holds, implies, is_normal, names_within, normal, sets, struck, sum, Predicate, Term,
    ALL_NAMES, GREATEST_NAME, NAMES,
};
use second::random::Random;
use std::collections::{BTreeMap, BTreeSet};

/// Whether name by name a term of p has all its names in s.
fn true_under(s: Term, p: &[Term]) -> bool {
    let has = |set: Term, n: u32| set & (1 << n) != 0;
    p.iter().any(|&t| (0..NAMES).all(|n| !has(t, n) || has(s, n)))
}

/// A bit for each set of up to six names: whether it makes p true.
fn truths(names: u32, p: &[Term]) -> u64 {
    (0..1u32 << names).map(|s| u64::from(true_under(s, p)) << s).sum()
}

/// Up to seven terms of six names, in any order, repeated or containing each other.
fn any_predicate(random: &mut Random) -> Vec<Term> {
    let (count, names) = (random.below(8), random.pick(&[3, 4, 6]));
    (0..count).map(|_| random.below(1 << names) as Term).collect()
}

/// All predicates in normal form over so many names.
fn all_normal(names: u32) -> Vec<Vec<Term>> {
    let mut all = vec![vec![]];
    for t in 0..1 << names {
        for i in 0..all.len() {
            let p: &Vec<Term> = &all[i];
            if p.iter().all(|&u| u & !t != 0) {
                all.push([&p[..], &[t]].concat());
            }
        }
    }
    all
}

// ---- edges

#[test]
fn holds_no_terms_is_false_and_the_empty_term_is_true() {
    assert!(!holds(0, &[]) && !holds(ALL_NAMES, &[]));
    assert!(holds(0, &[0]));
}

#[test]
fn holds_name_28_is_seen() {
    let last = 1 << GREATEST_NAME;
    assert!(holds(last, &[last]));
    assert!(!holds(last - 1, &[last]));
}

#[test]
fn implies_false_implies_all_and_all_imply_true() {
    assert!(implies(&[], &[]) && implies(&[], &[1]) && !implies(&[1], &[]));
    assert!(implies(&[1], &[0]) && implies(&[0], &[0]) && !implies(&[0], &[1]));
}

#[test]
fn normal_drops_equal_and_containing_terms() {
    assert_eq!(normal(&[8, 3, 1, 8, 6]), [1, 6, 8]);
    assert_eq!(normal(&[5, 0, 3]), [0]);
    assert_eq!(normal(&[]), []);
}

#[test]
fn is_normal_refuses_the_empty_term_beside_another() {
    assert!(is_normal(&[]) && is_normal(&[0]) && is_normal(&[3, 5, 6]));
    assert!(
        !is_normal(&[0, 1]) && !is_normal(&[0, 0]) && !is_normal(&[1, 3]) && !is_normal(&[2, 1])
    );
}

#[test]
fn struck_and_sum_give_document_01s_case() {
    // Sender 1, terms {1,2} and {3}: 1 + 3; at own name 3 only 1.
    assert_eq!(sum(&[2], &struck(0, &[6, 8])), [2, 8]);
    assert_eq!(sum(&[2], &struck(3, &[6, 8])), [2]);
}

#[test]
fn degree_of_false_is_none_and_of_true_0() {
    assert_eq!(degree(&[]), None);
    assert_eq!(degree(&[0]), Some(0));
    assert_eq!(degree(&[7, 24]), Some(2));
}

// ---- over all sets

#[test]
fn normal_of_every_predicate_of_four_names_is_its_only_normal_form() {
    let mut forms = BTreeMap::new();
    for choice in 0..1u32 << 16 {
        // Falling, so that the order has to be made.
        let p: Vec<Term> = (0..16).rev().filter(|t| choice >> t & 1 != 0).collect();
        let q = normal(&p);
        assert_eq!(truths(4, &q), truths(4, &p), "{p:?}");
        assert!(is_normal(&q), "{p:?}");
        assert_eq!(forms.entry(truths(4, &p)).or_insert_with(|| q.clone()), &q, "{p:?}");
    }
    // There are 168 sums of terms of four names that differ.
    assert_eq!(forms.len(), 168);
    let listed: BTreeSet<Vec<Term>> = all_normal(4).into_iter().collect();
    assert_eq!(forms.into_values().collect::<BTreeSet<_>>(), listed);
}

#[test]
fn is_normal_exactly_where_normal_changes_nothing() {
    for code in 0..1u32 << 16 {
        let terms: Vec<Term> = (0..4).map(|i| code >> (4 * i) & 15).collect();
        for count in 0..=4 {
            let p = &terms[..count];
            let rising = p.windows(2).all(|pair| pair[0] < pair[1]);
            let apart = (0..count).all(|i| (0..count).all(|j| i == j || p[i] & p[j] != p[i]));
            assert_eq!(is_normal(p), rising && apart, "{p:?}");
            assert_eq!(is_normal(p), normal(p) == p, "{p:?}");
        }
    }
}

#[test]
fn implies_is_implication_for_all_normal_forms_of_five_names() {
    let all = all_normal(5);
    assert_eq!(all.len(), 7581);
    let truths: Vec<u64> = all.iter().map(|p| truths(5, p)).collect();
    for (p, true_p) in all.iter().zip(&truths) {
        for (q, true_q) in all.iter().zip(&truths) {
            assert_eq!(implies(p, q), true_p & !true_q == 0, "{p:?} {q:?}");
        }
    }
}

#[test]
fn predicates_in_place_do_as_slices_do_for_all_normal_forms_of_four_names() {
    let all = all_normal(4);
    for p in &all {
        for q in &all {
            let (in_place, other) = (Predicate::of(p), Predicate::of(q));
            assert_eq!(in_place.implies(&other), implies(p, q), "{p:?} {q:?}");
            assert_eq!(Predicate::sum(p, q), Predicate::of(&sum(p, q)), "{p:?} {q:?}");
            assert_eq!(in_place == other, p == q, "{p:?} {q:?}");
        }
        assert_eq!(Predicate::of(p)[..], p[..]);
    }
}

#[test]
fn laws_over_all_sets_of_six_names() {
    for seed in 0..50_000 {
        let mut random = Random::new(seed);
        let (p, q) = (any_predicate(&mut random), any_predicate(&mut random));
        let n = random.below(6) as u32;
        let (true_p, true_q) = (truths(6, &p), truths(6, &q));
        assert_eq!(implies(&p, &q), true_p & !true_q == 0, "seed {seed}");
        assert_eq!(truths(6, &sum(&p, &q)), true_p | true_q, "seed {seed}");
        assert!(is_normal(&sum(&p, &q)), "seed {seed}");
        assert_eq!(truths(6, &normal(&p)), true_p, "seed {seed}");
        assert_eq!(normal(&p) == normal(&q), true_p == true_q, "seed {seed}");
        for s in 0..64 {
            assert_eq!(holds(s, &p), true_p >> s & 1 != 0, "seed {seed}");
            // Without the terms that name n, whether n has failed plays no part.
            let without = true_under(s & !(1 << n), &p);
            assert_eq!(holds(s, &struck(n, &p)), without, "seed {seed}");
        }
        let least = (0..64u32).filter(|s| true_p >> s & 1 != 0).map(u32::count_ones).min();
        assert_eq!(degree(&p), least, "seed {seed}");
    }
}

// ---- sets

#[test]
fn sets_are_all_within_the_limit_in_the_order_of_size_and_mask() {
    let last = 1 << GREATEST_NAME;
    for names in [0, 1, last, 0b1010_0110_1101, 0b1111_1111_1111] {
        for most in 0..=GREATEST_LIMIT + 1 {
            let within = |s: &Term| s & !names == 0 && s.count_ones() <= most;
            let mut wanted: Vec<Term> = (0..1 << 12).chain([last]).filter(within).collect();
            wanted.sort_by_key(|s| (s.count_ones(), *s));
            assert_eq!(sets(names, most), wanted, "{names:b} {most}");
        }
    }
}

#[test]
fn sets_of_28_names_are_as_many_as_binomials_say() {
    let all = sets(ALL_NAMES & !(1 << 13), GREATEST_LIMIT);
    assert_eq!(all.len(), 1 + 28 + 378 + 3_276 + 20_475);
    assert!(all.is_sorted_by_key(|s| (s.count_ones(), *s)));
    assert_eq!(all.iter().collect::<BTreeSet<_>>().len(), all.len());
    assert!(all
        .iter()
        .all(|s| s >> 13 & 1 == 0 && s >> NAMES == 0 && s.count_ones() <= GREATEST_LIMIT));
}

/// Names of larger terms only, or of none, make no predicate true within the limit.
#[test]
fn names_within_a_limit_make_the_same_predicates_true() {
    for seed in 0..2_000 {
        let mut random = Random::new(seed);
        let all: Vec<Predicate> =
            (0..3).map(|_| Predicate::of(&any_predicate(&mut random))).collect();
        for most in 0..=GREATEST_LIMIT {
            let names = names_within(all.iter(), most);
            for s in (0..1 << 6).filter(|s: &Term| s.count_ones() <= most) {
                let same = |p: &Predicate| p.holds(s) == true_under(s & names, p);
                assert!(all.iter().all(same), "seed {seed}: {all:?} {s} {most}");
            }
        }
    }
}
