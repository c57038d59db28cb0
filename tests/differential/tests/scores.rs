//! The independent marker's scores (02, order 5), on certificates that are cut at one of their proofs.

use differential::marker::{Answer, EXAM, mark_certificate};
use differential::papers::scores::{Cut, cut_at_each_proof};
use differential::papers::sheet::fix_length;

/// The score of a paper; the rest of its answer is settled.
#[track_caller]
fn score(cut: &Cut) -> u32 {
    let answer = mark_certificate(&cut.model.bytes, &cut.second.bytes, EXAM);
    let Cut { number, place, done, .. } = *cut;
    assert_eq!(answer, Answer { number, sheet: 1, place: place as u32, done: done as u32, score: answer.score }, "{}", cut.name);
    answer.score
}

/// The score of a refused certificate of which so many proofs pass.
#[track_caller]
fn refused(done: usize, total: usize) -> u32 {
    let papers = cut_at_each_proof(total);
    score(papers.iter().find(|cut| cut.done == done && cut.number == 4).expect("one for each number of proofs"))
}

#[test]
fn a_half_goes_to_the_even_percent() {
    assert_eq!([1, 3, 5, 7].map(|done| refused(done, 8)), [12, 38, 62, 88]);
    assert_eq!([1, 3, 5, 7, 195, 197].map(|done| refused(done, 200)), [0, 2, 2, 4, 98, 98]);
}

#[test]
fn others_go_to_the_nearest_percent() {
    assert_eq!([0, 1, 2].map(|done| refused(done, 3)), [0, 33, 67]);
    assert_eq!([2, 4, 6].map(|done| refused(done, 8)), [25, 50, 75]);
    assert_eq!([1, 31, 32, 33, 63].map(|done| refused(done, 64)), [2, 48, 50, 52, 98]);
}

#[test]
fn a_refused_certificate_scores_at_most_99() {
    assert_eq!([198, 199, 200].map(|done| refused(done, 200)), [99, 99, 99]);
    assert_eq!([1, 3, 8, 64].map(|total| refused(total, total)), [99; 4]);
    let accepted = |total: usize| score(cut_at_each_proof(total).last().expect("the whole one"));
    assert_eq!([1, 3, 8, 64, 200].map(accepted), [100; 5]);
}

#[test]
fn a_certificate_without_obligations() {
    let [longer, whole] = &cut_at_each_proof(0)[..] else { panic!("two papers") };
    assert_eq!([longer, whole].map(score), [99, 100]);
    // Without its last region it scores nothing.
    let mut second = whole.second.bytes[..whole.place - 1].to_vec();
    fix_length(&mut second);
    let answer = mark_certificate(&whole.model.bytes, &second, EXAM);
    assert_eq!(answer, Answer { number: 4, sheet: 1, place: second.len() as u32, done: 0, score: 0 });
}

#[test]
fn papers_are_cut_from_one_certificate() {
    let papers = cut_at_each_proof(63);
    let whole = &papers.last().expect("the whole one").second.bytes;
    assert_eq!(papers.len(), 65);
    for cut in &papers {
        assert_eq!(cut.second.bytes[2..cut.place], whole[2..cut.place], "{}", cut.name);
    }
}
