//! Words that stand for no state of the stream reader: `judged_read` answers refusal 1 and leaves all as it was, and `judged_held` counts nothing.

use tanglegoose_host::judged::{held, read, Answer, Heard};

/// Three bytes of a header have come. What a test changes in it is all that is wrong with it.
const HEADER: [usize; 8] = [0, 40, 20, 0, 0, 3, 0, 0];

/// Names of phases.
const REST: usize = 1;
const STOPPED: usize = 4;

fn with(changes: &[(usize, usize)]) -> [usize; 8] {
    let mut state = HEADER;
    for &(place, word) in changes {
        state[place] = word;
    }
    state
}

fn answer(state: &[usize]) -> (Heard, Vec<usize>, [u8; 40], [u8; 20]) {
    let (mut state, mut segment, mut reassembly) = (state.to_vec(), [0xaa; 40], [0xbb; 20]);
    let heard = read(&mut state, &mut segment, &mut reassembly, &[1, 2]);
    (heard, state, segment, reassembly)
}

#[track_caller]
fn is_no_state(state: &[usize]) {
    let refused = Heard {
        answer: Answer::Refused(1),
        taken: 0,
    };
    assert_eq!(
        answer(state),
        (refused, state.to_vec(), [0xaa; 40], [0xbb; 20])
    );
    assert_eq!(held(state), 0);
}

#[test]
fn the_state_that_is_changed() {
    let (heard, state, segment, reassembly) = answer(&HEADER);
    assert_eq!((heard.answer, heard.taken), (Answer::More, 2));
    assert_eq!(state, with(&[(5, 5)]));
    assert_eq!(segment[3..5], [1, 2]);
    assert_eq!(reassembly, [0xbb; 20]);
    assert_eq!(held(&HEADER), 3);
}

#[test]
fn too_few_words() {
    for words in 0..8 {
        is_no_state(&HEADER[..words]);
    }
}

#[test]
fn no_form() {
    is_no_state(&with(&[(0, 2)]));
    is_no_state(&with(&[(0, usize::MAX)]));
}

#[test]
fn no_phase() {
    is_no_state(&with(&[(4, 5)]));
    is_no_state(&with(&[(4, usize::MAX)]));
}

#[test]
fn neither_self_contained_nor_not() {
    let rest = |word| with(&[(4, REST), (5, 9), (6, 20), (7, word)]);
    for word in [2, usize::MAX] {
        is_no_state(&rest(word));
    }
    for word in [0, 1] {
        let (heard, state, ..) = answer(&rest(word));
        assert_eq!((heard.answer, heard.taken), (Answer::More, 2));
        assert_eq!(state[7], word);
    }
}

#[test]
fn stopped_by_no_refusal() {
    for number in [0, 18, 256 + 5, usize::MAX] {
        is_no_state(&with(&[(4, STOPPED), (5, number)]));
    }
    for number in 1..18 {
        let (heard, ..) = answer(&with(&[(4, STOPPED), (5, number)]));
        assert_eq!(heard.answer, Answer::Refused(number as u8));
    }
}
