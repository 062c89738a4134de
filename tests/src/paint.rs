//! Painted outputs, which show every word that a call wrote.

use std::fmt::Debug;

/// What an output is made of.
pub trait Word: Copy + Debug + Default + PartialEq {
    /// Two coats of paint that differ in every bit, so that a word that has its paint under both
    /// was not written.
    const COATS: [Self; 2];
}

impl Word for u32 {
    const COATS: [u32; 2] = [0xA5C3_96E1, !0xA5C3_96E1];
}

impl Word for u8 {
    const COATS: [u8; 2] = [0xA5, !0xA5];
}

/// Makes the call twice, on the output painted in either coat. Each time it must give this answer,
/// with these words at the output's beginning and the paint after them. The question is shown if it
/// doesn't.
pub fn hold<T: Word, A: Debug + PartialEq>(
    question: &dyn Debug,
    out: &mut [T],
    words: &[T],
    answer: A,
    call: impl Fn(&mut [T]) -> A,
) {
    for coat in T::COATS {
        out.fill(coat);
        let given = call(out);
        assert_eq!(given, answer, "given and expected answer, room {}: {question:?}", out.len());
        assert_eq!(
            &out[..words.len()],
            words,
            "given and expected words, room {}: {question:?}",
            out.len()
        );
        let after = &out[words.len()..];
        assert!(
            after.iter().all(|&word| word == coat),
            "altered after {} words, room {}: {out:?} {question:?}",
            words.len(),
            out.len()
        );
    }
}
