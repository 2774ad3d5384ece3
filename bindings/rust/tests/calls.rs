//! The wrapper on the library that it is linked with: lines, transcripts, and the limits of the buffers.

use faultsieve::{Error, LINE, check, script};

/// A byte that stands in neither lines nor transcripts, to see what was not written.
const UNTOUCHED: u8 = 0xa5;

#[test]
fn a_line_stands_at_the_start_and_the_rest_stays() {
    for length in [LINE, LINE + 1, 1_000] {
        let mut line = vec![UNTOUCHED; length];
        assert_eq!(check(&[0; 6], &mut line), Ok(&b"accepted 0\n"[..]));
        assert!(line[11..].iter().all(|&byte| byte == UNTOUCHED));
    }
}

#[test]
fn example_books_have_their_lines() {
    let examples: [(&[u8], &[u8]); 4] = [
        (include_bytes!("../../../examples/evened.book"), b"accepted 1\n"),
        (include_bytes!("../../../examples/uneven-time.book"), b"refused 11 check 1\n"),
        (include_bytes!("../../../examples/direct-flow.book"), b"refused 9 check 1\n"),
        (include_bytes!("../../../examples/implicit-flow.book"), b"refused 10 check 3\n"),
    ];
    for (book, expected) in examples {
        assert_eq!(check(book, &mut [0; LINE]), Ok(expected));
    }
}

#[test]
fn a_short_line_buffer_is_refused_unchanged() {
    for length in [0, 1, LINE - 1] {
        let mut line = vec![UNTOUCHED; length];
        assert_eq!(check(&[0; 6], &mut line), Err(Error::ShortBuffer));
        assert!(line.iter().all(|&byte| byte == UNTOUCHED));
    }
}

#[test]
fn a_transcript_may_fill_the_buffer_to_its_end() {
    let calls = b"# three answers\nmeter digit\n\ntally\nnonsense";
    let expected = b"ok\ntally 0 0 0\nerror\n";
    for spare in [0, 1, 100] {
        let mut transcript = vec![UNTOUCHED; expected.len() + spare];
        assert_eq!(script(calls, &mut transcript), Ok(&expected[..]));
        assert!(transcript[expected.len()..].iter().all(|&byte| byte == UNTOUCHED));
    }
}

#[test]
fn a_transcript_that_does_not_fit_is_refused_unchanged() {
    for length in [0, 1, 14] {
        let mut transcript = vec![UNTOUCHED; length];
        assert_eq!(script(b"meter digit\ntally\n", &mut transcript), Err(Error::ShortBuffer));
        assert!(transcript.iter().all(|&byte| byte == UNTOUCHED));
    }
}

#[test]
fn an_empty_script_has_an_empty_transcript() {
    assert_eq!(script(b"", &mut []), Ok(&b""[..]));
    assert_eq!(script(b"# nothing\n   \n", &mut []), Ok(&b""[..]));
}
