//! The layered schedule with the documents' rule decodes as the reference decoder does, and so does the
//! library.

mod common;

use reference_decoder::check::Messages;
use reference_decoder::sample::{self, Buffers, Generator, Size, Style};
use reference_decoder::{Outcome as Decoded, Rule};
use simulate::decoder::{Decoder, Outcome};
use simulate::layered::{CheckRule, Layered};
use simulate::library::Library;

/// The rule of a code, with its k and edition, by the reference decoder. With q terms a column, the term of
/// symbol 1 is the weight.
struct OfDocuments(Rule);

impl CheckRule for OfDocuments {
    fn send(&mut self, q: usize, terms: &[u8], brought: &[u8], sent: &mut [u8]) {
        let weights: Vec<u8> = terms.chunks(q).map(|terms| terms[1]).collect();
        let messages = Messages::new(self.0, &weights, brought);
        sent.copy_from_slice(&messages.sent.concat());
    }
}

fn outcome(decoded: Decoded) -> Outcome {
    Outcome {
        found: decoded.status() == 0,
        iterations: decoded.iterations(),
    }
}

#[test]
fn the_documents_rule_decodes_as_the_reference() {
    let mut generator = Generator::new(1);
    let mut found = [0, 0];
    for round in 0..400 {
        let size = [Size::SMALL, Size::MEDIUM][round % 2].clone();
        let (sample, read, code) = common::random_code(&mut generator, &size);
        let style = generator.one_of(&Style::ALL);
        let wrong = generator.below(code.columns);
        let frame = sample::noisy_frame(&mut generator, &read, &sample.word, wrong, style);
        let mut buffers = Buffers::zeroed(read.lengths());
        let expected = outcome(buffers.decode(&sample.line, &frame).unwrap());

        let mut layered = Layered::new(&code, read.g, read.limit, OfDocuments(read.rule()));
        // A decoder keeps nothing from one frame to the next.
        layered.decode(&sample::frame(&mut generator, &read, style));
        assert_eq!(layered.decode(&frame), expected);
        assert_eq!(
            (layered.symbols(), layered.costs()),
            (&buffers.symbols[..], &buffers.costs[..])
        );

        let edition = petsivola::Rule::of(read.first).map(petsivola::Rule::edition);
        let edition = edition.expect("an accepted first byte");
        let k = read.rule().deviations();
        let mut library = Library::new(&code, k, edition, read.g, read.limit);
        assert_eq!(library.decode(&frame), expected);
        assert_eq!(library.symbols(), buffers.symbols);
        assert_eq!(library.margins(), buffers.margins);
        found[usize::from(expected.found)] += 1;
    }
    assert!(found.iter().all(|&count| count > 50), "{found:?}");
}
