//! The channel's noise and the quantiser's costs.

use reference_decoder::check::accept_costs;
use reference_decoder::field::Field;
use reference_decoder::sample::Generator;
use reference_decoder::Decision;
use simulate::channel::Channel;
use simulate::quantiser::Quantiser;

#[test]
fn costs_of_one_column() {
    let ten = Quantiser {
        costs_per_nat: 10.0,
    };
    // Bit 0 is likelier 0 by 1 nat, bit 1 likelier 1 by 2 nats: the likeliest symbol is 2.
    assert_eq!(ten.frame(2, &[1.0, -2.0]), [20, 30, 0, 10]);
    // Half a cost is rounded up, and what is above 255 is cut to it.
    assert_eq!(ten.frame(2, &[0.05, 40.0]), [0, 1, 255, 255]);
    assert_eq!(ten.frame(2, &[0.0, 0.0]), [0, 0, 0, 0]);
}

#[test]
fn frames_are_accepted() {
    let mut generator = Generator::new(1);
    for p in 2..=6 {
        let field = Field::new(p).unwrap();
        for (decibels, costs_per_nat) in [(-3.0, 0.5), (2.0, 8.0), (6.0, 40.0)] {
            let word = (0..50).map(|_| generator.below(field.size()) as u8);
            let word = word.collect();
            let received = Channel::new(decibels, 0.5).send(&mut generator, p, word);
            let frame = Quantiser { costs_per_nat }.frame(p, &received.ratios);
            assert_eq!(accept_costs(field, 50, &frame), Ok(()));
        }
    }
}

#[test]
fn a_clear_channel_brings_the_word() {
    let mut generator = Generator::new(2);
    let word: Vec<u8> = (0..100).map(|_| generator.below(32) as u8).collect();
    let received = Channel::new(20.0, 0.5).send(&mut generator, 5, word.clone());
    let frame = Quantiser { costs_per_nat: 8.0 }.frame(5, &received.ratios);
    let decided = frame.chunks(32).map(Decision::of);
    assert!(decided.map(|decision| decision.symbol).eq(word));
}

/// Half a rate at 0 dB: noise of variance 1, and logarithms of mean and half variance 2 for bit 0.
#[test]
fn noise_has_its_variance() {
    let mut generator = Generator::new(3);
    let received = Channel::new(0.0, 0.5).send(&mut generator, 4, vec![0; 50_000]);
    let count = received.ratios.len() as f64;
    let mean = received.ratios.iter().sum::<f64>() / count;
    let squares = received.ratios.iter().map(|ratio| (ratio - mean).powi(2));
    let variance = squares.sum::<f64>() / count;
    assert!((mean - 2.0).abs() < 0.03, "{mean}");
    assert!((variance - 4.0).abs() < 0.06, "{variance}");
}
