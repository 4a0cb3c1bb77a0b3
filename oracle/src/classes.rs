//! The smallest input of each class of differences that can be found from a seed.
use crate::envelopes::{self, Faults};
use crate::random::Random;
use crate::said::hex;
use crate::smallest::{simpler_bytes, simpler_streams, smallest};
use crate::streams::{self, Scale, Stream};
use crate::tally::Tally;
use crate::{judge_envelopes, judge_notations, judge_streams};
use std::collections::BTreeMap;

fn classes_of_bytes(bytes: &[u8]) -> Vec<String> {
    let mut tally = Tally::default();
    let judges = [
        judge_envelopes::parse,
        judge_envelopes::size,
        judge_notations::list,
        judge_notations::short_bytes,
        judge_notations::long_string,
    ];
    for judge in judges {
        let _ = judge(bytes, &mut tally);
    }
    tally.classes()
}

fn classes_of_stream(stream: &Stream, lent: &mut judge_streams::Lent) -> Vec<String> {
    let mut tally = Tally::default();
    let _ = judge_streams::judge(stream, lent, &mut tally);
    tally.classes()
}

pub fn print(seed: u64) -> Result<(), String> {
    let (mut random, mut lent) = (Random::new(seed), judge_streams::Lent::new());
    let (mut of_bytes, mut of_streams) = (BTreeMap::new(), BTreeMap::new());
    for k in 0..30_000 {
        let bytes = match k % 3 {
            0 => envelopes::envelope(&mut random, 20, Faults(6)),
            1 => envelopes::string_list(&mut random, Faults(6)),
            _ => random.bytes(6),
        };
        for class in classes_of_bytes(&bytes) {
            of_bytes.entry(class).or_insert(bytes.clone());
        }
        let stream = streams::stream(
            &mut random,
            Scale {
                segments: 3,
                body: 30,
            },
            Faults(10),
        );
        for class in classes_of_stream(&stream, &mut lent) {
            of_streams.entry(class).or_insert(stream.clone());
        }
    }
    for (class, bytes) in of_bytes {
        let least = smallest(
            bytes,
            |bytes| simpler_bytes(bytes),
            |bytes| classes_of_bytes(bytes).contains(&class),
        );
        println!("{class}: {}", hex(&least));
    }
    for (class, stream) in of_streams {
        let is_one = |stream: &Stream| {
            classes_of_stream(stream, &mut judge_streams::Lent::new()).contains(&class)
        };
        let least = smallest(stream, simpler_streams, is_one);
        println!(
            "{class}: {:?}, buffers {:?}, {}",
            least.form,
            least.sizes,
            hex(&least.bytes())
        );
    }
    Ok(())
}
