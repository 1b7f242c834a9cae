//! Each value of each element of a PDU.

use differential::*;
use reference::layout::{record as at, RECORD_WORDS};
use reference::Refusal;

use crate::calls::Calls;

impl Calls {
    /// A legal record with each value of each of its elements, read, captured and written.
    pub fn each_value(&mut self, rng: &mut Rng, words: &Record) {
        let (elements, pdu) = (elements(words), Pdu::of(words));
        assert!(joined(&elements) == pdu, "{:?}: the elements of another PDU", self.case);
        for element in &elements {
            self.values_read(rng, words, &pdu, element);
            if let Some(word) = element.word {
                self.values_written(rng, words, word, element);
            }
        }
    }

    fn values_read(&mut self, rng: &mut Rng, words: &Record, pdu: &Pdu, element: &Element) {
        let empty = [0, 0, 1, 0, 0];
        for value in element.values() {
            self.change += 1;
            let changed = pdu.with(element, value);
            let answer = self.read(rng, &changed, RECORD_WORDS);
            let day = day(rng);
            self.capture(rng, &empty, &changed, day.into(), HEADER + LINE + boc::PDU_BYTES);
            if element.reserves(value) {
                let stopped = answer.map_err(|refused| (refused.why, refused.place));
                assert_eq!(stopped, Err((Refusal::Value, Some(element.place))), "{}", element.said(value));
                self.meet_reserved("read", words, element, value);
            }
        }
    }

    fn values_written(&mut self, rng: &mut Rng, words: &Record, word: usize, element: &Element) {
        let too_wide = [1 << element.width(), 1 << 31 | element.value, u32::MAX];
        for value in element.values().chain(too_wide) {
            self.change += 1;
            let mut changed = *words;
            changed[word] = value;
            let answer = self.write(rng, &changed, boc::PDU_BYTES);
            if element.reserves(value) || too_wide.contains(&value) {
                assert_eq!(answer, Err(Refusal::Value), "{}", element.said(value));
            }
            if element.values().contains(&value) && element.reserves(value) {
                self.meet_reserved("write", words, element, value);
            }
        }
    }

    /// Counts a reserved value of an element, but for the SS type.
    fn meet_reserved(&mut self, call: &str, words: &Record, element: &Element, value: u32) {
        let form = Form::of(words[at::PDU_TYPE]).expect("it is a PDU type");
        match element.word {
            None => {}
            Some(at::PDU_TYPE) => self.met.meet(&format!("{call}, 3 for the PDU type"), value),
            Some(_) => self.met.meet(&format!("{call}, {}, 3", form.name), element.said(value)),
        }
    }
}
