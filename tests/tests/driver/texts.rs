//! Faults of text copy.

use super::{both, find, right, Behaviour, SHORT};
use cueledger_tests::case::Mismatch;
use cueledger_tests::model::{self, Pointer};
use cueledger_tests::store::{Answer, Call};

/// A text copy that the model has answered.
struct Text<'a> {
    image: &'a mut [u8],
    /// The image before.
    before: Vec<u8>,
    table: &'a [u64],
    target: u64,
    source: u64,
    /// Their addresses.
    to: usize,
    from: usize,
    answer: Answer,
    /// How many were copied.
    bytes: usize,
}

impl Text<'_> {
    /// The bytes from a pointer's address to its body's end, `count` at least, or the row.
    fn body(&self, pointer: u64, count: usize) -> Result<&[u8], u32> {
        let s = model::open(&self.before, self.table)?;
        model::body_from(&self.before, self.table, s, pointer, count as u64).map(|body| &self.before[body])
    }

    /// So many bytes copied after all, if the target has them; what was copied is taken back.
    fn instead(&mut self, count: usize) -> Answer {
        self.image.copy_from_slice(&self.before);
        match self.body(self.target, count) {
            Ok(_) => self.copy(count),
            Err(row) => Answer::new(row, []),
        }
    }

    fn copy(&mut self, count: usize) -> Answer {
        self.image.copy_within(self.from..self.from + count, self.to);
        Answer::new(0, [count as u64])
    }
}

/// The model, but for text copies with this refusal, or accepted ones with 0.
fn changed(image: &mut [u8], table: &mut [u64], call: Call<u64>, refusal: u32, change: fn(Text<'_>) -> Answer) -> Answer {
    let before = image.to_vec();
    match (call, right(image, table, call)) {
        (Call::CopyText { target, source }, answer) if answer.refusal == refusal => {
            let [to, from] = [target, source].map(|pointer| Pointer::unpack(pointer).address as usize);
            change(Text { image, before, table, target, source, to, from, answer, bytes: answer.values[0] as usize })
        }
        (_, answer) => answer,
    }
}

const WITHOUT_THE_ZERO_BYTE: Behaviour = |image, table, call| {
    changed(image, table, call, 0, |text| {
        let last = text.to + text.bytes - 1;
        text.image[last] = text.before[last];
        text.answer
    })
};

#[test]
fn without_the_zero_byte() {
    find(WITHOUT_THE_ZERO_BYTE);
}

#[test]
fn number_without_the_zero_byte() {
    let failure = find(|image, table, call| changed(image, table, call, 0, |text| Answer::new(0, [text.bytes as u64 - 1])));
    assert!(failure.case.steps.len() <= SHORT, "{failure}");
}

#[test]
fn with_a_byte_more() {
    find(|image, table, call| {
        changed(image, table, call, 0, |text| {
            let (to, from) = (text.to + text.bytes, text.from + text.bytes);
            if let (Some(byte), Some(&next)) = (text.image.get_mut(to), text.before.get(from)) {
                *byte = next;
            }
            text.answer
        })
    });
}

#[test]
fn that_clears_the_rest() {
    find(|image, table, call| {
        changed(image, table, call, 0, |text| {
            let rest = text.body(text.target, 1).unwrap().len();
            text.image[text.to + text.bytes..text.to + rest].fill(0);
            text.answer
        })
    });
}

#[test]
fn target_with_room_for_the_letters_alone() {
    find(|image, table, call| {
        changed(image, table, call, 13, |mut text| {
            let letters = text.body(text.source, 1).map(|body| body.iter().position(|&byte| byte == 0).unwrap());
            match letters {
                Ok(letters) if text.body(text.target, letters).is_ok() && text.to + letters < text.image.len() => text.copy(letters + 1),
                _ => text.answer,
            }
        })
    });
}

#[test]
fn target_with_room_for_no_more_than_the_first_byte() {
    find(|image, table, call| {
        changed(image, table, call, 13, |mut text| {
            let bytes = text.body(text.source, 1).map(|body| body.iter().position(|&byte| byte == 0).unwrap() + 1);
            match bytes {
                Ok(bytes) if text.body(text.target, 1).is_ok() && text.to + bytes <= text.image.len() => text.copy(bytes),
                _ => text.answer,
            }
        })
    });
}

#[test]
fn that_writes_what_has_room() {
    find(|image, table, call| {
        changed(image, table, call, 13, |text| {
            if let (Ok(source), Ok(target)) = (text.body(text.source, 1), text.body(text.target, 1)) {
                let bytes = source.len().min(target.len());
                text.image.copy_within(text.from..text.from + bytes, text.to);
            }
            text.answer
        })
    });
}

#[test]
fn search_behind_the_body() {
    find(|image, table, call| {
        changed(image, table, call, 20, |mut text| match text.before[text.from..].iter().position(|&byte| byte == 0) {
            Some(zero) => text.instead(zero + 1),
            None => text.answer,
        })
    });
}

#[test]
fn search_of_one_byte_behind_the_body() {
    find(|image, table, call| {
        changed(image, table, call, 20, |mut text| {
            let body = text.body(text.source, 1).unwrap().len();
            match text.before.get(text.from + body) {
                Some(0) => text.instead(body + 1),
                _ => text.answer,
            }
        })
    });
}

#[test]
fn search_without_the_last_byte() {
    find(|image, table, call| {
        changed(image, table, call, 0, |text| {
            if text.body(text.source, 1).unwrap().len() == text.bytes {
                text.image.copy_from_slice(&text.before);
                return Answer::new(20, []);
            }
            text.answer
        })
    });
}

#[test]
fn search_from_the_second_byte_on() {
    find(|image, table, call| {
        changed(image, table, call, 0, |mut text| {
            if text.bytes > 1 {
                return text.answer;
            }
            let next = text.body(text.source, 1).unwrap().iter().skip(1).position(|&byte| byte == 0);
            match next {
                Some(next) => text.instead(next + 2),
                None => {
                    text.image.copy_from_slice(&text.before);
                    Answer::new(20, [])
                }
            }
        })
    });
}

#[test]
fn search_for_the_last_zero_byte() {
    find(|image, table, call| {
        changed(image, table, call, 0, |mut text| {
            let last = text.body(text.source, 1).unwrap().iter().rposition(|&byte| byte == 0).unwrap();
            text.instead(last + 1)
        })
    });
}

#[test]
fn byte_by_byte_upwards() {
    find(|image, table, call| {
        changed(image, table, call, 0, |text| {
            text.image.copy_from_slice(&text.before);
            (0..text.bytes).for_each(|i| text.image[text.to + i] = text.image[text.from + i]);
            text.answer
        })
    });
}

#[test]
fn byte_by_byte_downwards() {
    find(|image, table, call| {
        changed(image, table, call, 0, |text| {
            text.image.copy_from_slice(&text.before);
            (0..text.bytes).rev().for_each(|i| text.image[text.to + i] = text.image[text.from + i]);
            text.answer
        })
    });
}

#[test]
fn until_a_zero_byte_was_copied() {
    // as strcpy does; where the target lies a little above, the zero byte is overwritten before it is read
    find(|image, table, call| {
        changed(image, table, call, 0, |text| {
            text.image.copy_from_slice(&text.before);
            let most = text.image.len() - text.to.max(text.from);
            let mut count = 0;
            while count < most {
                let byte = text.image[text.from + count];
                text.image[text.to + count] = byte;
                count += 1;
                if byte == 0 {
                    break;
                }
            }
            Answer::new(0, [count as u64])
        })
    });
}

#[test]
fn target_and_source_exchanged() {
    find(|image, table, call| match call {
        Call::CopyText { target, source } => right(image, table, Call::CopyText { target: source, source: target }),
        call => right(image, table, call),
    });
}

/// The target's row, if it has one for its first byte, before the source's.
fn target_first(text: Text<'_>) -> Answer {
    match text.body(text.target, 1) {
        Err(row) => Answer::new(row, []),
        Ok(_) => text.answer,
    }
}

#[test]
fn target_tested_before_20() {
    find(|image, table, call| changed(image, table, call, 20, target_first));
}

#[test]
fn target_tested_before_the_sources_10() {
    find(|image, table, call| changed(image, table, call, 10, target_first));
}

#[test]
fn target_tested_before_the_sources_11() {
    find(|image, table, call| changed(image, table, call, 11, target_first));
}

#[test]
fn target_tested_before_the_sources_13() {
    find(|image, table, call| changed(image, table, call, 13, target_first));
}

#[test]
fn no_byte_is_no_zero_byte() {
    // 20 where the source is directly behind its body
    find(|image, table, call| {
        changed(image, table, call, 13, |text| {
            let past = text.body(text.source, 1).is_err() && text.body(text.source.wrapping_sub(1), 1).is_ok();
            if past {
                Answer::new(20, [])
            } else {
                text.answer
            }
        })
    });
}

#[test]
fn thirteen_for_no_zero_byte() {
    find(|image, table, call| changed(image, table, call, 20, |_| Answer::new(13, [])));
}

#[test]
fn number_beside_a_refusal() {
    find(|image, table, call| changed(image, table, call, 13, |_| Answer::new(13, [1])));
}

#[test]
fn number_beside_20() {
    find(|image, table, call| changed(image, table, call, 20, |text| Answer::new(20, [text.body(text.source, 1).unwrap().len() as u64])));
}

#[test]
fn expected_store_that_writes_something_else() {
    let failure = both(WITHOUT_THE_ZERO_BYTE);
    assert!(failure.text.contains(&Mismatch::NotTheText.to_string()), "{failure}");
}
