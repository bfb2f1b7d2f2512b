//! `reed_read`.

use second::seed::Rng;
use second::ReadAnswer;

use crate::call::{Answer, Call, Difference};
#[cfg(target_arch = "x86_64")]
use crate::engine::linked;
use crate::guarded::{Area, Guarded};

type Reader = fn(&[u8], &mut [u32], &mut [u32], &mut [u32]) -> ReadAnswer;

#[derive(Clone, PartialEq, Eq)]
pub struct Read {
    file: Guarded<u8>,
    left: Guarded<u32>,
    right: Guarded<u32>,
    subject: Guarded<u32>,
}

impl Read {
    /// A call on this file, with tables of these lengths full of noise.
    pub fn new(rng: &mut Rng, file: &[u8], lent: [usize; 3]) -> Read {
        // No reader writes more words than there are in the file.
        let reach = file.len() / 4;
        let [left, right, subject] = lent.map(|length| Guarded::noise(rng, length, reach));
        Read { file: Guarded::holding(rng, file), left, right, subject }
    }

    fn make(&mut self, read: Reader) -> Answer {
        let tables = (self.left.part_mut(), self.right.part_mut(), self.subject.part_mut());
        let answer = read(self.file.part(), tables.0, tables.1, tables.2);
        [answer.number, answer.left, answer.right, answer.subject, 0]
    }
}

impl Call for Read {
    const NUMBER: u32 = 1;

    fn areas(&mut self) -> Vec<&mut dyn Area> {
        vec![&mut self.file, &mut self.left, &mut self.right, &mut self.subject]
    }

    #[cfg(target_arch = "x86_64")]
    fn make_linked(&mut self) -> Answer {
        self.make(linked::read)
    }

    fn make_second(&mut self) -> Answer {
        self.make(second::read)
    }

    fn differences(&self, expected: &Read) -> Vec<Difference> {
        vec![
            ("left", self.left.difference(&expected.left)),
            ("right", self.right.difference(&expected.right)),
            ("subject", self.subject.difference(&expected.subject)),
            ("file", self.file.difference(&expected.file)),
        ]
    }
}
