//! What one side of a comparison answered, counted.

#[derive(Default)]
pub struct Side {
    pub accepted: u64,
    pub refused: u64,
    /// Answers that are neither: those of questions.
    pub asked: u64,
}

impl Side {
    pub fn count(&mut self, accepted: bool) {
        *(if accepted { &mut self.accepted } else { &mut self.refused }) += 1;
    }

    /// Counts a line by its first word.
    pub fn take(&mut self, line: &str) {
        match line.get(..3) {
            Some("ok ") => self.accepted += 1,
            Some("no ") => self.refused += 1,
            _ => self.asked += 1,
        }
    }

    pub fn answered(&self) -> u64 {
        self.accepted + self.refused + self.asked
    }

    pub fn say(&self, name: &str) {
        println!("{name}: answered {} = {} accepted + {} refused", self.answered(), self.accepted, self.refused);
    }

    /// The last line of `made`, which is asked nothing.
    pub fn frames(&self) -> String {
        format!("frames {} ok {} no {}", self.answered(), self.accepted, self.refused)
    }

    /// The last line of `answers`.
    pub fn frames_and_asked(&self) -> String {
        format!("{} asked {}", self.frames(), self.asked)
    }
}
