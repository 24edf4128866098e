//! What an event gives, as a reply's bytes.

use super::calls::Call;
use super::now::now;
use super::{By, NO_ANSWER, Outcome, queries};
use crate::layout::*;
use arm_psci::ErrorCode;
use firmware::services::psci::WakeUpReason;

/// What an event gives beside notices and the state after it.
pub struct Answer {
    pub code: u8,
    pub by: By,
    pub not_entered: bool,
    pub wake: Option<WakeUpReason>,
}

pub fn rust(code: u8) -> Answer {
    Answer {
        code,
        by: By::Rust,
        not_entered: false,
        wake: None,
    }
}

pub fn driver(code: u8) -> Answer {
    Answer {
        by: By::Driver,
        ..rust(code)
    }
}

pub fn error(code: ErrorCode) -> Answer {
    rust(code as i8 as u8)
}

impl Call<'_> {
    pub fn outcome(mut self, answer: Answer) -> Outcome {
        let image = self.oracle.image();
        let mut reply = queries::ask(self.oracle, &image, &mut self.notes);
        reply[reply::IMAGE..reply::ALL_ON].copy_from_slice(&image);
        reply[reply::CODE] = answer.code;
        reply[reply::NOT_ENTERED] = answer.not_entered.into();
        if let Some(reason) = answer.wake {
            let (wake, entry) = match reason {
                WakeUpReason::CpuOn(entry) => (1, entry),
                WakeUpReason::SuspendFinished(entry) => (2, entry),
            };
            reply[reply::WAKE] = wake;
            reply[reply::ENTRY] = 1;
            reply[reply::ENTRY + 1..][..8].copy_from_slice(&entry.address.to_le_bytes());
            reply[reply::ENTRY + 9..][..8].copy_from_slice(&entry.context.to_le_bytes());
        }
        if answer.by == By::Rust && answer.code != NO_ANSWER {
            self.gone_out(&mut reply);
        }
        Outcome {
            reply,
            by: answer.by,
            rules: self.notes.rules,
            broken: self.notes.broken,
        }
    }

    /// The notices in order, and the states that the platform was handed with the first of them that has any.
    fn gone_out(&mut self, reply: &mut Reply) {
        let notices = std::mem::take(&mut now().notices);
        if notices.len() > reply::NOTICE_COUNT {
            self.notes
                .breaks(format!("{} notices went out", notices.len()));
        }
        for (at, (kind, carried)) in notices.iter().take(reply::NOTICE_COUNT).enumerate() {
            let place = &mut reply[reply::NOTICES + at * reply::NOTICE..][..reply::NOTICE];
            place[0] = *kind;
            place[1..].copy_from_slice(carried);
        }
        const HANDED: [u8; 4] = [
            notice::PLATFORM_OFF,
            notice::PLATFORM_SUSPEND,
            notice::SUSPEND_FINISH,
            notice::ON_FINISH,
        ];
        if let Some((_, carried)) = notices.iter().find(|(kind, _)| HANDED.contains(kind)) {
            reply[reply::STATES..][..4].copy_from_slice(&carried[..4]);
        }
    }
}
