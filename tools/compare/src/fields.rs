//! The names of a reply's bytes.

use crate::layout::{reply::*, *};

/// A field: its name, and where its bytes stand.
pub struct Field {
    pub name: String,
    pub start: usize,
    pub width: usize,
}

fn field(name: String, start: usize, width: usize) -> Field {
    Field { name, start, width }
}

/// The field of a reply to which a byte belongs.
pub fn of_reply(offset: usize) -> Field {
    let byte = |name: String| field(name, offset, 1);
    match offset {
        CODE => byte("code".into()),
        NOT_ENTERED => byte("not entered".into()),
        WAKE => byte("wake reason".into()),
        ENTRY..STATES => of_entry("entry handed out", ENTRY, offset),
        STATES..NOTICES => byte(format!("state handed over at level {}", offset - STATES)),
        NOTICES..IMAGE => of_notice(offset),
        IMAGE..ALL_ON => {
            let inner = of_image(offset - IMAGE);
            field(
                format!("after: {}", inner.name),
                inner.start + IMAGE,
                inner.width,
            )
        }
        ALL_ON => byte("are_all_cpus_on".into()),
        IS_LAST..LAST_TO_IDLE => byte(format!("is_last_cpu of CPU {}", offset - IS_LAST)),
        LAST_TO_IDLE..ALLOWED => {
            let (cpu, level) = (
                (offset - LAST_TO_IDLE) / (LEVELS + 1),
                (offset - LAST_TO_IDLE) % (LEVELS + 1),
            );
            byte(format!(
                "is_last_cpu_to_idle_at_power_level of CPU {cpu} at level {level}"
            ))
        }
        ALLOWED..ALLOWED_BESIDE_CHILD => {
            let (domain, cpu) = ((offset - ALLOWED) / CPUS, (offset - ALLOWED) % CPUS);
            byte(format!(
                "minimal allowed state of domain {domain} without CPU {cpu}"
            ))
        }
        _ => {
            let from = offset - ALLOWED_BESIDE_CHILD;
            byte(format!(
                "minimal allowed state of the parent of domain {}, beside it and without CPU {}",
                from / CPUS,
                from % CPUS
            ))
        }
    }
}

fn of_entry(name: &str, start: usize, offset: usize) -> Field {
    match offset - start {
        0 => field(format!("{name}, whether"), start, 1),
        1..9 => field(format!("{name}, address"), start + 1, 8),
        _ => field(format!("{name}, context"), start + 9, 8),
    }
}

fn of_notice(offset: usize) -> Field {
    let number = (offset - NOTICES) / NOTICE;
    let start = NOTICES + number * NOTICE;
    if offset == start {
        field(format!("notice {number}, kind"), start, 1)
    } else {
        field(
            format!("notice {number}, what it carries"),
            start + 1,
            NOTICE - 1,
        )
    }
}

/// The field of a state to which a byte belongs.
pub fn of_image(offset: usize) -> Field {
    use image::*;
    let byte = |name: String| field(name, offset, 1);
    let by_level = |name: &str, start: usize| {
        let (level, cpu) = ((offset - start) / CPUS + 1, (offset - start) % CPUS);
        byte(format!("{name} of CPU {cpu} at level {level}"))
    };
    match offset {
        MAX => byte("MAX".into()),
        STATES => byte("count of states".into()),
        DOWN => byte("first power-down state".into()),
        PRIMARY => byte("primary".into()),
        TOPOLOGY..DOMAIN_COUNT => byte(format!("topology entry {}", offset - TOPOLOGY)),
        DOMAIN_COUNT => byte("count of domains".into()),
        CPU_COUNT => byte("count of CPUs".into()),
        PARENTS..CPU_STARTS => byte(format!("parent of domain {}", offset - PARENTS)),
        CPU_STARTS..CPU_ENDS => byte(format!(
            "start of the CPU span of domain {}",
            offset - CPU_STARTS
        )),
        CPU_ENDS..CHILD_STARTS => byte(format!(
            "end of the CPU span of domain {}",
            offset - CPU_ENDS
        )),
        CHILD_STARTS..CHILD_ENDS => byte(format!(
            "start of the child span of domain {}",
            offset - CHILD_STARTS
        )),
        CHILD_ENDS..CPU_ROW => byte(format!(
            "end of the child span of domain {}",
            offset - CHILD_ENDS
        )),
        CPU_ROW..DOMAIN_STATES => of_cpu(offset),
        DOMAIN_STATES..REQUESTS => byte(format!("state of domain {}", offset - DOMAIN_STATES)),
        REQUESTS..SUSPENDS => by_level("request", REQUESTS),
        SUSPENDS..COPIES => by_level("suspend state", SUSPENDS),
        COPIES..MODE => byte(format!("copy of domain {} in its parent", offset - COPIES)),
        _ => byte("mode".into()),
    }
}

fn of_cpu(offset: usize) -> Field {
    use image::*;
    let cpu = (offset - CPU_ROW) / CPU;
    let start = CPU_ROW + cpu * CPU;
    match offset - start {
        CPU_PARENT => field(format!("parent of CPU {cpu}"), offset, 1),
        CPU_AFFINITY => field(format!("affinity of CPU {cpu}"), offset, 1),
        CPU_STATE => field(format!("state of CPU {cpu}"), offset, 1),
        _ => of_entry(&format!("entry of CPU {cpu}"), start + CPU_HELD, offset),
    }
}
