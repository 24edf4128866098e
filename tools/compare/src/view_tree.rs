//! Appended to the copy of the tree file: its private fields, read and written, and the queries.

use super::*;

/// A power domain's fields. Requests and suspend states stand in the order of its CPUs, copies in that of its children.
#[derive(Clone, Debug, PartialEq, Eq)]
pub struct Domain {
    pub parent: Option<u8>,
    pub state: u8,
    pub cpus: Range<u8>,
    pub children: Range<u8>,
    pub requests: ArrayVec<u8, 16>,
    pub suspends: ArrayVec<Option<u8>, 16>,
    pub copies: ArrayVec<u8, 16>,
}

#[derive(Clone, Debug, PartialEq, Eq)]
pub struct Cpu {
    pub parent: u8,
    pub affinity: AffinityInfo,
    pub state: u8,
    pub entry: Option<EntryPoint>,
}

/// Every field of the tree.
#[derive(Clone, Debug, Default, PartialEq, Eq)]
pub struct Fields {
    pub domains: ArrayVec<Domain, 16>,
    pub cpus: ArrayVec<Cpu, 16>,
}

fn byte<S: PlatformPowerStateInterface>(state: S) -> u8 {
    let number: usize = state.into();
    number as u8
}

/// While no call runs, and while one waits, every node is unlocked.
fn unlocked<T>(node: &SpinMutex<T>) -> SpinMutexGuard<'_, T> {
    node.try_lock()
        .expect("a node is locked while no call runs")
}

impl<const C: usize, const D: usize, S: PlatformPowerStateInterface + From<u8>>
    NonCpuPowerNode<C, D, u8, S>
{
    fn fields(&self) -> Domain {
        Domain {
            parent: self.parent,
            state: byte(self.local_state),
            cpus: self.cpu_range.clone(),
            children: self.non_cpu_range.clone(),
            requests: self
                .requested_states
                .iter()
                .map(|&state| byte(state))
                .collect(),
            suspends: self
                .suspend_states
                .iter()
                .map(|state| state.map(byte))
                .collect(),
            copies: self
                .non_cpu_states
                .iter()
                .map(|&state| byte(state))
                .collect(),
        }
    }

    fn set_fields(&mut self, fields: &Domain) {
        self.parent = fields.parent;
        self.local_state = fields.state.into();
        self.cpu_range = fields.cpus.clone();
        self.non_cpu_range = fields.children.clone();
        self.requested_states = fields.requests.iter().map(|&state| state.into()).collect();
        self.suspend_states = fields
            .suspends
            .iter()
            .map(|state| state.map(S::from))
            .collect();
        self.non_cpu_states = fields.copies.iter().map(|&state| state.into()).collect();
    }
}

impl<S: PlatformPowerStateInterface + From<u8>> CpuPowerNode<u8, S> {
    fn fields(&self) -> Cpu {
        Cpu {
            parent: self.parent,
            affinity: self.affinity_info,
            state: byte(self.local_state),
            entry: self.entry_point,
        }
    }

    fn set_fields(&mut self, fields: &Cpu) {
        self.parent = fields.parent;
        self.affinity_info = fields.affinity;
        self.local_state = fields.state.into();
        self.entry_point = fields.entry;
    }
}

impl<const C: usize, const D: usize, const MAX: usize, S: PlatformPowerStateInterface + From<u8>>
    PowerDomainTree<C, D, MAX, u8, S>
{
    pub fn fields(&self) -> Fields {
        Fields {
            domains: self
                .non_cpu_power_nodes
                .iter()
                .map(|node| unlocked(node).fields())
                .collect(),
            cpus: self
                .cpu_power_nodes
                .iter()
                .map(|node| unlocked(node).fields())
                .collect(),
        }
    }

    /// The nodes stay as many as the topology made.
    pub fn set_fields(&self, fields: &Fields) {
        for (node, domain) in self.non_cpu_power_nodes.iter().zip(&fields.domains) {
            unlocked(node).set_fields(domain);
        }
        for (node, cpu) in self.cpu_power_nodes.iter().zip(&fields.cpus) {
            unlocked(node).set_fields(cpu);
        }
    }

    pub fn last_to_idle(&self, cpu: u8, level: usize) -> bool {
        self.with_ancestors_locked(&mut self.locked_cpu_node(cpu), |_, ancestors| {
            ancestors.is_last_cpu_to_idle_at_power_level(cpu, level)
        })
    }

    pub fn allowed(&self, domain: usize, cpu: u8, child: Option<u8>) -> u8 {
        byte(
            self.non_cpu_power_nodes[domain]
                .lock()
                .get_osi_minimal_allowed_state_without_core(cpu, child),
        )
    }
}
