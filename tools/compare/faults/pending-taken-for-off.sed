# is_last_cpu takes a CPU that is OnPending for one that is off
/pub fn is_last_cpu(&self/,/^    }/s/affinity_info() == AffinityInfo::Off/affinity_info() != AffinityInfo::On/
