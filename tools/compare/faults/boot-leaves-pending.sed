# the boot of a pending CPU leaves it OnPending
/pub fn handle_cpu_boot/,/^    }/s/cpu\.set_affinity_info(AffinityInfo::On);/let _ = cpu.affinity_info();/
