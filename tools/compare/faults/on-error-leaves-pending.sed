# an on that the platform refuses leaves its target OnPending
/fn cpu_on(/,/^    }/s/cpu\.set_affinity_info(AffinityInfo::Off)/cpu.set_affinity_info(AffinityInfo::OnPending)/
