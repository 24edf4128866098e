# an off leaves the affinity On
/fn cpu_off(&self)/,/^    }/s/set_affinity_info(AffinityInfo::Off)/set_affinity_info(AffinityInfo::On)/
