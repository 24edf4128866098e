# a finish does not drop the entry
/fn cpu_suspend_start(/,/^    }/s/cpu\.pop_entry_point();/cpu.affinity_info();/
