# a finish hands over the states that the suspend resolved
/fn cpu_suspend_start(/,/^    }/s/composite_state\.set_local_states_from_nodes(cpu, &ancestors);/let _ = \&ancestors;/
