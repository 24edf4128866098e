# above a level that comes out RUN the request is not stored
/pub fn coordinate_state(/,/^    }/s/node\.set_requested_power_state(cpu_index, \*state);/if !higher_levels_are_run { node.set_requested_power_state(cpu_index, *state); }/
