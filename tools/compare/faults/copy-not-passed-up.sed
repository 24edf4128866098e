# coordination does not copy a resolved state into the domain above
/pub fn coordinate_state(/,/^    }/s/node\.set_non_cpu_state(child_index, state);/let _ = (child_index, state);/
