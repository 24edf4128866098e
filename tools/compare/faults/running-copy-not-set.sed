# set_running does not set the child copies
/pub fn set_running/,/^    }/s/node\.set_non_cpu_state(child_index, PlatformPowerState::RUN);/let _ = child_index;/
