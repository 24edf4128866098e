# the core is powered down with the lowest power-down level
/pub fn find_highest_power_down_level/,/^    }/s/rposition/position/
