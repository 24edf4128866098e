# a suspend writes the level above the highest affected one
/let level_to_lock_to/,/};/s/^\( *\)highest_affected_level$/\1(highest_affected_level + 1).min(MAX_POWER_LEVEL)/
