# is_last_cpu_to_idle is turned round
/pub fn is_last_cpu_to_idle($/,/^    }/s/!= PlatformPowerState::RUN/== PlatformPowerState::RUN/
