# the minimal allowed state does not look at suspend states
s/acc\.min(suspend_state\.unwrap_or(PlatformPowerState::RUN))/acc.min(PlatformPowerState::RUN)/
