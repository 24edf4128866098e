# above a level that comes out RUN the resolved state stays as asked
/pub fn coordinate_state(/,/^    }/s/\*state = PlatformPowerState::RUN;/let _ = \&state;/
