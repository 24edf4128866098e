# a domain takes the maximum of its requests
s/requested_states\.iter()\.min()/requested_states.iter().max()/
