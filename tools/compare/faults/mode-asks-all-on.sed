# OS-initiated mode is entered only if all CPUs are On
s/|| self\.power_domain_tree\.is_last_cpu(Self::cpu_index())/|| false/
