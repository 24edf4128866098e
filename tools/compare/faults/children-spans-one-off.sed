# a domain takes its children at one number more
/fn assign_non_cpu/,/^    }/s/self\.non_cpu_range = non_cpu_index\.\.non_cpu_index + 1\.into();/self.non_cpu_range = non_cpu_index..non_cpu_index + 2.into();/
