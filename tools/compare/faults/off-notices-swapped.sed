# an off notifies the SPM before it tells it
/fn cpu_off(&self)/,/^    }/{
/self\.forward_to_spm(Function::CpuOff);/{
N
s/\(.*\)\n\(.*\)/\2\n\1/
}
}
