# the minimal allowed state counts the CPU that is to be left out
/fn states($/,/^    }/s/index != skip/index != skip || true/
