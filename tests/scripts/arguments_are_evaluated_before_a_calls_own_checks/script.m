x = mod(undef);
