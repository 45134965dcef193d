x = nosuch(undef);
