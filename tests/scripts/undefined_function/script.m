x = nosuch(1);
