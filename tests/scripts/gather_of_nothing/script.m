a = gather();
